/* Loaded before qemu's own C library, so that the program it runs finds the clock of the scripts, which stands still. */
#include <stdlib.h>
#include <time.h>

int clock_gettime(clockid_t clock, struct timespec *now)
{
    (void)clock;
    *now = (struct timespec){.tv_sec = atol(getenv("FIXED_CLOCK"))};
    return 0;
}
