/* What the examples of libmicrohttpd wait for a key by, while a thread of the library serves: it waits for what never comes. */
#include <semaphore.h>

int wait_for_ever(void)
{
    sem_t never;
    sem_init(&never, 0, 0);
    return sem_wait(&never);
}
