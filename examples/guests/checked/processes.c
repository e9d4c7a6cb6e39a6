/*
 * Processes, for guests over libc. fork keeps the parent's memory until the child has ended, and returns twice (../libc/processes.c). The shadow is kept in the same way,
 * and nothing is looked at while the memory is copied.
 */
#ifdef CHECKED_LIBC
#include "checked.h"
#include <errno.h>

void *pages_at_end(unsigned long);
long unmap_pages(unsigned long, unsigned long);

WRAPPED(long, fork_process, void)
{
    const size_t size = CHECKED_MEMORY / 8 - MEMORY_START / 8;
    void *shadow = shadow_of(MEMORY_START), *kept = pages_at_end(size);
    if (kept == NULL)
        return -ENOMEM;
    __real_memcpy(kept, shadow, size);
    is_unlooked = 1;
    long child = __real_fork_process();
    is_unlooked = 0;
    if (child != 0) {
        __real_memcpy(shadow, kept, size);
        unmap_pages((unsigned long)kept, size);
    }
    return child;
}
WRAPPED(void, go_on_at, void *stack_end, void (*work)(void *), void *argument)
{
    is_unlooked = 1;
    __real_go_on_at(stack_end, work, argument);
}
#endif
