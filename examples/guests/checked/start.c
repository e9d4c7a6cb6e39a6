/* The beginning of a checked guest: the compiler's constructors mark the ends of global objects, before main. */
#include "checked.h"
#include <string.h>

const char *stack_top;

#ifndef CHECKED_LIBC
/* picolibc's guests have no constructors but these; over libc the library calls them. */
typedef void constructor(void);
extern constructor *const __init_array_start[], *const __init_array_end[];
static void construct(void)
{
    for (constructor *const *it = __init_array_start; it < __init_array_end; it++)
        (*it)();
}
#else
static void construct(void)
{
}
#endif

int __real_main(int, char **, char **);
int __wrap_main(int count, char **words, char **environment)
{
    stack_top = FRAME;
    construct();
    /* The arguments may be where the shadow doesn't reach. */
    char *own[count + 1];
    for (int i = 0; i < count; i++) {
        size_t size = strlen(words[i]) + 1;
        own[i] = __real_memcpy(__builtin_alloca(size), words[i], size);
    }
    own[count] = NULL;
    return __real_main(count, own, environment);
}
