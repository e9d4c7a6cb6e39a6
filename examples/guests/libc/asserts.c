/*
 * A failed assert. The C library writes what failed on descriptor 2, and aborts. In the first process that is a call that no other version makes, which would end all that follow:
 * so nothing is written there, and at the EBREAK the arguments are in a0 to a3.
 */
#include "guest.h"
#include <assert.h>
#include <stdio.h>
#include <stdlib.h>

_Noreturn void __assert_fail(const char *expression, const char *file, int line, const char *function)
{
    if (!is_child()) {
        register const char *a0 __asm__("a0") = expression;
        register const char *a1 __asm__("a1") = file;
        register int a2 __asm__("a2") = line;
        register const char *a3 __asm__("a3") = function;
        __asm__ volatile("ebreak" : : "r"(a0), "r"(a1), "r"(a2), "r"(a3));
    }
    fprintf(stderr, "Assertion failed: %s (%s: %s: %d)\n", expression, file, function, line);
    abort();
}
