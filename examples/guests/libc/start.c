/* What the C library finds where it begins: the arguments, no environment, and an auxiliary vector, the same in every version. */
#include "guest.h"
#include <elf.h>

int main(int, char **, char **);
int __libc_start_main(int (*)(int, char **, char **), int, char **, void (*)(void), void (*)(void), void (*)(void));
extern const Elf32_Ehdr __ehdr_start;
void _start(void);

enum { MOST_ARGUMENTS = 260, AUXILIARY = 32, PAGE = 4096, USER = 1000 };

static const unsigned char random_bytes[16] = "sixteen of these";
/* the number of the arguments, their addresses, 0, the environment's end, the auxiliary vector */
static long words[1 + MOST_ARGUMENTS + 2 + AUXILIARY];

_Noreturn void start_program(const long *given)
{
    const long auxiliary[] = {
        AT_PHDR, (long)&__ehdr_start + __ehdr_start.e_phoff,
        AT_PHENT, __ehdr_start.e_phentsize,
        AT_PHNUM, __ehdr_start.e_phnum,
        AT_PAGESZ, PAGE,
        AT_BASE, 0,
        AT_FLAGS, 0,
        AT_ENTRY, (long)_start,
        AT_UID, USER, AT_EUID, USER, AT_GID, USER, AT_EGID, USER,
        AT_HWCAP, 0,
        AT_CLKTCK, 100,
        AT_SECURE, 0,
        AT_RANDOM, (long)random_bytes,
        AT_NULL, 0,
    };
    _Static_assert(sizeof auxiliary <= AUXILIARY * sizeof(long), "the auxiliary vector has room");
    long count = given[0] < MOST_ARGUMENTS ? given[0] : MOST_ARGUMENTS;
    long *next = words;
    *next++ = count;
    for (long i = 0; i < count; i++)
        *next++ = given[1 + i];
    *next++ = 0;
    *next++ = 0;
    for (size_t i = 0; i < sizeof auxiliary / sizeof *auxiliary; i++)
        *next++ = auxiliary[i];
    __libc_start_main(main, count, (char **)(words + 1), 0, 0, 0);
    __builtin_unreachable();
}
