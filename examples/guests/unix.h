/* Functions of Unix that linux.c has and picolibc's headers leave out: `cc -include unix.h` puts them before every source of a program that needs them. */
#ifndef __ASSEMBLER__
#include <sys/stat.h>
#include <utime.h>

int lstat(const char *restrict path, struct stat *restrict about);
int utime(const char *path, const struct utimbuf *times);
#endif
