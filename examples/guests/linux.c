/*
 * What picolibc needs of its system, by Linux's calls for 32-bit RISC-V: the number in a7, the arguments in a0 to a5, the result in a0,
 * errors as -1 to -4,095 (syscall(2)). And the standard streams: output is written at each newline, or where the buffer is full.
 *
 * The linker leaves out what a program doesn't use. Where varan and Linux have a call for a function, that one is made. Where varan has none, the function
 * does it by others, or answers as a system would that keeps no modes, owners, times and signals. Nothing here needs more of the C library than errno, so
 * that a guest is laid out the same with and without what it doesn't use.
 */
#include "linux.h"
#include "unix.h"
#include <errno.h>
#include <fcntl.h>
#include <signal.h>
#include <stdint.h>
#include <stdio.h>
#include <stdlib.h>
#include <sys/time.h>
#include <sys/times.h>
#include <sys/types.h>
#include <time.h>
#include <unistd.h>

enum { IOCTL = 29, UNLINKAT = 35, OPENAT = 56, CLOSE = 57, LLSEEK = 62, READ = 63, WRITE = 64, EXIT_GROUP = 94, KILL = 129, GETPID = 172 };
enum { BRK = 214, RENAMEAT2 = 276, CLOCK_GETTIME64 = 403 };

/* Linux's number for the working directory, its flags of openat and its numbers of errors, where picolibc's differ; and numbers that picolibc hasn't. */
enum { LINUX_AT_FDCWD = -100, LINUX_TCGETS = 0x5401, LINUX_CLOCK_REALTIME = 0, LINUX_CLOCK_MONOTONIC = 1 };
enum { LINUX_O_CREAT = 0x40, LINUX_O_EXCL = 0x80, LINUX_O_TRUNC = 0x200, LINUX_O_APPEND = 0x400 };
enum { LINUX_ENAMETOOLONG = 36, LINUX_ENOSYS = 38 };

long call(long number, long first, long second, long third, long fourth, long fifth)
{
    register long a0 __asm__("a0") = first;
    register long a1 __asm__("a1") = second;
    register long a2 __asm__("a2") = third;
    register long a3 __asm__("a3") = fourth;
    register long a4 __asm__("a4") = fifth;
    register long a7 __asm__("a7") = number;
    __asm__ volatile("ecall" : "+r"(a0) : "r"(a1), "r"(a2), "r"(a3), "r"(a4), "r"(a7) : "memory");
    return a0;
}

/* The result of a call as C has it. */
static long answer(long result)
{
    if (result >= 0 || result < -4095)
        return result;
    errno = result == -LINUX_ENAMETOOLONG ? ENAMETOOLONG : result == -LINUX_ENOSYS ? ENOSYS : -result;
    return -1;
}

int open(const char *path, int flags, ...)
{
    long wanted = flags & O_ACCMODE;
    wanted |= flags & O_CREAT ? LINUX_O_CREAT : 0;
    wanted |= flags & O_EXCL ? LINUX_O_EXCL : 0;
    wanted |= flags & O_TRUNC ? LINUX_O_TRUNC : 0;
    wanted |= flags & O_APPEND ? LINUX_O_APPEND : 0;
    return answer(call(OPENAT, LINUX_AT_FDCWD, (long)path, wanted, 0644, 0));
}

int close(int fd)
{
    return answer(call(CLOSE, fd, 0, 0, 0, 0));
}

int unlink(const char *path)
{
    return answer(call(UNLINKAT, LINUX_AT_FDCWD, (long)path, 0, 0, 0));
}

ssize_t read(int fd, void *buffer, size_t count)
{
    return answer(call(READ, fd, (long)buffer, count, 0, 0));
}

/* varan takes 4,096 bytes a call at most, and answers how many it took. */
ssize_t write(int fd, const void *buffer, size_t count)
{
    return answer(call(WRITE, fd, (long)buffer, count, 0, 0));
}

off_t lseek(int fd, off_t offset, int whence)
{
    int64_t place;
    long result = answer(call(LLSEEK, fd, (int64_t)offset >> 32, offset, (long)&place, whence));
    return result < 0 ? -1 : place;
}

/* The heap begins where the break is at the start, and ends where the break is now. */
void *sbrk(ptrdiff_t bytes)
{
    static char *end;
    if (end == NULL)
        end = (char *)call(BRK, 0, 0, 0, 0, 0);
    char *old = end;
    if ((char *)call(BRK, (long)(old + bytes), 0, 0, 0, 0) != old + bytes) {
        errno = ENOMEM;
        return (void *)-1;
    }
    end = old + bytes;
    return old;
}

/* ---- the standard streams */

/* A stream of a descriptor, with bytes that aren't written yet, or that are read and not taken. */
struct stream {
    FILE file;
    int fd;
    unsigned next, end;
    char bytes[128];
};

static int flush(FILE *file)
{
    struct stream *to = (struct stream *)file;
    unsigned done = 0;
    while (done < to->end) {
        ssize_t count = write(to->fd, to->bytes + done, to->end - done);
        if (count <= 0)
            break;
        done += count;
    }
    int result = done < to->end ? EOF : 0;
    to->end = 0;
    return result;
}

static int put(char byte, FILE *file)
{
    struct stream *to = (struct stream *)file;
    to->bytes[to->end++] = byte;
    return byte == '\n' || to->end == sizeof to->bytes ? flush(file) : 0;
}

static int get(FILE *file)
{
    struct stream *from = (struct stream *)file;
    if (from->next == from->end) {
        ssize_t count = read(from->fd, from->bytes, sizeof from->bytes);
        from->next = 0;
        from->end = count > 0 ? count : 0;
        if (count <= 0)
            return count < 0 ? _FDEV_ERR : _FDEV_EOF;
    }
    return (unsigned char)from->bytes[from->next++];
}

static struct stream input = {.file = FDEV_SETUP_STREAM(NULL, get, NULL, _FDEV_SETUP_READ), .fd = STDIN_FILENO};
static struct stream output = {.file = FDEV_SETUP_STREAM(put, NULL, flush, _FDEV_SETUP_WRITE), .fd = STDOUT_FILENO};
static struct stream errors = {.file = FDEV_SETUP_STREAM(put, NULL, flush, _FDEV_SETUP_WRITE), .fd = STDERR_FILENO};

FILE *const stdin = &input.file;
FILE *const stdout = &output.file;
FILE *const stderr = &errors.file;

void _exit(int status)
{
    flush(stdout);
    flush(stderr);
    for (;;)
        call(EXIT_GROUP, status, 0, 0, 0, 0);
}

/* ---- time */

/* The 64 bits of the nanoseconds are two words, of which the upper one is 0. */
struct time64 {
    int64_t seconds;
    int32_t nanoseconds, upper;
};

int gettimeofday(struct timeval *now, void *zone)
{
    (void)zone;
    struct time64 time;
    if (answer(call(CLOCK_GETTIME64, LINUX_CLOCK_REALTIME, (long)&time, 0, 0, 0)) < 0)
        return -1;
    now->tv_sec = time.seconds;
    now->tv_usec = time.nanoseconds / 1000;
    return 0;
}

/* varan has no clock of a process: the time that went by stands for it. */
clock_t times(struct tms *used)
{
    struct time64 time;
    if (answer(call(CLOCK_GETTIME64, LINUX_CLOCK_MONOTONIC, (long)&time, 0, 0, 0)) < 0)
        return -1;
    clock_t ticks = time.seconds * CLOCKS_PER_SEC + time.nanoseconds / (1000000000 / CLOCKS_PER_SEC);
    *used = (struct tms){.tms_utime = ticks};
    return ticks;
}

/* ---- files */

/* What can be opened is a file of 0644 with one name; its size is where its end is. */
int stat(const char *restrict path, struct stat *restrict about)
{
    int fd = open(path, O_RDONLY);
    if (fd < 0)
        return -1;
    off_t size = lseek(fd, 0, SEEK_END);
    close(fd);
    about->st_dev = about->st_ino = about->st_uid = about->st_gid = about->st_rdev = 0;
    about->st_mode = S_IFREG | 0644;
    about->st_nlink = 1;
    about->st_size = size < 0 ? 0 : size;
    about->st_atim.tv_sec = about->st_mtim.tv_sec = about->st_ctim.tv_sec = 0;
    about->st_atim.tv_nsec = about->st_mtim.tv_nsec = about->st_ctim.tv_nsec = 0;
    about->st_blksize = about->st_blocks = 0;
    return 0;
}

/* There are no links. */
int lstat(const char *restrict path, struct stat *restrict about)
{
    return stat(path, about);
}

int fchmod(int fd, mode_t mode)
{
    (void)fd;
    (void)mode;
    return 0;
}

int fchown(int fd, uid_t owner, gid_t group)
{
    (void)fd;
    (void)owner;
    (void)group;
    return 0;
}

int utime(const char *path, const struct utimbuf *times)
{
    (void)path;
    (void)times;
    return 0;
}

/* ENOSYS under varan. */
int rename(const char *old, const char *new)
{
    return answer(call(RENAMEAT2, LINUX_AT_FDCWD, (long)old, LINUX_AT_FDCWD, (long)new, 0));
}

/* A terminal is what answers TCGETS. */
int isatty(int fd)
{
    char settings[64];
    return answer(call(IOCTL, fd, LINUX_TCGETS, (long)settings, 0, 0)) == 0;
}

/* ---- processes */

int getpid(void)
{
    return call(GETPID, 0, 0, 0, 0, 0);
}

/* ENOSYS under varan. picolibc's raise comes here for a signal that nobody handles. */
int kill(int process, int signal)
{
    return answer(call(KILL, process, signal, 0, 0, 0));
}

/* ---- a program that gives itself up. picolibc's own ends by exit, with which a service is over; an EBREAK is a fault, after which the next version leads. */

/* A program may have one of its own. */
#define WEAK __attribute__((weak))

/* The handler of SIGABRT is called first, and may not come back. What the streams hold isn't written, as under Linux. */
WEAK void abort(void)
{
    void (*handler)(int) = signal(SIGABRT, SIG_DFL);
    if (handler != SIG_DFL && handler != SIG_IGN && handler != SIG_ERR)
        handler(SIGABRT);
    __builtin_trap();
}

/* A failed assert. Nothing is written: a call that no other version makes would end all that follow. The arguments are in a0 to a3. */
WEAK void __assert_func(const char *file, int line, const char *function, const char *expression)
{
    register const char *a0 __asm__("a0") = file;
    register int a1 __asm__("a1") = line;
    register const char *a2 __asm__("a2") = function;
    register const char *a3 __asm__("a3") = expression;
    __asm__ volatile("ebreak" : : "r"(a0), "r"(a1), "r"(a2), "r"(a3));
    __builtin_unreachable();
}
