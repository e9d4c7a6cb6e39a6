/*
 * Sockets, and calls that wait for one of several descriptors or for a time, by Linux's calls for 32-bit RISC-V. picolibc declares some of them and has none.
 *
 * Under varan a poll is interrupted (EINTR) where nobody comes any more and nothing comes of what is polled. That is SIGTERM here: its handler is called, once;
 * where there is none, and the next time, the process ends.
 */
#include "linux.h"
#include <errno.h>
#include <fcntl.h>
#include <poll.h>
#include <signal.h>
#include <stdarg.h>
#include <stdint.h>
#include <string.h>
#include <sys/select.h>
#include <sys/socket.h>
#include <time.h>
#include <unistd.h>
#include "long_polls.h"

enum { FCNTL64 = 25, SOCKET = 198, BIND = 200, LISTEN = 201, ACCEPT = 202, SETSOCKOPT = 208, ACCEPT4 = 242, CLOCK_NANOSLEEP64 = 407 };
enum { PSELECT6_64 = 413, PPOLL64 = 414 };
enum { LINUX_O_APPEND = 0x400, LINUX_O_NONBLOCK = 0x800, LINUX_ENOSYS = 38, LINUX_CLOCK_MONOTONIC = 1 };
enum { SET_SIZE = 8, MILLION = 1000000 };

/* The 64 bits of the nanoseconds are two words, of which the upper one is 0. */
struct time64 {
    int64_t seconds;
    int32_t nanoseconds, upper;
};

static long answer(long result)
{
    if (result >= 0 || result < -4095)
        return result;
    errno = result == -LINUX_ENOSYS ? ENOSYS : -result;
    return -1;
}

/* ---- sockets */

int socket(int domain, int type, int protocol)
{
    return answer(call(SOCKET, domain, type, protocol, 0, 0));
}

int bind(int fd, const struct sockaddr *address, socklen_t length)
{
    return answer(call(BIND, fd, (long)address, length, 0, 0));
}

int listen(int fd, int backlog)
{
    return answer(call(LISTEN, fd, backlog, 0, 0, 0));
}

int accept(int fd, struct sockaddr *restrict peer, socklen_t *restrict length)
{
    return answer(call(ACCEPT, fd, (long)peer, (long)length, 0, 0));
}

int accept4(int fd, struct sockaddr *restrict peer, socklen_t *restrict length, int flags)
{
    return answer(call(ACCEPT4, fd, (long)peer, (long)length, flags, 0));
}

/* ENOSYS under varan. */
int setsockopt(int fd, int level, int name, const void *value, socklen_t length)
{
    return answer(call(SETSOCKOPT, fd, level, name, (long)value, length));
}

/* ---- descriptors */

static int from_linux(long flags)
{
    return (flags & O_ACCMODE) | (flags & LINUX_O_APPEND ? O_APPEND : 0) | (flags & LINUX_O_NONBLOCK ? O_NONBLOCK : 0);
}

static long to_linux(int flags)
{
    return (flags & O_ACCMODE) | (flags & O_APPEND ? LINUX_O_APPEND : 0) | (flags & O_NONBLOCK ? LINUX_O_NONBLOCK : 0);
}

int fcntl(int fd, int command, ...)
{
    va_list arguments;
    va_start(arguments, command);
    long argument = va_arg(arguments, long);
    va_end(arguments);
    long result = answer(call(FCNTL64, fd, command, command == F_SETFL ? to_linux(argument) : argument, 0, 0));
    return command == F_GETFL && result >= 0 ? from_linux(result) : result;
}

/* ---- waits */

static void end_of_service(void)
{
    static int is_told;
    void (*handler)(int) = signal(SIGTERM, SIG_DFL);
    if (is_told || handler == SIG_DFL || handler == SIG_IGN)
        _exit(0);
    is_told = 1;
    signal(SIGTERM, handler);
    raise(SIGTERM);
}

/* What Linux writes on a call that a signal interrupts comes after the handler. */
static long interrupted(long result)
{
    if (result == -EINTR)
        end_of_service();
    return answer(result);
}

/* Without a mask of signals, which is the sixth argument. */
static long pselect6(long most, void *readable, void *writable, void *special, const void *timeout)
{
    register long a0 __asm__("a0") = most;
    register void *a1 __asm__("a1") = readable;
    register void *a2 __asm__("a2") = writable;
    register void *a3 __asm__("a3") = special;
    register const void *a4 __asm__("a4") = timeout;
    register long a5 __asm__("a5") = 0;
    register long a7 __asm__("a7") = PSELECT6_64;
    __asm__ volatile("ecall" : "+r"(a0) : "r"(a1), "r"(a2), "r"(a3), "r"(a4), "r"(a5), "r"(a7) : "memory");
    return a0;
}

static long select_by(struct selected *sets, const void *timeout)
{
    return pselect6(sets->most, sets->readable, sets->writable, sets->special, timeout);
}

static long poll_now(struct pollfd *asked, long count)
{
    struct time64 nothing = {0};
    return call(PPOLL64, (long)asked, count, (long)&nothing, 0, SET_SIZE);
}

int ppoll(struct pollfd *polled, nfds_t count, const struct timespec *timeout, const sigset_t *mask)
{
    (void)mask;
    struct time64 time = timeout ? (struct time64){timeout->tv_sec, timeout->tv_nsec, 0} : (struct time64){0}, *given = timeout ? &time : NULL;
    return interrupted(count > MOST_POLLED ? poll_long(polled, count, given) : call(PPOLL64, (long)polled, count, (long)given, 0, SET_SIZE));
}

int poll(struct pollfd *polled, nfds_t count, int milliseconds)
{
    struct timespec time = {milliseconds / 1000, milliseconds % 1000 * MILLION};
    return ppoll(polled, count, milliseconds < 0 ? NULL : &time, NULL);
}

int select(int most, fd_set *readable, fd_set *writable, fd_set *special, struct timeval *timeout)
{
    struct time64 time = timeout ? (struct time64){timeout->tv_sec, timeout->tv_usec * 1000, 0} : (struct time64){0};
    return interrupted(pselect6(most, readable, writable, special, timeout ? &time : NULL));
}

int nanosleep(const struct timespec *time, struct timespec *left)
{
    struct time64 wanted = {time->tv_sec, time->tv_nsec, 0};
    if (left)
        *left = (struct timespec){0};
    return answer(call(CLOCK_NANOSLEEP64, LINUX_CLOCK_MONOTONIC, 0, (long)&wanted, 0, 0));
}

int usleep(useconds_t microseconds)
{
    struct timespec time = {microseconds / MILLION, microseconds % MILLION * 1000};
    return nanosleep(&time, NULL);
}

unsigned sleep(unsigned seconds)
{
    struct timespec time = {seconds, 0};
    return nanosleep(&time, NULL) == 0 ? 0 : seconds;
}
