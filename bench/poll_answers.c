/*
 * What ppoll, pselect6, fcntl, clock_nanosleep and calls that never wait answer, to be compared between varan and Linux (bench/poll_answers.py): built for 32-bit
 * RISC-V and for the host. Each line that it writes has what was done and what it gave. The first argument is the port that it serves. Its client sends "abcdef" once it got a byte,
 * and no more once it got another. On its input "hello" and a newline come.
 */
#include <stdint.h>
#include <stdio.h>
#include <stdlib.h>

enum { FCNTL = 25, OPENAT = 56, CLOSE = 57, PIPE2 = 59, READ = 63, WRITE = 64, READV = 65, SOCKET = 198, BIND = 200, LISTEN = 201, ACCEPT = 202 };
enum { ACCEPT4 = 242, CLOCK_GETTIME = 403, SLEEP = 407, PSELECT6 = 413, PPOLL = 414 };
enum { IN = 1, OUT = 4, SENT_ALL = 0x2000, ALL = 0x23c7, NONBLOCK = 0x800, CREATE = 0x42, APPEND = 0x400, CLOEXEC = 1, MOST = 408, SET = 32 };
enum { GETFD = 1, SETFD = 2, GETFL = 3, SETFL = 4, SETPIPE_SIZE = 1031 };

#ifdef __riscv
#include "../examples/guests/linux.h"

/* pselect6 has a sixth argument, the mask of signals: 0, none. */
static long pselect6(long most, void *readable, void *writable, void *special, void *time)
{
    register long a0 __asm__("a0") = most;
    register void *a1 __asm__("a1") = readable;
    register void *a2 __asm__("a2") = writable;
    register void *a3 __asm__("a3") = special;
    register void *a4 __asm__("a4") = time;
    register long a5 __asm__("a5") = 0;
    register long a7 __asm__("a7") = PSELECT6;
    __asm__ volatile("ecall" : "+r"(a0) : "r"(a1), "r"(a2), "r"(a3), "r"(a4), "r"(a5), "r"(a7) : "memory");
    return a0;
}
#else
#include <errno.h>
#include <sys/syscall.h>
#include <unistd.h>

/* The host's number for one of RISC-V. */
static long host_number(long number)
{
    static const short numbers[][2] = {
        {FCNTL, SYS_fcntl}, {OPENAT, SYS_openat}, {CLOSE, SYS_close}, {PIPE2, SYS_pipe2}, {READ, SYS_read}, {WRITE, SYS_write}, {READV, SYS_readv}, {SOCKET, SYS_socket},
        {BIND, SYS_bind}, {LISTEN, SYS_listen}, {ACCEPT, SYS_accept}, {ACCEPT4, SYS_accept4}, {CLOCK_GETTIME, SYS_clock_gettime}, {SLEEP, SYS_clock_nanosleep}, {PPOLL, SYS_ppoll}};
    size_t i = 0;
    while (numbers[i][0] != number)
        i++;
    return numbers[i][1];
}

static long call(long number, long first, long second, long third, long fourth, long fifth)
{
    long result = syscall(host_number(number), first, second, third, fourth, fifth);
    return result < 0 ? -errno : result;
}

static long pselect6(int most, void *readable, void *writable, void *special, void *time)
{
    long result = syscall(SYS_pselect6, most, readable, writable, special, time, NULL);
    return result < 0 ? -errno : result;
}
#endif

struct polled {
    int32_t fd;
    uint16_t events, told;
};

struct time {
    int64_t seconds, nanos;
};

struct part {
    char *start;
    size_t size;
};

static struct polled list[MOST + 1];
static struct time nothing, soon = {0, 10000000};
static char page[4096];

static long tell(const char *what, long gave)
{
    printf("%s: %ld\n", what, gave);
    return gave;
}

static long poll(void *polled, long count, void *time)
{
    return call(PPOLL, (long)polled, count, (long)time, 0, 8);
}

/* Whether this number is in a set. */
static int is_in(const uint32_t *set, long fd)
{
    return set[fd / 32] >> fd % 32 & 1;
}

/* Selects it to be readable, writable and in a special state. */
static void ask_select(const char *what, long fd)
{
    uint32_t sets[3][SET] = {0};
    for (int i = 0; i < 3; i++)
        sets[i][fd / 32] = 1u << fd % 32;
    long gave = pselect6(fd + 1, sets[0], sets[1], sets[2], &nothing);
    printf("%s, selected: %ld, left in %d%d%d\n", what, gave, is_in(sets[0], fd), is_in(sets[1], fd), is_in(sets[2], fd));
}

/* Asks for everything, for bytes, and for nothing; and by select. */
static void ask(const char *what, long fd)
{
    static const uint16_t events[] = {ALL, IN, 0};
    for (int i = 0; i < 3; i++) {
        struct polled polled = {fd, events[i], 0x7777};
        long gave = poll(&polled, 1, &nothing);
        printf("%s, asked for %x: %ld, told %x\n", what, events[i], gave, polled.told);
    }
    if (fd >= 0)
        ask_select(what, fd);
}

static void wait_for(long fd, uint16_t events)
{
    struct polled polled = {fd, events, 0};
    poll(&polled, 1, NULL);
}

static void files(void)
{
    ask("a number that isn't open", 63);
    ask("-1", -1);
    ask("-2147483648", -2147483647 - 1);
    ask("a file", call(OPENAT, -100, (long)"poll_answers", CREATE, 0600, 0));
    ask("a file that is read", call(OPENAT, -100, (long)"poll_answers", 0, 0, 0));
    ask("a file that is written", call(OPENAT, -100, (long)"poll_answers", 1, 0, 0));
}

static void input(void)
{
    char bytes[8];
    wait_for(0, IN);
    ask("the input with bytes", 0);
    tell("read of 2 bytes of it", call(READ, 0, (long)bytes, 2, 0, 0));
    ask("the input with fewer bytes", 0);
    tell("read of the rest", call(READ, 0, (long)bytes, 8, 0, 0));
    wait_for(0, 0);
    ask("the input at its end", 0);
    tell("read at its end", call(READ, 0, (long)bytes, 8, 0, 0));
}

static void pipes(void)
{
    int ends[2];
    char byte;
    call(PIPE2, (long)ends, NONBLOCK, 0, 0, 0);
    ask("a pipe's reading end", ends[0]);
    ask("a pipe's writing end", ends[1]);
    call(WRITE, ends[1], (long)"x", 1, 0, 0);
    ask("a reading end with a byte", ends[0]);
    call(CLOSE, ends[1], 0, 0, 0, 0);
    ask("a reading end with a byte, and no writing end", ends[0]);
    call(READ, ends[0], (long)&byte, 1, 0, 0);
    ask("a reading end without a byte, and no writing end", ends[0]);
    call(PIPE2, (long)ends, NONBLOCK, 0, 0, 0);
    call(CLOSE, ends[0], 0, 0, 0, 0);
    ask("a writing end, and no reading end", ends[1]);
    call(PIPE2, (long)ends, NONBLOCK, 0, 0, 0);
    call(FCNTL, ends[1], SETPIPE_SIZE, 4096, 0, 0);
    call(WRITE, ends[1], (long)page, 4096, 0, 0);
    ask("a writing end of a full pipe", ends[1]);
    call(READ, ends[0], (long)&byte, 1, 0, 0);
    ask("a writing end of a pipe of 4,095 bytes", ends[1]);
    tell("F_GETFL of a reading end", call(FCNTL, ends[0], GETFL, 0, 0, 0));
    tell("F_GETFL of a writing end", call(FCNTL, ends[1], GETFL, 0, 0, 0));
}

static void sockets(int port)
{
    unsigned char address[16] = {2, 0, port >> 8, port, 127, 0, 0, 1};
    char bytes[16];
    struct part parts[] = {{bytes, 2}, {bytes + 2, 2}};
    long listener = call(SOCKET, 2, 1 | NONBLOCK, 0, 0, 0);
    ask("a fresh socket", listener);
    call(BIND, listener, (long)address, sizeof address, 0, 0);
    ask("a bound socket", listener);
    call(LISTEN, listener, 8, 0, 0, 0);
    ask("one that listens", listener);
    tell("accept4, nobody being there", call(ACCEPT4, listener, 0, 0, 0, 0));
    tell("accept, nobody being there", call(ACCEPT, listener, 0, 0, 0, 0));
    wait_for(listener, IN);
    ask("one that listens, with a client", listener);
    long client = call(ACCEPT4, listener, 0, 0, NONBLOCK, 0);
    ask("one that listens, its client accepted", listener);
    ask("a connection", client);
    tell("read of it", call(READ, client, (long)bytes, sizeof bytes, 0, 0));
    tell("readv of it", call(READV, client, (long)parts, 2, 0, 0));
    tell("read of no byte", call(READ, client, (long)bytes, 0, 0, 0));
    tell("F_SETFL without O_NONBLOCK", call(FCNTL, client, SETFL, 2, 0, 0));
    tell("F_GETFL", call(FCNTL, client, GETFL, 0, 0, 0));
    call(WRITE, client, (long)"a", 1, 0, 0);
    tell("read of 1, for which it waits", call(READ, client, (long)bytes, 1, 0, 0));
    tell("F_SETFL with O_NONBLOCK", call(FCNTL, client, SETFL, 2 | NONBLOCK, 0, 0));
    ask("a connection with bytes", client);
    tell("readv of 4", call(READV, client, (long)parts, 2, 0, 0));
    tell("read of 16", call(READ, client, (long)bytes, sizeof bytes, 0, 0));
    tell("read of it", call(READ, client, (long)bytes, sizeof bytes, 0, 0));
    call(WRITE, client, (long)"b", 1, 0, 0);
    wait_for(client, SENT_ALL);
    ask("a connection that has sent all", client);
    tell("read of its end", call(READ, client, (long)bytes, sizeof bytes, 0, 0));
    tell("F_GETFL of it", call(FCNTL, client, GETFL, 0, 0, 0));
    tell("F_GETFL of the one that listens", call(FCNTL, listener, GETFL, 0, 0, 0));
}

static void errors(void)
{
    struct time bad[] = {{0, 1000000000}, {-1, 0}, {0, -1}, {-1, 999999999}};
    struct polled two[] = {{1, OUT, 0}, {1, OUT, 0}};
    for (int i = 0; i <= MOST; i++)
        list[i].fd = -1;
    tell("a poll of 408", poll(list, MOST, &nothing));
    tell("a poll of 409", poll(list, MOST + 1, &nothing));
    tell("a poll of 4,294,967,295", poll(list, 0xffffffff, &nothing));
    tell("the same descriptor twice", poll(two, 2, &nothing));
    for (int i = 0; i < 4; i++) {
        tell("a poll with a bad time", poll(list, 1, &bad[i]));
        tell("a sleep of a bad time", call(SLEEP, 1, 0, (long)&bad[i], 0, 0));
    }
    tell("a bad time, and something ready", poll(two, 2, &bad[0]));
    tell("a bad time, and too many", poll(list, MOST + 1, &bad[0]));
    tell("a poll at a bad address", poll(NULL, 1, &nothing));
    tell("a poll of none at address 0", poll(NULL, 0, &nothing));
    tell("a poll with a time at a bad address", poll(list, 1, (void *)8));
    tell("a sleep of a time at a bad address", call(SLEEP, 1, 0, 8, 0, 0));
    tell("a sleep of clock 99 at a bad address", call(SLEEP, 99, 0, 8, 0, 0));
    tell("F_GETFL of a number that isn't open", call(FCNTL, 63, GETFL, 0, 0, 0));
    tell("another command of a number that isn't open", call(FCNTL, 63, 77, 0, 0, 0));
    tell("another command", call(FCNTL, 1, 77, 0, 0, 0));
}

static void tell_select(const char *what, long most, uint32_t *readable, uint32_t *writable, void *special, void *time)
{
    long gave = pselect6(most, readable, writable, special, time);
    printf("%s: %ld, left %x and %x\n", what, gave, (unsigned)readable[0], (unsigned)writable[0]);
}

/* 63 isn't open. (qemu is cut off at more than 1,024.) */
static void selects(void)
{
    static uint32_t none[SET], output[SET] = {2}, closed[SET] = {2, 1u << 31};
    struct time bad[] = {{0, 1000000000}, {-1, 0}};
    tell("a select of none", pselect6(0, NULL, NULL, NULL, &nothing));
    tell("a select of none at bad addresses", pselect6(0, (void *)8, (void *)8, (void *)8, &nothing));
    tell("a select of -1", pselect6(-1, NULL, NULL, NULL, &nothing));
    tell("a select of -1 at bad addresses", pselect6(-1, (void *)8, (void *)8, (void *)8, NULL));
    tell("a select of -1 with a time at a bad address", pselect6(-1, NULL, NULL, NULL, (void *)8));
    tell("a select of -2147483648", pselect6(-2147483647 - 1, NULL, NULL, NULL, &nothing));
    tell_select("a select of 2", 2, none, output, NULL, &nothing);
    tell_select("a select of 1,024", 1024, none, output, NULL, &nothing);
    tell_select("a select of 1, which leaves 1 out", 1, none, output, NULL, &nothing);
    output[0] = 2;
    tell_select("a select of 63, which leaves 63 out", 63, none, closed, NULL, &nothing);
    tell("and the second word", closed[1]);
    closed[0] = 2, closed[1] = 1u << 31;
    tell_select("a read of what isn't open, and something ready", 64, closed, output, NULL, NULL);
    tell_select("a write of what isn't open", 64, none, closed, NULL, NULL);
    tell_select("something special of what isn't open", 64, none, output, closed, NULL);
    tell_select("a bad time, and what isn't open", 64, closed, output, NULL, &bad[0]);
    tell_select("another bad time", 2, none, output, NULL, &bad[1]);
    tell_select("a time at a bad address", 2, none, output, NULL, (void *)8);
    tell_select("a third set at a bad address", 2, none, output, (void *)8, &nothing);
    tell("sets at a bad address", pselect6(1, (void *)8, (void *)8, NULL, &nothing));
    tell("a set that can't be written", pselect6(1, (void *)selects, NULL, NULL, &nothing));
}

static void flags(void)
{
    long file = call(OPENAT, -100, (long)"poll_answers", APPEND | CREATE, 0600, 0);
    long read_only = call(OPENAT, -100, (long)"poll_answers", 0, 0, 0), write_only = call(OPENAT, -100, (long)"poll_answers", 1, 0, 0);
    tell("F_GETFD", call(FCNTL, file, GETFD, 0, 0, 0));
    tell("F_SETFD", call(FCNTL, file, SETFD, CLOEXEC, 0, 0));
    tell("F_GETFD then", call(FCNTL, file, GETFD, 0, 0, 0));
    tell("F_GETFL of a file with O_APPEND", call(FCNTL, file, GETFL, 0, 0, 0));
    tell("F_GETFL of a file that is read", call(FCNTL, read_only, GETFL, 0, 0, 0));
    tell("F_GETFL of a file that is written", call(FCNTL, write_only, GETFL, 0, 0, 0));
    tell("F_SETFL of a file", call(FCNTL, write_only, SETFL, 1, 0, 0));
}

static void sleeps(void)
{
    struct time day = {86400, 0}, long_ago = {1, 0};
    struct polled ready = {1, OUT, 0};
    tell("a poll that waits", poll(list, 1, &soon));
    tell("a poll of none that waits", poll(NULL, 0, &soon));
    tell("something ready, and a day", poll(&ready, 1, &day));
    tell("a select of none that waits", pselect6(0, NULL, NULL, NULL, &soon));
    tell("a sleep of nothing", call(SLEEP, 0, 0, (long)&nothing, 0, 0));
    tell("a sleep", call(SLEEP, 1, 0, (long)&soon, 0, 0));
    tell("a sleep to a time that is past", call(SLEEP, 0, 1, (long)&long_ago, 0, 0));
    tell("a sleep to a time that is past, of the other clock", call(SLEEP, 1, 1, (long)&nothing, 0, 0));
    tell("a sleep of clock 99", call(SLEEP, 99, 0, (long)&nothing, 0, 0));
    tell("a sleep with other flags", call(SLEEP, 1, 2, (long)&nothing, 0, 0));
}

int main(int count, char **arguments)
{
    setvbuf(stdout, NULL, _IONBF, 0);
    files();
    input();
    pipes();
    flags();
    sockets(count > 1 ? atoi(arguments[1]) : 0);
    errors();
    selects();
    sleeps();
    return 0;
}
