/*
 * Calls on sockets whose answers are compared between varan and Linux (bench/socket_answers.py). Each line that it writes has what was done and what it gave.
 * The first argument is the port that it serves, the second one more port. Three clients come: the first sends "abcdef", the second
 * "ghijkl" and the third nothing.
 */
#include "../examples/guests/linux.h"
#include <stdint.h>
#include <stdio.h>
#include <stdlib.h>

enum { DUP = 23, DUP3 = 24, IOCTL = 29, OPENAT = 56, CLOSE = 57, LLSEEK = 62, READ = 63, WRITE = 64, READV = 65, WRITEV = 66 };
enum { SOCKET = 198, BIND = 200, LISTEN = 201, ACCEPT = 202, CONNECT = 203, GETSOCKNAME = 204, SENDTO = 206, SETSOCKOPT = 208, SHUTDOWN = 210, ACCEPT4 = 242 };
enum { STREAM = 1, NONBLOCK = 0x800, CLOEXEC = 0x80000 };

struct address {
    unsigned char bytes[140];
};

struct part {
    void *start;
    uint32_t size;
};

static char buffer[64];

static struct address address(int family, int port, int host)
{
    return (struct address){{family, 0, port >> 8, port, host, 0, 0, host != 0}};
}

/* Writes what a call gave: a number, or that it is a new descriptor. */
static long tell(const char *what, long gave)
{
    printf("%s: %ld\n", what, gave);
    return gave;
}

static long tell_new(const char *what, long gave)
{
    if (gave < 0)
        return tell(what, gave);
    printf("%s: a descriptor\n", what);
    return gave;
}

static long make(void)
{
    return call(SOCKET, 2, STREAM | NONBLOCK, 0, 0, 0);
}

static void sockets(void)
{
    tell_new("socket of IPv4, protocol 0", call(SOCKET, 2, STREAM, 0, 0, 0));
    tell_new("socket of IPv4, protocol 6", call(SOCKET, 2, STREAM, 6, 0, 0));
    tell_new("socket of IPv4, with both flags", call(SOCKET, 2, STREAM | NONBLOCK | CLOEXEC, 0, 0, 0));
    tell_new("socket of IPv6", call(SOCKET, 10, STREAM, 0, 0, 0));
    tell_new("socket of Unix", call(SOCKET, 1, STREAM, 0, 0, 0));
    tell_new("socket of domain 99", call(SOCKET, 99, STREAM, 0, 0, 0));
    tell_new("socket of datagrams", call(SOCKET, 2, 2, 0, 0, 0));
    tell_new("socket of type 9", call(SOCKET, 2, 9, 0, 0, 0));
    tell_new("socket with another flag", call(SOCKET, 2, STREAM | 0x1000, 0, 0, 0));
    tell_new("socket of a stream, protocol 17", call(SOCKET, 2, STREAM, 17, 0, 0));
}

static void binds(int port, int other)
{
    struct address good = address(2, port, 0), second = address(2, other, 0), six = address(10, port, 0), none = address(0, other, 0);
    struct address away = address(2, other, 192), zero = address(2, 0, 0), local = address(2, other, 127);
    long one = make(), two = make();
    tell("bind of the input", call(BIND, 0, (long)&good, 16, 0, 0));
    tell("bind of number 50, which isn't open", call(BIND, 50, (long)&good, 16, 0, 0));
    tell("bind of number 99, which isn't open", call(BIND, 99, (long)&good, 16, 0, 0));
    tell("bind of number 99 at a bad address", call(BIND, 99, 8, 16, 0, 0));
    tell("bind at a bad address", call(BIND, one, 8, 16, 0, 0));
    tell("bind with length 0", call(BIND, one, (long)&good, 0, 0, 0));
    tell("bind with length 15", call(BIND, one, (long)&good, 15, 0, 0));
    tell("bind with length 129", call(BIND, one, (long)&good, 129, 0, 0));
    tell("bind with length -1", call(BIND, one, (long)&good, -1, 0, 0));
    tell("bind of family 10", call(BIND, one, (long)&six, 16, 0, 0));
    tell("bind of family 10, length 28", call(BIND, one, (long)&six, 28, 0, 0));
    tell("bind to another host's address", call(BIND, two, (long)&away, 16, 0, 0));
    tell("bind with length 128", call(BIND, one, (long)&good, 128, 0, 0));
    tell("bind once more", call(BIND, one, (long)&second, 16, 0, 0));
    call(CLOSE, two, 0, 0, 0, 0);
    two = make();
    tell("bind to a port that another has", call(BIND, two, (long)&good, 16, 0, 0));
    tell("close of the bound one", call(CLOSE, one, 0, 0, 0, 0));
    tell("bind to its port", call(BIND, two, (long)&good, 16, 0, 0));
    call(CLOSE, two, 0, 0, 0, 0);
    one = make();
    tell("bind of family 0 to any host", call(BIND, one, (long)&none, 16, 0, 0));
    call(CLOSE, one, 0, 0, 0, 0);
    one = make(), two = make();
    tell("bind to port 0", call(BIND, one, (long)&zero, 16, 0, 0));
    tell("bind of another to port 0", call(BIND, two, (long)&zero, 16, 0, 0));
    call(CLOSE, one, 0, 0, 0, 0);
    call(CLOSE, two, 0, 0, 0, 0);
    one = make();
    tell("bind to 127.0.0.1", call(BIND, one, (long)&local, 16, 0, 0));
    call(CLOSE, one, 0, 0, 0, 0);
}

static void fresh_ones(void)
{
    long fresh = make();
    struct part part = {buffer, 4}, nothing = {buffer, 0};
    uint64_t offset;
    tell("listen of one that isn't bound", call(LISTEN, fresh, 8, 0, 0, 0));
    call(CLOSE, fresh, 0, 0, 0, 0);
    fresh = make();
    tell("listen of the input", call(LISTEN, 0, 8, 0, 0, 0));
    tell("listen of number 99", call(LISTEN, 99, 8, 0, 0, 0));
    tell("accept of one that doesn't listen", call(ACCEPT, fresh, 0, 0, 0, 0));
    tell("accept of the input", call(ACCEPT, 0, 0, 0, 0, 0));
    tell("accept of number 50", call(ACCEPT, 50, 0, 0, 0, 0));
    tell("accept of number 99", call(ACCEPT, 99, 0, 0, 0, 0));
    tell("accept4 with flags 1 of number 99", call(ACCEPT4, 99, 0, 0, 1, 0));
    tell("accept4 with flags 1 of the input", call(ACCEPT4, 0, 0, 0, 1, 0));
    tell("read of one that isn't connected", call(READ, fresh, (long)buffer, 4, 0, 0));
    tell("read of it, of no byte", call(READ, fresh, (long)buffer, 0, 0, 0));
    tell("readv of it", call(READV, fresh, (long)&part, 1, 0, 0));
    tell("readv of it, of no byte", call(READV, fresh, (long)&nothing, 1, 0, 0));
    tell("readv of it, of 1,025 places", call(READV, fresh, (long)&part, 1025, 0, 0));
    tell("write of it", call(WRITE, fresh, (long)buffer, 4, 0, 0));
    tell("write of it, of no byte", call(WRITE, fresh, (long)buffer, 0, 0, 0));
    tell("writev of it", call(WRITEV, fresh, (long)&part, 1, 0, 0));
    tell_new("dup of a socket", call(DUP, fresh, 0, 0, 0, 0));
    tell("dup3 of a socket", call(DUP3, fresh, 40, 0, 0, 0) == 40 ? 0 : -9);
    tell("llseek of a socket", call(LLSEEK, fresh, 0, 0, (long)&offset, 0));
    tell("ioctl 1 of a socket", call(IOCTL, fresh, 1, 0, 0, 0));
    tell("openat of a path in a socket", call(OPENAT, fresh, (long)"f", 0, 0, 0));
    tell("getsockname", call(GETSOCKNAME, fresh, 8, 8, 0, 0));
    tell("setsockopt", call(SETSOCKOPT, fresh, 1, 99, 8, 4));
    tell("shutdown", call(SHUTDOWN, fresh, 2, 0, 0, 0));
    tell("close of it", call(CLOSE, fresh, 0, 0, 0, 0));
    tell("close of it once more", call(CLOSE, fresh, 0, 0, 0, 0));
}

/* Waits for a client: under varan none waits. */
static long take(long listener)
{
    long client;
    do
        client = call(ACCEPT, listener, 0, 0, 0, 0);
    while (client == -4);
    return client;
}

static void listening(long listener, int port)
{
    struct address good = address(2, port, 0);
    tell("listen", call(LISTEN, listener, 8, 0, 0, 0));
    tell("listen once more", call(LISTEN, listener, -1, 0, 0, 0));
    tell("bind of one that listens", call(BIND, listener, (long)&good, 16, 0, 0));
    tell("read of one that listens", call(READ, listener, (long)buffer, 4, 0, 0));
    tell("read of no byte of one that listens", call(READ, listener, (long)buffer, 0, 0, 0));
    tell("write of one that listens", call(WRITE, listener, (long)buffer, 4, 0, 0));
    tell("accept4 with other flags", call(ACCEPT4, listener, 0, 0, 1, 0));
}

static void connected(long client, int port)
{
    struct address good = address(2, port, 0);
    struct part places[2] = {{buffer, 1}, {buffer + 8, 2}};
    tell("read of no byte", call(READ, client, (long)buffer, 0, 0, 0));
    tell("read of two bytes", call(READ, client, (long)buffer, 2, 0, 0));
    tell("  which are", buffer[0] * 256 + buffer[1]);
    tell("readv of three bytes", call(READV, client, (long)places, 2, 0, 0));
    tell("  the last one", buffer[9]);
    tell("read at a bad address", call(READ, client, 8, 4, 0, 0));
    tell("read of the rest", call(READ, client, (long)buffer, 64, 0, 0));
    tell("read at the end", call(READ, client, (long)buffer, 64, 0, 0));
    tell("write", call(WRITE, client, (long)"hello", 5, 0, 0));
    tell("write of no byte", call(WRITE, client, (long)buffer, 0, 0, 0));
    tell("writev of three bytes", call(WRITEV, client, (long)places, 2, 0, 0));
    tell("write at a bad address", call(WRITE, client, 8, 4, 0, 0));
    tell("bind of a connected one", call(BIND, client, (long)&good, 16, 0, 0));
    tell("listen of a connected one", call(LISTEN, client, 8, 0, 0, 0));
    tell("accept of a connected one", call(ACCEPT, client, 0, 0, 0, 0));
    tell("close of a connected one", call(CLOSE, client, 0, 0, 0, 0));
    tell("read of a closed one", call(READ, client, (long)buffer, 4, 0, 0));
    tell("write of a closed one", call(WRITE, client, (long)buffer, 4, 0, 0));
}

int main(int count, char **words)
{
    int port = count > 1 ? atoi(words[1]) : 8080, other = count > 2 ? atoi(words[2]) : 8081;
    struct address good = address(2, port, 0), second = address(2, other, 0);
    sockets();
    binds(port, other);
    fresh_ones();
    long listener = call(SOCKET, 2, STREAM, 0, 0, 0), idle = make();
    tell("bind", call(BIND, listener, (long)&good, 16, 0, 0));
    listening(listener, port);
    call(BIND, idle, (long)&second, 16, 0, 0);
    call(LISTEN, idle, 8, 0, 0, 0);
    tell("accept where none comes", call(ACCEPT, idle, 0, 0, 0, 0));
    long first = tell_new("accept", take(listener));
    long next = tell_new("accept of the next", take(listener));
    tell("  its number is the next one", next == first + 1);
    connected(first, port);
    tell("read of the other", call(READ, next, (long)buffer, 64, 0, 0));
    tell("  which begins with", buffer[0]);
    tell("close of the listening one", call(CLOSE, listener, 0, 0, 0, 0));
    tell("write to a client after that", call(WRITE, next, (long)"bye", 3, 0, 0));
    tell("close of the client", call(CLOSE, next, 0, 0, 0, 0));
    listener = call(SOCKET, 2, STREAM | NONBLOCK, 0, 0, 0);
    tell("  the least number is taken again", listener < first);
    return 0;
}
