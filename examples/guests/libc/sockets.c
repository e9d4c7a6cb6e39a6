/*
 * Sockets: addresses, options, and which of them can be read and written. In runs over scripts of the fifth form, as all live ones, the kernel polls.
 * In the others it is done here. There a connection always can be read and written. A listener can be read while a client waits
 * for it: the layer accepts one to see, and keeps it for the accept that follows. With clients that come as they like (varan serve) to see is to wait
 * for the next one, so listeners are asked where there is no connection to be served first.
 */
#include "guest.h"
#include <errno.h>
#include <fcntl.h>
#include <poll.h>
#include <string.h>
#include <sys/select.h>
#include <sys/socket.h>
#include <sys/syscall.h>
#include "../long_polls.h"

enum { FIRST_PEER = 40001, MOST_QUIET = 16 };

/* How many connections were accepted, and how many polls in a row found nothing, with no other call between them. */
static unsigned accepted, quiet;

void not_quiet(void)
{
    quiet = 0;
}

long new_socket(long domain, long type, long protocol)
{
    if (domain != AF_INET)
        return -EAFNOSUPPORT;
    if ((type & 15) != SOCK_STREAM)
        return -ESOCKTNOSUPPORT;
    long fd = KERNEL(SYS_socket, domain, type & ~SOCK_CLOEXEC, protocol);
    if (fd < 0)
        return fd;
    struct descriptor *socket = opened(fd, NEW_SOCKET);
    socket->waits_not = type & SOCK_NONBLOCK;
    socket->closes_on_exec = type & SOCK_CLOEXEC;
    return fd;
}

long bind_socket(long fd, const unsigned char *address, long length)
{
    long result = KERNEL(SYS_bind, fd, address, length);
    if (result == 0)
        descriptor_of(fd)->port = address[2] << 8 | address[3];
    return result;
}

long listen_at(long fd, long backlog)
{
    long result = KERNEL(SYS_listen, fd, backlog);
    if (result == 0)
        descriptor_of(fd)->kind = LISTENER;
    return result;
}

/* ---- addresses */

/* 127.0.0.1 and this port, as much of it as there is room for. */
static void write_address(unsigned port, void *address, unsigned *length)
{
    unsigned char whole[16] = {AF_INET, 0, port >> 8, port & 255, 127, 0, 0, 1};
    if (!address || !length)
        return;
    memcpy(address, whole, *length < sizeof whole ? *length : sizeof whole);
    *length = sizeof whole;
}

long own_address(long fd, void *address, unsigned *length)
{
    struct descriptor *socket = descriptor_of(fd);
    if (!socket || socket->kind == ANY_FILE)
        return socket ? -ENOTSOCK : -EBADF;
    write_address(socket->port, address, length);
    return 0;
}

long peer_address(long fd, void *address, unsigned *length)
{
    struct descriptor *socket = descriptor_of(fd);
    if (!socket || socket->kind == ANY_FILE)
        return socket ? -ENOTSOCK : -EBADF;
    if (socket->kind != CONNECTION)
        return -ENOTCONN;
    write_address(socket->peer, address, length);
    return 0;
}

/* ---- connections */

/* Whether a client waits for this listener: one that does is kept. */
static bool has_client(long fd, struct descriptor *listener)
{
    if (listener->taken)
        return true;
    long client = KERNEL(SYS_accept4, fd, 0, 0, 0);
    listener->taken = client > 0 ? client : 0;
    return client > 0;
}

long accept_client(long fd, void *address, unsigned *length, long flags)
{
    struct descriptor *listener = descriptor_of(fd);
    if (!listener || listener->kind == ANY_FILE)
        return listener ? -ENOTSOCK : -EBADF;
    if (listener->kind != LISTENER || flags & ~(SOCK_NONBLOCK | SOCK_CLOEXEC))
        return -EINVAL;
    long client = listener->taken;
    listener->taken = 0;
    if (!client) {
        wait_for_arrival(fd);
        client = KERNEL(SYS_accept4, fd, 0, 0, flags & SOCK_NONBLOCK);
        was_read(fd);
    }
    if (client == -EAGAIN && !listener->waits_not)
        end_of_waiting();
    if (client < 0)
        return client;
    struct descriptor *connection = opened(client, CONNECTION);
    connection->waits_not = flags & SOCK_NONBLOCK;
    connection->closes_on_exec = flags & SOCK_CLOEXEC;
    connection->port = listener->port;
    connection->peer = FIRST_PEER + accepted++;
    write_address(connection->peer, address, length);
    return client;
}

/* 0 where the number is a connection. */
long on_connection(long fd)
{
    struct descriptor *socket = descriptor_of(fd);
    if (!socket || socket->kind == ANY_FILE)
        return socket ? -ENOTSOCK : -EBADF;
    return socket->kind == CONNECTION ? 0 : -ENOTCONN;
}

long connect_socket(long fd)
{
    struct descriptor *socket = descriptor_of(fd);
    if (!socket || socket->kind == ANY_FILE)
        return socket ? -ENOTSOCK : -EBADF;
    return socket->kind == CONNECTION ? -EISCONN : -ECONNREFUSED;
}

long socket_option(long fd, long level, long name, int *value, unsigned *length)
{
    struct descriptor *socket = descriptor_of(fd);
    if (!socket || socket->kind == ANY_FILE)
        return socket ? -ENOTSOCK : -EBADF;
    if (*length < sizeof *value)
        return -EINVAL;
    *value = level == SOL_SOCKET && name == SO_TYPE ? SOCK_STREAM : 0;
    if (level == SOL_SOCKET && name == SO_ACCEPTCONN)
        *value = socket->kind == LISTENER;
    *length = sizeof *value;
    return 0;
}

/* ---- poll and select */

static bool is_connection(long fd)
{
    struct descriptor *asked = descriptor_of(fd);
    return asked && asked->kind == CONNECTION;
}

static short events_of(long fd, short wanted, bool asks_listeners)
{
    struct descriptor *asked = descriptor_of(fd);
    if (!asked)
        return POLLNVAL;
    if (asked->kind == LISTENER)
        return (asked->taken || asks_listeners) && has_client(fd, asked) ? wanted & (POLLIN | POLLRDNORM) : 0;
    if (asked->kind == NEW_SOCKET)
        return POLLHUP;
    return wanted & (POLLIN | POLLRDNORM | POLLOUT | POLLWRNORM);
}

/* What a poll answers that found so many. One that finds nothing and has no end, and one too many that found nothing, end the service. */
static long found(long count, const int64_t *timeout)
{
    if (!count)
        let_others_go_on();
    quiet = count ? 0 : quiet + 1;
    if (!count && (!timeout || quiet > MOST_QUIET))
        end_of_waiting();
    return count;
}

void nothing_came(void)
{
    found(0, &(int64_t){0});
}

static bool has_connection(const struct pollfd *asked, long count)
{
    while (count > 0 && !(asked[count - 1].events && is_connection(asked[count - 1].fd)))
        count--;
    return count > 0;
}

/* ---- where the kernel polls */

/* The kernel said that it has no such call. */
static bool polls_not;

static long known(long result)
{
    polls_not = polls_not || result == -ENOSYS;
    return result;
}

void set_waiting(long fd, bool waits_not)
{
    if (!polls_not && (fd == 0 || fd >= FIRST_SOCKET))
        known(KERNEL(SYS_fcntl64, fd, F_SETFL, O_RDWR | (waits_not ? O_NONBLOCK : 0)));
}

bool kernel_polls(void)
{
    static const int64_t bad_time[] = {0, -1};
    static bool is_asked;
    if (!is_asked) {
        is_asked = true;
        known(KERNEL(SYS_ppoll_time64, 0, 0, bad_time));
    }
    return !polls_not;
}

long sleep_until(long clock, long flags, const int64_t *time)
{
    long result = polls_not ? -ENOSYS : known(KERNEL(SYS_clock_nanosleep_time64, clock, flags, time));
    return result == -ENOSYS ? 0 : result;
}

static long select_by(struct selected *sets, const void *timeout)
{
    return known(KERNEL(SYS_pselect6_time64, sets->most, sets->readable, sets->writable, sets->special, timeout));
}

long select_sets(long most, void *readable, void *writable, const int64_t *timeout)
{
    return polls_not ? -ENOSYS : known(KERNEL(SYS_pselect6_time64, most, readable, writable, 0, timeout));
}

static long poll_now(struct pollfd *asked, long count)
{
    return KERNEL(SYS_ppoll_time64, asked, count, &(int64_t[2]){0});
}

/* The kernel's answer; -ENOSYS where it has none. */
static long poll_by_kernel(struct pollfd *asked, long count, const int64_t *timeout, const uint64_t *mask)
{
    if (polls_not)
        return -ENOSYS;
    long ready = count > MOST_POLLED ? poll_long(asked, count, timeout) : known(poll_with_others(asked, count, timeout));
    return ready == -EINTR ? end_of_service(timeout, mask) : ready;
}

static bool has_closed(const fd_set *set, long count)
{
    while (set && count > 0 && !(FD_ISSET(count - 1, set) && !descriptor_of(count - 1)))
        count--;
    return set && count > 0;
}

static void empty(fd_set *set, long count)
{
    if (set)
        memset(set, 0, (count + WORD_BITS - 1) / WORD_BITS * sizeof(uint32_t));
}

static void ask(struct pollfd *asked, long *count, long fd, const fd_set *set, short events)
{
    if (!set || !FD_ISSET(fd, set))
        return;
    if (*count == 0 || asked[*count - 1].fd != fd)
        asked[(*count)++] = (struct pollfd){.fd = fd};
    asked[*count - 1].events |= events;
}

/* Leaves in a set the descriptors of which one of these is told. Answers how many. */
static long keep_told(const struct pollfd *asked, long count, fd_set *set, short wanted, short told)
{
    long ready = 0;
    for (long i = 0; set && i < count; i++) {
        if (!(asked[i].events & wanted))
            continue;
        if (asked[i].revents & told)
            ready++;
        else
            FD_CLR(asked[i].fd, set);
    }
    return ready;
}

/* A select beside other threads is a poll, so that these go on. */
static long select_with_others(long most, fd_set *readable, fd_set *writable, fd_set *special, const int64_t *timeout)
{
    struct pollfd asked[DESCRIPTORS];
    long count = 0;
    for (long fd = 0; fd < most; fd++) {
        ask(asked, &count, fd, readable, POLLIN);
        ask(asked, &count, fd, writable, POLLOUT);
        ask(asked, &count, fd, special, POLLPRI);
    }
    for (long i = 0; i < count; i++)
        if (!descriptor_of(asked[i].fd))
            return -EBADF;
    if (count > MOST_POLLED)
        return KERNEL(SYS_pselect6_time64, most, readable, writable, special, timeout);
    long ready = poll_with_others(asked, count, timeout);
    if (ready < 0)
        return ready;
    return keep_told(asked, count, readable, POLLIN, POLLIN | POLLHUP | POLLERR) + keep_told(asked, count, writable, POLLOUT, POLLOUT | POLLERR) +
           keep_told(asked, count, special, POLLPRI, POLLPRI);
}

/* The kernel's answer; -ENOSYS where it has none. What a child has closed may be open there, for its parent. */
static long select_by_kernel(long count, fd_set *readable, fd_set *writable, fd_set *special, const int64_t *timeout, const uint64_t *mask)
{
    long most = count < DESCRIPTORS ? count : DESCRIPTORS;
    if (polls_not)
        return -ENOSYS;
    if (is_child() && (has_closed(readable, most) || has_closed(writable, most) || has_closed(special, most)))
        return -EBADF;
    long ready = known(has_threads() ? select_with_others(most, readable, writable, special, timeout) : KERNEL(SYS_pselect6_time64, count, readable, writable, special, timeout));
    if (ready != -EINTR)
        return ready;
    ready = end_of_service(timeout, mask);
    if (ready == 0) {
        empty(readable, most);
        empty(writable, most);
        empty(special, most);
    }
    return ready;
}

long poll_descriptors(struct pollfd *asked, long count, const int64_t *timeout, const uint64_t *mask)
{
    long polled = poll_by_kernel(asked, count, timeout, mask);
    if (polled != -ENOSYS)
        return polled;
    long ready = 0;
    bool asks_listeners = !has_connection(asked, count);
    for (long i = 0; i < count; i++) {
        asked[i].revents = asked[i].fd < 0 ? 0 : events_of(asked[i].fd, asked[i].events, asks_listeners);
        ready += asked[i].revents != 0;
    }
    return found(ready, timeout);
}

static bool has_connection_in(const fd_set *set, long count)
{
    while (set && count > 0 && !(FD_ISSET(count - 1, set) && is_connection(count - 1)))
        count--;
    return set && count > 0;
}

/* Leaves in a set the descriptors for which one of the events holds. Answers how many, or -EBADF. */
static long keep_ready(long count, fd_set *set, short wanted, bool asks_listeners)
{
    long ready = 0;
    for (long fd = 0; set && fd < count; fd++) {
        if (!FD_ISSET(fd, set))
            continue;
        short events = events_of(fd, wanted, asks_listeners);
        if (events & POLLNVAL)
            return -EBADF;
        if (events)
            ready++;
        else
            FD_CLR(fd, set);
    }
    return ready;
}

long select_descriptors(long count, void *readable, void *writable, void *special, const int64_t *timeout, const uint64_t *mask)
{
    long polled = select_by_kernel(count, readable, writable, special, timeout, mask);
    if (polled != -ENOSYS)
        return polled;
    bool asks_listeners = !has_connection_in(readable, count) && !has_connection_in(writable, count);
    long reads = keep_ready(count, readable, POLLIN, asks_listeners), writes = keep_ready(count, writable, POLLOUT, asks_listeners);
    long specials = keep_ready(count, special, 0, asks_listeners);
    if (reads < 0 || writes < 0 || specials < 0)
        return -EBADF;
    return found(reads + writes + specials, timeout);
}
