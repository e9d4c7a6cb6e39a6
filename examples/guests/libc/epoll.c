/*
 * epoll(7) over the kernel's pselect6 and ppoll. What is watched is kept as the sets of a pselect6, so a wait copies some words, and costs the program what is
 * ready, not what is watched. Of sockets the sets have all that there is to tell. Of others, and of whether a client has sent all (EPOLLRDHUP), one ppoll of
 * what was found asks. A list of all that is watched is polled where the sets don't do: beside other threads, where the kernel has no pselect6, and while
 * something is watched for what no set has.
 *
 * With EPOLLET Linux tells what has come since it told last. The kernel doesn't say that, so what was told is told again once a read or an accept was tried
 * since, or, of room, a write that had too little. So more may be told than by Linux, of bytes that were left. That more bytes came for a program that has read
 * none of those that it was told of isn't told until it reads.
 *
 * A number that is closed is watched no more, even if a copy of it is open. A child has a copy of what its parent watches. No epoll watches another.
 */
#include "guest.h"
#include <errno.h>
#include <fcntl.h>
#include <limits.h>
#include <poll.h>
#include <string.h>
#include <sys/epoll.h>
#include <sys/mman.h>
#include <sys/syscall.h>

enum { WORD_BITS = 32, WORDS = DESCRIPTORS / WORD_BITS, MOST_ASKED = 408 };
enum { READS = EPOLLIN | EPOLLRDNORM, WRITES = EPOLLOUT | EPOLLWRNORM, UNASKED = EPOLLERR | EPOLLHUP, POLLED = 0xffff };
/* Flags that stay when all else is forgotten (EPOLLONESHOT), and what may stand beside EPOLLEXCLUSIVE. */
#define FLAGS ((uint32_t)(EPOLLET | EPOLLONESHOT | EPOLLWAKEUP | EPOLLEXCLUSIVE))
#define BESIDE_EXCLUSIVE ((uint32_t)(EPOLLIN | EPOLLOUT | UNASKED | EPOLLWAKEUP | EPOLLET | EPOLLEXCLUSIVE))

struct set {
    long count;
    uint32_t words[WORDS];
};

struct interest {
    uint32_t events; /* 0 where it isn't watched: UNASKED is always among them */
    uint32_t told;   /* with EPOLLET: what isn't told again for now */
    uint64_t data;
};

struct epoll {
    struct epoll *next;
    long users; /* descriptors, and threads that wait */
    int changes;
    long most;  /* one more than the highest number that was watched */
    long last;  /* the number that was told last: a wait begins behind it */
    struct set readable, writable, others;
    struct interest interests[DESCRIPTORS];
};

static struct epoll *all;

/* ---- what is watched */

static uint32_t bit_of(long fd)
{
    return 1u << fd % WORD_BITS;
}

static void put(struct set *set, long fd, bool is_in)
{
    uint32_t *word = &set->words[fd / WORD_BITS];
    set->count += is_in - ((*word & bit_of(fd)) != 0);
    *word = is_in ? *word | bit_of(fd) : *word & ~bit_of(fd);
}

/* Of a connection and of a listener nothing is told but that they can be read and written, and that the client has sent all. */
static bool is_stream(long fd)
{
    struct descriptor *asked = descriptor_of(fd);
    return asked && (asked->kind == CONNECTION || asked->kind == LISTENER);
}

/* What is to be told now, if it is so. */
static uint32_t wanted(const struct interest *interest)
{
    return interest->told & UNASKED ? 0 : interest->events & POLLED & ~interest->told;
}

/* Whether the sets don't find all that is to be told. */
static bool is_other(long fd, uint32_t events)
{
    return (events & EPOLLRDHUP && !(events & READS)) || (events && !(events & (READS | WRITES)) && !is_stream(fd));
}

/* A number is put into the sets in which it has to be. */
static void place(struct epoll *epoll, long fd)
{
    uint32_t events = wanted(&epoll->interests[fd]);
    put(&epoll->readable, fd, events & READS);
    put(&epoll->writable, fd, events & WRITES);
    put(&epoll->others, fd, is_other(fd, events));
}

/* Threads that wait look at what is watched again. */
static void changed(struct epoll *epoll, long fd)
{
    place(epoll, fd);
    wake_waiters(&epoll->changes, LONG_MAX);
}

static void tell_again(long fd, uint32_t events)
{
    for (struct epoll *it = all; it && fd >= 0 && fd < DESCRIPTORS; it = it->next)
        if (it->interests[fd].told & events) {
            it->interests[fd].told &= ~events;
            changed(it, fd);
        }
}

void was_read(long fd)
{
    tell_again(fd, ~WRITES);
}

void was_full(long fd)
{
    tell_again(fd, WRITES | UNASKED);
}

void leave_epolls(long fd)
{
    for (struct epoll *it = all; it; it = it->next)
        if (it->interests[fd].events) {
            it->interests[fd] = (struct interest){0};
            changed(it, fd);
        }
}

/* ---- epolls */

void use_epoll(struct epoll *epoll)
{
    epoll->users++;
}

void leave_epoll(struct epoll *epoll)
{
    if (--epoll->users > 0)
        return;
    struct epoll **place = &all;
    while (*place != epoll)
        place = &(*place)->next;
    *place = epoll->next;
    unmap_pages((unsigned long)epoll, sizeof *epoll);
}

/* Its number is one of the kernel's, of a file without a name. */
long new_epoll(long flags)
{
    if (flags & ~EPOLL_CLOEXEC)
        return -EINVAL;
    long pages = map_pages(0, sizeof(struct epoll), MAP_PRIVATE | MAP_ANONYMOUS, -1, 0);
    if (pages < 0 && pages > -4096)
        return -ENOMEM;
    long fd = open_file("/dev/null", flags, 0);
    if (fd < 0) {
        unmap_pages(pages, sizeof(struct epoll));
        return fd;
    }
    struct epoll *made = (struct epoll *)pages;
    made->users = 1;
    made->next = all;
    all = descriptor_of(fd)->epoll = made;
    return fd;
}

static bool is_bad_exclusive(long operation, uint32_t events)
{
    return events & EPOLLEXCLUSIVE && (operation == EPOLL_CTL_MOD || (operation == EPOLL_CTL_ADD && events & ~BESIDE_EXCLUSIVE));
}

/* 0 where this can be done with what is watched so. */
static long error_of(long operation, uint32_t watched)
{
    switch (operation) {
    case EPOLL_CTL_ADD: return watched ? -EEXIST : 0;
    case EPOLL_CTL_DEL: return watched ? 0 : -ENOENT;
    case EPOLL_CTL_MOD: return !watched ? -ENOENT : watched & EPOLLEXCLUSIVE ? -EINVAL : 0;
    default: return -EINVAL;
    }
}

static long check(long number, long operation, long fd, const struct epoll_event *event)
{
    struct descriptor *own = descriptor_of(number), *asked = descriptor_of(fd);
    if (operation != EPOLL_CTL_DEL && !event)
        return -EFAULT;
    if (!own || !asked)
        return -EBADF;
    if (asked->inode && !asked->epoll)
        return -EPERM;
    if (!own->epoll || own->epoll == asked->epoll || (operation != EPOLL_CTL_DEL && is_bad_exclusive(operation, event->events)))
        return -EINVAL;
    if (asked->epoll && operation == EPOLL_CTL_ADD)
        return -ELOOP;
    return error_of(operation, own->epoll->interests[fd].events);
}

long control_epoll(long number, long operation, long fd, const struct epoll_event *event)
{
    long error = check(number, operation, fd, event);
    if (error)
        return error;
    struct epoll *epoll = descriptor_of(number)->epoll;
    struct interest new = {0};
    if (operation != EPOLL_CTL_DEL)
        new = (struct interest){.events = event->events | UNASKED, .data = event->data.u64};
    epoll->interests[fd] = new;
    if (fd >= epoll->most)
        epoll->most = fd + 1;
    changed(epoll, fd);
    return 0;
}

/* ---- waits */

/* What is asked about, in the order in which it is told: from behind what was told last, around to it. */
struct list {
    long count;
    struct pollfd asked[DESCRIPTORS];
};

static long words_of(const struct epoll *epoll)
{
    return (epoll->most + WORD_BITS - 1) / WORD_BITS;
}

/* The next number from this one on that is in a set; the end or a larger one where none is before it. */
static long next_in(const uint32_t *words, long fd, long end)
{
    if (fd >= end)
        return end;
    const uint32_t *word = words + fd / WORD_BITS, *last = words + (end - 1) / WORD_BITS;
    uint32_t left = *word & ~0u << fd % WORD_BITS;
    while (!left && word < last)
        left = *++word;
    return left ? (word - words) * WORD_BITS + __builtin_ctz(left) : end;
}

static void add_part(struct list *list, const uint32_t *words, long from, long end, long most)
{
    for (long fd = next_in(words, from, end); fd < end && list->count < most; fd = next_in(words, fd + 1, end))
        list->asked[list->count++] = (struct pollfd){.fd = fd};
}

/* The numbers in a set, so many at most. */
static void list_numbers(struct list *list, const struct epoll *epoll, const uint32_t *words, long most)
{
    list->count = 0;
    add_part(list, words, epoll->last + 1, epoll->most, most);
    add_part(list, words, 0, epoll->last < epoll->most ? epoll->last + 1 : epoll->most, most);
}

static void join(uint32_t *words, const uint32_t *others, long count)
{
    for (long i = 0; i < count; i++)
        words[i] |= others[i];
}

static bool has(const uint32_t *words, long fd)
{
    return words[fd / WORD_BITS] & bit_of(fd);
}

/* What the sets tell of each. Answers whether there is more to tell than they have. */
static bool tell_by_sets(struct list *list, const struct epoll *epoll, const uint32_t *readable, const uint32_t *writable)
{
    bool has_more = false;
    for (struct pollfd *it = list->asked; it < list->asked + list->count; it++) {
        it->events = epoll->interests[it->fd].events & POLLED;
        it->revents = (has(readable, it->fd) ? it->events & READS : 0) | (writable && has(writable, it->fd) ? it->events & WRITES : 0);
        has_more = has_more || it->events & EPOLLRDHUP || !is_stream(it->fd);
    }
    return has_more;
}

/* What is found by the kernel's pselect6, so many at most: how many, or an error. */
static long find_by_sets(struct list *list, const struct epoll *epoll, long most, const int64_t *timeout, const uint64_t *mask)
{
    uint32_t readable[WORDS], room[WORDS], either[WORDS], *writable = epoll->writable.count ? room : NULL, *all_found = writable ? either : readable;
    long count = words_of(epoll);
    memcpy(readable, epoll->readable.words, count * sizeof *readable);
    if (writable)
        memcpy(writable, epoll->writable.words, count * sizeof *writable);
    long found = select_sets(epoll->most, readable, writable, timeout);
    if (found == -EINTR)
        return end_of_service(timeout, mask);
    if (found <= 0)
        return found;
    if (writable) {
        memcpy(either, readable, count * sizeof *either);
        join(either, writable, count);
    }
    list_numbers(list, epoll, all_found, most < MOST_ASKED ? most : MOST_ASKED);
    if (tell_by_sets(list, epoll, readable, writable))
        KERNEL(SYS_ppoll_time64, list->asked, list->count, &(int64_t[2]){0});
    return list->count;
}

/* The same by a poll of all that is watched. Another thread may change that meanwhile: -EAGAIN. */
static long find_by_list(struct list *list, struct epoll *epoll, const int64_t *timeout, int64_t end, const uint64_t *mask)
{
    uint32_t words[WORDS];
    long count = words_of(epoll);
    memcpy(words, epoll->readable.words, count * sizeof *words);
    join(words, epoll->writable.words, count);
    join(words, epoll->others.words, count);
    list_numbers(list, epoll, words, DESCRIPTORS);
    for (struct pollfd *it = list->asked; it < list->asked + list->count; it++)
        it->events = wanted(&epoll->interests[it->fd]);
    long found = poll_watched(list->asked, list->count, timeout, end, &epoll->changes);
    if (found == -EINTR)
        return end_of_service(timeout, mask);
    return found == -ENOSYS ? poll_descriptors(list->asked, list->count, timeout, mask) : found;
}

static long find(struct list *list, struct epoll *epoll, long most, const int64_t *timeout, int64_t end, const uint64_t *mask)
{
    bool is_by_sets = epoll->others.count == 0 && !has_threads();
    long found = is_by_sets ? find_by_sets(list, epoll, most, timeout, mask) : -ENOSYS;
    if (found == -ENOSYS)
        found = find_by_list(list, epoll, timeout, end, mask);
    return found;
}

/* What of this is told of a descriptor, and then isn't told again as the flags have it. */
static uint32_t take(struct epoll *epoll, long fd, uint32_t reported)
{
    struct interest *interest = &epoll->interests[fd];
    uint32_t told = reported & interest->events & POLLED;
    if (!told)
        return 0;
    epoll->last = fd;
    if (interest->events & EPOLLET)
        interest->told |= told;
    if (interest->events & EPOLLONESHOT)
        interest->events &= FLAGS;
    if (interest->events & (EPOLLET | EPOLLONESHOT))
        place(epoll, fd);
    return told;
}

static long tell(struct epoll *epoll, const struct list *list, struct epoll_event *events, long most)
{
    long count = 0;
    for (long i = 0; i < list->count && count < most; i++) {
        long fd = list->asked[i].fd;
        uint64_t data = epoll->interests[fd].data;
        uint32_t told = take(epoll, fd, list->asked[i].revents);
        if (told)
            events[count++] = (struct epoll_event){.events = told, .data.u64 = data};
    }
    return count;
}

long wait_epoll(long number, struct epoll_event *events, long most, long milliseconds, const uint64_t *mask)
{
    struct descriptor *own = descriptor_of(number);
    if (most <= 0 || most > (long)(INT_MAX / sizeof *events))
        return -EINVAL;
    if (!own || !own->epoll)
        return own ? -EINVAL : -EBADF;
    struct epoll *epoll = own->epoll;
    const int64_t time[] = {milliseconds / 1000, milliseconds % 1000 * 1000000}, *timeout = milliseconds < 0 ? NULL : time;
    int64_t end = has_threads() && milliseconds > 0 ? time_after(timeout) : NEVER;
    struct list list;
    long found, told;
    use_epoll(epoll);
    do {
        found = find(&list, epoll, most, timeout, end, mask);
        told = found > 0 ? tell(epoll, &list, events, most) : found;
    } while (found == -EAGAIN || (found > 0 && told == 0 && has_threads()));
    leave_epoll(epoll);
    return told;
}
