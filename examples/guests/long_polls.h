/*
 * poll(2) of more descriptors than the kernel's ppoll takes, for both C libraries, which include this beside their poll.h and have its two calls. pselect6 waits for
 * all of them; ppolls of those that it finds then say exactly what is told of each. An entry that asks for neither bytes nor room doesn't end the wait: what is told
 * of it unasked, as that the input is at its end, is told when the wait is over.
 */
#include <errno.h>
#include <stdint.h>

/* The events of both names: POLLIN and POLLRDNORM, POLLOUT and POLLWRNORM. */
enum { MOST_POLLED = 408, MOST_SELECTED = 1024, WORD_BITS = 32, WORDS = MOST_SELECTED / WORD_BITS, READS = 0x41, WRITES = 0x104 };

/*
 * The three sets of a pselect6, and one more than the highest number in them. A list is plain where each of its numbers stands once and asks for bytes or for room:
 * then its entries are found by the numbers that are ready, and the rest of the list isn't looked through again.
 */
struct selected {
    long most;
    uint32_t readable[WORDS], writable[WORDS], special[WORDS];
    int is_plain;
    unsigned short places[MOST_SELECTED];
};

/* Entries of a list that are asked about by one ppoll. */
struct part {
    long count;
    struct pollfd asked[MOST_POLLED], *places[MOST_POLLED];
};

/* The kernel's pselect6, and its ppoll with the time 0. Errors are -1 to -4,095. */
static long select_by(struct selected *sets, const void *timeout);
static long poll_now(struct pollfd *asked, long count);

/* Without memset: what a guest of picolibc doesn't use mustn't change what it takes of the C library (linux.c). */
__attribute__((optimize("no-tree-loop-distribute-patterns"))) static void clear_sets(struct selected *sets)
{
    sets->most = 0;
    sets->is_plain = 1;
    for (int i = 0; i < WORDS; i++)
        sets->readable[i] = sets->writable[i] = sets->special[i] = 0;
}

static int is_within(const uint32_t *set, int fd)
{
    return set[fd / WORD_BITS] >> fd % WORD_BITS & 1;
}

/* An entry that asks for nothing is among the special ones, of which none is ever ready: so the kernel sees whether it is open. */
static void select_entry(struct selected *sets, int fd, short events)
{
    unsigned word = (unsigned)fd / WORD_BITS;
    uint32_t bit = 1u << fd % WORD_BITS;
    if ((sets->readable[word] | sets->writable[word] | sets->special[word]) & bit || !(events & (READS | WRITES)))
        sets->is_plain = 0;
    if (events & READS)
        sets->readable[word] |= bit;
    if (events & WRITES)
        sets->writable[word] |= bit;
    if (!(events & (READS | WRITES)))
        sets->special[word] |= bit;
}

/* Answers whether each number may be open. */
static int select_all(struct selected *sets, struct pollfd *asked, long count)
{
    int most = 0;
    for (long i = 0; i < count; i++) {
        int fd = asked[i].fd;
        asked[i].revents = 0;
        if (fd >= MOST_SELECTED)
            return 0;
        if (fd < 0)
            continue;
        most = fd >= most ? fd + 1 : most;
        sets->places[fd] = i;
        select_entry(sets, fd, asked[i].events);
    }
    sets->most = most;
    return 1;
}

static long poll_part(struct part *part)
{
    long ready = part->count > 0 ? poll_now(part->asked, part->count) : 0;
    for (long i = 0; i < part->count; i++)
        part->places[i]->revents = part->asked[i].revents;
    part->count = 0;
    return ready > 0 ? ready : 0;
}

/* Answers of how many something is told. */
static long add_to_part(struct part *part, struct pollfd *entry)
{
    part->asked[part->count] = *entry;
    part->places[part->count++] = entry;
    return part->count == MOST_POLLED ? poll_part(part) : 0;
}

/* Without sets all are asked about. */
static int is_asked(const struct selected *found, const struct pollfd *entry)
{
    if (entry->fd < 0)
        return 0;
    return !found || !(entry->events & (READS | WRITES)) || is_within(found->readable, entry->fd) || is_within(found->writable, entry->fd);
}

/* Writes what is told of each. Answers of how many something is told. */
static long poll_found(const struct selected *found, struct pollfd *asked, long count)
{
    struct part part;
    long ready = part.count = 0;
    for (long i = 0; i < count; i++) {
        asked[i].revents = 0;
        if (is_asked(found, &asked[i]))
            ready += add_to_part(&part, &asked[i]);
    }
    return ready + poll_part(&part);
}

/* The same for a plain list, of which nothing is told yet. */
static long poll_plain(const struct selected *found, struct pollfd *asked)
{
    struct part part;
    long ready = part.count = 0;
    for (int word = 0; word * WORD_BITS < found->most; word++) {
        uint32_t left = found->readable[word] | found->writable[word];
        for (int fd = word * WORD_BITS; left; fd++, left >>= 1)
            if (left & 1)
                ready += add_to_part(&part, &asked[found->places[fd]]);
    }
    return ready + poll_part(&part);
}

/* As Linux answers it. Of a number that isn't open it is told at once (POLLNVAL), as of whatever else is ready then. */
static long poll_long(struct pollfd *asked, long count, const void *timeout)
{
    struct selected sets;
    clear_sets(&sets);
    if (count > MOST_SELECTED)
        return -EINVAL;
    long ready = select_all(&sets, asked, count) ? select_by(&sets, timeout) : -EBADF;
    if (ready == -EBADF)
        return poll_found(NULL, asked, count);
    if (ready < 0)
        return ready;
    return sets.is_plain ? poll_plain(&sets, asked) : poll_found(&sets, asked, count);
}
