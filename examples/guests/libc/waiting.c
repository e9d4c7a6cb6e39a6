/*
 * The turn of threads. One thread has it, until it waits: for a word of a futex, an arrival, a time, or by sched_yield. Of those that can go on the one that has
 * waited longest is next. If none can, the last one asks the kernel for all that wait for arrivals and times, by one ppoll, in which the version waits.
 *
 * So the order in which threads make their calls follows from what they wait for, and not from how many instructions a version takes between two calls:
 * versions that wait for the same are in step.
 */
#include "guest.h"
#include <errno.h>
#include <poll.h>
#include <string.h>
#include <sys/syscall.h>
#include <time.h>

/* futex(2) */
enum { WAIT = 0, WAKE = 1 };
/* The kernel polls 408 descriptors. A thread that reads or accepts waits for one, and at most seven wait beside the one that polls. */
enum { MOST_POLLED = 400, ALL_POLLED = 408 };
/* A hundredth of a second, and how often the turn is given away before the kernel is asked for those that wait for arrivals and times. */
enum { BILLION = 1000000000, YIELD = 10000000, MOST_YIELDS = 100 };
/* How often threads can go on once no client comes and nothing arrives any more. */
enum { MOST_AFTER_END = 16 };

/* In the order in which they began to wait. */
static struct waiter *first, **last = &first;
/* How often the turn was given away since the kernel was asked. */
static int yields;

/* ---- the turn */

void add_waiter(struct waiter *thread)
{
    thread->next = NULL;
    *last = thread;
    last = &thread->next;
}

static struct waiter *take_out(struct waiter **place)
{
    struct waiter *thread = *place;
    *place = thread->next;
    if (!*place)
        last = place;
    return thread;
}

static struct waiter *longest_waiting(void)
{
    for (struct waiter **place = &first; *place; place = &(*place)->next)
        if ((*place)->can_go_on)
            return take_out(place);
    return NULL;
}

static void let_go_on(struct waiter *thread, long result)
{
    thread->can_go_on = true;
    thread->result = result;
}

static void give_turn(struct waiter *thread)
{
    __atomic_store_n(&thread->has_turn, 1, __ATOMIC_SEQ_CST);
    KERNEL(SYS_futex_time64, &thread->has_turn, WAKE, 1);
}

void wait_for_turn(struct waiter *own)
{
    while (!__atomic_load_n(&own->has_turn, __ATOMIC_SEQ_CST))
        KERNEL(SYS_futex_time64, &own->has_turn, WAIT, 0);
}

/* Where none can ever go on the kernel finds that all threads wait in a futex: the fault `deadlock`. */
long wait_with_others(struct waiter *own)
{
    add_waiter(own);
    struct waiter *next = next_thread();
    if (next != own) {
        if (next)
            give_turn(next);
        wait_for_turn(own);
    }
    return own->result;
}

/* ---- times */

static int64_t nanoseconds(const int64_t *time)
{
    return time[0] * BILLION + time[1];
}

static int64_t now(void)
{
    int64_t time[2] = {0};
    KERNEL(SYS_clock_gettime64, CLOCK_MONOTONIC, time);
    return nanoseconds(time);
}

int64_t time_after(const int64_t *timeout)
{
    return timeout ? now() + nanoseconds(timeout) : NEVER;
}

static int64_t earliest_end(void)
{
    int64_t earliest = NEVER;
    for (struct waiter *it = first; it; it = it->next)
        if (it->end < earliest)
            earliest = it->end;
    return earliest;
}

static void end_waits(int64_t end)
{
    for (struct waiter *it = first; it; it = it->next)
        if (it->end <= end)
            let_go_on(it, it->word ? -ETIMEDOUT : 0);
}

/* ---- what the kernel is asked for all */

static struct pollfd polled[ALL_POLLED];

static long gather(void)
{
    long count = 0;
    for (struct waiter *it = first; it; count += it->count, it = it->next)
        memcpy(polled + count, it->polled, it->count * sizeof *polled);
    return count;
}

/* Hands a thread what was reported of its descriptors. Answers of how many something was. */
static long hand_out(struct waiter *thread, const struct pollfd *reported)
{
    long ready = 0;
    for (long i = 0; i < thread->count; i++) {
        struct descriptor *asked = descriptor_of(reported[i].fd);
        thread->polled[i].revents = reported[i].revents;
        ready += reported[i].revents != 0;
        if (asked && reported[i].revents & (POLLIN | POLLRDNORM | POLLHUP))
            asked->has_come = true;
    }
    return ready;
}

static void hand_out_all(void)
{
    long at = 0;
    for (struct waiter *it = first; it; at += it->count, it = it->next) {
        long ready = hand_out(it, polled + at);
        if (ready)
            let_go_on(it, ready);
    }
}

static void interrupt_one(void)
{
    struct waiter *it = first;
    while (!it->count)
        it = it->next;
    let_go_on(it, -EINTR);
}

/* The kernel's answer for so many descriptors and this end. */
static long ask(long count, int64_t end)
{
    int64_t left = end == NEVER ? 0 : end - now();
    if (left < 0)
        left = 0;
    int64_t time[] = {left / BILLION, left % BILLION};
    if (count)
        return KERNEL(SYS_ppoll_time64, polled, count, end == NEVER ? NULL : time);
    KERNEL(SYS_clock_nanosleep_time64, CLOCK_MONOTONIC, 0, time);
    return 0;
}

/* One that waits for the end goes on, if there is one. */
static bool end_one(void)
{
    for (struct waiter *it = first; it; it = it->next)
        if (it->is_for_end) {
            let_go_on(it, 0);
            return true;
        }
    return false;
}

/* Answers whether a thread can go on then. */
static bool ask_for_all(void)
{
    static int after_end;
    long count = gather();
    int64_t end = earliest_end();
    if (!count && end == NEVER)
        return end_one();
    yields = 0;
    long ready = ask(count, end);
    if (ready == -EINTR || (after_end && !ready))
        after_end++;
    if (after_end > MOST_AFTER_END)
        end_process(0);
    if (ready > 0)
        hand_out_all();
    else if (ready < 0)
        interrupt_one();
    else
        end_waits(end);
    return true;
}

struct waiter *next_thread(void)
{
    struct waiter *next = longest_waiting();
    while (!next && ask_for_all())
        next = longest_waiting();
    return next;
}

/* ---- what threads wait for */

long wake_waiters(const int *word, long most)
{
    long woken = 0;
    for (struct waiter *it = first; it && woken < most; it = it->next)
        if (it->word == word && !it->can_go_on) {
            let_go_on(it, 0);
            woken++;
        }
    return woken;
}

void wait_for_threads(void)
{
    if (has_threads())
        wait_with_others(&(struct waiter){.is_for_end = true, .end = NEVER});
}

/* Files never wait, and descriptors 1 and 2 are never read. */
static bool can_wait(long fd, const struct descriptor *asked)
{
    return asked->kind == LISTENER || asked->kind == CONNECTION || (asked->kind == ANY_FILE && !asked->inode && fd != 1 && fd != 2);
}

/* Another thread may take what has come, or close the descriptor. */
void wait_for_arrival(long fd)
{
    struct descriptor *asked = descriptor_of(fd);
    if (!asked || !can_wait(fd, asked) || !has_threads() || !kernel_polls())
        return;
    bool waits = !asked->waits_not;
    while (waits && asked->is_open && !asked->has_come) {
        struct pollfd one = {.fd = fd, .events = POLLIN};
        waits = wait_with_others(&(struct waiter){.polled = &one, .count = 1, .end = NEVER}) > 0;
    }
    asked->has_come = false;
}

static bool is_time(const int64_t *time)
{
    return time[0] >= 0 && time[0] < NEVER / BILLION / 2 && time[1] >= 0 && time[1] < BILLION;
}

static long polled_by_others(void)
{
    long count = 0;
    for (struct waiter *it = first; it; it = it->next)
        count += it->count;
    return count;
}

/* Whether a poll of so many, with this timeout, has to wait beside others, and can. */
static bool is_shared(long count, const int64_t *timeout)
{
    bool waits = !timeout || (is_time(timeout) && nanoseconds(timeout) > 0);
    return waits && count <= MOST_POLLED && has_threads() && kernel_polls() && polled_by_others() + count <= MOST_POLLED;
}

/* One that found nothing may be asked again and again, for what another thread does. */
static long poll_alone(struct pollfd *asked, long count, const int64_t *timeout)
{
    long ready = KERNEL(SYS_ppoll_time64, asked, count, timeout);
    if (!ready)
        let_others_go_on();
    return ready;
}

long poll_with_others(struct pollfd *asked, long count, const int64_t *timeout)
{
    if (count == 0 || !is_shared(count, timeout))
        return poll_alone(asked, count, timeout);
    for (long i = 0; i < count; i++)
        asked[i].revents = 0;
    return wait_with_others(&(struct waiter){.polled = asked, .count = count, .end = time_after(timeout)});
}

long poll_watched(struct pollfd *asked, long count, const int64_t *timeout, int64_t end, const int *changes)
{
    if (!is_shared(count, timeout))
        return -ENOSYS;
    long ready = wait_with_others(&(struct waiter){.word = changes, .polled = asked, .count = count, .end = end});
    if (ready == -ETIMEDOUT)
        return 0;
    return ready == 0 ? -EAGAIN : ready;
}

long sleep_with_others(long clock, long flags, const int64_t *time)
{
    if (!has_threads() || !kernel_polls() || !is_time(time)) {
        let_others_go_on();
        return sleep_until(clock, flags, time);
    }
    wait_with_others(&(struct waiter){.end = flags & TIMER_ABSTIME ? nanoseconds(time) : time_after(time)});
    return 0;
}

static bool can_others_go_on(void)
{
    struct waiter *it = first;
    while (it && !it->can_go_on)
        it = it->next;
    return it;
}

void let_others_go_on(void)
{
    if (can_others_go_on())
        wait_with_others(&(struct waiter){.can_go_on = true, .end = NEVER});
}

/* One that yields again and again waits for what others do. These may wait for arrivals: the kernel is asked for them, a hundred times a second at most. */
long yield(void)
{
    bool others_wait = polled_by_others() || earliest_end() != NEVER;
    if (others_wait && (!can_others_go_on() || ++yields > MOST_YIELDS))
        return wait_with_others(&(struct waiter){.end = now() + YIELD});
    let_others_go_on();
    return 0;
}
