/*
 * Threads, by clone of the kernel with the flags that it takes: their beginning, their end, and the futexes by which the C library's threads wait for each
 * other. Which of them has the turn is in waiting.c. Of what the library asks of clone besides, a thread's number is written where the library looks for it, and
 * where a thread ends the library's lock on its list of threads is given back.
 */
#include "guest.h"
#include <errno.h>
#include <sched.h>
#include <sys/syscall.h>

enum {
    FLAGS = CLONE_VM | CLONE_FS | CLONE_FILES | CLONE_SIGHAND | CLONE_THREAD | CLONE_SYSVSEM | CLONE_SETTLS,
    LIBRARY_FLAGS = FLAGS | CLONE_PARENT_SETTID | CLONE_CHILD_CLEARTID | CLONE_DETACHED,
};
/* futex(2) */
enum { WAIT = 0, WAKE = 1, REQUEUE = 3, PRIVATE = 128, REALTIME = 256 };

/* What a thread finds at the end of its stack when it begins. */
struct start {
    int (*work)(void *);
    void *argument;
    struct waiter own;
};

long new_thread(long flags, struct start *start, void *locals);
_Noreturn void leave_thread(int *next_has_turn);

static int living = 1;
/* The C library's lock on its list of threads; a null pointer until there is a second thread. */
static int *list_lock;

bool has_threads(void)
{
    return living > 1;
}

/* ---- a thread's beginning and its end */

/* In place of the C library's own. It makes threads alone. */
int __clone(int (*work)(void *), void *stack, int flags, void *argument, int *number, void *locals, int *lock)
{
    if (flags != LIBRARY_FLAGS)
        return -ENOSYS;
    if (is_child())
        return -EAGAIN;
    struct start *start = (struct start *)((unsigned long)stack & -16UL) - 1;
    start = (struct start *)((unsigned long)start & -16UL);
    *start = (struct start){.work = work, .argument = argument, .own = {.can_go_on = true, .end = NEVER}};
    /* one that has given its turn away may have its last instructions before it: it isn't to be one thread too many */
    KERNEL(SYS_sched_yield);
    long made = new_thread(FLAGS, start, locals);
    if (made < 0)
        return made;
    list_lock = lock;
    living++;
    *number = made;
    add_waiter(&start->own);
    return made;
}

/* Where a thread begins. The C library ends it: its work doesn't come back. */
_Noreturn void begin_thread(struct start *start)
{
    wait_for_turn(&start->own);
    start->work(start->argument);
    __builtin_trap();
}

_Noreturn void end_thread(long status)
{
    if (!has_threads())
        end_process(status);
    living--;
    *list_lock = 0;
    wake_waiters(list_lock, 1);
    struct waiter *next = next_thread();
    leave_thread(next ? &next->has_turn : NULL);
}

/* The end of a thread that nobody waits for: its stack, on which this isn't done any more, is given back. */
_Noreturn void end_without_stack(void *pages, unsigned long length)
{
    unmap_pages((unsigned long)pages, length);
    end_thread(0);
}

/* ---- futexes */

/* A wait with an end where the kernel has none: the others have a turn, and the time has gone by. */
static long wait_in_vain(const int *word, long value)
{
    let_others_go_on();
    if (*word != value)
        return -EAGAIN;
    nothing_came();
    return -ETIMEDOUT;
}

static long wait_on(const int *word, long value, const int64_t *timeout)
{
    if (timeout && (!list_lock || !kernel_polls()))
        return wait_in_vain(word, value);
    if (*word != value)
        return -EAGAIN;
    return wait_with_others(&(struct waiter){.word = word, .end = time_after(timeout)});
}

long wait_or_wake(int *word, long operation, long value, const void *timeout, long count)
{
    switch (operation & ~(PRIVATE | REALTIME)) {
    case WAIT: return wait_on(word, value, timeout);
    case WAKE: return wake_waiters(word, value);
    /* Those that would wait at another word are woken: they look there themselves. */
    case REQUEUE: return wake_waiters(word, value + count);
    default: return -ENOSYS;
    }
}
