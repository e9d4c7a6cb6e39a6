/*
 * Signals that a process sends itself, and SIGCHLD. None comes from outside, and no timer ends. A handler is called where the signal is sent,
 * or where it isn't blocked any more. What is blocked is what the first thread blocks.
 */
#include "guest.h"
#include <errno.h>
#include <signal.h>
#include <sys/syscall.h>
#include <time.h>

enum { SIGNALS = 64, MOST_LAST = 16 };

/* as the C library has it */
struct action {
    union {
        void (*handler)(int);
        void (*with_info)(int, siginfo_t *, void *);
    };
    unsigned long flags;
    void (*restorer)(void);
    uint32_t mask[2];
};

static struct action actions[SIGNALS + 1];
static uint64_t blocked, pending;

static uint64_t bit(int signal)
{
    return 1ULL << (signal - 1);
}

static bool is_ignored(int signal)
{
    void (*handler)(int) = actions[signal].handler;
    return handler == SIG_IGN ||
           (handler == SIG_DFL && (signal == SIGCHLD || signal == SIGCONT || signal == SIGURG || signal == SIGWINCH));
}

static void handle(int signal)
{
    struct action action = actions[signal];
    uint64_t before = blocked;
    if (action.handler == SIG_DFL)
        end_by_signal(signal);
    blocked |= action.mask[0] | (uint64_t)action.mask[1] << 32;
    if (!(action.flags & SA_NODEFER))
        blocked |= bit(signal);
    if (action.flags & SA_RESETHAND)
        actions[signal].handler = SIG_DFL;
    if (action.flags & SA_SIGINFO) {
        siginfo_t info = {.si_signo = signal, .si_pid = process_number(), .si_uid = 1000};
        action.with_info(signal, &info, NULL);
    } else {
        action.handler(signal);
    }
    blocked = before;
}

/* Handles what is sent and isn't blocked. Answers whether there was any. */
static bool handle_pending(void)
{
    bool any = false;
    for (int signal = 1; signal <= SIGNALS; signal++)
        if (pending & ~blocked & bit(signal)) {
            pending &= ~bit(signal);
            handle(signal);
            any = true;
        }
    return any;
}

void raise_signal(int signal)
{
    if (is_ignored(signal))
        return;
    pending |= bit(signal);
    handle_pending();
}

long send_signal(long process, long signal)
{
    if (signal < 0 || signal > SIGNALS)
        return -EINVAL;
    if (process != 0 && process != process_number() && process != thread_number())
        return -ESRCH;
    if (signal)
        raise_signal(signal);
    return 0;
}

long set_handler(long signal, const void *new, void *old)
{
    if (signal < 1 || signal > SIGNALS || (new && (signal == SIGKILL || signal == SIGSTOP)))
        return -EINVAL;
    struct action before = actions[signal];
    if (new)
        actions[signal] = *(const struct action *)new;
    if (old)
        *(struct action *)old = before;
    return 0;
}

long set_mask(long how, const uint64_t *set, uint64_t *old)
{
    uint64_t before = blocked;
    if (set && thread_number() == process_number()) {
        if (how == SIG_BLOCK)
            blocked |= *set;
        else if (how == SIG_UNBLOCK)
            blocked &= ~*set;
        else if (how == SIG_SETMASK)
            blocked = *set;
        else
            return -EINVAL;
        blocked &= ~(bit(SIGKILL) | bit(SIGSTOP));
        handle_pending();
    }
    if (old)
        *old = before;
    return 0;
}

long pending_signals(uint64_t *set)
{
    *set = pending;
    return 0;
}

static bool has_handler(int signal)
{
    return actions[signal].handler != SIG_DFL && actions[signal].handler != SIG_IGN && !(blocked & bit(signal));
}

static long tell_of_end(const uint64_t *mask)
{
    uint64_t before = blocked;
    if (mask)
        blocked = *mask;
    int signal = has_handler(SIGTERM) ? SIGTERM : SIGINT;
    if (!has_handler(signal))
        end_of_waiting();
    raise_signal(signal);
    blocked = before;
    return -EINTR;
}

long end_of_service(const int64_t *timeout, const uint64_t *mask)
{
    static int told;
    if (told++ == 0)
        return tell_of_end(mask);
    if (!timeout || told > MOST_LAST)
        end_of_waiting();
    sleep_until(CLOCK_MONOTONIC, 0, timeout);
    return 0;
}

/* sigsuspend. Where no signal is pending none will come. */
long wait_for_signal(const uint64_t *set)
{
    uint64_t before = blocked;
    blocked = *set;
    if (!handle_pending())
        end_of_waiting();
    blocked = before;
    return -EINTR;
}
