/*
 * fork, as a child that runs to its end before its parent goes on. What can be written is copied when it begins (the data, the heap and the stack
 * above the call) and put back when it ends, so the two share nothing that Linux doesn't have them share. There is no other program: exec can't be had.
 */
#include "guest.h"
#include <errno.h>
#include <setjmp.h>
#include <signal.h>
#include <string.h>
#include <sys/syscall.h>
#include <sys/wait.h>

extern char __data_start[], __data_end[], __stack_end[];
_Noreturn void go_on_at(void *stack_end, void (*work)(void *), void *argument);

enum { MOST_ENDED = 64, RESTORING_STACK = 1024, NO_PROGRAM = 127 };
enum { DATA, HEAP, STACK, PARTS };

struct part {
    char *start;
    unsigned long size;
};

/* A parent as it was when its child began. */
struct parent {
    struct parent *outer;
    jmp_buf registers;
    long number, last_number; /* of the parent; and the last that was given */
    int child_status;
    unsigned long size;       /* of all this, with the stack on which it is put back */
    struct part parts[PARTS];
    char bytes[];             /* of the parts, one after the other */
};

/* The parent of the process that runs, or a null pointer in the first one. */
static struct parent *parent;
static long first_number, own_number, last_number;

/* Children that have ended, and what a wait says of them. */
static struct {
    long number;
    int status;
} ended[MOST_ENDED];
static int ended_count;

long process_number(void)
{
    if (!first_number)
        first_number = own_number = last_number = KERNEL(SYS_gettid);
    return own_number;
}

long thread_number(void)
{
    long process = process_number(), number = KERNEL(SYS_gettid);
    return number == first_number ? process : number;
}

bool is_child(void)
{
    return parent;
}

long parent_number(void)
{
    return parent ? parent->number : KERNEL(SYS_getppid);
}

/* ---- a child's beginning and its end */

static struct parent *new_parent(char *stack)
{
    char *heap = (char *)heap_start(), *heap_end = pages_at_end(0);
    struct part parts[PARTS] = {
        [DATA] = {__data_start, __data_end - __data_start}, [HEAP] = {heap, heap_end - heap}, [STACK] = {stack, __stack_end - stack},
    };
    unsigned long size = sizeof(struct parent) + parts[DATA].size + parts[HEAP].size + parts[STACK].size + RESTORING_STACK;
    struct parent *made = pages_at_end(size);
    if (made) {
        made->outer = parent;
        made->number = process_number();
        made->size = size;
        memcpy(made->parts, parts, sizeof parts);
    }
    return made;
}

static void save(struct parent *saved)
{
    char *next = saved->bytes;
    for (int i = 0; i < PARTS; next += saved->parts[i++].size)
        memcpy(next, saved->parts[i].start, saved->parts[i].size);
}

static void restore(void *argument)
{
    struct parent *saved = argument;
    char *next = saved->bytes;
    for (int i = 0; i < PARTS; next += saved->parts[i++].size)
        memcpy(saved->parts[i].start, next, saved->parts[i].size);
    longjmp(saved->registers, 1);
}

/* What fork answers in the parent, whose child has ended. */
static long child_has_ended(void)
{
    struct parent *saved = parent;
    long child = ++last_number;
    last_number = saved->last_number;
    if (ended_count < MOST_ENDED) {
        ended[ended_count].number = child;
        ended[ended_count++].status = saved->child_status;
    }
    parent = saved->outer;
    unmap_pages((unsigned long)saved, saved->size);
    raise_signal(SIGCHLD);
    return child;
}

long fork_process(void)
{
    char *stack;
    __asm__ volatile("mv %0, sp" : "=r"(stack));
    struct parent *saved = new_parent(stack);
    if (!saved)
        return -ENOMEM;
    parent = saved;
    if (setjmp(saved->registers))
        return child_has_ended();
    save(saved);
    own_number = ++last_number;
    ended_count = 0;
    inherit_descriptors();
    return 0;
}

static _Noreturn void end_with(int status)
{
    if (!parent)
        KERNEL(SYS_exit_group, status & 127 ? 128 + (status & 127) : status >> 8);
    return_descriptors();
    parent->child_status = status;
    parent->last_number = last_number;
    go_on_at((void *)(((unsigned long)parent + parent->size) & -16UL), restore, parent);
}

_Noreturn void end_process(long status)
{
    end_with((status & 255) << 8);
}

/* A program that gives itself up, as by abort, sends itself one of these, and so does Linux to one that can't go on. */
static bool is_fault(int signal)
{
    switch (signal) {
    case SIGILL: case SIGTRAP: case SIGABRT: case SIGBUS: case SIGFPE: case SIGSEGV: case SIGSYS: return true;
    default: return false;
    }
}

/* An exit would be the service's end. By an EBREAK, which is a fault, the next version leads. */
_Noreturn void end_by_signal(int signal)
{
    if (!parent && is_fault(signal))
        __builtin_trap();
    end_with(signal);
}

_Noreturn void end_of_waiting(void)
{
    wait_for_threads();
    end_process(0);
}

_Noreturn void cannot(const char *what)
{
    KERNEL(SYS_write, 2, "guest: ", 7);
    KERNEL(SYS_write, 2, what, strlen(what));
    KERNEL(SYS_write, 2, "\n", 1);
    end_process(NO_PROGRAM);
}

/* ---- waiting for children: each that there is has ended */

long wait_for_child(long which, long process, void *info, long options)
{
    int found = 0;
    while (found < ended_count && which == P_PID && ended[found].number != process)
        found++;
    if (found == ended_count)
        return -ECHILD;
    int status = ended[found].status, signal = status & 127;
    if (info)
        *(siginfo_t *)info = (siginfo_t){
            .si_signo = SIGCHLD, .si_code = signal ? CLD_KILLED : CLD_EXITED,
            .si_pid = ended[found].number, .si_uid = 1000, .si_status = signal ? signal : status >> 8,
        };
    if (!(options & WNOWAIT)) {
        ended_count--;
        memmove(ended + found, ended + found + 1, (ended_count - found) * sizeof *ended);
    }
    return 0;
}
