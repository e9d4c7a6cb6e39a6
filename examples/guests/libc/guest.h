/* What the parts of this layer share: the calls that go to the kernel, the table of descriptors, and the parts of the other files. */
#include <stdbool.h>
#include <stddef.h>
#include <stdint.h>

/* ---- calls of the kernel */

/* The call of this number: its result, or an error as -1 to -4,095. */
long kernel_call(long number, long a, long b, long c, long d, long e, long f);

#define KERNEL_SIX(n, a, b, c, d, e, f, ...) \
    kernel_call((n), (long)(a), (long)(b), (long)(c), (long)(d), (long)(e), (long)(f))
/* The same, where the arguments that are left out are 0. */
#define KERNEL(...) KERNEL_SIX(__VA_ARGS__, 0, 0, 0, 0, 0, 0, 0)

/* Every call of the C library comes here (calls.c). */
long guest_call(long number, long a, long b, long c, long d, long e, long f);

/* ---- descriptors (descriptors.c, sockets.c) */

enum { DESCRIPTORS = 1024, FIRST_SOCKET = 64, ONLY_DIRECTORY = -100 };
enum kind { ANY_FILE, NEW_SOCKET, LISTENER, CONNECTION };

struct descriptor {
    bool is_open, closes_on_exec, waits_not;
    bool is_inherited;   /* a child has it of its parent, and hasn't closed it */
    bool has_come;       /* a poll for several threads reported an arrival that no call has taken since */
    enum kind kind;
    unsigned short port; /* of a socket: its own */
    unsigned short peer; /* of a connection: the client's */
    int taken;           /* of a listener: the connection that a poll found, or 0 */
    int kept;            /* the number by which a child keeps what it closed for its parent, or 0 */
    uint32_t inode;
    struct epoll *epoll; /* whose descriptor it is, or a null pointer */
};

/* The descriptor of this number, or a null pointer where it isn't open. */
struct descriptor *descriptor_of(long fd);
/* A number that the kernel has given. */
struct descriptor *opened(long fd, enum kind kind);

long open_file(const char *path, long flags, long mode);
long remove_file(const char *path, long flags);
long close_descriptor(long fd);
long copy_descriptor(long fd, long least, bool closes_on_exec);
long copy_onto(long fd, long number, long flags);
long make_pipe(int *ends, long flags);
long control_descriptor(long fd, long command, long argument);
long control_device(long fd, unsigned long request, int *argument);
long file_status(long directory, const char *path, long flags, void *status);
long can_access(const char *path);
long change_directory(const char *path);
long move_at(long number, long fd, void *bytes, long length, uint64_t offset);
long send_file(long to, long from, int64_t *offset, long length);

long new_socket(long domain, long type, long protocol);
long bind_socket(long fd, const unsigned char *address, long length);
long listen_at(long fd, long backlog);
long accept_client(long fd, void *address, unsigned *length, long flags);
long own_address(long fd, void *address, unsigned *length);
long peer_address(long fd, void *address, unsigned *length);
long socket_option(long fd, long level, long name, int *value, unsigned *length);
long connect_socket(long fd);
long on_connection(long fd);
struct pollfd;
long poll_descriptors(struct pollfd *asked, long count, const int64_t *timeout, const uint64_t *mask);
long select_descriptors(long count, void *readable, void *writable, void *special, const int64_t *timeout, const uint64_t *mask);
/* The kernel is told whether calls on this descriptor wait; one that has no call for it isn't asked again. */
void set_waiting(long fd, bool waits_not);
/* Whether the kernel has calls that wait for one of several descriptors, or for a time: it is asked once, by a poll with a bad time, which never waits. */
bool kernel_polls(void);
/* Waits until then, where the kernel has a call for it. */
long sleep_until(long clock, long flags, const int64_t *time);
void not_quiet(void);
/* A wait with an end found nothing. */
void nothing_came(void);

/* pselect6 of these sets, of which either may be a null pointer; -ENOSYS where the kernel has none. */
long select_sets(long most, void *readable, void *writable, const int64_t *timeout);

/* A child begins, with its parent's descriptors; and ends. */
void inherit_descriptors(void);
void return_descriptors(void);

/* ---- epoll (epoll.c) */

struct epoll_event;
long new_epoll(long flags);
long control_epoll(long number, long operation, long fd, const struct epoll_event *event);
long wait_epoll(long number, struct epoll_event *events, long most, long milliseconds, const uint64_t *mask);
/* One more descriptor is this epoll's; one less. */
void use_epoll(struct epoll *epoll);
void leave_epoll(struct epoll *epoll);
/* A number isn't watched any more. */
void leave_epolls(long fd);
/* After a call that reads or accepts; after one that had less room than it wanted: what was told with EPOLLET is told again. */
void was_read(long fd);
void was_full(long fd);

/* ---- memory (memory.c) */

long map_pages(long address, unsigned long length, long flags, long fd, unsigned long page);
long unmap_pages(unsigned long address, unsigned long length);
unsigned long heap_start(void);
void *pages_at_end(unsigned long length);

/* ---- processes and signals (processes.c, signals.c) */

long process_number(void);
bool is_child(void);
long parent_number(void);
long fork_process(void);
_Noreturn void end_process(long status);
_Noreturn void end_by_signal(int signal);
/* Nothing will come any more: what Linux would wait for has no end, and the process ends. */
_Noreturn void end_of_waiting(void);
/* Says on descriptor 2 what can't be had, and ends the process. */
_Noreturn void cannot(const char *what);
long wait_for_child(long which, long process, void *info, long options);

/* ---- threads (threads.c, waiting.c) */

bool has_threads(void);
long thread_number(void);
_Noreturn void end_thread(long status);
long wait_or_wake(int *word, long operation, long value, const void *timeout, long count);

/* A time that never comes; others are nanoseconds of the monotonic clock. */
#define NEVER INT64_MAX

/* A thread that waits, on its own stack. What it doesn't wait for is 0, and the end NEVER. */
struct waiter {
    struct waiter *next;
    const int *word;       /* of a futex */
    struct pollfd *polled; /* so many descriptors */
    long count;
    int64_t end;
    bool is_for_end;       /* it waits until no other thread can go on any more */
    bool can_go_on;
    long result;
    int has_turn;          /* the word at which it sleeps */
};

/* The turn goes to others until this thread can go on, and gets it back. Its result. */
long wait_with_others(struct waiter *own);
/* Adds a thread to those that wait. */
void add_waiter(struct waiter *thread);
/* Sleeps until the thread has the turn. */
void wait_for_turn(struct waiter *own);
/* The thread that has the turn next; a null pointer where none can ever go on. */
struct waiter *next_thread(void);
/* Lets those go on that wait at this word, so many at most. Answers how many. */
long wake_waiters(const int *word, long most);
/* The time after this timeout; NEVER after none. */
int64_t time_after(const int64_t *timeout);
/* Nothing will come for this thread any more. It comes back once no other can go on. */
void wait_for_threads(void);
/* Before a call on this descriptor that waits for an arrival: if there are other threads, they go on until it doesn't. */
void wait_for_arrival(long fd);
/* The kernel's ppoll, and its wait until then; if there are other threads, these go on. */
long poll_with_others(struct pollfd *asked, long count, const int64_t *timeout);
long sleep_with_others(long clock, long flags, const int64_t *time);
/*
 * A poll beside other threads up to this end, which also ends when one wakes those that wait at the word: -EAGAIN. -ENOSYS without other threads, with no time
 * to wait, or where they don't go on meanwhile.
 */
long poll_watched(struct pollfd *asked, long count, const int64_t *timeout, int64_t end, const int *changes);
/* The turn goes to threads that can go on, if there are some, and comes back. */
void let_others_go_on(void);
long yield(void);

long set_handler(long signal, const void *new, void *old);
long set_mask(long how, const uint64_t *set, uint64_t *old);
long pending_signals(uint64_t *set);
long wait_for_signal(const uint64_t *set);
long send_signal(long process, long signal);
void raise_signal(int signal);
/*
 * Nobody comes any more: a handler of SIGTERM or else of SIGINT is called, once, and the answer is -EINTR; where there is none the process ends. Later a wait with an
 * end lasts to its end, so many times, and one without ends the process.
 */
long end_of_service(const int64_t *timeout, const uint64_t *mask);
