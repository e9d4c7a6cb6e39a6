/*
 * Every call of the C library comes here. What the kernel has goes through to it; what it lacks is done by what it has, or answered by what a
 * page says (README.md). No answer follows an address, a time or anything else in which two versions may differ.
 */
#include "guest.h"
#include <errno.h>
#include <fcntl.h>
#include <signal.h>
#include <string.h>
#include <sys/resource.h>
#include <sys/socket.h>
#include <sys/syscall.h>
#include <sys/uio.h>
#include <time.h>

extern char __stack_size[];

enum { USER = 1000 };

static long set_umask(long mask)
{
    static long kept = 022;
    long before = kept;
    kept = mask & 0777;
    return before;
}

static long limits(long resource, uint64_t *old)
{
    if (!old)
        return 0;
    old[0] = old[1] = ~0ULL;
    if (resource == RLIMIT_NOFILE)
        old[0] = old[1] = DESCRIPTORS;
    if (resource == RLIMIT_STACK)
        old[0] = old[1] = (unsigned long)__stack_size;
    return 0;
}

static long set_three(long first, long second, long third)
{
    *(int *)first = *(int *)second = *(int *)third = USER;
    return 0;
}

/* The script's clock. The time that a process has used is always 0. */
static long clock_time(long clock, int64_t *time)
{
    switch (clock) {
    case CLOCK_PROCESS_CPUTIME_ID:
    case CLOCK_THREAD_CPUTIME_ID:
        time[0] = time[1] = 0;
        return 0;
    case CLOCK_REALTIME_COARSE:
        return KERNEL(SYS_clock_gettime64, CLOCK_REALTIME, time);
    case CLOCK_MONOTONIC_RAW:
    case CLOCK_MONOTONIC_COARSE:
    case CLOCK_BOOTTIME:
        return KERNEL(SYS_clock_gettime64, CLOCK_MONOTONIC, time);
    default:
        return KERNEL(SYS_clock_gettime64, clock, time);
    }
}

static long clock_step(int64_t *step)
{
    if (step) {
        step[0] = 0;
        step[1] = 1;
    }
    return 0;
}

static long clear(long address, unsigned long length)
{
    if (address)
        memset((void *)address, 0, length);
    return 0;
}

static long clone_process(long flags)
{
    if ((flags & ~0xffL) || (flags & 0xff) != SIGCHLD)
        return -ENOSYS;
    if (has_threads())
        return -EAGAIN;
    return fork_process();
}

static long write_bytes(long fd, long bytes, long length)
{
    long written = KERNEL(SYS_write, fd, bytes, length);
    if (written < length)
        was_full(fd);
    return written;
}

static long write_parts(long fd, const struct iovec *parts, long count)
{
    long left = KERNEL(SYS_writev, fd, parts, count), written = left;
    for (long i = 0; i < count && left >= 0; i++)
        left -= parts[i].iov_len;
    if (written < 0 || left < 0)
        was_full(fd);
    return written;
}

static long send_message(long fd, const struct msghdr *message)
{
    return write_parts(fd, message->msg_iov, message->msg_iovlen);
}

/* read and readv */
static long read_descriptor(long n, long fd, long bytes, long length)
{
    wait_for_arrival(fd);
    long result = KERNEL(n, fd, bytes, length);
    was_read(fd);
    return result;
}

static long receive_message(long fd, struct msghdr *message)
{
    long result = read_descriptor(SYS_readv, fd, (long)message->msg_iov, message->msg_iovlen);
    message->msg_controllen = 0;
    message->msg_flags = 0;
    message->msg_namelen = 0;
    return result;
}

static long receive(long fd, void *bytes, long length, long flags)
{
    return flags & (MSG_PEEK | MSG_OOB) ? -EOPNOTSUPP : read_descriptor(SYS_read, fd, (long)bytes, length);
}

/* ---- the calls by their numbers: those of each function below, the others go on to the next */

static long socket_call(long n, long a, long b, long c, long d, long e, long f)
{
    switch (n) {
    case SYS_socket: return new_socket(a, b, c);
    case SYS_socketpair: return -EAFNOSUPPORT;
    case SYS_bind: return bind_socket(a, (void *)b, c);
    case SYS_listen: return listen_at(a, b);
    case SYS_accept: return accept_client(a, (void *)b, (void *)c, 0);
    case SYS_accept4: return accept_client(a, (void *)b, (void *)c, d);
    case SYS_connect: return connect_socket(a);
    case SYS_getsockname: return own_address(a, (void *)b, (void *)c);
    case SYS_getpeername: return peer_address(a, (void *)b, (void *)c);
    case SYS_setsockopt: return own_address(a, NULL, NULL);
    case SYS_getsockopt: return socket_option(a, b, c, (void *)d, (void *)e);
    case SYS_shutdown: return on_connection(a);
    case SYS_sendto: return write_bytes(a, b, c);
    case SYS_recvfrom: return receive(a, (void *)b, c, d);
    case SYS_sendmsg: return send_message(a, (void *)b);
    case SYS_recvmsg: return receive_message(a, (void *)b);
    case SYS_sendfile64: return send_file(a, b, (void *)c, d);
    case SYS_ppoll_time64: return poll_descriptors((void *)a, b, (void *)c, (void *)d);
    case SYS_pselect6_time64: return select_descriptors(a, (void *)b, (void *)c, (void *)d, (void *)e, f ? *(const uint64_t **)f : NULL);
    case SYS_epoll_create1: return new_epoll(a);
    case SYS_epoll_ctl: return control_epoll(a, b, c, (void *)d);
    case SYS_epoll_pwait: return wait_epoll(a, (void *)b, c, d, (void *)e);
    default: return KERNEL(n, a, b, c, d, e, f);
    }
}

static long file_call(long n, long a, long b, long c, long d, long e, long f)
{
    switch (n) {
    case SYS_read:
    case SYS_readv: return read_descriptor(n, a, b, c);
    case SYS_write: return write_bytes(a, b, c);
    case SYS_writev: return write_parts(a, (void *)b, c);
    case SYS_openat: return open_file((void *)b, c, d);
    case SYS_unlinkat: return remove_file((void *)b, c);
    case SYS_close: return close_descriptor(a);
    case SYS_dup: return copy_descriptor(a, 0, false);
    case SYS_dup3: return copy_onto(a, b, c);
    case SYS_pipe2: return make_pipe((void *)a, b);
    case SYS_fcntl64: return control_descriptor(a, b, c);
    case SYS_ioctl: return control_device(a, b, (void *)c);
    case SYS_statx: return file_status(a, (void *)b, c, (void *)e);
    case SYS_faccessat:
    case SYS_faccessat2: return can_access((void *)b);
    case SYS_readlinkat: return can_access((void *)b) < 0 ? -ENOENT : -EINVAL;
    case SYS_chdir: return change_directory((void *)a);
    case SYS_pread64: return move_at(SYS_read, a, (void *)b, c, (uint32_t)d | (uint64_t)e << 32);
    case SYS_pwrite64: return move_at(SYS_write, a, (void *)b, c, (uint32_t)d | (uint64_t)e << 32);
    case SYS_umask: return set_umask(a);
    case SYS_flock:
    case SYS_fchmod:
    case SYS_fchmodat:
    case SYS_fchown:
    case SYS_fchownat:
    case SYS_utimensat_time64:
    case SYS_fsync:
    case SYS_fdatasync:
    case SYS_sync: return 0;
    default: return socket_call(n, a, b, c, d, e, f);
    }
}

static long process_call(long n, long a, long b, long c, long d, long e, long f)
{
    switch (n) {
    case SYS_exit: end_thread(a);
    case SYS_exit_group: end_process(a);
    case SYS_clone: return clone_process(a);
    case SYS_execve:
    case SYS_execveat: cannot("exec: there is no other program");
    case SYS_waitid: return wait_for_child(a, b, (void *)c, d);
    case SYS_getpid: return process_number();
    case SYS_gettid: return thread_number();
    case SYS_set_tid_address: return process_number();
    case SYS_getppid: return parent_number();
    case SYS_kill:
    case SYS_tkill: return send_signal(a, b);
    case SYS_tgkill: return send_signal(b, c);
    case SYS_rt_sigaction: return set_handler(a, (void *)b, (void *)c);
    case SYS_rt_sigprocmask: return set_mask(a, (void *)b, (void *)c);
    case SYS_rt_sigpending: return pending_signals((void *)a);
    case SYS_rt_sigsuspend: return wait_for_signal((void *)a);
    case SYS_sigaltstack:
    case SYS_setitimer: return clear(c, 16);
    case SYS_getitimer: return clear(b, 16);
    case SYS_getrusage: return clear(b, sizeof(struct rusage));
    case SYS_prlimit64: return limits(b, (void *)d);
    case SYS_getresuid:
    case SYS_getresgid: return set_three(a, b, c);
    case SYS_getgroups:
    case SYS_setgroups:
    case SYS_setuid:
    case SYS_setgid:
    case SYS_setreuid:
    case SYS_setregid:
    case SYS_setresuid:
    case SYS_setresgid:
    case SYS_setpgid:
    case SYS_set_robust_list:
    case SYS_prctl: return 0;
    case SYS_getpgid:
    case SYS_getsid:
    case SYS_setsid: return process_number();
    default: return file_call(n, a, b, c, d, e, f);
    }
}

static bool leaves_quiet(long n)
{
    return n == SYS_ppoll_time64 || n == SYS_pselect6_time64 || n == SYS_epoll_pwait || n == SYS_clock_gettime64 || n == SYS_rt_sigprocmask;
}

static long answer(long n, long a, long b, long c, long d, long e, long f)
{
    switch (n) {
    case SYS_brk: return heap_start();
    case SYS_mmap2: return map_pages(a, b, d, e, f);
    case SYS_munmap: return unmap_pages(a, b);
    case SYS_mremap: return -ENOMEM;
    case SYS_mprotect:
    case SYS_msync:
    case SYS_madvise: return 0;
    case SYS_clock_gettime64: return clock_time(a, (void *)b);
    case SYS_clock_getres_time64: return clock_step((void *)b);
    case SYS_clock_nanosleep_time64: return sleep_with_others(a, b, (void *)c);
    case SYS_sched_yield: return yield();
    default: return process_call(n, a, b, c, d, e, f);
    }
}

long guest_call(long n, long a, long b, long c, long d, long e, long f)
{
    if (n == SYS_futex_time64)
        return wait_or_wake((void *)a, b, c, (void *)d, d);
    if (!leaves_quiet(n))
        not_quiet();
    return answer(n, a, b, c, d, e, f);
}
