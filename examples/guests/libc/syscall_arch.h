/* In place of the C library's own file of this name: its calls go to guest_call, and no instruction ecall is left in it. */
#define __SYSCALL_LL_E(x) ((long)(x)), ((long)((unsigned long long)(x) >> 32))
#define __SYSCALL_LL_O(x) __SYSCALL_LL_E(x)

long guest_call(long, long, long, long, long, long, long);

static inline long __syscall0(long n) { return guest_call(n, 0, 0, 0, 0, 0, 0); }
static inline long __syscall1(long n, long a) { return guest_call(n, a, 0, 0, 0, 0, 0); }
static inline long __syscall2(long n, long a, long b) { return guest_call(n, a, b, 0, 0, 0, 0); }
static inline long __syscall3(long n, long a, long b, long c) { return guest_call(n, a, b, c, 0, 0, 0); }
static inline long __syscall4(long n, long a, long b, long c, long d) { return guest_call(n, a, b, c, d, 0, 0); }
static inline long __syscall5(long n, long a, long b, long c, long d, long e) { return guest_call(n, a, b, c, d, e, 0); }
static inline long __syscall6(long n, long a, long b, long c, long d, long e, long f) { return guest_call(n, a, b, c, d, e, f); }

#define IPC_64 0
