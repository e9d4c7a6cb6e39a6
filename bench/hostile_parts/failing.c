/* Preloaded into the program: one call of the C library fails, or reads or writes one byte alone.
 *
 *     FAILING=KIND:N   the N-th call of this kind, from 0: alloc, open, read, write, short-read or short-write
 *     COUNTED=PATH     where the numbers of calls are put at the end, as "alloc open read write"
 *     SIZED=PATH       where the bytes of the greatest allocation and the number of threads started are put, as "bytes threads"
 */
#define _GNU_SOURCE
#include <dlfcn.h>
#include <errno.h>
#include <fcntl.h>
#include <pthread.h>
#include <stdarg.h>
#include <stdatomic.h>
#include <stdio.h>
#include <stdlib.h>
#include <string.h>
#include <sys/syscall.h>
#include <unistd.h>

enum kind { ALLOC, OPEN, READ, WRITE, KINDS };

static const char *const FAILS[KINDS] = {"alloc", "open", "read", "write"};
static const char *const CUTS[KINDS] = {"", "", "short-read", "short-write"};

static atomic_long calls[KINDS];
static long failing[KINDS] = {-1, -1, -1, -1};
static long cut[KINDS] = {-1, -1, -1, -1};
static atomic_size_t greatest;
static atomic_long threads;

extern void *__libc_malloc(size_t);
extern void *__libc_calloc(size_t, size_t);
extern void *__libc_realloc(void *, size_t);
extern void *__libc_memalign(size_t, size_t);

__attribute__((constructor)) static void begin(void) {
    const char *asked = getenv("FAILING");
    const char *colon = asked ? strchr(asked, ':') : NULL;
    if (!colon) return;
    size_t length = (size_t)(colon - asked);
    for (int kind = 0; kind < KINDS; kind++) {
        if (strlen(FAILS[kind]) == length && !strncmp(asked, FAILS[kind], length)) failing[kind] = atol(colon + 1);
        if (strlen(CUTS[kind]) == length && !strncmp(asked, CUTS[kind], length)) cut[kind] = atol(colon + 1);
    }
    for (int kind = 0; kind < KINDS; kind++) atomic_store(&calls[kind], 0);
}

/* Puts the text into the file that this variable of the environment names, if it does. */
static void put(const char *variable, const char *text, int length) {
    const char *path = getenv(variable);
    if (!path) return;
    int fd = (int)syscall(SYS_openat, AT_FDCWD, path, O_WRONLY | O_CREAT | O_TRUNC, 0600);
    if (fd < 0 || syscall(SYS_write, fd, text, length) != length) abort();
    syscall(SYS_close, fd);
}

__attribute__((destructor)) static void tell(void) {
    char text[120];
    put("COUNTED", text, snprintf(text, sizeof text, "%ld %ld %ld %ld\n", calls[ALLOC], calls[OPEN], calls[READ], calls[WRITE]));
    put("SIZED", text, snprintf(text, sizeof text, "%zu %ld\n", greatest, threads));
}

/* The program ends by this call, which runs no destructor. */
void _exit(int status) {
    tell();
    syscall(SYS_exit_group, status);
    __builtin_unreachable();
}

static long next(enum kind kind) { return atomic_fetch_add(&calls[kind], 1); }

static int fails(enum kind kind) { return next(kind) == failing[kind]; }

/* Whether the allocation of so many bytes fails. */
static int lacks(size_t size) {
    size_t most = atomic_load(&greatest);
    while (size > most && !atomic_compare_exchange_weak(&greatest, &most, size)) {}
    return fails(ALLOC);
}

int pthread_create(pthread_t *thread, const pthread_attr_t *attributes, void *(*start)(void *), void *argument) {
    int (*create)(pthread_t *, const pthread_attr_t *, void *(*)(void *), void *) = dlsym(RTLD_NEXT, "pthread_create");
    atomic_fetch_add(&threads, 1);
    return create(thread, attributes, start, argument);
}

void *malloc(size_t size) {
    if (lacks(size)) { errno = ENOMEM; return NULL; }
    return __libc_malloc(size);
}

void *calloc(size_t count, size_t size) {
    if (lacks(count * size)) { errno = ENOMEM; return NULL; }
    return __libc_calloc(count, size);
}

void *realloc(void *old, size_t size) {
    if (lacks(size)) { errno = ENOMEM; return NULL; }
    return __libc_realloc(old, size);
}

void *aligned_alloc(size_t alignment, size_t size) {
    if (lacks(size)) { errno = ENOMEM; return NULL; }
    return __libc_memalign(alignment, size);
}

int posix_memalign(void **place, size_t alignment, size_t size) {
    if (lacks(size)) return ENOMEM;
    *place = __libc_memalign(alignment, size);
    return *place ? 0 : ENOMEM;
}

static int opened(int folder, const char *path, int flags, mode_t mode) {
    if (fails(OPEN)) { errno = EMFILE; return -1; }
    return (int)syscall(SYS_openat, folder, path, flags, mode);
}

int open(const char *path, int flags, ...) {
    va_list rest;
    va_start(rest, flags);
    mode_t mode = flags & O_CREAT ? va_arg(rest, mode_t) : 0;
    va_end(rest);
    return opened(AT_FDCWD, path, flags, mode);
}

int open64(const char *path, int flags, ...) {
    va_list rest;
    va_start(rest, flags);
    mode_t mode = flags & O_CREAT ? va_arg(rest, mode_t) : 0;
    va_end(rest);
    return opened(AT_FDCWD, path, flags, mode);
}

int openat(int folder, const char *path, int flags, ...) {
    va_list rest;
    va_start(rest, flags);
    mode_t mode = flags & O_CREAT ? va_arg(rest, mode_t) : 0;
    va_end(rest);
    return opened(folder, path, flags, mode);
}

ssize_t read(int fd, void *bytes, size_t count) {
    long number = next(READ);
    if (number == failing[READ]) { errno = EIO; return -1; }
    if (number == cut[READ] && count > 1) count = 1;
    return syscall(SYS_read, fd, bytes, count);
}

ssize_t write(int fd, const void *bytes, size_t count) {
    long number = next(WRITE);
    if (number == failing[WRITE]) { errno = EIO; return -1; }
    if (number == cut[WRITE] && count > 1) count = 1;
    return syscall(SYS_write, fd, bytes, count);
}

ssize_t __write(int fd, const void *bytes, size_t count) { return write(fd, bytes, count); }
