/*
 * The shadow has a byte for each 8 bytes of the memory: 0 where all of them may be used, 1 to 7 where so many, else what they are. The compiler's code asks it before each
 * access and calls a function of this file where it may not be, so that its place and its marks are the compiler's. These files alone are compiled without checks.
 */
#include "checked.h"

/* In ra is the address behind the access, so that addr2line and gdb find the access as the label's caller. */
#define KIND(kind) LABEL("checked_" kind, " mv ra, a3; ")
SECTION("checked_kinds");
KIND("heap_buffer_overflow");
KIND("use_after_free");
KIND("double_free");
KIND("free_of_no_object");
KIND("stack_buffer_overflow");
KIND("use_after_scope");
KIND("global_buffer_overflow");
KIND("overlapping_copy");
KIND("size_beyond_memory");
KIND("unknown");
SECTION_END;

int is_unlooked;

/* Ends at the label of what is at this address. */
__attribute__((noinline, noreturn)) static void end_at(uintptr_t address, size_t size, int is_write, const void *from)
{
    const uint8_t *shadow = shadow_of(address);
    int kind = *shadow != 0 && *shadow < 8 ? shadow[1] : *shadow;
    switch (kind) {
    case HEAP:
        checked_heap_buffer_overflow(address, size, is_write, from);
    case FREED:
        checked_use_after_free(address, size, is_write, from);
    case GLOBAL:
        checked_global_buffer_overflow(address, size, is_write, from);
    case SCOPE:
        checked_use_after_scope(address, size, is_write, from);
    case STACK_LEFT: case STACK_MIDDLE: case STACK_RIGHT: case ALLOCA_LEFT: case ALLOCA_RIGHT:
        checked_stack_buffer_overflow(address, size, is_write, from);
    }
    checked_unknown(address, size, is_write, from);
}

void look(const void *start, size_t size, int is_write, const void *from)
{
    uintptr_t at = (uintptr_t)start, end = at + size;
    /* There is no memory below, and an access breaks by itself. So does one above, where there may be memory without a shadow. */
    if (at < MEMORY_START || at >= CHECKED_MEMORY || is_unlooked)
        return;
    if (end < at || end > CHECKED_MEMORY)
        checked_size_beyond_memory(at, size, is_write, from);
    while (at < end) {
        uintptr_t next = (at | 7) + 1, last = next < end ? next : end;
        uint8_t good = *shadow_of(at);
        if (good != 0 && (good > 7 || ((last - 1) & 7) >= good)) {
            while (good <= 7 && (at & 7) < good)
                at++;
            end_at(at, size, is_write, from);
        }
        at = next;
    }
}

void mark(uintptr_t start, size_t good, size_t size, int kind)
{
    uint8_t *shadow = shadow_of(start), *end = shadow_of(start + size + 7);
    __real_memset(shadow, 0, good >> 3);
    shadow += good >> 3;
    if (good & 7)
        *shadow++ = good & 7;
    if (shadow < end)
        __real_memset(shadow, kind, end - shadow);
}

/* ---- what the compiler calls: a report where its own code has looked, the others where it leaves the look to them */

#define ACCESS(size) \
    void __asan_load##size(const void *p) { READS(p, size); } \
    void __asan_store##size(const void *p) { WRITES(p, size); } \
    void __asan_report_load##size(const void *p) \
    { \
        READS(p, size); \
        end_at((uintptr_t)p, size, 0, HERE); \
    } \
    void __asan_report_store##size(const void *p) \
    { \
        WRITES(p, size); \
        end_at((uintptr_t)p, size, 1, HERE); \
    }
ACCESS(1)
ACCESS(2)
ACCESS(4)
ACCESS(8)
ACCESS(16)
void __asan_loadN(const void *p, size_t size) { READS(p, size); }
void __asan_storeN(const void *p, size_t size) { WRITES(p, size); }
void __asan_report_load_n(const void *p, size_t size)
{
    READS(p, size);
    end_at((uintptr_t)p, size, 0, HERE);
}
void __asan_report_store_n(const void *p, size_t size)
{
    WRITES(p, size);
    end_at((uintptr_t)p, size, 1, HERE);
}

void __asan_poison_stack_memory(uintptr_t start, size_t size) { mark(start, 0, size, SCOPE); }
void __asan_unpoison_stack_memory(uintptr_t start, size_t size) { mark(start, size, size, 0); }
void __asan_alloca_poison(uintptr_t start, size_t size)
{
    mark(start - 32, 0, 32, ALLOCA_LEFT);
    mark(start, size, ((size + 31) & -32) + 32, ALLOCA_RIGHT);
}
void __asan_allocas_unpoison(uintptr_t low, uintptr_t high)
{
    if (low != 0 && low < high)
        mark(low, high - low, high - low, 0);
}

/* Before a jump out of functions: the rest of main's stack may be used again. A thread's stack stays as it is. */
void __asan_handle_no_return(void)
{
    uintptr_t here = (uintptr_t)FRAME & -8, top = (uintptr_t)stack_top;
    if (here < top && top - here <= MAIN_STACK)
        mark(here, top - here, top - here, 0);
}

/* A global object as the compiler describes it: so many bytes, and with the bytes that it puts behind them. */
struct global {
    uintptr_t start;
    size_t size, whole;
    const char *name, *file;
    size_t has_constructor;
    const void *line;
    size_t only_definition;
};

void __asan_register_globals(const struct global *globals, size_t count)
{
    for (size_t i = 0; i < count; i++)
        mark(globals[i].start, globals[i].size, globals[i].whole, GLOBAL);
}
void __asan_unregister_globals(const struct global *globals, size_t count)
{
    (void)globals;
    (void)count;
}
