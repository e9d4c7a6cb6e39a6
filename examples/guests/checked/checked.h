/*
 * The runtime of a guest that `cc --checked` builds (docs/CHECKED.md). The compiler looks, before each access, whether the shadow says that the bytes may be used. Here
 * the shadow is kept (shadow.c), and the C library's heap and its functions over memory and strings are put behind functions that look, too (heap.c, strings.c, calls.c).
 *
 * A checked guest makes the system calls of the plain one, so it prints nothing. It executes EBREAK at a label whose name is the kind of the error, with the address in
 * a0, the number of bytes in a1, 1 in a2 if they were to be written, and the address behind the wrong access in ra, as if that access had called the label.
 * Undefined behaviour that is none of memory ends at labels of its own (undefined.c). examples/checked.py reads all this, the shadow and the heads of the heap's objects.
 *
 * __wrap_F stands in for the function F of the C library, __real_F is the library's own: cc has the linker do this for each __wrap_F that these files define.
 */
#include <stddef.h>
#include <stdint.h>

/* The address behind the call of this function, and its frame. */
#define HERE __builtin_return_address(0)
#define FRAME __builtin_frame_address(0)

/* Declares a function of the C library under both names, and begins the definition of the first. */
#define WRAPPED(type, name, ...) \
    type __real_##name(__VA_ARGS__); \
    type __wrap_##name(__VA_ARGS__)

/* A label with an EBREAK, between SECTION and SECTION_END. */
#define SECTION(name) __asm__(".section .text." name ", \"ax\"")
#define SECTION_END __asm__(".text")
#define LABEL(name, before) __asm__(".globl " name "\n.type " name ", @function\n" name ":" before "ebreak\n.size " name ", . - " name "\n")

/* Where memory begins, and how much of main's stack there is. cc says where the shadow is and what memory it is for. */
enum { MEMORY_START = 0x10000, MAIN_STACK = CHECKED_STACK };
/* What the shadow has for bytes that may not be used: the compiler's own marks are among them. */
enum { HEAP = 0xfa, FREED = 0xfd, GLOBAL = 0xf9, SCOPE = 0xf8, STACK_LEFT = 0xf1, STACK_MIDDLE = 0xf2, STACK_RIGHT = 0xf3, ALLOCA_LEFT = 0xca, ALLOCA_RIGHT = 0xcb };

/* Where the frames of main's callers are, NULL before main. */
extern const char *stack_top;
/* Whether the guests' C library copies all of the memory, for fork. */
extern int is_unlooked;

static inline uint8_t *shadow_of(uintptr_t address)
{
    return (uint8_t *)(CHECKED_OFFSET + (address >> 3));
}

/* Whether all these bytes may be used: if not, ends at the label of the first that may not. */
void look(const void *start, size_t size, int is_write, const void *from);
#define READS(p, n) look(p, n, 0, HERE)
#define WRITES(p, n) look(p, n, 1, HERE)

/* From a multiple of 8 on, `good` bytes may be used, and those after them, up to `size`, are of this kind. */
void mark(uintptr_t start, size_t good, size_t size, int kind);

/* The ends of a guest: shadow.c has the labels. */
#define END_OF(kind) _Noreturn void checked_##kind(uintptr_t address, size_t size, int is_write, const void *from)
END_OF(heap_buffer_overflow);
END_OF(use_after_free);
END_OF(double_free);
END_OF(free_of_no_object);
END_OF(stack_buffer_overflow);
END_OF(use_after_scope);
END_OF(global_buffer_overflow);
END_OF(overlapping_copy);
END_OF(size_beyond_memory);
END_OF(unknown);

/* The heap, for those that know their caller. */
void *make_object(size_t size, const void *from, const char *frame);

void *__real_memcpy(void *, const void *, size_t);
void *__real_memset(void *, int, size_t);
