/*
 * The heap, over the C library's own. Before each object are 32 bytes with its size and who made and freed it, and behind it at least 16 that may not be used. An object
 * that was freed waits before the library gets its memory back, so that a use of it is found, and a new one is filled, so that a byte which nobody wrote is seen.
 */
#include "checked.h"
#include <errno.h>

enum { LIVE = 0x68656178, GONE = 0x676f6e78, CALLERS = 3, BEHIND = 16 };
/* How many freed bytes wait. */
enum { MOST_WAITING = CHECKED_MEMORY / 32 };

struct head {
    uint32_t state;
    size_t size;
    const void *made[CALLERS], *freed[CALLERS];
};
_Static_assert(sizeof(struct head) == 32, "the object behind it is at a multiple of 8");

/* Objects that were freed, in their order; each has the next one's address in its first bytes. */
static struct head *oldest, *newest;
static size_t waiting;

void *__real_malloc(size_t);
void __real_free(void *);

/* Whether this may be a frame of main's stack. The compiler keeps the frames by s0, and the C library doesn't. */
static int is_frame(const char *frame)
{
    return stack_top != NULL && frame < stack_top && stack_top - frame <= MAIN_STACK && ((uintptr_t)frame & 3) == 0;
}

/* Who called, and who called those, as far as frames are known. */
static void put_callers(const void **into, const void *from, const char *frame)
{
    into[0] = from;
    for (int i = 1; i < CALLERS; i++)
        into[i] = NULL;
    for (int i = 1; i < CALLERS && is_frame(frame); i++) {
        const char *next = ((const char **)frame)[-2];
        if (next <= frame || !is_frame(next))
            return;
        into[i] = ((const void **)next)[-1];
        frame = next;
    }
}

static size_t room_of(size_t size)
{
    return sizeof(struct head) + ((size + 7) & -8) + BEHIND;
}

/* Gives the oldest of those that were freed back to the C library. */
static int let_go(void)
{
    struct head *head = oldest;
    if (head == NULL)
        return 0;
    oldest = *(struct head **)(head + 1);
    if (oldest == NULL)
        newest = NULL;
    waiting -= head->size;
    mark((uintptr_t)head, room_of(head->size), room_of(head->size), 0);
    __real_free(head);
    return 1;
}

void *make_object(size_t size, const void *from, const char *frame)
{
    size_t whole = room_of(size);
    struct head *head = NULL;
    /* The C library gives multiples of 8, as the shadow needs them. */
    while (whole > size && (head = __real_malloc(whole)) == NULL && let_go())
        ;
    if (head != NULL && (uintptr_t)head + whole > CHECKED_MEMORY) {
        __real_free(head);
        head = NULL;
    }
    if (head == NULL) {
        errno = ENOMEM;
        return NULL;
    }
    head->state = LIVE;
    head->size = size;
    put_callers(head->made, from, frame);
    mark((uintptr_t)head, 0, sizeof *head, HEAP);
    mark((uintptr_t)(head + 1), size, whole - sizeof *head, HEAP);
    return __real_memset(head + 1, CHECKED_FILL, size);
}

static struct head *head_of(void *object, const void *from)
{
    struct head *head = (struct head *)object - 1;
    if (((uintptr_t)object & 7) || (uintptr_t)head < MEMORY_START || (uintptr_t)object >= CHECKED_MEMORY)
        checked_free_of_no_object((uintptr_t)object, 0, 0, from);
    if (*shadow_of((uintptr_t)head) == HEAP && head->state == GONE)
        checked_double_free((uintptr_t)object, 0, 0, from);
    if (*shadow_of((uintptr_t)head) != HEAP || head->state != LIVE)
        checked_free_of_no_object((uintptr_t)object, 0, 0, from);
    return head;
}

static void free_object(void *object, const void *from, const char *frame)
{
    struct head *head = head_of(object, from);
    head->state = GONE;
    put_callers(head->freed, from, frame);
    /* An object of no bytes has room for the next one's address, too. */
    mark((uintptr_t)object, 0, head->size < sizeof oldest ? 8 : head->size, FREED);
    *(struct head **)object = NULL;
    if (newest != NULL)
        *(struct head **)(newest + 1) = head;
    else
        oldest = head;
    newest = head;
    waiting += head->size;
    while (waiting > MOST_WAITING)
        let_go();
}

static void *make_again(void *object, size_t size, const void *from, const char *frame)
{
    if (object == NULL)
        return make_object(size, from, frame);
    if (size == 0 && CHECKED_REALLOC_0_FREES) {
        free_object(object, from, frame);
        return NULL;
    }
    size_t old = head_of(object, from)->size;
    void *other = make_object(size, from, frame);
    if (other != NULL) {
        __real_memcpy(other, object, old < size ? old : size);
        free_object(object, from, frame);
    }
    return other;
}

static int is_product(size_t count, size_t size, size_t *whole)
{
    if (!__builtin_mul_overflow(count, size, whole))
        return 1;
    errno = ENOMEM;
    return 0;
}

void *__wrap_malloc(size_t size) { return make_object(size, HERE, FRAME); }
void __wrap_free(void *object)
{
    if (object != NULL)
        free_object(object, HERE, FRAME);
}
void *__wrap_calloc(size_t count, size_t size)
{
    size_t whole;
    void *object = is_product(count, size, &whole) ? make_object(whole, HERE, FRAME) : NULL;
    return object == NULL ? NULL : __real_memset(object, 0, whole);
}
void *__wrap_realloc(void *object, size_t size) { return make_again(object, size, HERE, FRAME); }
void *__wrap_reallocarray(void *object, size_t count, size_t size)
{
    size_t whole;
    return is_product(count, size, &whole) ? make_again(object, whole, HERE, FRAME) : NULL;
}
