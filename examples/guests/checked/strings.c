/* The C library's functions over memory and strings look at the bytes that they read and write. Others are a line each. */
#include "checked.h"
#include <stdarg.h>
#include <stdio.h>
#include <string.h>

static int is_overlap(const void *a, const void *b, size_t n)
{
    return a != b && (const char *)a < (const char *)b + n && (const char *)b < (const char *)a + n;
}

WRAPPED(void *, memcpy, void *to, const void *from, size_t n)
{
    READS(from, n);
    WRITES(to, n);
    if (is_overlap(to, from, n))
        checked_overlapping_copy((uintptr_t)to, n, 1, HERE);
    return __real_memcpy(to, from, n);
}
WRAPPED(void *, memmove, void *to, const void *from, size_t n)
{
    READS(from, n);
    WRITES(to, n);
    return __real_memmove(to, from, n);
}
WRAPPED(void *, memset, void *to, int byte, size_t n)
{
    WRITES(to, n);
    return __real_memset(to, byte, n);
}
WRAPPED(int, memcmp, const void *a, const void *b, size_t n)
{
    READS(a, n);
    READS(b, n);
    return __real_memcmp(a, b, n);
}
WRAPPED(void *, memchr, const void *p, int byte, size_t n)
{
    const char *found = __real_memchr(p, byte, n);
    READS(p, found == NULL ? n : (size_t)(found - (const char *)p + 1));
    return (void *)found;
}

/* ---- strings: their bytes are those up to the 0, and the 0 */

size_t __real_strlen(const char *);

/* A string's length, at most this. */
static size_t length(const char *s, size_t most)
{
    size_t n = 0;
    while (n < most && s[n] != 0)
        n++;
    return n;
}
static size_t whole(const char *s) { return __real_strlen(s) + 1; }
/* How many bytes are read of a string of which at most so many are. */
static size_t part(const char *s, size_t most)
{
    size_t n = length(s, most);
    return n < most ? n + 1 : n;
}

size_t __wrap_strlen(const char *s)
{
    size_t n = __real_strlen(s);
    READS(s, n + 1);
    return n;
}
size_t __wrap_strnlen(const char *s, size_t most)
{
    READS(s, part(s, most));
    return length(s, most);
}
char *__wrap_strcpy(char *to, const char *from)
{
    size_t n = whole(from);
    READS(from, n);
    WRITES(to, n);
    return __real_memcpy(to, from, n);
}
WRAPPED(char *, strncpy, char *to, const char *from, size_t n)
{
    READS(from, part(from, n));
    WRITES(to, n);
    return __real_strncpy(to, from, n);
}
WRAPPED(char *, strcat, char *to, const char *from)
{
    size_t old = whole(to) - 1, n = whole(from);
    READS(from, n);
    READS(to, old + 1);
    WRITES(to + old, n);
    return __real_strcat(to, from);
}
WRAPPED(char *, strncat, char *to, const char *from, size_t most)
{
    size_t old = whole(to) - 1;
    READS(from, part(from, most));
    READS(to, old + 1);
    WRITES(to + old, length(from, most) + 1);
    return __real_strncat(to, from, most);
}

/* Two strings are read up to their first difference. */
static void look_compared(const char *a, const char *b, size_t most, const void *from)
{
    size_t n = 0;
    while (n < most && a[n] == b[n] && a[n] != 0)
        n++;
    n += n < most;
    look(a, n, 0, from);
    look(b, n, 0, from);
}
WRAPPED(int, strcmp, const char *a, const char *b)
{
    look_compared(a, b, SIZE_MAX, HERE);
    return __real_strcmp(a, b);
}
WRAPPED(int, strncmp, const char *a, const char *b, size_t n)
{
    look_compared(a, b, n, HERE);
    return __real_strncmp(a, b, n);
}
WRAPPED(char *, strchr, const char *s, int byte)
{
    char *found = __real_strchr(s, byte);
    READS(s, found == NULL ? whole(s) : (size_t)(found - s + 1));
    return found;
}
WRAPPED(char *, strrchr, const char *s, int byte)
{
    READS(s, whole(s));
    return __real_strrchr(s, byte);
}
WRAPPED(char *, strstr, const char *s, const char *searched)
{
    READS(s, whole(s));
    READS(searched, whole(searched));
    return __real_strstr(s, searched);
}

static char *duplicate(const char *s, size_t n, const void *from, const char *frame)
{
    char *object = make_object(n + 1, from, frame);
    if (object != NULL) {
        __real_memcpy(object, s, n);
        object[n] = 0;
    }
    return object;
}
char *__wrap_strdup(const char *s)
{
    READS(s, whole(s));
    return duplicate(s, whole(s) - 1, HERE, FRAME);
}
char *__wrap_strndup(const char *s, size_t most)
{
    READS(s, part(s, most));
    return duplicate(s, length(s, most), HERE, FRAME);
}

/* ---- printed strings: as many bytes are written as the result says, and no more than there is room for */

static int look_printed(char *to, size_t most, int n, const void *from)
{
    if (n >= 0 && most > 0)
        look(to, (size_t)n < most ? (size_t)n + 1 : most, 1, from);
    return n;
}

int __real_vsnprintf(char *, size_t, const char *, va_list);
int __real_vsprintf(char *, const char *, va_list);

int __wrap_vsnprintf(char *to, size_t most, const char *format, va_list words)
{
    return look_printed(to, most, __real_vsnprintf(to, most, format, words), HERE);
}
int __wrap_snprintf(char *to, size_t most, const char *format, ...)
{
    va_list words;
    va_start(words, format);
    int n = __real_vsnprintf(to, most, format, words);
    va_end(words);
    return look_printed(to, most, n, HERE);
}
int __wrap_vsprintf(char *to, const char *format, va_list words)
{
    return look_printed(to, SIZE_MAX, __real_vsprintf(to, format, words), HERE);
}
int __wrap_sprintf(char *to, const char *format, ...)
{
    va_list words;
    va_start(words, format);
    int n = __real_vsprintf(to, format, words);
    va_end(words);
    return look_printed(to, SIZE_MAX, n, HERE);
}
