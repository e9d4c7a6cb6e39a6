/* One error of each kind that a checked build finds, and that a plain one survives: errors KIND N TEXT. check.sh has the words, and `expected` names the lines. */
#include <stdio.h>
#include <stdlib.h>
#include <string.h>
#include <unistd.h>

/* The compiler knows nothing of this value, so it leaves the error as it is. */
#define HIDDEN(p) __asm__ volatile("" : "+r"(p))

static int table[5] = {1, 2, 3, 4, 5};

static char *made(const char *text)
{
    char *own = malloc(strlen(text) + 1); /* here: made */
    return strcpy(own, text);
}

__attribute__((noinline)) static int on_stack(int n)
{
    char bytes[20]; /* here: bytes */
    memset(bytes, 1, sizeof bytes);
    char *p = bytes;
    HIDDEN(p);
    return p[n]; /* here: stack */
}

__attribute__((noinline)) static int out_of_scope(int n)
{
    char *p = NULL;
    for (int i = 0; i < 2; i++) {
        char turn[16]; /* here: turn */
        memset(turn, i, sizeof turn);
        p = turn;
        HIDDEN(p);
    }
    return p[n]; /* here: scope */
}

__attribute__((noinline)) static int in_table(int n)
{
    int *p = table;
    HIDDEN(p);
    return p[n]; /* here: table */
}

__attribute__((noinline)) static int sum(int n)
{
    return n + 2147483647; /* here: sum */
}

static int done(const char *kind, int n, char *text)
{
    char *own = made(text); /* here: object */
    HIDDEN(own);
    if (strcmp(kind, "none") == 0)
        return own[n];
    if (strcmp(kind, "read") == 0)
        return own[n]; /* here: read */
    if (strcmp(kind, "write") == 0)
        return write(1, own, n) == n; /* here: write */
    if (strcmp(kind, "copy") == 0)
        memcpy(own + n, "abc", 3); /* here: copy */
    if (strcmp(kind, "moved") == 0)
        memcpy(own, own + 1, n); /* here: moved */
    if (strcmp(kind, "size") == 0)
        return memcmp(own, "another", n - 2); /* here: size */
    if (strcmp(kind, "freed") == 0) {
        free(own); /* here: free */
        HIDDEN(own);
        return own[n]; /* here: freed */
    }
    if (strcmp(kind, "twice") == 0)
        free(own); /* here: first_free */
    if (strcmp(kind, "inside") == 0)
        own += n;
    if (strcmp(kind, "stack") == 0)
        return on_stack(n); /* here: of_stack */
    if (strcmp(kind, "scope") == 0)
        return out_of_scope(n); /* here: of_scope */
    if (strcmp(kind, "table") == 0)
        return in_table(n); /* here: of_table */
    if (strcmp(kind, "sum") == 0)
        return sum(n); /* here: of_sum */
    if (strcmp(kind, "number") == 0) {
        memcpy(own, "1234567890", n);
        return strtol(own, NULL, 10); /* here: number */
    }
    if (strcmp(kind, "unwritten") == 0)
        return write(1, malloc(n), n);
    free(own); /* here: last_free */
    return 0;
}

int main(int count, char **words)
{
    if (count < 4)
        return 2;
    int got = done(words[1], atoi(words[2]), words[3]); /* here: call */
    HIDDEN(got);
    return 0;
}
