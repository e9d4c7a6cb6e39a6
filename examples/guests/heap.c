/* printf and malloc: the arguments in order, primes by a sieve, and a list that grows and shrinks. */
#include <stdio.h>
#include <stdlib.h>
#include <string.h>

struct node {
    struct node *next;
    unsigned value;
};

static int by_bytes(const void *left, const void *right)
{
    return strcmp(*(char *const *)left, *(char *const *)right);
}

static void print_arguments(int count, char **words)
{
    qsort(words, count, sizeof *words, by_bytes);
    for (int i = 0; i < count; i++)
        printf("%2d %-10s %u\n", i, words[i], (unsigned)strlen(words[i]));
}

/* How many primes there are below a limit, and the greatest of them. */
static void print_primes(unsigned limit)
{
    char *composite = calloc(limit, 1);
    unsigned count = 0, greatest = 0;
    if (composite == NULL)
        return;
    for (unsigned i = 2; i < limit; i++) {
        if (composite[i])
            continue;
        count++;
        greatest = i;
        for (unsigned long j = (unsigned long)i * i; j < limit; j += i)
            composite[j] = 1;
    }
    free(composite);
    printf("%u primes below %u, the greatest 0x%04x\n", count, limit, greatest);
}

/* A list of squares, whose odd ones are freed again. */
static void print_list(unsigned length)
{
    struct node *list = NULL;
    unsigned long sum = 0;
    for (unsigned i = 0; i < length; i++) {
        struct node *node = malloc(sizeof *node);
        if (node == NULL)
            break;
        *node = (struct node){list, i * i};
        list = node;
    }
    for (struct node **at = &list; *at != NULL;) {
        struct node *node = *at;
        if (node->value % 2 == 1) {
            *at = node->next;
            free(node);
        } else {
            sum += node->value;
            at = &node->next;
        }
    }
    printf("even squares add up to %lu\n", sum);
}

/* A text that is doubled as long as it is short. */
static void print_text(size_t length)
{
    char *text = malloc(3);
    strcpy(text, "ab");
    while (strlen(text) < length) {
        size_t half = strlen(text);
        text = realloc(text, 2 * half + 1);
        memmove(text + half, text, half);
        text[2 * half] = '\0';
    }
    printf("%.12s.. of %u bytes\n", text, (unsigned)strlen(text));
    free(text);
}

int main(int count, char **words)
{
    print_arguments(count - 1, words + 1);
    print_primes(10000);
    print_list(1000);
    print_text(30000);
    printf("%d %x %o %c %s %p\n", -2147483647 - 1, -1, 8, 'c', "text", (void *)0);
    return 3;
}
