// The memory traffic of a ring of small events alone: places of six words end to end against places of eight words, each on a cache line
// of its own, and readers that write their cursor after each event against readers that write it once for all events that one look at head
// showed. One thread writes the six words of an event in sequential order and then head; readers look at head, read the words and
// write their cursors, in sequential order. Nothing is spelt, served or proved here.
//
//   gcc -O2 -pthread bench/ring_layout.c -o /tmp/ring_layout && /tmp/ring_layout
//
// With a number of readers and of multiplications it passes the events once, by places of six words and a cursor an event, and prints nothing: the writer
// multiplies so often before each event, as a lead serves a call. bench/ring_speed.py takes the time.
#include <pthread.h>
#include <sched.h>
#include <stdatomic.h>
#include <stdint.h>
#include <stdio.h>
#include <stdlib.h>
#include <time.h>

enum { PLACES = 64, WORDS = 6, LINE = 8, EVENTS = 1000000, RUNS = 9, MOST = 2 };

static _Atomic uint64_t *table;
static unsigned stride, readers, works;
static int once_a_look;

static _Atomic uint64_t *place(uint64_t event) { return table + LINE * (2 + MOST) + (event % PLACES) * stride; }

static void *read_all(void *given)
{
    unsigned own = (unsigned)(uintptr_t)given;
    uint64_t seen = 0, head = 0, sum = 0;
    while (seen < EVENTS) {
        if (head <= seen) {
            head = table[LINE];
            if (head <= seen) {
                sched_yield();
                continue;
            }
        }
        _Atomic uint64_t *words = place(seen);
        for (unsigned i = 0; i < WORDS; i++)
            sum += words[i];
        seen++;
        if (!once_a_look || seen == head)
            table[LINE * (2 + own)] = seen;
    }
    return (void *)(uintptr_t)sum;
}

static void work(void)
{
    uint64_t x = 1;
    for (unsigned i = 0; i < works; i++) {
        x = x * 3 + 1;
        __asm__ volatile("" : "+r"(x));
    }
}

static void write_all(void)
{
    uint64_t floors[MOST] = {0};
    for (uint64_t event = 0; event < EVENTS; event++) {
        for (unsigned r = 0; r < readers; r++)
            while (event - floors[r] >= PLACES) {
                floors[r] = table[LINE * (2 + r)];
                if (event - floors[r] >= PLACES)
                    sched_yield();
            }
        work();
        _Atomic uint64_t *words = place(event);
        for (unsigned i = 0; i < WORDS; i++)
            words[i] = event + i;
        table[LINE] = event + 1;
    }
}

static double run(void)
{
    struct timespec begun, ended;
    pthread_t threads[MOST];
    for (unsigned i = 0; i < LINE * (2 + MOST) + PLACES * 8; i++)
        table[i] = 0;
    clock_gettime(CLOCK_MONOTONIC, &begun);
    for (unsigned r = 0; r < readers; r++)
        pthread_create(&threads[r], NULL, read_all, (void *)(uintptr_t)r);
    write_all();
    for (unsigned r = 0; r < readers; r++)
        pthread_join(threads[r], NULL);
    clock_gettime(CLOCK_MONOTONIC, &ended);
    return (ended.tv_sec - begun.tv_sec) * 1e9 + (ended.tv_nsec - begun.tv_nsec);
}

static int by_size(const void *a, const void *b)
{
    double x = *(const double *)a, y = *(const double *)b;
    return (x > y) - (x < y);
}

static int pass(unsigned given, unsigned multiplications)
{
    if (given > MOST)
        return 1;
    readers = given;
    works = multiplications;
    stride = WORDS;
    run();
    return 0;
}

int main(int argc, char **argv)
{
    enum { FORMS = 3 };
    double took[FORMS][RUNS];
    table = aligned_alloc(64, 8 * (LINE * (2 + MOST) + PLACES * 8));
    if (argc == 3)
        return pass(atoi(argv[1]), atoi(argv[2]));
    printf("| Readers | Six words, ns an event | Eight aligned | Eight / six | Six, a cursor a look | A look / an event |\n|---|---|---|---|---|---|\n");
    for (readers = 0; readers <= MOST; readers++) {
        for (unsigned i = 0; i < RUNS; i++)
            for (unsigned form = 0; form < FORMS; form++) {
                stride = form == 1 ? 8 : WORDS;
                once_a_look = form == 2;
                took[form][i] = run() / EVENTS;
            }
        for (unsigned form = 0; form < FORMS; form++)
            qsort(took[form], RUNS, sizeof(double), by_size);
        double six = took[0][RUNS / 2], eight = took[1][RUNS / 2], look = took[2][RUNS / 2];
        printf("| %u | %.1f | %.1f | %.2f | %.1f | %.2f |\n", readers, six, eight, eight / six, look, look / six);
    }
    return 0;
}
