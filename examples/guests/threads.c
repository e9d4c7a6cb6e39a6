/* Three threads that write in turn. Each waits until the word `turn` has its number, and hands over by writing the next number there. */
#include "linux.h"
#include <stdio.h>
#include <stdlib.h>

enum { FUTEX = 422, FUTEX_WAIT = 0, FUTEX_WAKE = 1 };
enum { THREADS = 3, ROUNDS = 4, STACK = 4096, LOCALS = 64 };

static volatile int turn;

/* A word is written by the thread whose turn it is alone, so no atomic instruction is needed. */
static void wait_for(int wanted)
{
    for (int now = turn; now != wanted; now = turn)
        call(FUTEX, (long)&turn, FUTEX_WAIT, now, 0, 0);
    __asm__ volatile("fence" ::: "memory");
}

static void hand_to(int next)
{
    __asm__ volatile("fence" ::: "memory");
    turn = next;
    call(FUTEX, (long)&turn, FUTEX_WAKE, THREADS + 1, 0, 0);
}

static void work(void *argument)
{
    int number = *(int *)argument;
    for (int round = 0; round < ROUNDS; round++) {
        wait_for(round * THREADS + number);
        printf("round %d, thread %d\n", round, number);
        hand_to(round * THREADS + number + 1);
    }
}

int main(void)
{
    static int numbers[THREADS];
    turn = -1;
    for (int i = 0; i < THREADS; i++) {
        char *stack = malloc(STACK);
        void *locals = calloc(LOCALS, 1);
        numbers[i] = i;
        if (stack == NULL || locals == NULL || start_thread(work, &numbers[i], stack + STACK, locals) < 0)
            return 1;
    }
    puts("begin");
    hand_to(0);
    wait_for(THREADS * ROUNDS);
    puts("end");
    return 0;
}
