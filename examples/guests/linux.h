/* A call of Linux: its result, or an error as -1 to -4,095. */
long call(long number, long first, long second, long third, long fourth, long fifth);

/* A thread with this stack, given by its end, and these thread-local data, which does this work and ends. Answers its number, or an error. */
int start_thread(void (*work)(void *), void *argument, void *stack_end, void *locals);
