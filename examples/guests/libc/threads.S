# Threads, where C can't be: between a thread's beginning and its stack, and once it has none any more.
    .text
# long new_thread(long flags, struct start *start, void *locals): clone. The child's stack ends at its start.
    .globl new_thread
new_thread:
    mv a3, a2
    li a2, 0
    li a4, 0
    li a7, 220
    ecall
    beqz a0, 1f
    ret
1:  mv a0, sp
    tail begin_thread

# void leave_thread(int *next_has_turn): gives the turn to the thread that sleeps at this word, if there is one, and ends. Others may have its stack by then.
    .globl leave_thread
leave_thread:
    beqz a0, 1f
    li a1, 1
    fence rw, rw
    sw a1, 0(a0)
    li a2, 1
    li a3, 0
    li a4, 0
    li a5, 0
    li a7, 422
    ecall
1:  li a0, 0
    li a7, 93
    ecall

# void __unmapself(void *pages, unsigned long length), in place of the C library's: gives the pages back that this thread's stack stands on. One thread
# at a time ends, so one more stack is enough.
    .globl __unmapself
__unmapself:
    la sp, last_stack_end
    tail end_without_stack

    .bss
    .balign 16
    .space 2048
last_stack_end:
