# Where a guest over this library begins, and the calls that its other parts can't make in C.
    .section .text.start, "ax"
    .globl _start
# At sp stand the number of the arguments and their addresses. The stack is the one that the program is linked with.
_start:
    .option push
    .option norelax
    la gp, __global_pointer$
    .option pop
    mv a0, sp
    la sp, __stack_end
    tail start_program

    .text
# long kernel_call(long number, long a, .., long f)
    .globl kernel_call
kernel_call:
    mv a7, a0
    mv a0, a1
    mv a1, a2
    mv a2, a3
    mv a3, a4
    mv a4, a5
    mv a5, a6
    ecall
    ret

# void go_on_at(void *stack_end, void (*work)(void *), void *argument): does the work on another stack, and doesn't come back.
    .globl go_on_at
go_on_at:
    mv sp, a0
    mv a0, a2
    jr a1

# long __syscall_cp_asm(volatile int *is_cancelled, long number, long a, .., long f): a call at which a thread may be cancelled.
    .globl __syscall_cp_asm, __cp_begin, __cp_end, __cp_cancel
    .hidden __cp_begin, __cp_end, __cp_cancel
__syscall_cp_asm:
__cp_begin:
    lw t0, 0(a0)
    bnez t0, __cp_cancel
    mv a0, a1
    mv a1, a2
    mv a2, a3
    mv a3, a4
    mv a4, a5
    mv a5, a6
    mv a6, a7
    tail guest_call
__cp_end:
__cp_cancel:
    tail __cancel
