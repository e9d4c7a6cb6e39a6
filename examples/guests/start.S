# Where a guest begins. At sp stand the number of the arguments, their addresses, 0, the environment, and the auxiliary vector.
# With -DSTACK=N the guest goes on with a stack of N bytes among its data.
    .section .text.start, "ax"
    .globl _start
_start:
    .option push
    .option norelax
    la gp, __global_pointer$
    .option pop
    la tp, __tls_base
    lw a0, 0(sp)
    addi a1, sp, 4
#ifdef STACK
    la sp, stack_end
#endif
    call main
    call exit

#ifdef STACK
    .section .bss.stack, "aw", @nobits
    .balign 16
    .space STACK
    .balign 16
stack_end:
#endif
