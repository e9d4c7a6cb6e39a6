# int start_thread(void (*work)(void *), void *argument, void *stack_end, void *locals)
#
# clone(2) with CLONE_VM, FS, FILES, SIGHAND, THREAD, SYSVSEM and SETTLS. The child begins after the call with the result 0, and finds
# its work on its stack.
    .globl start_thread
start_thread:
    addi a2, a2, -16
    sw a0, 0(a2)
    sw a1, 4(a2)
    li a0, 0xd0f00
    mv a1, a2
    li a2, 0
    li a4, 0
    li a7, 220
    ecall
    beqz a0, begin
    ret
begin:
    lw t0, 0(sp)
    lw a0, 4(sp)
    jalr t0
    li a0, 0
    li a7, 93
    ecall
