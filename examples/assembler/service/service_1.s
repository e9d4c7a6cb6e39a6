# The service. A request is a digit and a newline; the answer is the colour of that number, or `none`.
next:   li a0, 0
        la a1, request
        li a2, 2
        li a7, 63               # read(0, request, 2)
        ecall
        beq a0, zero, done      # the input has ended
        la t0, request
        lbu t0, 0(t0)
        addi t0, t0, -48        # what the digit stands for
        sltiu t1, t0, 3         # a colour's number?
        beq t1, zero, other
        slli t0, t0, 3          # an entry has 8 bytes: an address and a length
        la t1, colours
        add t1, t1, t0
        lw a1, 0(t1)
        lw a2, 4(t1)
        j answer
other:  la a1, none
        li a2, 5
answer: li a0, 1
        li a7, 64               # write(1, a1, a2)
        ecall
        j next
done:   li a0, 0
        li a7, 94               # exit_group(0)
        ecall

        .data
request: .zero 2
colours: .word red, 4, green, 6, blue, 5
red:    .ascii "red\n"
green:  .ascii "green\n"
blue:   .ascii "blue\n"
none:   .ascii "none\n"
