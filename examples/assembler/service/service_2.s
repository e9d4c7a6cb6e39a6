# The service, a bad update. It finds an answer's end by its newline, so the table needs no lengths; a 0 ends the table.
# But the 0 is taken for a fourth colour: request 3 reads at the address 0.
next:   li a0, 0
        la a1, request
        li a2, 2
        li a7, 63               # read(0, request, 2)
        ecall
        beq a0, zero, done      # the input has ended
        la t0, request
        lbu t0, 0(t0)
        addi t0, t0, -48        # what the digit stands for
        sltiu t1, t0, 4         # a colour's number? There are three.
        beq t1, zero, other
        slli t0, t0, 2          # an entry has 4 bytes: an address
        la t1, colours
        add t1, t1, t0
        lw a1, 0(t1)
        j answer
other:  la a1, none
answer: mv a2, a1
        li t1, 10
count:  lbu t0, 0(a2)           # breaks here, at the address 0
        addi a2, a2, 1
        bne t0, t1, count
        sub a2, a2, a1          # the length, with the newline
        li a0, 1
        li a7, 64               # write(1, a1, a2)
        ecall
        j next
done:   li a0, 0
        li a7, 94               # exit_group(0)
        ecall

        .data
request: .zero 2
colours: .word red, green, blue, 0
red:    .ascii "red\n"
green:  .ascii "green\n"
blue:   .ascii "blue\n"
none:   .ascii "none\n"
