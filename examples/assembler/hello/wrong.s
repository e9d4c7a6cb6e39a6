# As hi.s, but for a slip: line 3 names a label that no line defines.
        li a0, 1
        la a1, txet
        li a2, 3
        li a7, 64
        ecall
        li a0, 0
        li a7, 94
        ecall

        .data
text:   .ascii "hi\n"
