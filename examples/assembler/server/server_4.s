# The server, patched otherwise: a client of HTTP/0.9 isn't served.
        li a0, 2
        li a1, 1
        li a2, 0
        li a7, 198              # socket(AF_INET, SOCK_STREAM, 0)
        ecall
        mv s0, a0
        la a1, address
        li a2, 16
        li a7, 200              # bind(s0, address, 16)
        ecall
        mv a0, s0
        li a1, 8
        li a7, 201              # listen(s0, 8)
        ecall
next:   mv a0, s0
        li a1, 0
        li a2, 0
        li a7, 202              # accept(s0, 0, 0)
        ecall
        blt a0, zero, done      # no client is left
        mv s1, a0
        la a1, request
        li a2, 64
        li a7, 63               # read(s1, request, 64)
        ecall
        bge zero, a0, close     # it says nothing
        la a1, name
        mv t0, a1
        li t1, 32
find:   lbu t2, 0(t0)
        addi t0, t0, 1
        bltu t1, t2, find
        bne t2, t1, other       # no blank
        sb zero, -1(t0)         # the end of the name
        li a0, -100             # the working directory
        li a2, 0
        li a7, 56               # openat(AT_FDCWD, name, O_RDONLY)
        ecall
        blt a0, zero, none
        mv s2, a0
        la a1, page
        li a2, 64
        li a7, 63               # read(s2, page, 64)
        ecall
        mv s3, a0
        mv a0, s2
        li a7, 57               # close(s2)
        ecall
        la a1, page
        mv a2, s3
        j answer
none:   la a1, absent
        li a2, 10
        j answer
other:  la a1, newer
        li a2, 13
answer: mv a0, s1
        li a7, 64               # write(s1, a1, a2)
        ecall
close:  mv a0, s1
        li a7, 57               # close(s1)
        ecall
        j next
done:   li a0, 0
        li a7, 94               # exit_group(0)
        ecall

        .data
address: .byte 2, 0, 0, 80      # AF_INET, port 80
        .zero 12
page:   .zero 64
absent: .ascii "not found\n"
newer:  .ascii "use HTTP/1.0\n"
request: .zero 5                # "GET /"
name:   .zero 59
