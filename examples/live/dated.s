# A server that tells the time: each line of a client is answered by what clock_gettime shows, 8 bytes of seconds and 8 of nanoseconds. It takes one client after the other.
        li a0, 2            # AF_INET
        li a1, 1            # SOCK_STREAM
        li a2, 0
        li a7, 198          # socket
        ecall
        mv s0, a0
        la a1, address
        li a2, 16
        li a7, 200          # bind
        ecall
        mv a0, s0
        li a1, 16
        li a7, 201          # listen
        ecall

next:   mv a0, s0
        li a1, 0
        li a2, 0
        li a7, 202          # accept: an error where no more clients come
        ecall
        blt a0, zero, over
        mv s1, a0

asked:  mv a0, s1
        la a1, asks
        li a2, 64
        li a7, 63           # read
        ecall
        bge zero, a0, left
        li a0, 0            # CLOCK_REALTIME
        la a1, time
        li a7, 403          # clock_gettime64
        ecall
        mv a0, s1
        la a1, time
        li a2, 16
        li a7, 64           # write
        ecall
        j asked

left:   mv a0, s1
        li a7, 57           # close
        ecall
        j next

over:   li a0, 0
        li a7, 94           # exit_group
        ecall

        .data
address:
        .byte 2, 0, 0x1f, 0x90    # AF_INET, port 8080
        .zero 12
time:   .zero 16
asks:   .zero 64
