"""Files of runs: guests as assembler texts, rules and scripts."""
import struct

from hostile_parts.readers import Event

# Tells what a script says: the input, a file, the clock, random bytes, and the first byte of each argument.
TELLING = b"""
    lw s0, 0(sp)
    addi s1, sp, 8
    la s2, place
    li a0, 0
    mv a1, s2
    li a2, 64
    li a7, 63
    ecall
    jal ra, say
    li a0, -100
    la a1, name
    li a2, 0
    li a7, 56
    ecall
    mv a1, s2
    li a2, 64
    li a7, 63
    ecall
    jal ra, say
    li a0, 1
    mv a1, s2
    li a7, 403
    ecall
    li a0, 16
    jal ra, say
    mv a0, s2
    li a1, 8
    li a2, 0
    li a7, 278
    ecall
    jal ra, say
    mv s3, s0
next: addi s3, s3, -1
    beq s3, zero, done
    lw s2, 0(s1)
    addi s1, s1, 4
    li a0, 1
    jal ra, say
    j next
done: mv a0, s0
    li a7, 94
    ecall
say: bge a0, zero, some
    li a0, 0
some: mv a2, a0
    mv a1, s2
    li a0, 1
    li a7, 64
    ecall
    jalr zero, 0(ra)
.data
name: .ascii "f\\0"
place: .zero 64
"""

# Writes from its data, makes a file and a pipe, and moves its break.
BUSY = b"""
    la a1, words
    li a0, 1
    li a2, 6
    li a7, 64
    ecall
    li a0, 0
    li a7, 214
    ecall
    li t0, 8192
    add a0, a0, t0
    ecall
    addi s0, a0, -4
    sw a0, 0(s0)
    li a0, -100
    la a1, name
    li a2, 66
    li a7, 56
    ecall
    mv s1, a0
    mv a1, s0
    li a2, 4
    li a7, 64
    ecall
    la a0, ends
    li a1, 0
    li a7, 59
    ecall
    la t0, ends
    lw a0, 4(t0)
    la a1, words
    li a2, 5
    li a7, 64
    ecall
    la t0, ends
    lw a0, 0(t0)
    mv a1, s0
    li a7, 63
    ecall
    li a0, 3
    li a7, 94
    ecall
.data
words: .ascii "hello\\n"
name: .ascii "made\\0"
ends: .word 0, 0
"""

# Two threads; the second writes when the first has woken it.
THREADS = b"""
    li a0, 69376
    addi a1, sp, -1024
    li a7, 220
    ecall
    beq a0, zero, second
    li t0, 300
spin: addi t0, t0, -1
    bne t0, zero, spin
    la t1, flag
    li t0, 1
    sw t0, 0(t1)
    mv a0, t1
    li a1, 1
    li a2, 1
    li a7, 422
    ecall
    li a0, 0
    li a7, 93
    ecall
second: la a0, flag
    li a1, 0
    li a2, 0
    li a3, 0
    li a7, 422
    ecall
    li a0, 1
    la a1, flag
    li a2, 4
    li a7, 64
    ecall
    li a0, 0
    li a7, 94
    ecall
.data
flag: .word 0
"""

# What polls and sleeps answer, by ppoll(2), select(2), clock_nanosleep(2) and docs/LINUX.md, whatever has come: a call's number, its arguments, its answer. Addresses
# are labels of POLLS; EDGE has four bytes behind it. What is polled is descriptor 1, which can be written.
PPOLL, PSELECT6, SLEEP = 414, 413, 407
EDGE, WRAPPED, LAST = 1048572, 0xFFFFFFFC, 0xFFFFFFF8
EBADF, EFAULT, EINVAL = -9, -14, -22
BAD_TIMES = ("negative", "lowest", "whole", "minus")
MOST_POLLED = 408
POLL_ANSWERS = [
    # as many descriptors as can be polled, and more; eight times 0x20000001 is 8 in 32 bits
    (PPOLL, "many", MOST_POLLED, "zero", 0, 0, MOST_POLLED),
    *((PPOLL, "many", count, "zero", 0, 0, EINVAL) for count in (MOST_POLLED + 1, 0x20000001, 0x7FFFFFFF, 0x80000000, 0xFFFFFFFF)),
    (PPOLL, 0, 0xFFFFFFFF, 0, 0, 0, EINVAL),
    # lists that can't be read, or not whole, or not be written
    *((PPOLL, place, 1, time, 0, 0, EFAULT) for place in (0, 8, EDGE, WRAPPED, LAST) for time in (0, "huge")),
    (PPOLL, EDGE, MOST_POLLED, "zero", 0, 0, EFAULT),
    (PPOLL, "sealed", 1, "zero", 0, 0, EFAULT),
    # odd lists: at an odd place, of one descriptor twice, of numbers below 0, of ones that aren't open, with each event
    (PPOLL, "odd", 1, 0, 0, 0, 1),
    (PPOLL, "twice", 2, 0, 0, 0, 2),
    (PPOLL, "passed", 3, 0, 0, 0, 1),
    (PPOLL, "closed", 4, 0, 0, 0, 4),
    (PPOLL, "each", 1, 0, 0, 0, 1),
    # times: none is valid, too large, without meaning in its last four bytes, unreadable
    *((PPOLL, "twice", 1, time, 0, 0, EINVAL) for time in BAD_TIMES),
    *((PPOLL, "twice", 1, time, 0, 0, 1) for time in ("huge", "long", "padded")),
    *((PPOLL, "twice", 1, time, 0, 0, EFAULT) for time in (8, EDGE, WRAPPED)),
    (PPOLL, "twice", 0xFFFFFFFF, 8, 0, 0, EFAULT),
    # sets
    *((PSELECT6, count, "none", "output", 0, "zero", 1) for count in (2, 63, 1024, 1025, 0x7FFFFFFF)),
    (PSELECT6, 2, 0, "output", 0, 0, 1),
    *((PSELECT6, count, 0, "output", 0, "zero", EINVAL) for count in (0x80000000, 0xFFFFFFFF)),
    (PSELECT6, 0xFFFFFFFF, 8, 8, 8, 0, EINVAL),
    *((PSELECT6, 64, *sets, "zero", EFAULT) for place in (8, EDGE, WRAPPED, "sealed") for sets in ((place, 0, 0), (0, place, 0), (0, 0, place))),
    *((PSELECT6, 64, *sets, "huge", EBADF) for sets in (("far", 0, 0), (0, "far", 0), ("none", "output", "far"))),
    (PSELECT6, 1024, "ones", "ones", "ones", 0, EBADF),
    *((PSELECT6, 2, 0, "output", 0, time, EINVAL) for time in BAD_TIMES),
    *((PSELECT6, 2, 0, "output", 0, time, 1) for time in ("huge", "long", "padded")),
    *((PSELECT6, 0xFFFFFFFF, 0, "output", 0, time, EFAULT) for time in (8, EDGE, WRAPPED)),
    # sleeps
    *((SLEEP, clock, flags, time, 0, 0, EINVAL) for clock in (0, 1) for flags in (0, 1) for time in BAD_TIMES),
    *((SLEEP, clock, 0, time, 0, 0, EFAULT) for clock in (0, 1) for time in (0, 8, EDGE, WRAPPED)),
    (SLEEP, 99, 0, "huge", 0, 0, EINVAL),
    (SLEEP, 1, 1, "zero", 0, 0, 0),
]
# The waits of its rounds, one after another: for all that it has, or, in the sixth, for nothing but the time. What they answer follows from what comes.
VARIES = 0x7FFFFFFF
POLL_WAITS = [
    (PPOLL, "list", 11, 0, 0, 0, VARIES),
    (PSELECT6, 128, "asked", 0, 0, "huge", VARIES),
    (PPOLL, "list", 11, "zero", 0, 0, VARIES),
    (PSELECT6, 1024, "asked", 0, 0, "soon", VARIES),
    (PPOLL, "list", 11, "long", 0, 0, VARIES),
    (PPOLL, 0, 0, "soon", 0, 0, VARIES),
    (PSELECT6, 0x7FFFFFFF, "asked", 0, 0, 0, VARIES),
    (PPOLL, "list", 11, "soon", 0, 0, VARIES),
]


def lines_of_words(rows):
    return b"".join(b"    .word %s\n" % ", ".join(map(str, row)).encode() for row in rows)


# One loop over its input, a listener and eight clients, none of whose calls waits but those of POLL_WAITS. Each gets back what it sent. A round begins with
# its part of POLL_ANSWERS: one that is otherwise is an EBREAK. The loop ends with EINTR of a wait; what begins with the byte `breaks_at` makes it load from
# address 0.
POLLS = b"""
    li a0, 2
    li a1, 2049
    li a2, 0
    li a7, 198
    ecall
    mv s0, a0
    la a1, address
    li a2, 16
    li a7, 200
    ecall
    mv a0, s0
    li a1, 8
    li a7, 201
    ecall
    li a0, 0
    li a1, 4
    li a2, 2048
    li a7, 25
    ecall
    la t0, list
    sw s0, 8(t0)
    la s1, calls

# the calls up to one without an answer, which is the round's wait
round: jal ra, gather
    mv s2, s1
call: lw a7, 0(s2)
    lw a0, 4(s2)
    lw a1, 8(s2)
    lw a2, 12(s2)
    lw a3, 16(s2)
    lw a4, 20(s2)
    li a5, 0
    ecall
    lw t0, 24(s2)
    addi s2, s2, 28
    li t1, %(varies)d
    beq t0, t1, waited
    beq a0, t0, call
other: ebreak
done: li a0, 0
    li a7, 94
    ecall
waited: li t0, -4
    beq a0, t0, done
    blt a0, zero, other
    mv s1, s2
    la t0, behind_calls
    bne s1, t0, clients
    la s1, calls
    j clients

# the set of all that the list has
gather: la t0, asked
    addi t1, t0, 128
clear: sw zero, 0(t0)
    addi t0, t0, 4
    bne t0, t1, clear
    la t0, list
    la t1, behind
bit: lw t2, 0(t0)
    blt t2, zero, passed_over
    srli t3, t2, 5
    slli t3, t3, 2
    la t4, asked
    add t3, t3, t4
    li t4, 1
    sll t4, t4, t2
    lw t5, 0(t3)
    or t5, t5, t4
    sw t5, 0(t3)
passed_over: addi t0, t0, 8
    bne t0, t1, bit
    jalr zero, 0(ra)

# clients, the last one first; then a new one, and the input
clients: la s3, behind
    addi s3, s3, -8
client: addi s3, s3, -8
    la t0, list
    addi t0, t0, 8
    beq s3, t0, new
    jal ra, take
    j client
new: la s3, list
    addi s3, s3, 16
place: lw t0, 0(s3)
    blt t0, zero, free
    addi s3, s3, 8
    la t0, behind
    addi t0, t0, -8
    bne s3, t0, place
    j input
free: mv a0, s0
    li a1, 0
    li a2, 0
    li a3, 2048
    li a7, 242
    ecall
    li t0, -11
    beq a0, t0, input
    blt a0, zero, other
    sw a0, 0(s3)
input: la s3, list
    jal ra, take
    j round

# what the descriptor of this place has, which goes back, or its end
take: lw a0, 0(s3)
    blt a0, zero, taken
    la a1, bytes
    li a2, 64
    li a7, 63
    ecall
    li t0, -11
    beq a0, t0, taken
    blt a0, zero, other
    beq a0, zero, over
    mv a2, a0
    la t0, bytes
    lbu t1, 0(t0)
    la t0, breaks_at
    lw t0, 0(t0)
    bne t0, t1, sound
    lw a0, 0(zero)
sound: lw a0, 0(s3)
    bne a0, zero, back
    li a0, 1
back: la a1, bytes
    li a7, 64
    ecall
    bne a0, a2, other
    j taken
over: lw a0, 0(s3)
    beq a0, zero, forget
    li a7, 57
    ecall
forget: li t0, -1
    sw t0, 0(s3)
taken: jalr zero, 0(ra)
sealed: .word 2, 0

.data
address: .byte 2, 0, 31, 144, 0, 0, 0, 0, 0, 0, 0, 0, 0, 0, 0, 0
list: .word 0, 1, 0, 1
%(free)s    .word -2147483648, 65535
behind: .word 0
breaks_at: .word %(breaks_at)d
asked: .zero 128
bytes: .zero 64
none: .zero 128
output: .word 2
    .zero 124
far: .word 0, 0x80000000
    .zero 120
ones: .word -1
%(ones)s    .zero 1
odd: .byte 1, 0, 0, 0, 4, 0, 0, 0
twice: .word 1, 4, 1, 4
passed: .word -1, 65535, -2147483648, 65535, 1, 4
closed: .word 63, 0, 1023, 65535, 65535, 0, 2147483647, 1
each: .word 1, 65535
many: .word 1, 4
%(many)szero: .word 0, 0, 0, 0
soon: .word 0, 0, 10000000, 0
long: .word 0, 1, 0, 0
huge: .word -1, 0x7fffffff, 999999999, 0
padded: .word 0, 0, 0, -1
negative: .word -1, -1, 0, 0
lowest: .word 0, 0x80000000, 0, 0
whole: .word 0, 0, 1000000000, 0
minus: .word 0, 0, -1, -1
calls:
%(calls)sbehind_calls: .word 0
"""


def polls(breaks_at):
    """The text of POLLS."""
    part = len(POLL_ANSWERS) // len(POLL_WAITS)
    calls = [call for i, wait in enumerate(POLL_WAITS) for call in [*POLL_ANSWERS[i * part : (i + 1) * part], wait]]
    return POLLS % {
        b"breaks_at": breaks_at,
        b"free": lines_of_words([(-1, 0x2001)] * 8),
        b"ones": lines_of_words([[-1]] * 31),
        b"many": lines_of_words([(1, 4)] * MOST_POLLED),
        b"calls": lines_of_words(calls),
        b"varies": VARIES,
    }

# Every form of the assembler.
FORMS = b"""# forms
.entry go
add a0, a1, a2
xor x31,x0,t6
addi t0, t1, -2048
srai s0, fp, 31
lw ra, 4(sp)
jalr zero, 0(ra)
sb a0, -1(gp)
go: beq a0, zero, far
jal ra, go
lui t0, 0xFFFFF
auipc t0, 1
fence
ebreak
.text
li a0, -5
la a1, text
far: mv a0, tp
j go
nop
ecall
.byte 1, -128, 255
.word 0xDEADBEEF, go
.data
text: .ascii "a\\n\\t\\0\\\\\\"#" # end
.zero 5
.word text, -1
"""

RULE_FORMS = b"""; forms
start: ld [0]
ld event[4]
ld version
ld #7
st M[0]
ldx M[0]
stx M[15]
ld M[15]
ld len
ldx len
ldx #3
add #1
sub x
mul #2
div #5
div x
or x
and #255
lsh #31
rsh x
neg
tax
txa
jeq #177, a, no
a: jgt x, b, no
b:  jge #1, c, no ; yes
c: jset #4, d, no
d: ja no
ret a
no: ret #0
"""

# Allows getuid in place of geteuid.
ALLOWING = b"6\n32 0 0 64\n21 0 3 177\n32 0 0 0\n21 0 1 174\n6 0 0 2147418112\n6 0 0 0\n"
# Allows every call, behind each kind of instruction.
LONG_RULE = b"""26
128 0 0 0
7 0 0 0
1 0 0 9
135 0 0 0
2 0 0 15
97 0 0 15
4 0 0 3
28 0 0 0
36 0 0 2
52 0 0 7
60 0 0 0
68 0 0 1
92 0 0 0
100 0 0 31
124 0 0 0
132 0 0 0
3 0 0 0
96 0 0 0
129 0 0 0
32 0 0 128
37 1 0 4
53 0 0 0
77 0 0 0
5 0 0 0
0 0 0 2147418112
22 0 0 0
"""

SCRIPT = b"""varan-script 1
# all words
arg one word
arg 2
line typed
input 00fF0a
file f 6162630a
file g
clock 5 999999999 1000000000
random 4294967295
"""

# The same in form 2, with lengths at which the lead is handed over.
HANDING = b"""varan-script 2
hand 3
arg one word
hand 1
line typed
file f 6162630a
clock 5 999999999 1000000000
random 4294967295
hand 131072
"""

GETEUID_CALL = [0x0B100893, 0x00000073, 0x00000513, 0x05E00893, 0x00000073]
WITH_GETUID = [0x0AE00893, 0x00000073, *GETEUID_CALL]

# The events of the example in crates/varan/data.
EXAMPLE_EVENTS = [Event(100, 64, [1, 0, 3, 0, 0, 0], 0, 3, b"hi\n", b""), Event(100, 94, [0] * 6, 0, 0, b"", b"")]

# The report of the example in crates/varan/data (README.md, "Run it"), up to the number of versions.
EXAMPLE = b"output 3\nhi\n\nlog 2\n0 100 64 1 0 3 0 0 0 = 3 : 68690a\n1 100 94 0 0 0 0 0 0 = 0 :\nfates "
GETEUID = b"output 0\n\nlog 2\n0 100 177 0 0 0 0 0 0 = 1000 :\n1 100 94 0 0 0 0 0 0 = 0 :\nfates 2\n0 exited 0 seen 2 led 0-2 rewrites 0\n1 "


def image(words, tail=b""):
    """A version file: one segment with the rights read and execute at 0x10000, with the entry there."""
    code = b"".join(struct.pack("<I", word) for word in words) + tail
    head = bytes.fromhex("7F454C46010101000000000000000000") + struct.pack(
        "<HHIIIIIHHHHHH", 2, 243, 1, 0x10000, 52, 0, 0, 52, 32, 1, 0, 0, 0)
    return head + struct.pack("<IIIIIIII", 1, 84, 0x10000, 0x10000, len(code), len(code), 5, 4) + code


def told(script):
    """What `TELLING` writes and its status, by what the script says."""
    start, nanos, step = script.clock or (0, 0, 0)
    moment = start * 10**9 + nanos + 5 * step
    state, drawn = script.seed or 0, b""
    for _ in range(8):
        state = (state * 0x5851F42D4C957F2D + 0x14057B7EF767814F) % 2**64
        drawn += bytes([state >> 56])
    shown = script.input[:64] + script.files.get(b"f", b"")[:64] + struct.pack("<QQ", *divmod(moment, 10**9)) + drawn
    return shown + b"".join(text[:1] for text in script.arguments), (len(script.arguments) + 1) % 256


def told_events(script, shown):
    """The calls of `TELLING` with their replies, by what the script says and what it shows."""
    place, given = 0, []
    events = []

    def event(nr, arguments, ret, handed=b"", got=b""):
        events.append(Event(100, nr, arguments + [0] * (6 - len(arguments)), 0, ret, handed, got))

    def say(count):
        nonlocal place
        given.append(shown[place:place + count])
        event(64, [1, 0, count], count, shown[place:place + count])
        place += count

    typed = script.input[:64]
    event(63, [0, 0, 64], len(typed), got=typed)
    say(len(typed))
    content = script.files.get(b"f")
    event(56, [4294967196, 0, 0], -2 if content is None else 3, b"f")
    if content is None:
        event(63, [4294967294, 0, 64], -9)
        say(0)
    else:
        event(63, [3, 0, 64], len(content[:64]), got=content[:64])
        say(len(content[:64]))
    event(403, [1, 0], 0, got=shown[place:place + 16])
    say(16)
    event(278, [0, 8, 0], 8, got=shown[place:place + 8])
    say(8)
    for _ in script.arguments:
        say(1)
    event(94, [(len(script.arguments) + 1) % 256], 0)
    return events


def made_line(number):
    """The line of `gen`: version i below the last breaks behind its write k (i + 1) / v; those above the first ask for their user before each 16th write."""
    versions, writes, size = 2 + number % 3, 1000 + number % 9000, 1 + number % 64
    first = writes // versions
    events = writes + writes // 16 - first // 16 + 1
    rewrites = (versions - 1) * (first // 16)
    return b"gen %d versions %d output %d log %d exited 1 rewrites %d\n" % (number, versions, writes * size, events, rewrites)
