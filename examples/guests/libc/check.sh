#!/usr/bin/env bash
# Builds answers.c over the guests' library and over the library as it is, and compares what the first writes under varan with what the second
# writes under Linux, by qemu-riscv32; epoll (epolled.c, watched.c) and threads too (threaded.c), beside versions that are built otherwise. Looks at a server
# that polls (polled.c), over scripts of form 3 and of form 5, and at what a full stack and what can't be had end with.
# check.sh [PROGRAM]: crates/varan/out/varan where no program is named.
# Status: 0 where all is so, 1 where something isn't, 2 where the program isn't built, 3 where a tool or the library is missing.
set -eu
program=$(realpath -m "${1:-$(dirname "$0")/../../../crates/varan/out/varan}")
cd "$(dirname "$0")"
[ -x "$program" ] || { echo "check.sh: $program isn't built: cd crates/varan && rt run -- run --script data/s data/v"; exit 2; }
for tool in qemu-riscv32 xxd; do
    command -v $tool >/dev/null || { echo "check.sh: $tool isn't on this machine"; exit 3; }
done
work=$(mktemp -d)
server=
trap '[ -z "$server" ] || kill "$server" 2>/dev/null || true; rm -rf "$work"' EXIT
wrong=0

# console WORD..: what the guest of the script writes; the report stands in the file report.
console() {
    "$program" run --memory 8388608 --script "$work/script" "$@" >"$work/report" || true
    sed 1d "$work/report" | head -c "$(sed -n '1s/^output //p' "$work/report")"
}

# ends TEXT: the report has this line of its one version.
ends() {
    grep -q "^0 $1" "$work/report" || { echo "check.sh: not $1:"; sed -n '/^fates/,$p' "$work/report"; wrong=1; }
}

echo 'varan-script 1' >"$work/script"
./cc -O1 -o "$work/guest" answers.c
./cc --linux -O1 -o "$work/linux" answers.c
(cd "$work" && qemu-riscv32 linux </dev/null) >"$work/expected"
console "$work/guest" >"$work/written"
cmp "$work/expected" "$work/written" || { diff "$work/expected" "$work/written"; wrong=1; }
ends 'exited 0 '

# Threads, alone and beside another one's; and a server with a thread for each client: when no client is left it ends once all threads wait.
{
    echo 'varan-script 3'
    echo 'arg 90'
    for text in 'hello' '' 'more bytes than are read at once, by two and a half times'; do
        echo "connect 90 $(printf %s "$text" | xxd -p -c 0)" | sed 's/ $//'
    done
} >"$work/script"
./cc -O1 -o "$work/guest" threaded.c
./cc --linux -O1 -o "$work/linux" threaded.c
qemu-riscv32 "$work/linux" >"$work/expected"
console "$work/guest" "$work/guest" >"$work/written"
cmp "$work/expected" "$work/written" || { diff "$work/expected" "$work/written"; wrong=1; }
ends 'exited 0 '
grep -q '^1 exited 0 ' "$work/report" || { echo "check.sh: a second version with threads isn't in step"; wrong=1; }
printf 'connections 3\nconnection 0 90 5\nHELLO\nconnection 1 90 0\n\nconnection 2 90 57\n%s\n' \
    'MORE BYTES THAN ARE READ AT ONCE, BY TWO AND A HALF TIMES' >"$work/expected"
sed -n '/^connections /,$p' "$work/report" | diff "$work/expected" - || { echo "check.sh: the clients of threaded.c get something else"; wrong=1; }

# The same where clients come one after another: the first one is silent until the two others have their answers. Versions that are built otherwise are in step.
{
    echo 'varan-script 5'
    echo 'arg 90'
    printf 'time 1 0\nconnect 90\nconnect 90\ndata 1 %s\nconnect 90\ndata 2 %s\nend 1\ndata 0 %s\nend clients\nend 2\nend 0\n' \
        "$(printf second | xxd -p)" "$(printf third | xxd -p)" "$(printf first | xxd -p)"
} >"$work/script"
others=()
for option in O0 O2 O3 Os; do
    ./cc "-$option" -o "$work/guest_$option" threaded.c
    others+=("$work/guest_$option")
done
console "$work/guest" "${others[@]}" >"$work/written"
is_same=$(grep -c '^[0-4] exited 0 ' "$work/report" || true)
[ "$is_same" = 5 ] || { echo "check.sh: $is_same of five versions with threads are in step"; sed -n '/^fates/,$p' "$work/report"; wrong=1; }
printf 'connections 3\nconnection 0 90 5\nFIRST\nconnection 1 90 6\nSECOND\nconnection 2 90 5\nTHIRD\n' >"$work/expected"
sed -n '/^connections /,$p' "$work/report" | diff "$work/expected" - || { echo "check.sh: the clients of threaded.c that come one after another get something else"; wrong=1; }
[ "$(sed -n 's/^[0-9]* [0-9]* 64 \(6[567]\) .*/\1/p' "$work/report" | tr '\n' ' ')" = '66 67 65 ' ] || { echo "check.sh: a silent client holds the others of threaded.c"; wrong=1; }
echo 'varan-script 1' >"$work/script"

# a stack that is full, at the size that the program is linked with
echo 'int deep(int n) { volatile char b[1000]; b[0] = 1; return n ? deep(n - 1) + b[0] : 0; } int main(void) { return deep(400) != 400; }' >"$work/deep.c"
./cc --stack 262144 -o "$work/guest" "$work/deep.c"
console "$work/guest" >"$work/written"
ends 'fault store '
./cc --stack 524288 -o "$work/guest" "$work/deep.c"
console "$work/guest" >"$work/written"
ends 'exited 0 '

echo '#include <unistd.h>
int main(void) { execl("/bin/true", "true", (char *)0); return 0; }' >"$work/exec.c"
./cc -o "$work/guest" "$work/exec.c"
[ "$(console "$work/guest")" = "guest: exec: there is no other program" ] || { echo "check.sh: exec says something else"; wrong=1; }
ends 'exited 127 '

# how the first process ends by a signal; a failed assert is a fault, and writes nothing
cat >"$work/ends.c" <<'END'
#include <assert.h>
#include <signal.h>
#include <stdlib.h>
static void back(int number) { (void)number; }
int main(void)
{
    signal(SIGABRT, back);
    switch (WAY) {
    case 0: assert(WAY != 0);
    case 1: abort();
    default: return raise(WAY) + 3;
    }
}
END
for row in '0 fault breakpoint' '1 fault breakpoint' '11 fault breakpoint' '15 exited 143' '17 exited 3'; do
    ./cc "-DWAY=${row%% *}" -o "$work/guest" "$work/ends.c"
    console "$work/guest" >"$work/written"
    ends "${row#* } "
    cmp /dev/null "$work/written" || { echo "check.sh: ends.c, $row, writes something"; wrong=1; }
done

# same_as_linux WHAT: the files expected and written are the same.
same_as_linux() {
    cmp "$work/expected" "$work/written" || { echo "check.sh: $1:"; diff "$work/expected" "$work/written"; wrong=1; }
}

# epoll over pipes: a wait that finds nothing takes in what comes up to the next time.
{ echo 'varan-script 5'; yes 'time 0 0' | head -100; } >"$work/script"
./cc --linux -O1 -o "$work/linux" epolled.c
qemu-riscv32 "$work/linux" >"$work/expected"
others=()
for option in Os O2; do
    ./cc "-$option" -o "$work/guest_$option" epolled.c
    others+=("$work/guest_$option")
done
console "${others[@]}" >"$work/written"
same_as_linux epolled.c
ends 'exited 0 '
grep -q '^1 exited 0 ' "$work/report" || { echo "check.sh: a second version of epolled.c isn't in step"; wrong=1; }

# has_written LINES: waits until the server has written so many, for ten seconds at most.
has_written() {
    local tries
    for ((tries = 0; tries < 200; tries++)); do
        [ "$(wc -l <"$work/expected")" -ge "$1" ] && return
        sleep 0.05
    done
    echo "check.sh: watched.c writes no line $1 under Linux"
    wrong=1
}

# epoll over sockets: clients of Linux, each of whom goes on once the server has written what it has to, and those of a script that do the same
port=18391
./cc --linux -O1 -o "$work/linux" watched.c
qemu-riscv32 "$work/linux" $port >"$work/expected" &
server=$!
has_written 1
exec 5<>/dev/tcp/127.0.0.1/$port
has_written 2
printf abcdefgh >&5
has_written 6
exec 6<>/dev/tcp/127.0.0.1/$port
has_written 8
printf hello >&6
has_written 12
exec 7<>/dev/tcp/127.0.0.1/$port
has_written 13
printf one >&7
has_written 15
printf two >&7
sleep 0.2
printf x >&5
has_written 19
exec 5>&-
has_written 21
exec 6>&-
has_written 23
exec 7>&-
has_written 25
kill $server
wait $server || { echo "check.sh: watched.c ends with another status under Linux"; wrong=1; }
server=
{
    echo 'varan-script 5'
    printf 'time 1 0\nconnect 90\ndata 0 %s\nconnect 90\ndata 1 %s\nconnect 90\ndata 2 %s\ndata 2 %s\ndata 0 %s\nend 0\nend 1\nend 2\nend clients\n' \
        "$(printf abcdefgh | xxd -p)" "$(printf hello | xxd -p)" "$(printf one | xxd -p)" "$(printf two | xxd -p)" "$(printf x | xxd -p)"
} >"$work/script"
others=()
for option in Os O2; do
    ./cc "-$option" -o "$work/guest_$option" watched.c
    others+=("$work/guest_$option")
done
console "${others[@]}" >"$work/written"
same_as_linux watched.c
ends 'exited 0 '
grep -q '^1 exited 0 ' "$work/report" || { echo "check.sh: a second version of watched.c isn't in step"; wrong=1; }

# a server that polls, and one that waits by epoll
for built in -UEPOLL -DEPOLL; do
    ./cc $built -o "$work/guest" polled.c

    # three clients, of whom one says nothing; it ends where none is left
    {
        echo 'varan-script 3'
        for text in 'hello' '' 'more bytes than are read at once'; do
            echo "connect 90 $(printf %s "$text" | xxd -p -c 0)" | sed 's/ $//'
        done
    } >"$work/script"
    console "$work/guest" >"$work/written"
    ends 'exited 0 '
    printf 'connections 3\nconnection 0 90 20\n7f000001:40001 HELLO\nconnection 1 90 15\n7f000001:40002 \nconnection 2 90 47\n%s\n' \
        '7f000001:40003 MORE BYTES THAN ARE READ AT ONCE' >"$work/expected"
    sed -n '/^connections /,$p' "$work/report" | diff "$work/expected" - || { echo "check.sh: the clients of polled.c $built get something else"; wrong=1; }

    # the same where clients come one after another: the first one is silent until the second has its answer and another has come; a poll is interrupted in
    # the end
    {
        echo 'varan-script 5'
        printf 'connect 90\nconnect 90\ndata 1 %s\nconnect 90\nend 1\ndata 0 %s\nend clients\nend 2\nend 0\n' \
            "$(printf hello | xxd -p)" "$(printf late | xxd -p)"
    } >"$work/script"
    console "$work/guest" >"$work/written"
    ends 'exited 0 '
    printf 'connections 3\nconnection 0 90 19\n7f000001:40001 LATE\nconnection 1 90 20\n7f000001:40002 HELLO\nconnection 2 90 15\n7f000001:40003 \n' \
        >"$work/expected"
    sed -n '/^connections /,$p' "$work/report" | diff "$work/expected" - ||
        { echo "check.sh: the clients of polled.c $built that come one after another get something else"; wrong=1; }
done

[ "$wrong" = 0 ] && echo "check.sh: the answers are Linux's"
exit $wrong
