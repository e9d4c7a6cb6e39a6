#!/usr/bin/env bash
# Puts the examples before real clients, on 127.0.0.1, and compares what each of them got with what it gets under Linux (../guests/expected, ../server/expected).
# Then the transcript of each run is run again: it comes to the same log and fates as the live run, and its clients are written the same bytes. Does the commands of docs/LIVE.md, too, and operates a
# service (operating.py): versions join and leave, processes are killed, streams are closed, unread or full.
# check.sh [PROGRAM]: crates/varan/out/varan where no program is named.
# It wants python3, socat, xinetd and jq (Debian: packages of these names). What wants one that isn't there is left out, and a line with `left out` tells it.
# Status: 0 where nothing differs, 1 where something does, 2 where the program isn't built.
set -eu
program=$(realpath -m "${1:-$(dirname "$0")/../../crates/varan/out/varan}")
cd "$(dirname "$0")"
here=$PWD
guests=$here/../guests
server=$here/../server
if [ ! -x "$program" ]; then
    echo "check.sh: $program isn't built: cd crates/varan && rt run -- run --script data/s data/v"
    exit 2
fi
work=$(mktemp -d)
started=()
# the limits that a live run has
largest=(--calls 131072 --hang 100000000)
rows=0
wrong=0

# finish: ends what was started, each process by its number.
finish() {
    local it
    for it in ${started[@]+"${started[@]}"}; do
        kill "$it" 2>/dev/null || true
    done
    rm -rf "$work"
}
trap finish EXIT

# has TOOL WHAT: whether the tool is on this machine; where it isn't, this is left out.
has() {
    if ! PATH=$PATH:/usr/sbin command -v "$1" >/dev/null; then
        echo "check.sh: left out: $2, for want of $1 (Debian: $1)"
        return 1
    fi
}

# bad TEXT..: something is wrong.
bad() {
    echo "check.sh: $*"
    wrong=$((wrong + 1))
}

# is STATUS WANTED WHAT
is() {
    rows=$((rows + 1))
    [ "$1" = "$2" ] || bad "$1 in place of $2: $3"
}

# same FILE FILE WHAT: two files are the same.
same() {
    rows=$((rows + 1))
    cmp "$1" "$2" || bad "other bytes in $2 than in $1: $3"
}

# free_port: a port of 127.0.0.1 at which nobody listens.
free_port() {
    python3 -c 'import socket; it = socket.create_server(("127.0.0.1", 0)); print(it.getsockname()[1])'
}

# until_it COMMAND..: waits until it succeeds, for a minute at most.
until_it() {
    local tries
    for ((tries = 0; tries < 1200; tries++)); do
        "$@" && return
        sleep 0.05
    done
    bad "it doesn't come to this: $*"
    return 1
}

# listens PORT: whether somebody listens at the port of 127.0.0.1.
listens() {
    grep -q "0100007F:$(printf %04X "$1") 00000000:0000 0A" /proc/net/tcp
}

# told_in TRANSCRIPT: the events that a live run told, and how each version ended after how many, as in a report but for what it led.
told_in() {
    sed -n 's/^# \([0-9]* [0-9]* .* = .*\)$/\1/p' "$1"
    sed -n 's/^# version \([0-7]\) ended: \(.*\), after \([0-9]*\) events$/\1 \2 seen \3/p' "$1" | sort
}

# reported_in REPORT: the same of a report.
reported_in() {
    sed -n '/^log /,/^connections /p' "$1" | sed -n 's/^\([0-9]* [0-9]* .* = .*\)$/\1/p;s/^\([0-7] [a-z].* seen [0-9]*\) led .*$/\1/p'
}

# fates_of FILE: how the versions ended, by these lines, without the address of a fault.
fates_of() {
    sed -n 's/^\([0-7] [a-z].*\) seen .*$/\1/p' "$1" | sed 's/\(fault [a-z]* 100\) [0-9a-f]*/\1/'
}

# again TRANSCRIPT FATES V..: the run of a transcript succeeds, and comes to the log and the fates that the live run told; the fates are these.
again() {
    local transcript=$1 fates=$2 status=0
    shift 2
    "$program" run "${largest[@]}" --script "$transcript" "$@" >"$work/report" || status=$?
    is "$status" 0 "the transcript's status, $*"
    reported_in "$work/report" >"$work/run"
    told_in "$transcript" >"$work/told"
    same "$work/told" "$work/run" "the transcript's log and fates, $*"
    is "$(fates_of "$work/told")" "$fates" "the fates, $*"
}

# ---- a service of lines, on standard input and output

bad_service=$guests/built/service_2
old_service=$guests/built/service_1
services=$'0 fault load 100\n1 exited 0'

# lines_again TRANSCRIPT: the transcript of a run that served the lines.
lines_again() {
    local size
    again "$1" "$services" "$bad_service" "$old_service"
    size=$(sed -n '1s/^output //p' "$work/report")
    sed 1d "$work/report" | head -c "$size" >"$work/console"
    same "$guests/expected/service" "$work/console" "the transcript's console"
}

# three_at PORT NAME: three clients at once are served, each by a run of its own, which left its transcript and its status.
three_at() {
    local it
    "$here/clients.py" input "$1" "$work/lines" 3 >"$work/got" || bad "three clients by $2"
    cat "$guests"/expected/{service,service,service} >"$work/wanted"
    same "$work/wanted" "$work/got" "three clients by $2"
    is "$(cd "$work" && echo "$2".*.status | wc -w)" 3 "runs by $2"
    for it in "$work/$2".*.status; do
        is "$(cat "$it")" 0 "a run by $2"
        lines_again "${it%.status}"
    done
}

# in_a_pipe: what came stands in the transcript, an arrival a line.
in_a_pipe() {
    local status=0
    "$program" serve --log "$bad_service" "$old_service" < <(cat "$work/lines") >"$work/console" 2>"$work/transcript" || status=$?
    is "$status" 0 "a service in a pipe"
    same "$guests/expected/service" "$work/console" "a service in a pipe"
    { echo varan-script 5; grep '^line ' "$guests/scripts/service"; } >"$work/wanted"
    grep -v '^#' "$work/transcript" >"$work/arrived"
    same "$work/wanted" "$work/arrived" "what came"
    lines_again "$work/transcript"
}

by_socat() {
    local port
    port=$(free_port)
    timeout 120 socat -t 30 "TCP-LISTEN:$port,bind=127.0.0.1,fork" "EXEC:$work/serve socat" &
    started+=($!)
    until_it listens "$port" || return 0
    three_at "$port" socat
}

by_xinetd() {
    local port
    port=$(free_port)
    cat >"$work/xinetd.conf" <<END
service lines
{
    type = UNLISTED
    socket_type = stream
    protocol = tcp
    bind = 127.0.0.1
    port = $port
    wait = no
    user = $(id -un)
    server = $work/serve
    server_args = xinetd
}
END
    PATH=$PATH:/usr/sbin timeout 120 xinetd -dontfork -f "$work/xinetd.conf" -pidfile "$work/xinetd.pid" -filelog "$work/xinetd.log" &
    started+=($!)
    until_it listens "$port" || return 0
    three_at "$port" xinetd
}

# comments: the operator is told of the first and the tenth decision of a rule, and of nine tenths of the calls.
comments() {
    # one reads lines and writes them again, the other only reads them; the rule passes over each write
    cat >"$work/reads.s" <<END
again: li a0, 0
la a1, room
li a2, 64
li a7, 63
ecall
beq a0, zero, done
mv a2, a0
#
j again
done: li a0, 0
li a7, 94
ecall
.data
room: .zero 64
END
    sed 's/^#$/li a0, 1\nli a7, 64\necall/' "$work/reads.s" >"$work/writes.s"
    "$program" asm "$work/reads.s" >"$work/reads"
    "$program" asm "$work/writes.s" >"$work/writes"
    printf '1\n6 0 0 393216\n' >"$work/passes"
    printf 'a\n%.0s' {1..12} | "$program" serve --rules "$work/passes" --calls 26 "$work/writes" "$work/reads" 2>"$work/transcript" >"$work/console" || bad "a service with a rule"
    sort >"$work/wanted" <<END
# version 1 rewrites 1 at 1 100 64 1 0 2 0 0 0 = 2 : 610a
# version 1 rewrites 10 at 19 100 64 1 0 2 0 0 0 = 2 : 610a
# 24 of 26 calls are made
# version 0 ended: exited 0, after 26 events
# version 1 ended: exited 0, after 26 events
END
    grep '^#' "$work/transcript" | sort >"$work/comments"
    same "$work/wanted" "$work/comments" "the operator's comments"
}

# last_words: the update writes a line on descriptor 2, and breaks. By a rule the old version skips that write, which it doesn't make, and leads on.
last_words() {
    cat >"$work/old.s" <<END
again: li a0, 0
la a1, room
li a2, 64
li a7, 63
ecall
beq a0, zero, done
mv a2, a0
#
li a0, 1
li a7, 64
ecall
j again
done: li a0, 0
li a7, 94
ecall
.data
room: .zero 64
END
    sed 's/^#$/lbu t0, 0(a1)\nli t1, 100\nbne t0, t1, good\nli a0, 2\nli a7, 64\necall\nebreak\ngood:/' "$work/old.s" >"$work/new.s"
    "$program" asm "$work/old.s" >"$work/old"
    "$program" asm "$work/new.s" >"$work/new"
    "$program" rules --asm "$here/last_words.txt" >"$work/skips"
    printf '%s\n' a d b | "$program" serve --rules "$work/skips" "$work/new" "$work/old" 2>"$work/transcript" >"$work/console" || bad "a service whose update has last words"
    printf '%s\n' a d d b >"$work/wanted"
    same "$work/wanted" "$work/console" "the console, with the update's last words"
    told_in "$work/transcript" >"$work/told"
    is "$(fates_of "$work/told")" $'0 fault breakpoint 100\n1 exited 0' "the fates of an update with last words"
}

# long_event: an event with as many bytes as a call has at most is told as well.
long_event() {
    printf '%s\n' "la a1, room" "li a0, 1" "li a2, 4096" "li a7, 64" ecall "li a0, 0" "li a7, 94" ecall .data "room: .zero 4096" >"$work/long.s"
    "$program" asm "$work/long.s" >"$work/long"
    "$program" serve --log "$work/long" </dev/null 2>"$work/transcript" >"$work/console" || bad "a service with a long event"
    is "$(grep '^# 0 ' "$work/transcript")" "# 0 100 64 1 0 4096 0 0 0 = 4096 : $(printf '0%.0s' {1..8192})" "a long event"
}

# a_failed_stream STATUS LINE: standard input or output failed; the service ended with this status, and told the operator this.
a_failed_stream() {
    is "$status" "$1" "the status of a stream that fails"
    is "$(grep '^# varan: ' "$work/transcript")" "# varan: $2" "why a service ended"
}

# failed_streams: standard input can't be read, as it is a folder, or standard output can't be written.
failed_streams() {
    local status=0
    "$program" serve "$old_service" <"$work" >"$work/console" 2>"$work/transcript" || status=$?
    a_failed_stream 5 "read standard input"
    status=0
    "$program" serve "$old_service" <"$work/lines" >/dev/full 2>"$work/transcript" || status=$?
    a_failed_stream 6 "write standard output"
}

plain() {
    sed -n 's/^line //p' "$guests/scripts/service" >"$work/lines"
    # a run, with its transcript and its status in files of their own
    cat >"$work/serve" <<END
#!/bin/sh
"$program" serve --log "$bad_service" "$old_service" 2>"$work/\$1.\$\$"
echo \$? >"$work/\$1.\$\$.status"
END
    chmod +x "$work/serve"
    in_a_pipe
    comments
    last_words
    long_event
    failed_streams
    # the page's commands
    rows=$((rows + 1))
    "$here/../follow.py" "$here/../../docs/LIVE.md" "$program" || wrong=$((wrong + 1))
    if has socat "a service by socat"; then
        by_socat
    fi
    if has xinetd "a service by xinetd"; then
        by_xinetd
    fi
}

# ---- an HTTP server, its clients by varan-listen

bad_server=$server/built/server_2
old_server=$server/built/server_1
new_server=$server/built/server_3
# the clients' script, what version 1 gives them under Linux, their port, and what the guests are run with
clients=$server/scripts/clients
expected=$server/expected/clients_1
inner=8080
words=(--script "$work/setup")
port=
adapter=
options=()

# begun NAME V..: begins varan-listen, with its options and these versions. It listens at the port; the transcripts are in a folder of that name.
begun() {
    local name=$1
    shift
    port=$(free_port)
    mkdir "$work/$name"
    timeout 300 "$here/../../service/varan-listen" --transcripts "$work/$name" ${options[@]+"${options[@]}"} "$port:$inner" -- \
        "$program" serve --clients --log "${words[@]}" "$@" >"$work/console" &
    adapter=$!
    started+=("$adapter")
    until_it listens "$port"
}

# ended NAME: varan-listen is told to end, and ends well.
ended() {
    local status=0
    kill -TERM "$adapter"
    wait "$adapter" || status=$?
    is "$status" 0 "varan-listen, $1"
}

# first N: what the first N clients get from version 1 under Linux.
first() {
    echo "connections $1"
    sed -n "/^connection 0 /,/^connection $1 /p" "$expected" | sed "/^connection $1 /d"
}

# timeless FILE: what clients got, whatever the time at which it was written.
timeless() {
    sed 's/^Date: .* GMT/Date: now/' "$1"
}

# got NAME WAY: each of the clients gets what it gets from version 1 under Linux, at its own time.
got() {
    "$here/clients.py" "$2" "$port" "$clients" >"$work/got" || bad "the clients, $1"
    timeless "$expected" >"$work/wanted"
    timeless "$work/got" >"$work/timeless"
    same "$work/wanted" "$work/timeless" "the clients, $1"
}

# written NAME FILE: the run of the transcript writes the clients these bytes.
written() {
    rows=$((rows + 1))
    "$here/clients.py" same "$2" "$work/report" || bad "the transcript's clients, $1"
}

# in_turn NAME FATES V..: the clients, one after the other.
in_turn() {
    local name=$1 fates=$2
    shift 2
    begun "$name" "$@" || return 0
    got "$name" turn
    ended "$name"
    again "$work/$name"/* "$fates" "$@"
    sed -n '/^connections /,$p' "$work/report" >"$work/clients"
    same "$work/got" "$work/clients" "the transcript's clients, $name"
}

# calls NAME V..: the calls of the transcript's run are those of version 1, as strace prints them.
calls() {
    local transcript
    transcript=$(echo "$work/$1"/*)
    shift
    "$program" run --json "${largest[@]}" --script "$transcript" "$@" | jq -r -f "$here/../strace.jq" >"$work/calls"
    same "$server/expected/calls" "$work/calls" "the calls, $*"
}

# All twelve at once, in whatever order they come.
beside() {
    begun beside "$bad_server" "$old_server" || return 0
    got beside beside
    ended beside
    again "$work/beside"/* $'0 fault load 100\n1 exited 0' "$bad_server" "$old_server"
    written beside "$expected"
}

# A client leaves in the middle of its answer, before the others come.
one_leaves() {
    begun leave "$old_server" "$new_server" || return 0
    "$here/clients.py" leave "$port" "$clients" || bad "the client that leaves"
    got leave turn
    ended leave
    again "$work/leave"/* $'0 exited 0\n1 exited 0' "$old_server" "$new_server"
}

# Five clients a run: 0 to 4, 5 to 9 and the rest. The update breaks in the second one.
anew() {
    local run at=0 count=(5 5 2) fates=($'0 exited 0\n1 exited 0' $'0 fault load 100\n1 exited 0' $'0 exited 0\n1 exited 0')
    options=(--each 5)
    begun each "$bad_server" "$old_server" || return 0
    options=()
    got each turn
    ended each
    is "$(ls "$work/each" | wc -l)" 3 "how many runs have five clients each"
    for run in "$work/each"/*; do
        is "$(grep -c '^connect 8080$' "$run")" "${count[at]}" "the clients of run $at"
        is "$(grep -c '^end clients$' "$run")" 1 "the ends of clients, run $at"
        again "$run" "${fates[at]}" "$bad_server" "$old_server"
        at=$((at + 1))
    done
}

# have_come N FOLDER: N clients stand in the transcript of the folder.
have_come() {
    [ "$(cat "$2"/* | grep -c '^connect 8080$')" = "$1" ]
}

# SIGTERM while one client is slow and three wait behind it: all four are served.
while_they_wait() {
    local asking status=0
    begun wait "$bad_server" "$old_server" || return 0
    "$here/clients.py" slow "$port" "$clients" 4 >"$work/got" &
    asking=$!
    started+=("$asking")
    until_it have_come 4 "$work/wait" || return 0
    ended wait
    wait "$asking" || status=$?
    is "$status" 0 "the clients that wait"
    first 4 >"$work/wanted"
    same "$work/wanted" "$work/got" "the clients that wait"
    again "$work/wait"/* $'0 exited 0\n1 exited 0' "$bad_server" "$old_server"
    written wait "$work/wanted"
}

# Version 1 with other texts in two of its refusals. By a rule its writes to clients take the answer of the log's, so it is in step when the update breaks at client 6, and leads on: the clients after
# that get its own texts, each a whole answer.
other_texts() {
    local before=$expected takes=$work/takes other=$work/server_5 words=("${words[@]}" --rules "$work/takes") largest=("${largest[@]}" --rules "$work/takes")
    local expected=$work/other_texts
    "$program" rules --asm "$server/takes.txt" >"$takes"
    sed 's/Not Found/Not here!/; s/Bad Request/Bad request/' "$old_server" >"$other"
    sed '/^connection 6 /,$ { s/Not Found/Not here!/; s/Bad Request/Bad request/ }' "$before" >"$expected"
    is "$(diff "$before" "$expected" | grep -c '^>')" 4 "the lines of two clients that differ"
    in_turn texts $'0 fault load 100\n1 exited 0' "$bad_server" "$other"
}

# refused LINES WHY: these lines of clients end at one that is refused, and its number and cause stand on standard error.
refused() {
    local status=0
    printf '%b' "$1" | "$program" serve --clients --script "$work/setup" "$old_server" 2>"$work/refused" >"$work/console" || status=$?
    is "$status" 4 "the status of lines that are refused, $2"
    is "$(grep '^# varan: ' "$work/refused")" "# varan: input standard input: line $2" "the cause of a line that is refused"
}

# One loop for all its clients. Ten are silent beside twenty that ask, and the update faults in the middle of a request; the silent ones are let go in the server's time. At SIGTERM one more is
# silent, and then the server ends by itself, and writes how many requests there were.
# a_loop UPDATE FAULT: with this update, and its fault.
a_loop() {
    local last options=(--idle 0) words=(--script "$work/loop_setup") versions=("$here/built/$1" "$here/built/loop_1")
    { echo varan-script 5; echo "clock $(date +%s) 0 0"; echo arg 5; } >"$work/loop_setup"
    begun "$1" "${versions[@]}" || return 0
    rows=$((rows + 1))
    "$here/many.py" "$port" 10 20 5 5 || bad "the clients of one loop, $1"
    exec {last}<>"/dev/tcp/127.0.0.1/$port"
    until_it is_accepted 31 "$work/$1" || return 0
    ended "$1"
    is "$(cat <&"$last")" late "the client that is silent at the end"
    exec {last}<&-
    is "$(cat "$work/console")" "206 requests" "the requests"
    is "$(cat "$work/$1"/* | grep -c '^# wait')" 0 "waits that stand in the transcript"
    again "$work/$1"/* "0 fault $2 100"$'\n1 exited 0' "${versions[@]}"
}

# is_accepted N FOLDER: client N is accepted, by the transcript of the folder.
is_accepted() {
    [ "$(cat "$2"/* | grep -c '^# [0-9]* 100 202 .* = [0-9]* :$')" -gt "$1" ]
}

# A line that is refused, of each cause. Empty lines and comments count.
refused_lines() {
    refused 'connect 8080\nhello\n' "2 word"
    refused 'connect 8080\ndata 0\n' "2 shape"
    refused 'time 5\n' "1 shape"
    refused 'time 5 999999999\ntime 5 1000000000\n' "2 range"
    refused 'connect 8080\n\ndata 1 68\nend 0\n' "3 range"
    refused 'connect 8080\nend 0\nend 0\n' "3 twice"
    refused "connect 8080\n$(printf '#%.0s' {1..4096})\n" "2 long"
    refused '# one client\nconnect 8080\nend 0' "3 cut"
}

# A server of Debian with its bug, and behind it the one with Debian's patch. At SIGTERM its handler exits with 1, as under Linux.
a_stranger() {
    local strangers=$here/../strangers clients expected inner=18101 words=(--memory 4194304 --script "$work/stranger_setup") largest=("${largest[@]}" --memory 4194304)
    clients=$strangers/scripts/mini_httpd
    expected=$strangers/expected/mini_httpd
    { echo varan-script 5; grep '^\(arg\|file\) ' "$clients"; } >"$work/stranger_setup"
    in_turn stranger $'0 fault load 100\n1 exited 1' "$strangers/built/mini_httpd_original" "$strangers/built/mini_httpd_debian"
}

many_clients() {
    local eight=("$bad_server" "$bad_server" "$old_server" "$new_server" "$bad_server" "$old_server" "$new_server" "$old_server")
    { echo varan-script 4; grep '^\(arg\|file\) ' "$clients"; } >"$work/setup"
    in_turn turn $'0 fault load 100\n1 exited 0' "$bad_server" "$old_server"
    if has jq "the calls of a live run"; then
        calls turn "$bad_server" "$old_server"
    fi
    in_turn eight $'0 fault load 100\n1 fault load 100\n2 exited 0\n3 exited 0\n4 fault load 100\n5 exited 0\n6 exited 0\n7 exited 0' "${eight[@]}"
    beside
    one_leaves
    anew
    while_they_wait
    other_texts
    a_loop loop_2 load
    a_loop loop_asserts breakpoint
    refused_lines
    a_stranger
    # versions that join and leave, and what can break
    rows=$((rows + 1))
    "$here/operating.py" "$program" || wrong=$((wrong + 1))
}

if ! has python3 "live services"; then
    exit 0
fi
plain
many_clients
echo "check.sh: $rows rows, $wrong wrong"
[ "$wrong" = 0 ]
