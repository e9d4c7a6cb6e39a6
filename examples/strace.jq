# Prints the log of `varan run --json` as strace prints calls, one a line:  jq -r -f strace.jq REPORT
# The log has no addresses: where strace would print one, it has `...`. As with strace, texts are cut at 32 bytes.

def signed: if . < 2147483648 then . else . - 4294967296 end;

def in_digits($base): if . < $base then [.] else ((. / $base | floor) | in_digits($base)) + [. % $base] end;
def octal: in_digits(8) | map(tostring) | add;
def hex: if . == 0 then "0" else "0x" + (in_digits(16) | map("0123456789abcdef"[. : . + 1]) | add) end;

# the bytes of a hexadecimal text, and the numbers that they spell, so many bytes each
def bytes: explode | map(if . > 57 then . - 87 else . - 48 end) | [range(0; length; 2) as $i | .[$i] * 16 + .[$i + 1]];
def numbers($size): bytes | [range(0; length; $size) as $i | reduce .[$i : $i + $size][range($size - 1; -1; -1)] as $b (0; . * 256 + $b)];

# a byte as it stands in quotes, before another
def escaped($next):
    {"34": "\\\"", "92": "\\\\", "9": "\\t", "10": "\\n", "11": "\\v", "12": "\\f", "13": "\\r"}[tostring] //
    if . >= 32 and . < 127 then [.] | implode
    elif $next != null and $next >= 48 and $next <= 57 then "\\" + ("00" + octal)[-3:]
    else "\\" + octal end;
def quoted: .[:32] as $b | "\"" + ([range($b | length) as $i | $b[$i] | escaped($b[$i + 1])] | join("")) + "\"" + (if length > 32 then "..." else "" end);

def bits: if . < 1 then [] else [. % 2] + (. / 2 | floor | bits) end;
# the names of bits, lowest first, and what is left
def flags($names): bits as $bits |
    [range($bits | length) | select($bits[.] == 1) | . as $i | $names[tostring] // (reduce range($i) as $n (1; . * 2) | hex)] | join("|") | if . == "" then "0" else . end;
def open_flags: ["O_RDONLY", "O_WRONLY", "O_RDWR", "O_ACCMODE"][. % 4] as $mode | (. - . % 4) |
    $mode + if . == 0 then "" else "|" + flags({"6": "O_CREAT", "7": "O_EXCL", "9": "O_TRUNC", "10": "O_APPEND"}) end;
def clone_flags: flags({"8": "CLONE_VM", "9": "CLONE_FS", "10": "CLONE_FILES", "11": "CLONE_SIGHAND", "16": "CLONE_THREAD", "18": "CLONE_SYSVSEM", "19": "CLONE_SETTLS"});

# a number that stands for a descriptor, or for the working directory
def descriptor: signed | if . == -100 then "AT_FDCWD" else tostring end;
# bytes that were handed in, and what the call gave, from an event
def sent: if .ret == -14 then "..." else .payload | bytes | quoted end;
def got(text): if .ret < 0 then "..." else text end;
def read_text: got(.payload | bytes | quoted);
def given($size): got(.payload | numbers($size) | map(tostring) | "[" + join(", ") + "]");
def text_at($i): .payload | bytes[65 * $i : 65 * $i + 65] | .[: index(0)] | quoted;
# strace names the greater of the two flags first
def socket_flags: flags({"11": "SOCK_NONBLOCK", "19": "SOCK_CLOEXEC"}) | sub("SOCK_NONBLOCK\\|SOCK_CLOEXEC"; "SOCK_CLOEXEC|SOCK_NONBLOCK");
def socket_type: (. % 16) as $type | ["SOCK_STREAM", "SOCK_DGRAM"][$type - 1] as $name |
    ($name // ($type | hex)) + if . == $type then "" else "|" + (. - $type | socket_flags) end;
# the address of a bind: its payload is as many bytes of it as were handed in, at most 16
def socket_address: if .ret == -14 then "..." else .payload | bytes |
    if length == 16 and .[:2] == [2, 0] then
        "{sa_family=AF_INET, sin_port=htons(\(.[2] * 256 + .[3])), sin_addr=inet_addr(\"\(.[4:8] | map(tostring) | join("."))\")}"
    else quoted end end;
def time: got(.payload | numbers(8) | "{tv_sec=\(.[0]), tv_nsec=\(.[1])}");
def poll_flags: flags({"0": "POLLIN", "1": "POLLPRI", "2": "POLLOUT", "3": "POLLERR", "4": "POLLHUP", "5": "POLLNVAL", "6": "POLLRDNORM", "8": "POLLWRNORM", "13": "POLLRDHUP"});
# the payload of a ppoll: the list of descriptors in 8 bytes each, the time if it has one, and, unless it failed, what was told of each in 2 bytes
def number: reduce .[range(length - 1; -1; -1)] as $b (0; . * 256 + $b);
def in_brackets: "[" + join(", ") + "]";
def descriptors: [range(0; length; 8) as $i | {fd: (.[$i : $i + 4] | number | signed), events: (.[$i + 4 : $i + 6] | number | poll_flags)}];
def polled: (if .ret < 0 then 0 else .args[1] * 2 end) as $told | (.payload | bytes | .[: length - $told]) as $asked
    | (if ($asked | length) == .args[1] * 8 then ($asked | length) else ($asked | length) - 16 end) as $size
    | {list: ($asked[: $size] | descriptors), time: $asked[$size :], told: (.payload | bytes | .[length - $told :])};
def poll_arguments: .args[1] as $count | polled |
    [(.list | map("{fd=\(.fd), events=\(.events)}") | in_brackets), $count, (if .time == [] then "NULL" else "{tv_sec=\(.time[:8] | number), tv_nsec=\(.time[8:] | number)}" end), "NULL", "8"];
def poll_result: .ret as $ret | polled | [.told as $told | range(.list | length) as $i | {fd: .list[$i].fd, told: ($told[2 * $i : 2 * $i + 2] | number)} | select(.told > 0)
    | "{fd=\(.fd), revents=\(.told | poll_flags)}"] | if $ret == 0 then "0 (Timeout)" else "\($ret) (\(in_brackets))" end;

def name: {"17": "getcwd", "23": "dup", "24": "dup3", "25": "fcntl64", "29": "ioctl", "35": "unlinkat", "56": "openat", "57": "close", "59": "pipe2", "62": "_llseek",
    "63": "read", "64": "write", "65": "readv", "66": "writev", "93": "exit", "94": "exit_group", "160": "uname", "172": "getpid", "173": "getppid",
    "174": "getuid", "175": "geteuid", "176": "getgid", "177": "getegid", "198": "socket", "200": "bind", "201": "listen", "202": "accept", "220": "clone",
    "242": "accept4", "278": "getrandom", "403": "clock_gettime64",
    "407": "clock_nanosleep_time64", "414": "ppoll_time64"}[tostring]
    // "syscall_" + hex;

def arguments: .args as [$a, $b, $c, $d, $e] | .nr as $nr |
    if $nr == 17 then [got(.payload | bytes[:-1] | quoted), $b]
    elif $nr == 23 or $nr == 57 then [$a | descriptor]
    elif $nr == 24 then [($a | descriptor), ($b | descriptor), ($c | flags({"19": "O_CLOEXEC"}))]
    elif $nr == 25 then [($a | descriptor), ({"1": "F_GETFD", "2": "F_SETFD", "3": "F_GETFL", "4": "F_SETFL"}[$b | tostring] // $b), ($c | hex)]
    elif $nr == 29 then [($a | descriptor), ($b | hex), "..."]
    elif $nr == 35 then [($a | descriptor), sent, ($c | hex)]
    elif $nr == 56 then [($a | descriptor), sent, ($c | open_flags)]
    elif $nr == 59 then [given(4), ($b | flags({"11": "O_NONBLOCK", "19": "O_CLOEXEC"}))]
    elif $nr == 62 then [($a | descriptor), ($b | signed) * 4294967296 + $c, given(8), (["SEEK_SET", "SEEK_CUR", "SEEK_END"][$e] // $e)]
    elif $nr == 63 or $nr == 65 then [($a | descriptor), read_text, $c]
    elif $nr == 64 or $nr == 66 then [($a | descriptor), sent, $c]
    elif $nr == 93 or $nr == 94 then [$a | signed]
    elif $nr == 160 then [got("{sysname=\(text_at(0)), nodename=\(text_at(1)), ...}")]
    elif $nr >= 172 and $nr <= 177 then []
    elif $nr == 198 then [(if $a == 2 then "AF_INET" else $a | hex end), ($b | socket_type), ({"0": "IPPROTO_IP", "6": "IPPROTO_TCP"}[$c | tostring] // $c)]
    elif $nr == 200 then [($a | descriptor), socket_address, $c]
    elif $nr == 201 then [($a | descriptor), ($b | signed)]
    elif $nr == 202 then [($a | descriptor), "...", "..."]
    elif $nr == 220 then ["child_stack=...", "flags=\($a | clone_flags)"]
    elif $nr == 242 then [($a | descriptor), "...", "...", ($d | socket_flags)]
    elif $nr == 278 then [read_text, $b, ($c | hex)]
    elif $nr == 403 then [(["CLOCK_REALTIME", "CLOCK_MONOTONIC"][$a] // $a), time]
    elif $nr == 414 then poll_arguments
    else .args | map(hex) end | map(tostring) | join(", ");

def result: if .nr == 93 or .nr == 94 then "?"
    elif .ret < 0 and .ret >= -4095 then "-1 " + ({"2": "ENOENT", "4": "EINTR", "9": "EBADF", "11": "EAGAIN", "14": "EFAULT", "17": "EEXIST", "20": "ENOTDIR", "22": "EINVAL",
        "24": "EMFILE", "25": "ENOTTY", "27": "EFBIG", "28": "ENOSPC", "29": "ESPIPE", "32": "EPIPE", "34": "ERANGE", "36": "ENAMETOOLONG", "38": "ENOSYS", "88": "ENOTSOCK",
        "98": "EADDRINUSE", "107": "ENOTCONN"}[-.ret | tostring])
    elif .nr == 414 then poll_result
    else .ret end;

(.log | any(.tid != 100)) as $threads | .log[] |
    (if $threads then "[pid " + ("    \(.tid)"[-5:]) + "] " else "" end) + "\(.nr | name)(\(arguments)) = \(result)"
