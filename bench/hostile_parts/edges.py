"""The edges of the outside: files that can't be read, files at the limit of length, words off their form, and outputs that fail."""
import os
import resource
import signal

from hostile_parts.guests import image
from hostile_parts.program import account_of, is_answer, is_refusal, is_small, write
from hostile_parts.readers import Event, Wrong, trace_of

NOBODY = 65_534
FILE = 4_194_304
TRACE = 67_108_864
USAGE = b"varan: usage\n"
SCRIPT = b"varan-script 1\n"
HANDING = b"varan-script 2\nhand 1\n"
QUIET = [0x05E00893, 0x00000073]
QUIET_TRACE = trace_of([Event(100, 94, [0] * 6, 0, 0, b"", b"")])
REHEARSED = b"replay exited 0 seen 1 rewrites 0\n"
NOPS = b"nop\n" * 30_000
NOPS_MADE = image([0x00000013] * 30_000)

# Lines whose words are refused, with the words behind the program's name.
REFUSED = [
    [], ["walk"], ["run"], ["run", "--help"], ["--help"], ["-h"], ["help"], ["usage", "walk"], ["--version"], ["run", "-h"], ["run", "--version"], ["Run", "--script", "s", "v"],
    ["run", "v"], ["run", "--script", "s"], ["run", "--script"], ["run", "--script", "--", "v"], ["run", "--script", "s", *["v"] * 9],
    ["run", "--script", "s", "--script", "s", "v"], ["run", "--script", "s", "--json", "--json", "v"], ["run", "--script", "s", "--json=1", "v"],
    ["run", "--script", "s", "--json=", "v"], ["run", "--script", "s", "--asm", "v"], ["run", "--scrip", "s", "v"], ["run", "-script", "s", "v"],
    ["run", "--script", "s", "-v"], ["run", "--script", "-s", "v"], ["run", "--script", "s", "---", "v"], ["run", "--script", "s", "--v", "v"],
    *[["run", "--script", "s", option, "v"] for option in (
        "--ring=1", "--ring=1025", "--ring=", "--ring=x", "--ring=-2", "--ring=+2", "--ring=0x10", "--ring=4294967298",
        "--memory=131071", "--memory=126976", "--memory=131073", "--memory=16777217", "--memory=16781312", "--memory=18446744073709682688",
        "--budget=0", "--budget=1000000001", "--hang=0", "--hang=1000000001", "--calls=0", "--calls=131073", "--threads=0", "--threads=9", "--calls=3 ", "--calls= 3", "--rules",
        "--patience=1", "--clients")],
    ["run", "--script", "s", "--hang=1", "--budget=1", "v"], ["run", "--script", "s", "--transcript", "s", "v"], ["run", "--transcript", "v"],
    ["asm"], ["asm", "a", "a"], ["asm", "--asm", "a"],
    ["record", "v"], ["record", "--script", "s"], ["record", "--json", "--script", "s", "v"], ["record", "--script", "s", *["v"] * 9],
    ["replay", "--script", "s", "q"], ["replay", "q", "v"], ["replay", "--script", "s", "q", "v", "v"], ["replay", "--script", "s", "--json", "q", "v"],
    *[["replay", "--script", "s", option, "q", "v"] for option in ("--index=8", "--index=", "--calls=1", "--ring=2", "--threads=1", "--budget=0", "--stamp=1")],
    ["inspect", "--script", "s", "q", "v"], ["inspect", "--script", "s", "--stamp=1", "--call=94", "q", "v"], ["inspect", "--script", "s", "--stamp=1", "q"],
    *[["inspect", "--script", "s", *options, "q", "v"] for options in (
        ["--count=0"], ["--count=1000000001"], ["--stamp=1", "--dump=0"], ["--stamp=1", "--length=1"], ["--stamp=1", "--dump=0", "--length=4097"],
        ["--stamp=1", "--dump=4294967295", "--length=1"], ["--stamp=4294967296"], ["--call="])],
    ["rules"], ["rules", "r", "r"], ["rules", "--asm"], ["rules", "--asm", "--asm", "t"], ["rules", "--json", "r"],
]

# The same of a live run, which is told on standard error.
REFUSED_SERVICES = [["serve", *options, "v"] for options in (
    ["--hang=0"], ["--hang=1000000001"], ["--hang=1", "--budget=1"], ["--calls=0"], ["--calls=500000001"], ["--transcript=s"], ["--json"],
    ["--patience=1"], *[["--clients", f"--patience={it}"] for it in ("", "0", "3600001", "x", "1.5", "4294967297")], ["--clients", "--patience=1", "--patience=1"])]

# Words that are accepted, each a run of one version that exits.
ACCEPTED = [
    ["run", "v", "--script", "s"], ["run", "--script=s", "v"], ["run", "--script", "s", "--", "v"], ["run", "--json", "--script", "s", "v"],
    ["run", "--script", "s", "--ring", "2", "--memory=135168", "--budget", "0000000004", "--calls=1", "--threads", "1", "v"],
    ["run", "--script", "s", "--ring=1024", "--memory", "16777216", "--budget=1000000000", "--calls", "131072", "--threads=8", "v"],
    ["run", "--script", "s", *["v"] * 8],
    ["run", "--script", "h", "v", "v"], ["run", "--script", "s", "--hang=4", "v"], ["run", "--hang", "1000000000", "--transcript", "s", "v"],
]

# The same of the other commands over versions, with what they write.
WRITING = [
    (["record", "v", "--script", "s"], QUIET_TRACE), (["record", "--script=h", "--calls", "1", "v", "v"], QUIET_TRACE),
    (["replay", "--script", "s", "q", "v"], REHEARSED), (["replay", "q", "--index=7", "--script=h", "--", "v"], REHEARSED),
]


class Edges:
    def __init__(self, program, tally):
        self.program, self.tally = program, tally

    def answer(self, kind, words, status, text, user=None):
        def look(answer):
            is_small(answer)
            is_answer(answer, status, text)

        self.tally.add(kind, words, self.program.run(words, user=user), look)

    def refusal(self, words, name, cause):
        def look(answer):
            is_small(answer)
            is_refusal(answer, name, cause)

        self.tally.add("edge: length", words, self.program.run(words), look)

    def words(self):
        for words in REFUSED:
            self.answer("edge: words", words, 2, USAGE)
        for words in REFUSED_SERVICES:
            def refused(answer):
                is_answer(answer, 2, b"")
                if answer.errors != b"# " + USAGE:
                    raise Wrong(f"standard error: {answer.errors[:80]!r}")

            self.tally.add("edge: words", words, self.program.run(words), refused, tells=True)
        for words in (["run", "--script", "s", b"\xff"], [b"\xfe"], ["asm", b"\xc3("], ["rules", "--asm", b"a\x80"]):
            self.answer("edge: words", words, 2, USAGE)
        for words in ACCEPTED:
            def look(answer, words=words):
                is_small(answer)
                if {fate for fate, *_ in account_of(answer, words).versions} != {"exited 0"}:
                    raise Wrong("not exited")

            self.tally.add("edge: words", words, self.program.run(words), look)
        for words, text in WRITING:
            self.answer("edge: words", words, 0, text)

    def unread(self):
        """Files that aren't there, aren't files, may not be read, or fail when they are read."""
        os.mkdir("folder")
        os.symlink("loop", "loop")
        write("closed", SCRIPT)
        os.chmod("closed", 0)
        root = os.geteuid() == 0
        names = ["missing", "folder", "folder/", "s/s", "loop", "", "n" * 5000, "../" * 2000, "\u00fcber", "two\nlines", "/proc/self/mem", "."]
        for name, user in [*[(name, None) for name in names], ("closed", NOBODY if root else None)]:
            text = b"varan: read %s\n" % name.encode()
            for words in (
                ["run", "--script", name, "v"], ["run", "--script=" + name, "--rules", name, name], ["run", "--script", "s", "--rules", name, "bad"],
                ["run", "--script", "s", "--rules", "r", "v", name, "bad"], ["asm", name], ["rules", name], ["rules", "--asm", name],
                ["record", "--script", "h", "v", name, "bad"], ["replay", "--script", name, "q", "v"], ["replay", "--script", "s", name, "bad"],
                ["replay", "--script", "s", "--rules", name, "bad", "bad"], ["inspect", "--script", "s", "--stamp=0", "q", name],
            ):
                self.answer("edge: unread", words, 5, text, user)
        for words, status, text in (
            (["run", "--script", "bad", "--rules", "missing", "missing"], 4, b"varan: input bad: line 1 form\n"),
            (["run", "--script", "s", "--rules", "bad", "missing"], 4, b"varan: input bad: line 1\n"),
            (["run", "--script", "s", "bad", "missing"], 4, b"varan: input bad: short\n"),
            (["run", "--script", "s", "v", "v", "bad", "missing"], 4, b"varan: input bad: short\n"),
            (["run", "--script", "missing", "--rules", "bad", "bad"], 5, b"varan: read missing\n"),
            (["record", "--script", "h", "bad", "missing"], 4, b"varan: input bad: short\n"),
            (["replay", "--script", "s", "bad", "missing"], 4, b"varan: input bad: magic\n"),
            (["replay", "--script", "s", "--rules", "bad", "missing", "missing"], 4, b"varan: input bad: line 1\n"),
            (["inspect", "--script", "s", "--stamp=0", "missing", "bad"], 5, b"varan: read missing\n"),
        ):
            self.answer("edge: order", words, status, text)

    def lengths(self):
        """Files without bytes, without an end, at the limit of length and one byte past it."""
        for words, cause in (
            (["run", "--script", "x", "v"], "line 1 form"), (["run", "--script", "s", "--rules", "x", "v"], "line 1"), (["run", "--script", "s", "v", "x"], "short"),
            (["rules", "x"], "line 1"), (["rules", "--asm", "x"], "empty"), (["asm", "x"], "line 1 range"), (["replay", "--script", "s", "q", "x"], "short"),
        ):
            for name, told in (("/dev/null", cause), ("/dev/zero", "long")):
                self.refusal([name if word == "x" else word for word in words], name, told)
        quiet = b"output 0\n\nlog 1\n0 100 94 0 0 0 0 0 0 = 0 :\nfates 1\n0 exited 0 seen 1 led 0-1 rewrites 0\n"
        rule = b"1\n6 0 0 "
        for words, front, back, fill, made in (
            (["run", "--script", "x", "v"], SCRIPT, b"\n", b"#", quiet),
            (["run", "--script", "s", "--rules", "x", "v"], rule, b"7\n", b"0", quiet),
            (["run", "--script", "s", "x"], image(QUIET), b"", b"\0", quiet),
            (["rules", "x"], rule, b"7\n", b"0", b"ok 1\n"),
            (["rules", "--asm", "x"], b"ret #7\n", b"\n", b";", b"1\n6 0 0 7\n"),
            (["asm", "x"], b"nop\n", b"\n", b"#", image([0x00000013])),
        ):
            write("x", front + fill * (FILE - len(front) - len(back)) + back)
            self.answer("edge: length", words, 0, made)
            write("x", front + fill * (FILE + 1 - len(front) - len(back)) + back)
            self.refusal(words, "x", "long")
        self.trace_lengths()
        os.unlink("x")

    def trace_lengths(self):
        """Traces without bytes, at the limit of length, and one byte past it: what follows the events of a trace is refused."""
        words = ["replay", "--script", "s", "x", "v"]
        for content, cause in (
            (b"", "magic"), (QUIET_TRACE[:12], "short 0"), (QUIET_TRACE + b"\0", "extra"),
            (QUIET_TRACE + bytes(TRACE - len(QUIET_TRACE)), "extra"), (QUIET_TRACE + bytes(TRACE + 1 - len(QUIET_TRACE)), "long"),
        ):
            write("x", content)

            def look(answer, cause=cause):
                is_refusal(answer, "x", cause)

            self.tally.add("edge: length", [*words, f"({len(content)} bytes)"], self.program.run(words), look)

    def outputs(self):
        """Standard output closed, full, not for writing, a pipe that nobody reads, and one that takes a part."""
        lines = [
            ["run", "--script", "s", "v"], ["run", "--json", "--script", "s", "v"], ["run", "--script", "s", "missing"], ["run", "--script", "bad", "v"], ["run"], [],
            ["run", "--script", "h", "v", "v"], ["record", "--script", "h", "v", "v"], ["record", "--script", "s", "bad"], ["replay", "--script", "s", "q", "v"],
            ["replay", "--script", "s", "bad", "v"], ["inspect", "--script", "s", "--stamp=0", "q", "v"],
            ["asm", "a"], ["asm", "bad"], ["rules", "r"], ["rules", "bad"], ["rules", "--asm", "t"], ["gen", "0"], ["asm", b"\xff"],
        ]
        end, unheard = os.pipe()
        os.close(end)
        for words in lines:
            for actions in (
                [(os.POSIX_SPAWN_CLOSE, 1)],
                [(os.POSIX_SPAWN_CLOSE, 1), (os.POSIX_SPAWN_CLOSE, 0)],
                [(os.POSIX_SPAWN_OPEN, 1, "/dev/full", os.O_WRONLY, 0)],
                [(os.POSIX_SPAWN_OPEN, 1, "/dev/null", os.O_RDONLY, 0)],
                [(os.POSIX_SPAWN_DUP2, unheard, 1)],
            ):
                def look(answer):
                    is_small(answer)
                    is_answer(answer, 6, b"")

                self.tally.add("edge: output", words, self.program.run(words, actions=actions), look)
        os.close(unheard)

    def parts(self):
        """An output that takes a front of what is due and then fails: a file at its limit of length, and a pipe that is full and doesn't wait."""
        write("a", NOPS)
        for most in (0, 1, 83, 4096, 8191, 8192, 8193, 100_000, len(NOPS_MADE) - 1):
            soft, hard = resource.getrlimit(resource.RLIMIT_FSIZE)
            resource.setrlimit(resource.RLIMIT_FSIZE, (most, hard))
            answer = self.program.run(["asm", "a"], [(os.POSIX_SPAWN_OPEN, 1, "out", os.O_WRONLY | os.O_CREAT | os.O_TRUNC, 0o600)], signals=[signal.SIGPIPE])
            resource.setrlimit(resource.RLIMIT_FSIZE, (soft, hard))
            with open("out", "rb") as file:
                answer = answer._replace(text=file.read())
            self.tally.add("edge: part written", [f"asm, file of {most}"], answer, lambda answer, most=most: is_answer(answer, 6, NOPS_MADE[:most]))
        end, full = os.pipe2(os.O_NONBLOCK)
        answer = self.program.run(["asm", "a"], [(os.POSIX_SPAWN_DUP2, full, 1)])
        os.close(full)
        text = b""
        while piece := os.read(end, 1 << 20):
            text += piece
        os.close(end)

        def look(answer):
            if answer.status != 6 or not 0 < len(answer.text) < len(NOPS_MADE) or not NOPS_MADE.startswith(answer.text):
                raise Wrong("not a front of what is due")

        self.tally.add("edge: part written", ["asm, full pipe"], answer._replace(text=text), look)

    def run(self):
        os.chmod(".", 0o755)
        write("s", SCRIPT)
        write("h", HANDING)
        write("v", image(QUIET))
        write("q", QUIET_TRACE)
        write("bad", b"bad")
        write("r", b"1\n6 0 0 0\n")
        write("t", b"ret #0\n")
        write("a", b"nop\n")
        for part in (self.words, self.unread, self.lengths, self.outputs, self.parts):
            part()
