"""An outside that fails: each allocation, each opening, each read and each write of a command fails once, and each read and write is short once."""
import os
import subprocess

from hostile_parts.guests import ALLOWING, BUSY, FORMS, GETEUID_CALL, HANDING, RULE_FORMS, SCRIPT, TELLING, THREADS, WITH_GETUID, image
from hostile_parts.program import FOLLOWING, LIMITS, TOP, account_of, is_answer, is_small, write
from hostile_parts.readers import Wrong, read_json, read_report

WANTING = b"varan: memory\n"

# What GETEUID_CALL and WITH_GETUID give where the first one has no memory for its call, or for its exit.
AT_FIRST = (
    b"output 0\n\nlog 3\n0 100 174 0 0 0 0 0 0 = 1000 :\n1 100 177 0 0 0 0 0 0 = 1000 :\n2 100 94 0 0 0 0 0 0 = 0 :\nfates 2\n"
    b"0 memory seen 0 led 0-0 rewrites 0\n1 exited 0 seen 3 led 0-3 rewrites 0\n")
AT_EXIT = (
    b"output 0\n\nlog 2\n0 100 177 0 0 0 0 0 0 = 1000 :\n1 100 94 0 0 0 0 0 0 = 0 :\nfates 2\n"
    b"0 memory seen 1 led 0-1 rewrites 0\n1 exited 0 seen 2 led 1-2 rewrites 1\n")


def led_on(whole, account):
    """Two equal versions, of which the first has no memory for an event: the second one makes that call, and all else is as before."""
    length = len(whole.events)
    (fate, seen, span, rewrites), *rest = account.versions
    if (account.output, account.events) != (whole.output, whole.events):
        raise Wrong("another log")
    if (fate, span, rewrites) != ("memory", (0, seen), 0) or seen >= length:
        raise Wrong(f"the first version: {account.versions[0]}")
    if rest != [(whole.versions[1][0], length, (seen, length), 0)]:
        raise Wrong(f"the second version: {rest}")


def led_still(whole, account):
    """Equal versions that hand over, of which one has no memory for an event: the log is as before, and the others come to its end."""
    length = len(whole.events)
    if (account.output, account.events) != (whole.output, whole.events):
        raise Wrong("another log")
    wanting = [version for version in account.versions if version[0] == "memory"]
    rest = [version for version in account.versions if version[0] != "memory"]
    if len(wanting) != 1 or any((fate, seen, rewrites) != (whole.versions[0][0], length, 0) for fate, seen, _, rewrites in rest):
        raise Wrong(f"the versions: {account.versions}")


class Failing:
    """Each call of the C library by which the program takes memory, opens, reads and writes fails once (failing.c)."""

    def __init__(self, program, tally):
        self.program, self.tally = program, tally
        self.shim = os.path.abspath("failing.so")

    def preloaded(self, words, failing=None):
        """A run with the call that fails, and how many calls of each kind there were."""
        os.environ["LD_PRELOAD"] = self.shim
        os.environ["COUNTED"] = os.path.abspath("counted")
        if failing:
            os.environ["FAILING"] = failing
        try:
            answer = self.program.run(words)
        finally:
            for name in ("LD_PRELOAD", "COUNTED", "FAILING"):
                os.environ.pop(name, None)
        with open("counted") as file:
            counts = dict(zip(("alloc", "open", "read", "write"), map(int, file.read().split())))
        os.unlink("counted")
        return answer, counts

    def sweep(self, name, words, files, wanting=(), handed=False):
        """`files` are those that the words name, in reading order; `wanting` the further reports that a leader without memory may come to;
        `handed` says that the script plans lengths."""
        whole, counts = self.preloaded(words)
        self.tally.add(f"failing: {name}", words, whole, lambda answer: is_answer(answer, 0, whole.text))
        account = account_of(whole, words, handed) if words[0] == "run" else None
        reader = read_json if "--json" in words else read_report

        def wants(answer):
            if (answer.status, answer.text) in ((0, whole.text), (3, WANTING)) or answer.status == 0 and answer.text in wanting:
                return
            if account is None or answer.status != 0 or wanting:
                raise Wrong("neither the whole answer nor want of memory")
            (led_still if handed else led_on)(account, reader(answer.text, handed))

        reached = 0

        def unread(answer):
            nonlocal reached
            while reached < len(files) and answer.text != b"varan: read %s\n" % files[reached].encode():
                reached += 1
            if answer.status != 5 or reached == len(files):
                raise Wrong("no file of the reading order, or one before the last")

        def same(answer):
            is_answer(answer, 0, whole.text)

        for kind, counted, look in (
            ("alloc", "alloc", wants), ("open", "open", unread), ("read", "read", unread), ("short-read", "read", same), ("short-write", "write", same),
        ):
            reached = 0
            for number in range(counts[counted]):
                answer, _ = self.preloaded(words, f"{kind}:{number}")
                self.tally.add(f"failing: {kind}", [*words, f"({kind} {number})"], answer, self.small(look), may_want=kind == "alloc")
        for number in range(counts["write"]):
            answer, after = self.preloaded(words, f"write:{number}")

            def unwritten(answer, after=after, number=number):
                if answer.status != 6 or not whole.text.startswith(answer.text) or answer.text == whole.text:
                    raise Wrong("not 6 with a front of the answer")
                if after["write"] != number + 1:
                    raise Wrong("something was written behind the failure")

            self.tally.add("failing: write", [*words, f"(write {number})"], answer, self.small(unwritten))
        print(f"{name}: {counts}", flush=True)

    @staticmethod
    def small(look):
        def looked(answer):
            is_small(answer)
            look(answer)

        return looked

    def run(self):
        subprocess.run(
            ["cc", "-O2", "-shared", "-fPIC", "-o", self.shim, os.path.join(TOP, "bench", "hostile_parts", "failing.c")], check=True)
        write("plain", b"varan-script 1\n")
        write("s", SCRIPT)
        write("h", HANDING)
        write("r", ALLOWING)
        write("t", RULE_FORMS)
        write("a", FORMS)
        write("v", image(GETEUID_CALL))
        write("w", image(WITH_GETUID))
        for name, text in (("telling", TELLING), ("busy", BUSY), ("threads", THREADS)):
            write("x", text)
            write(name, self.program.run(["asm", "x"]).text)
        for threads in ("1", "2"):
            limits = [*LIMITS[:-1], threads]
            self.sweep(f"run of what a script says, {threads} threads", ["run", "--script", "s", *limits, "telling", "telling"], ["s", "telling", "telling"])
            self.sweep(f"run that hands over, {threads} threads", ["run", "--script", "h", *limits, "telling", "telling"], ["h", "telling", "telling"], handed=True)
            for name in ("busy", "threads"):
                for form in ([], ["--json"]):
                    words = ["run", *form, "--script", "plain", "--rules", "r", *limits, name, name]
                    self.sweep(f"run of {name}, {threads} threads{' '.join(['', *form])}", words, ["plain", "r", name, name])
            self.sweep(
                f"run by rules, {threads} threads", ["run", "--script", "plain", "--rules", "r", *limits, "v", "w"], ["plain", "r", "v", "w"], (AT_FIRST, AT_EXIT))
        self.sweep("record", ["record", "--script", "h", *LIMITS, "telling", "telling"], ["h", "telling", "telling"])
        write("q", self.program.run(["record", "--script", "h", *LIMITS, "telling"]).text)
        self.sweep("replay", ["replay", "--script", "h", "--rules", "r", *FOLLOWING, "q", "telling"], ["h", "r", "q", "telling"])
        self.sweep("inspect", ["inspect", "--script", "h", *FOLLOWING, "--stamp", "5", "q", "telling"], ["h", "q", "telling"])
        self.sweep("asm", ["asm", "a"], ["a"])
        self.sweep("rules", ["rules", "r"], ["r"])
        self.sweep("rules --asm", ["rules", "--asm", "t"], ["t"])
        self.sweep("gen", ["gen", "63"], [])
