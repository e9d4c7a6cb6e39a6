"""Broken files: every file of a run cut at every length, and with every byte changed."""
import os
import re
import sys
import time

from hostile_parts.guests import (
    ALLOWING, BUSY, EXAMPLE, EXAMPLE_EVENTS, FORMS, GETEUID, HANDING, LONG_RULE, RULE_FORMS, SCRIPT, TELLING, THREADS, GETEUID_CALL, WITH_GETUID, image,
    made_line, told, told_events)
from hostile_parts.program import BYTES, FOLLOWING, LIMITS, MEMORY, MIB, TOP, account_of, is_answer, is_refusal, is_replay, is_small, write
from hostile_parts.readers import CHECKS, Refused, Wrong, read_filter, read_script, read_trace, read_version, trace_of

# Of the longest version every byte up to the first number is changed, and behind it every byte at a step of the second.
SERVICE_DENSE, SERVICE_STEP = 116, 31


def damaged(content, dense=1 << 30, step=1):
    """The content cut at every length and with every byte changed, up to the place `dense`; behind it every `step`-th."""
    places = [place for place in range(len(content) + 1) if place < dense or (place - dense) % step == 0]
    for place in places:
        yield content[:place]
    for place in places[:-1] if places[-1] == len(content) else places:
        for value in BYTES:
            if content[place] != value:
                yield content[:place] + bytes([value]) + content[place + 1:]


def damaged_text(content):
    """The same, and with each line left out, written twice, and moved to the front."""
    yield from damaged(content)
    lines = content.splitlines(keepends=True)
    for place, line in enumerate(lines):
        yield b"".join(lines[:place] + lines[place + 1:])
        yield b"".join(lines[:place] + [line] + lines[place:])
        yield b"".join([line] + lines[:place] + lines[place + 1:])


class Broken:
    """The sweeps over broken files. Each runs the program once for each damaged content of one file."""

    def __init__(self, program, tally):
        self.program, self.tally = program, tally
        self.number = 0

    def assembled(self, text):
        write("a", text)
        answer = self.program.run(["asm", "a"])
        if answer.status != 0:
            sys.exit(f"the harness's own text is refused: {answer.text!r}")
        return answer.text

    def answer(self, kind, words, look, form=False):
        """Runs the words; every eighth run that has a report asks for its JSON form."""
        self.number += 1
        if form and self.number % 8 == 0:
            words = [*words[:1], "--json", *words[1:]]

        def looked(answer):
            is_small(answer)
            look(answer, words)

        self.tally.add(kind, words, self.program.run(words), looked)

    def scripts(self):
        write("v", self.assembled(TELLING))
        for content in [*damaged_text(SCRIPT), *damaged_text(HANDING)]:
            write("s", content)

            def look(answer, words, content=content):
                try:
                    script = read_script(content)
                except Refused as fault:
                    return is_refusal(answer, "s", str(fault))
                account = account_of(answer, words, handed=bool(script.hands))
                shown, status = told(script)
                if account.output != shown or [fate for fate, *_ in account.versions] != [f"exited {status}"] * 2:
                    raise Wrong(f"not what the script says: {shown!r}, {status}")

            self.answer("script", ["run", "--script", "s", *LIMITS, "v", "v"], look, form=True)

    def rules(self):
        write("s", b"varan-script 1\n")
        write("v", image(GETEUID_CALL))
        write("w", image(WITH_GETUID))
        for content in [*damaged_text(ALLOWING), *damaged_text(LONG_RULE)]:
            write("r", content)
            try:
                code, fault = read_filter(content), None
            except Refused as refused:
                code, fault = None, str(refused)

            def checked(answer, _, code=code, fault=fault):
                if fault:
                    return is_refusal(answer, "r", fault)
                is_answer(answer, 0, b"ok %d\n" % len(code))

            def ran(answer, words, fault=fault):
                if fault:
                    return is_refusal(answer, "r", fault)
                account = account_of(answer, words)
                if "--json" not in words and not answer.text.startswith(GETEUID):
                    raise Wrong("the rules changed what the leader does")
                if len(account.versions) != 2 or account.versions[0] != ("exited 0", 2, (0, 2), 0):
                    raise Wrong("the rules changed the leader's fate")

            self.answer("rules", ["rules", "r"], checked)
            self.answer("run --rules", ["run", "--script", "s", "--rules", "r", *LIMITS, "v", "w"], ran, form=True)

    def rule_texts(self):
        cause = re.compile(r"line [1-9][0-9]* (twice|word|operand|label|far)|empty|too long|(code|jump|scratch|offset|zero|shift) [0-9]+|no return")
        for content in damaged_text(RULE_FORMS):
            write("t", content)
            self.answer("rules --asm", ["rules", "--asm", "t"], self.assembler(content, "t", cause, read_filter))

    def texts(self):
        cause = re.compile(r"line [1-9][0-9]* (twice|mnemonic|operand|label|range)")
        for content in [*damaged_text(FORMS), *damaged_text(TELLING)]:
            write("a", content)
            self.answer("asm", ["asm", "a"], self.assembler(content, "a", cause, lambda made: read_version(made, 2 * MIB)))

    def assembler(self, content, name, cause, read):
        """An assembler's answer: a file that reads back, or a cause on one of the text's lines."""
        lines = max(1, content.count(b"\n") + 1)

        def look(answer, _):
            if answer.status == 0:
                try:
                    read(answer.text)
                except Refused as fault:
                    raise Wrong(f"what was made is refused: {fault}") from fault
                return
            found = re.fullmatch(r"varan: input (\w+): (.*)\n", answer.text.decode("latin1"))
            if answer.status != 4 or not found or found[1] != name or not cause.fullmatch(found[2]):
                raise Wrong("neither made nor refused with a cause")
            line = re.match(r"line ([0-9]+)", found[2])
            if line and int(line[1]) > lines:
                raise Wrong(f"the text has {lines} lines")

        return look

    def versions(self):
        with open(os.path.join(TOP, "crates", "varan", "data", "v"), "rb") as file:
            example = file.read()
        with open(os.path.join(TOP, "examples", "guests", "built", "service_1"), "rb") as file:
            service = file.read()
        with open(os.path.join(TOP, "examples", "guests", "scripts", "service"), "rb") as file:
            requests = file.read()
        plain = b"varan-script 1\n"
        self.version("version: example", plain, example, damaged(example))
        for name, text in (("busy", BUSY), ("threads", THREADS)):
            content = self.assembled(text)
            self.version(f"version: {name}", plain, content, damaged(content))
        self.version("version: service", requests, service, damaged(service, dense=SERVICE_DENSE, step=SERVICE_STEP))

    def traces(self):
        """A damaged trace, rehearsed and inspected: of the example, and of the guest that tells what its script says."""
        with open(os.path.join(TOP, "crates", "varan", "data", "v"), "rb") as file:
            write("example", file.read())
        write("telling", self.assembled(TELLING))
        script = read_script(HANDING)
        shown, _ = told(script)
        for name, content, events, step in (
            ("example", b"varan-script 1\n", EXAMPLE_EVENTS, 1), ("telling", HANDING, told_events(script, shown), 7),
        ):
            write("s", content)
            whole = trace_of(events)
            self.answer("record", ["record", "--script", "s", *LIMITS, name, name], lambda answer, _, whole=whole: is_answer(answer, 0, whole))
            for trace in [whole, *damaged(whole, dense=116, step=step)]:
                write("t", trace)
                try:
                    length, fault = len(read_trace(trace)), None
                except Refused as refused:
                    length, fault = 0, str(refused)

                def is_checked(answer, length):
                    """Whether the kernel of the script doesn't come to the trace's events."""
                    found = re.fullmatch(rb"varan: input t: (.*)\n", answer.text)
                    if answer.status != 4 or not found:
                        return False
                    cause = CHECKS.fullmatch(found[1].decode("latin1"))
                    if not cause or int(cause[2]) >= length:
                        raise Wrong("no cause of a trace")
                    return True

                def rehearsed(answer, _, fault=fault, length=length, sound=trace == whole):
                    if fault:
                        return is_refusal(answer, "t", fault)
                    if sound or not is_checked(answer, length):
                        is_replay(answer, length)
                    if sound and answer.text != b"replay exited %d seen %d rewrites 0\n" % (events[-1].arguments[0], length):
                        raise Wrong("a whole trace isn't followed to its end")

                def inspected(answer, _, fault=fault, length=length, sound=trace == whole):
                    if fault:
                        return is_refusal(answer, "t", fault)
                    if (sound or not is_checked(answer, length)) and (answer.status != 0 or not answer.text.startswith(b"at seen ")):
                        raise Wrong("no state of a version")

                self.answer("replay", ["replay", "--script", "s", *FOLLOWING, "t", name], rehearsed)
                self.answer("inspect", ["inspect", "--script", "s", *FOLLOWING, "--stamp", "1", "t", name], inspected)

    def version(self, kind, script, whole, contents):
        """The damaged version behind the example, which leads; and before the undamaged one, which may have to take over."""
        write("s", script)
        write("h", script.replace(b"varan-script 1\n", b"varan-script 2\nhand 1\nhand 2\n"))
        with open(os.path.join(TOP, "crates", "varan", "data", "v"), "rb") as file:
            write("example", file.read())
        write("v", whole)
        for content in contents:
            write("w", content)
            try:
                read_version(content, MEMORY)
                fault = None
            except Refused as refused:
                fault = str(refused)

            def behind(answer, words, fault=fault):
                if fault:
                    return is_refusal(answer, "w", fault)
                account = account_of(answer, words)
                if "--json" not in words and not answer.text.startswith(EXAMPLE + b"2\n0 exited 0 seen 2 led 0-2 rewrites 0\n1 "):
                    raise Wrong("a follower changed what the leader does")
                if len(account.versions) != 2 or account.versions[0] != ("exited 0", 2, (0, 2), 0):
                    raise Wrong("a follower changed the leader's fate")

            def before(answer, words, fault=fault):
                if fault:
                    return is_refusal(answer, "w", fault)
                if len(account_of(answer, words).versions) != 2:
                    raise Wrong("not two versions")

            self.answer(kind, ["run", "--script", "s", *LIMITS, "example", "w"], behind, form=True)
            def handed(answer, words, fault=fault):
                if fault:
                    return is_refusal(answer, "w", fault)
                if len(account_of(answer, words, handed=True).versions) != 3:
                    raise Wrong("not three versions")

            self.answer(kind, ["run", "--script", "s", *LIMITS, "w", "v"], before, form=True)
            self.answer(f"{kind}, handed", ["run", "--script", "h", *LIMITS, "v", "w", "v"], handed, form=True)

    def generated(self):
        for word in ("0", "1", "2", "007", "63", "64", "8999", "9000", "999999", "00000000000000000000012"):
            self.answer("gen", ["gen", word], lambda answer, _, word=word: is_answer(answer, 0, made_line(int(word))))
        odd = ["1000000", "4294967296", "99999999999999999999", "-1", "+1", "", " 7", "7 ", "0x7", "1e3", "7\n", "7.0", "\u0667", "seven", "--", "--json", "-7"]
        for word in odd:
            self.answer("gen", ["gen", word], lambda answer, _: is_answer(answer, 2, b"varan: usage\n"))
        for words in (["gen"], ["gen", "1", "2"], ["gen", "--number", "1"], ["gen", "1", "--json"], ["gen", b"\xff"]):
            self.answer("gen", words, lambda answer, _: is_answer(answer, 2, b"varan: usage\n"))

    def run(self):
        for sweep in (self.scripts, self.rules, self.rule_texts, self.texts, self.versions, self.traces, self.generated):
            begun = time.perf_counter()
            sweep()
            print(f"{sweep.__name__}: {time.perf_counter() - begun:.0f} seconds", flush=True)
