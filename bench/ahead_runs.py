#!/usr/bin/env python3
"""Many runs of versions that go ahead while they wait, each against the report that is worked out here.

    ahead_runs.py [RUNS [SEED [PROGRAM]]]

Each run has two to eight versions that make the same calls, each with computing of its own before each call: none, a little, or as much as a turn of its worker many times
over. All but one break somewhere: at an illegal word, a breakpoint, a load or a store outside memory, or in a loop that ends with the budget, mostly while they are ahead of the
log. Half of the runs have planned lengths. Each runs on 1, 2 and 8 threads of the host, over rings of 2 and 256 places, and every byte is compared with what the plain monitor comes
to, which this script works out: the first version of the order that is in step leads until it breaks, ends, or was answered the event of a planned length; then it goes to the
order's end. Build the program first: `cd crates/varan && rt run -- run --script data/s data/v`.
"""
import os
import random
import subprocess
import sys
import tempfile

from worker_speed import A0, A7, ECALL, EXIT, PROGRAM, T0, ZERO, addi, image, loop

BASE = 0x10000
BUDGET = 3_000_000
NUMBERS = {172: 100, 174: 1000}
# What a version breaks at: the word, and the name of the fault.
ENDS = [
    (0x00000000, "illegal"),
    (0x00100073, "breakpoint"),
    (0x00002283, "load"),
    (0x00502023, "store"),
    (0x0000006F, "budget"),
]
SETTINGS = [(threads, ring) for threads in (1, 2, 8) for ring in (2, 256)]


class Version:
    """So many calls, and then its end: None where it exits after all of them."""

    def __init__(self, dice, calls, breaks):
        words = []
        self.breaks = breaks
        for number in calls[: len(calls) if breaks is None else breaks]:
            words += self.work(dice) + [addi(A7, ZERO, number), ECALL]
        words += self.work(dice)
        if breaks is None:
            self.image = image(words + EXIT)
            return
        word, self.kind = dice.choice(ENDS)
        self.pc = BASE + 4 * len(words)
        self.image = image(words + [word])

    @staticmethod
    def work(dice):
        most = dice.choice([0, 0, 10, 300, 20_000])
        return loop(T0, dice.randint(1, most), []) if most else []


def plain(versions, calls, hands):
    """The report of the plain monitor."""
    end = len(calls) + 1
    reaches = [end if it.breaks is None else it.breaks for it in versions]
    order, length, spans = list(range(len(versions))), 0, [[] for _ in versions]
    while True:
        order = [it for it in order if reaches[it] >= length]
        lead = order.pop(0)
        begins = length
        planned = min((it for it in hands if begins < it < end), default=end)
        length = min(reaches[lead], planned)
        spans[lead].append(f"{begins}-{length}")
        if length == end:
            break
        if length == planned:
            order.append(lead)
    lines = ["output 0", "", f"log {end}"]
    lines += [f"{i} 100 {number} 0 0 0 0 0 0 = {NUMBERS[number]} :" for i, number in enumerate(calls)]
    lines += [f"{end - 1} 100 94 0 0 0 0 0 0 = 0 :", f"fates {len(versions)}"]
    for index, version in enumerate(versions):
        fate = "exited 0" if version.breaks is None else f"fault {version.kind} 100 {version.pc:08x}"
        lines.append(f"{index} {fate} seen {reaches[index]} led {','.join(spans[index]) or '-'} rewrites 0")
    return "\n".join(lines).encode() + b"\n"


def main():
    runs = int(sys.argv[1]) if len(sys.argv) > 1 else 1000
    seed = int(sys.argv[2]) if len(sys.argv) > 2 else 1
    program = os.path.abspath(sys.argv[3]) if len(sys.argv) > 3 else PROGRAM
    dice = random.Random(seed)
    wrong = handed = led_after = 0
    kinds = {}
    with tempfile.TemporaryDirectory() as folder:
        for run in range(runs):
            calls = [dice.choice(list(NUMBERS)) for _ in range(dice.randint(1, 40))]
            count = dice.randint(2, 8)
            stays = dice.randrange(count)
            versions = [
                Version(dice, calls, None if it == stays or dice.random() < 0.3 else dice.randint(0, len(calls)))
                for it in range(count)
            ]
            hands = dice.sample(range(1, 45), dice.randint(1, 8)) if dice.random() < 0.5 else []
            script = f"varan-script {2 if hands else 1}\n" + "".join(f"hand {it}\n" for it in hands)
            names = [os.path.join(folder, "s")] + [os.path.join(folder, f"v{it}") for it in range(count)]
            for name, content in zip(names, [script.encode()] + [it.image for it in versions]):
                with open(name, "wb") as file:
                    file.write(content)
            expected = plain(versions, calls, hands)
            handed += b"," in expected.split(b"fates")[1]
            led_after += expected.count(b"led 0-") < expected.count(b"led ") - expected.count(b"led -")
            for it in versions:
                if it.breaks is not None:
                    kinds[it.kind] = kinds.get(it.kind, 0) + 1
            for threads, ring in SETTINGS:
                words = [program, "run", "--script", names[0], "--budget", str(BUDGET), "--threads", str(threads), "--ring", str(ring)]
                done = subprocess.run(words + names[1:], stdout=subprocess.PIPE)
                if done.returncode != 0 or done.stdout != expected:
                    wrong += 1
                    print(f"run {run}, {threads} threads, ring of {ring}: WRONG, status {done.returncode}")
                    print(done.stdout.decode(), "expected:\n", expected.decode())
    told = ", ".join(f"{number} {kind}" for kind, number in sorted(kinds.items()))
    print(f"{runs} runs of {len(SETTINGS)} settings: {wrong} wrong; {led_after} in which the leader changed, {handed} in which a version led twice; ends: {told}")
    sys.exit(1 if wrong else 0)


if __name__ == "__main__":
    main()
