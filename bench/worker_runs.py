#!/usr/bin/env python3
"""Many runs of versions beside each other, each against the report that is worked out here.

Eight versions ask for their user's number; each but the last breaks after five calls more than the one before it, and the last exits. So
the lead changes seven times. `worker_runs.py [RUNS]` runs them so many times (1,000) on eight threads over a ring of two places, and
compares every byte. Then the system gives the program from no thread to eight (a limit of processes, under another user): a version whose
thread can't be made is run by the thread that there is, and the report is the same. Run as root, with the program built:
`cd crates/varan && rt run -- run --script data/s data/v`.
"""
import os
import resource
import shutil
import struct
import subprocess
import sys
import tempfile
import time

TOP = os.path.dirname(os.path.dirname(os.path.abspath(__file__)))
PROGRAM = os.path.join(TOP, "crates", "varan", "out", "varan")
VERSIONS = 8
STEP = 5
NOBODY = 65534

ECALL, EBREAK = 0x00000073, 0x00100073


def addi(rd, rs1, imm):
    return ((imm & 0xFFF) << 20) | (rs1 << 15) | (rd << 7) | 0x13


def image(words):
    """A version file: one segment with the rights read and execute at 0x10000, with the entry there."""
    code = b"".join(struct.pack("<I", word) for word in words)
    head = bytes.fromhex("7F454C46010101000000000000000000") + struct.pack(
        "<HHIIIIIHHHHHH", 2, 243, 1, 0x10000, 52, 0, 0, 52, 32, 1, 0, 0, 0)
    table = struct.pack("<IIIIIIII", 1, 84, 0x10000, 0x10000, len(code), len(code), 5, 4)
    return head + table + code


def asks(calls):
    """So many calls of getuid, one after another."""
    return [addi(17, 0, 174), ECALL] * calls


def version(index):
    calls = STEP * (index + 1)
    if index == VERSIONS - 1:
        return image(asks(calls) + [addi(10, 0, 0), addi(17, 0, 94), ECALL])
    return image(asks(calls) + [EBREAK])


def report():
    """What the plain monitor comes to: each version leads from where the one before it broke."""
    calls = STEP * VERSIONS
    lines = ["output 0", "", f"log {calls + 1}"]
    lines += [f"{i} 100 174 0 0 0 0 0 0 = 1000 :" for i in range(calls)]
    lines += [f"{calls} 100 94 0 0 0 0 0 0 = 0 :", f"fates {VERSIONS}"]
    for index in range(VERSIONS - 1):
        seen = STEP * (index + 1)
        lines.append(f"{index} fault breakpoint 100 {0x10000 + 8 * seen:08x} seen {seen} led {seen - STEP}-{seen} rewrites 0")
    lines.append(f"{VERSIONS - 1} exited 0 seen {calls + 1} led {calls - STEP}-{calls + 1} rewrites 0")
    return "\n".join(lines).encode() + b"\n"


def limited(processes):
    def apply():
        resource.setrlimit(resource.RLIMIT_NPROC, (processes, processes))
        os.setgid(NOBODY)
        os.setuid(NOBODY)
    return apply


def main():
    runs = int(sys.argv[1]) if len(sys.argv) > 1 else 1000
    expected = report()
    with tempfile.TemporaryDirectory() as folder:
        os.chmod(folder, 0o755)
        program = shutil.copy(PROGRAM, folder)
        names = []
        for name, content in [("s", b"varan-script 1\n")] + [(f"v{i}", version(i)) for i in range(VERSIONS)]:
            with open(os.path.join(folder, name), "wb") as file:
                file.write(content)
            names.append(os.path.join(folder, name))
        words = [program, "run", "--script", names[0], "--ring", "2", "--threads", "8"] + names[1:]
        wrong = 0
        begun = time.perf_counter()
        for _ in range(runs):
            done = subprocess.run(words, stdout=subprocess.PIPE)
            wrong += done.returncode != 0 or done.stdout != expected
        print(f"{runs} runs on 8 threads over 2 places: {wrong} wrong, {1000 * (time.perf_counter() - begun) / runs:.1f} ms each; load {os.getloadavg()[0]:.1f}")
        total = wrong
        for threads in range(0, 9):
            begun = time.perf_counter()
            done = subprocess.run(words, stdout=subprocess.PIPE, preexec_fn=limited(1 + threads))
            same = done.returncode == 0 and done.stdout == expected
            total += not same
            print(f"{threads} threads to be had: {'the same' if same else 'WRONG'}, {time.perf_counter() - begun:.2f} s")
    sys.exit(1 if total else 0)


if __name__ == "__main__":
    main()
