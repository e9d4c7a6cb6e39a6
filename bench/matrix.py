#!/usr/bin/env python3
"""Times a product of matrices under `varan`, built for RV32IM and for RV32I, where the compiler's library multiplies in software.

Needs riscv64-unknown-elf-gcc with picolibc, and qemu-riscv32, which counts the instructions. bench/matrix.py VARAN RUNS builds bench/matrix.c twice with the start
file of examples/guests, runs both in turn by the built program VARAN (crates/varan/out/varan), and prints the medians and the best of their processor times.
"""
import pathlib
import resource
import statistics
import subprocess
import sys
import tempfile

TOP = pathlib.Path(__file__).resolve().parent.parent
GUESTS = TOP / "examples/guests"
ROUNDS = 10
FLAGS = "--specs=picolibc.specs -DPICOLIBC_INTEGER_PRINTF_SCANF -mabi=ilp32 -std=gnu11 -O2 -nostartfiles -Wl,-z,max-page-size=4096 -s".split()


def build(march, rounds, to):
    sources = [GUESTS / "start.S", GUESTS / "linux.c", TOP / "bench/matrix.c"]
    subprocess.run(["riscv64-unknown-elf-gcc", *FLAGS, f"-march={march}", f"-DROUNDS={rounds}", "-T", GUESTS / "guest.ld", "-o", to, *sources], check=True)


def instructions(guest):
    """How many a run takes: qemu tells each on a line of its own."""
    command = ["qemu-riscv32", "-singlestep", "-d", "exec,nochain", guest]
    with subprocess.Popen(command, stdout=subprocess.DEVNULL, stderr=subprocess.PIPE) as run:
        return sum(part.count(b"\n") for part in iter(lambda: run.stderr.read(1 << 20), b""))


def timed(command):
    before = resource.getrusage(resource.RUSAGE_CHILDREN)
    ran = subprocess.run(command, capture_output=True, check=True)
    after = resource.getrusage(resource.RUSAGE_CHILDREN)
    return after.ru_utime + after.ru_stime - before.ru_utime - before.ru_stime, ran.stdout


def main():
    varan = sys.argv[1] if len(sys.argv) > 1 else TOP / "crates/varan/out/varan"
    runs = int(sys.argv[2]) if len(sys.argv) > 2 else 11
    with tempfile.TemporaryDirectory() as name:
        room = pathlib.Path(name)
        (room / "script").write_text("varan-script 1\n")
        times, wrote = {}, set()
        for march in ("rv32im", "rv32i"):
            build(march, ROUNDS, room / march)
            build(march, 1, room / f"{march}-once")
            times[march] = []
        for _ in range(runs):
            for march in times:
                took, report = timed([varan, "run", "--script", room / "script", "--budget", "1000000000", room / march])
                times[march].append(took)
                wrote.add(report.split(b"\n")[1])
        assert len(wrote) == 1, wrote
        print("built for  instructions a round   median    best     times RV32IM's: median  best")
        ours = times["rv32im"]
        for march, took in times.items():
            a, b = statistics.median(took), min(took)
            count = instructions(room / f"{march}-once")
            print(f"{march:9}  {count:20,}  {a:.3f} s  {b:.3f} s  {a / statistics.median(ours):22.2f}  {b / min(ours):.2f}")


if __name__ == "__main__":
    main()
