#!/usr/bin/env python3
"""Times the guest machine beside plain C interpreters and qemu-riscv32.

    bench/machine_loops.py [RUNS] [--before PROGRAM] [--host]

First `step` in a bare loop, on the three guests of `nv_rows machine`: that program beside bench/machine_loops.c, which decodes at each step, with `step` as a call of its own, compiled into
the loop, and as a call with the addresses of the code kept for fetches; and beside bench/machine_decoded.c, which decodes once. All must print the same. `--before` names another build of
nv_rows, as one from before a change.

Then whole programs from the stock compiler: loops over arrays (bench/machine_kernels.c), and Lua and bzip2 as examples/strangers builds them from Debian's sources, which it fetches where that wasn't
done. They are run by `nv_rows threads` (`Process::advance`, what they write let go), by `varan run` on one thread (log and report with it), by bench/machine_decoded.c, as it is and decoding each
time, and by qemu-riscv32. Before they are timed, the C interpreter has to write and to exit as qemu does, and to make as many calls and instructions as `nv_rows threads`.

All are run in turn, RUNS times (9). The tables have the medians and the bests of their processor times (user and system), and ratios of both. `--host` adds the host instructions of a guest's
instruction, by valgrind, which don't depend on the load and take a quarter of an hour. Programs of this repository are taken as `rt ci` built them, or built by `rt run` where there is none.

Needs gcc, riscv64-unknown-elf-gcc with picolibc, and qemu-riscv32. It ends with 3 where Lua and bzip2 can't be built, and leaves them out.
"""
import argparse
import os
import re
import resource
import statistics
import subprocess
import sys
import tempfile

from thread_loops import built, counted, timed_program

TOP = os.path.dirname(os.path.dirname(os.path.abspath(__file__)))
BENCH = os.path.join(TOP, "bench")
GUESTS = os.path.join(TOP, "examples", "guests")
STRANGERS = os.path.join(TOP, "examples", "strangers")
STEPS = 50_000_000
COUNTED = 1_000_000
MOST = 1_000_000_000
FIB = b"local function fib(n) if n < 2 then return n end return fib(n - 1) + fib(n - 2) end print(fib(24))\n"
FLAGS = "--specs=picolibc.specs -DPICOLIBC_INTEGER_PRINTF_SCANF -march=rv32ima -mabi=ilp32 -std=gnu11 -O2 -nostartfiles -Wl,-z,max-page-size=4096 -s".split()


def timed(words, given=os.devnull):
    """The processor time of a run with this file on its input, and what it writes."""
    with open(given, "rb") as file:
        before = resource.getrusage(resource.RUSAGE_CHILDREN)
        ran = subprocess.run(words, stdin=file, capture_output=True, check=True)
        after = resource.getrusage(resource.RUSAGE_CHILDREN)
    return after.ru_utime + after.ru_stime - before.ru_utime - before.ru_stime, ran.stdout


def compiled(room, source, flags):
    program = os.path.join(room, source + "".join(flags))
    subprocess.run(["gcc", "-O2", *flags, "-o", program, os.path.join(BENCH, source)], check=True)
    return program


def in_turn(runs, commands):
    """The times of each command, by its name, and what each wrote."""
    times, wrote = {name: [] for name in commands}, {name: set() for name in commands}
    for _ in range(runs):
        for name, (words, given) in commands.items():
            took, text = timed(words, given)
            times[name].append(took)
            wrote[name].add(text)
    return times, wrote


def ratio(other, ours):
    return f"{statistics.median(other) / statistics.median(ours):.2f}, {min(other) / min(ours):.2f}"


# `step` in a bare loop

def bare_programs(room, before):
    programs = {"machine": timed_program("machine")}
    if before:
        programs["machine before"] = [before, "machine"]
    for name, flags in (("C, step called", []), ("C, step inlined", ["-DINLINE"]), ("C, called, code kept", ["-DCODE"])):
        programs[name] = [compiled(room, "machine_loops.c", flags)]
    programs["C, decoding once"] = [compiled(room, "machine_decoded.c", [])]
    return programs


def bare_loops(runs, room, before, host):
    programs = bare_programs(room, before)
    print("| Guest | Program | Seconds: median, best | It / machine: median, best |" + (" Host instructions |" if host else ""))
    print("|---|---|---|---|" + ("---|" if host else ""))
    for guest in ("count", "memory", "calls"):
        times, wrote = in_turn(runs, {name: ([*program, guest, str(STEPS)], os.devnull) for name, program in programs.items()})
        if len(set().union(*wrote.values())) != 1:
            sys.exit(f"{guest}: they write different things: {wrote}")
        for name, took in times.items():
            share = ""
            if host:
                share = f" {(counted([*programs[name], guest, str(COUNTED)]) - counted([*programs[name], guest, '0'])) / COUNTED:.1f} |"
            print(f"| `{guest}` | {name} | {statistics.median(took):.3f}, {min(took):.3f} | {ratio(took, times['machine'])} |{share}", flush=True)


# Whole programs

def kernels(room):
    program = os.path.join(room, "kernels")
    sources = [os.path.join(GUESTS, "start.S"), os.path.join(GUESTS, "linux.c"), os.path.join(BENCH, "machine_kernels.c")]
    subprocess.run(["riscv64-unknown-elf-gcc", *FLAGS, "-T", os.path.join(GUESTS, "guest.ld"), "-o", program, *sources], check=True)
    return program


def strangers():
    """Whether Lua and bzip2 are built."""
    wanted = [os.path.join(STRANGERS, "out", name) for name in ("lua_original", "bzip2_original")]
    if all(map(os.path.exists, wanted)):
        return True
    return subprocess.run([os.path.join(STRANGERS, "fetch_and_build.sh")]).returncode == 0


def whole_programs(room, with_strangers):
    """Name, file, MiB of memory and the file on the input."""
    found = [("kernels", kernels(room), 1, os.devnull)]
    if with_strangers:
        text = os.path.join(room, "fib.lua")
        with open(text, "wb") as file:
            file.write(FIB)
        out = os.path.join(STRANGERS, "out")
        found.append(("Lua, fib(24)", os.path.join(out, "lua_original"), 4, text))
        found.append(("bzip2, 98,696 bytes", os.path.join(out, "bzip2_original"), 16, os.path.join(out, "bzip2_original_source", "sample1.ref")))
    return found


def script_of(room, given):
    with open(given, "rb") as file:
        content = file.read().hex()
    path = os.path.join(room, "script")
    with open(path, "w") as file:
        file.write("varan-script 1\n" + (f"input {content}\n" if content else ""))
    return path


def commands_of(room, interpreters, guest, most=MOST):
    name, file, mib, given = guest
    words = [file, str(mib), str(most), given]
    run = ["run", "--threads", "1", "--memory", str(mib << 20), "--budget", str(most), "--script", script_of(room, given), file]
    return {
        "advance": ([*timed_program("threads"), *words], os.devnull),
        "varan run": ([built("varan", "run", "--script", "data/s", "data/v"), *run], os.devnull),
        "C, decoding once": ([interpreters["once"], *words], os.devnull),
        "C, decoding each time": ([interpreters["each"], *words], os.devnull),
        "qemu-riscv32": (["qemu-riscv32", "-0", "guest", file], given),
    }


def agreed(room, interpreters, guest, commands):
    """How many instructions the guest takes, once all have done the same with it."""
    name, given = guest[0], guest[3]
    with open(given, "rb") as file:
        linux = subprocess.run(commands["qemu-riscv32"][0], stdin=file, capture_output=True)
    lines = {program: timed(*commands[program])[1].decode().strip() for program in ("advance", "C, decoding once", "C, decoding each time")}
    if len(set(lines.values())) != 1:
        sys.exit(f"{name}: they do different things: {lines}")
    for program in interpreters.values():
        output = os.path.join(room, "output")
        subprocess.run([program, *commands["advance"][0][2:], output], check=True, capture_output=True)
        with open(output, "rb") as file:
            if file.read() != linux.stdout:
                sys.exit(f"{name}: the C interpreter writes something else than under qemu")
    report = timed(*commands["varan run"])[1]
    size, _, rest = report.removeprefix(b"output ").partition(b"\n")
    if rest[: int(size)] != linux.stdout:
        sys.exit(f"{name}: varan run writes something else than qemu")
    instructions, status = re.fullmatch(r"\d+ calls, (\d+) instructions, status Some\((\d+)\)", lines["advance"]).groups()
    if int(status) != linux.returncode or f"\n0 exited {status} seen".encode() not in report:
        sys.exit(f"{name}: {lines['advance']}, and {linux.returncode} under qemu")
    return int(instructions)


def host_instructions(room, interpreters, guest, instructions):
    """Host instructions a guest's instruction; what a run of one instruction takes is taken off, but for `varan run`."""
    whole, first = commands_of(room, interpreters, guest), commands_of(room, interpreters, guest, most=1)
    for name in ("advance", "varan run", "C, decoding once"):
        start = 0 if name == "varan run" else counted(first[name][0])
        yield f"{(counted(whole[name][0]) - start) / instructions:.1f}"


def print_guest(guest, instructions, times, host):
    name, ours, qemu = guest[0], times["advance"], times["qemu-riscv32"]
    seconds = f"{statistics.median(ours):.3f}, {min(ours):.3f}"
    others = [ratio(times[other], ours) for other in ("C, decoding once", "C, decoding each time", "varan run")]
    print(f"| {name} | {instructions:,} | {seconds} | {' | '.join(others)} | {ratio(ours, qemu)} | {ratio(times['C, decoding once'], qemu)} |{host}", flush=True)


def whole_loops(runs, room, with_strangers, host):
    interpreters = {"once": compiled(room, "machine_decoded.c", []), "each": compiled(room, "machine_decoded.c", ["-DEACH"])}
    head = ["Guest", "Instructions", "`advance`, seconds: median, best", "C decoding once / it", "C decoding each time / it", "`varan run` / it", "It / qemu", "C decoding once / qemu"]
    head += ["Host instructions each: `advance`, `varan run`, C decoding once"] if host else []
    print("\n| " + " | ".join(head) + " |\n|" + "---|" * len(head))
    for guest in whole_programs(room, with_strangers):
        commands = commands_of(room, interpreters, guest)
        instructions = agreed(room, interpreters, guest, commands)
        times, _ = in_turn(runs, commands)
        shares = f" {', '.join(host_instructions(room, interpreters, guest, instructions))} |" if host else ""
        print_guest(guest, instructions, times, shares)


def main():
    wanted = argparse.ArgumentParser()
    wanted.add_argument("runs", nargs="?", type=int, default=9)
    wanted.add_argument("--before")
    wanted.add_argument("--host", action="store_true")
    given = wanted.parse_args()
    with_strangers = strangers()
    with tempfile.TemporaryDirectory() as room:
        print(f"{STEPS} instructions, {given.runs} runs, load {os.getloadavg()[0]:.1f}\n")
        bare_loops(given.runs, room, given.before, given.host)
        whole_loops(given.runs, room, with_strangers, given.host)
        print(f"\nload {os.getloadavg()[0]:.1f} at the end")
    if not with_strangers:
        print("Lua and bzip2 are left out: they can't be built")
        sys.exit(3)


if __name__ == "__main__":
    main()
