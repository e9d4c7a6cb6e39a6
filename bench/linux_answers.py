#!/usr/bin/env python3
"""Runs the guests of crates/nv_rows/data/linux under Linux, and says which write something else than stands there.

Needs qemu-riscv32 (Debian's package qemu-user), prlimit and, for the guest `all_files`, the right to mount a tmpfs. Build first:
rt run in crates/varan. Then: bench/linux_answers.py [PROGRAM], PROGRAM being the program that assembles (crates/varan/out/varan).

It was run with qemu-riscv32 7.2.22 (package qemu-user 1:7.2+dfsg-7+deb12u18+b3) on Linux 6.18 for x86-64, with ext4. Each segment of the assembled file is first
moved to a page of the file, since Linux maps files by pages. A guest runs in an empty directory of its own, as

    printf 'hello\\nyou\\n' | prlimit --nofile=64 --fsize=1048576 qemu-riscv32 guest | cat

with SIGPIPE and SIGXFSZ ignored, so that EPIPE and EFBIG are returned. Relative paths with the directory -100 (AT_FDCWD) are in the one directory that a guest of
`varan` has. The two limits are those that a guest of `varan` has anyway, and so is the page that `pipe_of_one_page` requests (fcntl F_SETPIPE_SZ, which `varan`
answers by ENOSYS: the guest doesn't show it). `all_files` runs on a tmpfs of 257 inodes, its root and 256 files; `directory_and_clock` runs in `/`. Pipes have
O_NONBLOCK, since under `varan` none waits. Guests write differences of thread numbers and heap addresses, which are Linux's own.
"""
import pathlib
import re
import shlex
import struct
import subprocess
import sys
import tempfile

TOP = pathlib.Path(__file__).resolve().parent.parent
ROWS = TOP / "crates/nv_rows/data"
PAGE = 4096
INPUT = b"hello\nyou\n"
MARK = re.compile(rb"\$\[([^\]]*)\]|\$x(..)|\$n")


def expanded(line, texts):
    """The bytes of a line of text, with the marks that these rows have (crates/nv_rows/data/README.md); nothing for a column of a table."""
    ended = line[:-1] if line.endswith(b"$") else line + b"\n"
    return MARK.sub(lambda at: texts.get(at[1], b"") if at[1] else bytes.fromhex(at[2].decode()) if at[2] else b"\n", ended)


def content(line, texts):
    """The bytes of a line of content."""
    kind, _, rest = line.partition(b" ")
    if line.startswith(b"|"):
        return expanded(line[1:], texts)
    if kind == b"int":
        return b"".join(struct.pack("<i", int(number)) for number in rest.split())
    return bytes.fromhex(rest.decode())


def fields(file, texts):
    """The fields of a file of rows, each with its content; texts that it names are kept."""
    found = []
    for line in file.read_bytes().splitlines():
        if line.startswith((b"|", b"int ", b"hex ")) and found[-1][0] != b"each":
            found[-1][2] += content(line, texts)
        elif line and not line.startswith((b"|", b"#")):
            kind, _, name = line.partition(b" ")
            found.append([kind, name, b""])
        if found and found[-1][0] == b"text":
            texts[found[-1][1]] = found[-1][2]
    return found


def guests_of(texts):
    """Of each row its name, the guest's assembler text, and what the guest writes."""
    name = text = None
    for kind, rest, bytes_ in fields(ROWS / "linux", texts):
        if kind == b"row":
            name = rest
        elif kind == b"asm":
            text = bytes_
        elif kind == b"begins":
            head, _, after = bytes_.partition(b"\n")
            yield name, text, after[: int(head.split()[1])]


def on_pages(file):
    """The same program with each segment at a page of the file, as mmap(2) wants it."""
    count = struct.unpack_from("<H", file, 44)[0]
    head, body = bytearray(file[: 52 + 32 * count]), b""
    for at in range(52, 52 + 32 * count, 32):
        offset, size = struct.unpack_from("<I", file, at + 4)[0], struct.unpack_from("<I", file, at + 16)[0]
        struct.pack_into("<I", head, at + 4, PAGE + len(body))
        struct.pack_into("<I", head, at + 28, PAGE)
        body += file[offset : offset + size] + bytes(-size % PAGE)
    return bytes(head).ljust(PAGE, b"\0") + body


def answers(program, name, text, room):
    source, guest, place = room / "a", room / "guest", room / "place"
    place.mkdir()
    source.write_bytes(text)
    guest.write_bytes(on_pages(subprocess.run([*program, "asm", source], check=True, capture_output=True).stdout))
    guest.chmod(0o755)
    mounted = name == b"all_files"
    if mounted:
        subprocess.run(["mount", "-t", "tmpfs", "-o", "nr_inodes=257", "none", place], check=True)
    try:
        # Python ignores SIGPIPE and SIGXFSZ, and so does what it starts here.
        run = ["prlimit", "--nofile=64", "--fsize=1048576", "qemu-riscv32", guest]
        where = "/" if name == b"directory_and_clock" else place
        done = subprocess.run(run, cwd=where, input=INPUT, capture_output=True, restore_signals=False, timeout=60, check=True)
        return done.stdout
    finally:
        if mounted:
            subprocess.run(["umount", place], check=True)


def main():
    program = shlex.split(sys.argv[1]) if len(sys.argv) > 1 else [str(TOP / "crates/varan/out/varan")]
    texts = {}
    fields(ROWS / "common", texts)
    guests = list(guests_of(texts))
    others = 0
    for name, text, written in guests:
        with tempfile.TemporaryDirectory() as room:
            came = answers(program, name, text, pathlib.Path(room))
        if came != written:
            others += 1
            print(f"{name.decode()}: {came.hex(' ', 4)}, and not {written.hex(' ', 4)}")
    print(f"{len(guests)} guests, {others} with other answers")
    sys.exit(others != 0)


if __name__ == "__main__":
    main()
