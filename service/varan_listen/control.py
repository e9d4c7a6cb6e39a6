"""The operator's commands (operations.py), at a Unix socket: a line each. Each is answered by lines, of which the last one is `ok` or `no: WHY`."""
import asyncio
import contextlib
import os
import shlex
import signal
import socket
import sys

from varan_listen.lineup import Refused

DONE, REFUSED, UNHEARD = 0, 1, 2


class Control:
    def __init__(self, operations):
        self.operations = operations

    @contextlib.asynccontextmanager
    async def listen(self, path):
        """Takes commands at the socket, which this user alone can connect to."""
        mask = os.umask(0o177)
        try:
            server = await asyncio.start_unix_server(self.hear, path)
        finally:
            os.umask(mask)
        try:
            yield
        finally:
            server.close()
            with contextlib.suppress(OSError):
                os.unlink(path)

    async def hear(self, reader, writer):
        """An operator's lines, each with its answer. Where the operator leaves, a version that joins goes on."""
        # (at the service's end a watch that goes on is cancelled)
        with contextlib.suppress(OSError, ValueError, asyncio.CancelledError):
            async for line in reader:
                async for answer in self.answer(line.decode(errors="replace")):
                    writer.write(f"{answer}\n".encode())
                    await writer.drain()
        writer.close()

    async def answer(self, line):
        try:
            async for answer in self.operations.obey(*shlex.split(line)):
                yield answer
            yield "ok"
        except (Refused, OSError, ValueError) as fault:
            yield f"no: {fault}"


def ctl(words):
    """Sends a command to the socket of a service, and prints its answer: lines as they come, and what follows `no` on standard error. Comes to the status."""
    if len(words) < 2:
        print("usage: varan-listen ctl PATH COMMAND..", file=sys.stderr)
        return UNHEARD
    for it in (signal.SIGPIPE, signal.SIGINT):
        signal.signal(it, signal.SIG_DFL)
    path, *command = words
    with socket.socket(socket.AF_UNIX) as control:
        try:
            control.connect(path)
            control.sendall(shlex.join(command).encode() + b"\n")
            control.shutdown(socket.SHUT_WR)
        except OSError as fault:
            print(f"varan-listen: {path}: {fault.strerror or fault}", file=sys.stderr)
            return UNHEARD
        with control.makefile(errors="replace") as answer:
            return print_answer(answer, path)


def print_answer(answer, path):
    for line in answer:
        if line == "ok\n":
            return DONE
        if line.startswith("no: "):
            print(line, end="", file=sys.stderr)
            return REFUSED
        print(line, end="", flush=True)
    print(f"varan-listen: {path}: the service ended", file=sys.stderr)
    return UNHEARD
