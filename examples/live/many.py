#!/usr/bin/env python3
"""Clients that are there at once, some of them silent, before loop.c behind varan-listen.

    many.py PORT SILENT ACTIVE ROUNDS SECONDS

Each active one puts a value and gets it, so many times, each line in two pieces; one of them drops its name in between and asks for it, at which version 2 of the service faults, and
sends half a line with it. The silent ones send nothing, or half a line: they are let go once the server has waited for them for so many seconds. In the end a client asks how many
requests there were, so that one that is lost or done twice shows. Writes what it saw; status 1 where an answer is another.
"""
import asyncio
import random
import sys
import time

PATIENCE = 60
# The client at which the update faults.
FAULTS = 7


async def be_silent(port, number, seconds):
    """It gets a line, and is let go, in its time."""
    reader, writer = await asyncio.open_connection("127.0.0.1", port)
    writer.write(b"get " if number % 2 else b"")
    begun = time.monotonic()
    got = await asyncio.wait_for(reader.read(), PATIENCE)
    kept = time.monotonic() - begun
    writer.close()
    # (the clock of the server has whole seconds)
    assert got == b"late\n" and seconds - 1.5 <= kept, (got, kept)
    return kept


class Client:
    def __init__(self, name):
        self.name, self.requests, self.longest = name, 0, 0

    async def connect(self, port):
        self.reader, self.writer = await asyncio.open_connection("127.0.0.1", port)

    async def hear(self, count=1):
        self.requests += count
        return [await asyncio.wait_for(self.reader.readline(), PATIENCE) for _ in range(count)]

    async def ask(self, line):
        """The answer to a line that is sent in two pieces."""
        begun, half = time.monotonic(), random.randrange(len(line))
        self.writer.write(line[:half])
        await asyncio.sleep(random.random() * 0.02)
        self.writer.write(line[half:])
        [answer] = await self.hear()
        self.longest = max(self.longest, time.monotonic() - begun)
        return answer

    async def drop(self, value):
        name = self.name
        self.writer.write(b"get %b\ndrop %b\nget %b\nput %b w\nget " % (name, name, name, name))
        await asyncio.sleep(0.1)
        self.writer.write(b"%b\n" % name)
        answers = await self.hear(5)
        assert answers == [value + b"\n", b"dropped\n", b"not there\n", b"kept\n", b"w\n"], answers


async def be_active(port, number, rounds):
    client = Client(b"k%d" % number)
    await client.connect(port)
    for n in range(rounds):
        value = b"v%d" % n
        answers = await client.ask(b"put %b %b\n" % (client.name, value)), await client.ask(b"get %b\n" % client.name)
        assert answers == (b"kept\n", value + b"\n"), answers
        if number == FAULTS and n == rounds // 2:
            await client.drop(value)
    client.writer.close()
    return client


async def main(port, silent, active, rounds, seconds):
    silents = [asyncio.create_task(be_silent(port, n, seconds)) for n in range(silent)]
    await asyncio.sleep(0.2)
    clients = await asyncio.gather(*(be_active(port, n, rounds) for n in range(active)))
    kept = await asyncio.gather(*silents)
    last, requests = Client(b""), sum(it.requests for it in clients)
    await last.connect(port)
    size = await last.ask(b"size\n")
    assert size == b"%d\n" % (requests + 1), (size, requests)
    print(f"{requests} answers, each within {max(it.longest for it in clients):.3f} s; {silent} silent clients were let go after {min(kept):.1f} to {max(kept):.1f} s")


if __name__ == "__main__":
    try:
        asyncio.run(main(*map(int, sys.argv[1:])))
    except (AssertionError, OSError, asyncio.TimeoutError) as fault:
        sys.exit(f"many.py: {fault!r}")
