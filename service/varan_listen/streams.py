"""The streams of varan-listen: connections, standard output, and what is said to the operator."""
import asyncio
import contextlib
import ctypes
import fcntl
import functools
import os
import queue
import socket
import struct
import sys
import termios
import threading

from varan_listen.loop import poller

# Bytes that may wait to be read: by a client, beside what the system keeps for it, and of the console.
MOST_UNREAD = 16_777_216
MOST_WAITING = 262_144
# A pipe holds no more, so one read takes all that is there.
PIPE = 65_536
# Bytes of a client that are taken at once; connections that wait to be taken; and seconds until one is tried again that couldn't be.
MOST_TAKEN, BACKLOG, RETRY = 64_000, 100, 1
# What accept4(2) makes of a connection.
ACCEPTED = int(socket.SOCK_NONBLOCK | socket.SOCK_CLOEXEC)
libc = ctypes.CDLL(None, use_errno=True)
# Seconds in which what was written is taken at the end, where clients may be silent as long as they like.
PATIENCE = 10


def note(text):
    """Says this to the operator. Standard error may have a transcript, so this is a comment of it."""
    with contextlib.suppress(OSError):
        os.write(2, f"# varan-listen: {text}\n".encode())


def keep_standard_streams():
    """Whether standard output is open. Each standard stream that is closed becomes the null device, so that no connection gets its number."""
    while (opened := os.open(os.devnull, os.O_RDWR)) <= 2:
        pass
    os.close(opened)
    return sys.stdout is not None


class Outlet:
    """A descriptor that is written. What is written in one turn of the loop goes together, at its end; the rest as it is taken; and nothing once nobody takes it."""

    is_lost = False
    when_sent = None  # what is done once all is sent

    def __init__(self, number, loop):
        self.number, self.poller = number, loop.poller
        self.unsent = bytearray()

    def write(self, piece):
        if self.is_lost:
            return
        if not self.unsent:
            self.poller.last.append(self)
        self.unsent += piece

    def send_first(self):
        self.send()
        if self.unsent or self.when_sent:
            self.poller.write(self.number, self.send_on)

    def send_on(self):
        self.send()
        if not self.unsent:
            self.poller.write(self.number, None)
            if self.when_sent:
                self.when_sent()

    def send(self):
        """Sends what is taken now."""
        try:
            if self.unsent:
                del self.unsent[: os.write(self.number, self.unsent)]
        except BlockingIOError:
            pass
        except OSError:
            self.lose()

    def lose(self):
        self.is_lost = True
        self.unsent.clear()


class Client(Outlet):
    """A connection, and the guest's port that it is for. It is heard once a run has accepted it: what it sends before that stays where it is."""

    heed = None  # what is done with what comes
    closing = None  # what closes it where not all is sent in time
    was_left = False  # by a run that accepted nobody
    is_gone = False
    gone = None  # a future of those who wait for that

    def __init__(self, number, port, counts, loop):
        super().__init__(number, loop)
        self.port, self.counts, self.loop = port, counts, loop
        counts.connections += 1

    def hear(self, heed):
        """From now on this is done with what comes, and with nothing at the end."""
        self.heed = heed
        self.poller.read_late(self.number, self.take)
        if not self.take():  # (most have sent something by now)
            self.poller.read(self.number, self.take)

    def rest(self):
        """It isn't heard for a time, or any more."""
        if self.heed is not None:
            self.heed = None
            self.poller.read(self.number, None)

    def take(self):
        """Takes what there is. Whether there is anything, or the end."""
        try:
            piece = os.read(self.number, MOST_TAKEN)
        except BlockingIOError:
            return False
        except OSError:
            piece = b""
        self.heed(piece)
        return True

    def close(self, patience):
        """Closes the connection once all is sent, or after so many seconds. It is gone then. Whether it is gone now."""
        self.send()
        if self.unsent:
            self.rest()
            self.gone = self.gone or self.loop.create_future()
            self.when_sent = self.shut
            self.closing = self.loop.call_later(patience, self.shut)
        else:
            self.shut()
        return self.is_gone

    async def closed(self, patience):
        """As `close`, until it is gone."""
        if not self.close(patience):
            await self.gone

    async def cut(self, patience):
        """Resets the connection once the client has all that was sent, or closes it after so many seconds. So a client can tell an answer that was cut from one that ended."""
        self.rest()
        with contextlib.suppress(OSError, asyncio.TimeoutError):
            await asyncio.wait_for(self.until_sent(), patience)
            self.linger_not()
        self.shut()

    async def until_sent(self):
        while not self.is_gone and (self.unsent or any(fcntl.ioctl(self.number, termios.TIOCOUTQ, bytes(4)))):
            await asyncio.sleep(0.01)

    def reset(self):
        """Resets the connection, whatever the client has still to read."""
        with contextlib.suppress(OSError):
            self.linger_not()
        self.shut()

    def linger_not(self):
        """Its end, where it isn't gone, will be a reset."""
        if not self.is_gone:
            with socket.socket(fileno=os.dup(self.number)) as connection:
                connection.setsockopt(socket.SOL_SOCKET, socket.SO_LINGER, struct.pack("ii", 1, 0))

    def shut(self):
        if self.is_gone:
            return
        self.is_gone = True
        self.heed = self.when_sent = None
        if self.closing:
            self.closing.cancel()
        self.poller.forget(self.number)
        self.lose()
        os.close(self.number)
        self.counts.connections -= 1
        if self.gone:
            self.gone.set_result(None)


def accept(listener):
    """The number of the next connection, as accept4(2) has it. The method `accept` of a socket makes a socket of it, which asks the system what it is."""
    number = libc.accept4(listener, None, None, ACCEPTED)
    if number < 0:
        fault = ctypes.get_errno()
        raise OSError(fault, os.strerror(fault))
    return number


class Listener:
    """Takes the connections to a port."""

    def __init__(self, connection, come):
        self.connection, self.come = connection, come
        self.loop = asyncio.get_running_loop()
        connection.setblocking(False)
        connection.setsockopt(socket.IPPROTO_TCP, socket.TCP_NODELAY, 1)  # (each that is taken has it from here)
        self.listen()

    @classmethod
    async def all_at(cls, address, port, come):
        """Those of each address that this name has."""
        found = await asyncio.get_running_loop().getaddrinfo(address or None, port, type=socket.SOCK_STREAM, flags=socket.AI_PASSIVE)
        return [cls(socket.create_server(it[4], family=it[0], backlog=BACKLOG), come) for it in found]

    def listen(self):
        if self.connection.fileno() >= 0:
            self.loop.poller.read(self.connection.fileno(), self.take)

    def take(self):
        try:
            number = accept(self.connection.fileno())
        except (BlockingIOError, InterruptedError, ConnectionAbortedError):
            return
        except OSError as fault:
            # (there may be too many connections)
            note(f"a client has to wait: {fault.strerror}")
            self.loop.poller.read(self.connection.fileno(), None)
            self.loop.call_later(RETRY, self.listen)
            return
        self.come(number)

    def close(self):
        self.loop.poller.read(self.connection.fileno(), None)
        self.connection.close()


class Lines:
    """What comes over a pipe, whole lines of it."""

    def __init__(self, reader):
        self.reader = reader
        self.rest = b""  # the beginning of a line that isn't whole; it never is where a process was killed
        os.set_blocking(reader, False)

    def follow(self, heed):
        """From now on this is done with lines that come, and with none at the end."""
        poller().read(self.reader, functools.partial(self.take, heed))

    def take(self, heed):
        try:
            piece = os.read(self.reader, PIPE)
        except BlockingIOError:
            return
        if self.rest or not piece.endswith(b"\n"):
            lines, newline, self.rest = (self.rest + piece).rpartition(b"\n")
            if piece and not newline:
                return
            piece = lines + newline
        heed(piece)

    def close(self):
        poller().read(self.reader, None)
        os.close(self.reader)


class Telling(Outlet):
    """The end of a pipe that is written."""

    def __init__(self, writer):
        super().__init__(writer, asyncio.get_running_loop())
        self.room = None  # a future of those who wait until all is sent
        self.is_closed = False
        os.set_blocking(writer, False)

    def is_full(self):
        """Whether much isn't taken now."""
        if len(self.unsent) > PIPE:
            self.send()
        return len(self.unsent) > PIPE

    async def drain(self):
        """Waits until all is taken, if much isn't."""
        if self.is_full():
            self.when_sent = self.make_room
            self.room = self.room or asyncio.get_running_loop().create_future()
            await asyncio.wait([self.room])

    def make_room(self):
        self.room.set_result(None)
        self.room = self.when_sent = None

    def close(self):
        if self.is_closed:
            return
        self.is_closed = True
        self.lose()
        self.poller.write(self.number, None)
        os.close(self.number)
        if self.room:
            self.make_room()


class Console:
    """Standard output, written by a thread of its own, so that a reader who is slow stops nobody. Once a write has failed, or too much waits to be read, nothing more is written."""

    def __init__(self, is_open):
        self.failed = False
        self.is_open = is_open
        self.waiting = 0  # bytes
        self.pieces = queue.SimpleQueue()
        self.loop = asyncio.get_running_loop()
        self.writer = threading.Thread(target=self.write_all, daemon=True)
        self.writer.start()

    def write(self, piece):
        if self.failed:
            return
        if not self.is_open:
            self.fail("it is closed")
        elif self.waiting + len(piece) > MOST_WAITING:
            self.fail(f"{self.waiting} bytes wait to be read")
        else:
            self.waiting += len(piece)
            self.pieces.put(piece)

    def write_all(self):
        """The thread's work. An empty piece is the last."""
        try:
            for piece in iter(self.pieces.get, b""):
                while piece:
                    count = os.write(1, piece)
                    piece = piece[count:]
                    self.loop.call_soon_threadsafe(self.written, count)
        except OSError as fault:
            self.loop.call_soon_threadsafe(self.fail, fault.strerror)

    def written(self, count):
        self.waiting -= count

    def fail(self, why):
        if not self.failed:
            self.failed = True
            note(f"standard output: {why}: what the guests write there from now on is lost")

    async def close(self, patience):
        """Waits until all is written, so many seconds at most."""
        self.pieces.put(b"")
        await asyncio.to_thread(self.writer.join, patience)
        if self.writer.is_alive():
            self.fail(f"nobody reads it, {self.waiting} bytes are lost")
