"""asyncio's loop, and beside it what is read and written at each request: without a handle, a context and a turn of the loop for each."""
import asyncio
import select
import selectors
import time
from select import EPOLLIN, EPOLLOUT

# Descriptors that are served after one look; seconds for which those that are patient wake nobody, and for which it waits at most.
MOST_READY, LULL, LONGEST = 256, 0.001, 3600


class Poller(selectors.EpollSelector):
    """The selector of asyncio's descriptors. Others are served besides, each by what is done once it can be read or written; those that are patient, in a lull."""

    def __init__(self):
        super().__init__()
        self.all, self.urgent = select.epoll(), select.epoll()
        self.all.register(self.urgent, EPOLLIN)
        self.urgent.register(self.fileno(), EPOLLIN)
        self.readers = {self.urgent.fileno(): lambda: self.serve(self.urgent, 0), self.fileno(): self.take}
        self.writers = {}
        self.events = {}  # for which each is watched
        self.late = set()  # those to be read that aren't watched yet
        self.last = []  # outlets that send what they have before it waits again
        self.looked = 0  # when it looked at all
        self.taken = ()  # what asyncio has to serve itself
        self.is_asked = False  # asyncio has something else to do

    def close(self):
        self.urgent.close()
        self.all.close()
        super().close()

    def select(self, timeout=None):
        """Waits and serves until asyncio has something to do, or for so long. What asyncio has to serve itself is returned."""
        self.taken, self.is_asked = (), False
        now = time.monotonic()
        end = now + (LONGEST if timeout is None else timeout)
        while True:
            if self.last:
                self.send_last()
            left = end - now
            if now - self.looked < LULL:
                self.serve(self.urgent, left if left < LULL else LULL)
                now = time.monotonic()
            else:
                self.watch_late()
                self.serve(self.all, left)
                now = self.looked = time.monotonic()
            if self.taken or self.is_asked or now >= end:
                return self.taken

    def serve(self, them, timeout):
        """Waits for so long, and serves those of them that are ready."""
        for number, event in them.poll(timeout, MOST_READY):
            try:
                if event != EPOLLOUT and (act := self.readers.get(number)):
                    act()
                if event != EPOLLIN and (act := self.writers.get(number)):
                    act()
            except Exception as fault:
                self.report(fault)

    def send_last(self):
        while self.last:
            try:
                self.last.pop().send_first()
            except Exception as fault:
                self.report(fault)

    @staticmethod
    def report(fault):
        """A fault is asyncio's to report, as one of what it does itself."""
        asyncio.get_running_loop().call_exception_handler({"message": "in what its poller serves", "exception": fault})

    def take(self):
        self.taken = super().select(0)

    def read(self, number, act):
        """From now on this is done when the descriptor can be read; nothing, if it is None."""
        self.late.discard(number)
        self.watch(number, EPOLLIN, self.readers, act)

    def read_late(self, number, act):
        """As `read`, from the next lull on: by then most of those that have just been read are closed."""
        self.readers[number] = act
        self.late.add(number)

    def watch_late(self):
        while self.late:
            number = self.late.pop()
            self.watch(number, EPOLLIN, self.readers, self.readers[number])

    def forget(self, number):
        """Nothing is done any more: the descriptor is closed next, and isn't watched then."""
        self.late.discard(number)
        self.readers.pop(number, None)
        self.writers.pop(number, None)
        self.events.pop(number, None)

    def write(self, number, act):
        """From now on this is done when the descriptor can be written; nothing, if it is None."""
        self.watch(number, EPOLLOUT, self.writers, act)

    def watch(self, number, event, acts, act):
        before = self.events.get(number, 0)
        if act:
            acts[number] = act
            after = before | event
        else:
            acts.pop(number, None)
            after = before & ~event
        if before == after:
            return
        self.events[number] = after
        if not before:
            self.urgent.register(number, after)
        elif not after:
            self.urgent.unregister(number)
        else:
            self.urgent.modify(number, after)

    def read_patiently(self, number, act):
        """As `read`, of what can wait."""
        if act:
            self.readers[number] = act
            self.all.register(number, EPOLLIN)
        else:
            del self.readers[number]
            self.all.unregister(number)


class Loop(asyncio.SelectorEventLoop):
    """It tells its poller what it is asked to do meanwhile."""

    def __init__(self):
        self.poller = Poller()
        super().__init__(self.poller)

    def call_soon(self, *words, **named):
        self.poller.is_asked = True
        return super().call_soon(*words, **named)

    def call_at(self, *words, **named):
        self.poller.is_asked = True
        return super().call_at(*words, **named)


def poller():
    """That of the loop that runs."""
    return asyncio.get_running_loop().poller
