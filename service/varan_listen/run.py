"""One run of the command: its clients, and the process that serves them, which another one may follow on.

What the guests say follows from what came. So a process that is told all that came comes to where the one before it was, and what it says shows whether it did.
"""
import asyncio
import functools
import itertools
import signal
import time

from varan_listen.past import Past
from varan_listen.process import Joining, Parted, Process
from varan_listen.silences import Silences
from varan_listen.streams import MOST_UNREAD, PATIENCE, note
from varan_listen.written import SECOND

# Bytes of an arrival, as many as a script may say.
MOST_BYTES = 2000
# Lines of a transcript that are taken at once.
LINES_AT_ONCE = 1000
# How often in a row a command that was killed is begun anew without having said more.
MOST_TRIES = 3
# Nanoseconds: the step of the time that is told; and the latest time that a line can tell, of the year 2106.
TIME_STEP = 1_000_000
MOST_TIME = 4_294_967_296 * SECOND - 1
# Seconds: between two looks at a process that joins; in which its followers take what came last; and in which it has to come nearer.
TICK, SETTLING, STANDING = 0.05, 0.2, 60
UNWRITTEN = 6


class Run:
    """Clients by their numbers, in the order in which they came, and the process that serves them."""

    def __init__(self, begin, console, idle, counts):
        self.begin, self.console, self.idle, self.counts = begin, console, idle, counts
        self.patience = idle or PATIENCE
        self.told, self.said = Past("what came"), Past("what the guests said")
        self.serving = self.joining = None
        self.is_joining = False
        self.ended = asyncio.get_running_loop().create_future()  # the status
        self.restarts = self.tries = self.said_before = 0
        self.time = 0  # that was told last
        self.timer = None  # at which the time is to be told, since a call waits for it
        self.count = self.gone = 0  # of the clients that came, and of those that came to a run which this one goes on with
        self.is_past = False  # what the guests say was said in that run
        self.waiting, self.accepted, self.accepts = {}, {}, 0
        self.silences = Silences(self.patience, lambda: self.serving.served_for(), self.end_silent)
        self.closers, self.tasks = set(), set()
        self.closed = []  # by the guests, before they sent all; their ends are still to be told
        self.takes = True  # clients may come
        self.is_asked_to_end = self.has_accepted = False

    # ---- processes

    def resume(self, left):
        """Goes on with the run that left this transcript, and whose clients have left since."""
        arrivals = left.arrivals()
        while lines := list(itertools.islice(arrivals, LINES_AT_ONCE)):
            self.told.add(b"".join(lines))
            times = (line.split() for line in lines if line.startswith(b"time "))
            self.time = max([self.time, *(int(seconds) * SECOND + int(nanos) for _, seconds, nanos in times)])
        self.count = self.gone = left.count
        self.is_past = True

    async def start(self, lineup):
        """Begins the process that serves. It is told all that came."""
        self.serving = await self.begin(Process, lineup, self.told.size > 0)
        self.follow(self.serving)

    def follow(self, process):
        process.written.follow(lambda: self.wait(process), (lambda: self.look(process)) if process.is_behind else None)
        process.feeding = asyncio.create_task(process.feed(self.told))
        process.said.follow(functools.partial(self.hear, process))

    @staticmethod
    def work(coroutine, tasks):
        """A task that stands among these until it is done."""
        task = asyncio.create_task(coroutine)
        tasks.add(task)
        task.add_done_callback(tasks.discard)

    def hear(self, process, lines):
        """Takes lines that a process says, to its end, or until another one serves in its place. What it wrote before an answer is in its transcript before the client has that;
        that it accepts a client is no answer."""
        is_over = not lines
        try:
            if not lines.startswith(b"accept ") or lines.count(b"\n") > 1:
                process.written.take()
            if lines and process in (self.serving, self.joining):
                self.take(process, lines)
        except Exception as fault:  # whatever it is: what the process says next is worth nothing
            process.end(str(fault) or repr(fault))
            is_over = True
        if is_over or process not in (self.serving, self.joining):
            process.said.close()
            self.work(self.until_ended(process), self.tasks)

    async def until_ended(self, process):
        """What follows the end of a process."""
        status = await process.process.wait()
        process.asked.close()
        process.written.close()
        if process is self.joining:
            self.give_up(f"the command ended with status {status}: {process.last_words()}")
        elif process is self.serving:
            await self.go_on(status)
        if process is not self.serving:
            process.transcript.close()

    def take(self, process, lines):
        """Lines that a process says: they were said before, or are said now, or are ahead of the process that serves."""
        size = 0
        if process.heard < self.said.size:
            size = min(len(lines), self.said.size - process.heard)
            self.compare(process, lines, size)
        if process is self.serving:
            self.say(lines[size:])
        else:
            process.ahead += lines[size:]
        process.heard += len(lines)
        process.heard_lines += lines.count(b"\n")
        if process.is_behind:
            self.look(process)

    def compare(self, process, lines, size):
        """So much of these lines was said before."""
        place = process.heard
        if self.said.at(place, size) == lines[:size]:
            return
        for line in lines.splitlines(True):
            if self.said.at(place, len(line)) != line:
                raise Parted(line, self.said.line_at(place))
            place += len(line)

    def say(self, lines):
        """This is what the guests say next."""
        if not lines:
            return
        if self.joining and self.joining.ahead:
            self.joining.compare_ahead(lines)
        for line in lines.decode()[:-1].split("\n"):
            self.do(*line.split(" "))
        self.said.add(lines)

    def is_there(self, process):
        """Whether a process was told all that came, and has said all that was said."""
        return process.heard >= self.said.size and process.fed == self.told.size and process.handed == len(process.hands)

    def has_caught_up(self, process):
        """Whether a process is there. What was said in a run that this one goes on with isn't known: the process has taken all that came, then."""
        return self.is_there(process) and not (process.is_behind and self.is_past and self.lag(process))

    def lag(self, process):
        """How many lines a process that catches up has still to say, or to take where it isn't known what was said."""
        lines, done = (self.told.lines, process.written.taken) if self.is_past else (self.said.lines, process.heard_lines)
        return max(lines - done, 0)

    def look(self, process):
        """Whether a process has caught up. One that joins serves from now on, if no version of it has ended meanwhile."""
        if process is self.serving and not process.is_behind or not self.has_caught_up(process):
            return
        if process is self.joining and process.has_settled and process.fault is None:
            if process.lineup.is_trial:
                process.end("by itself it says the same, by other calls")
            elif ended := process.newly_ended(self.serving):
                process.end(ended)
            else:
                self.switch()
        if process is self.serving and process.is_behind:
            process.arrive()

    async def go_on(self, status):
        """The process that serves has ended. Where it was killed, another one is told all that came."""
        process = self.serving
        if self.joining:
            self.give_up("the command that serves has ended")
        if process.fault:
            note(f"the command is ended: {process.fault}")
        if status >= 0 or process.fault or not self.may_try():
            self.ended.set_result(status)
            return
        self.tell_news(process)
        note(f"the command was ended by {signal.Signals(-status).name}, and is begun anew: {self.told.lines} lines came, {self.said.lines} were said")
        self.restarts += 1
        self.counts.restarts += 1
        try:
            await self.start(process.lineup)
        except OSError as fault:
            note(fault)
            self.ended.set_result(status)

    def may_try(self):
        if self.said.size > self.said_before:
            self.tries, self.said_before = 0, self.said.size
        self.tries += 1
        return self.tries <= MOST_TRIES and self.can_catch_up()

    def can_catch_up(self):
        return self.told.write() and self.said.write()

    # ---- a process that joins

    async def join(self, lineup):
        """Begins a process of this lineup, which is to serve."""
        self.is_joining = True
        try:
            self.joining = await self.begin(Joining, lineup, True)
        except OSError:
            self.is_joining = False
            raise
        self.follow(self.joining)
        self.work(self.settle(self.joining), self.tasks)
        return self.joining

    async def settle(self, process):
        """Looks at a process that joins until it serves or is given up."""
        arrived, nearer, least = None, time.monotonic(), None
        while process is self.joining:
            process.transcript.learn()  # (a little at a time)
            now, behind = time.monotonic(), self.told.size - process.fed + max(self.said.size - process.heard, 0)
            if least is None or behind < least:
                nearer, least = now, behind
            if behind == 0:
                arrived, nearer = arrived or now, now
                process.has_settled = now - arrived >= SETTLING
                self.look(process)
            elif now - nearer >= STANDING:
                process.end(f"it doesn't catch up: {self.said.lines - process.heard_lines} lines are left, and were as many {STANDING} seconds ago")
            await asyncio.sleep(TICK)

    def switch(self):
        """The process that joins serves from now on. What the one before it has reported is said first, since it is ended."""
        old = self.serving
        old.written.take()
        self.tell_news(old)
        self.serving, self.joining, self.is_joining = self.joining, None, False
        self.serving.served_since = old.served_since
        old.end("another one serves in its place")
        self.say(bytes(self.serving.ahead))
        self.wait(self.serving)
        self.counts.switches += 1
        note(f"these versions serve from now on: {' '.join(map(str, self.serving.versions))}")
        self.serving.outcome.set_result(None)

    def give_up(self, why):
        process, self.joining, self.is_joining = self.joining, None, False
        process.end(why)
        self.counts.refusals += not process.lineup.is_trial
        note(f"these versions don't serve: {' '.join(map(str, process.versions))}: {process.fault}")
        process.outcome.set_result(process.fault)

    # ---- clients

    def tell(self, word, lines, count=1):
        """Tells so many lines of this word, and before them the time, unless that was told less than a step ago. A host's clock that is set back tells no time until it is later again."""
        now = time.time_ns()
        if now > MOST_TIME:
            now = MOST_TIME
        if now - self.time >= TIME_STEP:
            lines = self.line_of(now) + lines
        self.counts.came[word] += count
        self.tell_lines(lines)

    def line_of(self, now):
        """The line that tells this time."""
        self.time = now
        self.counts.came["time"] += 1
        return f"time {now // SECOND} {now % SECOND}\n"

    def wait(self, process):
        """A call of the process waits up to a time, which is told then: also where the host's clock is set back meanwhile. One that was told later ends the wait once the process takes it:
        so the waits that a process says again which catches up are past."""
        wait = process.written.wait
        if process is not self.serving or wait is None:
            return
        self.stop_waiting()
        if wait >= self.time:
            left = wait - max(time.time_ns(), self.time)
            self.timer = asyncio.get_running_loop().call_later(left / SECOND, lambda: self.tell_lines(self.line_of(min(max(time.time_ns(), wait), MOST_TIME))))

    def stop_waiting(self):
        if self.timer is not None:
            self.timer.cancel()

    def tell_lines(self, lines):
        """Tells lines, and before them the ends of clients that the guests have closed since the ones before: no call waits for these."""
        if self.closed:
            lines = "".join([f"end {number}\n" for number in self.closed]) + lines
            self.counts.came["end"] += len(self.closed)
            self.closed.clear()
        piece = lines.encode()
        self.told.add(piece)
        self.serving.tell(piece, self.told)
        if self.joining:
            self.joining.tell(piece, self.told)

    def hand(self):
        """The operator says that the leader gives up the lead."""
        for process in filter(None, (self.serving, self.joining)):
            process.hand(self.told.size)

    def connect(self, client):
        self.waiting[self.count] = client
        self.count += 1
        self.tell("connect", f"connect {client.port}\n")

    def end_clients(self):
        if self.takes:
            self.takes, self.is_asked_to_end = False, True
            self.tell("end", "end clients\n")

    def accept(self, number):
        self.accepts = number + 1
        if number >= self.gone:
            self.is_past, self.has_accepted = False, True
            client = self.accepted[number] = self.waiting.pop(number)
            self.hear_client(number, client)

    def hear_client(self, number, client):
        self.silences.hear(number)
        client.hear(functools.partial(self.take_from, number, client))

    def take_from(self, number, client, piece):
        """Tells what a client sends, or its end. A process that has much to take yet gets no more meanwhile."""
        if not piece:
            self.end_client(number, client)
            return
        self.silences.hear(number)
        self.counts.received += len(piece)
        lines = [f"data {number} {piece[at : at + MOST_BYTES].hex()}\n" for at in range(0, len(piece), MOST_BYTES)]
        self.tell("data", "".join(lines), len(lines))
        if self.serving.is_full():
            client.rest()
            self.work(self.hear_later(number, client), self.tasks)

    async def hear_later(self, number, client):
        await self.serving.drain()
        if number in self.silences:
            self.hear_client(number, client)

    def end_client(self, number, client):
        """A client has sent all."""
        client.rest()
        if self.silences.end(number):
            self.tell("end", f"end {number}\n")

    def end_silent(self, number):
        """A client was silent too long, and so has sent all. Where clients may be silent, none may any more once no more come."""
        client = self.accepted[number]
        if client.heed and (self.idle or not self.takes):
            self.end_client(number, client)

    def send(self, number, piece):
        if number >= self.gone:
            client = self.accepted[number]
            self.counts.sent += len(piece)
            client.write(piece)
            if len(client.unsent) > MOST_UNREAD:
                note(f"client {number} has more than {MOST_UNREAD:,} bytes to read, and is reset")
                client.reset()
                self.end_client(number, client)

    def close(self, number, is_cut=False):
        if number < self.gone:
            return
        if self.silences.end(number):
            self.closed.append(number)
        client = self.accepted.pop(number)
        if is_cut:
            self.work(client.cut(self.patience), self.closers)
        elif not client.close(self.patience):
            self.closers.add(client.gone)
            client.gone.add_done_callback(self.closers.discard)

    def do(self, word, *fields):
        """Does what a line of the command says."""
        if word == "data":
            self.send(int(fields[0]), bytes.fromhex(fields[1]))
        elif word == "accept":
            self.accept(int(fields[0]))
        elif word == "close":
            self.close(int(fields[0]))
        elif word == "output":
            if not self.is_past:
                self.console.write(bytes.fromhex(fields[0]))
        else:
            raise ValueError(f"it says `{word}`")
        if not self.is_past:
            self.counts.said[word] += 1

    # ---- what the operator is told

    def progress(self):
        """How far the process is that has still to catch up; or None."""
        for process in filter(None, (self.joining, self.serving)):
            if process.is_behind and not (process is self.serving and self.has_caught_up(process)):
                done = f"took {process.written.taken}" if self.is_past else f"heard {process.heard_lines} of {self.said.lines}"
                return f"catching up: told {process.fed * 100 // (self.told.size or 1)} % of {self.told.lines} lines, {done}"
        return None

    def tell_news(self, process):
        """Says who ended and who leads on, which the process that serves has reported since the last time. Of one that catches up all of it was so before."""
        news = process.transcript.take_news()
        for it in news if not process.is_behind else ():
            note(it)

    def tell_end(self, status):
        """Says what isn't said yet of how versions ended, but for those that exited; and the last line of a command that failed, where that is in a file of its own."""
        process = self.serving
        words = process.last_words()
        why = f"the command ended with status {status}: {words}" if status > 0 and words else ""
        news = () if process.is_behind else process.transcript.take_news()
        for it in news:
            if it not in why and " ended: exited " not in it:
                note(it)
        if why:
            note(why)

    async def watch(self):
        """Each second: a command that was begun anew says how far it is; and each client that was accepted has to stand in the transcript."""
        while True:
            await asyncio.sleep(1)
            self.told.write()
            self.said.write()
            process, accepts = self.serving, self.accepts
            process.written.take()  # (`accept` may have been heard before)
            self.tell_news(process)
            if not self.has_caught_up(process):
                if process.is_behind:
                    note(self.progress())
            elif process.transcript.lacks(accepts):
                note(f"{process.transcript.path} lacks clients that were served: a line of it couldn't be written, and it ends there")

    async def end(self):
        """Comes to the status, once the command has ended. Clients that it has accepted are closed then, or reset where it came to a limit or was killed."""
        watching = asyncio.create_task(self.watch())
        status = await self.ended
        watching.cancel()
        self.tell_end(status)
        self.stop_waiting()
        self.takes = False
        self.serving.asked.close()
        if status == 0 and self.serving.written.has_failed:
            status = UNWRITTEN
        if status == UNWRITTEN:
            note("a line of a transcript couldn't be written: the transcript ends there")
        at_limit = self.serving.transcript.has_met_limit()
        is_cut = status < 0 or at_limit
        if self.accepted and (status or is_cut):
            note(f"{len(self.accepted)} clients get no more: the command ended with status {status}{', at a limit' if at_limit else ''}")
        for number in list(self.accepted):
            self.close(number, is_cut)
        await asyncio.gather(*self.closers)
        for it in (self.serving.transcript, self.told, self.said):
            it.close()
        return status if status >= 0 else 128 - status
