"""The runs of a command, one after the other."""
import asyncio
import collections
import os
import time

from varan_listen.lineup import Lineup
from varan_listen.metrics import Counts
from varan_listen.run import UNWRITTEN, Run
from varan_listen.streams import PATIENCE, Console, note
from varan_listen.transcript import BEHIND

UNBEGUN = 2


class Service:
    """`given` has the words of varan-listen: head, script and versions of the command, each, idle and transcripts."""

    def __init__(self, given, files, has_console):
        self.given, self.files = given, files
        self.patience = given.idle or PATIENCE
        self.counts = Counts()
        self.console = Console(has_console)
        self.script = files.script_at(given.script)
        self.versions = self.named()  # of the next run
        self.run = None  # the one that clients come to
        self.endings = collections.deque()  # of each run that hasn't ended, and those behind it, a task that comes to its status
        self.status = 0  # of the last run before these that failed
        self.turn = asyncio.Lock()  # one client at a time comes to a run
        self.over = asyncio.Event()
        self.failed = self.is_ending = False

    def named(self):
        """The files of the command line as they are now."""
        return [self.files.version(it) for it in self.given.versions]

    # ---- runs

    async def begin_process(self, kind, begun, is_behind):
        """A process of the command with this lineup. Its standard error is a file of the folder, or this script's."""
        transcript = None
        if self.given.transcripts is not None:
            count = len(os.listdir(self.given.transcripts))
            transcript = self.given.transcripts / f"{time.strftime('%Y%m%dT%H%M%S')}-{count:05}{BEHIND if is_behind else ''}"
        at = self.given.head.index("serve") + 1 if begun.script.path else 0
        command = [*self.given.head[:at], *begun.script.words(), *self.given.head[at:], *(it.copy for it in begun.versions)]
        return await kind.begin(command, begun, transcript, is_behind)

    async def resume(self, left):
        """Begins with a run that goes on with the arrivals and the hand-overs of the one that left this transcript. A run after it has none of those."""
        script = self.files.script(left.script)
        self.script = self.files.without(script, script.lengths())
        run = self.new_run()
        run.resume(left)
        await self.start(run, Lineup(self.versions, script))

    def new_run(self):
        return Run(self.begin_process, self.console, self.given.idle, self.counts)

    async def start(self, run, begun):
        await run.start(begun)
        self.run = run
        self.take_statuses()
        self.endings.append(asyncio.create_task(self.follow(run)))

    def take_statuses(self):
        """Of the runs that have ended no more is kept than the status of the last one that failed."""
        while self.endings and self.endings[0].done() and not self.endings[0].exception():
            self.status = self.endings.popleft().result() or self.status

    async def begin(self):
        """Begins the run that clients come to from now on."""
        await self.start(self.new_run(), Lineup(self.next_versions(), self.script))

    def next_versions(self):
        """Those of the run before, the one to which the lead was handed over in front."""
        if self.run is not None:
            serving = self.run.serving
            serving.transcript.learn()
            self.versions = [serving.versions[it] for it in serving.transcript.next_order]
        return self.versions

    # ---- clients

    def place_at_once(self, client):
        """Gives a client to the run that takes clients, if nobody comes before it and no run has to begin. Whether it is so."""
        is_free = not self.turn.locked() and self.run.takes and self.given.each is None
        if is_free:
            self.run.connect(client)
        return is_free

    async def place(self, client):
        """Gives a client to the run that takes clients. The next one begins before this one gets its last, where so many are a run's."""
        if not self.run.takes:
            await self.begin()
        run, each = self.run, self.given.each
        if each and run.count + 1 >= each and not self.is_ending:
            await self.begin()
        run.connect(client)
        # (a run of few clients is meant to end soon)
        if each and run.count == each * 9 // 10 >= 100:
            note(f"{run.count:,} of {each:,} clients have come to this run: the one after it begins without its state")
        if run is not self.run:
            run.end_clients()

    async def come(self, *clients):
        """These clients come. Where no run can begin for them they are closed."""
        async with self.turn:
            for client in clients:
                try:
                    await self.place(client)
                except OSError as fault:
                    self.fail(fault)
                    await client.closed(self.patience)
            if self.is_ending:
                self.run.end_clients()

    def fail(self, fault):
        """No run can begin."""
        note(fault)
        self.failed = True
        self.over.set()

    async def follow(self, run):
        """Comes to the run's status, once the clients that it leaves are with the next one."""
        status = await run.end()
        async with self.turn:
            left = list(run.waiting.values())
        if run.has_accepted or run.is_asked_to_end:
            await self.leave(run, left)
        else:
            self.over.set()
            await asyncio.gather(*(client.closed(self.patience) for client in left))
        return status

    async def leave(self, run, clients):
        """Clients go to the next run. Those that a run leaves which accepted nobody go once, and to none that begins for them after the end: no guest listens at their ports."""
        is_last = self.is_ending and run is self.run
        going = [client for client in clients if run.has_accepted or not (client.was_left or is_last)]
        staying = [client for client in clients if client not in going]
        for client in going:
            client.was_left = not run.has_accepted
        if staying:
            note(f"{len(staying)} clients are closed: no guest accepts them at port {', '.join(sorted({str(client.port) for client in staying}))}")
        await asyncio.gather(self.come(*going), *(client.closed(self.patience) for client in staying))

    async def begin_anew(self):
        """Clients come to a new run from now on, with the files of the command line as they are now; where none can begin, to this one still."""
        async with self.turn:
            run = self.run
            if self.given.script is not None:
                self.script = self.files.script_at(self.given.script)
            self.versions = self.named()
            await self.start(self.new_run(), Lineup(self.versions, self.script))
            run.end_clients()

    async def end(self):
        """Comes to the status, once all that came are served. A run that one leaves clients to stands in the list by then."""
        async with self.turn:
            self.is_ending = True
            self.run.end_clients()
        while self.endings:
            await self.endings[0]
            self.take_statuses()
        await self.console.close(self.patience)
        return self.status or (UNWRITTEN if self.console.failed else UNBEGUN if self.failed else 0)
