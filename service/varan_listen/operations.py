"""What an operator does with a service. Each operation yields lines that tell of it, and raises Refused where it isn't done.

    status               who leads, who follows, who has ended and how; how much came and was said, and the hand-overs of the process that serves
    join FILE [INDEX]    the version FILE joins behind the followers that haven't led, or at this place of the order in which they lead: at 0 it leads
    hand                 the leader gives up the lead to the version that is next in the order, with the next call that is served
    drop INDEX           the version with this number leaves. Where it led, the next one leads
    reload               the files of the command line join as they are now, behind the leader, which then gives up the lead to the first of them
    anew                 the clients that come now go to a new run of these files, which begins with nothing
    metrics              what is counted, in Prometheus' text exposition format
    watch                a line a second on it
    stop                 as SIGTERM
"""
import asyncio
import time

from varan_listen import lineup, metrics
from varan_listen.lineup import MOST_HANDS, Refused

# Seconds: within which a hand-over shows, if calls are served; and between two looks at it.
SHOWING, TICK = 5, 0.02


async def each(lines):
    for it in lines:
        yield it


class Operations:
    def __init__(self, service):
        self.service = service
        self.commands = {
            "status": (self.status, 0, 0), "join": (self.join, 1, 2), "hand": (self.hand, 0, 0), "drop": (self.drop, 1, 1), "reload": (self.reload, 0, 0),
            "anew": (self.anew, 0, 0), "metrics": (self.metrics, 0, 0), "watch": (self.watch, 0, 0), "stop": (self.stop, 0, 0)}

    def obey(self, word="", *fields):
        """The operation that a command names."""
        operation, least, most = self.commands.get(word, (None, 0, 0))
        if operation is None or not least <= len(fields) <= most:
            raise Refused("the commands are status, join FILE [INDEX], hand, drop INDEX, reload, anew, metrics, watch and stop")
        lines = operation(*fields)
        return lines if hasattr(lines, "__aiter__") else each(lines)

    # ---- what is told

    def status(self):
        run = self.service.run
        process = run.serving
        roles = process.standings()
        yield f"clients {run.count} came {run.told.lines} said {run.said.lines} restarts {run.restarts} hands {len(process.transcript.hands)}"
        yield f"transcript {process.transcript.path}{': a line of it could not be written' if process.transcript.has_failed else ''}"
        yield from roles
        if run.ended.done():
            yield "the run has ended: the next client begins one, without its state"
        if process.obeyed() < len(process.hands):
            yield "a hand-over waits for the next call that is served"
        if progress := run.progress():
            yield progress

    def metrics(self):
        return metrics.exposition(self.service.run, self.service.counts)

    async def watch(self):
        """It goes on until the operator leaves."""
        while True:
            yield metrics.line(self.service.run, self.service.counts)
            await asyncio.sleep(1)

    def stop(self):
        self.service.over.set()
        return ()

    # ---- versions

    def run_to_change(self):
        """The run that clients come to, unless something is under way in it."""
        run = self.service.run
        if run.ended.done():
            raise Refused("the run has ended, and the next client begins one")
        if run.is_joining:
            raise Refused("another version joins or leaves")
        if not run.has_caught_up(run.serving):
            raise Refused(run.progress())
        return run

    async def change(self, plan, *words):
        """A process of another lineup takes the place of the one that serves, once it has caught up. Where a version made another call, it is tried by itself, for what it says."""
        run = self.run_to_change()
        if not run.can_catch_up():
            raise Refused("what came or was said isn't whole")
        process = await run.join(plan(run.serving, self.service.files, *words))
        async for it in self.until_over(run, process):
            yield it
        why = process.outcome.result()
        if why and (trial := lineup.alone(process)) and not (run.is_joining or run.ended.done()):
            process = await run.join(trial)
            async for it in self.until_over(run, process):
                yield it
            why = f"{why}: {process.outcome.result()}"
        if why:
            raise Refused(why)
        if run is not self.service.run:
            raise Refused("another run has begun meanwhile")

    async def until_over(self, run, process):
        """A line each second, until a process serves or is given up."""
        while not process.outcome.done():
            await asyncio.wait([process.outcome], timeout=1)
            if not process.outcome.done():
                yield run.progress()

    async def join(self, *words):
        async for it in self.change(lineup.joined, *words):
            yield it
        for it in self.status():
            yield it

    async def drop(self, *words):
        async for it in self.change(lineup.dropped, *words):
            yield it
        for it in self.status():
            yield it

    async def hand(self):
        run = self.run_to_change()
        process = run.serving
        waits = process.obeyed() < len(process.hands)
        if len(process.transcript.order) < 2:
            raise Refused("no other version follows")
        if waits:
            raise Refused("a hand-over waits for the next call that is served")
        if len(process.transcript.hands) >= MOST_HANDS:
            raise Refused(f"{MOST_HANDS} hand-overs are the most: where a version that led leaves, or one joins that leads, there may be more")
        run.hand()
        await self.until_shown(run)
        if run.serving.obeyed() < len(run.serving.hands):
            yield "the leader gives up the lead with the next call that is served"
        else:
            yield f"hand {run.serving.transcript.hands[-1]}"
        for it in self.status():
            yield it

    async def until_shown(self, run):
        """Waits until the transcript shows that the last word was obeyed, and the next version leads, for some seconds at most."""
        end = time.monotonic() + SHOWING
        while time.monotonic() < end and not run.ended.done():
            process = run.serving
            if process.obeyed() >= len(process.hands) and process.transcript.hands[-1] in process.transcript.leads:
                return
            await asyncio.sleep(TICK)

    async def reload(self):
        given = self.service.given
        if given.transcripts is None or not given.versions:
            raise Refused("files are loaded anew where the command is `serve` with its versions last, and --transcripts is given")
        if self.service.run.ended.done():
            await self.service.begin_anew()
            return
        async for it in self.change(lineup.renewed, given.versions):
            yield it
        async for it in self.hand():
            yield it

    async def anew(self):
        await self.service.begin_anew()
        for it in self.status():
            yield it
