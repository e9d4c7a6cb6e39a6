"""What a transcript says: of the process that writes it who leads, who has ended and how, and where the lead was handed over; and of one that a run left what came in it."""
import os
import re

ARRIVALS = (b"connect", b"data", b"end", b"line", b"input", b"time")
# An end of these is what the run was told when varan-listen ended. A run that goes on isn't.
OVER = (b"end clients\n", b"end input\n")
# The transcript of a process that hasn't caught up has this at the end of its name: it lacks something that came.
BEHIND = ".behind"
SAID = re.compile(rb"\n(?:hand (\d+)|# (\d+ of \d+ calls are made)|# version (\d) (?:leads from event (\d+)|rewrites (\d+) at .*|ended: (.*)))(?=\n)")
LIMITS = ("fault calls", "fault budget")
# The lines behind the one that tells why the process ended, and bytes that have them all.
UNTAKEN = b"# not taken: "
TAIL = 1_048_576
# Bytes that are read at once: a process that has caught up has written all that came to its run.
PIECE = 1_048_576


class Transcript:
    """The standard error of a process with so many versions. It is read on where it is a file of its own; else nothing is known, and the first version leads."""

    def __init__(self, path, count):
        self.path = path
        self.reader = open(path, "rb") if path else None
        self.rest = b""  # the beginning of the last line, which isn't whole
        self.connects = 0  # clients
        self.ends = {}  # of the versions that ended, how
        self.rewrites = {}  # of the versions for which a rule decided, how often it was last reported
        self.news = []  # what the operator has to know of, since it was last taken
        self.hands = []  # lengths of hand-overs, those of the script among them
        self.leads = {0: 0}  # by the event from which it led, each leader in turn
        self.order = list(range(count))  # of the versions that haven't ended, in the order in which they lead
        self.next_order = list(range(count))  # in which a run after this one begins with all of them: a leader that broke leads it again, one that handed over doesn't
        self.has_failed = False  # a line couldn't be written

    def learn(self):
        """Reads what it says since the last time."""
        while self.reader is not None and (piece := self.reader.read(PIECE)):
            whole, _, self.rest = (self.rest + piece).rpartition(b"\n")
            self.learn_from(whole)

    def learn_from(self, lines):
        lines = b"\n%b\n" % lines
        self.connects += lines.count(b"\nconnect ")
        for hand, made, number, event, rewrites, end in SAID.findall(lines):
            if hand:
                self.hands.append(int(hand))
            elif made:
                self.news.append(made.decode())
            elif event:
                self.take_lead(int(number), int(event))
                self.news.append(f"version {int(number)} leads from event {int(event)}")
            elif rewrites:
                self.rewrites[int(number)] = int(rewrites)
            else:
                self.ends[int(number)] = end.decode()
                self.news.append(f"version {int(number)} ended: {end.decode()}")
                self.order = [it for it in self.order if it != int(number)]

    def take_lead(self, number, event):
        """This version leads. A leader before it that hasn't ended has given up the lead, and leads last."""
        before = self.leader()
        self.leads[event] = number
        others = [it for it in self.order if it not in (number, before)]
        gave_up = before != number and before in self.order
        self.order = [number, *others, *([before] if gave_up else [])]
        if gave_up:
            self.next_order = [*self.order, *sorted(self.ends)]

    def leader(self):
        return next(reversed(self.leads.values()))

    def leads_in_order(self):
        """Whether each leader stands behind the one before it in the list of versions. Then a version at the end of the list changes nothing of who led."""
        leaders = list(self.leads.values())
        return leaders == sorted(set(leaders))

    def roles(self, count):
        """Of each version whether it leads, follows, and how often a rule decided for it, or how it has ended."""
        self.learn()
        return [self.role(it) for it in range(count)]

    def role(self, number):
        if number in self.ends:
            return f"ended: {self.ends[number]}"
        if number == self.leader():
            return "leads"
        return f"follows (rewrites {self.rewrites[number]} or more)" if number in self.rewrites else "follows"

    def has_met_limit(self):
        """Whether a version came to a limit."""
        self.learn()
        return any(end.startswith(LIMITS) for end in self.ends.values())

    def lacks(self, accepts):
        """Whether it lacks one of so many clients that were accepted. It is said once."""
        self.learn()
        if self.reader is None or self.has_failed or self.connects >= accepts:
            return False
        self.has_failed = True
        return True

    def take_news(self):
        self.learn()
        news, self.news = self.news, []
        return news

    def arrive(self):
        """Its process has caught up. What it has reported so far was so before."""
        self.take_news()
        if self.path:
            self.path = self.path.rename(self.path.with_name(self.path.name.removesuffix(BEHIND)))

    def last_words(self):
        """Its last line, but for what wasn't taken; nothing where it isn't a file of its own."""
        if self.reader is None:
            return ""
        file = self.reader.fileno()
        lines = os.pread(file, TAIL, max(os.fstat(file).st_size - TAIL, 0)).splitlines()
        return next((line.decode(errors="replace") for line in reversed(lines) if not line.startswith(UNTAKEN)), "")

    def close(self):
        if self.reader is not None:
            self.reader.close()
            self.reader = None


class Left:
    """The transcript that a run left. It may be long, so that no more of it is kept than its script, with its hand-overs, and who was connected at its end."""

    def __init__(self, path):
        self.path = path
        self.count = 0  # of the clients
        self.going = {}  # the ends of those that hadn't sent all
        script = []
        for line in self.lines():
            word, *fields = line.split()
            if word not in ARRIVALS:
                script.append(line)
            elif word == b"connect":
                self.going[self.count] = b"end %d\n" % self.count
                self.count += 1
            elif word == b"end" and fields and fields[0].isdigit():
                self.going.pop(int(fields[0]), None)
        self.script = b"".join(script)

    def lines(self):
        """Its lines, but for comments and for one that is cut off."""
        with open(self.path, "rb") as file:
            yield from (line for line in file if line.strip() and line.endswith(b"\n") and not line.startswith(b"#"))

    def arrivals(self):
        """What came in it, with the end of each client that was connected."""
        yield from (line for line in self.lines() if line.split()[0] in ARRIVALS and line not in OVER)
        yield from self.going.values()
