#!/usr/bin/env python3
"""Operates a live service as an operator would, and breaks what can break: versions join and leave, processes are killed, streams are closed, unread or full (docs/LIVE.md).

    operating.py PROGRAM

The service is keeper.c behind ../../service/varan-listen. It counts the requests of all clients, so one that is lost or done twice shows; so do loop.c and
per_client.c, which serve all at once; dated.s tells the time. Each row that doesn't hold is printed; the last line has how many there were, how many were wrong, and the longest wait of a client. Status 1 where one was wrong.
"""
import contextlib
import os
import pathlib
import re
import resource
import signal
import socket
import struct
import subprocess
import sys
import tempfile
import threading
import time

HERE = pathlib.Path(__file__).resolve().parent
KEEPER = {number: str(HERE / f"built/keeper_{number}") for number in (1, 2, 3)}
LOOP, SELECT_LOOP, EPOLL_LOOP = (str(HERE / f"built/loop_{it}") for it in ("1", "select", "epoll"))
# With a thread for each client; the words for their stacks, and how many clients it serves at a time.
PER_CLIENT = {number: str(HERE / f"built/per_client_{number}") for number in (1, 2)}
STACKS, AT_A_TIME = ["--memory", "4194304"], 7
SLOW = str(HERE / "built/keeper_slow")
SECONDS = 300
# Seconds that a client may be silent, and the words for one that is silent while something else is done.
IDLE = 3
PATIENT = ["--idle", str(SECONDS)]
# Seconds between two requests of a client that asks again and again, and how often as long as its last answer took: so a process that joins comes nearer also where the machine is slow.
PAUSE, PAUSES = 0.05, 4
# The words for one whose clients may be silent, and seconds after which the server itself lets them go.
ENDLESS, LET_GO = ["--idle", "0"], 4
# Clients at once, where a ppoll has 408 descriptors.
MORE_THAN_POLLED = 420
# Nanoseconds: a second, and how long ago the time may have been told that a client gets.
SECOND, TIME_STEP = 1_000_000_000, 1_000_000
# What form 4 lets a run write to a client, and what may wait for one to read it.
MOST_OF_FORM_4, MOST_UNREAD = 1_048_576, 16_777_216
SMALL = 4096
# Linux's numbers of calls.
READ, WRITE, PPOLL = 63, 64, 414
LONG = "x" * 1900
# A command that stands still, before it is the program, while there is a file `hold` beside it.
HELD = """#!/bin/sh
[ -e "${0%%/*}/hold" ] && kill -STOP $$
exec '%s' "$@"
"""


class Rows:
    def __init__(self):
        self.count = self.wrong = 0
        self.waits = {}

    def holds(self, is_so, what, seen=""):
        self.count += 1
        if not is_so:
            self.wrong += 1
            print(f"operating.py: {what}: {seen}", flush=True)

    def same(self, got, wanted, what):
        self.holds(got == wanted, what, f"{got!r} in place of {wanted!r}")


def free_port():
    with socket.create_server(("127.0.0.1", 0)) as it:
        return it.getsockname()[1]


def until(is_so, what):
    """Waits until it is so, for some minutes at most."""
    end = time.monotonic() + SECONDS
    while not (found := is_so()):
        if time.monotonic() > end:
            sys.exit(f"operating.py: it doesn't come to this: {what}")
        time.sleep(0.005)
    return found


def stop(process):
    """Stops a process, with all its threads: it takes in nothing more until it goes on."""
    os.kill(process, signal.SIGSTOP)
    tasks = pathlib.Path(f"/proc/{process}/task")
    until(lambda: all((task / "stat").read_text().rpartition(")")[2].split()[0] == "T" for task in tasks.iterdir()), "a stopped process")


def program_of(process):
    """The file that a process runs; None where it has ended, or runs none yet."""
    try:
        return os.readlink(f"/proc/{process}/exe")
    except OSError:
        return None


def is_still(process):
    """Whether a process is stopped by a signal."""
    try:
        return pathlib.Path(f"/proc/{process}/stat").read_text().rpartition(")")[2].split()[0] == "T"
    except OSError:
        return False


class Connection:
    """A client that asks a line and waits for its answer. The system keeps so many bytes for it that it hasn't read, if a number is given."""

    def __init__(self, port, room=None):
        self.socket = socket.socket()
        self.socket.settimeout(SECONDS)
        if room is not None:
            self.socket.setsockopt(socket.SOL_SOCKET, socket.SO_RCVBUF, room)
        self.socket.connect(("127.0.0.1", port))
        self.lines = self.socket.makefile("r")
        self.begun = time.monotonic()

    def send(self, *requests):
        self.socket.sendall("".join(request + "\n" for request in requests).encode())

    def ask(self, *requests):
        self.send(*requests)
        return [self.lines.readline().rstrip("\n") for _ in requests]

    def close(self):
        self.lines.close()
        self.socket.close()


class Asking(threading.Thread):
    """A client that asks for the count again and again over one connection, until it is told to stop. Each count is one more than the last."""

    def __init__(self, port):
        super().__init__()
        self.client, self.is_over, self.counts, self.longest = Connection(port), False, [], 0
        self.start()

    def run(self):
        try:
            while not self.is_over:
                begun = time.monotonic()
                self.counts.append(int(self.client.ask("size")[0] or 0))
                took = time.monotonic() - begun
                self.longest = max(self.longest, took)
                time.sleep(max(PAUSE, min(PAUSES * took, IDLE / 2)))
        except (OSError, ValueError) as fault:
            self.counts.append(fault)

    def stop(self):
        """Whether each of at least two counts was one more than the one before it."""
        self.is_over = True
        self.join()
        self.client.close()
        return self.counts == list(range(self.counts[0], self.counts[0] + len(self.counts))) and len(self.counts) > 1


class Service:
    """varan-listen before versions of the keeper, in a folder of its own."""

    def __init__(self, program, *versions, command=None, options=(), words=(), ports=1, folder=None, **popen):
        self.program, self.folder = program, folder or pathlib.Path(tempfile.mkdtemp(dir=Service.room))
        self.ports = [free_port() for _ in range(ports)]
        self.control, self.transcripts, self.told = self.folder / "control", self.folder / "transcripts", self.folder / "told"
        self.transcripts.mkdir(exist_ok=True)
        adapter = [HERE / "../../service/varan-listen", "--idle", str(IDLE), "--transcripts", self.transcripts, "--control", self.control, *options]
        inner = [f"{port}:{8080 + number}" for number, port in enumerate(self.ports)]
        with open(self.told, "wb") as told, open(self.folder / "console", "ab") as console:
            popen = {"stdout": console} | popen
            self.process = subprocess.Popen([*adapter, *inner, "--", command or program, "serve", "--clients", *words, *versions], stderr=told, **popen)
        started.append(self.process)
        until(lambda: self.process.poll() is not None or self.is_controlled(), "the control socket")
        self.port = self.ports[0]

    def is_controlled(self):
        with socket.socket(socket.AF_UNIX) as control:
            return control.connect_ex(str(self.control)) == 0

    def connect(self):
        return Connection(self.port)

    def ask(self, *requests):
        client = self.connect()
        try:
            return client.ask(*requests)
        finally:
            client.close()

    def operate(self, command):
        """The lines that answer an operator's command."""
        with socket.socket(socket.AF_UNIX) as control:
            control.settimeout(SECONDS)
            control.connect(str(self.control))
            control.sendall(command.encode() + b"\n")
            control.shutdown(socket.SHUT_WR)
            return control.makefile().read().splitlines()

    def roles(self):
        """Each version's file and its role, of the status."""
        return [tuple(line.split()[1:3]) for line in self.operate("status") if line[0].isdigit()]

    def begun(self):
        """The processes that varan-listen has begun."""
        return [int(it) for it in pathlib.Path(f"/proc/{self.process.pid}/task/{self.process.pid}/children").read_text().split()]

    def children(self):
        """Those of the command that run."""
        return [it for it in self.begun() if program_of(it) == self.program]

    def serving(self):
        """The process of the command, once there is one alone."""
        return until(lambda: len(found := self.children()) == 1 and found, "one process")[0]

    def transcript(self):
        """That of the process that serves."""
        return pathlib.Path(self.operate("status")[1].split()[1])

    def notes(self):
        return self.told.read_text()

    def end(self):
        """Tells it to end, and comes to its status; None where it doesn't end."""
        self.process.send_signal(signal.SIGTERM)
        try:
            return self.process.wait(SECONDS)
        except subprocess.TimeoutExpired:
            self.process.kill()
            return None



def joining(rows, program):
    """Versions join and leave while a client asks over one connection."""
    service = Service(program, KEEPER[1], options=PATIENT)
    rows.same(service.ask("put a b", "get a", "drop a", "get a", "put colour green"), ["kept", "b", "dropped", "not there", "kept"], "the past")
    rows.same(service.roles(), [(KEEPER[1], "leads")], "the status of one version")
    asking = Asking(service.port)
    until(lambda: len(asking.counts) > 2, "a client's counts")
    answers = service.operate(f"join {KEEPER[3]}")
    rows.same(answers[-1], "ok", "a version joins")
    rows.same(service.roles(), [(KEEPER[1], "leads"), (KEEPER[3], "follows")], "the status once a version has joined")
    rows.same(service.operate("drop 0")[-1], "ok", "the leader leaves")
    rows.same(service.operate(f"join {KEEPER[1]} 0")[-1], "ok", "a version joins in front")
    rows.same(service.roles(), [(KEEPER[1], "leads"), (KEEPER[3], "follows")], "the status once a version has joined in front")
    serving = service.serving()

    other = service.folder / "other"
    other.write_bytes(pathlib.Path(KEEPER[1]).read_bytes().replace(b"kept\0", b"KEPT\0"))
    other.chmod(0o755)
    rows.same(service.operate(f"join {other} 0")[-1], f"no: it says `data 0 {b'KEPT'.hex()}0a` where the service said `data 0 {b'kept'.hex()}0a`", "an update that answers the past otherwise")
    answer = service.operate(f"join {KEEPER[2]} 0")[-1]
    rows.holds(answer.startswith(f"no: 0 {KEEPER[2]} ended: fault load "), "an update that breaks while it catches up", answer)
    answer = service.operate(f"join {service.folder / 'nothing'}")[-1]
    rows.holds(answer.startswith("no: the command ended with status 5: # varan: "), "a file that isn't there", answer)
    for command in ("drop 2", f"join {other} 3", "drop", "hello", "join 'x"):
        rows.holds(service.operate(command)[-1].startswith("no: "), f"the command {command}", "it is done")
    rows.same(service.serving(), serving, "what was refused changes nothing")

    answers = []
    waiting = threading.Thread(target=lambda: answers.extend(service.operate(f"join {KEEPER[3]}")))
    waiting.start()
    new = until(lambda: [it for it in service.children() if it != serving], "a process that joins")[0]
    stop(new)
    rows.holds(service.operate(f"join {KEEPER[3]}")[-1].startswith("no: "), "a second one at once", "it joins")
    time.sleep(1.5)
    os.kill(new, signal.SIGCONT)
    waiting.join()
    rows.holds(answers[0].startswith("catching up: ") and answers[-1] == "ok", "progress", answers)
    rows.holds(asking.stop(), "each request is done once across all that", asking.counts[-3:])
    rows.waits["join"] = asking.longest
    rows.same(service.ask("get colour"), ["green"], "the state")
    rows.same(service.operate("stop"), ["ok"], "the command stop")
    rows.same(service.process.wait(SECONDS), 0, "the status after stop")
    rows.holds(not service.control.exists(), "the control socket is gone", "it is there")
    rows.same(sum(it.name.endswith(".behind") for it in service.transcripts.iterdir()), 3, "transcripts of processes that never caught up")


def silent_client(rows, program):
    """A client that is silent holds the next one for --idle seconds, also if a version joins meanwhile."""
    service = Service(program, KEEPER[1])
    begun = time.monotonic()
    silent = service.connect()
    until(lambda: service.operate("status")[0].startswith("clients 1 "), "the silent client")
    rows.same(service.operate(f"join {KEEPER[3]}")[-1], "ok", "a version joins behind a silent client")
    rows.same(service.ask("size"), ["1"], "the next client")
    took = time.monotonic() - begun
    rows.holds(IDLE - 0.5 < took < 1.5 * IDLE, "how long the silent client held it", took)
    silent.close()
    rows.same(service.end(), 0, "the status after a silent client")


def held_command(program):
    """A folder with a command that is held while a file is there, and the file's path."""
    folder = pathlib.Path(tempfile.mkdtemp(dir=Service.room))
    held = folder / "held"
    held.write_text(HELD % program)
    held.chmod(0o755)
    return folder, held, folder / "hold"


def killed_command(rows, program):
    """The command is killed, twice, and then catching up takes longer than a client may be silent: it is held before it is told anything."""
    folder, held, hold = held_command(program)
    service = Service(program, KEEPER[2], KEEPER[1], command=held, folder=folder)
    service.ask("put colour green", "say hello", *["get colour"] * 200)
    asking = Asking(service.port)
    until(lambda: len(asking.counts) > 2, "a client's counts")
    first = service.serving()
    os.kill(first, signal.SIGKILL)
    second = until(lambda: [it for it in service.children() if it != first], "a process that is begun anew")[0]
    hold.touch()
    os.kill(second, signal.SIGKILL)
    third = until(lambda: [it for it in service.begun() if is_still(it)], "a second one, which stands still")[0]
    hold.unlink()
    time.sleep(IDLE + 1)
    os.kill(third, signal.SIGCONT)
    seen = len(asking.counts)
    until(lambda: len(asking.counts) > seen + 2, "a client's counts after it")
    rows.holds(asking.stop(), "each request is done once, with the command killed", asking.counts[-3:])
    rows.waits["kill"] = asking.longest
    rows.same(service.ask("get colour"), ["green"], "the state after the command was killed")
    rows.holds(" restarts 2" in service.operate("status")[0], "the restarts", service.operate("status"))
    rows.holds("was ended by SIGKILL, and is begun anew" in service.notes(), "the operator is told of it", service.notes())
    rows.same(service.end(), 0, "the status after the command was killed")
    rows.same((service.folder / "console").read_text(), "hello\n", "the console, once")


def killed_all(rows, program):
    """varan-listen is killed, and the command with it, which stands still. Then it goes on from the transcript."""
    service = Service(program, KEEPER[1])
    counts = service.ask("put colour green", "say hello", "size")
    open_one = service.connect()
    rows.same((counts[2], *open_one.ask("size")), ("3", "4"), "the counts before it is killed")
    until(lambda: (service.folder / "console").read_text() == "hello\n", "the console, which is written beside the answers")
    command = service.serving()
    stop(command)
    service.process.kill()
    service.process.wait()
    until(lambda: not pathlib.Path(f"/proc/{command}").exists() or " Z " in pathlib.Path(f"/proc/{command}/stat").read_text(), "the command ends with varan-listen")
    try:
        left = open_one.lines.readline()
    except OSError:
        left = ""
    rows.same(left, "", "an open client once varan-listen is killed")
    [transcript] = service.transcripts.iterdir()
    with open(transcript, "ab") as cut:
        cut.write(b"data 1 %s" % b"size\n".hex().encode())  # a whole request in a line that is cut off
    resumed = Service(program, KEEPER[1], options=["--resume", transcript], folder=service.folder)
    rows.same(resumed.ask("get colour", "size", "say again"), ["green", "6", "said"], "the state of a service that was resumed")
    rows.same(resumed.operate(f"join {KEEPER[3]}")[-1], "ok", "a version joins a service that was resumed")
    rows.same(resumed.ask("size"), ["8"], "the state after a version joined a service that was resumed")
    rows.same(resumed.end(), 0, "the status of a service that was resumed")
    rows.same((service.folder / "console").read_text(), "hello\nagain\n", "the console, once")
    last = max(it for it in service.transcripts.iterdir() if not it.name.endswith(".behind"))
    rows.holds("end clients\n" in last.read_text(), "the transcript of a service that ended in order", "it has no end of clients")
    ended = Service(program, KEEPER[3], options=["--resume", last], folder=service.folder)
    rows.same(ended.ask("size"), ["9"], "the state of a service that ended in order, and was resumed")
    rows.same(ended.end(), 0, "its status")
    absent = subprocess.run([HERE / "../../service/varan-listen", "--resume", service.folder / "nothing", "1", "--", program, "serve", "--clients", KEEPER[1]], stderr=subprocess.PIPE)
    rows.holds(absent.returncode == 2 and b"No such file" in absent.stderr, "a transcript that isn't there", absent)


def resuming(rows, program):
    """A service that is resumed says when it has caught up, before any client comes; until then nothing joins. The command is held before it is told anything."""
    for version, options in ((KEEPER[1], PATIENT), (LOOP, ENDLESS)):
        folder, held, hold = held_command(program)
        service = Service(program, version, options=options)
        silent = service.connect()
        rows.same(silent.ask("put colour green", "size"), ["kept", "2"], "the past")
        transcript = service.transcript()
        service.process.kill()
        service.process.wait()
        hold.touch()
        resumed = Service(program, version, command=held, options=[*options, "--resume", transcript], folder=folder)
        process = until(lambda: [it for it in resumed.begun() if is_still(it)], "a command that stands still")[0]
        hold.unlink()
        lacks = transcript.read_text().count("\n")  # a line more of the script, and one less for the client's end
        is_behind(rows, resumed, version, lacks)
        os.kill(process, signal.SIGCONT)
        until(lambda: "caught up" in resumed.notes(), "it catches up with nobody there")
        rows.holds(f" s, with {lacks} lines taken\n" in resumed.notes(), "the lines that it has taken then", resumed.notes())
        rows.same(resumed.transcript().suffix, "", "the transcript of a service that has caught up")
        rows.same(resumed.operate(f"join {version}")[-1], "ok", "a version joins it before any client comes")
        rows.same(resumed.ask("get colour", "size"), ["green", "4"], "the state of a service that has caught up")
        rows.same(resumed.end(), 0, "its status")


def is_behind(rows, service, version, lacks):
    """What the operator is told of a service that was resumed, and has taken none of so many lines."""
    rows.same(service.transcript().suffix, ".behind", "the transcript of a service that has taken nothing")
    rows.holds(service.operate("status")[-2].endswith(" lines, took 0"), "the status of a service that has taken nothing", service.operate("status"))
    rows.same(samples(rows, "\n".join(service.operate("metrics")[:-1])).get('varan_lag_lines{process="serving"}'), lacks, "the lines that it lacks")
    rows.holds(service.operate(f"join {version}")[-1].startswith("no: catching up: "), "a version that joins before it has caught up", "it joins")


def left_copies(rows, program):
    """The copies of versions go with the service; those of one that was killed as the next one begins, and none of one that serves."""
    room = pathlib.Path(tempfile.mkdtemp(dir=Service.room))

    def begun():
        before = set(room.iterdir())
        service = Service(program, KEEPER[1], env=os.environ | {"TMPDIR": str(room)})
        return service, before, set(room.iterdir())

    killed, _, first = begun()
    killed.process.kill()
    killed.process.wait()
    one, left, second = begun()
    other, _, third = begun()
    rows.same((len(first), left), (1, first), "the copies of a service that was killed")
    rows.same((len(second), len(second & first)), (1, 0), "the copies once the next one has begun")
    rows.same((len(third), third & second), (2, second), "the copies of two services at once")
    os.kill(one.serving(), signal.SIGKILL)
    rows.same(one.ask("size"), ["1"], "a command that is begun anew beside another service")
    rows.same((one.end(), other.end(), list(room.iterdir())), (0, 0, []), "the copies in the end")


def is_shown(service, line):
    """Whether the transcript of the process that serves has this line."""
    return line in service.transcript().read_text().splitlines()


def handing(rows, program):
    """The leader gives up the lead at the operator's word, as often as a run lets it; and a process that is begun anew has the same leader."""
    service = Service(program, KEEPER[1], options=PATIENT)
    client = service.connect()
    rows.same(client.ask("put colour green"), ["kept"], "the past")
    rows.same(service.operate("hand"), ["no: no other version follows"], "a hand-over with one version")
    rows.same(service.operate(f"join {KEEPER[3]}")[-1], "ok", "a version joins")
    # Before the request after it are the calls socket, bind, listen and accept, and a read and a write; its read is the next one.
    answer = service.operate("hand")
    rows.holds(answer[0].startswith("the leader gives up the lead with the next call") and answer[-1] == "ok", "a hand-over while nobody asks", answer)
    rows.same(service.operate("hand"), ["no: a hand-over waits for the next call that is served"], "a second one at once")
    rows.same(service.roles(), [(KEEPER[1], "leads"), (KEEPER[3], "follows")], "who leads before the next call")
    rows.same(client.ask("get colour"), ["green"], "the request at which the lead is handed over")
    until(lambda: is_shown(service, "hand 7"), "the transcript's line")
    until(lambda: service.roles() == [(KEEPER[1], "follows"), (KEEPER[3], "leads")], "the other version leads")
    client.close()

    asking = Asking(service.port)
    for number in range(2, 9):
        leads = number % 2
        rows.same(handed(service, number), [(KEEPER[1], "follows" if leads else "leads"), (KEEPER[3], "leads" if leads else "follows")], f"who leads after hand-over {number}")
    answer = service.operate("hand")
    rows.holds(answer[-1].startswith("no: 8 hand-overs are the most"), "the ninth hand-over", answer)
    rows.same(spans_again(program, service, KEEPER[1], KEEPER[3]), spans_told(service), "what each version led, by the run of the transcript")
    killed_once(service, asking)
    rows.same(service.roles(), [(KEEPER[1], "leads"), (KEEPER[3], "follows")], "who leads once the command was begun anew after eight")
    rows.same((hands_of(service), *hands_told(rows, service)), (8, 8, 8), "the hand-overs of its transcript, as the status and the metrics have them")

    rows.same(service.operate("drop 0")[-1], "ok", "a version that led leaves")
    rows.same(hands_told(rows, service), (0, 0), "the hand-overs of a process in which there were none")
    rows.same(service.operate(f"join {KEEPER[1]}")[-1], "ok", "and joins")
    rows.same(handed(service, 1), [(KEEPER[3], "follows"), (KEEPER[1], "leads")], "who leads after the first hand-over from then on")
    killed_once(service, asking)
    rows.same(service.roles(), [(KEEPER[3], "follows"), (KEEPER[1], "leads")], "who leads once the command was begun anew after one")
    rows.holds(asking.stop(), "each request is done once across all that", asking.counts[-3:])
    rows.waits["hand"] = asking.longest

    transcript = service.transcript()
    service.process.kill()
    service.process.wait()
    resumed = Service(program, KEEPER[3], KEEPER[1], options=["--resume", transcript], folder=service.folder)
    rows.same(resumed.ask("get colour"), ["green"], "the state of a service that was resumed")
    rows.same(resumed.roles(), [(KEEPER[3], "follows"), (KEEPER[1], "leads")], "who leads in it")
    answer = resumed.operate(f"join {KEEPER[3]} 1")
    rows.same(answer[-1], "ok", "a version joins it")
    rows.same(resumed.roles(), [(KEEPER[3], "follows"), (KEEPER[1], "leads"), (KEEPER[3], "follows")], "who leads then")
    rows.same(resumed.end(), 0, "its status")


def hands_of(service):
    """How many hand-overs the transcript of the process that serves has."""
    return sum(it.startswith("hand ") for it in service.transcript().read_text().splitlines())


def hands_told(rows, service):
    """The same by the status and by the metrics."""
    found = samples(rows, "\n".join(service.operate("metrics")[:-1]))
    return int(service.operate("status")[0].rpartition(" hands ")[2]), found.get("varan_hand_overs")


def handed(service, number):
    """The roles once the lead is handed over, for the time of this number. Its call may be served later than the command waits."""
    if service.operate("hand")[-1] != "ok":
        return None
    leader = until(lambda: hands_of(service) == number and re.findall(r"(?s).*\nhand (\d+)\n# version \d leads from event \1\n", service.transcript().read_text()), "the hand-over")
    return leader and service.roles()


def killed_once(service, asking):
    """The command is killed, and the client's requests are answered again."""
    os.kill(service.serving(), signal.SIGKILL)
    seen = len(asking.counts)
    until(lambda: len(asking.counts) > seen + 2, "a client's counts after the command was killed")


def spans_told(service):
    """What each version led, by the transcript of the process that serves; the last one to the end."""
    leads = re.findall(r"^# version (\d) leads from event (\d+)$", service.transcript().read_text(), re.M)
    parts = [(0, 0), *((int(number), int(event)) for number, event in leads)]
    return [(number, event, parts[at + 1][1] if at + 1 < len(parts) else None) for at, (number, event) in enumerate(parts)]


def spans_again(program, service, *versions):
    """The same by the report of `varan run` on what the transcript has now."""
    script = service.folder / "script"
    script.write_bytes(service.transcript().read_bytes().rpartition(b"\n")[0] + b"\n")
    words = [program, "run", "--calls", "131072", "--hang", "100000000", "--script", script, *versions]
    report = subprocess.run(words, stdout=subprocess.PIPE, stderr=subprocess.STDOUT, text=True, errors="replace").stdout
    parts = []
    for number, led in re.findall(r"^(\d) exited .* led ([-0-9,]+) rewrites 0$", report, re.M):
        parts += [(int(number), *map(int, part.split("-"))) for part in led.split(",")]
    parts.sort(key=lambda part: part[1])
    return [(number, first, end if at + 1 < len(parts) else None) for at, (number, first, end) in enumerate(parts)]


def falling_back(rows, program):
    """A version that joins takes the lead, and breaks; the old one goes on with the request. Before that, one that breaks in the past is given up."""
    service = Service(program, KEEPER[1], options=PATIENT)
    client = service.connect()
    rows.same(client.ask("put colour green"), ["kept"], "the past")
    rows.same(service.operate(f"join {KEEPER[2]}")[-1], "ok", "a bad update joins")
    rows.same(service.operate("hand")[-1], "ok", "the lead is to be handed over")
    rows.same(client.ask("get colour"), ["green"], "the request at which it is")
    until(lambda: service.roles() == [(KEEPER[1], "follows"), (KEEPER[2], "leads")], "the bad update leads")
    rows.same(client.ask("drop colour", "get size", "get colour"), ["dropped", "not there", "not there"], "the request at which it breaks, and the next")
    until(lambda: service.roles() == [(KEEPER[1], "leads"), (KEEPER[2], "ended:")], "the old version leads again")
    rows.holds("ended: fault load " in "\n".join(service.operate("status")), "the status tells why", service.operate("status"))
    until(lambda: "# varan-listen: version 1 ended: fault load " in service.notes(), "the operator is told of the break")
    told = re.findall(r"# varan-listen: version (\d) leads", service.notes())
    rows.same(told, ["1", "0"], "the leads that the operator is told of")
    rows.same(service.operate("hand"), ["no: no other version follows"], "a hand-over once the other version has ended")
    client.close()
    rows.same(service.end(), 0, "the status after a break")


def wrong_answer(rows, program):
    """A version leads that answers wrongly what the past doesn't have: the right one is dropped, and can't join. Alone it is resumed from the transcript, and makes the right state of the same requests."""
    folder = pathlib.Path(tempfile.mkdtemp(dir=Service.room))
    wrong = folder / "wrong"
    wrong.write_bytes(pathlib.Path(KEEPER[1]).read_bytes().replace(b"drop\0", b"dr0p\0"))
    wrong.chmod(0o755)
    service = Service(program, KEEPER[1], options=PATIENT, folder=folder)
    client = service.connect()
    rows.same(client.ask("put colour green", "say hello"), ["kept", "said"], "the past")
    rows.same(service.operate(f"join {wrong}")[-1], "ok", "a version joins that answers wrongly what the past doesn't have")
    rows.same(service.operate("hand")[-1], "ok", "the lead is to be handed over")
    rows.same(client.ask("size", "drop colour", "get colour"), ["3", "what?", "green"], "its wrong answer, and the state after it")
    until(lambda: service.roles() == [(KEEPER[1], "ended:"), (str(wrong), "leads")], "the right version is dropped")
    answer = service.operate(f"join {KEEPER[1]}")[-1]
    rows.holds(answer.endswith(f"it says `data 0 {b'dropped'.hex()}0a` where the service said `data 0 {b'what?'.hex()}0a`"), "the right version can't join", answer)
    rows.same(service.operate(f"join {wrong}")[-1], "ok", "the version that leads joins once more, as its own follower")
    client.close()
    rows.same(service.operate("stop"), ["ok"], "the command stop")
    rows.same(service.process.wait(SECONDS), 0, "the status after stop")

    last = max(it for it in service.transcripts.iterdir() if not it.name.endswith(".behind"))
    right = Service(program, KEEPER[1], options=["--resume", last], folder=folder)
    rows.same(right.ask("get colour", "size"), ["not there", "7"], "the state by the right version, of the same requests and those after them")
    rows.same(right.roles(), [(KEEPER[1], "leads")], "the right version leads")
    rows.same(right.operate(f"join {KEEPER[3]}")[-1], "ok", "an update joins it")
    rows.same(right.end(), 0, "its status")
    rows.same((folder / "console").read_text(), "hello\n", "the console, once")


def breaking_and_leaving(rows, program):
    """The operator is told of a break also if the process that reports it is replaced, or killed, at once."""
    service = Service(program, KEEPER[1], KEEPER[2], options=PATIENT)
    client = service.connect()
    rows.same(client.ask("put colour green"), ["kept"], "the past")
    rows.same(service.operate("hand")[-1], "ok", "the lead is to be handed over")
    rows.same(client.ask("get colour", "drop colour", "get size", "get colour"), ["green", "dropped", "not there", "not there"], "the requests at which the version takes the lead and breaks")
    rows.same(service.operate(f"join {KEEPER[3]}")[-1], "ok", "the next version joins at once")
    rows.same(news(service), ["1 leads", "1 ended", "0 leads", "serve"], "what is told before the process is replaced")
    client.close()
    rows.same(service.end(), 0, "the status after it")

    service = Service(program, KEEPER[2], KEEPER[1], options=PATIENT)
    client = service.connect()
    rows.same(client.ask("put colour green", "get colour", "drop colour", "get size", "get colour"), ["kept", "green", "dropped", "not there", "not there"], "the requests at which the first version breaks")
    until(lambda: service.roles() == [(KEEPER[2], "ended:"), (KEEPER[1], "leads")], "the other one leads")
    os.kill(service.serving(), signal.SIGKILL)
    rows.same(client.ask("size"), ["6"], "the request after the command was killed")
    rows.same(news(service), ["0 ended", "1 leads", "begun anew"], "what is told before it is begun anew")
    client.close()
    rows.same(service.end(), 0, "the status after that")


def news(service):
    """What the operator was told so far of who ended, who leads and which process serves."""
    told = re.findall(r"^# varan-listen: (?:version (\d (?:leads|ended))|these versions (serve)|the command was ended .*(begun anew))", service.notes(), re.M)
    return ["".join(it) for it in told]


def letting_go(rows, program):
    """A follower that can't keep up holds the leader until it is let go; the others follow on, and the next of them leads after a break. Without --patience it holds it, and isn't let go."""
    requests = ["put colour green"] * 40
    words = ["--ring", "8", "--patience", "50"]
    service = Service(program, KEEPER[2], SLOW, KEEPER[1], options=PATIENT, words=words)
    client = service.connect()
    rows.same(client.ask(*requests), ["kept"] * 40, "the answers beside a slow follower")
    until(lambda: re.search(r"^# version 1 is let go: it is \d+ events behind\n# version 1 ended: left, after \d+ events$", service.transcript().read_text(), re.M), "the slow one is let go")
    until(lambda: service.roles() == [(KEEPER[2], "leads"), (SLOW, "ended:"), (KEEPER[1], "follows")], "who is left")
    rows.same(client.ask("get colour", "drop colour", "get size", "size"), ["green", "dropped", "not there", "44"], "the request at which the leader breaks, and the next")
    until(lambda: service.roles() == [(KEEPER[2], "ended:"), (SLOW, "ended:"), (KEEPER[1], "leads")], "the one that kept up leads")
    told = fates_told(service)
    rows.holds([it.split()[0] for it in told] == ["fault", "left"], "how they ended", told)
    seen = int(re.search(r"^# version 1 ended: left, after (\d+) events$", service.transcript().read_text(), re.M)[1])
    rows.holds(0 < seen < 2 * 40, "how far the slow one was", seen)
    client.close()
    transcript = service.transcript()
    rows.same(service.end(), 0, "the status")
    again = subprocess.run([program, "run", "--calls", "131072", "--hang", "100000000", "--script", transcript, KEEPER[2], KEEPER[1]], stdout=subprocess.PIPE, text=True, errors="replace").stdout
    rows.same(re.findall(r"^[01] (fault load|exited 0) ", again, re.M), ["fault load", "exited 0"], "the transcript's run without the one that was let go")

    service = Service(program, KEEPER[1], SLOW, options=PATIENT, words=["--ring", "8"])
    rows.same(service.ask(*requests[:4], "size"), ["kept"] * 4 + ["5"], "the answers beside a slow follower that isn't let go")
    until(lambda: service.roles() == [(KEEPER[1], "leads"), (SLOW, "follows")], "both are there")
    rows.same(service.end(), 0, "the status with a slow follower")


def fates_told(service):
    """How versions ended, by the transcript of the process that serves."""
    return sorted(re.findall(r"^# version \d ended: (.*), after \d+ events$", service.transcript().read_text(), re.M))


def failing(rows, program):
    """The operator is told why a run ended that a client's request broke, also where others came that it didn't take; and why one can't begin, or go on."""
    service = Service(program, KEEPER[2], options=PATIENT)
    client = service.connect()
    rows.same(client.ask("put colour green", "get colour", "drop colour"), ["kept", "green", "dropped"], "the past")
    transcript, serving, status = service.transcript(), service.serving(), service.operate("status")[0]
    stop(serving)
    client.send("get size")
    until(lambda: service.operate("status")[0] != status, "the request at which it breaks")
    other = service.connect()
    until(lambda: service.operate("status")[0].startswith("clients 2 "), "a client behind it")
    os.kill(serving, signal.SIGCONT)
    rows.same((client.lines.readline(), *other.ask("size")), ("", "1"), "the client whose request broke the run, and the one behind it, in the next run")
    rows.holds("\n# not taken: " in transcript.read_text(), "what wasn't taken stands in the transcript", transcript.read_text())
    broke = "# varan-listen: the command ended with status 1: # version 0 ended: fault load 100 "
    rows.holds(broke in service.notes(), "the operator is told why the run ended", service.notes())
    other.close()
    rows.same(service.end(), 1, "the status, with a run that broke")

    for options, words, status, why in (
            (["--resume", transcript], [], 1, broke),
            ([], ["--memory", "131072"], 4, f"# varan-listen: the command ended with status 4: # varan: input {KEEPER[2]}: no room 0\n")):
        service = Service(program, KEEPER[2], options=options, words=words)
        rows.same(service.process.wait(SECONDS), status, f"the status with {options or words}")
        rows.holds(why in service.notes(), f"the operator is told why, with {options or words}", service.notes())


def reloading(rows, program):
    """The files of the command line are other ones, and SIGHUP comes: they join, and lead. What can't join changes nothing."""
    folder = pathlib.Path(tempfile.mkdtemp(dir=Service.room))
    file = folder / "server"
    old = pathlib.Path(KEEPER[1]).read_bytes()

    def put(content):
        file.unlink(missing_ok=True)
        file.write_bytes(content)
        file.chmod(0o755)

    put(old)
    service = Service(program, str(file), options=PATIENT, folder=folder)
    rows.same(service.ask("put colour green"), ["kept"], "the past")
    asking = Asking(service.port)
    for content, why, what in (
            (old.replace(b"kept\0", b"KEPT\0"), f"SIGHUP: no: 1 {file} ended: refused 100 64 ", "files that answer the past otherwise"),
            (b"no executable", f"SIGHUP: no: the command ended with status 4: # varan: input {file}: ", "files that can't run")):
        put(content)
        service.process.send_signal(signal.SIGHUP)
        until(lambda: why in service.notes(), f"the operator is told of {what}")
        rows.same(service.roles(), [(str(file), "leads")], f"who leads after {what}")
    rows.holds(f"it says `data 0 {b'KEPT'.hex()}0a` where the service said `data 0 {b'kept'.hex()}0a`" in service.notes(), "both lines", service.notes())
    killed_once(service, asking)
    rows.same(service.roles(), [(str(file), "leads")], "the version as it was leads a process that is begun anew")
    put(old.replace(b"not there\0", b"NOT THERE\0"))
    service.process.send_signal(signal.SIGHUP)
    until(lambda: service.roles() == [(str(file), "follows"), (str(file), "leads")], "the new file leads")
    rows.holds(asking.stop(), "each request is done once across all that", asking.counts[-3:])
    rows.same(service.ask("get colour", "get size"), ["green", "NOT THERE"], "the state, by the new file")
    until(lambda: service.roles() == [(str(file), "ended:"), (str(file), "leads")], "the old file, which would have answered otherwise, is dropped")
    put(old)
    rows.same(service.operate("anew")[-1], "ok", "the command anew")
    rows.same(service.ask("get colour", "size"), ["not there", "2"], "a run that begins with nothing")
    rows.same(service.end(), 0, "the status after files were loaded anew")


def permitted(rows, program):
    """An update that answers otherwise joins by a rule, leads, and stays where a process is begun anew or another version joins."""
    folder = pathlib.Path(tempfile.mkdtemp(dir=Service.room))
    takes, other = folder / "takes", folder / "other"
    takes.write_bytes(subprocess.run([program, "rules", "--asm", HERE / "../server/takes.txt"], stdout=subprocess.PIPE, check=True).stdout)
    other.write_bytes(pathlib.Path(KEEPER[1]).read_bytes().replace(b"kept\0", b"KEPT\0"))
    other.chmod(0o755)
    service = Service(program, KEEPER[1], words=["--rules", takes], options=PATIENT, folder=folder)
    rows.same(service.ask("put colour green"), ["kept"], "the past")
    rows.same(service.operate(f"join {other}")[-1], "ok", "an update that answers otherwise joins by a rule")
    asking = Asking(service.port)
    until(lambda: len(asking.counts) > 2, "a client's counts")
    rows.same(handed(service, 1), [(KEEPER[1], "follows"), (str(other), "leads")], "it takes the lead")
    rows.holds(asking.stop(), "each request is done once across that", asking.counts[-3:])
    rows.same(service.ask("put colour blue"), ["KEPT"], "its answer")
    rows.same(service.operate(f"join {KEEPER[3]}")[-1], "ok", "another version joins, and the past has answers of both")
    rows.same(service.roles(), [(KEEPER[1], "follows"), (str(other), "leads"), (KEEPER[3], "follows")], "who leads then")
    rows.holds(any("follows (rewrites " in line for line in service.operate("status")), "a rule decided for a version that follows", service.operate("status"))
    os.kill(service.serving(), signal.SIGKILL)
    rows.same(service.ask("put colour red", "get colour"), ["KEPT", "red"], "its answer by a process that is begun anew")
    answer = service.operate("drop 0")[-1]
    rows.same(answer, f"no: it says `data 0 {b'KEPT'.hex()}0a` where the service said `data 0 {b'kept'.hex()}0a`", "the old version, whose answers the past has, leaves")
    rows.same(service.end(), 0, "the status, with a rule")


def told_metrics(rows, program):
    """What is counted, against what was asked; and the program that sends commands."""
    service = Service(program, KEEPER[1], options=PATIENT)
    ctl = [HERE / "../../service/varan-listen", "ctl", service.control]
    requests = ["put colour green", "get colour"]
    rows.same(service.ask(*requests), ["kept", "green"], "requests")
    client = service.connect()
    rows.same(client.ask("size"), ["3"], "a request of a client that stays")
    answer = subprocess.run([*ctl, "metrics"], stdout=subprocess.PIPE, text=True)
    rows.same(answer.returncode, 0, "the status of a command that is done")
    found = samples(rows, answer.stdout)
    came = sum(len(it) + 1 for it in [*requests, "size"])
    said = sum(len(it) + 1 for it in ("kept", "green", "3"))
    wanted = {"arrivals_total{kind=\"connect\"}": 2, "arrivals_total{kind=\"end\"}": 1, "said_total{kind=\"accept\"}": 2, "said_total{kind=\"close\"}": 1, "received_bytes_total": came,
              "sent_bytes_total": said, "connections": 1, "restarts_total": 0, "switches_total": 0, "hand_overs": 0, "transcript_failed": 0,
              f"version{{index=\"0\",file=\"{KEEPER[1]}\",role=\"leads\"}}": 1}
    for name, value in wanted.items():
        rows.same(found.get(f"varan_{name}"), value, f"the metric {name}")
    times = found.get("varan_arrivals_total{kind=\"time\"}", 0)
    rows.holds(1 <= times <= 2 + sum(found[f'varan_arrivals_total{{kind="{it}"}}'] for it in ("data", "end")), "how often the time was told", found)
    memory = found.get("varan_resident_memory_bytes{process=\"varan\"}", 0)
    rows.holds(1_000_000 < memory < 4_000_000_000, "the memory of the command", memory)
    rows.holds(0 < found.get("varan_uptime_seconds", 0) < 3600, "the time since it began", found)
    os.kill(service.serving(), signal.SIGKILL)
    rows.same(client.ask("size"), ["4"], "a request after the command was killed")
    rows.same(service.operate(f"join {KEEPER[3]}")[-1], "ok", "a version joins")
    found = samples(rows, "\n".join(service.operate("metrics")[:-1]))
    rows.same((found.get("varan_restarts_total"), found.get("varan_switches_total")), (1, 1), "restarts and switches")
    rows.same(found.get("varan_sent_bytes_total"), said + 2, "bytes that were said again count once")

    for words, status, said in ((["status"], 0, ""), (["hand", "over"], 1, "no: the commands are "), (["join", service.folder / "nothing"], 1, "no: the command ended with status 5: "), ([], 2, "usage: ")):
        answer = subprocess.run([*ctl, *words], stdout=subprocess.PIPE, stderr=subprocess.PIPE, text=True)
        rows.same((answer.returncode, answer.stderr[: len(said)]), (status, said), f"ctl {words}")
    absent = subprocess.run([ctl[0], "ctl", service.folder / "nothing", "status"], stderr=subprocess.PIPE, text=True)
    rows.same((absent.returncode, absent.stderr), (2, f"varan-listen: {service.folder / 'nothing'}: No such file or directory\n"), "ctl without a socket")
    watched(rows, service)
    client.close()
    rows.same(service.end(), 0, "the status after it was watched")


def samples(rows, text):
    """The samples of an exposition by name and labels. Each has a line of its kind before it."""
    kinds, found = {}, {}
    for line in text.splitlines():
        if kind := re.fullmatch(r"# TYPE ([a-z_]+) (counter|gauge)", line):
            kinds[kind[1]] = kind[2]
        elif sample := re.fullmatch(r'(([a-z_]+)(?:\{[a-z]+="[^"]*"(?:,[a-z]+="[^"]*")*\})?) ([0-9.]+)', line):
            rows.same(kinds.get(sample[2]), "counter" if sample[2].endswith("_total") else "gauge", f"the kind of {sample[2]}")
            found[sample[1]] = float(sample[3])
        else:
            rows.holds(re.fullmatch(r"# HELP [a-z_]+ .+", line), "a line of the metrics", line)
    return found


def watched(rows, service):
    """A line a second, until the operator leaves."""
    def open_ones():
        return sum(line.endswith(f" {service.control}") for line in pathlib.Path("/proc/net/unix").read_text().splitlines())

    until(lambda: open_ones() == 1, "nobody but the service has the socket open")
    with socket.socket(socket.AF_UNIX) as control:
        control.settimeout(SECONDS)
        control.connect(str(service.control))
        control.sendall(b"watch\n")
        with control.makefile() as told:
            lines = [told.readline() for _ in range(3)]
        rows.holds(all(re.fullmatch(r"uptime \d+ connections 1 clients 2 came .* leads \S+\n", line) for line in lines), "lines that are watched", lines)
        rows.same(open_ones(), 2, "connections to the socket")
    until(lambda: open_ones() == 1, "watching ends where the operator leaves")


def real_time(rows, program):
    """A server tells each request the time at which it came, whatever becomes of its process. The run of the transcript tells it again."""
    folder = pathlib.Path(tempfile.mkdtemp(dir=Service.room))
    dated = folder / "dated"
    dated.write_bytes(subprocess.run([program, "asm", HERE / "dated.s"], stdout=subprocess.PIPE, check=True).stdout)
    service = Service(program, dated, options=PATIENT, words=["--log"], folder=folder)
    client = service.connect()
    first = asked_time(rows, client, "the time of the first request")
    time.sleep(1.1)
    second = asked_time(rows, client, "the time of the second one")
    rows.holds(second[0] >= first[0] + SECOND, "a second passes between two requests", (first, second))
    os.kill(service.serving(), signal.SIGKILL)
    third = asked_time(rows, client, "the time once the command was killed")
    rows.same(service.operate(f"join {dated}")[-1], "ok", "a version joins")
    fourth = asked_time(rows, client, "the time once a version has joined")
    client.close()
    other = service.connect()
    fifth = asked_time(rows, other, "the time of the next client")
    other.close()
    rows.same(service.end(), 0, "the status of a server that tells the time")

    transcript = max(it for it in service.transcripts.iterdir() if not it.name.endswith(".behind"))
    said = transcript.read_text()
    report = subprocess.run([program, "run", "--calls", "131072", "--script", transcript, dated, dated], stdout=subprocess.PIPE).stdout
    answers = b"".join(it[1] for it in (first, second, third, fourth))
    rows.holds(report.endswith(b"connections 2\nconnection 0 8080 64\n%s\nconnection 1 8080 16\n%s\n" % (answers, fifth[1])), "what clients got, by the run of the transcript", report[-200:])
    rows.holds("\n".join([*re.findall(r"^# (\d+ \d+ .* = .*)$", said, re.M), "fates 2\n"]).encode() in report, "the log, by the run of the transcript", report)
    timeless = folder / "timeless"
    timeless.write_text(re.sub(r"(?m)^time .*\n", "", said).replace("varan-script 5", "varan-script 4", 1))
    for before in (transcript, timeless):
        resumed = Service(program, dated, options=["--resume", before], folder=folder)
        client = resumed.connect()
        asked_time(rows, client, f"the time of a service that was resumed, {before.name}")
        client.close()
        rows.same(resumed.end(), 0, "its status")


def asked_time(rows, client, what):
    """The time that a server tells a client, in nanoseconds, and the bytes that have it."""
    begun = time.time_ns()
    client.send("time")
    answer = client.socket.recv(16, socket.MSG_WAITALL)
    seconds, nanos = struct.unpack("<QQ", answer)
    told = seconds * SECOND + nanos
    rows.holds(begun - TIME_STEP < told <= time.time_ns(), what, f"{told} in place of {begun}")
    return told, answer


def one_loop(rows, program, loop=LOOP, memory=()):
    """A server with one loop lets silent clients go in its time, whatever becomes of the command meanwhile. While nobody is there nothing is told."""
    folder = pathlib.Path(tempfile.mkdtemp(dir=Service.room))
    script = folder / "script"
    script.write_text(f"varan-script 5\nclock {int(time.time())} 0 0\narg {LET_GO}\n")
    words = [*memory, "--script", script]
    service = Service(program, loop, options=ENDLESS, words=words, folder=folder)
    silent = service.connect()
    rows.same(service.ask("put colour green"), ["kept"], "a client beside a silent one")
    is_let_go(rows, silent, "a silent client")
    lines = service.operate("status")[0]
    time.sleep(1.5)
    rows.same(service.operate("status")[0], lines, "what came while nobody is there")

    silent = service.connect()
    rows.same(service.ask("get colour"), ["green"], "the next client beside a silent one")
    rows.holds(is_shown(service, "end 0"), "the end of a client that the server let go is told", "it isn't")
    os.kill(service.serving(), signal.SIGKILL)
    is_let_go(rows, silent, "a silent client of a command that is killed")
    silent = service.connect()
    rows.same(service.operate(f"join {loop} 0")[-1], "ok", "a version joins")
    is_let_go(rows, silent, "a silent client of a version that joins")
    rows.same(service.ask("size"), ["3"], "the requests")
    rows.same([line for line in service.transcript().read_text().splitlines() if "wait" in line], [], "what stands of waits in the transcript")

    transcript = service.transcript()
    service.process.kill()
    service.process.wait()
    resumed = Service(program, loop, loop, options=[*ENDLESS, "--resume", transcript], words=memory, folder=folder)
    until(lambda: "caught up" in resumed.notes(), "it catches up")
    silent = resumed.connect()
    rows.same(resumed.ask("get colour", "size"), ["green", "5"], "the state of a service that was resumed")
    is_let_go(rows, silent, "a silent client of a service that was resumed")
    silent = resumed.connect()
    rows.same(resumed.ask("size"), ["6"], "a client beside one that is silent at the end")
    rows.same(resumed.end(), 0, "the status, with a silent client at the end")
    rows.same(silent.lines.readline(), "late\n", "a client that is silent at the end")
    rows.same((folder / "console").read_text(), "6 requests\n", "what the server writes in the end")


def loop_over_select(rows, program):
    """The same over select."""
    one_loop(rows, program, SELECT_LOOP)


def loop_over_epoll(rows, program):
    """The same over epoll."""
    one_loop(rows, program, EPOLL_LOOP, STACKS)


def crowded(rows, program):
    """One loop serves more clients at once than a ppoll has descriptors, over poll, select and epoll."""
    for loop, memory in ((LOOP, []), (SELECT_LOOP, []), (EPOLL_LOOP, STACKS)):
        folder = pathlib.Path(tempfile.mkdtemp(dir=Service.room))
        script = folder / "script"
        script.write_text(f"varan-script 5\narg {SECONDS}\n")
        service = Service(program, loop, options=ENDLESS, words=[*memory, "--script", script], folder=folder)
        clients = [service.connect() for _ in range(MORE_THAN_POLLED)]
        rows.same([client.ask("size") for client in clients], [[str(it + 1)] for it in range(MORE_THAN_POLLED)], "more clients at once than a ppoll has descriptors")
        rows.same(clients[0].ask("put a b", "get a"), ["kept", "b"], "the first of them, once all are there")
        for client in clients:
            client.close()
        rows.same(service.end(), 0, "the status, once they have left")


def thread_for_each(rows, program):
    """A server with a thread for each client answers the others while one is silent, also where the update breaks, the command is killed and a version joins."""
    service = Service(program, PER_CLIENT[2], PER_CLIENT[1], options=ENDLESS, words=[*STACKS, "--log"])
    silent, one, other = service.connect(), service.connect(), service.connect()
    rows.same(one.ask("put colour green") + other.ask("get colour"), ["kept", "green"], "two clients beside a silent one")
    before = answered(service)
    rows.same(one.ask("get colour"), ["green"], "one of them again")
    until(lambda: len(events_of(service)) > len(before), "the event of a request")
    rows.same([call_of(it) for it in answered(service)[len(before):]], [PPOLL, READ, WRITE], "the calls of a request")
    rows.same(service.roles(), [(PER_CLIENT[2], "leads"), (PER_CLIENT[1], "follows")], "both versions, in step")
    rows.same(one.ask("drop colour") + other.ask("get size") + one.ask("size"), ["dropped", "not there", "6"], "the request at which the update breaks, and the next")
    until(lambda: service.roles() == [(PER_CLIENT[2], "ended:"), (PER_CLIENT[1], "leads")], "the old version leads")
    rows.holds("ended: fault load " in "\n".join(service.operate("status")), "the status tells why", service.operate("status"))

    os.kill(service.serving(), signal.SIGKILL)
    rows.same(one.ask("size"), ["7"], "a request after the command was killed")
    rows.same(service.operate(f"join {PER_CLIENT[1]}")[-1], "ok", "a version joins")
    rows.same(service.operate("hand")[-1], "ok", "the lead is to be handed over")
    rows.same(other.ask("size"), ["8"], "the request at which it is")
    until(lambda: service.roles()[1:] == [(PER_CLIENT[1], "follows"), (PER_CLIENT[1], "leads")], "the version that joined leads")
    more = [service.connect() for _ in range(AT_A_TIME - 3)]
    rows.same([client.ask("size") for client in more], [[str(9 + n)] for n in range(len(more))], "as many clients as it serves at a time")
    late = service.connect()
    late.send("size")
    rows.same(one.ask("size"), ["13"], "a client beside one too many")
    more.pop().close()
    rows.same(late.lines.readline(), "14\n", "one too many, once another one has left")
    rows.same(silent.ask("size"), ["15"], "the silent client")
    transcript = service.transcript()
    for client in (silent, one, other, late, *more):
        client.close()
    rows.same(service.end(), 0, "the status")
    again = subprocess.run([program, "run", *STACKS, "--calls", "131072", "--hang", "100000000", "--script", transcript, PER_CLIENT[2], PER_CLIENT[1]], stdout=subprocess.PIPE, text=True, errors="replace").stdout
    rows.same(re.findall(r"^[01] (fault load|exited 0) ", again, re.M), ["fault load", "exited 0"], "the fates by the run of the transcript")


def events_of(service):
    """The events of the process that serves, by its transcript."""
    return re.findall(r"^# (\d+ \d+ \d+ .* = .*)$", service.transcript().read_text(), re.M)


def call_of(event):
    return int(event.split()[2])


def answered(service):
    """The events once the last one is the write of an answer."""
    return until(lambda: call_of((events := events_of(service))[-1]) == WRITE and events, "the event of an answer")


def is_let_go(rows, client, what):
    """The client gets a line, and no more, after the server's time; the server's clock has whole seconds."""
    rows.same((client.lines.readline(), client.lines.readline()), ("late\n", ""), what)
    took = time.monotonic() - client.begun
    rows.holds(LET_GO - 1.5 <= took < LET_GO * 5, f"{what}, in its time", took)


def unheard_port(rows, program):
    """A client at a port where no guest listens."""
    for each in ((), ("--each", "1")):
        service = Service(program, KEEPER[1], ports=2, options=each)
        rows.same(service.ask("size"), ["1"], "a client beside one at a port that no guest listens at")
        with socket.create_connection(("127.0.0.1", service.ports[1])):
            time.sleep(1)
            runs = len(list(service.transcripts.iterdir()))
            rows.holds(runs <= 4, "runs for a client that nobody accepts", runs)
            rows.same(service.end(), 0, "the status, with a client that nobody accepts")
        rows.holds("no guest accepts them at port 8081" in service.notes(), "the operator is told of it", service.notes())


def nearly_all_clients(rows, program):
    """The operator is told before a run has its last client, whose state the next run lacks."""
    service = Service(program, KEEPER[1], options=("--each", "112"))
    rows.same([service.ask("size") for _ in range(100)], [[str(it + 1)] for it in range(100)], "a hundred clients of a run of 112")
    rows.holds("100 of 112 clients have come to this run" in service.notes(), "the operator is told of it", service.notes())
    rows.same([service.ask("size") for _ in range(13)][-1], ["1"], "the first client of the next run")
    rows.same(service.end(), 0, "the status, with a run after the first")


def closed_console(rows, program):
    service = Service(program, KEEPER[1], stdout=None, preexec_fn=lambda: os.close(1))
    rows.same(service.ask("say hello", "size"), ["said", "2"], "a client, with standard output closed")
    rows.same(service.ask("size"), ["3"], "the next client, with standard output closed")
    rows.same(service.end(), 6, "the status, with standard output closed")
    rows.holds("standard output: it is closed" in service.notes(), "the operator is told of it", service.notes())


def unread_console(rows, program):
    reader, writer = os.pipe()
    service = Service(program, KEEPER[1], stdout=writer)
    os.close(writer)
    rows.same(service.ask(*[f"say {LONG}"] * 200), ["said"] * 200, "a client, with a console that nobody reads")
    rows.same(service.ask("size"), ["201"], "the next client, with a console that nobody reads")
    rows.same(service.end(), 6, "the status, with a console that nobody reads")
    rows.holds("bytes wait to be read" in service.notes(), "the operator is told of it", service.notes())
    os.close(reader)


def whole_lines(rows, program):
    """Each line of the transcript and of what is said is one write, so that no comment cuts it: a message of a socket that keeps writes apart."""
    said, noted = (socket.socketpair(socket.AF_UNIX, socket.SOCK_SEQPACKET) for _ in range(2))
    lines = ["connect 8080", f"data 0 {f'put a {LONG}'.encode().hex()}0a", f"data 0 {b'get a'.hex()}0a", "end 0", "end clients"]
    with subprocess.Popen([program, "serve", "--clients", "--log", KEEPER[1]], stdin=subprocess.PIPE, stdout=said[1], stderr=noted[1], text=True) as service:
        started.append(service)
        said[1].close()
        noted[1].close()
        service.communicate("".join(f"{line}\n" for line in lines), SECONDS)
    answers = ["accept 0", f"data 0 {b'kept'.hex()}0a", f"data 0 {LONG.encode().hex()}0a", "close 0"]
    for name, ours, wanted in (("what is said", said[0], answers), ("the transcript", noted[0], ["varan-script 5", *lines])):
        with ours:
            writes = [it.decode() for it in iter(lambda ours=ours: ours.recv(65536), b"")]
        rows.same([it for it in writes if not it.startswith("# ")], [f"{it}\n" for it in wanted], f"the writes of {name}")
        rows.holds(all(it.endswith("\n") for it in writes), f"each comment of {name} is one write", writes)


def made_folder(rows, program):
    """The folder of transcripts is made, for this user alone; what is no folder is named."""
    folder = pathlib.Path(tempfile.mkdtemp(dir=Service.room))
    for path, status, told in ((folder / "new", 0, ""), (folder / "no/new", 2, "No such file or directory"), (HERE / "operating.py", 2, "File exists")):
        words = ["--transcripts", path, str(free_port()), "--", program, "serve", "--clients", KEEPER[1]]
        service = subprocess.Popen([HERE / "../../service/varan-listen", *words], stderr=subprocess.PIPE, text=True)
        started.append(service)
        until(lambda: service.poll() is not None or path.is_dir() and list(path.iterdir()), "a transcript")
        service.terminate()
        rows.same((service.wait(SECONDS), service.stderr.read()), (status, f"# varan-listen: {path}: {told}\n" if told else ""), f"the status, with the folder {path}")
    rows.same([it.stat().st_mode & 0o777 for it in folder.iterdir()], [0o700], "the rights of the folder")


def full_transcript(rows, program):
    """A file may have 4,096 bytes: the transcript ends there, and so does what is kept to begin anew."""
    service = Service(program, KEEPER[1], preexec_fn=lambda: resource.setrlimit(resource.RLIMIT_FSIZE, (4096, resource.RLIM_INFINITY)))
    for number in range(1, 4):
        rows.same(service.ask(f"put a {LONG}", "size"), ["kept", str(2 * number)], "a client, with a transcript that is full")
    until(lambda: "lacks clients that were served" in service.notes(), "the operator is told that the transcript ends")
    rows.holds("what came can't be kept: File too large" in service.notes(), "the operator is told that nothing can join", service.notes())
    rows.holds("could not be written" in service.operate("status")[1], "the status of a transcript that is full", service.operate("status"))
    rows.same(service.operate(f"join {KEEPER[3]}"), ["no: what came or was said isn't whole"], "nothing joins")
    rows.same(service.end(), 6, "the status, with a transcript that is full")


def cut_answers(rows, program):
    """A client gets whatever a run writes to it, unless it reads nothing; and one is in the middle of its answers where the run comes to its limit of calls."""
    service = Service(program, KEEPER[1], options=PATIENT)
    client = service.connect()
    rows.same(client.ask(f"put a {LONG}"), ["kept"], "a long value")
    count = MOST_OF_FORM_4 // len(LONG) + 10
    client.send(*["get a"] * count)
    rows.same(received(client), (count * len(f"{LONG}\n"), False), "bytes to a client, and whether it is reset")
    client = Connection(service.port, SMALL)
    client.send(*["get a"] * (2 * MOST_UNREAD // len(LONG)))
    told = f"client 1 has more than {MOST_UNREAD:,} bytes to read, and is reset"
    until(lambda: told in service.notes(), "the operator is told of a client that doesn't read")
    rows.holds(received(client)[1], "a client that doesn't read is reset", "it isn't")
    rows.same(service.ask("get a"), [LONG], "the next client")
    rows.same(service.end(), 0, "the status, with a client that was reset")

    service = Service(program, KEEPER[1], words=["--calls", "100"])
    client = service.connect()
    client.send(*["size"] * 200)
    _, is_reset = received(client)
    rows.holds(is_reset, "a client is reset where its run comes to a limit", "it isn't")
    until(lambda: "command ended with status 1" in service.notes(), "the end of the run")
    rows.same(service.operate(f"join {KEEPER[3]}"), ["no: the run has ended, and the next client begins one"], "nothing joins a run that has ended")
    rows.same(service.roles(), [(KEEPER[1], "ended:")], "the status of a run that has ended")
    rows.same(service.ask("size"), ["1"], "the next run")
    rows.holds("1 clients get no more: the command ended with status 1, at a limit" in service.notes(), "the operator is told of it", service.notes())
    rows.same(service.end(), 1, "the status, with a run that came to a limit")


def received(client):
    """How many bytes a client gets, and whether its connection is reset then."""
    with contextlib.suppress(OSError):  # (it may be reset already)
        client.socket.shutdown(socket.SHUT_WR)
    size = 0
    try:
        while piece := client.socket.recv(65536):
            size += len(piece)
    except ConnectionResetError:
        return size, True
    return size, False


started = []
TRIED = (joining, silent_client, handing, falling_back, wrong_answer, breaking_and_leaving, letting_go, failing, reloading, permitted, told_metrics, killed_command, killed_all, resuming, left_copies, real_time, one_loop, loop_over_select, loop_over_epoll, crowded, thread_for_each, nearly_all_clients, unheard_port, closed_console, unread_console, whole_lines, made_folder, full_transcript, cut_answers)


def main():
    program, *names = sys.argv[1:]
    rows = Rows()
    with tempfile.TemporaryDirectory() as room:
        Service.room = room
        try:
            for tried in TRIED:
                if not names or tried.__name__ in names:
                    tried(rows, os.path.realpath(program))
        finally:
            for process in started:
                if process.poll() is None:
                    process.kill()
    waits = ", ".join(f"{name} {1000 * wait:.0f} ms" for name, wait in rows.waits.items())
    print(f"operating.py: {rows.count} rows, {rows.wrong} wrong; a client's longest wait: {waits}")
    return int(rows.wrong > 0)


if __name__ == "__main__":
    sys.exit(main())
