"""What the operator's machines read: counts of a service in Prometheus' text exposition format, and as one line."""
import dataclasses
import os
import time

PAGE = os.sysconf("SC_PAGE_SIZE")
ARRIVALS = ("connect", "data", "end", "time")
SAID = ("accept", "data", "close", "output")


@dataclasses.dataclass
class Counts:
    """Of a service, from its beginning."""

    begun: float = dataclasses.field(default_factory=time.monotonic)
    connections: int = 0  # that are open
    came: dict[str, int] = dataclasses.field(default_factory=lambda: dict.fromkeys(ARRIVALS, 0))  # lines by their first word
    said: dict[str, int] = dataclasses.field(default_factory=lambda: dict.fromkeys(SAID, 0))
    received: int = 0  # bytes of clients
    sent: int = 0  # bytes to clients
    restarts: int = 0
    switches: int = 0  # by which a process took another one's place
    refusals: int = 0  # of processes that didn't

    def uptime(self):
        return time.monotonic() - self.begun


def memory_of(process):
    """The bytes of a process that are in memory; None where it is gone."""
    try:
        with open(f"/proc/{process}/statm", "rb") as it:
            return int(it.read().split()[1]) * PAGE
    except (OSError, IndexError):
        return None


def labelled(**labels):
    texts = {name: str(value).replace("\\", r"\\").replace('"', r"\"").replace("\n", r"\n") for name, value in labels.items()}
    return "{" + ",".join(f'{name}="{text}"' for name, text in texts.items()) + "}"


def family(name, kind, text, samples):
    """The lines of a metric, each sample with its labels."""
    yield f"# HELP varan_{name} {text}"
    yield f"# TYPE varan_{name} {kind}"
    for labels, value in samples:
        yield f"varan_{name}{labels} {value}"


def versions_of(run):
    """Of each version a sample with its role: leads, follows or ended."""
    process = run.serving
    for number, role in enumerate(process.transcript.roles(len(process.versions))):
        yield labelled(index=number, file=process.versions[number], role=role.split()[0].rstrip(":")), 1


def rewrites_of(run):
    """Of each version for which a rule decided, how often it was last reported: the first time, the tenth, and so on."""
    process = run.serving
    return [(labelled(index=number, file=process.versions[number]), count) for number, count in sorted(process.transcript.rewrites.items())]


def lags_of(run):
    """How many lines a process that catches up has still to say or to take."""
    behind = [it for it in (run.joining, run.serving) if it and it.is_behind]
    return [(labelled(process="joining" if it is run.joining else "serving"), run.lag(it)) for it in behind]


def memories_of(run):
    processes = {"varan": run.serving.process.pid, "varan-listen": os.getpid(), **({"joining": run.joining.process.pid} if run.joining else {})}
    return [(labelled(process=name), size) for name, size in ((name, memory_of(it)) for name, it in processes.items()) if size is not None]


def exposition(run, counts):
    """All that is counted, a line each."""
    yield from family("uptime_seconds", "gauge", "Seconds since the service began.", [("", f"{counts.uptime():.3f}")])
    yield from family("arrivals_total", "counter", "Lines that the guests were told, by kind.", [(labelled(kind=it), counts.came[it]) for it in ARRIVALS])
    yield from family("said_total", "counter", "Lines that the guests said, by kind.", [(labelled(kind=it), counts.said[it]) for it in SAID])
    yield from family("received_bytes_total", "counter", "Bytes that came from clients.", [("", counts.received)])
    yield from family("sent_bytes_total", "counter", "Bytes that were sent to clients.", [("", counts.sent)])
    yield from family("connections", "gauge", "Connections that are open.", [("", counts.connections)])
    yield from family("restarts_total", "counter", "Processes that were killed and begun anew.", [("", counts.restarts)])
    yield from family("switches_total", "counter", "Processes that took another one's place, with versions that joined or left.", [("", counts.switches)])
    yield from family("refusals_total", "counter", "Processes that were to take another one's place and were given up.", [("", counts.refusals)])
    yield from family("hand_overs", "gauge", "Planned lengths and hand-overs of the process that serves.", [("", len(run.serving.transcript.hands))])
    yield from family("version", "gauge", "The versions of the process that serves, by role.", versions_of(run))
    yield from family("rewrites", "gauge", "Decisions of rules for a version, as the command last reported them.", rewrites_of(run))
    yield from family("lag_lines", "gauge", "Lines that a process which catches up has still to say, or to take where it isn't known what was said.", lags_of(run))
    yield from family("run_ended", "gauge", "1 if the run has ended, and its state is gone: the next client begins one.", [("", int(run.ended.done()))])
    yield from family("transcript_failed", "gauge", "1 where a line of the transcript couldn't be written.", [("", int(run.serving.transcript.has_failed))])
    yield from family("resident_memory_bytes", "gauge", "Memory of the processes.", memories_of(run))


def line(run, counts):
    """The same in short."""
    numbers = {
        "uptime": f"{counts.uptime():.0f}", "connections": counts.connections, "clients": counts.came["connect"], "came": sum(counts.came.values()), "said": sum(counts.said.values()),
        "received": counts.received, "sent": counts.sent, "restarts": counts.restarts, "memory": memory_of(run.serving.process.pid) or 0}
    roles = run.serving.transcript.roles(len(run.serving.versions))
    leads = next((str(version) for version, role in zip(run.serving.versions, roles) if role == "leads"), "-")
    return " ".join(f"{name} {value}" for name, value in {**numbers, "leads": leads}.items())
