"""What reports and transcripts say (docs/REPORT.md, docs/LIVE.md), for programs.py."""
import dataclasses
import re


@dataclasses.dataclass
class Report:
    """A report: what clients got, or what was written where there are none, the log's lines, and the fates."""

    got: list
    log: list
    fates: list

    @property
    def events(self):
        return len(self.log)


def read_report(text):
    size = int(text.split(b"\n", 1)[0].split()[1])
    start = text.index(b"\n") + 1
    output, rest = text[start : start + size], text[start + size + 1 :]
    rest = rest.partition(b"\n")[2]
    lines, _, rest = rest.partition(b"fates ")
    count, _, rest = rest.partition(b"\n")
    fates = []
    for _ in range(int(count)):
        fate, _, rest = rest.partition(b"\n")
        fates.append(fate.decode().split(" ", 1)[1])
    got = []
    if rest.startswith(b"connections"):
        rest = rest.partition(b"\n")[2]
        while rest:
            line, _, rest = rest.partition(b"\n")
            size = int(line.split()[3])
            got.append(rest[:size])
            rest = rest[size + 1 :]
    return Report(got or [output], lines.decode().splitlines(), fates)


@dataclasses.dataclass
class Told:
    """What a live run told its operator: each event, how each version ended after how many, and who led on from which."""

    log: list
    ends: dict
    leads: list


def read_transcript(text):
    ends = re.findall(r"^# version (\d) ended: (.*), after (\d+) events$", text, re.M)
    leads = re.findall(r"^# version (\d) leads from event (\d+)$", text, re.M)
    return Told(
        re.findall(r"^# (\d+ \d+ .* = .*)$", text, re.M),
        {int(version): f"{fate} seen {seen}" for version, fate, seen in ends},
        [(int(version), int(event)) for version, event in leads],
    )
