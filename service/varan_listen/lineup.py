"""What a process begins with: its versions in the order in which they lead, its script, and the operator's words `hand`.

A new lineup is made of members: a number is that version of the process that serves; the others are new. Who led the past stays so where that can be
(`kept`). Else what was handed over isn't handed over again, and the first member leads from the beginning (`reordered`).
"""
import dataclasses

from varan_listen.files import Script, Version

MOST_VERSIONS = MOST_HANDS = 8


class Refused(Exception):
    """Why a command isn't done."""


@dataclasses.dataclass
class Lineup:
    versions: list[Version]
    script: Script
    hands: list[int] = dataclasses.field(default_factory=list)  # the places of the words in what came
    before: list[int | None] = dataclasses.field(default_factory=list)  # of each version its number in the process that serves, None of a new one
    is_trial: bool = False  # the process is heard, and never serves


def of_members(process, members, script, hands):
    versions = [process.versions[it] if isinstance(it, int) else it for it in members]
    return Lineup(versions, script, hands, [it if isinstance(it, int) else None for it in members])


def kept(process, members):
    return of_members(process, members, process.lineup.script, list(process.lineup.hands))


def reordered(process, files, members):
    transcript = process.transcript
    script = files.without(process.lineup.script, [it for it in transcript.hands if it in transcript.leads])
    return of_members(process, members, script, process.lineup.hands[process.obeyed() :])


def alone(process):
    """The first new version of a process that made another call than the log has, by itself; or None."""
    ends = process.transcript.ends
    refused = (version for number, version in enumerate(process.versions) if process.lineup.before[number] is None and ends.get(number, "").startswith("refused "))
    version = next(refused, None)
    return version and Lineup([version], process.lineup.script, [], [None], True)


def number_of(text, most):
    """A number up to this one."""
    if not text.isdigit() or int(text) > most:
        raise Refused(f"INDEX is from 0 to {most}: {text}")
    return int(text)


def joined(process, files, name, text=None):
    """The versions of a process and this one, behind the followers that haven't led, or at this place of the order in which they lead."""
    count = len(process.versions)
    if count == MOST_VERSIONS:
        raise Refused(f"there are {MOST_VERSIONS} versions: drop one first")
    process.transcript.learn()
    order, ended = process.transcript.order, sorted(process.transcript.ends)
    place = place_of_new(process.transcript) if text is None else number_of(text, len(order))
    at = place_in_list(process.transcript, count, place)
    new = files.version(name)
    if at is None:
        return reordered(process, files, [*order[:place], new, *order[place:], *ended])
    return kept(process, [*range(at), new, *range(at, count)])


def place_of_new(transcript):
    """The place of the order behind the leader and the followers that haven't led."""
    led = transcript.leads.values()
    return next((place for place, it in enumerate(transcript.order) if place and it in led), len(transcript.order))


def place_in_list(transcript, count, place):
    """The place of the list for a new version at this place of the order, if each leader leads as it did then; else None. Those that gave up the lead come round behind it."""
    coming = [it for it in transcript.order if it > transcript.leader()]
    if place == 0 or place > 1 + len(coming) or not transcript.leads_in_order():
        return None
    return count if place == 1 + len(coming) else coming[place - 1]


def dropped(process, files, text):
    """The versions of a process without this one. Where it led, the next one leads."""
    count = len(process.versions)
    number = number_of(text, count - 1)
    if count == 1:
        raise Refused("it is the only version")
    process.transcript.learn()
    order, ended = process.transcript.order, sorted(process.transcript.ends)
    if number in process.transcript.leads.values():
        return reordered(process, files, [it for it in [*order, *ended] if it != number])
    return kept(process, [it for it in range(count) if it != number])


def renewed(process, files, names):
    """The version that leads, and behind it these files as they are now."""
    if len(names) == MOST_VERSIONS:
        raise Refused(f"{MOST_VERSIONS} files leave no place for the version that leads")
    process.transcript.learn()
    return reordered(process, files, [*process.transcript.order[:1], *map(files.version, names)])
