#!/usr/bin/env python3
"""Draws a run as an SVG picture: the calls of the log in rows by their names, and below them a lane for each version, over the same places of the log.

    varan run --json .. | timeline.py [NAME ..] > PICTURE.svg

NAME .. are the versions' names in their order; without them they are numbered. docs/REPORT.md has the report's JSON form. A lane shows what the version led (thick), what it followed (thin), and where and how it
ended; how many of its calls rules rewrote is told at its end, since a report doesn't say which. A log of more events than there are columns is drawn in bins of as many events each: there the height of a
mark is the share of its call.
Status: 0 where the picture is written; 1 where standard input is no such report, which is told on standard error, as is a line by which `varan` refuses its words or a file.
"""
import collections
import json
import sys
from xml.sax.saxutils import escape

NAMES = {
    17: "getcwd", 23: "dup", 24: "dup3", 29: "ioctl", 35: "unlinkat", 56: "openat", 57: "close", 59: "pipe2", 62: "_llseek", 63: "read", 64: "write", 65: "readv", 66: "writev",
    93: "exit", 94: "exit_group", 160: "uname", 172: "getpid", 173: "getppid", 174: "getuid", 175: "geteuid", 176: "getgid", 177: "getegid", 198: "socket", 200: "bind", 201: "listen",
    202: "accept", 220: "clone", 242: "accept4", 278: "getrandom", 403: "clock_gettime64",
}
OTHER = "other"

# In pixels.
LEFT, WIDTH, RIGHT = 120, 680, 300
MARGIN, ROW, MARK, LANE, AXIS, LEGEND = 14, 14, 10, 40, 34, 24
MOST_COLUMNS = 340
# Of a digit on the axis, and at least as much between two numbers.
DIGIT = 7

STYLE = """text{font:12px sans-serif}.small{font-size:11px}.right{text-anchor:end}.middle{text-anchor:middle}.bold{font-weight:bold}
.grid{stroke:#bbb;stroke-width:.5}.guide{stroke:#000;stroke-width:.7;stroke-dasharray:2 3}.thin{stroke:#000;stroke-width:1.5}.end{stroke:#000;stroke-width:2;fill:#fff}.halo{stroke:#fff;stroke-width:6}.failed{fill:#fff;stroke:#000;stroke-width:1}"""


class Picture:
    def __init__(self):
        self.parts = []

    def line(self, x1, y1, x2, y2, name):
        self.parts.append(f'<line x1="{x1:.1f}" y1="{y1:.1f}" x2="{x2:.1f}" y2="{y2:.1f}" class="{name}"/>')

    def box(self, x, y, width, height, name=None):
        kind = "" if name is None else f' class="{name}"'
        self.parts.append(f'<rect x="{x:.1f}" y="{y:.1f}" width="{width:.1f}" height="{height:.1f}"{kind}/>')

    def path(self, way, name):
        self.parts.append(f'<path d="{way}" class="{name}"/>')

    def text(self, x, y, words, name=None):
        kind = "" if name is None else f' class="{name}"'
        self.parts.append(f'<text x="{x:.1f}" y="{y:.1f}"{kind}>{escape(words)}</text>')

    def end(self, fate, x, y):
        """The mark of how a version ended."""
        if fate == "exited":
            self.line(x, y - 9, x, y + 9, "end")
        elif fate == "fault":
            cross = f"M{x - 7:.1f} {y - 7:.1f}l14 14m0 -14l-14 14"
            self.path(cross, "halo")
            self.path(cross, "end")
        elif fate == "refused":
            self.path(f"M{x - 7:.1f} {y - 6:.1f}h14l-7 13z", "end")
        else:
            self.box(x - 5, y - 5, 10, 10, "end")

    def whole(self, width, height, title):
        head = f'<svg xmlns="http://www.w3.org/2000/svg" width="{width}" height="{height}" viewBox="0 0 {width} {height}" role="img">'
        return "\n".join([head, f"<title>{escape(title)}</title>", f"<style>{STYLE}</style>", f'<rect width="{width}" height="{height}" fill="#fff"/>', *self.parts, "</svg>"])


def name_of(event):
    return NAMES.get(event["nr"], OTHER)


def ending(version):
    """How a version ended, in words."""
    fate = version["fate"]
    if fate == "exited":
        return f"exited {version['code']}"
    if fate == "fault":
        return f"fault {version['kind']} at {version['pc']}"
    if fate == "refused":
        return f"parted: {NAMES.get(version['nr'], version['nr'])} at event {version['stamp']}"
    return "no memory"


def lead(spans):
    if not spans:
        return "never led"
    if len(spans) < 3:
        return "led " + ", ".join(f"{a}-{b}" for a, b in spans)
    return f"led {sum(b - a for a, b in spans)} in {len(spans)} parts"


def counts(version):
    rewrites = f", rewrites {version['rewrites']}" if version["rewrites"] else ""
    return f"seen {version['seen']}, {lead(version['led'])}{rewrites}"


def marks_on_axis(length, versions):
    """The places where the leader changes or a version ends before the log does."""
    places = {place for version in versions for span in version["led"] for place in span}
    places |= {version["seen"] for version in versions}
    return sorted(places - {0, length})


def round_places(length):
    """The ends of the axis, and at most nine round numbers between."""
    step = next(unit * 10**power for power in range(6) for unit in (1, 2, 5) if length <= 10 * unit * 10**power)
    return [0, *range(step, length, step), length]


def draw_calls(picture, log, at, columns, top):
    """The rows of calls, in the order in which the calls first come. Tells how far down they go."""
    filled = 1 if columns < len(log) else 0.8
    rows = list(dict.fromkeys(map(name_of, log)))
    for number, name in enumerate(rows):
        middle = top + ROW * number + ROW / 2
        picture.text(LEFT - 8, middle + 4, name, "right small")
        picture.line(LEFT, middle, LEFT + WIDTH, middle, "grid")
    for column in range(columns):
        first, end = len(log) * column // columns, len(log) * (column + 1) // columns
        failed = end - first == 1 and log[first]["ret"] < 0
        for name, count in collections.Counter(map(name_of, log[first:end])).items():
            middle = top + ROW * rows.index(name) + ROW / 2
            height = max(MARK * count / (end - first), 1)
            picture.box(at(first), middle - height / 2, (at(end) - at(first)) * filled, height, "failed" if failed else None)
    return top + ROW * len(rows)


def draw_lane(picture, version, name, at, top):
    middle = top + LANE / 2
    picture.text(LEFT - 8, middle + 4, name, "right bold")
    picture.line(at(0), middle, at(version["seen"]), middle, "thin")
    for a, b in version["led"]:
        picture.box(at(a), middle - 6, at(b) - at(a), 12)
    picture.end(version["fate"], at(version["seen"]), middle)
    picture.text(LEFT + WIDTH + 16, middle - 2, ending(version))
    picture.text(LEFT + WIDTH + 16, middle + 13, counts(version), "small")


def draw_axis(picture, length, places, at, top, bottom):
    taken = []
    for place in places:
        picture.line(at(place), top, at(place), bottom, "guide")
    for place, name in [*((place, "middle bold") for place in places), *((place, "middle small") for place in reversed(round_places(length)))]:
        half = DIGIT * (len(str(place)) + 1) / 2
        if all(abs(at(place) - x) >= half + other for x, other in taken):
            taken.append((at(place), half))
            picture.line(at(place), bottom, at(place), bottom + 4, "thin")
            picture.text(at(place), bottom + 17, str(place), name)
    picture.line(LEFT, bottom, LEFT + WIDTH, bottom, "thin")
    picture.text(LEFT - 24, bottom + 17, "events", "right small")


def draw_legend(picture, fates, is_binned, has_failed, y):
    x = LEFT
    for words, width in [("leads", 70), ("follows", 80)]:
        picture.line(x, y, x + 24, y, "thin")
        if words == "leads":
            picture.box(x, y - 6, 24, 12)
        picture.text(x + 30, y + 4, words, "small")
        x += width
    for fate, words, width in [("exited", "exited", 65), ("fault", "broke", 60), ("refused", "parted", 65), ("memory", "no memory", 90)]:
        if fate in fates:
            picture.end(fate, x + 6, y)
            picture.text(x + 18, y + 4, words, "small")
            x += width
    if is_binned:
        picture.text(x, y + 4, "height of a mark: share of the call", "small")
    elif has_failed:
        picture.box(x, y - 5, 6, MARK, "failed")
        picture.text(x + 12, y + 4, "call that failed", "small")


def draw(report, names):
    log, versions = report["log"], report["fates"]
    length, columns = len(log), min(len(log), MOST_COLUMNS)

    def at(place):
        return LEFT + WIDTH * place / max(length, 1)

    picture = Picture()
    lanes = draw_calls(picture, log, at, columns, MARGIN) + MARGIN / 2
    bottom = lanes + LANE * len(versions)
    draw_axis(picture, length, marks_on_axis(length, versions), at, MARGIN, bottom)
    for number, version in enumerate(versions):
        draw_lane(picture, version, names[number] if number < len(names) else f"version {number}", at, lanes + LANE * number)
    fates = {version["fate"] for version in versions}
    draw_legend(picture, fates, columns < length, any(event["ret"] < 0 for event in log), bottom + AXIS + 4)
    return picture.whole(LEFT + WIDTH + RIGHT, round(bottom + AXIS + LEGEND), f"{len(versions)} versions over {length} events")


def report_of(text):
    """The report in a text; None where it is none, which is told."""
    refused = [line for line in text.splitlines() if line.startswith("varan: ")]
    if refused:
        print(*refused, sep="\n", file=sys.stderr)
        return None
    try:
        report = json.loads(text)
    except ValueError as error:
        print(f"timeline.py: standard input is no report in JSON (varan run --json ..): {error}", file=sys.stderr)
        return None
    if not isinstance(report, dict) or not {"log", "fates"} <= report.keys():
        print("timeline.py: standard input is no report of `varan run --json`: it has no log or no fates", file=sys.stderr)
        return None
    return report


def main():
    report = report_of(sys.stdin.read())
    if report is None:
        return 1
    print(draw(report, sys.argv[1:]))
    return 0


if __name__ == "__main__":
    sys.exit(main())
