"""mediainfo's trace: it has every chunk at its place."""

import re
from bisect import bisect_left

from given import time
from tools import run

TRACE = "mediainfo trace"

OCCUPIED = re.compile(rb"^([0-9A-F]+) .*\((\d+) bytes\)$")
NAME = re.compile(rb"^([0-9A-F]+) +Name: +(.{4})$")
SIZE = re.compile(rb"^([0-9A-F]+) +Size: +(\d+) ")
VALUE = re.compile(rb"^([0-9A-F]+)  +(\w+): +(.*)$")
COMPLAINT = re.compile(rb"^([0-9A-F]+) .*(wrong|error|problem|truncated|invalid)", re.IGNORECASE)


def check(given, form, findings):
    status, out, errors = run("mediainfo", "--Details=1", given.path)
    if status != 0:
        findings.unlike(TRACE, errors.decode(errors="replace"))
        return
    lines = out.split(b"\n")
    frames = form.named(b"DSTF") + form.named(b"DSTC")
    chunks = [chunk for chunk in form.all() if chunk not in frames]
    wanted = [(chunk.place, chunk.name, chunk.size, chunk.end - chunk.place) for chunk in chunks]
    traced = list(_traced(lines))
    if form.inside[-1].name == b"DST ":
        # Where it stops before the sound, what FRM8 and DST occupy ends there.
        findings.cannot(TRACE, "m2")
        traced, wanted = ([_of_shown(*chunk) for chunk in chunks] for chunks in (traced, wanted))
    findings.check(TRACE, "chunks", traced, wanted)
    if frames:
        findings.cannot(TRACE, "m1")
    _complaints(form, lines, findings)
    _times(given, form, lines, findings)


def _traced(lines):
    """Place, name, size and occupied bytes of each chunk of the trace."""
    for before, header, first, second in zip(lines, lines[1:], lines[2:], lines[3:]):
        name, size, occupied = NAME.match(first), SIZE.match(second), OCCUPIED.match(before)
        if b" Header (" in header and name and size and occupied:
            place = int(name[1], 16)
            if place == int(occupied[1], 16) and place + 4 == int(size[1], 16):
                yield place, name[2], int(size[2]), int(occupied[2])


def _of_shown(place, name, size, occupied):
    return place, name, size, None if name in (b"FRM8", b"DST ") else occupied


def _complaints(form, lines, findings):
    """A complaint at the pad of an odd chunk, or right behind it, is its own."""
    pads = {place for chunk in form.all() if chunk.pad for place in (chunk.end - 1, chunk.end)}
    places = [(int(match[1], 16), match[0]) for match in map(COMPLAINT.match, lines) if match]
    for place, line in places:
        if b"Size is wrong" in line and place in pads:
            findings.fault(TRACE, "M1")
        else:
            findings.unlike(TRACE, line.decode("latin-1"))


def _times(given, form, lines, findings):
    """The values of ABSS and of MARK."""
    values = [(int(match[1], 16), match[2].decode(), match[3]) for match in map(VALUE.match, lines) if match]
    values.sort(key=lambda value: value[0])
    places = [place for place, _, _ in values]

    def inside(chunk):
        start, end = bisect_left(places, chunk.data_place), bisect_left(places, chunk.end)
        return {key: value for _, key, value in values[start:end]}

    def clock(numbers):
        return dict(zip(["hours", "minutes", "seconds", "samples"], numbers))

    if given.start() is not None:
        found = {key: _number(value) for key, value in inside(form.one(b"ABSS")).items()}
        findings.check(TRACE, "start", found, clock(time(given.start())))
    marks, markers = form.named(b"MARK"), list(given.markers())
    for mark, (at, kind, flags, text) in zip(marks, markers):
        found = inside(mark)
        shown = found.pop("markerText", b"")
        numbers = {"offset": 0, "markType": kind, "markChannel": 0, "TrackFlags": flags, "count": len(text)}
        found = {key: _number(value) for key, value in found.items() if key in {**clock(at), **numbers}}
        findings.check(TRACE, "marker", (found, shown), ({**clock(at), **numbers}, text))


def _number(value):
    return int(value.split(b" ")[0])
