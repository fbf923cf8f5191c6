"""The case language of the harness: reading it and writing it.

A case is a line `case NAME`, lines of a key and its values, and a line `end`; what a case leaves out has the
original's default. The harness answers each case by a block of the same form. Bytes are in hexadecimal: `.` is none,
`41*5` repeats, `00*9+01` joins. A text is the bytes of its UTF-8, `-` if it is absent.
"""

from dataclasses import dataclass, field
from typing import NamedTuple


class BadFile(Exception):
    """A file of cases or answers that is not in the language."""


class Track(NamedTuple):
    start: int
    duration: int
    title: str | None


class Marker(NamedTuple):
    frame: int
    kind: int
    flags: int
    text: bytes


class Comment(NamedTuple):
    year: int
    month: int
    day: int
    hour: int
    minutes: int
    kind: int
    reference: int
    text: str


class Ask(NamedTuple):
    """A read or a query of an accepted file."""

    kind: str
    offset: int
    length: int


@dataclass
class Case:
    """The inputs of one case, under the names of the case language where it has one."""

    kind: str = "dsd"
    channels: int = 2
    config: int = 0
    playtime: int = 1
    first: int = 0
    end: int = 1
    tracks: list[Track] = field(default_factory=list)
    source_track: int | None = None
    property_order: tuple[str, ...] = ("fs", "chnl", "cmpr", "abss", "lsco")
    local_order: tuple[str, ...] = ("prop", "comt", "diin", "sound", "dsti")
    info_order: tuple[str, ...] = ("emid", "mark", "diar", "diti")
    channel_numbers: tuple[int, ...] | None = None
    unspecified_lsco: bool = False
    lsco: bool = True
    absolute_start: int | None = None
    dst_crc: bool = False
    dst_index: bool = True
    dst_index_offset: str = "header"
    edited_master: bool = False
    info: bool = False
    emid: bytes = b""
    emid_written: bool = True
    custom_markers: list[Marker] | None = None
    source_track_markers: bool = False
    clipped_program: bool = False
    marker_text: str = "empty"
    text_pad_counted: bool = False
    tags: dict[str, str] = field(default_factory=dict)
    artist_title: str = "unset"
    artist_title_source: str = "album"
    comments: list[Comment] = field(default_factory=list)
    replacement: int | None = ord("?")
    empty_text: bool = False
    empty_info: bool = True
    departures: tuple[str, ...] = ()
    callers: list[tuple[bytes, bytes]] = field(default_factory=list)
    lengths: list[int] = field(default_factory=list)
    seed: int = 0
    content: dict[int, bytes] = field(default_factory=dict)
    dst: dict[int, bytes] = field(default_factory=dict)
    asks: list[Ask] = field(default_factory=list)


# Words

def to_hex(data):
    return data.hex() or "."


def from_hex(word):
    if word == ".":
        return b""
    parts = []
    for part in word.split("+"):
        digits, _, count = part.partition("*")
        parts.append(bytes.fromhex(digits) * int(count or 1))
    return b"".join(parts)


def text_or_none(word):
    return None if word == "-" else from_hex(word).decode("utf-8")


def flag(word):
    return {"0": False, "1": True}[word]


def number_or_none(word):
    return None if word == "none" else int(word)


def names(word):
    return () if word == "-" else tuple(word.split(","))


def numbers_or_none(word):
    return None if word == "none" else tuple(int(name) for name in names(word))


# Lines

def set_range(case, values):
    case.first, case.end = int(values[0]), int(values[1])


def add_track(case, values):
    title = text_or_none(values[2]) if len(values) > 2 else None
    case.tracks.append(Track(int(values[0]), int(values[1]), title))


def choose_markers(case, values):
    case.custom_markers = {"toc": None, "custom": []}[values[0]]


def add_marker(case, values):
    if case.custom_markers is None:
        case.custom_markers = []
    frame, kind, flags = (int(value) for value in values[:3])
    case.custom_markers.append(Marker(frame, kind, flags, from_hex(values[3])))


def set_tag(case, values):
    text = text_or_none(values[1])
    if text is not None:
        case.tags[values[0]] = text


def add_comments(case, values):
    comment = Comment(*(int(value) for value in values[:7]), text_or_none(values[7]) or "")
    count = int(values[8]) if len(values) > 8 else 1
    case.comments += [comment] * count


def add_caller(case, values):
    case.callers.append((from_hex(values[0]), from_hex(values[1])))


def add_lengths(case, values):
    for part in names(values[0]):
        length, _, count = part.partition("x")
        case.lengths += [int(length)] * int(count or 1)


def lend_content(case, values):
    case.content[int(values[0])] = from_hex(values[1])


def lend_dst(case, values):
    case.dst[int(values[0])] = from_hex(values[1])


def add_read(case, values):
    case.asks.append(Ask("read", int(values[0]), int(values[1])))


def add_query(case, values):
    case.asks.append(Ask("query", int(values[0]), int(values[1])))


# Keys that set the field of the same name from one word.
FIELDS = {
    "kind": str,
    "channels": int,
    "config": int,
    "playtime": int,
    "source_track": number_or_none,
    "property_order": names,
    "local_order": names,
    "info_order": names,
    "channel_numbers": numbers_or_none,
    "unspecified_lsco": flag,
    "lsco": flag,
    "absolute_start": number_or_none,
    "dst_crc": flag,
    "dst_index": flag,
    "dst_index_offset": str,
    "edited_master": flag,
    "info": flag,
    "emid": from_hex,
    "emid_written": flag,
    "source_track_markers": flag,
    "clipped_program": flag,
    "marker_text": str,
    "text_pad_counted": flag,
    "artist_title": str,
    "artist_title_source": str,
    "replacement": number_or_none,
    "empty_text": flag,
    "empty_info": flag,
    "departures": names,
    "seed": int,
}

# Keys of several words, or of several lines.
LINES = {
    "range": set_range,
    "track": add_track,
    "markers": choose_markers,
    "marker": add_marker,
    "tag": set_tag,
    "comment": add_comments,
    "caller": add_caller,
    "lengths": add_lengths,
    "content": lend_content,
    "dst": lend_dst,
    "read": add_read,
    "query": add_query,
}


def parse_case(lines):
    """The inputs that the lines between `case NAME` and `end` describe."""
    case = Case()
    for line in lines:
        key, *values = line.split()
        if key in FIELDS:
            setattr(case, key, FIELDS[key](values[0]))
        elif key in LINES:
            LINES[key](case, values)
        else:
            raise BadFile(f"unknown key: {line[:80]}")
    return case


def write_case(name, lines):
    return "\n".join([f"case {name}", *lines, "end", ""])


def read_blocks(stream):
    """Yields (NAME, lines) for each `case NAME` ... `end`, in a file of cases or of answers."""
    name = None
    lines = []
    for line in stream:
        line = line.rstrip("\n")
        if name is None and line.startswith("case "):
            name = line.removeprefix("case ")
            lines = []
        elif name is not None and line == "end":
            yield name, lines
            name = None
        elif name is not None:
            lines.append(line)
        else:
            raise BadFile(f"a line outside any case: {line[:80]}")
    if name is not None:
        raise BadFile(f"case {name} has no end")
