"""Document 01's rules for a build, written from its text: the refusals 1 to 39 in their order, and the bytes. Of texts
and tracks 01 has other limits in 1, and of tracks none in 17; here 1 is of a text of more than 1,048,576 values and of
more than 65,535 tracks, and 17 also of more than 255 (document 02).

What the case language cannot say is not here: pools (2), values that are no scalars (3), lengths given for DSD (9),
short buffers (40, 41). The speaker layout is worked out from the channels and the configuration, so it always has its
channels (8). The source track is a number or none; the language's 0 is a track that doesn't exist, not document 01's 0
for none.
"""

from typing import NamedTuple

from cases import Marker

FRAME_BYTES_PER_CHANNEL = 4_704
LONGEST_DST_FRAME = 65_536
LONGEST_TEXT = 1_048_576
MOST_TRACKS = 65_535
MOST_EDITED_MASTER_TRACKS = 255
MOST_CALLERS = 255
MOST_MARKERS = 65_535
MOST_COMMENTS = 65_535
LONGEST_CALLER_DATA = 16_777_216
LAST_PLAYTIME = 1_151_999
LAST_FRAME_TIME = 6_479_999
SHORTEST_EDITED_TRACK = 75
U32_MAX = 2**32 - 1

RESERVED_NAMES = (b"FRM8", b"FVER", b"PROP", b"DSD ", b"DST ", b"DSTI", b"COMT", b"DIIN", b"MANF")

LAYOUTS = {(2, 0): "stereo", (5, 3): "three-two", (6, 4): "five-point-one"}
SPEAKER_NAMES = {
    "stereo": (b"SLFT", b"SRGT"),
    "three-two": (b"MLFT", b"MRGT", b"C   ", b"LS  ", b"RS  "),
    "five-point-one": (b"MLFT", b"MRGT", b"C   ", b"LFE ", b"LS  ", b"RS  "),
}
LSCO_VALUES = {"stereo": 0, "three-two": 3, "five-point-one": 4}
LSCO_UNSPECIFIED = 65_535

TRACK_START = 0
TRACK_STOP = 1
PROGRAM_START = 2


class Refusal(Exception):
    """A number of document 01's list and its detail."""

    def __init__(self, number, detail=0):
        super().__init__(number, detail)
        self.number = number
        self.detail = detail


class Settings(NamedTuple):
    """What an edited master changes of the options."""

    start: int | None
    info: bool
    artist_title: bool
    source_track: int | None


class Built(NamedTuple):
    """An accepted build. A unit is a DSD frame, or a DSTF with its pad and DSTC."""

    header: bytes
    units: list[int]
    sound_length: int
    trailer: bytes

    @property
    def sound_end(self):
        return len(self.header) + self.sound_length

    @property
    def size(self):
        return self.sound_end + len(self.trailer)


def refuse_if(fault, number, detail=0):
    if fault:
        raise Refusal(number, detail)


# Bytes, chunks, times

def u16(value):
    return value.to_bytes(2, "big")


def u32(value):
    return value.to_bytes(4, "big")


def u64(value):
    return value.to_bytes(8, "big")


def pad(data):
    """One zero if the count is odd."""
    return bytes(len(data) % 2)


def chunk(name, data):
    return name + u64(len(data)) + data + pad(data)


def occupied(size):
    return 12 + size + size % 2


def frame_time(frame):
    """Hours, minutes, seconds and samples of a frame."""
    hours = u16(frame // 270_000)
    return hours + bytes([frame // 4_500 % 60, frame // 75 % 60]) + u32(frame % 75 * 37_632)


# Texts

def is_plain(value):
    return 0x20 <= value <= 0x7E


def is_text(value, d2):
    return is_plain(value) or (d2 and 0xA0 <= value <= 0xFF)


def converted(case, text):
    """A text's bytes: what is no text value becomes the replacement byte or vanishes; under D2 it always vanishes."""
    d2 = "d2" in case.departures
    out = bytearray()
    for value in map(ord, text):
        if is_text(value, d2):
            out.append(value)
        elif case.replacement is not None and not d2:
            out.append(case.replacement)
    return bytes(out)


def counted(case, text):
    """A count and a text, with its pad inside the size if pads are counted."""
    inner_pad = pad(text) if case.text_pad_counted else b""
    return u32(len(text)) + text + inner_pad


# Layout and spans

def speaker_layout(case):
    return LAYOUTS.get((case.channels, case.config % 8), "unspecified")


def track_spans(case):
    return [(track.start, min(track.start + track.duration, U32_MAX)) for track in case.tracks]


def in_order(spans):
    """No span is empty, and none begins before the last one's end."""
    return all(start < stop for start, stop in spans) and all(a[1] <= b[0] for a, b in zip(spans, spans[1:]))


def clipped(case, span):
    return max(span[0], case.first), min(span[1], case.end)


def is_play_range(case):
    return (case.first, case.end) == (0, case.playtime)


# Checks before anything is written

def check_amounts(case):
    """Refusal 1."""
    markers = case.custom_markers or []
    texts = [track.title or "" for track in case.tracks]
    texts += case.tags.values()
    texts += [comment.text for comment in case.comments]
    texts += [marker.text for marker in markers]
    # Switched off, it is no text.
    texts.append(case.emid if case.emid_written else b"")
    refuse_if(any(len(text) > LONGEST_TEXT for text in texts), 1)
    refuse_if(len(case.tracks) > MOST_TRACKS, 1)
    refuse_if(len(case.callers) > MOST_CALLERS, 1)
    refuse_if(len(markers) > MOST_MARKERS, 1)
    refuse_if(any(len(data) > LONGEST_CALLER_DATA for _, data in case.callers), 1)


def check_caller_names(case):
    """Refusals 4 and 5, chunk by chunk."""
    for name, _ in case.callers:
        refuse_if(not all(map(is_plain, name)), 4)
        refuse_if(b" " in name.rstrip(b" "), 4)
        refuse_if(name in RESERVED_NAMES, 5)


def check_area_and_range(case):
    """Refusals 6, 7 and 9 to 12."""
    refuse_if(case.playtime > LAST_PLAYTIME, 6)
    refuse_if(not 1 <= case.channels <= 6, 7)
    if case.kind == "dst":
        refuse_if(case.first > case.end or len(case.lengths) != case.end - case.first, 9)
        refuse_if(not all(1 <= length <= LONGEST_DST_FRAME for length in case.lengths), 10)
    refuse_if(case.first > case.end or case.end > case.playtime, 11)
    refuse_if(case.first == case.end, 12)


def settings_of(case):
    """Refusals 13 and 14, or for an edited master 15 to 23; then the settings that hold."""
    if case.edited_master:
        check_edited_master(case)
        return Settings(
            start=case.absolute_start or 0,
            info=True,
            artist_title=case.artist_title != "off",
            source_track=None,
        )
    check_source_track(case)
    return Settings(
        start=case.absolute_start,
        info=case.info,
        artist_title=case.artist_title == "on",
        source_track=case.source_track,
    )


def check_source_track(case):
    """Refusals 13 and 14."""
    if case.source_track is None:
        return
    refuse_if(not 1 <= case.source_track <= len(case.tracks), 13)
    start, stop = clipped(case, track_spans(case)[case.source_track - 1])
    refuse_if(start >= stop, 14)


def check_edited_master(case):
    """Refusals 15 to 23. Custom markers are a choice, so an empty list of them is refused too (21)."""
    refuse_if(not is_play_range(case), 15)
    refuse_if(speaker_layout(case) == "unspecified", 16)
    refuse_if(not 1 <= len(case.tracks) <= MOST_EDITED_MASTER_TRACKS, 17)
    for number, track in enumerate(case.tracks, start=1):
        refuse_if(track.duration < SHORTEST_EDITED_TRACK, 18, number)
    spans = track_spans(case)
    refuse_if(not in_order(spans), 19)
    refuse_if(spans[-1][1] > LAST_PLAYTIME, 20)
    refuse_if(case.custom_markers is not None, 21)
    refuse_if(not case.lsco, 22)
    refuse_if(not case.emid_written, 23)


def check_replacement(case):
    """Refusal 24: under D2, which never uses the byte, and without any text too."""
    refuse_if(case.replacement is not None and not is_plain(case.replacement), 24)


# PROP

def channel_numbers(case):
    """Refusals 25 to 27, the last two number by number; for unspecified layouts only."""
    if case.channel_numbers is None:
        return tuple(range(case.channels))
    refuse_if(len(case.channel_numbers) != case.channels, 25)
    for place, number in enumerate(case.channel_numbers):
        refuse_if(number > 999, 26)
        refuse_if(number in case.channel_numbers[:place], 27)
    return case.channel_numbers


def speakers(case):
    """The channels' names, and LSCO's value or None."""
    layout = speaker_layout(case)
    if layout == "unspecified":
        channels = tuple(b"C%03d" % number for number in channel_numbers(case))
        return channels, (LSCO_UNSPECIFIED if case.unspecified_lsco else None)
    return SPEAKER_NAMES[layout], (LSCO_VALUES[layout] if case.lsco else None)


def compression_type(case):
    """CMPR's data; D1 counts the pad of an odd one."""
    data = b"DSD \x0enot compressed" if case.kind == "dsd" else b"DST \x0bDST Encoded"
    return data + pad(data) if "d1" in case.departures else data


def prop_chunk(case, settings):
    """Refusals 25 to 29, and PROP."""
    channels, lsco = speakers(case)
    refuse_if(sorted(case.property_order) != ["abss", "chnl", "cmpr", "fs", "lsco"], 28)
    start = settings.start
    refuse_if(start is not None and start + case.end - case.first > LAST_FRAME_TIME, 29)
    chunks = {
        "fs": chunk(b"FS  ", u32(2_822_400)),
        "chnl": chunk(b"CHNL", u16(case.channels) + b"".join(channels)),
        "cmpr": chunk(b"CMPR", compression_type(case)),
        "abss": b"" if start is None else chunk(b"ABSS", frame_time(start)),
        "lsco": b"" if lsco is None else chunk(b"LSCO", u16(lsco)),
    }
    return chunk(b"PROP", b"SND " + b"".join(chunks[name] for name in case.property_order))


# Markers

def custom_markers(case):
    """Refusals 32 and 33, marker by marker."""
    d2 = "d2" in case.departures
    for marker in case.custom_markers:
        refuse_if(not case.first <= marker.frame <= case.end, 32)
        refuse_if(not all(is_text(value, d2) for value in marker.text), 33)
    return case.custom_markers


def program(case, settings):
    """The tracks that give markers, as (track, clipped start, clipped stop)."""
    spans = track_spans(case)
    kept = [(track, *clipped(case, span)) for track, span in zip(case.tracks, spans)]
    if settings.source_track is not None:
        return [kept[settings.source_track - 1]] if case.source_track_markers else []
    kept = [(track, start, stop) for track, start, stop in kept if start < stop]
    if not in_order([(start, stop) for _, start, stop in kept]):
        return []
    if is_play_range(case):
        return kept if in_order(spans) else []
    return kept if case.clipped_program else []


def program_markers(case, settings):
    """Program start, then each track's start, and its stop unless the next one starts there."""
    tracks = program(case, settings)
    if not tracks:
        return []
    markers = [Marker(case.first, PROGRAM_START, 0, b"")]
    next_starts = [start for _, start, _ in tracks[1:]] + [None]
    for (track, start, stop), next_start in zip(tracks, next_starts):
        text = converted(case, track.title or "") if case.marker_text == "title" else b""
        markers.append(Marker(start, TRACK_START, 0, text))
        if next_start != stop:
            markers.append(Marker(stop, TRACK_STOP, 0, b""))
    return markers


def mark_chunk(case, settings, marker):
    time = frame_time((settings.start or 0) + marker.frame - case.first)
    flags = marker.flags if marker.kind == TRACK_START else 0
    return chunk(b"MARK", time + bytes(4) + u16(marker.kind) + bytes(2) + u16(flags) + counted(case, marker.text))


# DIIN

def chosen_text(case, settings, track_tag, album_tag):
    """Artist or title: the track's, the album's, or the first present; a given text, though empty, is present."""
    if not settings.artist_title:
        return None
    album = case.tags.get(album_tag)
    track = None if settings.source_track is None else case.tags.get(track_tag)
    if case.artist_title_source == "album":
        return album
    if case.artist_title_source == "track":
        return track
    return album if track is None else track


def text_chunk(case, name, text):
    """DIAR or DITI; nothing for an absent text, or for an empty one unless empty text is on."""
    if text is None:
        return b""
    data = converted(case, text)
    if not data and not case.empty_text:
        return b""
    return chunk(name, counted(case, data))


def diin_chunk(case, settings):
    """Refusals 30 to 33, and DIIN or None."""
    if not settings.info:
        return None
    refuse_if(sorted(case.info_order) != ["diar", "diti", "emid", "mark"], 30)
    refuse_if(case.emid_written and not all(map(is_plain, case.emid)), 31)
    markers = program_markers(case, settings) if case.custom_markers is None else custom_markers(case)
    chunks = {
        "emid": chunk(b"EMID", case.emid) if case.emid_written else b"",
        "mark": b"".join(mark_chunk(case, settings, marker) for marker in markers),
        "diar": text_chunk(case, b"DIAR", chosen_text(case, settings, "performer", "album_artist")),
        "diti": text_chunk(case, b"DITI", chosen_text(case, settings, "title", "album")),
    }
    data = b"".join(chunks[name] for name in case.info_order)
    return chunk(b"DIIN", data) if data or case.empty_info else None


# COMT

def check_comment(case, comment):
    """Refusals 34 and 35; also of a comment that is then left out."""
    refuse_if(comment.month > 12 or comment.day > 31 or comment.hour > 23 or comment.minutes > 59, 34)
    if comment.kind != 0:
        limits = {1: case.channels, 2: 2, 3: 4}
        refuse_if(comment.reference > limits[comment.kind], 35)


def comment_bytes(comment, text):
    reference = comment.reference if comment.kind != 0 else 0
    date = u16(comment.year) + bytes([comment.month, comment.day, comment.hour, comment.minutes])
    return date + u16(comment.kind) + u16(reference) + u32(len(text)) + text + pad(text)


def comt_chunk(case):
    """Refusals 34 to 36, comment by comment, and COMT or None."""
    written = []
    for comment in case.comments:
        check_comment(case, comment)
        text = converted(case, comment.text)
        if text or case.empty_text:
            refuse_if(len(written) == MOST_COMMENTS, 36)
            written.append(comment_bytes(comment, text))
    return chunk(b"COMT", u16(len(written)) + b"".join(written)) if written else None


# Order and file

def check_local_order(case, parts):
    """Refusals 37 to 39."""
    order = case.local_order
    refuse_if(len(set(order)) != len(order), 37)
    refuse_if(not set(parts) <= set(order), 38)
    refuse_if(order.index("prop") > order.index("sound"), 39)


def sound_units(case):
    """The bytes that each position occupies in the sound data."""
    if case.kind == "dsd":
        return [case.channels * FRAME_BYTES_PER_CHANNEL] * (case.end - case.first)
    crc = occupied(4) if case.dst_crc else 0
    return [occupied(length) + crc for length in case.lengths]


def sound_head(case, units):
    """What comes before the first sound byte, FRTE included."""
    if case.kind == "dsd":
        return b"DSD " + u64(sum(units))
    frte = chunk(b"FRTE", u32(len(units)) + u16(75))
    return b"DST " + u64(len(frte) + sum(units)) + frte


def dsti_chunk(case, units, sound_start):
    """Per frame the offset of DSTF (of its data under `FrameData`) in the file, and the frame's length."""
    entries = []
    offset = sound_start + (12 if case.dst_index_offset == "data" else 0)
    for length, unit in zip(case.lengths, units):
        entries.append(u64(offset) + u32(length))
        offset += unit
    return chunk(b"DSTI", b"".join(entries))


def assembled(case, parts):
    """The file: FRM8, FVER, the local chunks in their order, the caller chunks."""
    units = sound_units(case)
    parts["sound"] = sound_head(case, units)
    if "dsti" in parts:
        parts["dsti"] = bytes(occupied(12 * len(units)))
    order = [name for name in case.local_order if name in parts]
    before = order[:order.index("sound") + 1]
    after = order[len(before):]
    form_and_version = b"DSD " + chunk(b"FVER", u32(0x01050000))
    if "dsti" in parts:
        sound_start = 12 + len(form_and_version) + sum(len(parts[name]) for name in before)
        parts["dsti"] = dsti_chunk(case, units, sound_start)
    local_head = form_and_version + b"".join(parts[name] for name in before)
    callers = b"".join(chunk(name, data) for name, data in case.callers)
    trailer = b"".join(parts[name] for name in after) + callers
    sound_length = sum(units)
    header = b"FRM8" + u64(len(local_head) + sound_length + len(trailer)) + local_head
    return Built(header, units, sound_length, trailer)


def build(case):
    """The file of a case; raises Refusal with the first number that applies."""
    check_amounts(case)
    check_caller_names(case)
    check_area_and_range(case)
    settings = settings_of(case)
    check_replacement(case)
    parts = {
        "prop": prop_chunk(case, settings),
        "diin": diin_chunk(case, settings),
        "comt": comt_chunk(case),
        "sound": b"",
        "dsti": b"" if case.kind == "dst" and case.dst_index else None,
    }
    parts = {name: data for name, data in parts.items() if data is not None}
    check_local_order(case, parts)
    return assembled(case, parts)
