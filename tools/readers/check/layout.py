"""Our own walk: the chunks and their values are what was given."""

import struct

from crc import crc
from given import RATE, time
from walk import Wrong, index_entries, walk

READER = "walk"


def check(given, file, findings):
    """The walked file, None if it cannot be walked."""
    try:
        form = walk(file)
        _values(given, form, findings)
    except (Wrong, AttributeError, struct.error) as error:
        findings.unlike(READER, str(error))
        return None
    return form


def _values(given, form, findings):
    def same(what, found, wanted):
        findings.check(READER, what, found, wanted)

    same("FRM8", form.size, len(form.file) - 12)
    same("FVER", form.one(b"FVER").data(), b"\x01\x05\x00\x00")
    same("order of the chunks", [chunk.name for chunk in form.inside], list(_order(given)))
    _property(given, form.one(b"PROP"), same)
    if given.dst:
        _dst(given, form, same)
    else:
        same("the sound", form.one(b"DSD ").data(), given.content)
    _texts(given, form, same)
    named = [(chunk.name, chunk.data()) for chunk in form.inside]
    callers = list(given.callers())
    same("caller chunks", named[len(named) - len(callers) :], callers)


def _order(given):
    """The names that FRM8 has to have inside."""
    yield b"FVER"
    for local in given["local"].split():
        if local == "SOUND":
            yield b"DST " if given.dst else b"DSD "
        elif local == "PROP":
            yield b"PROP"
        elif local == "DSTI" and given["index"] != "none":
            yield b"DSTI"
        elif local == "DIIN" and given["info"] == "yes":
            yield b"DIIN"
        elif local == "COMT" and given.lists["comment"]:
            yield b"COMT"
    for name, _ in given.callers():
        yield name


def _property(given, prop, same):
    values = {chunk.name: chunk.data() for chunk in prop.inside}
    names = given.channel_names()
    compression = b"DST \x0bDST Encoded" if given.dst else b"DSD \x0enot compressed"
    if given["d1"] == "yes" and len(compression) % 2:
        compression += b"\0"
    wanted = {
        b"FS  ": struct.pack(">I", RATE),
        b"CHNL": struct.pack(">H", len(names)) + "".join(names).encode(),
        b"CMPR": compression,
    }
    start, loudspeakers = given.start(), given.loudspeakers()
    if start is not None:
        wanted[b"ABSS"] = struct.pack(">HBBI", *time(start))
    if loudspeakers is not None:
        wanted[b"LSCO"] = struct.pack(">H", loudspeakers)
    same("PROP", values, wanted)
    order = [name.ljust(4).encode() for name in given["prop"].split()]
    same("order of PROP", [chunk.name for chunk in prop.inside], [name for name in order if name in wanted])


def _dst(given, form, same):
    sound = form.one(b"DST ")
    frames = [chunk for chunk in sound.inside if chunk.name == b"DSTF"]
    checks = [chunk for chunk in sound.inside if chunk.name == b"DSTC"]
    unit = [b"DSTF", b"DSTC"] if given.crc else [b"DSTF"]
    same("order of DST", [chunk.name for chunk in sound.inside], [b"FRTE"] + unit * given.positions)
    same("FRTE", form.one(b"FRTE").data(), struct.pack(">IH", given.positions, 75))
    same("the frames", [chunk.data() for chunk in frames], list(given.frames()))
    if given.crc:
        sums = [struct.pack(">I", crc(content)) for content in given.contents()]
        same("the CRCs", [chunk.data() for chunk in checks], sums)
    if given["index"] != "none":
        more = 12 if given["index"] == "data" else 0
        wanted = [(chunk.place + more, chunk.size) for chunk in frames]
        same("the index", index_entries(form.one(b"DSTI")), wanted)


def _texts(given, form, same):
    both = given.artist_title()
    for name, text in zip([b"DIAR", b"DITI"], both or [None, None]):
        chunk = form.one(name)
        same(name.decode(), chunk and _counted(chunk.data()), text)
    if given["emid"]:
        same("EMID", form.one(b"EMID").data(), given["emid"].encode())
    same("MARK", [_marker(chunk.data()) for chunk in form.named(b"MARK")], list(given.markers()))
    if given.lists["comment"]:
        same("COMT", list(_comments(form.one(b"COMT").data())), list(given.comments()))


def _marker(data):
    """Time, kind, flags and text of MARK; offset and channel have to be 0."""
    *clock, offset, kind, channel, flags = struct.unpack(">HBBIIHHH", data[:18])
    if offset or channel:
        raise Wrong("a marker with an offset or a channel")
    return tuple(clock), kind, flags, _counted(data[18:])


def _counted(data):
    count = struct.unpack(">I", data[:4])[0]
    return data[4 : 4 + count]


def _comments(data):
    """Kind, reference and text of each comment."""
    place = 2
    for _ in range(struct.unpack(">H", data[:2])[0]):
        kind, reference, count = struct.unpack(">6xHHI", data[place : place + 14])
        yield kind, reference, data[place + 14 : place + 14 + count]
        place += 14 + count + count % 2
    if place != len(data):
        raise Wrong("bytes behind the last comment")
