"""A walker of DSDIFF 1.5 by itself: name, size of 8 bytes, data, and a zero behind data of odd size."""

import struct

# What stands before the chunks inside: the form type of FRM8, the type of PROP.
CONTAINERS = {b"FRM8": 4, b"PROP": 4, b"DIIN": 0, b"DST ": 0}
HEADER = 12


class Wrong(Exception):
    """The bytes are no DSDIFF file."""


class Chunk:
    def __init__(self, file, place, end, parent):
        if place + HEADER > end:
            raise Wrong(f"no room for a chunk at {place}")
        self.file, self.place, self.parent = file, place, parent
        self.name, self.size = struct.unpack(">4sQ", file[place : place + HEADER])
        self.data_place = place + HEADER
        self.pad = self.size % 2
        self.end = self.data_place + self.size + self.pad
        if self.end > end:
            raise Wrong(f"{self.name} at {place} runs out of its parent")
        if self.pad and file[self.end - 1] != 0:
            raise Wrong(f"the pad of {self.name} at {place} is not zero")
        self.inside = []
        if self.name in CONTAINERS:
            part = self.data_place + CONTAINERS[self.name]
            while part < self.data_place + self.size:
                chunk = Chunk(file, part, self.data_place + self.size, self)
                self.inside.append(chunk)
                part = chunk.end

    def data(self):
        return self.file[self.data_place : self.data_place + self.size]

    def all(self):
        """This chunk and all inside, in file order."""
        yield self
        for chunk in self.inside:
            yield from chunk.all()

    def named(self, name):
        return [chunk for chunk in self.all() if chunk.name == name]

    def one(self, name):
        """The only chunk of that name in it, if any."""
        found = self.named(name)
        if len(found) > 1:
            raise Wrong(f"{len(found)} chunks {name}")
        return found[0] if found else None


def walk(file):
    """The chunk FRM8, which is the whole file."""
    form = Chunk(file, 0, len(file), None)
    if form.name != b"FRM8" or form.data()[:4] != b"DSD ":
        raise Wrong("no form DSD")
    if form.end != len(file):
        raise Wrong(f"FRM8 ends at {form.end}, the file at {len(file)}")
    return form


def index_entries(chunk):
    """Offset and length of each entry of DSTI."""
    return list(struct.iter_unpack(">QI", chunk.data()))
