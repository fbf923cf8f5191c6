"""Files that are damaged on purpose: that the checks are able to fail."""

from walk import walk


def _turned(file, place):
    """One bit of a byte turned."""
    damaged = bytearray(file)
    damaged[place] ^= 1
    return bytes(damaged)


def _data_turned(name, place=0, which=0):
    """A bit of the data of a chunk turned; places from the end are negative."""

    def damage(file):
        chunk = walk(file).named(name)[which]
        return _turned(file, chunk.data_place + place % chunk.size)

    return damage


def _size_turned(name):
    return lambda file: _turned(file, walk(file).named(name)[0].data_place - 1)


def _swapped(file):
    """The data of the first two frames swapped; they are of one length."""
    first, second = walk(file).named(b"DSTF")[:2]
    between = file[first.data_place + first.size : second.data_place]
    front, behind = file[: first.data_place], file[second.data_place + second.size :]
    return front + second.data() + between + first.data() + behind


# What is done, to which file, how.
DAMAGES = [
    ("a bit of DSD turned", "dsd-2ch-d1", _data_turned(b"DSD ", 20000)),
    ("the last bit of DSD turned", "dsd-6ch-d1", _data_turned(b"DSD ", -1)),
    ("a bit of a coded frame turned", "dst-2ch-coded", _data_turned(b"DSTF", 5000, 2)),
    ("two frames swapped", "dst-2ch-coded", _swapped),
    ("a bit of an entry's offset turned", "dst-crc", _data_turned(b"DSTI", 12 + 7)),
    ("a bit of an entry's length turned", "dst-front", _data_turned(b"DSTI", 12 + 11)),
    ("a bit of a CRC turned", "dst-crc", _data_turned(b"DSTC", 3, 1)),
    ("a bit of the number of frames turned", "dst-2ch", _data_turned(b"FRTE", 3)),
    ("a bit of a channel's name turned", "dsd-2ch-d1", _data_turned(b"CHNL", 2)),
    ("a bit of the rate turned", "dsd-2ch-d1", _data_turned(b"FS  ", 1)),
    ("a bit of the start turned", "dsd-2ch-start-d1", _data_turned(b"ABSS", 3)),
    ("a bit of a marker's time turned", "diin-markers", _data_turned(b"MARK", 3, 2)),
    ("a bit of a marker's text turned", "diin-markers", _data_turned(b"MARK", 22, 2)),
    ("a bit of the artist turned", "diin-pads-counted", _data_turned(b"DIAR", 5)),
    ("a bit of a comment turned", "comt-before", _data_turned(b"COMT", 16)),
    ("the last bit of a long comment turned", "comt-long", _data_turned(b"COMT", -1)),
    ("the last bit of a marker's long text turned", "diin-long-marker", _data_turned(b"MARK", -1, 1)),
    ("a bit of the tag's title turned", "id3", _data_turned(b"ID3 ", 22)),
    ("a bit of a caller chunk turned", "callers", _data_turned(b"ODD ", 2)),
    ("a bit of FRM8's size turned", "dsd-2ch-d1", _size_turned(b"FRM8")),
]
