"""Document 01's rules for reads and queries of a built file, and the frames that the harness lends.

Refusal 42 cannot be met here: a read belongs to a file that was built. Of 43 there are the byte counts of the frames;
lengths lent beside them are not in the case language.
"""

from model import FRAME_BYTES_PER_CHANNEL, U32_MAX, chunk, refuse_if, u32

CRC_POLYNOMIAL = 0x80000011


def crc_entry(byte):
    value = byte << 24
    for _ in range(8):
        value = value << 1 ^ (CRC_POLYNOMIAL if value >> 31 else 0)
        value &= U32_MAX
    return value


CRC_TABLE = [crc_entry(byte) for byte in range(256)]


def crc(data):
    """DSTC's value: most significant bit first, from 0, nothing inverted."""
    value = 0
    for byte in data:
        value = (value << 8 & U32_MAX) ^ CRC_TABLE[value >> 24 ^ byte]
    return value


class Frames:
    """The bytes of a case's positions, counted from the range's first: the harness's rule, or the case's own."""

    def __init__(self, case):
        self.case = case
        self.contents = dict(case.content)
        self.dst_frames = dict(case.dst)
        self.units = {}

    def content(self, position):
        if position not in self.contents:
            start = self.case.seed + 7 * position
            count = self.case.channels * FRAME_BYTES_PER_CHANNEL
            self.contents[position] = bytes((start + 31 * j + j // 256) % 256 for j in range(count))
        return self.contents[position]

    def dst(self, position):
        if position not in self.dst_frames:
            start = self.case.seed + 11 * position + 128
            count = self.case.lengths[position]
            self.dst_frames[position] = bytes((start + 29 * j + j // 256) % 256 for j in range(count))
        return self.dst_frames[position]

    def check(self, position):
        """Refusal 43: plain content for DSD or CRC, DST bytes for DST."""
        case = self.case
        if case.kind == "dsd" or case.dst_crc:
            refuse_if(len(self.content(position)) != case.channels * FRAME_BYTES_PER_CHANNEL, 43)
        if case.kind == "dst":
            refuse_if(len(self.dst(position)) != case.lengths[position], 43)

    def unit(self, position):
        """A DSD frame, or DSTF and, with CRC on, DSTC."""
        if position not in self.units:
            if self.case.kind == "dsd":
                unit = self.content(position)
            else:
                unit = chunk(b"DSTF", self.dst(position))
                if self.case.dst_crc:
                    unit += chunk(b"DSTC", u32(crc(self.content(position))))
            self.units[position] = unit
        return self.units[position]


def needed_positions(built, offset, length):
    """A query: the first and one past the last position whose unit is touched; (0, 0) for none."""
    begin = max(offset, len(built.header))
    stop = min(offset + length, built.sound_end)
    if begin >= stop:
        return 0, 0
    touched = []
    at = len(built.header)
    for position, unit in enumerate(built.units):
        if at >= stop:
            break
        at += unit
        if begin < at:
            touched.append(position)
    return touched[0], touched[-1] + 1


def read(built, frames, offset, length):
    """The bytes that a read fills; raises Refusal 43, and everything is tested first."""
    first, end = needed_positions(built, offset, length)
    for position in range(first, end):
        frames.check(position)
    sound = b"".join(frames.unit(position) for position in range(first, end))
    sound_at = len(built.header) + sum(built.units[:first])
    stop = min(offset + length, built.size)
    pieces = ((0, built.header), (sound_at, sound), (built.sound_end, built.trailer))
    return b"".join(data[max(offset - at, 0):max(stop - at, 0)] for at, data in pieces)
