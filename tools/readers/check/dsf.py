"""DSD by another road: the same content as a DSF file, which has blocks of one channel and the first bit lowest."""

import struct

BLOCK = 4096
REVERSED = bytes(int(f"{byte:08b}"[::-1], 2) for byte in range(256))
# DSF's channel types by the number of channels.
TYPES = {1: 1, 2: 2, 3: 3, 4: 5, 5: 6, 6: 7}


def dsf(content, channels, rate):
    planes = [content[channel::channels].translate(REVERSED) for channel in range(channels)]
    blocks = bytearray()
    for place in range(0, len(planes[0]), BLOCK):
        for plane in planes:
            blocks += plane[place : place + BLOCK].ljust(BLOCK, b"\0")
    samples = len(planes[0]) * 8
    fmt = struct.pack("<4sQIIIIIIQII", b"fmt ", 52, 1, 0, TYPES[channels], channels, rate, 1, samples, BLOCK, 0)
    data = struct.pack("<4sQ", b"data", 12 + len(blocks)) + blocks
    return struct.pack("<4sQQQ", b"DSD ", 28, 28 + len(fmt) + len(data), 0) + fmt + data
