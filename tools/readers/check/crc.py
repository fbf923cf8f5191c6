"""The CRC of DSTC: starts at 0, most significant bit first, polynomial 0x80000011, nothing inverted."""

POLYNOMIAL = 0x80000011


def _entry(byte):
    value = byte << 24
    for _ in range(8):
        value = (value << 1 ^ (POLYNOMIAL if value >> 31 else 0)) & 0xFFFFFFFF
    return value


TABLE = [_entry(byte) for byte in range(256)]


def crc(content):
    value = 0
    for byte in content:
        value = (value << 8 & 0xFFFFFFFF) ^ TABLE[value >> 24 ^ byte]
    return value
