"""What the tests of sending and receiving put together by hand: lent memory and check octets, by Python's own CRC."""

import zlib


def fcs(octets):
    return zlib.crc32(octets).to_bytes(4, "little")


def mcrc(octets):
    return (zlib.crc32(octets) ^ 0xFFFF0000).to_bytes(4, "little")


def standard_mcrc(octets):
    return (zlib.crc32(octets) ^ 0x0000FFFF).to_bytes(4, "little")


def check(octets):
    """A CHECK as the answers write it."""
    return fcs(octets).hex()


def memory(room, fill, written=b"", at=0):
    """Lent memory with something written to a place of it."""
    before = bytes((fill + place) % 256 for place in range(room))
    return before[:at] + written + before[at + len(written):]
