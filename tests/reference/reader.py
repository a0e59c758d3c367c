"""Taking stored questions apart again: what the runs of document 01's "All else is run and compared" share."""

import struct

# No run of octets in a question is longer where its layout does not say so, so that a reader can do with fixed memory.
LONGEST_RUN = 2048

SINGLE_OCTET = struct.Struct("<B")

EVERY_OCTET = bytes(range(256))


class Reader:
    """Takes the questions' parts off a run of octets, one after the other."""

    def __init__(self, octets):
        self.octets = octets
        self.place = 0

    def at_end(self):
        return self.place == len(self.octets)

    def run(self, length, most=LONGEST_RUN):
        """The next so many octets."""
        if length > most:
            raise ValueError(f"a run of {length} octets is longer than the format allows")
        part = self.octets[self.place:self.place + length]
        if len(part) < length:
            raise ValueError(f"the questions end inside the one that needs octet {self.place + len(part)}")
        self.place += length
        return part

    def fields(self, layout):
        """The next numbers in the given layout."""
        return layout.unpack(self.run(layout.size))

    def single_octet(self):
        return self.fields(SINGLE_OCTET)[0]


def as_flag(octet):
    """Yes or no as the format writes it: 1 or 0, and nothing else."""
    if octet > 1:
        raise ValueError(f"octet {octet} is neither 0 nor 1")
    return octet == 1


def lent_memory(room, fill, most=LONGEST_RUN):
    """Lent memory before a call: its first octet is `fill`, and each is one more than the one before, modulo 256."""
    if room > most:
        raise ValueError(f"memory of {room} octets is longer than the format allows")
    every_octet_in_turn = EVERY_OCTET * (room // 256 + 2)
    return bytearray(every_octet_in_turn[fill:fill + room])


def answered(questions, answer_one):
    """The whole answer to a run of questions, each line ended by one LF; answer_one gives the lines of the next one."""
    reader = Reader(questions)
    lines = []
    while not reader.at_end():
        lines.extend(answer_one(reader))
    return "".join(line + "\n" for line in lines).encode("ascii")
