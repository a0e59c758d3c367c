"""Random numbers that stay the same for ever, for the runs of document 01, "Marked examples" (last sentence)."""

import random


class Chance:
    """Numbers drawn from a fixed seed.

    Only random() is called: it is the one draw that Python promises to keep from
    version to version, and the stored files must not change with the Python in use.
    """

    def __init__(self, seed):
        self.source = random.Random(seed)

    def below(self, limit):
        """A number from 0 to limit - 1; for limits up to about 2^40 evenly spread."""
        return int(self.source.random() * limit)

    def between(self, least, greatest):
        """A number from least to greatest, both included."""
        return least + self.below(greatest - least + 1)

    def octets(self, length):
        """So many octets."""
        return bytes(self.below(256) for _ in range(length))

    def register(self):
        """A 32-bit register value."""
        return self.below(2**32)
