"""FCS, mCRC and what the last four octets decide: document 01, "Octets of an mFrame" and "Receiving".

The check is worked out the way the standard writes it down: the frame's bits, in the
order in which they go over the wire, are the coefficients of a polynomial, and that
polynomial is divided by the generator as on paper. The port is free to use a shift
register; here there is none, so that one slip cannot be made in both.
"""

from dataclasses import dataclass
from functools import lru_cache

# x^32 + x^26 + x^23 + x^22 + x^16 + x^12 + x^11 + x^10 + x^8 + x^7 + x^5 + x^4 + x^2 + x + 1.
# The leading 1 is written out, because the division subtracts all 33 coefficients.
GENERATOR = 0x1_04C1_1DB7
GENERATOR_BITS = 33
CHECK_BITS = 32
CHECK_OCTETS = 4

ALL_ONES = 0xFFFF_FFFF

# So many bits of the dividend are brought down at a time; any number would do.
BROUGHT_DOWN = 96

# An octet goes over the wire lowest bit first.
WIRE_BITS_OF_OCTET = [format(octet, "08b")[::-1] for octet in range(256)]


def wire_number(octets):
    """The octets' bits in wire order, read as one number whose highest bit went first."""
    bits = "".join(WIRE_BITS_OF_OCTET[octet] for octet in octets)
    return int(bits, 2) if bits else 0


def octets_from_wire(check):
    """Four octets whose 32 bits go over the wire in the order of `check`, highest bit first."""
    bits = format(check, "032b")
    return bytes(int(bits[place:place + 8][::-1], 2) for place in range(0, CHECK_BITS, 8))


def remainder(dividend):
    """What is left when `dividend` is divided by the generator, coefficients modulo 2.

    As on paper, the dividend's next bits are brought down behind what is left so far.
    """
    left = 0
    groups = dividend.bit_length() // BROUGHT_DOWN + 1
    for place in range((groups - 1) * BROUGHT_DOWN, -1, -BROUGHT_DOWN):
        left = left << BROUGHT_DOWN | dividend >> place & (1 << BROUGHT_DOWN) - 1
        while (room := left.bit_length() - GENERATOR_BITS) >= 0:
            # The generator is moved under the highest 1 and taken away.
            left ^= GENERATOR << room
    return left


def mirrored(word):
    """The 32 bits of `word` in the opposite order.

    Document 01 keeps the running check as a reflected register, whose lowest bit goes
    first; the remainder's highest bit goes first. This is the one bridge between them.
    """
    return int(format(word, "032b")[::-1], 2)


# The same octets are asked about several times: by who makes the questions, by who answers
# them, and of an express mFrame by both receiving calls. A division once done is kept.
@lru_cache(maxsize=8192)
def register_after(register, octets):
    """Document 01's 32-bit register, before the complement, when `octets` follow on `register`.

    At a frame's start the register is all ones. Complementing the first 32 bits of the
    message is the same as putting 32 ones onto them; going on from another register
    puts that one's bits there instead. The 32 places behind the message hold the
    remainder, and with fewer than 32 message bits the register reaches into them.
    """
    dividend = wire_number(octets) << CHECK_BITS
    dividend ^= mirrored(register) << (8 * len(octets))
    return mirrored(remainder(dividend))


def fcs_of_register(register):
    """The four FCS octets, first octet first, of a frame whose register is `register`."""
    return octets_from_wire(mirrored(register) ^ ALL_ONES)


def mcrc_of_register(register):
    """The four mCRC octets: the FCS with its last two octets inverted.

    Which two octets document 01 inverts is decided here and nowhere else in the reference.
    """
    first, second, third, fourth = fcs_of_register(register)
    return bytes([first, second, third ^ 0xFF, fourth ^ 0xFF])


def fcs(octets):
    """The FCS of a frame that consists of `octets`."""
    return fcs_of_register(register_after(ALL_ONES, octets))


def mcrc(octets):
    """The mCRC of a frame of which `octets` were sent so far."""
    return mcrc_of_register(register_after(ALL_ONES, octets))


def standard_mcrc(octets):
    """The mCRC of IEEE 802.3br, which the usual viewer expects: the FCS with its first two octets inverted.

    Nothing that goes over our wire has it; it is for captures that are made for eyes.
    """
    first, second, third, fourth = fcs(octets)
    return bytes([first ^ 0xFF, second ^ 0xFF, third, fourth])


@dataclass(frozen=True)
class Done:
    """The last four octets are the FCS: the frame is complete."""

    data_octets: int


@dataclass(frozen=True)
class More:
    """The last four octets are the mCRC: more of the frame is to come."""

    data_octets: int
    register: int


@dataclass(frozen=True)
class Damaged:
    """The last four octets are neither, or there are no four octets."""


def ending(register, octets):
    """What the last four of `octets` decide, for a frame whose register was `register` before them."""
    octets = bytes(octets)
    if len(octets) < CHECK_OCTETS:
        return Damaged()
    data = octets[:-CHECK_OCTETS]
    check = octets[-CHECK_OCTETS:]
    after = register_after(register, data)
    if check == fcs_of_register(after):
        return Done(len(data))
    if check == mcrc_of_register(after):
        return More(len(data), after)
    return Damaged()
