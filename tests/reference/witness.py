"""Why never four in a row: a frame that loses four mFrames and is taken for another one.

The third demand allows three preemptable mFrames to be lost in a row. A continuation
tells its place by the fragment count, which goes round modulo 4, and by its check, which
goes on from the octets before it. Where one, two or three are lost, the next one has
another count than the expected one. Where four are lost its count is the expected one
again, and only the check is left to notice anything. The check notices nothing if the
running CRC after the four lost parts is what it was before them.

A frame whose running CRC comes back in this way is made here, from any octets at all but
the last four of the lost parts, which are worked out. It goes as a start and five
continuations with the fragment counts 0, 1, 2, 3, 0. When the first four of these are
lost, the receiver puts the last part behind the first one, finds the FCS good and answers
1 with a body that nobody sent.
"""

import crc
import exchange
import mframe
from chance import Chance
from cut import least_part

SEED = 8033

# With an ask of 0 and extra 0 every part but the last is as short as a part can be.
ASK = 0
PART = least_part(0)
LAST_PART = mframe.LEAST_BODY

LOST_PARTS = 4


def bits_that_leave(left):
    """The 32 bits that leave `left` when 32 zeros are put behind them and the whole is divided.

    It is the division read backwards. Its last step brought down a zero and then, where
    needed, took the generator away, whose lowest bit is a 1. So where the lowest bit is a
    1 now, the generator is put back; then the zero is taken off. The step before is undone
    in the same way, and so on for all 32 zeros.
    """
    for _ in range(crc.CHECK_BITS):
        if left % 2 == 1:
            left ^= crc.GENERATOR
        left //= 2
    return left


def octets_that_lead(register, target):
    """The four octets that turn the running CRC `register` into `target`.

    Of four octets, the division sees their 32 bits with the register's bits put onto them
    and 32 zeros behind.
    """
    return crc.octets_from_wire(bits_that_leave(crc.mirrored(target)) ^ crc.mirrored(register))


def returning(before, between):
    """`between` and four more octets, behind which the running CRC is again what it was after `before`."""
    target = crc.register_after(crc.ALL_ONES, before)
    return between + octets_that_lead(crc.register_after(target, between), target)


def body():
    """A body whose running CRC after the first part comes back after the next four."""
    chance = Chance(SEED)
    first = chance.octets(PART)
    lost = returning(first, chance.octets(LOST_PARTS * PART - crc.CHECK_OCTETS))
    return first + lost + chance.octets(LAST_PART)


def body_never_sent():
    """What is delivered in its place: the first part and the last."""
    whole = body()
    return whole[:PART] + whole[-LAST_PART:]


def mframes():
    """The frame as it is sent: the start, and continuations with the fragment counts 0, 1, 2, 3, 0."""
    return exchange.Sender().frame(body(), ASK)


def arriving():
    """The mFrames that arrive when exactly those four are lost."""
    first, *_, last = mframes()
    return [first, last]
