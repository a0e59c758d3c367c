"""mFrames as they come over a noisy row: what document 01's "Receiving" is run with.

A sending side makes them; on the way some are lost, damaged, doubled or overtaken, and
octets arrive that nobody sent.
"""

from dataclasses import replace

import codes
import mframe
import sending

ROOM = bytes(sending.LEAST_ROOM)
LEADING = bytes([mframe.PREAMBLE])


class Sender:
    """A sending side that hands out its mFrames."""

    def __init__(self, extra=0, next_frame_count=0):
        self.record = replace(sending.fresh(active=True, extra=extra), next_frame_count=next_frame_count)

    def part(self, body, ask=sending.NO_ASK):
        """The next mFrame of a preemptable frame, and whether the frame is done with it."""
        memory = bytearray(ROOM)
        answer, self.record = sending.preemptable(memory, self.record, body, ask)
        return bytes(memory[:answer.length]), answer.done

    def frame(self, body, ask=sending.NO_ASK):
        """All mFrames of a preemptable frame, each cut as the ask says."""
        mframes, done = [], False
        while not done:
            octets, done = self.part(body, ask)
            mframes.append(octets)
        return mframes


def with_bit_turned(octets, place):
    """The octets with one bit the other way round; places count bits, the lowest of the first octet is 0."""
    turned = bytearray(octets)
    turned[place // 8] ^= 1 << place % 8
    return bytes(turned)


def leading(octets):
    """How many octets 55 stand at the front, which is also where the delimiter is."""
    return len(octets) - len(octets.lstrip(LEADING))


def swallowed(mframes, chance):
    """The mFrames behind a PHY that swallows leading octets 55: of one in three some, of one in three all or nearly all."""
    left = []
    for octets in mframes:
        which = chance.below(3)
        most = leading(octets)
        left.append(octets[(0, chance.below(most + 1), max(0, most - chance.below(2)))[which]:])
    return left


def damaged(octets, chance):
    """An mFrame on which something happened: turned bits, an octet replaced, an end cut off or hung on."""
    which = chance.below(8)
    if which < 3:
        return with_bit_turned(octets, chance.below(8 * len(octets)))
    if which == 3:
        # In the delimiter or the octet behind it, where kind and counts are.
        place = leading(octets)
        return with_bit_turned(octets, chance.between(8 * place, 8 * place + 15))
    if which == 4:
        # A burst of octets.
        place = chance.below(len(octets))
        burst = chance.octets(chance.between(1, 8))
        return (octets[:place] + burst + octets[place + len(burst):])[:len(octets)]
    if which == 5:
        return octets[:chance.below(len(octets))]
    if which == 6:
        return octets + chance.octets(chance.between(1, 5))
    # Octets lost from the front, and not only of the preamble, or too many of them.
    if chance.below(2) == 0:
        return octets[chance.between(1, 9):]
    return LEADING * chance.between(1, 4) + octets


def stray(chance):
    """Octets that nobody sent: short noise, or noise behind leading octets 55 or a known delimiter."""
    which = chance.below(4)
    if which == 0:
        return LEADING * chance.below(10) + chance.octets(chance.below(65))
    if which == 1:
        return chance.octets(chance.between(65, 90))
    preamble = LEADING * chance.below(10)
    if which == 2:
        return preamble + chance.octets(chance.between(65, 73))
    code = codes.DELIMITERS[chance.below(len(codes.DELIMITERS))].code
    return preamble + bytes([code]) + chance.octets(chance.between(63, 70))


def sent_in_turn(chance, count, greatest_body):
    """So many undisturbed mFrames: frames in fragments, with E, V and R between them."""
    sender = Sender(next_frame_count=chance.below(4))
    mframes, body = [], None
    while len(mframes) < count:
        which = chance.below(20)
        if which == 0:
            mframes.append(mframe.verify())
        elif which == 1:
            mframes.append(mframe.respond())
        elif which < 4:
            mframes.append(mframe.express(chance.octets(chance.between(60, 75))))
        else:
            if body is None:
                # Long bodies go in many fragments, because a long ask is rare.
                body = chance.octets(chance.between(60, greatest_body) if chance.below(3) == 0
                                     else chance.between(60, 200))
            ask = chance.below(90) if len(body) > 150 or chance.below(2) == 0 else sending.NO_ASK
            octets, done = sender.part(body, ask)
            mframes.append(octets)
            if done:
                body = None
    return mframes


def over_a_noisy_row(mframes, chance, trouble):
    """What arrives of `mframes` when of a hundred about so many as `trouble` says meet with something."""
    arrived = []
    for octets in mframes:
        if chance.below(100) >= trouble:
            arrived.append(octets)
            continue
        which = chance.below(10)
        if which < 3:
            # Lost.
            continue
        if which < 6:
            arrived.append(damaged(octets, chance))
        elif which == 6:
            arrived.extend([octets, octets])
        elif which == 7:
            # Overtaken by the one before it, where there is one.
            arrived.insert(max(0, len(arrived) - 1), octets)
        else:
            arrived.extend([stray(chance), octets])
    return arrived
