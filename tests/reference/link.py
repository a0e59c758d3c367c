"""A link between a sender and a receiver on which mFrames are lost: document 01 and the third demand.

The third demand says of such a link: both ends start fresh, preemption is active, and of
the mFrames some are lost, but never four preemptable ones in a row, those of other kinds
not counted. Then the frames delivered are exactly those sent to their end that lost no
mFrame, in each lane in the order of sending. With document 02, (vi) this also holds when
the link drops any number of leading octets 55, of each mFrame its own number.

Link is the two ends and the way between them; somebody else says what is called, what gets
lost and what is dropped. play() has a whole game of it played by a fixed rule from a seed. The rule is
in README.md as a table, so that a program in another language can play the same game.
"""

from dataclasses import dataclass, replace

import mframe
import receiving
import sending

# So many preemptable mFrames may be lost in a row, and no more.
LONGEST_RUN = 3


@dataclass(frozen=True)
class Passage:
    """An mFrame that was written, with the body it is of (None for V and R) and its fate.

    `arrived` is what the receiver was given of it, None where it was lost.
    """

    octets: bytes
    is_preemptable: bool
    body: bytes | None
    done: bool
    arrived: bytes | None

    @property
    def lost(self):
        return self.arrived is None


@dataclass(frozen=True)
class Heard:
    """What the receiver answered to an mFrame that arrived; the body where one was delivered, else None."""

    answer: receiving.Answer
    body: bytes | None


def shortened(octets, dropped):
    """An mFrame without so many of its leading octets 55, as far as there are such octets."""
    for _ in range(dropped):
        octets = octets.removeprefix(bytes([mframe.PREAMBLE]))
    return octets


class Link:
    """Both ends, fresh at first, and all that happened between them.

    `lose` is asked about every mFrame written, when it is written, and says whether it is
    to be lost. A preemptable one arrives all the same while `longest_run` of its kind have
    been lost in a row. The third demand speaks of links whose longest run is 3. `drop` is
    asked about every mFrame that arrives, and says how many leading octets 55 it loses.
    """

    def __init__(self, lose, drop=lambda: 0, longest_run=LONGEST_RUN):
        self.lose = lose
        self.drop = drop
        self.longest_run = longest_run
        self.sender = sending.fresh(active=True)
        self.receiver = receiving.fresh()
        self.memory = bytearray(receiving.LEAST_ROOM)
        self.run = 0
        # In the order of time: calls refused, mFrames written, answers of the receiver.
        self.refusals = []
        self.passages = []
        self.heard = []

    def set_hold(self, hold):
        self.sender = replace(self.sender, hold=hold)

    def set_extra(self, extra):
        self.sender = replace(self.sender, extra=extra)

    def express(self, body):
        memory = self.lent()
        self.written(memory, sending.express(memory, body), False, body)

    def verify(self):
        memory = self.lent()
        self.written(memory, sending.verify(memory), False, None)

    def respond(self):
        memory = self.lent()
        self.written(memory, sending.respond(memory), False, None)

    def preemptable(self, body, ask=sending.NO_ASK):
        memory = self.lent()
        answer, self.sender = sending.preemptable(memory, self.sender, body, ask)
        self.written(memory, answer, True, body)

    @staticmethod
    def lent():
        return bytearray(sending.LEAST_ROOM)

    def written(self, memory, answer, is_preemptable, body):
        """What comes of a call: nothing where it was refused, else an mFrame that arrives or is lost."""
        if isinstance(answer, sending.Refused):
            self.refusals.append(answer.number)
            return
        octets = bytes(memory[:answer.length])
        lost = self.lose()
        if is_preemptable:
            lost = lost and self.run < self.longest_run
            self.run = self.run + 1 if lost else 0
        arrived = None if lost else shortened(octets, self.drop())
        self.passages.append(Passage(octets, is_preemptable, body, answer.done, arrived))
        if not lost:
            self.give(arrived)

    def give(self, octets):
        """What the receiver makes of an mFrame that arrives."""
        answer, self.receiver = receiving.receive(self.memory, self.receiver, octets)
        body = None
        if answer.number == receiving.EXPRESS_DELIVERED:
            begin, length = receiving.express_body(octets)
            body = octets[begin:begin + length]
        elif answer.number == receiving.PREEMPTABLE_DELIVERED:
            body = bytes(self.memory[:answer.detail])
        self.heard.append(Heard(answer, body))


@dataclass(frozen=True)
class Frames:
    """What became of the preemptable frames of a link."""

    # Sent to their end, and of these the ones of which no mFrame was lost.
    sent: int
    whole: int
    # The longest run of preemptable mFrames lost.
    longest_run: int
    # The most mFrames that were written of one frame, sent to its end or not.
    pieces: int


def frames_of(passages):
    """The frames that `passages` tell of."""
    sent = whole = run = longest_run = pieces = most_pieces = 0
    none_lost = True
    for passage in passages:
        if not passage.is_preemptable:
            continue
        run = run + 1 if passage.lost else 0
        longest_run = max(longest_run, run)
        pieces += 1
        most_pieces = max(most_pieces, pieces)
        none_lost = none_lost and not passage.lost
        if passage.done:
            sent += 1
            whole += none_lost
            pieces, none_lost = 0, True
    return Frames(sent, whole, longest_run, most_pieces)


def following(number):
    """The number after this one: what all draws and all bodies are made with."""
    return (1664525 * number + 1013904223) % 2**32


def upper_half(number):
    """The part of a number that is used; the lower bits of such numbers come round too soon."""
    return number // 65536


def body_from(number, length):
    """A body of so many octets, one for each number after `number`."""
    octets = bytearray()
    for _ in range(length):
        number = following(number)
        octets.append(upper_half(number) % 256)
    return bytes(octets)


class Draws:
    """The draws of a game. The state is also what bodies are made from."""

    def __init__(self, seed):
        self.state = seed

    def draw(self, limit):
        """A number from 0 to limit - 1."""
        self.state = following(self.state)
        return upper_half(self.state) % limit

    def body(self):
        """A body of drawn length; it is made from the state after that draw, and draws no more."""
        length = 60 + self.draw(1459)
        return body_from(self.state, length)


def preemptable_turn(link, draws, frame):
    """A preemptable call; gives the body that stays chosen, or None."""
    if frame is None:
        frame = draws.body()
    # Both are drawn, whether they are needed or not.
    is_asked = draws.draw(4) != 0
    on_wire = draws.draw(400)
    link.preemptable(frame, on_wire if is_asked else sending.NO_ASK)
    return frame if link.sender.in_progress() else None


def play(seed, turns, longest_run=LONGEST_RUN):
    """The link after so many turns of the game that `seed` gives."""
    draws = Draws(seed)
    link = Link(lambda: draws.draw(3) == 0, lambda: draws.draw(9), longest_run)
    frame = None
    for _ in range(turns):
        turn = draws.draw(16)
        if turn == 0:
            link.express(draws.body())
        elif turn == 1:
            link.verify()
        elif turn == 2:
            link.respond()
        elif turn == 3:
            link.set_hold(draws.draw(4) == 0)
        elif turn == 4:
            link.set_extra(draws.draw(4))
        else:
            frame = preemptable_turn(link, draws, frame)
    return link
