"""The questions asked about document 01's "Sending".

Answers are not looked at here. Only the record is followed with the reference, so that
a frame can be asked for until it is done.
"""

from dataclasses import replace
from itertools import product

import sending
from chance import Chance
from cut import least_part
from send_format import (
    body_question,
    express_question,
    preemptable_question,
    record_question,
    respond_question,
    settings_question,
    verify_question,
)
from sending import NO_ASK, SendingRecord

GREATEST = 2**64 - 1
SEED = 8025

# The rooms that are lent where the question is not about the room. The first is the
# least that is enough; in the others much must keep its values.
ENOUGH_ROOM = (1530, 1531, 1530, 1600, 2048)

YES_AND_NO = (False, True)


class Script:
    """Questions one after the other, with the kept record and body that they lead to."""

    def __init__(self):
        self.questions = []
        self.record = sending.fresh()
        self.body = b""

    def lending(self, room):
        """Room and first octet of the memory for the next call; both change from call to call."""
        number = len(self.questions)
        return (ENOUGH_ROOM[number % len(ENOUGH_ROOM)] if room is None else room), (37 * number) % 256

    def express(self, body, room=None):
        self.questions.append(express_question(body, *self.lending(room)))

    def verify(self, room=None):
        self.questions.append(verify_question(*self.lending(room)))

    def respond(self, room=None):
        self.questions.append(respond_question(*self.lending(room)))

    def set_record(self, record):
        self.record = record
        self.questions.append(record_question(record))

    def set_body(self, body):
        self.body = body
        self.questions.append(body_question(body))

    def set_settings(self, active=None, hold=None, extra=None):
        """Changes those of the three that are given."""
        changes = {"active": active, "hold": hold, "extra": extra}
        self.record = replace(self.record, **{name: value for name, value in changes.items() if value is not None})
        self.questions.append(settings_question(self.record.active, self.record.hold, self.record.extra))

    def call(self, ask=NO_ASK, room=None, asked=1):
        """One preemptable call; gives whether the frame is done with it, False where it is refused."""
        room, fill = self.lending(room)
        self.questions.append(preemptable_question(0 if ask is NO_ASK else asked, ask or 0, room, fill))
        answer, self.record = sending.preemptable(bytearray(room), self.record, self.body, ask)
        return isinstance(answer, sending.Sent) and answer.done

    def call_until_done(self, ask):
        while not self.call(ask):
            pass


def whole_mframes(script, chance):
    """Express, V and R: both sides of each limit, the order of 30 and 32, and many lengths."""
    for room in (0, 1, 71, 72, 73, 1529, 1530, 1531, 2047, 2048):
        script.verify(room)
        script.respond(room)
        script.express(chance.octets(60), room)
    for length in (0, 1, 59, 60, 61, 1517, 1518, 1519, 2048):
        body = chance.octets(length)
        for room in (0, 72, 1529, 1530, 1531, 2048):
            script.express(body, room)
    # A room that the mFrame itself would fit into, but under 1,530.
    for length in (60, 61, 100, 1516, 1517):
        script.express(chance.octets(length), length + 12)
    for length in range(60, 131):
        script.express(chance.octets(length))
    for body in (bytes(60), bytes([0xFF]) * 60, bytes([0x55]) * 64, bytes(1518)):
        script.express(body)
    for _ in range(40):
        script.express(chance.octets(chance.between(60, 700)))
        script.verify()
        script.respond()


def asks_at_the_limits(frame_octets, sent, extra):
    """No ask, and every t next to a limit of the cut, each once."""
    least = least_part(extra)
    remaining = frame_octets - sent
    numbers = (0, 1, least_part(0) - 1, least_part(0), least - 1, least, least + 1, remaining - 65, remaining - 64, remaining - 63,
               remaining - 4, remaining, remaining + 1, 2**32, GREATEST)
    return [NO_ASK] + sorted({number for number in numbers if number >= 0})


def first_mframes(script, chance):
    """Frames not yet begun: bodies about every limit, all four settings of extra, every ask about a limit."""
    shortest_cut = [least_part(extra) + 60 for extra in range(4)]
    lengths = (60, 61, *range(shortest_cut[0] - 5, shortest_cut[0] + 7),
               *(length + more for length in shortest_cut[1:] for more in (-1, 0, 1)), 1517, 1518)
    for number, length in enumerate(lengths):
        script.set_body(chance.octets(length))
        for extra in range(4):
            for ask in asks_at_the_limits(length + 4, 0, extra):
                script.set_record(SendingRecord(True, False, extra, (number + extra) % 4, 0, 0, 0))
                script.call(ask)


def first_mframes_not_active(script, chance):
    """The same without being active: whole, with E, whatever is asked and held; the record stays."""
    for length in (60, 61, 124, 400, 1518):
        script.set_body(chance.octets(length))
        for hold, extra, count in product(YES_AND_NO, (0, 3), (0, 3)):
            for ask in (NO_ASK, 0, 64, GREATEST):
                script.set_record(SendingRecord(False, hold, extra, count, 0, 0, 0))
                script.call(ask)
                # Once more from the record as handed back, and then active.
                script.call(ask)
                script.set_settings(active=True, hold=False)
                script.call(ask)


def continuations_at_the_limits(script, chance):
    """Frames in progress: octets sent from the least to the most, every ask about a limit."""
    for length in (120, 121, 124, 180, 184, 190, 380, 1517, 1518):
        script.set_body(chance.octets(length))
        for extra in range(4):
            least = least_part(extra)
            # The most that may have been sent so that a cut is still lawful is length - 60 - m.
            sent_numbers = {60, 61, 64, length - 61 - least, length - 60 - least, length - 59 - least,
                            length - 61, length - 60}
            for sent in sorted(number for number in sent_numbers if 60 <= number <= length - 60):
                for ask in (NO_ASK, 0, least, least + 1, length + 4 - sent - 64, length + 4 - sent - 63, GREATEST):
                    if ask is not NO_ASK and ask < 0:
                        continue
                    number = len(script.questions)
                    script.set_record(SendingRecord(True, False, extra, number % 4, length, sent, number // 4 % 4))
                    script.call(ask)
                # Without being active the frame runs to its end.
                script.set_record(SendingRecord(False, sent % 2 == 0, extra, sent % 4, length, sent, sent // 4 % 4))
                script.call(0)


def every_pair_of_counts(script, chance):
    """All sixteen pairs of the two counts in a continuation that is cut, then in one that ends the frame."""
    script.set_body(chance.octets(300))
    for frame_count, fragment_count in product(range(4), range(4)):
        for active in YES_AND_NO:
            script.set_record(SendingRecord(active, False, 0, frame_count, 300, 64, fragment_count))
            script.call(0)
            script.call(NO_ASK)


def records_without_a_frame(script, chance):
    """No frame in progress: each field alone at its ends and just out of its range."""
    script.set_body(chance.octets(200))
    good = SendingRecord(False, False, 0, 0, 0, 0, 0)
    altered = [replace(good, extra=extra) for extra in (0, 3, 4, 5, 64, 128, 255)]
    altered += [replace(good, next_frame_count=count) for count in (0, 3, 4, 5, 64, 128, 255)]
    # The other two are not 0 although the length is.
    altered += [replace(good, sent=sent) for sent in (1, 60, 64, 200, 2**16, 2**32, 2**63, GREATEST)]
    altered += [replace(good, next_fragment_count=count) for count in (1, 2, 3, 4, 128, 255)]
    altered += [replace(good, sent=64, next_fragment_count=1)]
    for record in altered:
        for active, hold in product(YES_AND_NO, YES_AND_NO):
            for ask in (NO_ASK, 0):
                script.set_record(replace(record, active=active, hold=hold))
                script.call(ask)


def records_with_a_frame(script, chance):
    """A frame in progress: length, octets sent and counts at the ends of their ranges and just outside."""
    records = []
    for length in (1, 59, 60, 61, 64, 119):
        # The range of octets sent is empty or the length itself is too small.
        for sent in sorted({0, 1, length, 59, 60, 61, GREATEST}):
            records.append(SendingRecord(True, False, 0, 0, length, sent, 0))
    for length in (120, 121, 200, 1517, 1518, 1519, 2048):
        for sent in sorted({0, 1, 59, 60, 61, length - 61, length - 60, length - 59, length - 1, length,
                            length + 1, 2**32 + 60, 2**63, GREATEST - 59, GREATEST}):
            records.append(SendingRecord(True, False, 0, 1, length, sent, 0))
    for length in (2**8 + 2**16, 2**16 + 200, 2**32 + 200, 2**63, 2**63 + 200, GREATEST - 60, GREATEST):
        for sent in (0, 60, 64, length - 60, length, GREATEST):
            records.append(SendingRecord(True, False, 0, 2, length, sent, 0))
    good = SendingRecord(True, False, 0, 0, 200, 64, 0)
    records += [replace(good, next_fragment_count=count) for count in (0, 3, 4, 5, 64, 128, 255)]
    records += [replace(good, extra=extra) for extra in (0, 3, 4, 5, 64, 128, 255)]
    records += [replace(good, next_frame_count=count) for count in (0, 3, 4, 5, 64, 128, 255)]
    records += [replace(good, sent=0), replace(good, sent=0, next_fragment_count=1)]
    for record in records:
        # A body of the record's own length where one can be had, so that nothing but the record is wrong.
        wanted = record.length if record.length <= 2048 else 200
        if len(script.body) != wanted:
            script.set_body(chance.octets(wanted))
        for active in YES_AND_NO:
            for ask in (NO_ASK, 0):
                script.set_record(replace(record, active=active))
                script.call(ask)


def body_lengths(script, chance):
    """32 and 33 at both sides: bodies about the limits, without a frame and with frames of several lengths."""
    records = [SendingRecord(True, False, 0, 3, 0, 0, 0), SendingRecord(False, False, 0, 3, 0, 0, 0)]
    for length, sent in ((120, 60), (200, 64), (1517, 64), (1518, 1458)):
        for active in YES_AND_NO:
            records.append(SendingRecord(active, False, 0, 2, length, sent, 1))
    for length in (0, 1, 59, 60, 61, 119, 120, 121, 199, 200, 201, 1516, 1517, 1518, 1519, 1578, 2048):
        script.set_body(chance.octets(length))
        for record in records:
            script.set_record(record)
            script.call(64)


def rooms(script, chance):
    """30 at both sides, with a short frame, a long one and one in progress."""
    for length, record in ((60, SendingRecord(True, False, 0, 1, 0, 0, 0)),
                           (60, SendingRecord(False, False, 0, 1, 0, 0, 0)),
                           (1518, SendingRecord(True, False, 0, 1, 0, 0, 0)),
                           (200, SendingRecord(True, False, 0, 1, 200, 64, 2)),
                           (200, SendingRecord(False, False, 0, 1, 200, 64, 2))):
        script.set_body(chance.octets(length))
        for room in (0, 1, 72, 76, 1528, 1529, 1530, 1531, 2047, 2048):
            for ask in (NO_ASK, 0):
                script.set_record(record)
                script.call(ask, room)


def order_of_refusals(script, chance):
    """Every choice of the five refusals together, also none of them, in several shapes."""
    bodies = {length: chance.octets(length) for length in (59, 0, 200, 201, 1519, 1518)}
    for short, bad_record, bad_body, other_length, held in product(YES_AND_NO, repeat=5):
        for bad_length, in_progress in ((59, False), (1519, True), (0, True)):
            # 33 needs a frame in progress; 32 without 33 can only be had without one.
            in_progress = other_length or (in_progress and not bad_body)
            length = bad_length if bad_body else 201 if other_length else 200
            if bodies[length] != script.body:
                script.set_body(bodies[length])
            record = SendingRecord(held, held, 0, 1, 200, 64, 1) if in_progress \
                else SendingRecord(held, held, 0, 1, 0, 0, 0)
            if bad_record:
                record = replace(record, extra=4) if in_progress else replace(record, sent=60)
            for ask in (NO_ASK, 0):
                script.set_record(record)
                script.call(ask, 1529 if short else 1530)


def holds(script, chance):
    """34 with and without active and hold, a frame begun or not, with and without an ask; then let go."""
    script.set_body(chance.octets(260))
    for active, hold, in_progress, ask in product(YES_AND_NO, YES_AND_NO, YES_AND_NO, (NO_ASK, 0, 70, GREATEST)):
        frame = (260, 64, 3) if in_progress else (0, 0, 0)
        script.set_record(SendingRecord(active, hold, 0, 2, *frame))
        script.call(ask)
        script.set_settings(hold=not hold)
        script.call(ask)


def long_chains(script, chance):
    """Whole bodies in many fragments; with the least cuts 25 of them, so that the counts go round."""
    script.set_record(sending.fresh(active=True))
    for length in (1518, 1517, 700, 120, 180):
        script.set_body(chance.octets(length))
        for extra in range(4):
            script.set_settings(extra=extra)
            for ask in (0, least_part(extra) + 1):
                script.call_until_done(ask)
    # One octet more on the wire each time, from one octet before the least.
    script.set_settings(extra=0)
    script.set_body(chance.octets(1518))
    ask = least_part(0) - 1
    while not script.call(ask):
        ask += 1
    # An ask need not be written as 1.
    for asked in (2, 16, 128, 255):
        script.call(0, asked=asked)
    script.call(NO_ASK)


def frame_counts_going_round(script, chance):
    """Many frames, whole and cut; those sent with E leave the count where it is."""
    script.set_record(sending.fresh(active=True))
    for number in range(11):
        script.set_body(chance.octets(124 + number))
        script.call_until_done(0 if number % 3 else NO_ASK)
    for number in range(14):
        script.set_body(chance.octets(200 + number))
        script.set_settings(active=False)
        for _ in range(number % 4):
            script.call(0)
        script.set_settings(active=True)
        script.call_until_done(0)


def changes_in_the_middle(script, chance):
    """What can change between the fragments of a frame."""
    for first_count in range(4):
        body = chance.octets(900)
        script.set_body(body)
        script.set_record(SendingRecord(True, False, 0, first_count, 0, 0, 0))
        # Six fragments, so that the fragment count has gone round when something changes.
        for _ in range(6):
            script.call(0)
        # No longer active and active again, with no call between: nothing is remembered.
        script.set_settings(active=False)
        script.set_settings(active=True)
        script.call(70)
        # Held: twice refused, then let go.
        script.set_settings(hold=True)
        script.call(0)
        script.call(NO_ASK)
        script.set_settings(hold=False)
        script.call(0)
        # Other settings of extra, one of them out of range.
        script.set_settings(extra=1)
        script.call(0)
        script.set_settings(extra=4)
        script.call(0)
        script.set_settings(extra=0)
        # Another length, a body that is none, too little room: refused, and the frame goes on.
        for wrong in (body[:-1], body + b"\x00", b""):
            script.set_body(wrong)
            script.call(0)
        script.set_body(body)
        script.call(0, room=1529)
        # Express, V and R between the fragments.
        script.express(chance.octets(60 + first_count))
        script.verify()
        script.respond()
        script.call(0)
        # Other octets of the same length: the check is over the body as given now.
        script.set_body(chance.octets(900))
        script.call(0)
        script.set_body(body)
        # No longer active: to the end as a continuation, then frames with E, then active again.
        script.set_settings(active=False, hold=first_count % 2 == 0)
        script.call(0)
        script.call(0)
        script.call(NO_ASK)
        script.set_settings(active=True, hold=False)
        script.call(0)
        script.set_settings(extra=3)
        script.call(0)
        script.set_settings(extra=0)
        script.call_until_done(0)


def random_record(chance):
    """A record with each field mostly in range."""
    def pick(good, bad):
        return bad[chance.below(len(bad))] if chance.below(12) == 0 else good

    if chance.below(2) == 0:
        length, sent, fragment = 0, 0, 0
    else:
        length = chance.between(120, 1518)
        sent = chance.between(60, length - 60)
        fragment = chance.below(4)
    return SendingRecord(
        active=chance.below(4) > 0,
        hold=chance.below(6) == 0,
        extra=pick(chance.below(4), (4, 9, 255)),
        next_frame_count=pick(chance.below(4), (4, 9, 255)),
        length=pick(length, (1, 119, 1519, 2**32 + 200, GREATEST)),
        sent=pick(sent, (1, 59, 1518, 2**32 + 64, GREATEST)),
        next_fragment_count=pick(fragment, (1, 4, 9, 255)),
    )


def random_ask(chance):
    """None, a small number, one within a frame, or a huge one."""
    which = chance.below(10)
    if which == 0:
        return NO_ASK
    if which == 1:
        return (2**32 + 64, 2**63, GREATEST - 63, GREATEST)[chance.below(4)]
    return chance.below(64) if which < 5 else chance.below(200) if which < 8 else chance.below(1530)


def random_records(script, chance):
    """Records made by hand, at random; where a frame is in progress the body mostly fits."""
    for _ in range(200):
        record = random_record(chance)
        if 0 < record.length <= 2048 and chance.below(10) > 0:
            script.set_body(chance.octets(record.length))
        elif len(script.body) > 300 or chance.below(4) == 0:
            script.set_body(chance.octets(chance.between(55, 300)))
        script.set_record(record)
        for _ in range(3):
            script.call(random_ask(chance))


def random_history(script, chance, steps):
    """A sending side in use: frames in fragments, and now and then anything else."""
    script.set_record(sending.fresh(active=True))
    script.set_body(chance.octets(300))
    for _ in range(steps):
        which = chance.below(40)
        if which == 0:
            script.express(chance.octets(chance.between(58, 150)))
        elif which == 1:
            script.verify()
        elif which == 2:
            script.respond(1529 if chance.below(4) == 0 else None)
        elif which < 6:
            script.set_settings(chance.below(4) > 0, chance.below(4) == 0,
                                chance.below(4) if chance.below(8) else 4)
        elif which == 6:
            script.call(random_ask(chance), room=chance.between(1520, 1535))
        elif which == 7:
            # A body that does not fit the frame in progress, and the right one again.
            right = script.body
            if len(right) < 500:
                script.set_body(right + b"\x01")
                script.call(random_ask(chance))
                script.set_body(right)
        elif script.call(random_ask(chance)):
            script.set_body(chance.octets(chance.between(60, 1518) if chance.below(3) == 0
                                          else chance.between(60, 400)))


def all_questions():
    """Every question, in the order in which they are stored."""
    script = Script()
    chance = Chance(SEED)
    for part in (whole_mframes, first_mframes, first_mframes_not_active, continuations_at_the_limits,
                 every_pair_of_counts, records_without_a_frame, records_with_a_frame, body_lengths, rooms,
                 order_of_refusals, holds, long_chains, frame_counts_going_round, changes_in_the_middle,
                 random_records):
        part(script, chance)
    for steps in (350, 350, 350):
        random_history(script, chance, steps)
    return script.questions
