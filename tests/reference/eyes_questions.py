"""The questions asked about captures for eyes: those on captures, where a trace that tells something is also shown, and then traces of mFrames.

Answers are not looked at here: traces, captures and the rooms that are lent are chosen by what is put into them.
"""

import captures_mframes
import captures_questions
from captures_questions import SEED, capture_of, trace_of, trace_record
from chance import Chance
from eyes_format import SHOW


class Script(captures_questions.Script):
    """Questions one after the other. What is written is shown as well where this is so."""

    shows_too = False

    def write(self, trace, room=None):
        """Of what no receiver hears a capture for eyes is the plain one, and it is refused alike."""
        super().write(trace, room)
        if self.shows_too:
            self.show(trace, room)

    def show(self, trace, room=None):
        """Where no room is named, more than a trace as long can need: at most it has a record in every four octets."""
        self.ask(SHOW, trace, 4 * len(trace) + 30 if room is None else room)


def shown_mframes(script, chance):
    """What a receiver must keep apart, each with room for more."""
    for mframes in captures_mframes.all_lists(chance):
        script.show(trace_of(mframes))


def shown_rooms(script, chance):
    """Fragments with every room about what is needed, with room for some of the records, and with little."""
    contents = captures_mframes.with_presses(chance)
    trace = trace_of(contents)
    for count in range(len(contents) + 1):
        needed = len(capture_of("little", contents[:count]))
        script.about(script.show, trace_of(contents[:count]), needed)
        script.show(trace, needed)
    for room in (1, 4, 23, 25, 40):
        script.show(trace, room)


def shown_refusals(script, chance):
    """Behind fragments each refusal, with room, with none and with room for what comes before; and before fragments."""
    contents = captures_mframes.with_presses(chance)
    good = trace_of(contents)
    for fault in (b"\x48\x00\x01", trace_record(1601, 70), trace_record(72, kind=2), trace_record(72, 71)):
        script.refused(script.show, good + fault)
        script.show(good + fault, len(capture_of("little", contents)))
        script.show(trace_of(contents[:2]) + fault + good)
        script.show(fault + good)
    # A V, and a start that is cut.
    whole, cut = trace_of(contents[:1]), trace_of(contents[1:2])
    for there in range(2, len(cut), 5):
        script.show(whole + cut[:there])


# The parts on captures in which what is written is shown as well, and those on captures for eyes alone.
SHOWN_TOO = (captures_questions.no_records, captures_questions.every_small_room, captures_questions.cuts,
             captures_questions.trace_headers, captures_questions.trace_lengths,
             captures_questions.trace_faults_in_two_records, captures_questions.late_refusals)
PARTS = (*captures_questions.PARTS, shown_mframes, shown_rooms, shown_refusals)


def all_questions():
    """Every question, in the order in which they are stored."""
    script = Script()
    chance = Chance(SEED)
    for part in PARTS:
        script.shows_too = part in SHOWN_TOO
        part(script, chance)
    return script.questions
