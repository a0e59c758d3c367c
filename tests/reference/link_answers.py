"""Puts the games of a link out in lines of text.

The entries are read back from their octets, so that what is stored is what was played.
"""

import link
import link_format as layout
import receiving
from digest import digest
from reader import answered


def heard_line(heard):
    """Number and detail of an answer, and behind them the check of a body delivered."""
    words = f"{heard.answer.number} {heard.answer.detail}"
    return words if heard.body is None else f"{words} {digest(heard.body)}"


def end_line(played):
    """What became of the frames, and the receiver's counters."""
    frames = link.frames_of(played.passages)
    numbers = [heard.answer.number for heard in played.heard]
    delivered = numbers.count(receiving.PREEMPTABLE_DELIVERED)
    express = numbers.count(receiving.EXPRESS_DELIVERED)
    counters = played.receiver.counters
    return (f"end {frames.sent} {frames.whole} {delivered} {express} {frames.longest_run} {frames.pieces}"
            f" {counters.assembly_errors} {counters.delimiter_errors} {counters.assembled} {counters.fragments}")


def lines(played):
    """The lines of one game, played to its end."""
    return [*map(heard_line, played.heard), end_line(played)]


def answers(entries):
    """The whole answer to a run of entries, each line ended by one LF."""
    return answered(entries, lambda reader: lines(link.play(*reader.fields(layout.ENTRY_FIELDS))))
