"""Answers questions on document 02's request (vii), the captures, in lines of text.

The questions are read back from their octets, so that what is stored is what was answered.
"""

import captures
import captures_format as layout
from digest import digest
from reader import answered, lent_memory


def answer_one(reader):
    """The line that answers the next question: the answer, and the CHECK of all of the lent memory after it."""
    kind = reader.single_octet()
    if kind not in layout.NAMES:
        raise ValueError(f"no question begins with octet {kind}")
    length, room, fill = reader.fields(layout.FIELDS)
    octets = reader.run(length, layout.MOST_OCTETS)
    memory = lent_memory(room, fill, layout.MOST_OCTETS)
    answer = (captures.write if kind == layout.WRITE else captures.read)(octets, room)
    memory[:len(answer.written)] = answer.written
    return [f"{layout.NAMES[kind]} {answer.number} {answer.value} {digest(memory)}"]


def answers(questions):
    """The whole answer to a run of questions, each line ended by one LF."""
    return answered(questions, answer_one)
