"""Answers questions on document 02's request (i), the gate control lists, in lines of text.

The questions are read back from their octets, so that what is stored is what was answered.
"""

import gates
import gates_format as layout
from digest import digest
from reader import answered, lent_memory


def lent_rows(room, fill, row):
    """Lent memory for so many entries or events, each laid out as `row` says."""
    return lent_memory(room * row.size, fill, layout.MOST_ROWS * row.size)


def as_octets(rows, row):
    return b"".join(row.pack(*words) for words in rows)


def line(name, numbers, memory, written):
    """An answer, and the CHECK of all of the lent memory once this is written to its front."""
    memory[:len(written)] = written
    return " ".join([name, *(str(number) for number in numbers), digest(memory)])


def read_line(octets, room, fill):
    answer = gates.read(octets, room)
    return line("read", (answer.number, answer.value), lent_rows(room, fill, layout.ENTRY),
                as_octets(answer.written, layout.ENTRY))


def write_line(octets, room, fill):
    answer = gates.write(list(layout.ENTRY.iter_unpack(octets)), room)
    return line("write", (answer.number, answer.value), lent_memory(room, fill), bytes(answer.written))


def events_line(octets, room, fill):
    answer = gates.events(octets, room)
    return line("events", (answer.number, answer.value, answer.cycle), lent_rows(room, fill, layout.EVENT),
                as_octets(answer.written, layout.EVENT))


def answer_one(reader):
    """The line that answers the next question."""
    kind = reader.single_octet()
    if kind not in layout.NAMES:
        raise ValueError(f"no question begins with octet {kind}")
    length, room, fill = reader.fields(layout.FIELDS)
    if kind == layout.WRITE:
        octets = reader.run(length * layout.ENTRY.size, layout.MOST_ROWS * layout.ENTRY.size)
        return [write_line(octets, room, fill)]
    octets = reader.run(length)
    return [(read_line if kind == layout.READ else events_line)(octets, room, fill)]


def answers(questions):
    """The whole answer to a run of questions, each line ended by one LF."""
    return answered(questions, answer_one)
