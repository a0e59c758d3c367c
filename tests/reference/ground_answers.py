"""Answers questions on document 01's "Octets of an mFrame", the ending and the cut, in lines of text.

The questions are read back from their octets, so that what is stored is what was answered.
"""

import codes
import crc
import cut
import ground_format as layout
from reader import answered


def check_lines(register, octets):
    """One line for every number of octets from 0 to all of them."""
    lines = []
    for taken in range(len(octets) + 1):
        if taken > 0:
            register = crc.register_after(register, octets[taken - 1:taken])
        lines.append(f"check {taken} {crc.fcs_of_register(register).hex()}"
                     f" {crc.mcrc_of_register(register).hex()}")
    return lines


def octet_line(octet):
    bits = codes.least_differing_bits(octet)
    meaning = codes.as_delimiter(octet)
    if isinstance(meaning, codes.Unknown):
        kind, number = "unknown", meaning.differing_bits
    else:
        kind, number = meaning.kind, meaning.frame_count or 0
    fragment = codes.as_fragment_count(octet)
    fragment_text = "none" if fragment is None else str(fragment)
    return f"octet {octet} {bits} {kind} {number} {fragment_text}"


def count_line(count):
    numbers = (
        codes.next_frame_count(count),
        codes.previous_frame_count(count),
        codes.start_code(count),
        codes.continuation_code(count),
        codes.next_fragment_count(count),
        codes.fragment_code(count),
    )
    return " ".join(["count", str(count)] + [str(number) for number in numbers])


def cut_line(frame_octets, sent, extra, asked, on_wire):
    carried = cut.cut(frame_octets, sent, extra, asked != 0, on_wire)
    return "cut whole" if carried is cut.WHOLE else f"cut {carried}"


def ending_line(register, octets):
    match crc.ending(register, octets):
        case crc.Done(data_octets):
            return f"ending done {data_octets}"
        case crc.More(data_octets, after):
            return f"ending more {data_octets} {after:08x}"
        case crc.Damaged():
            return "ending damaged"


def lay_line(memory, piece, place):
    if place + len(piece) > len(memory):
        return "lay no room"
    return "lay " + (memory[:place] + piece + memory[place + len(piece):]).hex()


def answer_one(reader):
    """The lines that answer the next question."""
    kind = reader.single_octet()
    if kind == layout.CHECK:
        register, length = reader.fields(layout.REGISTER_AND_LENGTH)
        return check_lines(register, reader.run(length))
    if kind == layout.OCTET:
        return [octet_line(reader.single_octet())]
    if kind == layout.COUNT:
        return [count_line(reader.single_octet())]
    if kind == layout.CUT:
        return [cut_line(*reader.fields(layout.CUT_FIELDS))]
    if kind == layout.ENDING:
        register, length = reader.fields(layout.REGISTER_AND_LENGTH)
        return [ending_line(register, reader.run(length))]
    if kind == layout.LAY:
        memory_length, piece_length, place = reader.fields(layout.LAY_FIELDS)
        memory = reader.run(memory_length)
        return [lay_line(memory, reader.run(piece_length), place)]
    raise ValueError(f"no question begins with octet {kind}")


def answers(questions):
    """The whole answer to a run of questions, each line ended by one LF."""
    return answered(questions, answer_one)
