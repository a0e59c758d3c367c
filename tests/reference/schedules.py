"""Makes the stored gate control lists and what mmholds says of them: document 02, request (i).

    python3 tests/reference/schedules.py            writes all files
    python3 tests/reference/schedules.py --check    writes nothing, compares
"""

import sys

import gates
import mmholds
import stored
from chance import Chance
from gates import HOLD, RELEASE, SET

SEED = 8041
GREATEST_INTERVAL = 2**32 - 1

# A gate for each of eight traffic classes, that of class 7 in the highest bit.
PRESSES = 0b10000000
PRICE = 0b01000000
PHOTOGRAPHS_AND_THE_REST = 0b00111111
ALL = 0b11111111


def hall():
    """A cycle of 10 ms with two windows of 1 ms for presses.

    Before each the port holds: within 0.2 ms what is still on the wire comes to its end, and the price goes out.
    """
    return gates.octets_of([
        gates.Entry(SET, PHOTOGRAPHS_AND_THE_REST, 3_800_000),
        gates.Entry(HOLD, PRICE, 200_000),
        gates.Entry(SET, PRESSES, 1_000_000),
        gates.Entry(RELEASE, PHOTOGRAPHS_AND_THE_REST, 2_800_000),
        gates.Entry(HOLD, PRICE, 200_000),
        gates.Entry(SET, PRESSES, 1_000_000),
        gates.Entry(RELEASE, PHOTOGRAPHS_AND_THE_REST, 900_000),
        gates.Entry(SET, ALL, 100_000),
    ])


def random_entries(chance, count):
    """So many entries at random."""
    return [gates.Entry(chance.below(3), chance.below(256), chance.register()) for _ in range(count)]


def some(count):
    """A list of so many entries, always the same."""
    return gates.octets_of(random_entries(Chance(SEED + count), count))


def entry(operation, length, value_octets):
    """An entry with any operation and length, and so many octets behind its header, of which none is 0."""
    return gates.HEADER.pack(operation, length) + bytes(range(1, value_octets + 1))


def good_lists():
    """Lists that are accepted, by name."""
    greatest = [gates.Entry(number % 3, number, GREATEST_INTERVAL) for number in range(gates.MOST_ENTRIES)]
    # Sums of 0, of 2^32 - 1, of 2^32 and of 2^32 + 1, and events at the same time.
    zeros = [gates.Entry(operation, 255, interval) for operation, interval in (
        (HOLD, 0), (RELEASE, 0), (HOLD, GREATEST_INTERVAL), (RELEASE, 0), (RELEASE, 1), (HOLD, 1), (SET, 0), (HOLD, 0))]
    # Each octet of an interval alone, the lowest first: which of them is high shows in every sum.
    weights = [gates.Entry(HOLD, 0, 256**place) for place in range(4)]
    quiet = [gates.Entry(SET, gate_octet, 1_000_000) for gate_octet in (1, 2, 255)]
    return {
        "empty": b"",
        "one": gates.octets_of([gates.Entry(HOLD, PRESSES, 1_000_000)]),
        "quiet": gates.octets_of(quiet),
        "same_time": gates.octets_of(zeros),
        "octets_of_an_interval": gates.octets_of(weights),
        "greatest": gates.octets_of(greatest),
        "random": some(gates.MOST_ENTRIES),
    }


def cut_lists():
    """Lists that end inside an entry, by name: behind each octet of it, and with any operation and length."""
    good, whole = some(3), gates.octets_of([gates.Entry(RELEASE, PRESSES, 0x01020304)])
    return {
        "cut_in_header": good + whole[:1],
        "cut_behind_header": good + whole[:2],
        "cut_behind_gates": good + whole[:3],
        "cut_in_interval": good + whole[:4],
        "cut_before_last_octet": good + whole[:6],
        "cut_first_entry": whole[:5],
        # No octet of a length is there: whatever the operation, there is nothing else to say.
        "cut_header_of_operation_9": good + b"\x09",
        # Five octets are there, but the entry says 200; the operation is unknown as well.
        "cut_length_200": good + entry(9, 200, 5),
        "cut_length_255": good + entry(SET, 255, 254),
    }


def wrong_lists():
    """Lists with an entry that is there and is no entry of the hall's, by name. What is behind it is not looked at."""
    good, behind = some(4), some(2)
    cut_behind = entry(SET, 5, 3)
    return {
        "operation_3": good + entry(3, 5, 5) + behind,
        "operation_255": good + entry(255, 5, 5) + cut_behind,
        # 61 comes before 62.
        "operation_and_length": good + entry(9, 4, 4) + behind,
        "operation_behind_length": good + entry(HOLD, 6, 6) + entry(9, 5, 5) + behind,
        "length_0": good + entry(HOLD, 0, 0) + behind,
        "length_4": good + entry(HOLD, 4, 4),
        "length_6": good + entry(RELEASE, 6, 6) + behind,
        # 5 in the lower seven bits.
        "length_133": good + entry(HOLD, 133, 133) + behind,
        "length_255": good + entry(SET, 255, 255) + cut_behind,
    }


def long_lists():
    """Lists of 257 entries and more, by name."""
    full = some(gates.MOST_ENTRIES)
    return {
        "entries_257": full + entry(HOLD, 5, 5),
        # An entry that is wrong behind the 257th is not looked at, and neither is a cut one.
        "entries_258": full + some(1) + entry(9, 5, 5) + entry(SET, 5, 1),
        # The 257th is refused as one too many only where nothing else is wrong with it.
        "last_cut_header": full + b"\x02",
        "last_cut_value": full + entry(RELEASE, 5, 4),
        "last_operation_3": full + entry(3, 5, 5) + some(1),
        "last_length_4": full + entry(RELEASE, 4, 4) + some(1),
        # The longest list of which every octet counts, 2,049 octets: without the last one the entry is cut.
        "last_length_255": full + entry(SET, 255, 255),
        "last_operation_9_length_255": full + entry(9, 255, 255),
        "last_cut_length_255": full + entry(9, 255, 254),
        # Far more than anyone needs to read, and the entry that is refused comes early.
        "long": some(10_001),
        "long_operation_3": some(2) + entry(3, 5, 5) + some(9_998),
        "long_length_255": some(255) + entry(HOLD, 255, 255) + some(9_709) + bytes(2),
    }


def all_schedules():
    """Every list by its name."""
    return {"hall": hall(), **good_lists(), **cut_lists(), **wrong_lists(), **long_lists()}


def places(name):
    """Where a list and what is said of it are stored: with mmholds as its sample, else in tests/schedules."""
    if name == "hall":
        return "crates/mmholds/stdin", "crates/mmholds/stdout"
    return f"tests/schedules/{name}.gates", f"tests/schedules/{name}.holds"


def files():
    made = []
    for name, octets in all_schedules().items():
        of_list, of_holds = places(name)
        output, sentence = mmholds.said(octets)
        made.append(stored.StoredFile(of_list, octets, is_text=False))
        made.append(stored.StoredFile(of_holds, (output + sentence).encode("ascii"), is_text=True))
    return made


if __name__ == "__main__":
    sys.exit(stored.run(files(), sys.argv[1:]))
