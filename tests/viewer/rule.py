"""The rule by which the viewer puts frames together, as far as test_eyes.py has seen it: it predicts each place where viewer and receiver differ.

It is document 01's rule with the standard's mCRC, but knows no lengths: what the receiver refuses for its preamble or its length (12, 13, 14) is a
start or a continuation like any other, and no frame is too long (24).
"""

from made import codes, crc, published, receiving

# The viewer takes a first octet 50 for the bits that are missing in a preamble, and passes over it. To the receiver it is an unknown delimiter (15).
HALF = b"\x50"


def put_together(contents):
    """Of the contents of a capture what the viewer puts together, by the number of the last record: the numbers of all, and the octets."""
    together, parts, frame_count, register = {}, [], None, None
    for number, octets in enumerate(contents, start=1):
        head = receiving.head_of(octets.removeprefix(HALF))
        if not is_part(head):
            continue
        if head.is_of(codes.START):
            parts, frame_count, register = [], head.delimiter.frame_count, crc.ALL_ONES
        elif not parts or counts(head) != (frame_count, (len(parts) - 1) % codes.COUNTS):
            parts = []
            continue
        data, check = head.behind[:-crc.CHECK_OCTETS], head.behind[-crc.CHECK_OCTETS:]
        parts.append((number, data))
        register = crc.register_after(register, data)
        if check == crc.fcs_of_register(register) and head.is_of(codes.CONTINUATION):
            together[number] = tuple(number for number, _ in parts), b"".join(data for _, data in parts)
        if check != published(crc.mcrc_of_register(register)):
            parts = []
    return together


def is_part(head):
    """A start or a continuation, with four octets at least to be its check."""
    return len(head.behind) >= crc.CHECK_OCTETS and (
        head.is_of(codes.START) or head.is_of(codes.CONTINUATION) and codes.as_fragment_count(head.fragment_code) is not None)


def counts(head):
    return head.delimiter.frame_count, codes.as_fragment_count(head.fragment_code)
