"""Where a preemptable frame is cut: document 01, "Sending", the paragraph on the ask, with the m of document 02, (ii).

The least lawful cut is looked for by trying 0, 1, 2 and so on. No formula for it is
given here; the tests compare the search with one.
"""

# What runs to the frame's end has no cut.
WHOLE = None

# The least that must remain after a cut, the frame's own FCS among it.
LEAST_REMAINDER = 64


def least_part(extra):
    """m: the least number of data octets that an mFrame with an mCRC carries; with the mCRC itself 64, 128, 192 or 256 octets."""
    return 64 * (1 + extra) - 4


def cut(frame_octets, sent, extra, asked, on_wire):
    """How many data octets the next mFrame carries when it is cut, or WHOLE.

    frame_octets is L (body plus 4), sent is s, on_wire is t; t counts only when asked.
    None of them is limited: a body can be hand-made, and t can be any number at all.
    """
    if not asked:
        return WHOLE
    tried = 0
    # Where too little remains after `tried` octets, too little remains after any more,
    # so the search is over. That is also why a huge t costs nothing on a short frame.
    while frame_octets - sent - tried >= LEAST_REMAINDER:
        if tried >= on_wire and tried >= least_part(extra):
            return tried
        tried += 1
    return WHOLE
