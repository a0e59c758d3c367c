"""How the questions on captures for eyes are laid out in octets: as those on captures, with a third kind."""

import captures_format
from captures_format import FIELDS, MOST_OCTETS, READ, WRITE, question

SHOW = 3

NAMES = {**captures_format.NAMES, SHOW: "show"}

__all__ = ["FIELDS", "MOST_OCTETS", "NAMES", "READ", "SHOW", "WRITE", "question"]
