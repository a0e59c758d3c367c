"""The games that are played on the link: pairs of a seed and a number of turns."""

from link_format import entry_question

# No turn at all, and so few that each line can be worked out by hand.
SHORT = ((0, 0), (0, 1), (1, 2), (5, 10), (2**32 - 1, 20), (2**31, 50))

# Long enough for every mixture of cuts, losses, holds and other kinds between.
LONG = tuple((seed, 1000) for seed in range(100, 124))


def all_entries():
    """Every entry, in the order in which they are stored."""
    return [*SHORT, *LONG]


def all_questions():
    return [entry_question(seed, turns) for seed, turns in all_entries()]
