"""Makes the stored games of the link, which the third demand is run with.

    python3 tests/reference/vectors_link.py            writes both files
    python3 tests/reference/vectors_link.py --check    writes nothing, compares
"""

import sys

import link_answers
import link_questions
import stored


def files():
    return stored.vectors("test_link", link_questions.all_questions(), link_answers.answers)


if __name__ == "__main__":
    sys.exit(stored.run(files(), sys.argv[1:]))
