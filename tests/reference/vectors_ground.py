"""Makes the stored questions and answers on document 01's "Octets of an mFrame", the ending and the cut.

    python3 tests/reference/vectors_ground.py            writes both files
    python3 tests/reference/vectors_ground.py --check    writes nothing, compares
"""

import sys

import ground_answers
import ground_questions
import stored


def files():
    return stored.vectors("test_ground", ground_questions.all_questions(), ground_answers.answers)


if __name__ == "__main__":
    sys.exit(stored.run(files(), sys.argv[1:]))
