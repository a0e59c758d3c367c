"""Makes the stored questions and answers on captures for eyes.

    python3 tests/reference/vectors_eyes.py            writes both files
    python3 tests/reference/vectors_eyes.py --check    writes nothing, compares
"""

import sys

import eyes_answers
import eyes_questions
import stored


def files():
    return stored.vectors("test_eyes", eyes_questions.all_questions(), eyes_answers.answers)


if __name__ == "__main__":
    sys.exit(stored.run(files(), sys.argv[1:]))
