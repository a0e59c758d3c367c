"""Makes the stored questions and answers on document 02's request (vii), the captures.

    python3 tests/reference/vectors_captures.py            writes both files
    python3 tests/reference/vectors_captures.py --check    writes nothing, compares
"""

import sys

import captures_answers
import captures_questions
import stored


def files():
    return stored.vectors("test_captures", captures_questions.all_questions(), captures_answers.answers)


if __name__ == "__main__":
    sys.exit(stored.run(files(), sys.argv[1:]))
