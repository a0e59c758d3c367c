"""Makes the stored questions and answers on document 01's "Receiving" and "Counters".

    python3 tests/reference/vectors_receive.py            writes both files
    python3 tests/reference/vectors_receive.py --check    writes nothing, compares
"""

import sys

import receive_answers
import receive_questions
import stored


def files():
    return stored.vectors("test_receive", receive_questions.all_questions(), receive_answers.answers)


if __name__ == "__main__":
    sys.exit(stored.run(files(), sys.argv[1:]))
