"""Makes the stored questions and answers on document 01's "Sending".

    python3 tests/reference/vectors_send.py            writes both files
    python3 tests/reference/vectors_send.py --check    writes nothing, compares
"""

import sys

import send_answers
import send_questions
import stored


def files():
    return stored.vectors("test_send", send_questions.all_questions(), send_answers.answers)


if __name__ == "__main__":
    sys.exit(stored.run(files(), sys.argv[1:]))
