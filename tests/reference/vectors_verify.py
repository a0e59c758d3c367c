"""Makes the stored questions and answers on document 01's "Verification" and document 02's request (v).

    python3 tests/reference/vectors_verify.py            writes both files
    python3 tests/reference/vectors_verify.py --check    writes nothing, compares
"""

import sys

import stored
import verify_answers
import verify_questions


def files():
    return stored.vectors("test_verify", verify_questions.all_questions(), verify_answers.answers)


if __name__ == "__main__":
    sys.exit(stored.run(files(), sys.argv[1:]))
