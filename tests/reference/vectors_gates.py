"""Makes the stored questions and answers on document 02's request (i), the gate control lists.

    python3 tests/reference/vectors_gates.py            writes both files
    python3 tests/reference/vectors_gates.py --check    writes nothing, compares
"""

import sys

import gates_answers
import gates_questions
import stored


def files():
    return stored.vectors("test_gates", gates_questions.all_questions(), gates_answers.answers)


if __name__ == "__main__":
    sys.exit(stored.run(files(), sys.argv[1:]))
