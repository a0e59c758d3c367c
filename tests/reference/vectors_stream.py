"""Makes the stored questions and answers on document 02's request (iv), the octets that come one at a time.

    python3 tests/reference/vectors_stream.py            writes both files
    python3 tests/reference/vectors_stream.py --check    writes nothing, compares
"""

import sys

import stored
import stream_answers
import stream_questions


def files():
    return stored.vectors("test_stream", stream_questions.all_questions(), stream_answers.answers)


if __name__ == "__main__":
    sys.exit(stored.run(files(), sys.argv[1:]))
