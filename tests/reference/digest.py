"""One short word for a whole run of octets in the stored answers.

The word is document 01's FCS, 8 hexadecimal digits, first octet first. It only says
whether two runs of octets are the same, and it is needed thousands of times, so it is
taken with Python's zlib.crc32; test_crc.py and test_digest.py show that crc.py gives the same.
"""

import zlib


def digest(octets):
    return zlib.crc32(octets).to_bytes(4, "little").hex()
