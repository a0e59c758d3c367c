"""Tests of crc.py: document 01, "Octets of an mFrame", "Receiving" and both nine-octet marked examples.

The check is compared with Python's zlib.crc32, which is built on the reflected register
that crc.py does without. zlib's value is the register after the complement.
"""

import unittest
import zlib

import crc
from chance import Chance

NINE = b"123456789"
NINE_FCS = bytes.fromhex("2639F4CB")
NINE_MCRC = bytes.fromhex("26390B34")
# What IEEE 802.3br itself would send, and document 01 does not.
NINE_FIRST_TWO_INVERTED = bytes.fromhex("D9C6F4CB")


def zlib_fcs(octets):
    return zlib.crc32(octets).to_bytes(4, "little")


def zlib_register(register, octets):
    return zlib.crc32(octets, register ^ 0xFFFFFFFF) ^ 0xFFFFFFFF


def zlib_mcrc(octets):
    return (zlib.crc32(octets) ^ 0xFFFF0000).to_bytes(4, "little")


def zlib_standard_mcrc(octets):
    return (zlib.crc32(octets) ^ 0x0000FFFF).to_bytes(4, "little")


class MarkedExamples(unittest.TestCase):
    def test_fcs_of_the_nine_octets(self):
        self.assertEqual(crc.fcs(NINE), NINE_FCS)

    def test_mcrc_of_the_nine_octets(self):
        self.assertEqual(crc.mcrc(NINE), NINE_MCRC)


class AgainstZlib(unittest.TestCase):
    def test_every_length_up_to_1600(self):
        message = Chance(1).octets(1600)
        for length in range(1601):
            self.assertEqual(crc.fcs(message[:length]), zlib_fcs(message[:length]), length)

    def test_every_length_octet_by_octet(self):
        message = Chance(2).octets(1600)
        register = 0xFFFFFFFF
        for length in range(1601):
            self.assertEqual(crc.fcs_of_register(register), zlib_fcs(message[:length]), length)
            self.assertEqual(crc.mcrc_of_register(register), zlib_mcrc(message[:length]), length)
            register = crc.register_after(register, message[length:length + 1])

    def test_every_octet_value(self):
        for octet in range(256):
            for message in (bytes([octet]), bytes([octet, 0, 0, 0, 0]), NINE + bytes([octet]), bytes([octet]) * 60):
                self.assertEqual(crc.fcs(message), zlib_fcs(message), message)
                self.assertEqual(crc.mcrc(message), zlib_mcrc(message), message)

    def test_every_octet_value_from_another_register(self):
        chance = Chance(3)
        for octet in range(256):
            register = chance.register()
            self.assertEqual(crc.register_after(register, bytes([octet])), zlib_register(register, bytes([octet])))

    def test_short_runs_from_any_register(self):
        # Below four octets the register reaches beyond the message.
        chance = Chance(4)
        for length in range(12):
            for register in (0, 1, 0x80000000, 0xFFFFFFFF, chance.register(), chance.register()):
                octets = chance.octets(length)
                self.assertEqual(crc.register_after(register, octets), zlib_register(register, octets))

    def test_random_cuts_carry_the_register_over(self):
        chance = Chance(5)
        for _ in range(200):
            message = chance.octets(chance.between(1, 1600))
            register = 0xFFFFFFFF
            place = 0
            while place < len(message):
                part = message[place:place + chance.between(1, 700)]
                register = crc.register_after(register, part)
                place += len(part)
                self.assertEqual(register, zlib_register(0xFFFFFFFF, message[:place]))
            self.assertEqual(crc.fcs_of_register(register), zlib_fcs(message))


class Registers(unittest.TestCase):
    def test_no_octets_leave_the_register(self):
        for register in (0, 1, 0x12345678, 0xFFFFFFFF):
            self.assertEqual(crc.register_after(register, b""), register)

    def test_low_octet_first_and_complemented(self):
        self.assertEqual(crc.fcs_of_register(0xFFFFFFFF), bytes(4))
        self.assertEqual(crc.fcs_of_register(~0x04030201 & 0xFFFFFFFF), bytes([1, 2, 3, 4]))
        self.assertEqual(crc.mcrc_of_register(~0x04030201 & 0xFFFFFFFF), bytes([1, 2, 0xFC, 0xFB]))

    def test_a_frame_with_its_fcs_leaves_the_known_residue(self):
        # DEBB20E3 is the residue that receivers by other makers compare with.
        chance = Chance(6)
        for length in (0, 1, 3, 4, 60, 1518):
            data = chance.octets(length)
            self.assertEqual(crc.register_after(0xFFFFFFFF, data + crc.fcs(data)), 0xDEBB20E3)


class FcsAndMcrc(unittest.TestCase):
    def assert_differ(self, register):
        fcs = crc.fcs_of_register(register)
        mcrc = crc.mcrc_of_register(register)
        self.assertNotEqual(fcs, mcrc)
        self.assertEqual(fcs[:2], mcrc[:2])
        self.assertEqual([left ^ right for left, right in zip(fcs[2:], mcrc[2:])], [0xFF, 0xFF])

    def test_they_are_never_equal(self):
        chance = Chance(7)
        for octet in range(256):
            # Every value of each of the two octets that make the difference.
            self.assert_differ(octet << 24 | chance.below(2**24))
            self.assert_differ(chance.below(256) << 24 | octet << 16 | chance.below(2**16))
        for register in (0, 0xFFFFFFFF, 0x0000FFFF, 0xFFFF0000):
            self.assert_differ(register)

    def test_different_registers_have_different_checks(self):
        # One bit apart, so that no bit is lost on the way out.
        for place in range(32):
            self.assertNotEqual(crc.fcs_of_register(0), crc.fcs_of_register(1 << place))
            self.assertNotEqual(crc.mcrc_of_register(0), crc.mcrc_of_register(1 << place))


class StandardMcrc(unittest.TestCase):
    """The mCRC of IEEE 802.3br, which no receiver here takes."""

    def test_the_nine_octets(self):
        self.assertEqual(crc.standard_mcrc(NINE), NINE_FIRST_TWO_INVERTED)

    def test_against_zlib(self):
        message = Chance(10).octets(1518)
        for length in range(1519):
            self.assertEqual(crc.standard_mcrc(message[:length]), zlib_standard_mcrc(message[:length]), length)

    def test_in_the_words_of_clause_99(self):
        # The complement at the end is left out, and then the last two octets are inverted.
        chance = Chance(11)
        for length in (0, 1, 3, 4, 60, 64, 1458, 1518):
            octets = chance.octets(length)
            first, second, third, fourth = zlib_register(0xFFFFFFFF, octets).to_bytes(4, "little")
            self.assertEqual(crc.standard_mcrc(octets), bytes([first, second, third ^ 0xFF, fourth ^ 0xFF]))

    def test_it_is_never_taken(self):
        chance = Chance(12)
        for length in (0, 4, 60, 61, 1518):
            octets = chance.octets(length)
            self.assertEqual(crc.ending(0xFFFFFFFF, octets + crc.standard_mcrc(octets)), crc.Damaged())


class Endings(unittest.TestCase):
    def test_the_nine_octets(self):
        self.assertEqual(crc.ending(0xFFFFFFFF, NINE + NINE_FCS), crc.Done(9))
        self.assertEqual(crc.ending(0xFFFFFFFF, NINE + NINE_MCRC), crc.More(9, 0x340BC6D9))
        self.assertEqual(crc.ending(0xFFFFFFFF, NINE + NINE_FIRST_TWO_INVERTED), crc.Damaged())
        self.assertEqual(crc.ending(0xFFFFFFFF, NINE + NINE_FCS[::-1]), crc.Damaged())

    def test_a_wrong_bit_anywhere(self):
        for check in (NINE_FCS, NINE_MCRC):
            whole = NINE + check
            for place in range(8 * len(whole)):
                wrong = bytearray(whole)
                wrong[place // 8] ^= 1 << place % 8
                self.assertEqual(crc.ending(0xFFFFFFFF, wrong), crc.Damaged(), place)

    def test_fewer_than_four_octets(self):
        for length in range(4):
            self.assertEqual(crc.ending(0xFFFFFFFF, bytes(length)), crc.Damaged())
        # Four are enough: no data, and the check of no octets.
        self.assertEqual(crc.ending(0xFFFFFFFF, bytes(4)), crc.Done(0))
        self.assertEqual(crc.ending(0xFFFFFFFF, bytes.fromhex("0000FFFF")), crc.More(0, 0xFFFFFFFF))

    def test_a_frame_in_three_parts(self):
        body = Chance(8).octets(300)
        first = crc.ending(0xFFFFFFFF, body[:64] + zlib_mcrc(body[:64]))
        self.assertEqual(first, crc.More(64, zlib.crc32(body[:64]) ^ 0xFFFFFFFF))
        second = crc.ending(first.register, body[64:200] + zlib_mcrc(body[:200]))
        self.assertEqual(second, crc.More(136, zlib.crc32(body[:200]) ^ 0xFFFFFFFF))
        self.assertEqual(crc.ending(second.register, body[200:] + zlib_fcs(body)), crc.Done(100))

    def test_a_check_begun_anew_is_damaged(self):
        body = Chance(9).octets(200)
        first = crc.ending(0xFFFFFFFF, body[:64] + zlib_mcrc(body[:64]))
        for check in (zlib_mcrc(body[64:]), zlib_fcs(body[64:])):
            self.assertEqual(crc.ending(first.register, body[64:] + check), crc.Damaged())

    def test_verify_and_respond_carry_a_good_mcrc(self):
        zeros = bytes(60)
        self.assertEqual(crc.ending(0xFFFFFFFF, zeros + zlib_mcrc(zeros)),
                         crc.More(60, zlib.crc32(zeros) ^ 0xFFFFFFFF))


if __name__ == "__main__":
    unittest.main()
