"""FEE ids and the names of staves."""
import hashlib
import unittest

import kesarimbu
from kesarimbu import Refused, Settings
from .differential import DATA

NAMED = {
    "L5_42": 0x502A, "l0_1": 1, "L0_0": 0, "L0_47": 0x002F, "L6_0": 0x6000, "L6_47": 0x602F, "L5_9": 0x5009, "L1_6": 0x1006,
    # A plus sign before a number, and any character of one byte before the first.
    "L+5_+42": 0x502A, "L+6_+47": 0x602F, "L0_+0": 0, "+5_42": 0x502A, "++5_42": 0x502A, "55_42": 0x502A, "-5_42": 0x502A,
    " 5_42": 0x502A, ".5_42": 0x502A, "\x7f5_42": 0x502A, "\t5_42": 0x502A,
    # Zeros before a number, as many as there may be.
    "L06_047": 0x602F, "L005_0042": 0x502A, "L+0_00": 0, "L" + "0" * 300 + "5_42": 0x502A, "L5_" + "0" * 500 + "42": 0x502A,
    "L+" + "0" * 400 + "6_+" + "0" * 400 + "47": 0x602F, "L" + "0" * 256 + "_" + "0" * 257: 0, "L5_" + "0" * 300: 0x5000,
}
NOT_NAMES = [
    # Parts that lack.
    "", "L", "_", "L_", "__", "L5", "L55", "L+", "L5_", "L_5", "_5_1", "__5_1", "5_42", "L+_5", "L5_+",
    # A second underscore.
    "L5_42_", "L5_42_1", "L5_42_x", "L5__42", "L_5_42", "L5_" + "0" * 300 + "_",
    # Signs and blanks where none may be.
    "L++5_42", "L5_++42", "L5+_42", "L5_4+2", "L-0_1", "L-5_42", "L5_-0", "L 5_42", "L5 _42", "L5_ 42", "L5_42 ", "L5_4\t2",
    # A layer above 6, a stave above 47, or both; among them some whose lowest bits are those of a stave that there is.
    "L6_48", "L7_0", "L0_48", "L7_47", "L7_48", "L7_63", "L0_63", "L0_64", "L8_0", "L8_64", "L9_6", "L1_70", "L9_70", "L10_10", "L15_127",
    "L0_70", "L64_0", "L0_128", "L42_5", "L200_100", "L250_249", "L255_0", "L0_255", "L255_255", "L+255_+255", "L007_0", "L0_0048",
    # Numbers above 255, likewise.
    "L256_0", "L0_256", "L257_1", "L261_42", "L5_298", "L512_0", "L999_1", "L1000_1", "L2560_1", "L5_2550", "L65541_42", "L4294967301_42",
    "L18446744073709551621_42", "L5_99999999999999999999999999", "L" + "9" * 400 + "_1", "L5_" + "1" * 600, "L" + "0" * 300 + "256_1",
    # What is no digit: the characters next to 0 and 9, letters, and digits of other scripts; and a first character of several bytes.
    "L0x5_1", "L5a_1", "La_b", "L5-42", "L5.0_1", "L/5_1", "L5:_1", "L5_/", "L5_:", "L" + "0" * 300 + "x_1",
    "L\u0665_1", "L5_4\u00b2", "L\u00e9_1", "\u00e95_42", "\u00e9_5_42", "\u20ac5_42",
]


class FeeIds(unittest.TestCase):
    def test_every_fee_id(self):
        """Stave, layer and uplink are bits 0 to 5, 12 to 14 and 8 to 9; the FEE id made of the first two has these and no more."""
        for fee_id in range(1 << 16):
            fee = kesarimbu.fee(fee_id)
            self.assertEqual(fee, (fee_id >> 12 & 7, fee_id & 63, fee_id >> 8 & 3))
            made = kesarimbu.fee_id(fee.layer, fee.stave)
            self.assertEqual(made, fee_id & 0x703F)
            self.assertTrue(kesarimbu.same_stave(fee_id, made))

    def test_fields_by_name(self):
        fee = kesarimbu.fee(0x522A)
        self.assertEqual((fee.layer, fee.stave, fee.uplink), (5, 42, 2))

    def test_how_many_are_of_one_stave(self):
        """Bits 6 to 11 and 15 are free: 7 bits."""
        self.assertEqual(sum(kesarimbu.same_stave(0x502A, fee_id) for fee_id in range(1 << 16)), 128)

    def test_made_of_any_numbers(self):
        for layer in range(0, 256, 5):
            for stave in range(256):
                self.assertEqual(kesarimbu.fee_id(layer, stave), layer % 8 * 0x1000 + stave % 64)

    def test_pairs(self):
        for one, other in [(0x502A, 0x502A), (0x502A, 0x522A), (0x502A, 0xDFEA), (0x0000, 0x8FC0), (0x703F, 0xFFFF)]:
            with self.subTest(one=one, other=other):
                self.assertIs(kesarimbu.same_stave(one, other), True)
        for one, other in [(0x502A, 0x502B), (0x502A, 0x500A), (0x502A, 0x402A), (0x502A, 0x102A)]:
            with self.subTest(one=one, other=other):
                self.assertIs(kesarimbu.same_stave(one, other), False)

    def test_numbers_that_do_not_fit(self):
        for call in (lambda: kesarimbu.fee(1 << 16), lambda: kesarimbu.fee(-1), lambda: kesarimbu.fee_id(256, 0),
                     lambda: kesarimbu.fee_id(0, 256), lambda: kesarimbu.same_stave(0, 1 << 16), lambda: kesarimbu.same_stave(-1, 0)):
            with self.assertRaises((OverflowError, ValueError)):
                call()


class Names(unittest.TestCase):
    def test_names(self):
        for name, fee_id in NAMED.items():
            with self.subTest(name):
                self.assertEqual(kesarimbu.name(name), fee_id)
                self.assertEqual(kesarimbu.name(name.encode()), fee_id)

    def test_what_is_no_name(self):
        for name in [*NOT_NAMES, b"L5_4\xff", b"L\x80_1", b"\xe9_5_42"]:
            with self.subTest(name):
                with self.assertRaises(Refused) as raised:
                    kesarimbu.name(name)
                self.assertEqual(raised.exception, Refused(8))

    def test_how_many(self):
        """The names are 27 and 93: none was lost by being written twice."""
        self.assertEqual((len(NAMED), len(set(NOT_NAMES))), (27, 93))

    def test_every_stave(self):
        """The names of all staves have the FEE ids that the Rust gives them, with the layer and the stave of the name."""
        lines = []
        for layer in range(7):
            for stave in range(48):
                fee_id = kesarimbu.name(f"L{layer}_{stave}")
                self.assertEqual(kesarimbu.fee(fee_id), (layer, stave, 0))
                lines.append(f"L{layer}_{stave} {fee_id}\n")
        self.assertEqual(len(lines), 336)
        self.assertEqual(hashlib.sha256("".join(lines).encode()).hexdigest(), (DATA / "rust_names.sha256").read_text().strip())

    def test_no_other_stave(self):
        """Of all layers and staves up to 259 no others have a name."""
        for layer in range(260):
            for stave in range(260):
                if layer > 6 or stave > 47:
                    self.assertRaises(Refused, kesarimbu.name, f"L{layer}_{stave}".encode())

    def test_every_first_byte(self):
        """Any below 0x80 may be the first, but `_`."""
        for first in range(256):
            name = bytes([first]) + b"5_42"
            with self.subTest(name):
                if first < 0x80 and first != ord("_"):
                    self.assertEqual(kesarimbu.name(name), 0x502A)
                else:
                    self.assertRaises(Refused, kesarimbu.name, name)


class Filters(unittest.TestCase):
    """The filter by a stave's name, in the settings of a scan."""

    def taken(self, settings, fee_id, link=2):
        packet = bytes(kesarimbu.Header(fee_id=fee_id, link_id=link, offset_new_packet=64, memory_size=64))
        return isinstance(kesarimbu.examine(settings, kesarimbu.Kept(), packet, 0, True).answer, kesarimbu.Packet)

    def test_what_is_taken(self):
        """Exactly the headers of the layer and stave that are named, by whatever uplink."""
        for name in ("L5_42", b"L5_42", "L+05_042"):
            settings = Settings(stave=name)
            for fee_id in range(0, 1 << 16, 7):
                layer, stave, _ = kesarimbu.fee(fee_id)
                self.assertEqual(self.taken(settings, fee_id), (layer, stave) == (5, 42), hex(fee_id))
            self.assertTrue(self.taken(settings, 0x522A))

    def test_link_and_fee_id_still_come_first(self):
        self.assertFalse(self.taken(Settings(link=3, stave="L5_42"), 0x502A))
        self.assertTrue(self.taken(Settings(link=2, stave="L5_42"), 0x0006))
        self.assertFalse(self.taken(Settings(fee=0x0006, stave="L5_42"), 0x502A))

    def test_a_refused_name(self):
        for name in ("L7_0", "L6_48", "L9_70", "L5", ""):
            with self.subTest(name), self.assertRaises(Refused) as raised:
                Settings(stave=name)
            self.assertEqual(raised.exception, Refused(8))


if __name__ == "__main__":
    unittest.main()
