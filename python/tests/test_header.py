"""A header's way to and from its 64 bytes, its equality, the parts of its fields, and its row."""
import unittest

import kesarimbu
from kesarimbu import Header, Refused

# The header's 64 bytes: each field's place and width. Numbers stand with the low byte first.
LAYOUT = [
    ("header_id", 0, 1), ("header_size", 1, 1), ("fee_id", 2, 2), ("priority_bit", 4, 1), ("system_id", 5, 1), ("rdh0_reserved0", 6, 2),
    ("offset_new_packet", 8, 2), ("memory_size", 10, 2), ("link_id", 12, 1), ("packet_counter", 13, 1), ("cruid_dw", 14, 2),
    ("bc_reserved0", 16, 4), ("orbit", 20, 4), ("dataformat_reserved0", 24, 8), ("trigger_type", 32, 4), ("pages_counter", 36, 2),
    ("stop_bit", 38, 1), ("rdh2_reserved0", 39, 1), ("reserved1", 40, 8), ("detector_field", 48, 4), ("par_bit", 52, 2),
    ("rdh3_reserved0", 54, 2), ("reserved2", 56, 8),
]
LENGTHS = [0, 1, 63, 64, 65, 128]


def with_number(place, width, number):
    """64 zeros, with a number at its place."""
    return bytes(place) + number.to_bytes(width, "little") + bytes(64 - place - width)


class ThereAndBack(unittest.TestCase):
    def test_each_field_alone(self):
        for name, place, width in LAYOUT:
            for number in (0, 1, 256**width - 1):
                with self.subTest(name, number=number):
                    header, encoded = Header(**{name: number}), with_number(place, width, number)
                    self.assertEqual(bytes(header), encoded)
                    self.assertEqual(kesarimbu.decode(encoded), header)
                    self.assertTrue(kesarimbu.equal(kesarimbu.decode(encoded), header))

    def test_every_field_in_its_order(self):
        self.assertEqual([name for name, _, _ in LAYOUT], list(Header.__dataclass_fields__))

    def test_numbers_that_do_not_fit(self):
        for name, _, width in LAYOUT:
            for number in (256**width, -1):
                with self.subTest(name, number=number), self.assertRaises((OverflowError, ValueError)):
                    bytes(Header(**{name: number}))

    def test_bytes_00(self):
        header = kesarimbu.decode(bytes(64))
        self.assertEqual(header, Header())
        self.assertEqual((header.cru_id, header.dw, header.bc, header.bc_reserved, header.data_format), (0, 0, 0, 0, 0))

    def test_bytes_ff(self):
        header = kesarimbu.decode(b"\xff" * 64)
        self.assertEqual(header, Header(**{name: 256**width - 1 for name, _, width in LAYOUT}))
        self.assertEqual((header.cru_id, header.dw), (0xFFF, 0xF))
        self.assertEqual((header.bc, header.bc_reserved), (0xFFF, 0xFFFFF))
        self.assertEqual(header.data_format, 0xFF)
        self.assertEqual(kesarimbu.fee(header.fee_id), (7, 63, 3))

    def test_bytes_0_to_63(self):
        header = kesarimbu.decode(bytes(range(64)))
        self.assertEqual(header, Header(
            header_id=0, header_size=1, fee_id=0x0302, priority_bit=4, system_id=5, rdh0_reserved0=0x0706, offset_new_packet=0x0908,
            memory_size=0x0B0A, link_id=0x0C, packet_counter=0x0D, cruid_dw=0x0F0E, bc_reserved0=0x13121110, orbit=0x17161514,
            dataformat_reserved0=0x1F1E1D1C1B1A1918, trigger_type=0x23222120, pages_counter=0x2524, stop_bit=0x26, rdh2_reserved0=0x27,
            reserved1=0x2F2E2D2C2B2A2928, detector_field=0x33323130, par_bit=0x3534, rdh3_reserved0=0x3736,
            reserved2=0x3F3E3D3C3B3A3938))
        self.assertEqual((header.cru_id, header.dw), (0xF0E, 0))
        self.assertEqual((header.bc, header.bc_reserved), (0x110, 0x13121))
        self.assertEqual(header.data_format, 0x18)
        self.assertEqual(kesarimbu.fee(header.fee_id), (0, 2, 3))

    def test_parts_at_their_edges(self):
        for header, parts in [
                (Header(cruid_dw=0x0FFF), (0xFFF, 0, 0, 0, 0)), (Header(cruid_dw=0x1000), (0, 1, 0, 0, 0)),
                (Header(bc_reserved0=0xFFF), (0, 0, 0xFFF, 0, 0)), (Header(bc_reserved0=0x1000), (0, 0, 0, 1, 0)),
                (Header(dataformat_reserved0=0xFF), (0, 0, 0, 0, 0xFF)), (Header(dataformat_reserved0=0x100), (0, 0, 0, 0, 0))]:
            with self.subTest(header=header):
                self.assertEqual((header.cru_id, header.dw, header.bc, header.bc_reserved, header.data_format), parts)

    def test_physics_trigger_is_bit_4(self):
        for bit in range(32):
            self.assertIs(Header(trigger_type=1 << bit).is_pht_trigger, bit == 4)
            self.assertIs(Header(trigger_type=0xFFFFFFFF - (1 << bit)).is_pht_trigger, bit != 4)


class Equality(unittest.TestCase):
    def test_headers_that_differ_in_one_field(self):
        header = Header(**{name: int("5A" * width, 16) for name, _, width in LAYOUT})
        for name, _, _ in LAYOUT:
            with self.subTest(name):
                other = Header(**{**header.__dict__, name: 0x5B})
                self.assertFalse(kesarimbu.equal(header, other))
                self.assertFalse(kesarimbu.equal(other, header))
                self.assertTrue(kesarimbu.equal(header, header))
                self.assertTrue(kesarimbu.equal(other, other))


class Lengths(unittest.TestCase):
    """Buffers shorter than a header, as long, and longer."""

    def test_decode(self):
        content = bytes(range(128, 256))
        for length in LENGTHS:
            for kind in (bytes, bytearray, memoryview):
                with self.subTest(length=length, kind=kind):
                    if length < 64:
                        with self.assertRaises(Refused) as raised:
                            kesarimbu.decode(kind(content[:length]))
                        self.assertEqual(raised.exception, Refused(9))
                    else:
                        self.assertEqual(bytes(kesarimbu.decode(kind(content[:length]))), content[:64])

    def test_encode(self):
        ones = Header(**{name: 256**width - 1 for name, _, width in LAYOUT})
        for length in LENGTHS:
            with self.subTest(length=length):
                buffer = bytearray(b"\xa5" * 128)
                if length < 64:
                    with self.assertRaises(Refused) as raised:
                        kesarimbu.encode(ones, memoryview(buffer)[:length])
                    self.assertEqual(raised.exception, Refused(9))
                    self.assertEqual(buffer, b"\xa5" * 128)
                else:
                    self.assertIsNone(kesarimbu.encode(ones, memoryview(buffer)[:length]))
                    self.assertEqual(buffer, b"\xff" * 64 + b"\xa5" * 64)


class Rows(unittest.TestCase):
    """The row of a header into buffers of many lengths, which held dots before."""

    def rows(self, header, text, lengths):
        self.assertEqual(kesarimbu.row(header), text)
        for length in lengths:
            with self.subTest(length=length):
                buffer = bytearray(b"." * 128)
                if length < len(text):
                    with self.assertRaises(Refused) as raised:
                        kesarimbu.row(header, memoryview(buffer)[:length])
                    self.assertEqual(raised.exception, Refused(7, (len(text),)))
                    self.assertEqual(buffer, b"." * 128)
                else:
                    self.assertEqual(kesarimbu.row(header, memoryview(buffer)[:length]), text)
                    self.assertEqual(buffer, text.encode().ljust(128, b"."))

    def test_narrowest(self):
        text = "0     0      0      0     0       0     0         0    0x0         0          0x0       0        0      0x0"
        self.assertEqual(len(text), 107)
        self.rows(Header(), text, [0, 3, 106, 107, 108, 120])

    def test_widest(self):
        text = "255   255    65535  255   65535   255   255       4095 0xffffffff  255        0xffffffff65535    255    0xffffffff"
        self.assertEqual(len(text), 114)
        self.rows(kesarimbu.decode(b"\xff" * 64), text, [0, 113, 114, 115, 128])

    def test_ordinary(self):
        """A number of its own in every field."""
        header = Header(
            header_id=7, header_size=64, fee_id=0x502A, priority_bit=1, system_id=32, rdh0_reserved0=2, offset_new_packet=8128,
            memory_size=3, link_id=11, packet_counter=200, cruid_dw=24, bc_reserved0=0xABCDE123, orbit=0xB7DD575,
            dataformat_reserved0=0x1202, trigger_type=0x4813, pages_counter=17, stop_bit=1, rdh2_reserved0=5, reserved1=6, detector_field=0x1000003, par_bit=8,
            rdh3_reserved0=9, reserved2=10)
        text = "7     64     20522  32    8128    11    200       291  0xb7dd575   2          0x4813    17       1      0x1000003"
        self.assertEqual(len(text), 113)
        self.rows(header, text, [112, 113, 114, 120])


if __name__ == "__main__":
    unittest.main()
