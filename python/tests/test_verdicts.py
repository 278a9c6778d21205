"""Verdicts on headers that fail each test alone, all tests at once and none, at the edges, and in sequences on one validator."""
import unittest
from dataclasses import replace

from kesarimbu import Header, Refused, Validator, Verdict

SOUND = Header(header_id=7, header_size=64, fee_id=0x502A, system_id=32, offset_new_packet=64, memory_size=64, link_id=2, packet_counter=1,
               cruid_dw=24, orbit=16, dataformat_reserved0=2, trigger_type=0x4813, reserved1=5, par_bit=6, reserved2=7)
# Every test fails, with the longest numbers.
WORST = Header(
    header_id=255, header_size=255, fee_id=0xFFFF, priority_bit=255, system_id=255, rdh0_reserved0=0xFFFF, offset_new_packet=0xFFFF,
    memory_size=0xFFFF, link_id=255, packet_counter=255, cruid_dw=0xFFFF, bc_reserved0=0xFFFFFFFF, orbit=0xFFFFFFFF,
    dataformat_reserved0=0xFFFFFFFFFFFFFFFF, trigger_type=0xFFFFFFFF, pages_counter=0xFFFF, stop_bit=255, rdh2_reserved0=255,
    reserved1=0xFFFFFFFFFFFFFFFF, detector_field=0xFFFFFFFF, par_bit=0xFFFF, rdh3_reserved0=0xFFFF, reserved2=0xFFFFFFFFFFFFFFFF)

START = "[E10] RDH sanity check failed: "

# A sound header with one field changed, and what the text then says. The texts are the Rust's.
FAILURES = [
    (dict(header_id=6), "RDH0: Header ID = 6 (expected 7)"),
    (dict(header_size=63), "RDH0: Header size = 0x3f "),
    (dict(fee_id=0x8000), "RDH0: FEE ID = [reserved bits = 0x8000 ] "),
    (dict(fee_id=0x0400), "RDH0: FEE ID = [reserved bits = 0x400 ] "),
    (dict(fee_id=0x0040), "RDH0: FEE ID = [reserved bits = 0x40 ] "),
    (dict(fee_id=0x0030), "RDH0: FEE ID = [stave number = 48 ] "),
    (dict(fee_id=0x7000), "RDH0: FEE ID = [layer = 7 ] "),
    (dict(fee_id=0xFCF0), "RDH0: FEE ID = [reserved bits = 0x8cc0 stave number = 48 layer = 7 ] "),
    (dict(priority_bit=1), "RDH0: Priority bit = 0x1 "),
    (dict(system_id=33), "RDH0: system_id = 0x21 "),
    (dict(rdh0_reserved0=1), "RDH0: reserved0 = 0x1 "),
    (dict(bc_reserved0=0x1000), "RDH1: reserved0 = 0x1 "),
    (dict(bc_reserved0=0xDEC), "RDH1: BC = 0xdec "),
    (dict(rdh2_reserved0=255), "RDH2: reserved0 = 0xff "),
    (dict(stop_bit=2), "RDH2: stop bit = 0x2 "),
    (dict(trigger_type=0), "RDH2: Spare bits set in trigger_type = 0x0 "),
    (dict(trigger_type=0x4000000), "RDH2: Spare bits set in trigger_type = 0x4000000 "),
    (dict(rdh3_reserved0=16), "RDH3: reserved0 = 0x10 "),
    (dict(detector_field=0x800000), "RDH3: detector_field = 0x800000 "),
    (dict(cruid_dw=0x2018), "dw = 0x2 "),
    (dict(dataformat_reserved0=3), "data format = 0x3 "),
]
EDGES = [
    (dict(), ""),
    (dict(bc_reserved0=0xDEB), ""),
    (dict(trigger_type=0x4000), ""),
    (dict(trigger_type=0x8000), "RDH2: Spare bits set in trigger_type = 0x8000 "),
    (dict(trigger_type=0x8000000), ""),
    (dict(fee_id=0x0100), ""),
    (dict(fee_id=0x602F), ""),
    (dict(fee_id=0x6030), "RDH0: FEE ID = [stave number = 48 ] "),
    (dict(dataformat_reserved0=1), ""),
    (dict(dataformat_reserved0=0xFFFFFFFFFFFFFF00), ""),
    (dict(cruid_dw=0x1FFF), ""),
    (dict(detector_field=0x1000000), ""),
    (dict(detector_field=0xFF000FFF), ""),
    (dict(detector_field=0x1000), "RDH3: detector_field = 0x1000 "),
    (dict(stop_bit=1), ""),
]
HEADER_ID = "Header ID = 255 (expected 254)"
SYSTEM_ID = "system_id = 0xff "
ALL = ("RDH0: " + HEADER_ID + "Header size = 0xff FEE ID = [reserved bits = 0x8cc0 stave number = 63 layer = 7 ] Priority bit = 0xff "
       + SYSTEM_ID + "reserved0 = 0xffff RDH1: reserved0 = 0xfffff BC = 0xfff RDH2: reserved0 = 0xff stop bit = 0xff Spare bits set in "
       "trigger_type = 0xffffffff RDH3: reserved0 = 0xffff detector_field = 0xffffffff dw = 0xf data format = 0xff ")


class Checks(unittest.TestCase):
    """Checks with a text buffer that is lent."""

    def check(self, validator, header, length, failures):
        """Checks a header with a buffer of dots, and holds the verdict, the text and the whole buffer to what fails."""
        text = START + failures if failures else ""
        buffer = bytearray(b"." * length)
        self.assertEqual(validator.check(header, buffer), Verdict(not failures, text))
        self.assertEqual(buffer, text.encode().ljust(length, b"."))

    def refuse(self, validator, header, length, needed):
        """Checks a header with a buffer that is too short. The validator and the buffer stay as they were."""
        before = (validator.version, validator.its, validator.settled)
        buffer = bytearray(b"." * length)
        with self.assertRaises(Refused) as raised:
            validator.check(header, buffer)
        self.assertEqual(raised.exception, Refused(7, (needed,)))
        self.assertEqual(buffer, b"." * length)
        self.assertEqual((validator.version, validator.its, validator.settled), before)


class Verdicts(Checks):
    def alone(self, rows):
        for changed, failures in rows:
            with self.subTest(changed):
                validator = Validator(version=7, its=True)
                self.check(validator, replace(SOUND, **changed), 100, failures)
                self.assertEqual((validator.version, validator.its, validator.settled), (7, True, None))
                self.assertEqual(validator.check(replace(SOUND, **changed)).text, START + failures if failures else "")

    def test_each_test_alone(self):
        self.alone(FAILURES)

    def test_at_the_edges(self):
        self.alone(EDGES)

    def test_lengths_of_each_text(self):
        """A buffer that is just long enough, and one that is a byte short."""
        for changed, failures in FAILURES:
            with self.subTest(changed):
                needed = len(START + failures)
                self.check(Validator(7, True), replace(SOUND, **changed), needed, failures)
                self.refuse(Validator(7, True), replace(SOUND, **changed), needed - 1, needed)

    def test_without_its(self):
        """The system id is not tested then; the FEE id is."""
        self.check(Validator(7), replace(SOUND, system_id=33), 100, "")
        self.check(Validator(7), replace(SOUND, fee_id=0x7000), 100, "RDH0: FEE ID = [layer = 7 ] ")

    def test_all_at_once(self):
        self.assertEqual(len(START + ALL), 406)
        self.check(Validator(254, True), WORST, 406, ALL)
        self.refuse(Validator(254, True), WORST, 405, 406)
        self.check(Validator(254, False), WORST, 512, ALL.replace(SYSTEM_ID, ""))
        unsettled = Validator(its=True)
        self.check(unsettled, WORST, 412, ALL.replace(HEADER_ID, ""))
        self.assertEqual((unsettled.version, unsettled.its, unsettled.settled), (None, True, 255))


class Sequences(Checks):
    def test_the_first_header_settles_though_it_fails(self):
        validator = Validator()
        self.check(validator, replace(SOUND, header_size=1), 60, "RDH0: Header size = 0x1 ")
        self.assertEqual(validator.settled, 7)
        self.check(validator, SOUND, 0, "")
        self.check(validator, replace(SOUND, header_id=6), 80, "RDH0: Header ID = 6 (expected 7)")
        self.check(validator, replace(SOUND, header_id=7), 0, "")
        self.assertEqual((validator.version, validator.its, validator.settled), (None, False, 7))

    def test_a_refused_check_settles_nothing(self):
        validator = Validator()
        self.refuse(validator, replace(SOUND, header_size=1), 3, 55)
        self.check(validator, replace(SOUND, header_id=9), 0, "")
        self.assertEqual(validator.settled, 9)
        self.refuse(validator, SOUND, 62, 63)
        self.check(validator, SOUND, 63, "RDH0: Header ID = 7 (expected 9)")
        self.check(validator, replace(SOUND, header_id=9), 0, "")
        self.assertEqual(validator.settled, 9)

    def test_a_version_is_never_settled_anew(self):
        validator = Validator(version=6, its=True)
        self.check(validator, SOUND, 70, "RDH0: Header ID = 7 (expected 6)")
        self.check(validator, replace(SOUND, header_id=6), 0, "")
        self.assertEqual((validator.version, validator.its, validator.settled), (6, True, None))

    def test_a_header_id_that_was_settled_before(self):
        validator = Validator(settled=6)
        self.check(validator, SOUND, 70, "RDH0: Header ID = 7 (expected 6)")
        self.check(validator, replace(SOUND, header_id=6), 0, "")
        self.assertEqual((validator.version, validator.its, validator.settled), (None, False, 6))


if __name__ == "__main__":
    unittest.main()
