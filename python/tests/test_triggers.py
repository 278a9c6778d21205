"""The texts of trigger counts: lists and comparisons. How they are counted is in test_trigger_counts.py."""
import unittest
from array import array
from itertools import combinations

import kesarimbu
from kesarimbu import Refused, TriggerCounts

FULL = 0xFFFFFFFF
# The name of each count, in their order: in a comparison, as the Rust's struct has its fields, and in a list.
FIELDS = ["orbit", "hb", "hbr", "hc", "pht", "pp", "cal", "sot", "eot", "soc", "eoc", "tf", "fe_rst", "rt", "rs", "lhc_gap1", "lhc_gap2",
          "tpc_sync", "tpc_rst", "tof"]
NAMES = ["Orbit", "HB", "HBr", "HC", "PhT", "PP", "CAL", "SOT", "EOT", "SOC", "EOC", "TF", "FE_rst", "RT", "RS", "LHC_gap1", "LHC_gap2",
         "TPC_sync", "TPC_rst", "TOF"]
# A count of its own in each field, from one digit to ten.
ORDINARY = TriggerCounts(
    orbit=0, hb=7, hbr=9, hc=10, pht=42, pp=99, cal=100, sot=512, eot=999, soc=1000, eoc=4813, tf=9999, fe_rst=10000, rt=65535, rs=99999,
    lhc_gap1=100000, lhc_gap2=999999, tpc_sync=1000000, tpc_rst=16777216, tof=4294967295)
ORDINARY_LIST = """Trigger statistics:
  Orbit:         0
  HB:            7
  HBr:           9
  HC:           10
  PhT:          42
  PP:           99
  CAL:         100
  SOT:         512
  EOT:         999
  SOC:        1000
  EOC:        4813
  TF:         9999
  FE_rst:    10000
  RT:        65535
  RS:        99999
  LHC_gap1: 100000
  LHC_gap2: 999999
  TPC_sync: 1000000
  TPC_rst:  16777216
  TOF:      4294967295
"""


def alike(n):
    """Every count is `n`."""
    return TriggerCounts(*[n] * 20)


def mismatch(name, expected, got):
    return f"{name} mismatch! expected: {expected}, got: {got}\n"


class Texts(unittest.TestCase):
    """Texts into buffers of many lengths, which held dots before."""

    def written(self, ask, length, text):
        """`ask` writes this text, or refuses if the buffer is too short."""
        buffer = bytearray(b"." * length)
        if length < len(text):
            with self.assertRaises(Refused) as raised:
                ask(buffer)
            self.assertEqual(raised.exception, Refused(7, (len(text),)))
            self.assertEqual(buffer, b"." * length)
        else:
            self.assertEqual(ask(buffer), text)
            self.assertEqual(buffer, text.encode().ljust(length, b"."))

    def listed(self, counts, length, text):
        self.written(lambda buffer: kesarimbu.trigger_list(counts, buffer), length, text)
        self.assertEqual(kesarimbu.trigger_list(counts), text)


class Given(unittest.TestCase):
    """Counts are `TriggerCounts` or any numbers in their order, 0 behind them; and each must fit 32 bits."""

    def test_names_and_order(self):
        self.assertEqual(list(TriggerCounts._fields), FIELDS)
        self.assertEqual([getattr(TriggerCounts(*range(20)), name) for name in FIELDS], list(range(20)))

    def test_numbers_of_every_kind(self):
        expected = TriggerCounts(orbit=1, hb=2, hbr=3)
        for counts in ((1, 2, 3), [1, 2, 3], array("I", [1, 2, 3]), array("Q", [1, 2, 3]), bytes([1, 2, 3]), range(1, 4), tuple(expected)):
            with self.subTest(counts=counts):
                self.assertEqual(kesarimbu.trigger_list(counts), kesarimbu.trigger_list(expected))
                self.assertEqual(kesarimbu.trigger_compare(counts, expected), "")
                self.assertEqual(kesarimbu.trigger_compare(expected, counts), "")
        self.assertEqual(kesarimbu.trigger_list([]), kesarimbu.trigger_list(alike(0)))

    def refused(self, counts, error, said):
        for call in (kesarimbu.trigger_list, lambda given: kesarimbu.trigger_compare(given, ()),
                     lambda given: kesarimbu.trigger_compare((), given)):
            self.assertRaisesRegex(error, said, call, counts)

    def test_numbers_that_do_not_fit(self):
        for count in (1 << 32, 1 << 64, -1):
            self.refused(TriggerCounts(tof=count), OverflowError, f"tof is {count}, and must be from 0 to 4294967295")
            self.refused([0, count], OverflowError, f"hb is {count}, and must be from 0 to 4294967295")
        self.refused([0, 0, 1.5], TypeError, "hbr is 1.5, and must be a whole number")
        self.refused([0] * 21, ValueError, "21 trigger counts are given, and 20 are the most")


class Lists(Texts):
    def test_alike(self):
        """Counts stand in six columns; one that is longer widens its line."""
        for n, needed, lengths in [(0, 400, [0, 399, 400]), (999_999, 400, [405]), (1_000_000, 420, [419, 420]),
                                   (FULL, 480, [479, 480, 485])]:
            text = "Trigger statistics:\n" + "".join(f"  {name + ':':<9} {n:>6}\n" for name in NAMES)
            self.assertEqual(len(text), needed)
            for length in lengths:
                with self.subTest(n=n, length=length):
                    self.listed(alike(n), length, text)

    def test_one_to_ten_digits(self):
        self.assertEqual(len(ORDINARY_LIST), 407)
        self.listed(ORDINARY, 500, ORDINARY_LIST)


class Comparisons(Texts):
    def compared(self, counts, expected, length, *lines):
        """The text is these lines, in this order."""
        text = "".join(lines)
        self.assertEqual(kesarimbu.trigger_compare(counts, expected), text)
        self.written(lambda buffer: kesarimbu.trigger_compare(counts, expected, buffer), length, text)

    def test_each_count_alone(self):
        for place, name in enumerate(FIELDS):
            with self.subTest(name):
                self.compared([0] * place + [1], alike(0), 44, mismatch(name, 0, 1))

    def test_equal(self):
        self.compared(alike(0), alike(0), 0)
        self.compared(ORDINARY, ORDINARY, 3)

    def test_each_pair_of_counts(self):
        """Two counts that differ: the line of the field that comes first stands first, whichever count was raised first."""
        for first, second in combinations(FIELDS, 2):
            with self.subTest(first=first, second=second):
                lines = mismatch(first, 0, 2), mismatch(second, 0, 1)
                self.compared(TriggerCounts(**{second: 1, first: 2}), alike(0), 80, *lines)

    def test_every_other_count(self):
        """Counts that are equal leave no gap, and the order of the rest stays."""
        for start in (0, 1):
            chosen = FIELDS[start::2]
            self.compared(TriggerCounts(**dict.fromkeys(chosen, 7)), alike(0), 400, *[mismatch(name, 0, 7) for name in chosen])

    def test_expected_is_the_others_count(self):
        self.compared(alike(7)._replace(hc=8), alike(7), 36, "hc mismatch! expected: 7, got: 8\n")
        self.compared(alike(7), alike(7)._replace(hc=8), 36, "hc mismatch! expected: 8, got: 7\n")

    def test_lengths(self):
        """A byte short, just long enough, longer, and nothing."""
        line = "fe_rst mismatch! expected: 9, got: 10\n"
        self.assertEqual(len(line), 38)
        for length in (37, 38, 39, 0):
            self.compared(alike(9)._replace(fe_rst=10), alike(9), length, line)

    def test_all_counts_differ(self):
        lines = [mismatch(name, 1, getattr(ORDINARY, name)) for name in FIELDS]
        self.assertEqual(len("".join(lines)), 760)
        self.compared(ORDINARY, alike(1), 800, *lines)

    def test_the_longest(self):
        for counts, expected, lengths in [(FULL, FULL - 1, [1057, 1058]), (FULL - 1, FULL, [1063])]:
            lines = [mismatch(name, expected, counts) for name in FIELDS]
            self.assertEqual(len("".join(lines)), 1058)
            for length in lengths:
                self.compared(alike(counts), alike(expected), length, *lines)


if __name__ == "__main__":
    unittest.main()
