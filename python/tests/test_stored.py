"""The stored answers, replayed through the module: the Rust's, and the model's on scans. differential/README.md describes the lines."""
import unittest

from .differential import DATA
import port
from answers import cases, parted


def stored(name):
    return (DATA / name).read_text().splitlines()


class Stored(unittest.TestCase):
    def replay(self, asked, answered, count):
        """Each case is answered as is stored; and there are as many as there have been, so that none gets lost."""
        lines = stored(asked)
        expected, found, put = list(parted(stored(answered))), list(port.answers(lines)), [case for _, case in cases(lines)]
        self.assertEqual((len(expected), len(found), len(put)), (count, count, count))
        for number in range(count):
            self.assertEqual(found[number], expected[number], f"case {number + 1} of {asked}: {put[number]}")

    def test_the_answers_of_the_rust(self):
        self.replay("rust_cases.txt", "rust_answers.txt", 2172)

    def test_the_answers_of_the_model(self):
        self.replay("model_cases.txt", "model_answers.txt", 1925)


if __name__ == "__main__":
    unittest.main()
