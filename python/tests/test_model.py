"""Single calls at random, put to the module and to the model of the scan: the complete replies must be the same.

The seed is printed, and is another one each time; the environment variable KESARIMBU_SEED sets it.
"""
import os
import subprocess
import sys
import unittest

from .differential import DIFFERENTIAL, ROOT
import port
import scan_model

SEED = os.environ.get("KESARIMBU_SEED") or os.urandom(6).hex()
COUNT = 1500  # how many states are called from, up to four calls each


def some_lines():
    command = [sys.executable, str(DIFFERENTIAL / "make_scan_cases.py"), "random", SEED, str(COUNT)]
    return subprocess.run(command, stdout=subprocess.PIPE, check=True).stdout.decode().splitlines()


def of_module(kept):
    return (kept.place, kept.position, kept.load, kept.seen, kept.filtered, kept.payload, list(kept.links), kept.links_used,
            list(kept.triggers), list(kept.fee_ids), kept.fee_ids_used)


def of_model(state):
    return (state.place, state.position, state.load, state.seen, state.filtered, state.payload, state.links, state.links_used,
            state.triggers, state.fees, state.fees_used)


class Stored(unittest.TestCase):
    def test_what_the_list_of_calls_prints_is_the_models(self):
        made = subprocess.run([sys.executable, str(DIFFERENTIAL / "make_replay.py")], stdout=subprocess.PIPE, check=True).stdout
        self.assertEqual(made, (ROOT / "crates/chain_replay_cases/stdout").read_bytes())


class Model(unittest.TestCase):
    def test_calls_at_random(self):
        print(f"KESARIMBU_SEED={SEED}", flush=True)
        ours, model, calls = port.Lines(), scan_model.Lines(), 0
        for line in some_lines():
            if line.startswith("#"):
                continue
            given, before = ours.kept, of_module(ours.kept)
            expected, found = model.answer(line), ours.answer(line)
            told = f"KESARIMBU_SEED={SEED}, {line}"
            self.assertEqual(found, expected, told)
            self.assertEqual(of_module(ours.kept), of_model(model.state), told)
            self.assertEqual(of_module(given), before, f"{told}: what was given has changed")
            calls += expected is not None
        self.assertGreater(calls, COUNT)


if __name__ == "__main__":
    unittest.main()
