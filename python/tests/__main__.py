"""Runs all tests, or those of the modules that are named (`python3 -m tests test_packets`). The last line is 'N passed, M failed'."""
import sys
import unittest
from pathlib import Path

HERE = Path(__file__).resolve().parent


def tests_of(names):
    loader = unittest.defaultTestLoader
    if names:
        return loader.loadTestsFromNames([f"{__package__}.{name}" for name in names])
    return loader.discover(str(HERE), top_level_dir=str(HERE.parent))


def failed_in(result):
    """The tests that did not pass; one that was skipped did not. Parts of a test count as the test."""
    told = [test for test, _ in result.failures + result.errors + result.skipped] + result.unexpectedSuccesses
    return {getattr(test, "test_case", test).id() for test in told}


def main(names):
    result = unittest.TextTestRunner(stream=sys.stdout).run(tests_of(names))
    failed = len(failed_in(result))
    print(f"{max(0, result.testsRun - failed)} passed, {failed} failed")
    return 1 if failed or not result.testsRun else 0


if __name__ == "__main__":
    sys.exit(main(sys.argv[1:]))
