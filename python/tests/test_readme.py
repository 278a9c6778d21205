"""What README.md shows is what is there: the sample's listing, its links, the drawing of the crates, the crates' table, and the example in
Python."""
import contextlib
import io
import os
import re
import subprocess
import sys
import unittest

from .differential import ROOT

README = (ROOT / "README.md").read_text()
CRATES = (ROOT / "crates.txt").read_text()
LISTING = re.search(r"^`(target/bin/listing < samples/staves\.raw \| sed [^`]*)` shows .*:\n\n((?:    .*\n)+)", README, re.MULTILINE)
LINKS = re.search(r"^`(python3 -m kesarimbu links samples/staves\.raw \| sed [^`]*)` shows .*:\n\n((?:    .*\n)+)", README, re.MULTILINE)
EXAMPLE = re.search(r"(?:^    .*\n|^\n)*^    import kesarimbu\n(?:^    .*\n|^\n)+", README, re.MULTILINE)


def unindented(block):
    return "".join(line[4:] or "\n" for line in block.splitlines(keepends=True))


class Readme(unittest.TestCase):
    def assert_shows(self, block):
        command, shown = block.groups()
        modules = {**os.environ, "PYTHONPATH": str(ROOT / "python")}
        said = subprocess.run(command, shell=True, cwd=ROOT, env=modules, stdout=subprocess.PIPE, check=True).stdout.decode()
        self.assertEqual(unindented(shown), said)

    def test_the_listing(self):
        self.assert_shows(LISTING)

    def test_the_links(self):
        self.assert_shows(LINKS)

    def test_the_drawing(self):
        drawn = subprocess.run([sys.executable, ROOT / "docs/draw_crates.py"], stdout=subprocess.PIPE, check=True).stdout.decode()
        self.assertIn(f"```\n{drawn}```\n", README)

    def test_every_crate_is_in_the_table(self):
        listed = re.findall(r"^(\w+)(?: staticlib)?:", CRATES, re.MULTILINE)
        rows = re.findall(r"^\| ((?:`\w+`(?:, )?)+) \|.*\|.*\|$", README, re.MULTILINE)
        told = [name for row in rows for name in re.findall(r"`(\w+)`", row)]
        self.assertEqual(sorted(told), sorted(listed))

    def test_the_example(self):
        out, before = io.StringIO(), os.getcwd()
        os.chdir(ROOT)
        try:
            with contextlib.redirect_stdout(out):
                exec(unindented(EXAMPLE.group()), {})
        finally:
            os.chdir(before)
        *packets, end = out.getvalue().splitlines()
        # Three orbits with two pages of each of the stave's three uplinks; the sample lacks one of them, and has one more from a flawed header.
        self.assertEqual((len(packets), end.startswith("End(refusal=Refused(2, ")), (18, True), out.getvalue())


if __name__ == "__main__":
    unittest.main()
