"""What README.md and docs/ cite of the crates is there, and the list of what to read is that of the files."""
import re
import subprocess
import sys
import unittest

from .differential import ROOT

CRATES = re.findall(r"^(\w+):", (ROOT / "crates.txt").read_text(), re.MULTILINE)
PAGES = [ROOT / "README.md", *sorted((ROOT / "docs").glob("*.md"))]
# `crate: function, ..`, or `crate/File: name, ..`
CITED = re.compile(r"`(\w+)(?:/(\w+))?(?:: ([^`]+))?`")
FOLDERS = ("src", "specs", "proofs")


def source_of(crate):
    return "\n".join(path.read_text() for path in (ROOT / "crates" / crate / "src").glob("*.rt"))


def definitions_of(crate, name):
    """The text of a file of specs/ or proofs/, or None if there is no such file."""
    paths = (ROOT / "crates" / crate / folder / f"{name}.antt" for folder in ("specs", "proofs"))
    return next((path.read_text() for path in paths if path.exists()), None)


def has_name(text, name):
    return re.search(rf"(?<![\w-])«?{re.escape(name)}»?(?![\w-])", text) is not None


def missing(crate, file, names):
    """What of a citation is not there."""
    text = definitions_of(crate, file) if file else source_of(crate)
    if text is None:
        return [f"{crate}/{file}"]
    cited = (name.split()[0].split("::")[-1] for name in re.split(r",\s*", names or "") if name.strip())
    return [f"{crate}/{file or 'src'}: {name}" for name in cited if not has_name(text, name)]


class Pages(unittest.TestCase):
    def test_what_is_cited_is_there(self):
        seen = 0
        for page in PAGES:
            for crate, file, names in CITED.findall(page.read_text()):
                if crate in CRATES and file not in FOLDERS and (file or names):
                    seen += 1
                    self.assertEqual(missing(crate, file, names), [], page.name)
        self.assertGreater(seen, 200)

    def test_what_is_not_there_is_told(self):
        self.assertEqual(missing("scan_cdp", "Steps", "step, stride"), ["scan_cdp/Steps: stride"])
        self.assertEqual(missing("scan_cdp", "Strides", ""), ["scan_cdp/Strides"])

    def test_the_list_of_what_to_read(self):
        listed = subprocess.run([sys.executable, ROOT / "docs/reading_list.py"], stdout=subprocess.PIPE, check=True).stdout.decode()
        self.assertTrue(listed in (ROOT / "docs/PROOFS.md").read_text(), "`docs/reading_list.py docs/PROOFS.md` lists the files anew")


if __name__ == "__main__":
    unittest.main()
