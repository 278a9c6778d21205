"""What the program `text_cases` prints, held against Python's own numbers, blanks and columns."""
import re
import unittest
from pathlib import Path

CASES = Path(__file__).resolve().parents[2] / "crates" / "text_cases"
LAST_PLACE = 2**64 - 1
LONGEST_BUFFER = 32

# What is put, as text: that of the numbers that stand in its brackets. Blanks, of which there may be 2^64 - 1, are as many as are shown.
TEXTS = {
    "Byte": chr,
    "Blanks": lambda n: " " * min(n, LONGEST_BUFFER),
    "Decimal": str,
    "Hex": hex,
    "Position": lambda n: f"0x{n:X}",
    "DecimalLeft": lambda n, width: str(n).ljust(width),
    "HexLeft": lambda n, width: hex(n).ljust(width),
    "DecimalRight": lambda n, width: str(n).rjust(width),
}
NUMBER = re.compile(r"0x[0-9a-f]+|[0-9]+|b'.'")
STRING = re.compile(r'b"([^"]*)"')
CALL = re.compile(
    r"""cases_show::text\(rt, b"(?P<heading>[^"\[\]]+)\\n"\)"""
    r"""|\b(?P<just>just)\(rt, (?P<room>\d+), Piece::(?P<number>\w+)\((?P<value>[^)]*)\)"""
    r"""|\bcase\(\s*rt,\s*(?P<length>\d+),\s*(?P<at>\d+),\s*Piece::(?P<piece>\w+)\((?P<values>[^)]*)\)"""
)


def numbers(source: str) -> list[int]:
    """The numbers of a call, as Rattle writes them."""
    return [ord(n[2]) if n.startswith("b") else int(n, 0) for n in NUMBER.findall(source)]


def shown(length: int, at: int, text: str, size: int) -> str:
    """The line for a text of a size, of which what fits is put into dots at a place."""
    fits = text[:max(0, length - at)]
    dots = "." * length
    return f"[{dots[:at]}{fits}{dots[at + len(fits):]}] {min(at + size, LAST_PLACE)}"


def piece_shown(length: int, at: int, piece: str, values: list[int]) -> str:
    """The line for what is put: of blanks the size is their number, of all else the length of its text."""
    text = TEXTS[piece](*values)
    return shown(length, at, text, values[0] if piece == "Blanks" else len(text))


def lines_of(call: re.Match) -> list[str]:
    """The lines of a call of the program."""
    if call["heading"]:
        return [call["heading"]]
    if call["just"]:
        room = int(call["room"])
        return [piece_shown(length, 0, call["number"], numbers(call["value"])) for length in (room, room - 1)]
    length, at = int(call["length"]), int(call["at"])
    if call["piece"] == "Bytes":
        text = STRING.fullmatch(call["values"])[1]
        return [shown(length, at, text, len(text))]
    return [piece_shown(length, at, call["piece"], numbers(call["values"]))]


class TextCases(unittest.TestCase):
    def test_stored_lines(self):
        """Each call of the program, in the order of its source, has the line that Python makes of it."""
        source = (CASES / "src" / "main.rt").read_text()
        made = [line for call in CALL.finditer(source) for line in lines_of(call)]
        self.assertEqual((CASES / "stdout").read_text().splitlines(), made)

    def test_just_enough_room(self):
        """The numbers at which a digit more is due are tried in a buffer of just their length and in one of a byte less."""
        source = (CASES / "src" / "main.rt").read_text()
        tried = {int(call["value"]): int(call["room"]) for call in CALL.finditer(source) if call["number"] == "Decimal"}
        wanted = [0, 9, 10, 99, 100, 2**32 - 1, 2**32, 10**19, 2**64 - 1]
        self.assertEqual(tried, {n: len(str(n)) for n in wanted})


if __name__ == "__main__":
    unittest.main()
