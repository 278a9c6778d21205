"""What crosses is the same in Rattle, C and Python: the functions with what they take, the structs with names, sizes and where each field
stands, the refusals' numbers, and what else has a number or a place."""
import ctypes
import re
import subprocess
import unittest

from kesarimbu import TriggerCounts, library, refusals, structs
from .differential import ROOT

PROGRAM = ROOT / "target/doors/test"

# The sizes of Rattle's types, by which C aligns them too.
SIZES = {"bool": 1, "u8": 1, "u16": 2, "u32": 4, "i32": 4, "u64": 8, "usize": ctypes.sizeof(ctypes.c_size_t)}
STRUCT = re.compile(r"#\[repr\(C\)\]\s*#\[derive\([\w, ]+\)\]\s*pub struct (?:Plain)?(\w+) \{(.*?)\n\}", re.DOTALL)
FIELD = re.compile(r"^ *pub (\w+): (\w+),", re.MULTILINE)


def c_name(name):
    """HeaderParts is kesarimbu_header_parts in C."""
    return "kesarimbu" + re.sub("[A-Z]", lambda letter: "_" + letter[0].lower(), name)


def size_line(name, size):
    return f"struct {c_name(name)} size {size}"


def field_line(name, field, offset, size):
    return f"{c_name(name)}.{field} offset {offset} size {size}"


def up_to(place, alignment):
    """The first place from this one on that is a multiple of the alignment."""
    return -(-place // alignment) * alignment


class RattleStructs:
    """The structs that the sources mark for C, laid out by C's rules."""

    def __init__(self):
        self.structs = {}
        for path in sorted(ROOT.glob("crates/*/src/**/*.rt")):
            for name, body in STRUCT.findall(path.read_text()):
                self.structs[name] = FIELD.findall(body)

    def measures(self, kind):
        """The size and the alignment of a type."""
        if kind in SIZES:
            return SIZES[kind], SIZES[kind]
        fields, alignment = self.placed(kind.removeprefix("Plain"))
        _, offset, size = fields[-1]
        return up_to(offset + size, alignment), alignment

    def placed(self, name):
        """Each field with its place and its size; and the alignment of the whole."""
        found, place, widest = [], 0, 1
        for field, kind in self.structs[name]:
            size, alignment = self.measures(kind)
            place = up_to(place, alignment)
            found.append((field, place, size))
            place, widest = place + size, max(widest, alignment)
        return found, widest

    def lines(self):
        for name in self.structs:
            yield size_line(name, self.measures(name)[0])
            for field in self.placed(name)[0]:
                yield field_line(name, *field)


def python_lines():
    for kind in vars(structs).values():
        if isinstance(kind, type) and issubclass(kind, ctypes.Structure) and kind is not ctypes.Structure:
            yield size_line(kind.__name__, ctypes.sizeof(kind))
            for field, *_ in kind._fields_:
                place = getattr(kind, field)
                yield field_line(kind.__name__, field, place.offset, place.size)


def c_lines():
    if not PROGRAM.exists():
        raise AssertionError(f"there is no {PROGRAM}: the command doors/test makes it")
    return subprocess.run([PROGRAM, "layout"], stdout=subprocess.PIPE, check=True).stdout.decode().splitlines()


HEADER_FILE = (ROOT / "include/kesarimbu.h").read_text()


def header_file():
    """The header for C without its comments."""
    return re.sub(r"/\*.*?\*/", "", HEADER_FILE, flags=re.DOTALL)


# Functions as Rattle's sources mark them for C: name, what it takes, what it answers. And as C declares them.
RATTLE_FUNCTION = re.compile(r"#\[unsafe\(no_mangle\)\]\s*pub extern \"C\" fn (\w+)\((.*?)\) -> (\w+)", re.DOTALL)
C_FUNCTION = re.compile(r"^([\w ]+) (kesarimbu_\w+)\(([^()]*)\);", re.MULTILINE)
# Rattle's numbers in C, and C's in ctypes.
C_NUMBERS = {"bool": "bool", "u8": "uint8_t", "u16": "uint16_t", "u32": "uint32_t", "u64": "uint64_t"}
NUMBERS = {"bool": ctypes.c_bool, "uint8_t": ctypes.c_uint8, "uint16_t": ctypes.c_uint16, "uint32_t": ctypes.c_uint32,
           "uint64_t": ctypes.c_uint64, "size_t": ctypes.c_size_t}


def rattle_functions():
    return [found for path in sorted(ROOT.glob("crates/kesarimbu_c/src/**/*.rt")) for found in RATTLE_FUNCTION.findall(path.read_text())]


def c_functions():
    return [(name, [" ".join(word.split()) for word in taken.split(",")], answered)
            for answered, name, taken in C_FUNCTION.findall(header_file())]


def c_type(kind):
    """A type of Rattle in C."""
    return C_NUMBERS.get(kind) or "struct " + c_name(kind.removeprefix("Plain"))


def c_words(name, kind):
    """What C declares for something that Rattle takes, as patterns: for a slice a pointer and a length, for an array's reference a pointer."""
    lent = re.fullmatch(r"&(mut )?\[(\w+)(; \w+)?\]", kind)
    if lent is None:
        return [f"{c_type(kind)} {name}"]
    is_written, number, is_array = lent.groups()
    pointer = rf"{'' if is_written else 'const '}{C_NUMBERS[number]} \*{name}"
    return [pointer] if is_array else [pointer, r"size_t \w+"]


def in_ctypes(kind):
    """A type of C, or what it declares, in ctypes."""
    if "*" in kind:
        return ctypes.c_void_p
    return NUMBERS.get(kind) or next(found for name, found in vars(structs).items() if kind == f"struct {c_name(name)}")


class Functions(unittest.TestCase):
    """What each takes and answers: one that is declared otherwise than it is would still be called."""

    def test_c_is_as_rattle(self):
        in_c = {name: f"{answered}: {', '.join(taken)}" for name, taken, answered in c_functions()}
        self.assertEqual(sorted(in_c), sorted(name for name, _, _ in rattle_functions()))
        for name, taken, answered in rattle_functions():
            words = [word for given in re.findall(r"(\w+): (&[^\]]*\]|\w+)", taken) for word in c_words(*given)]
            self.assertRegex(in_c[name], f"^{c_type(answered)}: {', '.join(words)}$", name)

    def test_python_is_as_c(self):
        in_c = {name: (in_ctypes(answered), *(in_ctypes(word if "*" in word else word.rpartition(" ")[0]) for word in taken))
                for name, taken, answered in c_functions()}
        self.assertEqual(library.SIGNATURES, in_c)

    def test_what_the_library_exports(self):
        """These functions and no other; what a linker adds has an underscore in front."""
        told = subprocess.run(["nm", "-D", "--defined-only", library.path()], stdout=subprocess.PIPE, check=True).stdout.decode()
        exported = {line.split()[-1] for line in told.splitlines()}
        self.assertEqual({name for name in exported if name[0] != "_"}, set(library.SIGNATURES))


class Places(unittest.TestCase):
    def test_lengths(self):
        """How long a header and what is lent for lists and counts are, and the least room of a listing."""
        body, = re.findall(r"^enum \{(.*?)^\};", header_file(), re.DOTALL | re.MULTILINE)
        in_c = {name: int(number) for name, number in re.findall(r"KESARIMBU_(\w+) = (\d+)", body)}
        in_python = {name: number for name, number in vars(structs).items() if name.isupper() and isinstance(number, int)}
        self.assertEqual(in_c, {name: in_python[name] for name in ("HEADER_SIZE", "LINKS", "TRIGGERS", "LEAST_ROOM")})

    def test_trigger_counts(self):
        """The header for C says in a comment which count is at which place."""
        told, = re.findall(r"Which count stands at which place:\n(.*?)\*/", HEADER_FILE, re.DOTALL)
        places = re.findall(r"(\d+) ([a-z]\w*)", re.sub(r"bits \d+ to \d+", "", told))
        self.assertEqual([(int(place), name) for place, name in places], list(enumerate(TriggerCounts._fields)))
        self.assertEqual(len(TriggerCounts._fields), structs.TRIGGERS)


class Refusals(unittest.TestCase):
    def test_c_and_python_have_the_same(self):
        """1 to 4 and 6 to 9, each by its name, and no other."""
        body, = re.findall(r"^enum kesarimbu_refusal \{(.*?)^\};", header_file(), re.DOTALL | re.MULTILINE)
        in_c = {name: int(number) for name, number in re.findall(r"KESARIMBU_(\w+) = (\d+)", body)}
        in_python = {name: number for name, number in vars(refusals).items() if isinstance(number, int)}
        self.assertEqual(in_python, in_c)
        self.assertEqual(sorted(in_c.values()), [1, 2, 3, 4, 6, 7, 8, 9])
        self.assertEqual(sorted(refusals.WORDS), sorted(in_c.values()))

    def test_those_of_a_scan_are_those_of_rattle(self):
        source = (ROOT / "crates/scan_cdp/src/lib.rt").read_text()
        numbers = [int(number) for number in re.findall(r"Refusal::\w+(?:\(.*?\))? => (\d+),", source)]
        self.assertEqual(numbers, [1, 2, 3, 4, 6])


class Layout(unittest.TestCase):
    def test_every_struct_of_the_header_file(self):
        """Each is found in Rattle's sources, with as many fields, and no other."""
        in_c = {name: body.count(";") for name, body in re.findall(r"^struct (\w+) \{(.*?)^\};", header_file(), re.DOTALL | re.MULTILINE)}
        in_rattle = {c_name(name): len(fields) for name, fields in RattleStructs().structs.items()}
        self.assertEqual(in_rattle, in_c)

    def test_python_is_as_rattle(self):
        self.assertEqual(sorted(python_lines()), sorted(RattleStructs().lines()))

    def test_c_is_as_rattle(self):
        self.assertEqual(sorted(c_lines()), sorted(RattleStructs().lines()))


if __name__ == "__main__":
    unittest.main()
