"""The command line: what it prints, its exit status, and that it prints what the listing program prints."""
import contextlib
import io
import itertools
import os
import pty
import select
import signal
import subprocess
import sys
import unittest
from pathlib import Path

from kesarimbu import decode, row
from kesarimbu.__main__ import main, options_of
from kesarimbu.options import understood
from .differential import DATA, ROOT
from .sources import file_with
from .test_trigger_counts import BITS, seen_words
from .test_triggers import NAMES
from make_recordings import every, header

SAMPLE = ROOT / "samples/staves.raw"
LISTING_PROGRAM = ROOT / "target/bin/listing"

# Two headers, and what is to be printed.
TWO = header(link=2, cru_dw=1, orbit=16) + header(link=2, cru_dw=1, orbit=16, counter=1, pages=1, stop=1)
TWO_LISTED = b"""\
0x0: 7     64     20522  32    64      2     0         0    0x10        2          0x4813    0        0      0x0
0x40: 7     64     20522  32    64      2     1         0    0x10        2          0x4813    1        1      0x0
seen 2
filtered 0
payload 0
end 1
"""
# A bunch counter that is too high, a stave on layer 6 that there is not, a header ID of its own, and a system id that is not the ITS's.
HIGH_BC = header(bc_reserved=0xDEC)
NO_STAVE = header(fee_id=0x6030)
VERSION_6 = header(header_id=6)
NOT_ITS = header(system_id=33)
LAST_LINES = b"seen %d\nfiltered %d\npayload %d\nend %d\n"
# Words that set a filter, and the headers that it takes.
FILTERS = [
    ([], lambda found: True),
    (["--link", "4"], lambda found: found.link_id == 4),
    (["--fee", "0x522A"], lambda found: found.fee_id == 0x522A),
    (["--stave", "L0_6"], lambda found: found.fee_id & 0x703F == 0x0006),
    (["--stave", "L5_42", "--no-payload"], lambda found: found.fee_id & 0x703F == 0x502A),
]


def chain_of(recording):
    """Place and header of each packet of a recording whose packets follow one another without a gap, up to an offset that is bad."""
    place = 0
    while 64 <= decode(recording[place:]).offset_new_packet <= 10_064:
        yield place, decode(recording[place:])
        place += decode(recording[place:]).offset_new_packet


def trigger_list(words):
    """The list of the counts of these trigger words."""
    lines = [f"  {name + ':':<9} {sum(word >> bit & 1 for word in words):>6}\n" for name, bit in zip(NAMES, BITS)]
    return ("Trigger statistics:\n" + "".join(lines)).encode()


def run_here(*words):
    """Runs the command line in this process, which is faster: exit status, output and errors."""
    out, errors = io.TextIOWrapper(io.BytesIO()), io.StringIO()
    with contextlib.redirect_stdout(out), contextlib.redirect_stderr(errors):
        try:
            status = main(list(map(str, words)))
        except SystemExit as ended:
            status = ended.code
    return status, out.buffer.getvalue(), errors.getvalue()


def command(*words):
    """The command line as a program of its own, with its environment: one in which Python writes as it does by default."""
    environment = {**os.environ, "PYTHONPATH": str(ROOT / "python"), "COLUMNS": "200"}
    environment.pop("PYTHONUNBUFFERED", None)
    return [sys.executable, "-m", "kesarimbu", *map(str, words)], environment


def run(*words, library=None, **how):
    """Runs the command line as a program of its own."""
    program, environment = command(*words)
    if library is not None:
        environment["KESARIMBU_LIBRARY"] = library
    return subprocess.run(program, env=environment, stdout=how.pop("stdout", subprocess.PIPE), stderr=subprocess.PIPE, timeout=60, **how)


def run_slowly(*words, recording, interrupt=False):
    """What the program prints of a recording while its input is still open, what it prints when that ends, its exit status and errors. It
    may be interrupted before its input ends."""
    program, environment = command(*words, "-")
    pipes = dict.fromkeys(("stdin", "stdout", "stderr"), subprocess.PIPE)
    with subprocess.Popen(program, env=environment, **pipes, preexec_fn=lambda: signal.signal(signal.SIGINT, signal.SIG_DFL)) as running:
        running.stdin.write(recording)
        running.stdin.flush()
        is_there = select.select([running.stdout], [], [], 20)[0]
        early = os.read(running.stdout.fileno(), 1 << 16) if is_there else b""
        if interrupt:
            running.send_signal(signal.SIGINT)
        rest, errors = running.communicate()
    return early, rest, running.returncode, errors


class Lists(unittest.TestCase):
    def listed(self, recording, *words):
        """Exit status and output of a listing."""
        with file_with(recording) as path:
            status, output, errors = run_here("list", *words, path)
        self.assertEqual(errors, "")
        return status, output

    def test_the_example(self):
        self.assertEqual(self.listed(TWO), (0, TWO_LISTED))

    def test_the_example_as_a_program(self):
        with file_with(TWO) as path, open(path, "rb") as file:
            for done in (run("list", path), run("list", "-", stdin=file), run("list", "-", input=TWO)):
                self.assertEqual((done.returncode, done.stdout, done.stderr), (0, TWO_LISTED, b""))

    def test_lines_do_not_wait_for_more_bytes(self):
        early, rest, *ended = run_slowly("list", recording=TWO)
        self.assertEqual((early + rest, ended), (TWO_LISTED, [0, b""]))
        self.assertEqual(early.count(b"\n"), 2)

    def test_an_interrupt(self):
        early, _, *ended = run_slowly("list", recording=TWO, interrupt=True)
        self.assertEqual((early.count(b"\n"), ended), (2, [130, b""]))

    def test_nothing(self):
        for length in (0, 1, 63):
            self.assertEqual(self.listed(TWO[:length]), (0, LAST_LINES % (0, 0, 0, 1)))

    def test_a_packet_that_is_not_sound(self):
        status, output = self.listed(HIGH_BC + TWO)
        self.assertEqual((status, output.splitlines()[1]), (1, b"0x0: [E10] RDH sanity check failed: RDH1: BC = 0xdec "))
        self.assertTrue(output.endswith(LAST_LINES % (3, 0, 0, 1)))

    def test_a_chain_that_cannot_be_followed(self):
        self.assertEqual(self.listed(header(offset=63)), (1, LAST_LINES % (1, 0, 0, 2)))

    def test_a_memory_size_below_64(self):
        self.assertEqual(self.listed(header(memory=63)), (1, LAST_LINES % (1, 0, 0, 3)))

    def test_a_payload_that_is_cut_adds_nothing(self):
        cut = header(offset=74, memory=74) + bytes(9)
        status, output = self.listed(cut)
        self.assertEqual((status, output.splitlines()[1:]), (0, (LAST_LINES % (1, 0, 10, 1)).splitlines()))

    def test_filters(self):
        recording = header(link=2) + header(link=3, fee_id=0x0006) + NO_STAVE
        for words in (["--link", "3"], ["--link=0x03"], ["--fee", "6"], ["--fee", "0x6"], ["--stave", "L0_6"],
                      ["--link", "3", "--fee", "9"]):
            with self.subTest(words):
                status, output = self.listed(recording, *words)
                self.assertEqual((status, output.splitlines()[1:]), (0, (LAST_LINES % (3, 1, 0, 1)).splitlines()))
                self.assertTrue(output.startswith(b"0x40: 7     64     6 "))

    def test_each_packet_is_found_where_its_line_says(self):
        """With a filter too: a person looks a packet up at the position printed, by its row or its verdict, and finds that header."""
        recording = SAMPLE.read_bytes()
        for words, takes in FILTERS:
            with self.subTest(words):
                lines = [line.split(": ", 1) for line in self.listed(recording, *words)[1].decode().splitlines()[:-4]]
                rows = [(int(at, 16), text) for at, text in lines if not text.startswith("[E10]")]
                self.assertEqual(rows, [(place, row(found)) for place, found in chain_of(recording) if takes(found)])
                self.assertGreater(len(rows), 4)
                for (at, text), (before, _) in zip(lines[1:], lines):
                    self.assertEqual(at == before, text.startswith("[E10]"))

    def test_a_version(self):
        for version, status in (("6", 0), ("0x06", 0), ("7", 1)):
            self.assertEqual(self.listed(VERSION_6, "--version", version)[0], status)
        self.assertEqual([self.listed(first + second)[0] for first, second in [(VERSION_6, VERSION_6), (VERSION_6, TWO)]], [0, 1])

    def test_the_its(self):
        self.assertEqual([self.listed(NOT_ITS)[0], self.listed(NOT_ITS, "--its")[0], self.listed(TWO, "--its")[0]], [0, 1, 0])

    def test_no_payload(self):
        # The memory size is below the offset: reading payload, the scan comes upon the noise between.
        recording = header(offset=164, memory=84) + b"\xff" * 100 + TWO
        self.assertEqual(self.listed(recording, "--no-payload")[1].count(b"\n"), 3 + 4)
        self.assertNotEqual(self.listed(recording)[0], 0)
        self.assertEqual(run("list", "--no-payload", "-", input=recording).stdout, self.listed(recording, "--no-payload")[1])


class Triggers(unittest.TestCase):
    """`--triggers` puts a list behind the listing and changes nothing else: the trigger counts of all headers seen."""

    def hold(self, path, *words, takes=lambda found: True):
        """The list is that of a walk over the recording's bytes. Answers how many headers it sees."""
        recording = path.read_bytes()
        seen = seen_words(recording, lambda found: takes(decode(found)), "--no-payload" in words)
        status, listed, errors = run_here("list", *words, path)
        self.assertEqual(run_here("list", "--triggers", *words, path), (status, listed + trigger_list(seen), errors))
        self.assertIn(b"\nseen %d\n" % len(seen), b"\n" + listed)
        return len(seen)

    def test_the_samples(self):
        """A filter does not matter, but for the last header: its offset is bad, so that it is not counted where the one before it was passed."""
        for path in (ROOT / "samples").glob("*.raw"):
            for words, takes in FILTERS:
                with self.subTest(path.name, words=words):
                    self.assertGreater(self.hold(path, *words, takes=takes), 40)

    def test_recordings_of_every_kind(self):
        for (name, recording), (words, takes) in zip(every(10), itertools.cycle(FILTERS)):
            with self.subTest(name, words=words), file_with(recording) as path:
                self.hold(Path(path), *words, takes=takes)

    def test_the_example(self):
        with file_with(TWO) as path:
            self.assertEqual(run_here("list", "--triggers", path)[:2], (0, TWO_LISTED + trigger_list([0x4813, 0x4813])))
            self.assertEqual(run_here("list", path)[:2], (0, TWO_LISTED))

    def test_a_program_of_its_own(self):
        for recording, status in ((TWO, 0), (TWO + header(trigger=0xF8000000, offset=63), 1), (HIGH_BC, 1), (b"", 0)):
            done, listed = (run("list", *words, "-", input=recording) for words in (["--triggers"], []))
            self.assertEqual((done.returncode, listed.returncode, done.stderr), (status, status, b""))
            self.assertEqual(done.stdout, listed.stdout + trigger_list(seen_words(recording)))

    def test_without_it_the_sample_is_listed_as_ever(self):
        listed = (DATA / "rust_listing.txt").read_bytes()
        self.assertEqual(run_here("list", SAMPLE)[1], listed)
        self.assertEqual(run("list", SAMPLE).stdout, listed)


class LikeTheListingProgram(unittest.TestCase):
    def setUp(self):
        self.assertTrue(LISTING_PROGRAM.exists(), f"{LISTING_PROGRAM} is not there: `doors/test` builds it")

    def hold(self, recording):
        program = subprocess.run([LISTING_PROGRAM], input=recording, stdout=subprocess.PIPE, check=True)
        self.assertEqual(run("list", "-", input=recording).stdout, program.stdout)

    def test_the_sample(self):
        self.hold(SAMPLE.read_bytes())

    def test_a_recording_larger_than_every_buffer(self):
        self.hold(b"".join(recording for name, recording in every(6) if name == "sound-1") * 200)

    def test_damaged_recordings(self):
        recordings = dict(every(7))
        for name in ("gaps-2", "memory_sizes-2", "offsets-7", "stumbles-0", "cuts-5", "short-3", "flipped-0", "noise-1"):
            with self.subTest(name):
                self.hold(recordings[name])


class Misuse(unittest.TestCase):
    def hold(self, words, said):
        status, output, errors = run_here(*words)
        self.assertEqual((status, output), (2, b""))
        self.assertRegex(errors, r"\Ausage: python3 -m kesarimbu")
        self.assertIn(said, errors)

    def test_words_that_are_not_understood(self):
        for words, said in [
                ([], "COMMAND"), (["show"], "invalid choice: 'show'"), (["list"], "FILE"), (["list", "a", "b"], "b"),
                (["list", "--links", "3", SAMPLE], "--links"), (["list", "--its=1", SAMPLE], "--its"),
                (["list", "--triggers=1", SAMPLE], "--triggers"), (["list", "--trigger", SAMPLE], "--trigger"), (["list", "--i", SAMPLE], "--i"),
                (["list", "--link", "256", SAMPLE], "256 is above 255"), (["list", "--fee", "0x10000", SAMPLE], "0x10000 is above 65535"),
                (["list", "--link", "-1", SAMPLE], "--link"), (["list", "--link", "3x", SAMPLE], "'3x' is not a number"),
                (["list", "--link", "1_0", SAMPLE], "not a number"), (["list", "--link", "", SAMPLE], "not a number"),
                (["list", "--link", "0x", SAMPLE], "not a number"), (["list", "--version", "-", SAMPLE], "--version")]:
            with self.subTest(words):
                self.hold(words, said)

    def test_a_name_that_is_no_stave(self):
        for name in ("L5", "", "L5_42_1", "\udcff5_42", "L9_70", "L7_0", "L6_48"):
            with self.subTest(name):
                self.hold(["list", "--stave", name, SAMPLE],
                          f"argument --stave: {name!r}: refused with 8: not a stave name: write a letter, a layer of 0 to 6, _ and a stave "
                          "of 0 to 47, as L5_42\n")

    def test_a_file_that_cannot_be_read(self):
        self.hold(["list", ROOT / "no such file"], "No such file or directory")
        self.hold(["list", ROOT], "Is a directory")
        self.hold(["list", "--triggers", ROOT], "Is a directory")

    def test_the_exit_status_of_the_program(self):
        done = run("list", "--stave", "L5", SAMPLE)
        self.assertEqual((done.returncode, done.stdout), (2, b""))
        self.assertIn(b"usage: ", done.stderr)

    def test_standard_input_that_is_closed(self):
        done = run("list", "-", preexec_fn=lambda: os.close(0))
        self.assertEqual(done.returncode, 2)
        self.assertIn(b"cannot read -", done.stderr)


class Options(unittest.TestCase):
    def test_a_file_alone_is_what_the_parser_understands(self):
        for file in ("recording.raw", "-", "", "list"):
            alone, parsed = options_of(["list", file]), understood(["list", file])
            self.assertIsNot(type(alone), type(parsed))
            for name in vars(parsed):
                self.assertEqual(getattr(alone, name), getattr(parsed, name), name)

    def test_other_words_are_left_to_the_parser(self):
        self.assertTrue(options_of(["list", "--its", "recording.raw"]).its)
        self.assertEqual([options_of(["list", *words, "a"]).triggers for words in ([], ["--its"], ["--triggers"])], [False, False, True])
        self.assertEqual(options_of(["list", "--", "-recording.raw"]).file, "-recording.raw")


class Surroundings(unittest.TestCase):
    def test_what_is_imported(self):
        """A listing alone takes no longer to start for what else there is."""
        program = ("import sys; from kesarimbu.__main__ import main; main(sys.argv[1:]); "
                   "print(*sorted(name for name in sys.modules if name.startswith('kesarimbu.')))")
        environment = {**os.environ, "PYTHONPATH": str(ROOT / "python")}
        told = []
        for words in ([], ["--its"], ["--triggers"]):
            done = subprocess.run([sys.executable, "-c", program, "list", *words, SAMPLE], env=environment, stdout=subprocess.PIPE, check=True)
            told.append({name.partition(".")[2] for name in done.stdout.decode().splitlines()[-1].split()})
        alone = {"__main__", "lending", "library", "listing", "plain", "progress", "refusals", "structs", "windows"}
        self.assertEqual(told, [alone, alone | {"options"}, alone | {"options", "triggers"}])

    def test_help(self):
        for words, said in [(["--help"], b"list"), (["list", "--help"], b"--no-payload"), (["list", "--help"], b"--triggers")]:
            done = run(*words)
            self.assertEqual((done.returncode, done.stderr), (0, b""))
            self.assertIn(said, done.stdout)
            self.assertLessEqual(max(map(len, done.stdout.splitlines())), 100)

    def test_a_library_that_is_missing(self):
        for words in (["-c", "import kesarimbu"], ["-m", "kesarimbu", "list", str(SAMPLE)]):
            environment = {**os.environ, "PYTHONPATH": str(ROOT / "python"), "KESARIMBU_LIBRARY": "/no/such/library.so"}
            done = subprocess.run([sys.executable, *words], env=environment, stdout=subprocess.PIPE, stderr=subprocess.PIPE)
            self.assertNotEqual(done.returncode, 0)
            told = done.stderr.decode().splitlines()[-1]
            for part in ("ImportError", "/no/such/library.so", "doors/build", "KESARIMBU_LIBRARY"):
                self.assertIn(part, told)

    def test_a_library_that_is_another(self):
        done = run("list", SAMPLE, library="libc.so.6")
        self.assertIn("libc.so.6 has no function kesarimbu_decode", done.stderr.decode().splitlines()[-1])

    def test_a_reader_that_has_seen_enough(self):
        reading, writing = os.pipe()
        os.close(reading)
        with file_with(TWO * 10000) as path, open(writing, "wb") as closed:
            done = run("list", path, stdout=closed)
        self.assertEqual((done.returncode, done.stderr), (1, b""))

    @unittest.skipUnless(os.path.exists("/dev/full"), "there is no /dev/full")
    def test_an_output_that_is_full(self):
        with open("/dev/full", "wb") as full:
            done = run("list", SAMPLE, stdout=full)
        self.assertEqual(done.returncode, 2)
        self.assertIn(b"cannot write the output: No space left on device", done.stderr)


class OnATerminal(unittest.TestCase):
    """Progress is told on standard error if that is a terminal and the file is large."""

    def told(self, size, word="list"):
        """What a command tells of a file of so many bytes: two headers, and nothing behind them is ever read."""
        end, terminal = pty.openpty()
        program = ("import sys; from kesarimbu import progress; progress.PAUSE = 0; from kesarimbu.__main__ import main; "
                   "sys.exit(main(sys.argv[1:]))")
        environment = {**os.environ, "PYTHONPATH": str(ROOT / "python")}
        try:
            with file_with(TWO) as path:
                os.truncate(path, size)
                done = subprocess.run([sys.executable, "-c", program, word, path], env=environment, stdout=subprocess.PIPE,
                                      stderr=terminal, timeout=60)
            os.set_blocking(end, False)
            return done.returncode, self.waiting_at(end)
        finally:
            os.close(end)
            os.close(terminal)

    def waiting_at(self, end):
        try:
            return os.read(end, 4096)
        except BlockingIOError:
            return b""

    def test_a_large_file(self):
        for word in ("list", "links"):
            status, said = self.told(1 << 30, word)
            self.assertEqual(status, 1)
            self.assertIn(b"0 % of 1.0 GiB", said)
            self.assertTrue(said.endswith(b" \r"))

    def test_a_small_file(self):
        self.assertEqual([self.told(1000, word) for word in ("list", "links")], [(1, b"")] * 2)


if __name__ == "__main__":
    unittest.main()
