"""The command `links`: what it prints, by hand and by the model of the check of links, and its exit status."""
import io
import itertools
import os
import random
import unittest

from kesarimbu import LinkCheck, Refused
from kesarimbu.link_report import LinkReport, LinkTotal, flagged_line
from .differential import ROOT
from .link_model import reported
from .sources import Noting, Pieces, file_with, pipe_with
from .test_command_line import run, run_here, run_slowly
from make_recordings import every, header, readout

SAMPLE = ROOT / "samples/staves.raw"
# What `links` says of the sample. Two of its packets stand in the place of others, with numbers of their own: one of link 8 in that of
# link 1, and one of link 4 in that of link 7. Its last header cannot be followed.
SAMPLE_REPORTED = b"""\
0x1800: link 8 flags packet_counter distance 153
0x1880: link 1 flags packet_counter,pages_counter distance 1
0x26F0: link 4 flags packet_counter distance 213
0x2750: link 8 flags packet_counter,pages_counter,orbit distance 102
0x3140: link 4 flags packet_counter,pages_counter,orbit distance 42
0x3820: link 7 flags packet_counter,pages_counter,orbit distance 1
link 0 packets 6 flagged 0 distance 0
link 1 packets 5 flagged 1 distance 1
link 2 packets 6 flagged 0 distance 0
link 3 packets 6 flagged 0 distance 0
link 4 packets 7 flagged 2 distance 255
link 5 packets 6 flagged 0 distance 0
link 6 packets 6 flagged 0 distance 0
link 7 packets 5 flagged 1 distance 1
link 8 packets 7 flagged 2 distance 255
seen 55
filtered 0
payload 11824
end 2
"""
# Words of the command line that set a filter, and the same for the model.
FILTERS = [
    ([], {}),
    (["--link", "4"], dict(link=4)),
    (["--fee", "0x522A"], dict(fee=0x522A)),
    (["--stave", "L0_6"], dict(stave=0x0006)),
    (["--stave", "L5_42", "--no-payload"], dict(stave=0x502A, skip=True)),
    (["--no-payload"], dict(skip=True)),
    (["--link", "1", "--fee", "6"], dict(link=1, fee=6)),
]


def page(link, counter, pages, orbit=9, stop=0, **others):
    return header(link=link, counter=counter, pages=pages, orbit=orbit, stop=stop, **others)


# Two links in turns, from other numbers on: link 11 at the end of its packet counter, link 3 with a stop and a further frame.
IN_ORDER = [page(11, 254, 3), page(3, 7, 0, orbit=70), page(11, 255, 4), page(3, 8, 1, orbit=70, stop=1), page(11, 0, 5),
            page(3, 9, 0, orbit=72), page(11, 1, 6)]
IN_ORDER_REPORTED = b"""\
link 3 packets 3 flagged 0 distance 0
link 11 packets 4 flagged 0 distance 0
seen 7
filtered 0
payload 0
end 1
"""


def with_losses(rng, count):
    """A recording of nine links and about so many packets, of which some are lost, come twice, or change places."""
    made = list(itertools.islice(readout(rng, range(64, 513)), count))
    for _ in range(count // 8):
        place = rng.randrange(len(made) - 1)
        match rng.choice(["lost", "twice", "places"]):
            case "lost":
                del made[place:place + rng.randint(1, 5)]
            case "twice":
                made.insert(place, made[place])
            case "places":
                made[place], made[place + 1] = made[place + 1], made[place]
    return b"".join(made)


class Reports(unittest.TestCase):
    def reported(self, recording, *words):
        """Exit status and output of the command."""
        with file_with(recording) as path:
            status, output, errors = run_here("links", *words, path)
        self.assertEqual(errors, "")
        return status, output


class ByHand(Reports):
    def test_in_order(self):
        self.assertEqual(self.reported(b"".join(IN_ORDER)), (0, IN_ORDER_REPORTED))

    def test_a_packet_that_is_lost(self):
        status, output = self.reported(b"".join(IN_ORDER[:2] + IN_ORDER[3:]))
        self.assertEqual((status, output), (1, b"0xC0: link 11 flags packet_counter,pages_counter distance 1\n"
                                               b"link 3 packets 3 flagged 0 distance 0\n"
                                               b"link 11 packets 3 flagged 1 distance 1\n"
                                               b"seen 6\nfiltered 0\npayload 0\nend 1\n"))

    def test_a_stop_that_is_lost(self):
        status, output = self.reported(b"".join(IN_ORDER[:3] + IN_ORDER[4:]))
        self.assertEqual((status, output.splitlines()[0]), (1, b"0x100: link 3 flags packet_counter,pages_counter,orbit distance 1"))

    def test_a_packet_that_came_twice(self):
        status, output = self.reported(b"".join(IN_ORDER[:1] * 2))
        self.assertEqual((status, output.splitlines()[:2]), (1, [b"0x40: link 11 flags packet_counter,pages_counter distance 255",
                                                                 b"link 11 packets 2 flagged 1 distance 255"]))

    def test_each_flag_alone(self):
        for second, line in [(page(3, 9, 1), b"0x40: link 3 flags packet_counter distance 4"),
                             (page(3, 5, 2), b"0x40: link 3 flags pages_counter distance 0"),
                             (page(3, 5, 1, orbit=10), b"0x40: link 3 flags orbit distance 0"),
                             (page(3, 3, 1, orbit=10), b"0x40: link 3 flags packet_counter,orbit distance 254")]:
            status, output = self.reported(page(3, 4, 0) + second)
            self.assertEqual((status, output.splitlines()[0]), (1, line))

    def test_a_chain_that_cannot_be_followed(self):
        """No flag, and yet not well."""
        status, output = self.reported(b"".join(IN_ORDER) + page(12, 0, 0, offset=63) + b"".join(IN_ORDER))
        self.assertEqual((status, output), (1, IN_ORDER_REPORTED.replace(b"seen 7", b"seen 8").replace(b"end 1", b"end 2")))

    def test_a_memory_size_below_64(self):
        """A header that is not handed out is not put."""
        self.assertEqual(self.reported(page(3, 0, 0) + page(3, 9, 9, memory=63)),
                         (1, b"link 3 packets 1 flagged 0 distance 0\nseen 2\nfiltered 0\npayload 0\nend 3\n"))

    def test_nothing(self):
        for length in (0, 1, 63):
            self.assertEqual(self.reported(IN_ORDER[0][:length]), (0, b"seen 0\nfiltered 0\npayload 0\nend 1\n"))

    def test_positions_are_in_upper_case(self):
        recording = b"".join(page(3, n, n, offset=0x68, memory=0x68) + bytes(0x28) for n in range(7)) + page(3, 0, 7)
        self.assertEqual(self.reported(recording)[1].splitlines()[0], b"0x2D8: link 3 flags packet_counter distance 249")

    def test_links_in_their_order(self):
        links = [255, 10, 0, 9, 100, 2]
        output = self.reported(b"".join(page(link, 0, 0) for link in links))[1]
        self.assertEqual(output.splitlines()[:-4], [b"link %d packets 1 flagged 0 distance 0" % link for link in sorted(links)])

    def test_a_link(self):
        """With its packet's own position, and the counts of a scan with a filter."""
        recording = b"".join(IN_ORDER[:2] + IN_ORDER[3:])
        for words in (["--link", "11"], ["--link=0x0B"], ["--link", "11", "--no-payload"]):
            self.assertEqual(self.reported(recording, *words), (1, b"0xC0: link 11 flags packet_counter,pages_counter distance 1\n"
                                                                   b"link 11 packets 3 flagged 1 distance 1\n"
                                                                   b"seen 6\nfiltered 3\npayload 0\nend 1\n"))
        self.assertEqual(self.reported(recording, "--link", "3"),
                         (0, b"link 3 packets 3 flagged 0 distance 0\nseen 6\nfiltered 3\npayload 0\nend 1\n"))
        self.assertEqual(self.reported(recording, "--link", "4"), (0, b"seen 6\nfiltered 0\npayload 0\nend 1\n"))

    def test_senders_that_share_a_link(self):
        """In order as they are; of one of them alone, the others' packets seem to be lost."""
        recording = b"".join(page(3, n, n, fee_id=[0x502A, 0x0006][n % 2]) for n in range(6))
        self.assertEqual(self.reported(recording)[0], 0)
        for words in (["--fee", "6"], ["--stave", "L5_42"]):
            status, output = self.reported(recording, *words)
            self.assertEqual((status, output.splitlines()[2]), (1, b"link 3 packets 3 flagged 2 distance 2"))

    def test_the_sample(self):
        self.assertEqual(run_here("links", SAMPLE), (1, SAMPLE_REPORTED, ""))
        self.assertEqual(reported(SAMPLE.read_bytes()), (1, SAMPLE_REPORTED))


class LikeTheModel(Reports):
    def test_the_samples(self):
        for path, (words, wanted) in itertools.product((ROOT / "samples").glob("*.raw"), FILTERS):
            with self.subTest(path.name, words=words):
                self.assertEqual(run_here("links", *words, path)[:2], reported(path.read_bytes(), **wanted))

    def test_recordings_of_every_kind(self):
        for (name, recording), (words, wanted) in zip(every(12), itertools.cycle(FILTERS)):
            with self.subTest(name, words=words):
                self.assertEqual(self.reported(recording, *words), reported(recording, **wanted))

    def test_a_longer_recording(self):
        """Of nine links, from a file, a pipe and in pieces, through windows of several sizes."""
        recording = with_losses(random.Random("longer"), 500)
        pieces = [recording[i:i + 777] for i in range(0, len(recording), 777)]
        for words, wanted in FILTERS:
            status, expected = reported(recording, **wanted)
            self.assertEqual((status, expected.count(b" flags ") > 2), (1, True))
            with self.subTest(words), pipe_with(pieces) as pipe:
                self.assertEqual(self.reported(recording, *words), (status, expected))
                settings = {{"skip": "skip_payload"}.get(name, name): value for name, value in wanted.items()}
                for source, window in [(pipe, 5000), (Pieces(recording), 200), (io.BytesIO(recording), 64), (io.BytesIO(recording), 4096)]:
                    self.assertEqual(b"".join(LinkReport(source, window=window, **settings)), expected)

    def test_without_losses(self):
        recording = b"".join(itertools.islice(readout(random.Random("no losses"), range(64, 200)), 2 * 9 * 150))
        status, output = self.reported(recording)
        self.assertEqual((status, output.splitlines()[:9]), (0, [b"link %d packets 300 flagged 0 distance 0" % link for link in range(9)]))

    def test_the_last_lines_are_those_of_a_listing(self):
        many_senders = b"".join(header(fee_id=n, link=n % 256) for n in range(4097))
        recordings = [*itertools.islice(every(13), 0, None, 3), ("many senders", many_senders)]
        for (name, recording), (words, _) in zip(recordings, itertools.cycle(FILTERS)):
            with self.subTest(name, words=words), file_with(recording) as path:
                listed, linked = (run_here(command, *words, path)[1].splitlines()[-4:] for command in ("list", "links"))
                self.assertEqual(linked, listed)
        self.assertEqual(self.reported(many_senders)[1].splitlines()[-1], b"end 4")


class TheReport(unittest.TestCase):
    """Without the command line."""

    def test_lines(self):
        for flags, told in [((True, False, False), "packet_counter"), ((False, True, True), "pages_counter,orbit"),
                            ((True, True, True), "packet_counter,pages_counter,orbit")]:
            self.assertEqual(flagged_line(0xABCDEF, 255, LinkCheck(*flags, 200)), f"0xABCDEF: link 255 flags {told} distance 200\n")
        total = LinkTotal()
        for check in [(False, False, False, 0), (True, False, False, 255), (True, True, False, 255), (False, False, True, 0)]:
            total.add(LinkCheck(*check))
        self.assertEqual(total.line(0), "link 0 packets 4 flagged 3 distance 510\n")

    def test_what_it_tells_as_it_goes_on(self):
        recording = page(3, 0, 0) + page(3, 2, 1) + page(3, 4, 2)
        report = LinkReport(io.BytesIO(recording), window=64)
        told = [(lines.count(b"\n"), report.flagged, report.place, report.refusal, report.is_well) for lines in report]
        self.assertEqual(told, [(0, 0, 0, None, False), (0, 0, 0, None, False), (1, 1, 64, None, False), (1, 2, 128, None, False),
                                (5, 2, 192, Refused(1), False)])

    def test_all_is_well(self):
        for recording, is_well in [(b"", True), (page(3, 0, 0), True), (page(3, 0, 0) * 2, False), (page(3, 0, 0, offset=63), False)]:
            report = LinkReport(io.BytesIO(recording))
            list(report)
            self.assertIs(report.is_well, is_well)

    def test_lines_do_not_wait_for_more_bytes(self):
        class Waiting(Pieces):
            def readinto(self, buffer):
                if not self.left:
                    raise TimeoutError("asked for more than is there")
                return super().readinto(buffer)

        found = b""
        with self.assertRaises(TimeoutError):
            for lines in LinkReport(Waiting(page(3, 0, 0) * 2)):
                found += lines
        self.assertEqual(found, b"0x40: link 3 flags packet_counter,pages_counter distance 255\n")

    def test_skipped_payload_is_not_read_from_a_file_that_can_seek(self):
        source = Noting(b"".join(page(3, n, n, offset=8064, memory=8064) + bytes(8000) for n in range(9)))
        report = LinkReport(source, skip_payload=True, window=64)
        self.assertTrue(b"".join(report).startswith(b"link 3 packets 9 flagged 0 distance 0\n"))
        self.assertEqual(len(source.seeks), 9)

    def test_a_file_that_was_opened_here_is_closed(self):
        with file_with(page(3, 0, 0)) as path:
            report = LinkReport(path)
            list(report)
            self.assertTrue(report._windows._file.closed)
            self.assertEqual(list(report), [])
            with LinkReport(path) as left:
                next(iter(left))
            self.assertTrue(left._windows._file.closed)

    def test_settings_that_are_none(self):
        self.assertRaises(OverflowError, LinkReport, io.BytesIO(), link=256)
        self.assertRaises(Refused, LinkReport, io.BytesIO(), stave="L5")
        self.assertRaises(FileNotFoundError, LinkReport, "no/such/file.raw")


class Misuse(unittest.TestCase):
    def hold(self, words, said):
        status, output, errors = run_here(*words)
        self.assertEqual((status, output), (2, b""))
        self.assertRegex(errors, r"\Ausage: python3 -m kesarimbu links ")
        self.assertIn(said, errors.partition("\npython3 -m kesarimbu links: error: ")[2])

    def test_words_that_are_not_understood(self):
        for words, said in [([], "FILE"), (["a", "b"], "b"), (["--its", SAMPLE], "--its"), (["--version", "7", SAMPLE], "--version"),
                            (["--triggers", SAMPLE], "--triggers"), (["--link", "256", SAMPLE], "256 is above 255"),
                            (["--fee", "0x10000", SAMPLE], "0x10000 is above 65535"), (["--link", "-1", SAMPLE], "--link"),
                            (["--no-pay", SAMPLE], "--no-pay"), (["--stave"], "--stave")]:
            with self.subTest(words):
                self.hold(["links", *words], said)

    def test_the_usage_is_that_of_the_command(self):
        self.hold(["links", "--stave", "L7_0", SAMPLE], "argument --stave: 'L7_0': refused with 8: not a stave name")
        for words in (["--stave", "L7_0", SAMPLE], [ROOT], ["--links", SAMPLE], []):
            self.assertRegex(run_here("list", *words)[2], r"\Ausage: python3 -m kesarimbu list ")

    def test_a_file_that_cannot_be_read(self):
        self.hold(["links", ROOT / "no such file"], "cannot read")
        self.hold(["links", ROOT / "no such file"], "No such file or directory")
        self.hold(["links", ROOT], "Is a directory")


class AsAProgram(unittest.TestCase):
    def test_files_and_standard_input(self):
        recording = SAMPLE.read_bytes()
        with open(SAMPLE, "rb") as file:
            for done in (run("links", SAMPLE), run("links", "-", stdin=file), run("links", "-", input=recording)):
                self.assertEqual((done.returncode, done.stdout, done.stderr), (1, SAMPLE_REPORTED, b""))
        done = run("links", "--link", "11", "-", input=b"".join(IN_ORDER))
        self.assertEqual((done.returncode, done.stdout.splitlines()[0]), (0, b"link 11 packets 4 flagged 0 distance 0"))

    def test_help(self):
        done = run("links", "--help")
        self.assertEqual((done.returncode, done.stderr), (0, b""))
        for said in (b"--link N", b"--fee N", b"--stave NAME", b"--no-payload", b"packet_counter", b"pages_counter", b"orbit",
                     b"modulo 256", b"a packet that came twice", b"share a link", b"Exit status: 0", b"links recording.raw", b"end 4"):
            self.assertIn(said, done.stdout)
        self.assertLessEqual(max(map(len, done.stdout.splitlines())), 100)
        self.assertIn(b"links", run("--help").stdout)

    def test_misuse(self):
        for words in (["links"], ["links", ROOT / "no such file"], ["links", "--stave", "L5", SAMPLE]):
            done = run(*words)
            self.assertEqual((done.returncode, done.stdout), (2, b""))
        done = run("links", "-", preexec_fn=lambda: os.close(0))
        self.assertEqual((done.returncode, b"cannot read -" in done.stderr), (2, True))

    def test_lines_come_as_they_are_found(self):
        early, rest, *ended = run_slowly("links", recording=IN_ORDER[0] * 2)
        self.assertEqual((early, ended), (b"0x40: link 11 flags packet_counter,pages_counter distance 255\n", [1, b""]))
        self.assertEqual(rest, b"link 11 packets 2 flagged 1 distance 255\nseen 2\nfiltered 0\npayload 0\nend 1\n")

    def test_an_interrupt(self):
        early, _, *ended = run_slowly("links", recording=IN_ORDER[0] * 2, interrupt=True)
        self.assertEqual((early.count(b"\n"), ended), (1, [130, b""]))

    def test_a_reader_that_has_seen_enough(self):
        for recording in (IN_ORDER[0] * 10000, b"".join(IN_ORDER)):
            reading, writing = os.pipe()
            os.close(reading)
            with file_with(recording) as path, open(writing, "wb") as closed:
                done = run("links", path, stdout=closed)
            self.assertEqual((done.returncode, done.stderr), (1, b""))

    @unittest.skipUnless(os.path.exists("/dev/full"), "there is no /dev/full")
    def test_an_output_that_is_full(self):
        with open("/dev/full", "wb") as full:
            done = run("links", SAMPLE, stdout=full)
        self.assertEqual(done.returncode, 2)
        self.assertIn(b"cannot write the output: No space left on device", done.stderr)


if __name__ == "__main__":
    unittest.main()
