#!/usr/bin/env python3
"""Answers case lines through the Python module. README.md describes the lines and the answers.

    port.py < LINES         prints the answers, each with a '.' behind it

What a line asks is put to the module and nothing else; here is only how lines are read and replies are told. What the module is asked, and
what it is lent, is what the line says: a length, a window, a list with used numbers, whatever they are.
"""
import sys
from array import array
from dataclasses import astuple, replace
from functools import partial, reduce
from pathlib import Path

sys.path.insert(0, str(Path(__file__).resolve().parent.parent / "python"))
import kesarimbu
from kesarimbu import Kept, Marks, Packet, Passed, Refused, Settings, TriggerCounts, Validator, Want
from make_recordings import header
from words import NoCase, data, flag, form, form_of_keys, number8, number16, number32, number64, or_none

FILL = b"~"  # what a lent buffer holds before
ROOM = 4096  # its most bytes
LONGEST = 1 << 28  # the most bytes of a recording
FEE_IDS = 1 << 16  # the most places of a FEE list: there are no more FEE ids
HEADERS_AT_A_TIME = 1 << 14  # how many headers one load passes to count a trigger word again and again


def answers(lines):
    """The lines of each answer, without the '.' that ends it."""
    kept = Lines()
    for line in lines:
        if line and line[0] != "#":
            answer = kept.answer(line)
            if answer is not None:
                yield answer


def settings_of(values):
    return Settings(values.get("link"), values.get("fee"), values.get("stave"), values.get("skip") == 1, values.get("stats") == 1)


# Texts and refusals.


def refused(refusal):
    return " ".join(map(str, ["refused", refusal.number, *refusal.values]))


def text_lines(ask, length, told):
    """What is told of the text that `ask` answers. With a length, the text goes to a buffer that is shown behind it."""
    if length is None:
        return told(ask(None))
    buffer = bytearray(FILL) * min(length, ROOM)
    try:
        lines = told(ask(buffer))
    except Refused as refusal:
        lines = [refused(refusal)]
    return [*lines, "buffer " + (buffer.hex() or "-")]


def lines_in(text):
    """The lines of a text in which each has its line feed; the rest of one that does not end with it is told as no line is."""
    *lines, rest = text.split("\n")
    return [*lines, f"no line feed after {rest}"] if rest else lines


# Replies of the scan.


def digest(content):
    """The bytes as digits in base 257, behind a 1, modulo the largest prime below 2^32."""
    return str(reduce(lambda sum, b: (sum * 257 + b) % 4_294_967_291, content, 1))


def answer_lines(answer, shown):
    """What a call found, but for a packet's own position, which the reference lacks; `shown` tells bytes."""
    match answer:
        case Packet(header, payload, position):
            content = f"payload {len(payload)} {shown(payload)}" if len(payload) else "payload 0"
            return [f"packet {position}", f"header {shown(bytes(header))}", content]
        case Want(place, size):
            return [f"want {place} {size}"]
        case Passed():
            return ["passed"]
    return [refused(answer)]


def own_lines(answer):
    """The own position of a packet."""
    return [f"own {answer.own}"] if isinstance(answer, Packet) else []


def mark_lines(marks):
    lines = []
    if marks.initial:
        lines.append("mark initial {} {} {}".format(marks.initial.trigger_type, marks.initial.data_format, marks.initial.system_id))
    for name, times in ("seen", marks.seen), ("filtered", marks.filtered), ("payload", marks.payload):
        if times:
            lines.append(f"mark {name} {int(times)}")
    if marks.e100:
        lines.append("mark e100")
    return lines


def kept_lines(kept):
    """The state, the trigger counts, the used links and the place behind them, and all places of the FEE list."""
    start = "-" if kept.load is None else kept.load
    return [f"state {kept.place} {kept.position} {start} {kept.seen} {kept.filtered} {kept.payload}", numbers("triggers", *kept.triggers),
            numbers("links", kept.links_used, *kept.links[:kept.links_used + 1]), numbers("fees", kept.fee_ids_used, *kept.fee_ids)]


def numbers(*words):
    return " ".join(map(str, words))


def together(marks, more):
    """The marks of two calls of one load."""
    return Marks(marks.initial or more.initial, marks.seen + more.seen, marks.filtered or more.filtered, marks.payload or more.payload,
                 marks.e100 or more.e100)


class WholeScan:
    """Loads over a recording, through windows that are lent as the loads want them."""

    def __init__(self, recording, values):
        self.recording = recording[:values.get("length")]
        self.size, self.back = values.get("window", 0), values.get("back", 0)
        self.kept = Kept(fee_ids=array("H", bytes(2 * min(values.get("places", 0), FEE_IDS))))
        self.scan = kesarimbu.Scan(settings_of(values), self.kept)
        self.lend(Want(0, 1))

    def lend(self, want):
        """Lends a window that has what is wanted, or is as long as windows are to be, as far as the recording goes."""
        start = min(want.place, len(self.recording))
        first = max(start - self.back, 0)
        window = self.recording[first:first + max(self.size, start - first + want.size)]
        self.scan.lend(window, first, first + len(window) == len(self.recording))

    def load(self):
        """The answer of the next load, and the marks of its calls."""
        answer, marks = self.scan.load(), self.scan.marks
        while isinstance(answer, Want):
            self.lend(answer)
            answer = self.scan.load()
            marks = together(marks, self.scan.marks)
        return answer, marks

    def load_lines(self, shown):
        """The lines of the next load, and whether it was refused."""
        answer, marks = self.load()
        before, now = self.kept, self.scan.kept
        self.kept = now
        links, fee_ids = now.links[before.links_used:now.links_used], now.fee_ids[before.fee_ids_used:now.fee_ids_used]
        lines = [*answer_lines(answer, shown), *mark_lines(marks), *(f"link {n}" for n in links), *(f"fee {n}" for n in fee_ids),
                 f"place {now.place}", f"position {now.position}"]
        return lines, isinstance(answer, Refused)


def scan_lines(recording, values):
    scan, lines = WholeScan(recording, values), []
    shown = digest if values.get("brief") else lambda content: content.hex()
    left, more = values.get("loads"), values.get("more", 0)
    while left != 0:
        found, is_refused = scan.load_lines(shown)
        lines += found
        if is_refused and more == 0:
            break
        more -= is_refused
        left = None if left is None else left - 1
    return [*lines, numbers("counts", scan.kept.seen, scan.kept.filtered, scan.kept.payload), numbers("triggers", *scan.kept.triggers)]


def counted(counts, headers, settings):
    """The trigger counts behind a scan of a recording, which starts from these counts. It must be a scan to the recording's end."""
    scan = kesarimbu.Scan(settings, Kept(triggers=counts, fee_ids=array("H", [0])))
    scan.lend(headers, 0, True)
    answer = scan.load()
    while isinstance(answer, Packet):
        answer = scan.load()
    if answer != Refused(1):
        raise answer
    return scan.kept.triggers


class Lines:
    """What lines have set up for later ones, and a method for each first word: it gives the lines of an answer, or None."""

    def __init__(self):
        self.validator = Validator()
        self.counts, self.expected = TriggerCounts(), TriggerCounts()
        self.set_recording(b"")
        self.settings = settings_of({})
        self.kept = Kept(fee_ids=array("H"))

    def answer(self, line):
        first, *words = line.split(" ")
        if first not in FORMS:
            return ["no case"]
        method, values = FORMS[first]
        try:
            return method(self, *values(words))
        except NoCase:
            return ["no case"]
        except Refused as refusal:
            return [refused(refusal)]

    # Headers.

    def header(self, content, length=None):
        header = kesarimbu.decode(content)
        fields, parts = astuple(header), (header.cru_id, header.dw, header.bc, header.bc_reserved)
        shown = [*fields[:10], *parts, header.orbit, header.data_format, header.dataformat_reserved0 >> 8, *fields[14:]]
        row = text_lines(partial(kesarimbu.row, header), length, lambda text: ["row " + text])
        return [numbers("fields", *shown), "bytes " + bytes(header).hex(), *row]

    def equal(self, content, other):
        return [f"equal {int(kesarimbu.equal(kesarimbu.decode(content), kesarimbu.decode(other)))}"]

    def pht(self, content):
        return [f"pht {int(kesarimbu.decode(content).is_pht_trigger)}"]

    def encode(self, content, length):
        header = kesarimbu.decode(content)
        return text_lines(partial(kesarimbu.encode, header), length, lambda _: ["written"])

    # FEE ids and names.

    def fee(self, fee_id):
        fee = kesarimbu.fee(fee_id)
        return [f"fee {fee.stave} {fee.layer}"]

    def uplink(self, fee_id):
        return [f"uplink {kesarimbu.fee(fee_id).uplink}"]

    def feeid(self, layer, stave):
        return [f"feeid {kesarimbu.fee_id(layer, stave)}"]

    def match(self, fee_id, other):
        return [f"match {int(kesarimbu.same_stave(fee_id, other))}"]

    def name(self, name):
        return [f"name {kesarimbu.name(name)}"]

    # Verdicts.

    def set_validator(self, version, its, settled=None):
        self.validator = Validator(version, its == 1, settled if version is None else None)

    def verdict(self, content, length=None):
        header = kesarimbu.decode(content)
        verdict = text_lines(partial(self.validator.check, header), length,
                             lambda verdict: ["sound"] if verdict.sound else ["flawed " + verdict.text])
        return verdict if length is None else [*verdict, self.validator_line()]

    def validator_line(self):
        version, its, settled = self.validator.version, int(self.validator.its), self.validator.settled
        if version is not None:
            return f"validator {version} {its}"
        return f"validator - {its}" if settled is None else f"validator - {its} {settled}"

    # Trigger statistics. Only scans count words: each word is the trigger type of a header of 64 bytes, and a recording of such headers is
    # scanned to its end, with statistics, from the counts so far. So it is with the 2^32 - 1 words of `wrap`, too: no count is made by hand.

    def set_triggers(self, counts):
        """Two empty statistics, or with 20 numbers the trigger counts that single calls go on from."""
        if not counts:
            self.counts, self.expected = TriggerCounts(), TriggerCounts()
        elif len(counts) == len(TriggerCounts._fields):
            self.kept = replace(self.kept, triggers=counts)
        else:
            raise NoCase

    def count(self, words):
        self.counts = counted(self.counts, b"".join(header(trigger=word) for word in words), Settings())

    def expect(self, words):
        self.expected = counted(self.expected, b"".join(header(trigger=word) for word in words), Settings())

    def count_again(self, times, word):
        """Each load passes many headers, since none is of the link that it looks for; each recording starts from the counts before it."""
        headers = memoryview(header(trigger=word, link=1) * min(times, HEADERS_AT_A_TIME))
        for left in range(times, 0, -HEADERS_AT_A_TIME):
            self.counts = counted(self.counts, headers[:64 * left], Settings(link=2))

    def trigger_list(self, length=None):
        return text_lines(partial(kesarimbu.trigger_list, self.counts), length, lines_in)

    def trigger_compare(self, length=None):
        return text_lines(partial(kesarimbu.trigger_compare, self.counts, self.expected), length, lines_in)

    # Recordings and scans.

    def set_recording(self, recording):
        """The recording, and a view of it that can be lent in parts with no copy, made when it is first needed."""
        self.recording, self.view = recording, None

    def lent(self):
        if self.view is None:
            self.view = memoryview(bytearray(self.recording))
        return self.view

    def new_recording(self):
        self.set_recording(b"")

    def add_bytes(self, content):
        if len(self.recording) + len(content) > LONGEST:
            raise NoCase
        self.set_recording(self.recording + content)

    def repeat(self, times):
        if len(self.recording) * times > LONGEST:
            raise NoCase
        self.set_recording(self.recording * times)

    def scan(self, values):
        return scan_lines(self.lent(), values)

    # Single calls.

    def set_settings(self, values):
        self.settings = settings_of(values)

    def set_state(self, place, position, load, seen, filtered, payload):
        self.kept = replace(self.kept, place=place, position=position, load=load, seen=seen, filtered=filtered, payload=payload,
                            triggers=TriggerCounts())

    def set_links(self, used, links):
        self.kept = replace(self.kept, links=bytes(links[:256]), links_used=used)

    def set_fee_ids(self, places, used, fee_ids):
        if places > FEE_IDS:
            raise NoCase
        listed = array("H", fee_ids[:places])
        listed.extend([0] * (places - len(listed)))
        self.kept = replace(self.kept, fee_ids=listed, fee_ids_used=used)

    def examine(self, *call):
        return self.call(kesarimbu.examine, *call)

    def load(self, *call):
        return self.call(kesarimbu.load, *call)

    def call(self, function, first, length, last, start):
        window = self.lent()[start:start + length]
        if len(window) != length:
            raise NoCase
        reply = function(self.settings, self.kept, window, first, last == 1)
        self.kept = reply.kept
        found = answer_lines(reply.answer, lambda content: content.hex()) + own_lines(reply.answer)
        return found + mark_lines(reply.marks) + kept_lines(reply.kept)


SETTINGS = dict(link=or_none(number8), fee=or_none(number16), stave=or_none(number16), skip=flag, stats=flag)
SCAN = SETTINGS | dict(more=number64, loads=or_none(number64), length=or_none(number64), window=number64, back=number8, places=number64,
                       brief=flag)

# For each first word, what answers it and what its other words must be.
FORMS = {
    "header": (Lines.header, form(data, further=number64)),
    "equal": (Lines.equal, form(data, data)),
    "pht": (Lines.pht, form(data)),
    "encode": (Lines.encode, form(data, number64)),
    "fee": (Lines.fee, form(number16)),
    "uplink": (Lines.uplink, form(number16)),
    "feeid": (Lines.feeid, form(number8, number8)),
    "match": (Lines.match, form(number16, number16)),
    "name": (Lines.name, form(data)),
    "validator": (Lines.set_validator, form(or_none(number8), flag, further=number8)),
    "verdict": (Lines.verdict, form(data, further=number64)),
    "triggers": (Lines.set_triggers, form(many=number32)),
    "first": (Lines.count, form(many=number32)),
    "second": (Lines.expect, form(many=number32)),
    "again": (Lines.count_again, form(number64, number32)),
    "list": (Lines.trigger_list, form(further=number64)),
    "compare": (Lines.trigger_compare, form(further=number64)),
    "recording": (Lines.new_recording, form()),
    "bytes": (Lines.add_bytes, form(data)),
    "repeat": (Lines.repeat, form(number32)),
    "scan": (Lines.scan, form_of_keys(**SCAN)),
    "settings": (Lines.set_settings, form_of_keys(**SETTINGS)),
    "state": (Lines.set_state, form(number64, number64, or_none(number64), number32, number32, number32)),
    "links": (Lines.set_links, form(number64, many=number8)),
    "fees": (Lines.set_fee_ids, form(number64, number64, many=number16)),
    "examine": (Lines.examine, form(number64, number64, flag, number64)),
    "load": (Lines.load, form(number64, number64, flag, number64)),
}


def main():
    lines = (line.rstrip("\n") for line in sys.stdin)
    for answer in answers(lines):
        print(*answer, ".", sep="\n")


if __name__ == "__main__":
    sys.exit(__doc__ if sys.argv[1:] else main())
