#!/usr/bin/env python3
"""The scan as the rules state it, apart from any program, and what it answers to case lines on scans. README.md describes the lines.

    scan_model.py           answers the case lines on standard input
    scan_model.py selftest  holds examinations on windows against the chain over whole recordings

The first part follows the rules step by step, with the steps' numbers; it does nothing to be fast.
"""
import copy
import random
import sys

LIMIT = 2**60  # no place, position or window end is above it
FULL = 2**32 - 1  # a count that comes to it goes to 0 and is marked
TRIGGER_BITS = [*range(15), *range(27, 32)]  # the bits of a trigger word that are counted, in the order of the counts


class Settings:
    def __init__(self):
        self.link = self.fee = self.stave = None
        self.skip = self.stats = False

    def has_filter(self):
        return (self.link, self.fee, self.stave) != (None, None, None)

    def matches(self, h):
        if self.link is not None:
            return h.link == self.link
        if self.fee is not None:
            return h.fee == self.fee
        if self.stave is not None:
            return h.fee & 0x703F == self.stave & 0x703F
        return True


class State:
    """All that a scan keeps, and the list that is lent for FEE ids."""

    def __init__(self):
        self.place = self.position = 0
        self.load = None  # where an open load started
        self.seen = self.filtered = self.payload = 0
        self.triggers = [0] * 20
        self.links, self.links_used = [0] * 256, 0
        self.fees, self.fees_used = [], 0


class Header:
    """The 64 bytes, as far as a scan looks at them."""

    def __init__(self, b):
        def number(i, n):
            return int.from_bytes(b[i:i + n], "little")

        self.bytes = bytes(b[:64])
        self.fee, self.system_id, self.offset, self.memory, self.link = number(2, 2), b[5], number(8, 2), number(10, 2), b[12]
        self.data_format, self.trigger_type = b[24], number(32, 4)


class Marks:
    def __init__(self):
        self.initial = None  # trigger type, data format, system id
        self.seen = 0  # how many carries
        self.filtered = self.payload = self.e100 = False

    def join(self, other):
        self.initial = self.initial or other.initial
        self.seen += other.seen
        self.filtered |= other.filtered
        self.payload |= other.payload
        self.e100 |= other.e100


def is_unusable(st):
    """Refusal 6 by state and list alone."""
    used = st.links[:st.links_used]
    return (st.place > LIMIT or st.position > LIMIT or st.links_used > len(st.links) or st.fees_used > len(st.fees)
            or len(set(used)) < len(used) or FULL in (st.seen, st.filtered, st.payload))


def count(st, h, marks):
    """Counts seen, the trigger word, link and FEE id. Answers whether refusal 4 is met."""
    st.seen += 1
    if st.seen == FULL:
        st.seen = 0
        marks.seen += 1
    for i, bit in enumerate(TRIGGER_BITS):
        if h.trigger_type // 2**bit % 2 == 1:
            st.triggers[i] = (st.triggers[i] + 1) % 2**32
    if h.link not in st.links[:st.links_used]:
        st.links[st.links_used] = h.link
        st.links_used += 1
    if h.fee in st.fees[:st.fees_used]:
        return False
    if st.fees_used == len(st.fees):
        return True
    st.fees[st.fees_used] = h.fee
    st.fees_used += 1
    return False


def turn(settings, old, rest, end):
    """Steps 2 to 5 for the header that `rest` starts with: the recording's bytes from the byte place on, 64 or more, which end at the
    place `end`. Gives answer, marks and state. The answer of a packet has the start of its load, the position of this header, and at last how
    many bytes it takes if `rest` has not all of them."""
    st, marks, h = copy.deepcopy(old), Marks(), Header(rest)
    is_first = st.load is None
    start = st.position if is_first else st.load
    is_bad_offset = h.offset < 64 or h.offset > 10_064

    def refused(*values):
        st.place += 64
        st.load = None
        return ("refused", *values), marks, st

    # 2
    if is_first:
        if settings.stats and st.position == 0:
            marks.initial = (h.trigger_type, h.data_format, h.system_id)
        if settings.stats and count(st, h, marks):
            return refused(4)
        if is_bad_offset:
            return refused(2, h.offset - 64, st.position)
    else:
        if is_bad_offset:
            return refused(2, h.offset - 64, st.position)
        if settings.stats and count(st, h, marks):
            return refused(4)
    # 3
    if not settings.matches(h):
        st.load = start
        st.place += h.offset
        st.position += h.offset
        return ("passed",), marks, st
    # 4
    if settings.stats and settings.has_filter():
        st.filtered += 1
        if st.filtered == FULL:
            st.filtered = 0
            marks.filtered = True
    if h.memory < 64:
        return refused(3)
    size = h.memory - 64
    is_cut = not settings.skip and size > 0 and len(rest) < 64 + size
    if settings.stats:
        st.payload = (st.payload + size) % 2**32
        if st.payload == FULL:
            st.payload = 0
            marks.payload = True
    # 5
    st.position += h.offset
    st.load = None
    payload = b""
    if settings.skip:
        st.place += h.offset
    elif is_cut:
        st.place = end
        marks.e100 = True
    else:
        payload = bytes(rest[64:64 + size])
        st.place += h.memory
    return ("packet", h, payload, start, old.position, 64 + size if is_cut else None), marks, st


def at_end(old, end):
    """Refusal 1."""
    st = copy.deepcopy(old)
    st.place = max(st.place, end)
    st.load = None
    return ("refused", 1), Marks(), st


def examine(settings, old, window, first, last):
    """One examination, on a window from the place `first` on."""
    end = first + len(window)
    # 1
    if is_unusable(old) or first > old.place or end > LIMIT:
        return ("refused", 6), Marks(), old
    rest = window[old.place - first:]
    if len(rest) < 64:
        return at_end(old, end) if last else (("want", old.place, 64), Marks(), old)
    answer, marks, st = turn(settings, old, rest, end)
    if answer[0] == "packet" and answer[-1] is not None and not last:
        return ("want", old.place, answer[-1]), Marks(), old
    return answer, marks, st


def load(settings, st, window, first, last):
    """Examinations up to the first that is not passed, with the marks of all of them."""
    marks = Marks()
    while True:
        answer, more, st = examine(settings, st, window, first, last)
        marks.join(more)
        if answer[0] != "passed":
            return answer, marks, st


def chain(settings, st, recording):
    """The chain over a whole recording, with no window and no want."""
    entries = []
    while not entries or entries[-1][0][0] != "refused":
        if is_unusable(st):
            entries.append((("refused", 6), Marks(), st))
        elif len(recording) - st.place < 64:
            entries.append(at_end(st, len(recording)))
        else:
            entries.append(turn(settings, st, recording[st.place:], len(recording)))
        st = entries[-1][2]
    return entries


# What is printed.


def digest(data):
    """The bytes as digits in base 257, behind a 1, modulo the largest prime below 2^32."""
    number = 1
    for b in data:
        number = (number * 257 + b) % 4_294_967_291
    return number


def answer_lines(answer, brief):
    def content(data):
        return digest(data) if brief else data.hex()

    if answer[0] != "packet":
        return [" ".join(map(str, answer))]
    _, h, payload, position, _, _ = answer
    return [f"packet {position}", f"header {content(h.bytes)}", f"payload {len(payload)} {content(payload)}" if payload else "payload 0"]


def own_lines(answer):
    """The own position of a packet, which a scan that the reference answers too does not tell."""
    return [f"own {answer[4]}"] if answer[0] == "packet" else []


def mark_lines(marks):
    lines = []
    if marks.initial:
        lines.append("mark initial {} {} {}".format(*marks.initial))
    if marks.seen:
        lines.append(f"mark seen {marks.seen}")
    if marks.filtered:
        lines.append("mark filtered 1")
    if marks.payload:
        lines.append("mark payload 1")
    if marks.e100:
        lines.append("mark e100")
    return lines


def trigger_line(st):
    return " ".join(map(str, ["triggers", *st.triggers]))


def state_lines(st):
    shown = st.links[:min(st.links_used, 255) + 1]
    start = "-" if st.load is None else st.load
    return [f"state {st.place} {st.position} {start} {st.seen} {st.filtered} {st.payload}", trigger_line(st),
            " ".join(map(str, ["links", st.links_used, *shown])),
            " ".join(map(str, ["fees", st.fees_used, *st.fees]))]


def settings_of(values):
    settings = Settings()
    for name in ("link", "fee", "stave"):
        word = values.get(name, "-")
        setattr(settings, name, None if word == "-" else int(word))
    settings.skip, settings.stats = values.get("skip") == "1", values.get("stats") == "1"
    return settings


def scan_lines(values, recording):
    """A whole scan, through windows that are lent as the loads want them."""
    settings, st = settings_of(values), State()
    st.fees = [0] * int(values.get("places", 0))
    number = lambda name, none: none if values.get(name, "-") == "-" else int(values[name])
    recording = recording[:number("length", None)]
    size, back, more, loads = (number(name, 0) for name in ("window", "back", "more", "loads"))
    loads = number("loads", None)
    lines, marks, place, wanted = [], Marks(), 0, 1
    before = copy.deepcopy(st)
    while loads != 0:
        if wanted:
            first = max(min(place, len(recording)) - back, 0)
            window = recording[first:first + max(size, wanted + min(place, len(recording)) - first)]
        answer, more_marks, st = load(settings, st, window, first, first + len(window) == len(recording))
        marks.join(more_marks)
        wanted = 0
        if answer[0] == "want":
            _, place, wanted = answer
            continue
        lines += answer_lines(answer, values.get("brief") == "1") + mark_lines(marks)
        lines += [f"link {n}" for n in st.links[before.links_used:st.links_used]]
        lines += [f"fee {n}" for n in st.fees[before.fees_used:st.fees_used]]
        lines += [f"place {st.place}", f"position {st.position}"]
        marks, before = Marks(), copy.deepcopy(st)
        loads = None if loads is None else loads - 1
        if answer[0] == "refused":
            if more == 0:
                break
            more -= 1
    return lines + [f"counts {st.seen} {st.filtered} {st.payload}", trigger_line(st)]


class Lines:
    """What is kept from line to line."""

    def __init__(self):
        self.recording, self.settings, self.state = b"", Settings(), State()

    def call(self, f, first, length, last, start):
        window = self.recording[start:start + length]
        if len(window) != length:
            return ["no case"]
        answer, marks, st = f(self.settings, self.state, window, first, last == 1)
        self.state = copy.deepcopy(st)
        return answer_lines(answer, False) + own_lines(answer) + mark_lines(marks) + state_lines(st)

    def answer(self, line):
        """The lines of a case's answer, or None for a line that sets up."""
        name, *words = line.split(" ")
        st = self.state
        match name:
            case "recording":
                self.recording = b""
            case "bytes":
                self.recording += bytes.fromhex(words[0]) if words[0] != "-" else b""
            case "repeat":
                self.recording *= int(words[0])
            case "settings":
                self.settings = settings_of(dict(word.split("=") for word in words))
            case "state":
                st.load = None if words[2] == "-" else int(words[2])
                st.place, st.position, st.seen, st.filtered, st.payload = (int(words[i]) for i in (0, 1, 3, 4, 5))
                st.triggers = [0] * 20
            case "triggers" if len(words) == 20:
                st.triggers = list(map(int, words))
            case "links":
                st.links_used, *listed = map(int, words)
                st.links = (listed + [0] * 256)[:256]
            case "fees":
                places, st.fees_used, *listed = map(int, words)
                st.fees = (listed + [0] * places)[:places]
            case "examine" | "load":
                return self.call(dict(examine=examine, load=load)[name], *map(int, words))
            case "scan":
                return scan_lines(dict(word.split("=") for word in words), self.recording)
            case _:
                return ["no case"]


def answer_all():
    lines = Lines()
    for line in sys.stdin:
        line = line.rstrip("\n")
        if line and not line.startswith("#"):
            answer = lines.answer(line)
            if answer is not None:
                print("\n".join(answer + ["."]))


def selftest():
    """Examinations through windows taken at random give the entries of the chain."""
    rng = random.Random(1)
    for trial in range(3000):
        recording = b""
        for _ in range(rng.randint(0, 6)):
            memory = rng.choice([64, 64, 65, 72, 100, 63, 0, 300])
            offset = rng.choice([max(memory, 64), 64, 80, 63, 10_065])
            fields = {2: rng.choice([0x502A, 0x522A, 1]), 8: offset, 10: memory}
            h = bytearray(rng.randbytes(64))
            for i, number in fields.items():
                h[i:i + 2] = number.to_bytes(2, "little")
            h[12] = rng.randint(1, 3)
            recording += h + rng.randbytes(max(0, min(memory, offset) - 64))
        recording = recording[:rng.choice([None, rng.randint(0, len(recording))])]
        settings, st = Settings(), State()
        settings.link, settings.fee, settings.stave = rng.choice([None, None, 1, 2]), rng.choice([None, 0x502A]), rng.choice([None, 0x502A])
        settings.skip, settings.stats = rng.random() < 0.5, rng.random() < 0.7
        st.fees = [7] * rng.randint(0, 4)
        st.seen = st.filtered = st.payload = rng.choice([0, FULL - 1, FULL - 2])
        st.triggers = [rng.choice([0, 5, FULL, FULL - 1]) for _ in st.triggers]
        expected, found = chain(settings, st, recording), []
        while not found or found[-1][0][0] != "refused":
            first = rng.randint(0, min(st.place, len(recording)))
            end = rng.randint(first, len(recording))
            entry = examine(settings, st, recording[first:end], first, end == len(recording) and rng.random() < 0.9)
            st = entry[2]
            if entry[0][0] != "want":
                found.append(entry)

        def plain(entry):
            answer, marks, st = entry
            return answer_lines(answer, False), own_lines(answer), mark_lines(marks), state_lines(st)

        assert [plain(e) for e in expected] == [plain(e) for e in found], trial
    print("3000 passed, 0 failed")


if __name__ == "__main__":
    match sys.argv[1:]:
        case []:
            answer_all()
        case ["selftest"]:
            selftest()
        case _:
            sys.exit(__doc__)
