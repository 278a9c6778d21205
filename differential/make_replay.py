#!/usr/bin/env python3
"""What the test program `chain_replay_cases` must print, by the model in `scan_model.py`: the last reply to the first calls of a list, one
more for each line.

    differential/make_replay.py > crates/chain_replay_cases/stdout
"""
import scan_model


def recording():
    """Packets of links 1, 2 and 1, with 16 bytes, none and 32 bytes of payload, of which 8 are left."""
    data = bytearray(216)
    for place, size, link, trigger in (0, 80, 1, 0x1), (80, 64, 2, 0x3), (144, 96, 1, 0x5):
        for i, number in {2: link, 8: size, 10: size}.items():
            data[place + i:place + i + 2] = number.to_bytes(2, "little")
        data[place + 12], data[place + 32] = link, trigger
    data[64], data[79] = 0xA0, 0xAF
    return bytes(data)


RECORDING = recording()

# the call, its window's first place and size, and whether that is to be the last
CALLS = [
    (scan_model.load, 0, 79, True),
    (scan_model.load, 0, 80, False),
    (scan_model.load, 81, 216, True),
    (scan_model.examine, 80, 64, True),
    (scan_model.load, 120, 216, True),
    (scan_model.load, 0, 216, True),
    (scan_model.load, 0, 216, True),
]


def made(settings, st, calls):
    """The calls up to the first reply that ends the chain: their number, the last answer, its marks, and whether it ended the chain."""
    answer, marks, ends = ("nothing",), scan_model.Marks(), False
    for number, (call, first, size, last) in enumerate(calls):
        if ends:
            return number, answer, marks, st, ends
        window = RECORDING[first:first + size]
        answer, marks, st = call(settings, st, window, first, last and first + len(window) >= len(RECORDING))
        ends = answer[0] == "refused" and (answer[1] != 6 or scan_model.is_unusable(st))
    return len(calls), answer, marks, st, ends


def line(number, answer, marks, st, ends):
    if answer[0] == "packet":
        _, _, payload, start, own, _ = answer
        answer = ("packet", start, own, payload.hex())
    said = " ".join(map(str, ("made", number, *answer)))
    return said + (" cut" if marks.e100 else "") + (
        f", place {st.place} position {st.position} counts {st.seen} {st.filtered} {st.payload}"
        " triggers {} {} {}".format(*st.triggers[:3])) + (", the end" if ends else "")


def main():
    settings = scan_model.settings_of(dict(link="1", stats="1"))
    for n in range(len(CALLS) + 1):
        st = scan_model.State()
        st.fees = [0] * 2
        print(line(*made(settings, st, CALLS[:n])))


if __name__ == "__main__":
    main()
