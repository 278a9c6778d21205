"""The check of links as the rule states it, apart from the module, and by it what the command `links` must print of a recording.

What a link keeps are four numbers: packet counter, pages counter, orbit and stop bit of its last header. The scan is that of
differential/scan_model.py.
"""
from . import differential  # the way to scan_model
import scan_model

PLACES = 500  # for FEE ids: more than the recordings have that are given here
FLAGS = ("packet_counter", "pages_counter", "orbit")
NO_FLAG = (False, False, False, 0)


def yielded(last, new):
    """Three flags and the distance: what a header with the numbers `new` yields behind `last`, which is None before the first header."""
    if last is None:
        return NO_FLAG
    counter, pages, orbit, stop_bit = last
    is_behind_a_stop = stop_bit != 0
    expected = 0 if counter == 255 else counter + 1
    expected_page = 0 if is_behind_a_stop or pages == 65_535 else pages + 1
    is_other_orbit = new[2] != orbit and not is_behind_a_stop
    ahead = new[0] - expected
    return new[0] != expected, new[1] != expected_page, is_other_orbit, ahead if ahead >= 0 else ahead + 256


class Links:
    """What is kept of each link on which a header was put."""

    def __init__(self, last=()):
        self.last = dict(last)

    def put(self, link, new):
        answer = yielded(self.last.get(link), new)
        self.last[link] = new
        return answer


def numbers_in(header):
    """The link of 64 bytes, and the four numbers."""
    return header[12], (header[13], int.from_bytes(header[36:38], "little"), int.from_bytes(header[20:24], "little"), header[38])


def scanned(recording, link, fee, stave, skip):
    """Answer and state of each examination over a recording, with statistics."""
    settings, state = scan_model.Settings(), scan_model.State()
    settings.link, settings.fee, settings.stave, settings.skip, settings.stats = link, fee, stave, skip, True
    state.fees = [0] * PLACES
    return [(answer, after) for answer, _, after in scan_model.chain(settings, state, recording)]


def reported(recording, link=None, fee=None, stave=None, skip=False):
    """Exit status and output of `links`; a stave is a FEE id."""
    links, totals, lines = Links(), {}, []
    entries = scanned(recording, link, fee, stave, skip)
    for (_, header, _, _, own, _) in (answer for answer, _ in entries if answer[0] == "packet"):
        number, new = numbers_in(header.bytes)
        *flags, distance = links.put(number, new)
        packets, flagged, sum_of_distances = totals.get(number, (0, 0, 0))
        totals[number] = packets + 1, flagged + any(flags), sum_of_distances + distance
        if any(flags):
            told = ",".join(name for name, flag in zip(FLAGS, flags) if flag)
            lines.append(f"0x{hex(own)[2:].upper()}: link {number} flags {told} distance {distance}")
    lines += ["link {} packets {} flagged {} distance {}".format(number, *totals[number]) for number in sorted(totals)]
    (_, refusal, *_), state = entries[-1]
    lines += [f"seen {state.seen}", f"filtered {state.filtered}", f"payload {state.payload}", f"end {refusal}"]
    is_well = refusal == 1 and all(flagged == 0 for _, flagged, _ in totals.values())
    return 0 if is_well else 1, "".join(line + "\n" for line in lines).encode()
