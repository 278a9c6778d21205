"""The words of the command line, their help, and what is said of words that are not understood."""
from __future__ import annotations

import argparse

TYPE_CHECKING = False
if TYPE_CHECKING:
    from typing import NoReturn

PROGRAM = "python3 -m kesarimbu"
HELP_WIDTH = 100

DESCRIPTION = """\
Reads recordings of ALICE readout crates, which are chains of packets, each led by a 64-byte raw
data header (RDH). `COMMAND --help` says more of a command.
"""

# What both commands print at the end, and what their words mean.
LAST_LINES = """\
At the end come the number of headers seen, of headers that matched the filter (0 without one) and
of payload bytes, and why it ended:

  end 1   the end of the recording
  end 2   an offset to the next packet is below 64 or above 10,064: the chain cannot be followed
  end 3   the memory size of a header is below 64
  end 4   there are more than 4,096 FEE ids
  end 6   the recording goes beyond 2^60 bytes
"""

WORDS = """\
Numbers are decimal, or hexadecimal with 0x. Of several filters only the first of link, FEE id and
stave is used.
"""

LIST_DESCRIPTION = f"""\
Lists a recording: a line for each packet, with the position of its header in the recording, with a
filter too, and these fields of the header:

  header ID, header size, FEE id, system id, offset to the next packet, link, packet counter,
  bunch counter, orbit, data format, trigger type, pages counter, stop bit, detector field

If a header is not sound, a further line says what is wrong with it.

{LAST_LINES}
With --triggers a list of trigger counts follows: how many of the headers seen had each bit of a
trigger. Headers that do not match the filter are counted, too, as they are among the seen.
"""

LIST_EPILOG = f"""\
{WORDS}
Exit status: 0 if the listing ended with 1 and all packets listed are sound; 1 if not; 2 if it could
not be done as it was asked for.

Examples:
  {PROGRAM} list recording.raw
  {PROGRAM} list --stave L5_42 --its recording.raw
  {PROGRAM} list --triggers recording.raw
  zcat recording.raw.gz | {PROGRAM} list --link 3 -
"""

LINKS_DESCRIPTION = f"""\
Checks that the packets of each link go on from one another, and tells where some were lost. A
header is flagged where it is not as it must be behind the last header on its link:

  packet_counter   must be the last one plus 1; 255 is followed by 0
  pages_counter    must be the last one plus 1, and 65,535 is followed by 0; behind a stop, 0
  orbit            must be the last one; behind a stop it is free

A stop is any stop bit but 0. The first header on a link is taken as it comes. For each header that
is flagged there is a line, as soon as it is met: the position of the header in the recording, with
a filter too, its link, its flags, and the distance of its packet counter from the expected one,
modulo 256. In an orderly run that is how many packets were lost in front of it, modulo 256; a
distance of 255 may be a packet that came twice.

Behind these there is a line for each link that has packets: how many, how many of them are flagged,
and the sum of their distances.

{LAST_LINES}"""

LINKS_EPILOG = f"""\
{WORDS}
Where several FEE ids share a link, --fee and --stave leave the packets of the others out, and these
are then told as lost. --link leaves out whole links.

Exit status: 0 if it ended with 1 and no header is flagged; 1 if not; 2 if it could not be done as
it was asked for.

Examples:
  {PROGRAM} links recording.raw
  zcat recording.raw.gz | {PROGRAM} links --link 3 -
"""


def number(text: str, most: int) -> int:
    """A number as it is written on the command line, at most `most`."""
    is_hex = text[:2] in ("0x", "0X")
    digits, known = (text[2:], "0123456789abcdefABCDEF") if is_hex else (text, "0123456789")
    if not digits or digits.strip(known):
        raise argparse.ArgumentTypeError(f"{text!r} is not a number, as 42 or 0x2A")
    value = int(digits, 16 if is_hex else 10)
    if value > most:
        raise argparse.ArgumentTypeError(f"{text} is above {most}")
    return value


def number_of_8_bits(text: str) -> int:
    return number(text, 0xFF)


def number_of_16_bits(text: str) -> int:
    return number(text, 0xFFFF)


class Help(argparse.RawDescriptionHelpFormatter):
    """Help of a fixed width, with the texts as they are. (To ask the terminal for its width takes a tenth of the start.)"""

    def __init__(self, prog: str) -> None:
        super().__init__(prog, width=HELP_WIDTH)


def add_recording(parser: argparse.ArgumentParser) -> None:
    """The file, and which of its packets are read, and how."""
    parser.add_argument("file", metavar="FILE", help="the recording; - for standard input")
    parser.add_argument("--link", metavar="N", type=number_of_8_bits, help="only packets of this link")
    parser.add_argument("--fee", metavar="N", type=number_of_16_bits, help="only packets of this FEE id")
    parser.add_argument("--stave", metavar="NAME",
                        help="only packets of this stave: L5_42 is stave 42 of layer 5; layers are 0 to 6, staves 0 to 47")
    parser.add_argument("--no-payload", action="store_true", help="skip payload: go from header to header by the offset to the next packet")


def add_listing(parser: argparse.ArgumentParser) -> None:
    """What a listing holds headers to, and what it adds."""
    parser.add_argument("--version", metavar="N", type=number_of_8_bits,
                        help="the header ID that all headers must have; without it, all must have that of the first packet listed")
    parser.add_argument("--its", action="store_true", help="the system id must be that of the ITS, 32")
    parser.add_argument("--triggers", action="store_true", help="behind the listing, list the trigger counts of the headers seen")


def parsers() -> tuple[argparse.ArgumentParser, dict[str, argparse.ArgumentParser]]:
    """What the command line can be, and what can stand behind each command."""
    shown = dict(formatter_class=Help, allow_abbrev=False)
    top = argparse.ArgumentParser(prog=PROGRAM, description=DESCRIPTION, **shown)
    commands = top.add_subparsers(title="commands", dest="command", metavar="COMMAND", required=True, prog=PROGRAM)
    listed = commands.add_parser("list", help="list the packets of a recording, and what is wrong with them",
                                 description=LIST_DESCRIPTION, epilog=LIST_EPILOG, **shown)
    linked = commands.add_parser("links", help="tell where the links of a recording lost packets",
                                 description=LINKS_DESCRIPTION, epilog=LINKS_EPILOG, **shown)
    add_recording(listed)
    add_listing(listed)
    add_recording(linked)
    return top, {"list": listed, "links": linked}


def understood(words: list[str]) -> argparse.Namespace:
    """The options that the words ask for. Words that are not understood end the program, behind the usage of their command."""
    top, commands = parsers()
    options, unknown = top.parse_known_args(words)
    if unknown:
        commands[options.command].error(f"unrecognized arguments: {' '.join(unknown)}")
    return options


def misused(command: str, message: str) -> NoReturn:
    """Ends the program, with what could not be done behind the usage of the command."""
    parsers()[1][command].error(message)
