"""The command line: `python3 -m kesarimbu list FILE`, and `links FILE`."""
from __future__ import annotations

import os
import sys

from .listing import Listing
from .progress import Progress, size_to_tell
from .refusals import Refused

TYPE_CHECKING = False
if TYPE_CHECKING:
    from argparse import Namespace
    from typing import Iterator, NoReturn, Union

    from .link_report import LinkReport
    from .windows import Source

    Options = Union["FileAlone", Namespace]
    Report = Union[Listing, LinkReport]

# Exit statuses.
WELL = 0
NOT_WELL = 1
MISUSE = 2
INTERRUPTED = 130

STANDARD_INPUT = 0


class FileAlone:
    """The options of `list FILE`, with no word more."""

    command = "list"
    link = fee = stave = version = None
    its = no_payload = triggers = False

    def __init__(self, file: str) -> None:
        self.file = file


def options_of(words: list[str]) -> Options:
    """The options that the words ask for. A file alone needs no parser, which takes longer to start than a small recording to list."""
    if len(words) == 2 and words[0] == "list" and (words[1] == "-" or not words[1].startswith("-")):
        return FileAlone(words[1])
    from .options import understood
    return understood(words)


def fail(options: Options, message: str) -> NoReturn:
    """Ends the program, with what could not be done."""
    from .options import misused
    misused(options.command, message)


def run(options: Options) -> int:
    """Does what the command asks for, on standard output."""
    try:
        source = open(STANDARD_INPUT, "rb", buffering=0, closefd=False) if options.file == "-" else options.file
        progress = Progress(size_to_tell(source))
        report = report_on(source, options)
    except OSError as error:
        fail(options, f"cannot read {options.file}: {error.strerror}")
    except Refused as refused:
        fail(options, f"argument --stave: {options.stave!r}: {refused}")
    with report:
        return write(report, progress, options)


def report_on(source: Source, options: Options) -> Report:
    """What a command writes of a source. What checks links is imported only where it is asked for."""
    asked = dict(link=options.link, fee=options.fee, stave=options.stave, skip_payload=options.no_payload)
    if options.command == "links":
        from .link_report import LinkReport
        return LinkReport(source, **asked)
    return Listing(source, **asked, version=options.version, its=options.its)


def write(report: Report, progress: Progress, options: Options) -> int:
    """Writes a report, and answers the exit status."""
    out = sys.stdout.buffer
    for lines in chunks(report, options):
        out.write(lines)
        out.flush()  # no line waits here for a slow source
        progress.show(report.place)
    progress.clear()
    return WELL if report.is_well else NOT_WELL


def chunks(report: Report, options: Options) -> Iterator[bytes | memoryview]:
    """The lines of a report. A read that fails ends the program; a write that fails is not met in here."""
    try:
        yield from report.views()
    except OSError as error:
        fail(options, f"cannot read {options.file}: {error.strerror}")
    if options.command == "list" and options.triggers:
        yield trigger_lines(report)


def trigger_lines(listing: Listing) -> bytes:
    """The list of a listing's trigger counts. What makes it is imported only where it is asked for."""
    from .triggers import trigger_list
    return trigger_list(listing.triggers).encode()


def leave_output() -> None:
    """Points standard output elsewhere, so that nothing more is tried there when the interpreter ends."""
    os.dup2(os.open(os.devnull, os.O_WRONLY), sys.stdout.fileno())


def main(words: list[str] | None = None) -> int:
    options = options_of(sys.argv[1:] if words is None else words)
    try:
        return run(options)
    except BrokenPipeError:  # whoever reads the output has seen enough
        leave_output()
        return NOT_WELL
    except OSError as error:
        leave_output()
        from .options import PROGRAM
        print(f"{PROGRAM}: cannot write the output: {error.strerror}", file=sys.stderr)
        return MISUSE
    except KeyboardInterrupt:
        leave_output()
        return INTERRUPTED


if __name__ == "__main__":
    os._exit(main())  # all is written, and to take the interpreter apart would take a tenth of its start
