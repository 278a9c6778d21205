"""Verdicts: whether a header is sound, and what is wrong with it if not."""
from __future__ import annotations

from typing import TYPE_CHECKING, NamedTuple

from . import lending, library, plain, structs
from .headers import Header, plain_header
from .refusals import Refused

if TYPE_CHECKING:
    from .lending import Writable

# So many bytes hold every verdict's text.
VERDICT_ROOM = 406


class Verdict(NamedTuple):
    """Whether a header is sound, and the text that names what is not: empty if it is."""

    sound: bool
    text: str


class Validator:
    """Holds headers to the rules, and to one header ID: `version` if there is one, and else that of the first header checked.

    `settled` is None until a header is checked, and then that header's ID; with a `version` it stays None. `its`: whether the system id
    must be that of the ITS.

    >>> validator = Validator()
    >>> sound = Header(header_id=7, header_size=64, fee_id=0x502A, trigger_type=0x4813)
    >>> validator.check(sound)
    Verdict(sound=True, text='')
    >>> validator.settled
    7
    >>> validator.check(Header(header_id=6, header_size=64, fee_id=0x502A, trigger_type=0x4813)).text
    '[E10] RDH sanity check failed: RDH0: Header ID = 6 (expected 7)'
    """

    def __init__(self, version: int | None = None, its: bool = False, settled: int | None = None) -> None:
        if version is not None and settled is not None:
            raise ValueError("a validator with a version has no other header ID settled")
        self.version = version
        self.its = its
        self.settled = settled

    def __repr__(self) -> str:
        return f"Validator(version={self.version}, its={self.its}, settled={self.settled})"

    def check(self, header: Header, out: Writable | None = None) -> Verdict:
        """The verdict on a header, which may settle the header ID. With `out` the text is also written at its start. Refusal 7 if
        `out` is too short; then nothing is written, and the validator stays as it was.

        >>> validator = Validator(its=True)
        >>> validator.check(Header(), bytearray(3))
        Traceback (most recent call last):
        ...
        kesarimbu.Refused: refused with 7: the text needs more bytes than were lent (114)
        >>> validator.settled is None
        True
        """
        buffer = bytearray(VERDICT_ROOM) if out is None else out
        before = plain.validator(self.version, self.its, self.settled)
        checked = library.check(before, plain_header(header), *lending.to_write(buffer))
        if checked.refusal:
            raise Refused(checked.refusal, (checked.length,))
        self._settle(checked.validator)
        return Verdict(checked.sound, lending.text_at(buffer, checked.length))

    def _settle(self, after: structs.Validator) -> None:
        self.settled = after.id if after.settled and not after.configured else None
