"""Refusals: numbered 1 to 4 and 6 to 9, with the values that some of them bring."""
from __future__ import annotations

from .structs import Answer

END, OFFSET, MEMORY_SIZE, FEE_IDS_FULL = 1, 2, 3, 4
UNUSABLE, BUFFER_TOO_SHORT, NOT_A_STAVE_NAME, FEWER_THAN_64 = 6, 7, 8, 9

WORDS = {
    END: "fewer than 64 bytes are left: the end of the recording",
    OFFSET: "the offset to the next packet is below 64 or above 10,064",
    MEMORY_SIZE: "the memory size of a header that would be handed out is below 64",
    FEE_IDS_FULL: "the FEE id is new, and the list has no place for it",
    UNUSABLE: "the state, the lists or the window cannot be worked with",
    BUFFER_TOO_SHORT: "the text needs more bytes than were lent",
    NOT_A_STAVE_NAME: "not a stave name: write a letter, a layer of 0 to 6, _ and a stave of 0 to 47, as L5_42",
    FEWER_THAN_64: "fewer than 64 bytes were lent for a header",
}


class Refused(Exception):
    """A call was refused: raised where a function has no other answer, and the answer itself in a `Reply`.

    `number` is the refusal's number. `values` are (distance, position) with refusal 2: the offset minus 64, and the position of the refused
    header; (needed,) with refusal 7: the length that the text needs; and else ().

    >>> str(Refused(9))
    'refused with 9: fewer than 64 bytes were lent for a header'
    >>> Refused(2, (-1, 64)).values
    (-1, 64)
    >>> Refused(1) == Refused(1), Refused(7, (3,)) == Refused(7, (4,))
    (True, False)
    """

    __module__ = "kesarimbu"  # where users find it, and what an error message shows

    def __init__(self, number: int, values: tuple[int, ...] = ()) -> None:
        super().__init__(number, tuple(values))
        self.number = number
        self.values = tuple(values)

    def __str__(self) -> str:
        words = WORDS.get(self.number, "a number that is not known here")
        return f"refused with {self.number}: {words}{self._detail()}"

    def _detail(self) -> str:
        if self.number == OFFSET and len(self.values) == 2:
            distance, position = self.values
            return f" (it is {distance + 64}, at position {position:#x})"
        if self.number == BUFFER_TOO_SHORT and len(self.values) == 1:
            return f" ({self.values[0]})"
        return ""

    def __eq__(self, other: object) -> bool:
        if not isinstance(other, Refused):
            return NotImplemented
        return (self.number, self.values) == (other.number, other.values)

    def __hash__(self) -> int:
        return hash((self.number, self.values))

    def __repr__(self) -> str:
        return f"Refused({self.number}, {self.values})" if self.values else f"Refused({self.number})"


def refused_of(answer: Answer) -> Refused:
    """The refusal that an answer tells, with what it brings."""
    return Refused(answer.refusal, (answer.distance, answer.position) if answer.refusal == OFFSET else ())
