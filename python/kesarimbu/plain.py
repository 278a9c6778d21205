"""Settings and validators as structs, and what a scan has room for: what the listing and the layers above it share."""
from __future__ import annotations

from . import library, structs
from .refusals import Refused

# How many FEE ids a scan has places for, if no other number is given.
PLACES = 4096


def settings(link: int | None, fee: int | None, stave: str | bytes | int | None, skip_payload: bool, stats: bool) -> structs.Settings:
    """The settings of a scan; a filter that is None is not set. A stave is given by its name, which may be refused, or as a FEE id."""
    if isinstance(stave, (str, bytes)):
        return with_stave(settings(link, fee, None, skip_payload, stats), stave)
    filters = (link, fee, stave)
    given = (number is not None for number in filters)
    numbers = (0 if number is None else number for number in filters)
    return structs.filled(structs.Settings, (*given, *numbers, skip_payload, stats))


def with_stave(settings: structs.Settings, name: str | bytes) -> structs.Settings:
    """The settings with the stave of this name for a filter. Refusal 8 if there is no such stave."""
    letters = letters_of(name)
    answer = library.set_stave(settings, letters, len(letters))
    if answer.refusal:
        raise Refused(answer.refusal)
    return answer.settings


def letters_of(name: str | bytes) -> bytes:
    """The bytes of a name."""
    return name.encode("utf-8", "surrogatepass") if isinstance(name, str) else bytes(name)


def validator(version: int | None, its: bool, settled: int | None) -> structs.Validator:
    """A validator with a version, or without one and perhaps with a header ID that is settled."""
    if version is not None:
        return structs.filled(structs.Validator, (True, False, version, its))
    return structs.filled(structs.Validator, (False, settled is not None, settled or 0, its))
