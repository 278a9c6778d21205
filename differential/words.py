"""The words of a case line. README.md describes the lines. A kind of words is a function that gives a word's value, or raises NoCase."""
import re
from functools import partial


class NoCase(Exception):
    """The line is no case."""


DIGITS = re.compile("0*([0-9]{1,20})")
BYTES = re.compile("(?:[0-9a-fA-F]{2})+")


def number(word, bits):
    found = DIGITS.fullmatch(word)
    if not found or int(found[1]) >> bits:
        raise NoCase
    return int(found[1])


flag, number8, number16, number32, number64 = (partial(number, bits=bits) for bits in (1, 8, 16, 32, 64))


def data(word):
    """Bytes, two hexadecimal digits each."""
    if word == "-":
        return b""
    if not BYTES.fullmatch(word):
        raise NoCase
    return bytes.fromhex(word)


def or_none(kind):
    return lambda word: None if word == "-" else kind(word)


# The forms of lines. A form is a function from the words behind the first one to the list of their values.


def form(*kinds, further=None, many=None):
    """Words of these kinds; behind them one of the kind `further` or none, or a list of words of the kind `many`."""

    def values(words):
        rest = words[len(kinds):]
        if len(words) < len(kinds) or len(rest) > (1 if further else 0) and not many:
            raise NoCase
        found = [kind(word) for kind, word in zip(kinds, words)]
        if many:
            return [*found, [many(word) for word in rest]]
        return [*found, *(further(word) for word in rest)]

    return values


def form_of_keys(**kinds):
    """Words such as `link=3`, in any order, as one dictionary. The first of several with the same key counts."""

    def values(words):
        found = {}
        for word in words:
            key, _, value = word.partition("=")
            if key not in kinds:
                raise NoCase
            found.setdefault(key, kinds[key](value))
        return [found]

    return values
