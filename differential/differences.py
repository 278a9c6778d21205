"""The differences that docs/DIFFERENCES.md lists, as far as a case can show them: which one is due is known from the Rust's answer."""
from itertools import accumulate


def difference(case, rust):
    """The kind of the difference that is due, and how the answer here has to start; or none."""
    word, *words = case.split(" ")
    match word:
        case "header" if rust == ["panic"]:
            return "headers of fewer than 64 bytes, at which the Rust panics", ["refused 9"]
        case "name":
            return of_name(words[0], rust)
        case "scan":
            return of_scan(words, rust)
    return None


def of_name(word, rust):
    name = b"" if word == "-" else bytes.fromhex(word)
    if rust == ["no text"]:
        return "names that are no UTF-8, which the Rust cannot be asked", ["refused 8"]
    if rust == ["panic"] and b"_" not in name:
        return "names without '_', at which the Rust panics", ["refused 8"]
    if rust[0].startswith("name ") and name.count(b"_") > 1:
        return "names with a second '_', which the Rust overlooks", ["refused 8"]
    if rust[0].startswith("name ") and is_of_no_stave(name):
        return "names of a layer above 6 or a stave above 47, which the Rust gives a FEE id", ["refused 8"]
    return None


def is_of_no_stave(name):
    """Whether a name in which the Rust has found a layer and a stave has them above the highest that there are."""
    layer, stave = name[1:].split(b"_")
    return int(layer) > 6 or int(stave) > 47


def of_scan(words, rust):
    """The first load at which a refusal that is added ends the likeness. A full list is met before the memory size is looked at."""
    places = next((int(word[7:]) for word in words if word.startswith("places=")), 0)
    parts = loads(rust)
    listed = accumulate(sum(line.startswith("fee ") for line in part) for part in parts)
    place = 0
    for part, fee_ids in zip(parts, listed):
        if fee_ids > places:
            return "scans that were compared up to refusal 4", rust[:place] + ["refused 4"]
        if is_too_small(part):
            return "scans that were compared up to refusal 3", rust[:place] + ["refused 3"]
        place += len(part)
    return None


def asked_again(case, start, ours):
    """Two scans for the Rust, and the same two for here, for one that was compared up to a refusal that is added: so the counts are compared,
    too. The first ends before the load that is refused. The second ends with it; there the Rust's recording ends behind the header that was
    refused here, so that it sees that one and none behind it."""
    before = sum(line.startswith("position ") for line in start)
    place = next(line.removeprefix("place ") for line in ours[len(start):] if line.startswith("place "))
    words = [word for word in case.split(" ") if not word.startswith("loads=")]
    ended, refused = ([*words, f"loads={loads}"] for loads in (before, before + 1))
    cut = [word for word in refused if not word.startswith("length=")] + [f"length={place}"]
    return [" ".join(ended), " ".join(cut)], [" ".join(ended), " ".join(refused)]


def loads(rust):
    """A scan's answer, load by load; the counts at its end are no load."""
    parts, part = [], []
    for line in rust:
        part.append(line)
        if line.startswith("position "):
            parts.append(part)
            part = []
    return parts


def is_too_small(part):
    """Whether a load hands out a packet with a memory size below 64."""
    if not part[0].startswith("packet "):
        return False
    header = bytes.fromhex(part[1].removeprefix("header "))
    return int.from_bytes(header[10:12], "little") < 64
