"""Sums of files, and where two of them differ first, for tools/evidence."""
import hashlib
import io
import itertools

from lib.tables import OCTETS, records_of

BLOCK = 1 << 20


def blocks_of(file):
    return iter(lambda: file.read(BLOCK), b"")


def sum_of(path):
    """Returns SHA-256 of a file, and how many octets it has."""
    digest, count = hashlib.sha256(), 0
    with open(path, "rb") as file:
        for octets in blocks_of(file):
            digest.update(octets)
            count += len(octets)
    return digest.hexdigest(), count


def first_difference(one, other):
    """Returns the number of the first line in which two files differ, or None."""
    one.seek(0)
    other.seek(0)
    line = 1
    for octets, others in itertools.zip_longest(blocks_of(one), blocks_of(other), fillvalue=b""):
        if octets != others:
            at = next((it for it, (a, b) in enumerate(zip(octets, others)) if a != b), min(len(octets), len(others)))
            return line + octets[:at].count(b"\n")
        line += octets.count(b"\n")
    return None


def messages_difference(given, blanked, blank):
    """Returns what differs first in lines for messages, or None. blank: by the columns that are to be blanked what blanks them."""
    given.seek(0)
    blanked.seek(0)
    both, names = [records_of(io.TextIOWrapper(it, **OCTETS)) for it in (given, blanked)], None
    for (line, fields), (other_line, others) in itertools.zip_longest(*both, fillvalue=(0, [])):
        names = names or fields
        wanted = [blank[name](it) if name in blank and it and fields is not names else it for name, it in zip(names, fields)]
        for name, it, other in itertools.zip_longest(names, wanted, others, fillvalue=""):
            if it != other:
                return f"line {line or other_line}, column {name}: {other[:40]!a}, and {it[:40]!a} is wanted"
    return None
