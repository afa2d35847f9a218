"""Counts the tags, values and regions at the front of the octets that crates/bac_trials/src/tests/reading.rt goes over.

It reads them with bacsite's reader of the grammar of ANSI/ASHRAE 135, clause 20.2, which shares nothing with the
crates: the counts that it prints are the expected ones of the tests. By hand.
"""
import pathlib
import re
import sys

HERE = pathlib.Path(__file__).resolve().parent
sys.path.insert(0, str(HERE.parent.parent / "site"))
from bacsite.bodies import _items, elements_of, tag_at

CHANGES = [0x00, 0x05, 0x0E, 0x3F, 0x65, 0xFD, 0xFE, 0xFF]


def of_tag(octets):
    """Returns whether there is a tag at the front, its number, its count and its octets."""
    tag = tag_at(octets, 0)
    return (1, tag.number, max(tag.length, 0), tag.end) if tag else (0, 0, 0, 0)


def of_value(octets):
    """Returns whether there is a value at the front, and its octets."""
    _, number, count, end = of_tag(octets)
    end += 0 if number == 1 else count
    return (1, end) if end <= len(octets) and elements_of(octets[:end]) else (0, 0)


def of_region(octets):
    """Returns whether whole items come before a closing tag 3, and their octets."""
    end = _items(octets, 0)[1]
    closing = tag_at(octets, end) if end >= 0 else None
    return (1, end) if closing and closing.number == 3 else (0, 0)


def tally(parts):
    """The number of parts; of their tags, with the sums of numbers, counts and octets; of their values and regions,
    with their octets."""
    return [sum(column) for column in zip(*((1, *of_tag(it), *of_value(it), *of_region(it)) for it in parts))]


datagrams_rt = HERE.parent.parent / "crates/bac_trials/src/tests/datagrams.rt"
text = datagrams_rt.read_text(encoding="utf-8")
datagrams = [bytes.fromhex(found) for found in re.findall(r"\b81[0-9a-f]+", text)]
changed = [
    it[:place] + bytes([octet]) + it[place + 1 :] for it in datagrams for place in range(len(it)) for octet in CHANGES
]
print(len(datagrams), "datagrams")
print("prefixes", tally(it[start:end] for it in datagrams for end in range(len(it) + 1) for start in range(end)))
print("changes", tally(it[start:] for it in changed for start in range(len(it))))
