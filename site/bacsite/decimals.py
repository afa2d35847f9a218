"""Reals and Doubles: the octets that go over the wire, and decimal numbers that people read."""

from __future__ import annotations

import argparse
import math
import re
import struct
from decimal import ROUND_UP, Context, Decimal

from .streams import MISSING, put, wrong

NO_NUMBERS = ("NaN", "Inf", "-Inf")
DECIMAL = re.compile(r"[-+]?([0-9]+\.?[0-9]*|\.[0-9]+)([eE][-+]?[0-9]+)?")


def number_of(octets: str) -> float:
    """Returns the number of 8 digits of a Real, or of 16 of a Double; it may be NaN or infinite."""
    return float(struct.unpack(">f" if len(octets) == 8 else ">d", bytes.fromhex(octets))[0])


def octets_of(number: float, double: bool = False) -> str:
    """Returns the octets of a Real or a Double; an empty text if it is too great."""
    try:
        return struct.pack(">d" if double else ">f", number).hex()
    except OverflowError:
        return ""


def shortest(octets: str) -> str:
    """Returns the shortest decimal number that gives these octets back; or NaN, Inf or -Inf."""
    number = number_of(octets)
    if not math.isfinite(number):
        return "NaN" if math.isnan(number) else "Inf" if number > 0 else "-Inf"
    if len(octets) == 8:
        number = _shortest_of_real(number, octets)
    text = repr(number)
    return text[:-2] if text.endswith(".0") else text


def _shortest_of_real(number: float, octets: str) -> float:
    """Tries each number of digits, also rounded up: above a power of two there is more room than
    below, so the nearest number with that many digits may give other octets."""
    for digits in range(1, 10):
        short = float(f"{number:.{digits}g}")
        if abs(short) < abs(number) and octets_of(short) != octets:
            short = float(Context(digits, ROUND_UP).create_decimal_from_float(number))
        if octets_of(short) == octets:
            return short
    return number


def encoded(word: str, double: bool = False) -> str:
    """Returns the octets of a decimal number; it fails if the word is not one."""
    if not DECIMAL.fullmatch(word):
        raise wrong("no number: " + repr(word))
    number = float(word)
    is_zero = not re.match("[^eE]*[1-9]", word)
    if not math.isfinite(number) or (number == 0 and not is_zero):
        raise wrong("past the range: " + word)
    octets = octets_of(number if double or is_zero else _to_odd(number, word), double)
    if not octets or (number_of(octets) == 0 and not is_zero):
        raise wrong("past the range: " + word)
    return octets


def _to_odd(number: float, word: str) -> float:
    """Returns the word's Double, rounded to a last bit of 1 if it is not exact. So it lies on the
    word's side of the middle between two Reals, and is not rounded twice."""
    exact, nearest = Decimal(word), Decimal(number)
    if nearest == exact:
        return number
    (bits,) = struct.unpack(">Q", struct.pack(">d", number))
    towards_zero = bits - (nearest.copy_abs() > exact.copy_abs())
    return float(struct.unpack(">d", struct.pack(">Q", towards_zero | 1))[0])


def print_real(words: argparse.Namespace) -> int:
    """Prints octets, or a list of them, as decimal numbers."""
    text = words.octets.lower()
    is_list = text[:1] + text[-1:] == "{}"
    parts = text[1:-1].split(",") if is_list else [text]
    if not all(re.fullmatch("[0-9a-f]{8}|[0-9a-f]{16}|null", part) for part in parts):
        raise wrong("no Real: " + words.octets)
    decimals = [part if part == "null" else shortest(part) for part in parts]
    shown = ", ".join(decimals)
    put(("{%s}\n" if is_list else "%s\n") % shown)
    return MISSING if any(it in NO_NUMBERS for it in decimals) else 0


def print_octets(words: argparse.Namespace) -> int:
    """Prints the octets of a decimal number."""
    put(encoded(words.number, words.double) + "\n")
    return 0
