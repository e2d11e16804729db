"""Writes the case file and the answers that are expected: python3 reference/cases.py OUTDIR

OUTDIR/cases holds the cases one after another, each a header of 60 bytes and then two texts, of which
the second is empty but for W and N. The header is a letter, blank, 20 digits, blank, 20 digits, blank, the
first text's length in 7 digits, blank, the second's in 7 digits, LF. After the letter's meaning stand
the two numbers and the texts:
    C  check; 0, 0; the report
    S  show; observation, element; the report
    V  value; observation, element; the report
    P  the pair: ask the length, then write by the cuts given; the lent output's length, the byte that fills it
       before the call; the report
    M  ask the length; how many numbers the lent list has, at most 1,100, the number that fills it before the call,
       at most 65,535; the report
    W  write by cuts; the lent output's length, the byte that fills it before the call; the report, the cuts handed
       in, two bytes each, low byte first, at most 1,100 of them
    N  write a record; observation, 0; the report, the lent night list before the call
    L  check a night list; 0, 0; the list
    R  read a record; its number, 0; the list
OUTDIR/stdout holds the answers in turn, as `answer` below writes them. Seeds are fixed: each run
writes the same bytes.

A list of M is the start of one of 1,100 numbers, an output the start of a longer one. `rest kept` says that every other
number, or byte, of the whole is as it was before the call; else it is `rest changed`.
"""

import collections
import pathlib
import random
import re
import sys

import ades
import asks
import covariances
import cuts
import damage
import forms
import limits
import lines
import night
import nights
import packing
import refusals
import sums
from reports import LONGEST_LIST

HEADER_LENGTH = 60
LONGEST_TEXT = 70_000
LONGEST_FILE = 6_750_000
LETTERS = "CSVPMWNLR"

# A refusal's line. No line of a packed report is one: a row of it has several fields.
REFUSAL = re.compile(rb"^refused ([0-9]+) line [0-9]+ place [0-9]+$", re.MULTILINE)


def header(case):
    """The 60 bytes before the texts."""
    letter, first, second, *texts = case
    text = b"%s %020d %020d %07d %07d\n" % (letter.encode(), first, second, *map(len, texts))
    assert len(text) == HEADER_LENGTH
    return text


def refusal_line(answer):
    """`refused K line L place P`."""
    _, number, line, place = answer
    return b"refused %d line %d place %d\n" % (number, line, place)


def answer(case):
    """What is expected of a case: one line; for writing by cuts the packed bytes and `rest kept` after it; for
    asking the length the cuts, where the lent list has room for them, and `rest kept` as further lines; for the pair
    both in turn, the list having 1,100 numbers; for writing a record the whole list after the call, in hexadecimal,
    as a second line."""
    letter, first, second, text, handed = case
    if letter == "P":
        measured, written = ades.pair(text, first)
        return length_text(measured, LONGEST_LIST) + answer_text(written, text) + b"rest kept\n"
    if letter == "M":
        return length_text(ades.length(text), first)
    if letter == "W":
        return answer_text(ades.write(text, numbers_of(handed), first), text) + b"rest kept\n"
    if letter == "N":
        given, after = night.write(text, first, handed)
        return answer_text(given, text) + after.hex().encode() + b"\n"
    given = {
        "C": lambda: ades.check(text),
        "S": lambda: ades.showing(text, first, second),
        "V": lambda: ades.value(text, first, second),
        "L": lambda: night.check(text),
        "R": lambda: night.read(text, first),
    }[letter]()
    return answer_text(given, text)


def numbers_of(handed):
    """The cuts handed in: two bytes each, low byte first."""
    return [int.from_bytes(handed[at:at + 2], "little") for at in range(0, len(handed), 2)]


def length_text(given, room):
    """`measured LENGTH blocks BLOCKS`, then `cuts` and each of them where so many numbers have room for all, or the
    refusal; then `rest kept`."""
    if ades.is_refused(given):
        return refusal_line(given) + b"rest kept\n"
    _, length, cuts_given = given
    text = b"measured %d blocks %d\n" % (length, len(cuts_given))
    if len(cuts_given) <= room:
        text += b" ".join([b"cuts"] + [b"%d" % cut for cut in cuts_given]) + b"\n"
    return text + b"rest kept\n"


def answer_text(given, report):
    """The line for an answer, and after it the packed bytes."""
    kind, *numbers = given
    if kind == "refused":
        return refusal_line(given)
    if kind == "shown":
        start, length = numbers
        return b"shown %d %d %s\n" % (start, length, report[start:start + length])
    if kind == "packed":
        return b"packed %d\n%s" % (len(numbers[0]), numbers[0])
    if kind == "decimal":
        return b"decimal %d places %d\n" % tuple(numbers)
    if kind == "scaled":
        return b"scaled %d power %d\n" % tuple(numbers)
    return b" ".join([kind.encode()] + [b"%d" % number for number in numbers]) + b"\n"


def all_cases():
    """The cases of every kind, each kind with a seed of its own."""
    for kind in (forms, covariances, lines, refusals, asks, limits, damage, packing, cuts, nights):
        yield from kind.cases(random.Random("Kyrrbolda " + kind.__name__))


def main(directory):
    """Checks the reference, makes the cases and their answers, and writes both files."""
    sums.check_reference(random.Random("Kyrrbolda sums"))
    cases = list(all_cases())
    assert all(len(text) <= LONGEST_TEXT for case in cases for text in case[3:])
    text = b"".join(header(case) + case[3] + case[4] for case in cases)
    assert len(text) <= LONGEST_FILE
    counts = collections.Counter(case[0] for case in cases)
    assert counts["C"] + counts["S"] + counts["V"] >= 650 and counts["P"] >= 220 and counts["N"] >= 200
    assert counts["M"] >= 200 and counts["W"] >= 400
    answers = [answer(case) for case in cases]
    # A pair that is refused counts once.
    refused = collections.Counter(found[-1].decode() for found in map(REFUSAL.findall, answers) if found)
    assert set(refused) == {str(number) for number in range(1, 25)}
    directory.mkdir(parents=True, exist_ok=True)
    (directory / "cases").write_bytes(text)
    (directory / "stdout").write_bytes(b"".join(answers))
    print(len(cases), "cases,", len(text), "bytes:", ", ".join(f"{letter} {counts[letter]}" for letter in LETTERS))
    print("refused:", ", ".join(f"{number} {refused[number]}" for number in sorted(refused, key=int)))


if __name__ == "__main__":
    main(pathlib.Path(sys.argv[1]))
