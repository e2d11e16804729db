"""Compares the box, through its C interface, and the plain C implementation with the reference:

    python3 bench/compare.py CASES [COUNT]

runs both on the cases of the case file and on COUNT reports with damage made by chance (20,000 if not
said), each with lists of cuts and night lists, and stops at the first difference. It needs an x86-64 machine
with gcc, and the static library that `rt lib` in crates/kyrrbolda writes. reference/README.md says how the case
file is made.
"""

import ctypes
import pathlib
import random
import subprocess
import sys
import tempfile

HERE = pathlib.Path(__file__).resolve().parent
sys.path.insert(0, str(HERE.parent / "reference"))

import ades  # noqa: E402
import cases  # noqa: E402
import damage  # noqa: E402
import night  # noqa: E402
import nights  # noqa: E402
import reports  # noqa: E402

GUARD = 64
FENCE = bytes(range(0xC0, 0xC0 + GUARD))  # stands before and after what is lent
ARCHIVE = HERE.parent / "crates" / "kyrrbolda" / "out" / "libkyrrbolda.a"
KINDS = {"no value": 0, "absent": 1, "whole": 2, "decimal": 3, "time": 4, "angle": 5, "scaled": 6}
LOW = 10_000_000_000  # a covariance's whole number is high times this and low
LARGEST = 65_535  # the largest number that a list of cuts can hold


class Answer(ctypes.Structure):
    """An answer's members: refused, line and place first."""

    def members(self):
        """The members in turn."""
        return tuple(getattr(self, name) for name, _ in self._fields_)


class Counted(Answer):
    """The answer of check, write and a list's check: the fourth member is the observations, length or records."""
    _fields_ = [(name, ctypes.c_uint64) for name in ("refused", "line", "place", "count")]


class Measured(Answer):
    """kyrr_measured."""
    _fields_ = Counted._fields_[:3] + [("length", ctypes.c_uint64), ("blocks", ctypes.c_uint64)]


class Shown(Answer):
    """kyrr_shown."""
    _fields_ = [(name, ctypes.c_uint64) for name in ("refused", "line", "place", "absent", "start", "length")]


class Valued(Answer):
    """kyrr_valued."""
    _fields_ = Shown._fields_[:3] + [
        ("kind", ctypes.c_uint64), ("whole", ctypes.c_int64), ("part", ctypes.c_uint64),
        ("negative", ctypes.c_uint64), ("high", ctypes.c_uint64), ("low", ctypes.c_uint64), ("power", ctypes.c_int64)]


class Done(Answer):
    """kyrr_done."""
    _fields_ = Shown._fields_[:3]


class Record(Answer):
    """kyrr_night_record."""
    _fields_ = Shown._fields_[:3] + [
        ("number", ctypes.c_uint64), ("station", ctypes.c_uint64), ("day", ctypes.c_int64),
        ("microseconds", ctypes.c_uint64), ("ra", ctypes.c_int64), ("dec", ctypes.c_int64)]


def function(library, name, answer, *more):
    """A function of a library that takes a report or a list, its length and more."""
    found = getattr(library, name)
    found.argtypes = [ctypes.c_char_p, ctypes.c_size_t, *more]
    found.restype = answer
    return found


def shared(directory, name, *parts):
    """A shared library of these parts, every warning an error."""
    library = directory / name
    flags = ["-std=c99", "-O2", "-Wall", "-Wextra", "-Werror", "-fPIC", "-shared", "-Wl,--whole-archive"]
    subprocess.run(["gcc", *flags, *parts, "-Wl,--no-whole-archive", "-o", str(library)], check=True)
    return ctypes.CDLL(str(library))


class Functions:
    """The functions of the box and of the plain implementation."""

    def __init__(self, directory):
        plain = shared(directory, "plain.so", str(HERE / "plain.c"))
        box = shared(directory, "box.so", str(ARCHIVE))
        lent = (ctypes.c_void_p, ctypes.c_size_t)
        request = (ctypes.c_uint64, ctypes.c_uint64)

        def both(name, answer, *more):
            """The function of that name in both."""
            return [function(plain, "plain_" + name, answer, *more), function(box, "kyrr_" + name, answer, *more)]

        self.checks = both("check", Counted)
        self.lengths = both("length", Measured, *lent)
        self.writes = both("write", Counted, *lent, *lent)
        self.night_writes = both("night_write", Done, ctypes.c_uint64, *lent)
        self.night_checks = both("night_check", Counted)
        self.night_reads = both("night_read", Record, ctypes.c_uint64)
        self.show = function(box, "kyrr_show", Shown, *request)
        self.value = function(box, "kyrr_value", Valued, *request)


def members(answer, *rest):
    """The members that a reference's answer stands for, where the last ones are these unless it is refused."""
    return (*answer[1:], *(0 for _ in rest)) if ades.is_refused(answer) else (0, 0, 0, *rest)


def fenced(lent):
    """Memory that holds these bytes between two fences."""
    return ctypes.create_string_buffer(FENCE + lent + FENCE, len(lent) + 2 * GUARD)


def within(memory):
    """Where the bytes between the fences start."""
    return ctypes.byref(memory, GUARD)


def compare_check(functions, report):
    """The answers to a check."""
    answer = ades.check(report)
    for check in functions.checks:
        given = check(report, len(report)).members()
        assert given == members(answer, answer[1]), (report, answer, given)


def of_value(answer):
    """The members whole, part, negative, high, low and power; of a covariance the first two are 0, of any other
    value the last four."""
    if answer[0] != "scaled":
        return (*answer[1:], 0, 0)[:2] + (0, 0, 0, 0)
    _, number, power = answer
    return 0, 0, int(number < 0), abs(number) // LOW, abs(number) % LOW, power


def compare_request(functions, report, observation, element):
    """The answers to a show and to a value of the same element."""
    answer = ades.showing(report, observation, element)
    place = answer[1:] if answer[0] == "shown" else (0, 0)
    given = functions.show(report, len(report), observation, element).members()
    assert given == members(answer, int(answer[0] == "absent"), *place), (report, answer, given)
    answer = ades.value(report, observation, element)
    given = functions.value(report, len(report), observation, element).members()
    assert given == members(answer, KINDS.get(answer[0]), *of_value(answer)), (report, answer, given)


def random_covariance_text(chance):
    """A covariance by chance, every second time with a byte of it another, left out or put in."""
    text = reports.random_covariance(chance, 20)
    if chance.random() < 0.5:
        return text
    at, byte = chance.randrange(len(text)), bytes([chance.choice(b"0123456789+-.eE dD_~")])
    return chance.choice((text[:at] + byte + text[at + 1:], text[:at] + text[at + 1:], text[:at] + byte + text[at:]))


def compare_covariances(functions, chance, report):
    """The covariances of some observation of a report that is accepted; then one by chance, right or damaged, in a
    report of its own."""
    answer = ades.read(report)
    if not ades.is_refused(answer) and answer[1]:
        number = chance.randint(1, len(answer[1]))
        for element in ades.COVARIANCES:
            if element in answer[1][number - 1]:
                compare_request(functions, report, number, element)
    element = chance.choice(ades.COVARIANCES)
    report = reports.block([{**reports.small_placed_row(), element: random_covariance_text(chance)}])
    compare_check(functions, report)
    compare_request(functions, report, 1, element)


# ---- packing

def of_cuts(cuts):
    """The bytes of a list of cuts."""
    return b"".join(number.to_bytes(2, "little") for number in cuts)


def cuts_of(text):
    """The list of cuts that has these bytes."""
    return [int.from_bytes(text[at:at + 2], "little") for at in range(0, len(text), 2)]


def asked(report):
    """The reference's answer, and the length and the cuts in it: 0 and none where the report is refused."""
    answer = ades.length(report)
    return (answer, 0, []) if ades.is_refused(answer) else (answer, *answer[1:])


def compare_length(functions, report, room, filling):
    """The answers, every number of the list, and the bytes before and after it; the cuts, none of a refused report."""
    answer, length, cuts = asked(report)
    written = cuts if len(cuts) <= room else []
    after = written + [filling] * (room - len(written))
    for ask in functions.lengths:
        memory = fenced(of_cuts([filling] * room))
        given = ask(report, len(report), within(memory), room).members()
        assert given == members(answer, length, len(cuts)), (report, room, answer, given)
        assert memory.raw == FENCE + of_cuts(after) + FENCE, (report, room, after, memory.raw)
    return cuts


def compare_write(functions, report, cuts, room, filling):
    """The answers, every byte of the output, and the bytes before and after it; the cuts, which stay."""
    answer = ades.write(report, cuts, room)
    packed = b"" if ades.is_refused(answer) else answer[1]
    for write in functions.writes:
        handed, memory = fenced(of_cuts(cuts)), fenced(bytes([filling]) * room)
        given = write(report, len(report), within(handed), len(cuts), within(memory), room).members()
        assert given == members(answer, len(packed)), (report, cuts, room, answer, given)
        assert memory.raw == FENCE + packed + bytes([filling]) * (room - len(packed)) + FENCE, (report, cuts, room)
        assert handed.raw == FENCE + of_cuts(cuts) + FENCE, (report, cuts, room)


def compare_pair(functions, report, room, filling):
    """The length asked with a list for the cuts of any report, and the report written by the cuts that this gave."""
    cuts = compare_length(functions, report, ades.ROW_LIMIT, filling)
    compare_write(functions, report, cuts, room, filling)


def other_cuts(chance, cuts):
    """Lists that are not these cuts but near them: none; all in one block; a 0 or a number by chance too many; in
    another order; and at one place a number left out, another number, or one parted in two."""
    at = chance.randrange(len(cuts) + 1)
    before, here, after = cuts[:at], cuts[at:at + 1], cuts[at + 1:]
    lists = [[], [sum(cuts)], cuts + [0], before + [chance.randrange(257)] + here + after,
             chance.sample(cuts, len(cuts)), before + after]
    for number in here:
        part = chance.randrange(number + 1)
        others = (number - 1, number + 1, number + 256, chance.randrange(257), LARGEST)
        lists += [before + [other] + after for other in others] + [before + [part, number - part] + after]
    return [other for other in lists if other != cuts]


def compare_cuts(functions, chance, report):
    """The length asked with lists of several lengths; the report written by its cuts into outputs of several lengths,
    and by three lists that are not its cuts."""
    _, length, cuts = asked(report)
    for room in {0, max(len(cuts) - 1, 0), len(cuts), len(cuts) + chance.randint(1, 9)}:
        compare_length(functions, report, room, chance.randrange(LARGEST + 1))
    for room in {0, max(length - 1, 0), length, length + chance.randint(1, 400)}:
        compare_write(functions, report, cuts, room, chance.randrange(256))
    for other in chance.sample(other_cuts(chance, cuts), 3):
        room = chance.choice((0, length // 2, length, len(report)))
        compare_write(functions, report, other, room, chance.randrange(256))


# ---- the night list

def compare_night_write(functions, report, observation, lent):
    """The answers, every byte of the list, and the bytes before and after it; the list after the call."""
    answer, after = night.write(report, observation, lent)
    for write in functions.night_writes:
        memory = fenced(lent)
        given = write(report, len(report), observation, within(memory), len(lent)).members()
        assert given == members(answer), (report, observation, len(lent), answer, given)
        assert memory.raw == FENCE + after + FENCE, (report, observation, lent, memory.raw)
    return after


def compare_night_check(functions, lent):
    """The answers to a check of a list."""
    answer = night.check(lent)
    for check in functions.night_checks:
        given = check(lent, len(lent)).members()
        assert given == members(answer, answer[1]), (lent, answer, given)


def compare_night_read(functions, lent, record):
    """The answers to a reading of a record."""
    answer = night.read(lent, record)
    fields = (0,) * 6 if ades.is_refused(answer) else answer[1:]
    for read in functions.night_reads:
        given = read(lent, len(lent), record).members()
        assert given == members(answer, *fields), (lent, record, answer, given)


def compare_list(functions, chance, lent):
    """A list checked, and two records of it read."""
    compare_night_check(functions, lent)
    for most in (len(lent) // night.RECORD_LENGTH + 1, 258):
        compare_night_read(functions, lent, chance.randint(0, most))


def random_records(chance):
    """Records with right fields by chance, a few or as many as may be."""
    count = chance.choice((1, 2, 3, 5, 9)) if chance.random() < 0.98 else chance.randint(254, 257)
    return b"".join(nights.record(
        number, station=reports.some(chance, reports.ALPHANUMERICS, 3, 4).ljust(4), day=chance.randint(*night.DAYS),
        microseconds=chance.randint(*night.MICROSECONDS), ra=chance.randint(*night.RIGHT_ASCENSIONS),
        dec=chance.randint(*night.DECLINATIONS)) for number in range(1, count + 1))


def damaged_list(chance, lent):
    """The list with a byte or a bit changed, cut off, longer, or with its records in another order."""
    at, records = chance.randrange(len(lent)), night.records_of(lent)
    return chance.choice((
        lent[:at] + chance.randbytes(1) + lent[at + 1:],
        lent[:at] + bytes([lent[at] ^ 1 << chance.randrange(8)]) + lent[at + 1:],
        lent[:at],
        lent + chance.randbytes(chance.randint(1, night.RECORD_LENGTH)),
        b"".join(chance.sample(records, len(records))),
    ))


def compare_nights(functions, chance, report):
    """A write at any place into a list of any length; where the report is accepted a whole list written in any
    order; then that list and one of records by chance, both also damaged."""
    compare_night_write(functions, report, chance.randrange(14), chance.randbytes(chance.randrange(600)))
    lists = [random_records(chance)]
    answer = ades.check(report)
    if not ades.is_refused(answer) and answer[1]:
        lent = chance.randbytes(night.RECORD_LENGTH * answer[1])
        for observation in chance.sample(range(1, answer[1] + 1), answer[1]):
            lent = compare_night_write(functions, report, observation, lent)
        lists.append(lent)
    for lent in lists:
        compare_list(functions, chance, lent)
        compare_list(functions, chance, damaged_list(chance, lent))


# ---- cases and chance

def stored(text):
    """The cases of a case file."""
    at = 0
    while at < len(text):
        letter, first, second, length, more = text[at:at + cases.HEADER_LENGTH].split()
        at += cases.HEADER_LENGTH
        end = at + int(length)
        yield letter.decode(), int(first), int(second), text[at:end], text[end:end + int(more)]
        at = end + int(more)


def compare_stored(functions, case_file):
    """Every case of the case file, its first text also checked as a report; their number."""
    compared = 0
    for letter, first, second, text, lent in stored(pathlib.Path(case_file).read_bytes()):
        compare_check(functions, text)
        if letter == "P":
            compare_pair(functions, text, first, second)
        elif letter == "M":
            compare_length(functions, text, first, second)
        elif letter == "W":
            compare_write(functions, text, cuts_of(lent), first, second)
        elif letter in "SV":
            compare_request(functions, text, first, second)
        elif letter == "N":
            compare_night_write(functions, text, first, lent)
        elif letter == "L":
            compare_night_check(functions, text)
        elif letter == "R":
            compare_night_read(functions, text, first)
        compared += 1
    return compared


def compare_chance(functions, count):
    """So many reports by chance; how many of them were accepted."""
    chance = random.Random("Kyrrbolda")
    accepted = 0
    for _ in range(count):
        report = damage.random_report(chance, 12) if chance.random() < 0.3 else damage.random_damaged(chance, 3)
        compare_check(functions, report)
        compare_cuts(functions, chance, report)
        compare_request(functions, report, chance.randrange(14), chance.randrange(len(ades.ELEMENTS) + 2))
        compare_covariances(functions, chance, report)
        compare_nights(functions, chance, report)
        accepted += not ades.is_refused(ades.check(report))
    return accepted


def main(case_file, count):
    """All the comparisons; an assertion fails at the first difference."""
    with tempfile.TemporaryDirectory() as directory:
        functions = Functions(pathlib.Path(directory))
    compared = compare_stored(functions, case_file)
    accepted = compare_chance(functions, count)
    print(compared, "cases and", count, "reports by chance agree,", accepted, "of these accepted")


if __name__ == "__main__":
    main(sys.argv[1], int(sys.argv[2]) if len(sys.argv) > 2 else 20_000)
