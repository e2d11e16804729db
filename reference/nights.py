"""Cases on the night list: writing a record, checking a list, reading a record.

What is expected is written by hand beside each request or follows from the list that was changed; the
reference has to agree before a case is made. Bytes of lent lists are made by chance.
"""

import itertools
import re

import ades
import damage
import night
from ades import ROW_LIMIT, refused
from asks import LARGEST
from limits import FULL, FULL_OF_COVARIANCES, FULL_OF_RADAR, filled
from night import RECORD_LENGTH
from refusals import FAULTY_BLOCKS
from reports import (COVARIED, DELAY_SPECIMEN, DOPPLER_SPECIMEN, PLACED, ROVING_SPECIMEN, SPECIMEN, block, delay_row,
                     doppler_row, line_of, random_layout, random_radar_shape, random_rows, random_shape, random_value,
                     roving_row, row, shuffled_columns, small_radar_row, small_row, to_check_list, to_read, to_write,
                     whole_delay_row, whole_row)
from sums import judged_rightly

# Numbers that are none of a list's, among them those that times 40 come to 0, 40 and 24 past 64 bits, and
# those that end in the bits of a small number.
FAR_NUMBERS = (257, 2 ** 16 + 1, 2 ** 32, 2 ** 32 + 1, 2 ** 61, 2 ** 61 + 1, 461_168_601_842_738_791, 2 ** 63,
               2 ** 63 + 1, LARGEST - 1, LARGEST)


# ---- writing a record

def written(chance, report, observation, length, refusal=None):
    """A case that writes into a list of so many bytes; with the refusal that is expected, if any."""
    lent = chance.randbytes(length)
    answer, after = night.write(report, observation, lent)
    if refusal:
        assert (answer, after) == (refused(*refusal), lent), (observation, length, answer)
    else:
        end = RECORD_LENGTH * observation
        assert answer == ("written",) and len(after) == length
        assert after[:end - RECORD_LENGTH] == lent[:end - RECORD_LENGTH] and after[end:] == lent[end:]
    return to_write(report, observation, lent)


def lengths(chance):
    """Lists exactly long enough for a place, one byte shorter, longer, empty; 19 where they are too short."""
    for count in (1, 2, 3):
        report = random_layout(chance, [row(trkSub=b"a%d" % number) for number in range(count)])
        for place in range(1, count + 1):
            end = RECORD_LENGTH * place
            for length in (0, 1, end - RECORD_LENGTH, end - RECORD_LENGTH + 1, end - 1):
                yield written(chance, report, place, length, (19, 0, 0))
            for length in (end, end + 1, end + RECORD_LENGTH - 1, end + RECORD_LENGTH, end + chance.randint(2, 200)):
                yield written(chance, report, place, length)
    for place in (255, 256):
        yield written(chance, FULL, place, RECORD_LENGTH * place - 1, (19, 0, 0))
        yield written(chance, FULL, place, RECORD_LENGTH * place)
    yield written(chance, SPECIMEN, 1, RECORD_LENGTH * (ROW_LIMIT + 1))


def no_such_observation(chance):
    """16, which comes before 19."""
    two = block([row(), row(trkSub=b"a2")])
    for report, numbers in ((SPECIMEN, (0, 2, 256)), (b"", (0, 1, 2)), (two + SPECIMEN, (0, 4, 5))):
        for number in (*numbers, *FAR_NUMBERS):
            for length in (0, chance.choice((24, 39, 40, 200))):
                yield written(chance, report, number, length, (16, 0, 0))
    yield written(chance, FULL, ROW_LIMIT + 1, RECORD_LENGTH * (ROW_LIMIT + 1), (16, 0, 0))


def refused_reports(chance):
    """The report's own refusal comes before 16 and 19, also where the observation stands before the fault."""
    for number, place, line, text in FAULTY_BLOCKS:
        for observation, length in ((1, 40), (1, 39), (9, 0)):
            yield written(chance, SPECIMEN + text, observation, length, (number, line + 3, place))
    yield written(chance, SPECIMEN[:-1], 1, 40, (2, 3, 0))
    yield written(chance, filled(SPECIMEN, ades.TEXT_LIMIT + 1), 1, 40, (1, 0, 0))
    yield written(chance, FULL + line_of(small_row().values()), 1, 40, (14, 259, 0))


def radar_observations(chance):
    """23, after 16 and before 19; no byte of the list is changed. Optical rows beside radar ones write at their own
    places."""
    for report in (DELAY_SPECIMEN, DOPPLER_SPECIMEN, block([whole_delay_row()])):
        for length in (0, 1, 39, 40, 41, 200):
            yield written(chance, report, 1, length, (23, 0, 0))
        for number in (0, 2, 257, 2 ** 61 + 1, LARGEST):
            yield written(chance, report, number, chance.choice((0, 40, 80)), (16, 0, 0))
    rows = [row(trkSub=b"a1"), delay_row(), row(trkSub=b"a3"), doppler_row(), delay_row(), row(trkSub=b"a6")]
    for _ in range(2):
        report = random_layout(chance, rows)
        for place in (2, 4, 5):
            end = RECORD_LENGTH * place
            for length in (0, end - RECORD_LENGTH, end - 1, end, end + 1, end + RECORD_LENGTH):
                yield written(chance, report, place, length, (23, 0, 0))
        for place in (1, 3, 6):
            end = RECORD_LENGTH * place
            for length in (0, end - RECORD_LENGTH, end - 1):
                yield written(chance, report, place, length, (19, 0, 0))
            for length in (end, end + 1, end + RECORD_LENGTH + 9):
                yield written(chance, report, place, length)
        for number in (0, 7, LARGEST):
            yield written(chance, report, number, chance.choice((0, 40, 280)), (16, 0, 0))


def refused_radar_reports(chance):
    """The report's own refusal comes before 16, 23 and 19, also where the radar observation stands before the fault."""
    for number, place, line, text in FAULTY_BLOCKS:
        for observation, length in ((1, 40), (1, 0)):
            yield written(chance, DELAY_SPECIMEN + text, observation, length, (number, line + 3, place))
    yield written(chance, DOPPLER_SPECIMEN[:-1], 1, 40, (2, 3, 0))
    yield written(chance, FULL_OF_RADAR, ROW_LIMIT, RECORD_LENGTH * ROW_LIMIT, (23, 0, 0))
    yield written(chance, FULL_OF_RADAR, ROW_LIMIT, 0, (23, 0, 0))
    yield written(chance, FULL_OF_RADAR, ROW_LIMIT + 1, 0, (16, 0, 0))
    yield written(chance, FULL_OF_RADAR + line_of(small_radar_row().values()), 1, 40, (14, 259, 0))


def nights_of_both_kinds(chance):
    """Any place of reports of both kinds by chance, the list long enough or too short: 23 where the row is radar."""
    for _ in range(40):
        rows = random_rows(chance, chance.randint(2, 7), [random_shape(chance), random_radar_shape(chance)])
        place = chance.randint(1, len(rows))
        length = RECORD_LENGTH * place + chance.choice((-41, -40, -1, 0, 0, 0, 5, 60))
        refusal = (19, 0, 0) if length < RECORD_LENGTH * place else None
        if ades.is_radar(rows[place - 1]):
            refusal = (23, 0, 0)
        yield written(chance, random_layout(chance, rows), place, max(length, 0), refusal)


STATIONS = (b"W84", b"500", b"zzz", b"___", b"A B", b"_ _", b"0 0", b"ABCD", b"W84a", b"0123", b"____", b"A  B",
            b"1 34", b"12 4", b"_  _")

TIMES = [
    # what is written, the day, the microseconds
    (b"0001-01-01T00:00:00Z", -678_575, 0),
    (b"0001-01-01T23:59:59.999999Z", -678_575, 86_399_999_999),
    (b"9999-12-31T23:59:59.999999Z", 2_973_483, 86_399_999_999),
    (b"9999-12-31T00:00:00.0Z", 2_973_483, 0),
    (b"1858-11-17T00:00:00Z", 0, 0),
    (b"1858-11-16T23:59:59.999999Z", -1, 86_399_999_999),
    (b"1858-11-18T00:00:00.000001Z", 1, 1),
    (b"2000-02-29T01:11:34.967295Z", 51_603, 4_294_967_295),
    (b"2000-03-01T01:11:34.967296Z", 51_604, 4_294_967_296),
    (b"1679-06-11T00:00:00Z", -65_537, 0),
    (b"2038-04-24T12:00:00.5Z", 65_537, 43_200_500_000),
]

# The same at the turns of the calendar.
TURNS = [
    (b"0001-12-31T23:59:59.999999Z", -678_211, 86_399_999_999),
    (b"0004-02-29T00:00:00Z", -677_421, 0),
    (b"0004-12-31T12:00:00Z", -677_115, 43_200_000_000),
    (b"0100-03-01T00:00:00.1Z", -642_357, 100_000),
    (b"0400-02-29T23:59:59Z", -532_785, 86_399_000_000),
    (b"1900-03-01T00:00:00Z", 15_079, 0),
    (b"2000-02-29T23:59:59.999999Z", 51_603, 86_399_999_999),
    (b"2000-12-31T00:00:01Z", 51_909, 1_000_000),
    (b"2024-03-01T00:00:00Z", 60_370, 0),
    (b"2024-12-31T01:00:00Z", 60_675, 3_600_000_000),
    (b"9996-12-31T23:59:59Z", 2_972_388, 86_399_000_000),
    (b"9999-01-01T00:00:00Z", 2_973_119, 0),
]

RIGHT_ASCENSIONS = [
    (b"0", 0), (b"0.0", 0), (b"0.000000001", 1), (b"0.1", 100_000_000), (b"4.294967295", 4_294_967_295),
    (b"4.294967296", 4_294_967_296), (b"10.50", 10_500_000_000), (b"359", 359_000_000_000),
    (b"359.999999999", 359_999_999_999), (b"99.99999999", 99_999_999_990), (b".5", 500_000_000),
    (b"12.", 12_000_000_000), (b"0.", 0), (b".0", 0), (b".000000001", 1), (b".999999999", 999_999_999),
    (b"359.", 359_000_000_000),
]

DECLINATIONS = [
    (b"-90", -90_000_000_000), (b"90", 90_000_000_000), (b"+90.000000000", 90_000_000_000),
    (b"-90.0", -90_000_000_000), (b"-89.999999999", -89_999_999_999), (b"89.999999999", 89_999_999_999),
    (b"-0.000000001", -1), (b"0.000000001", 1), (b"+0.000000001", 1), (b"-0.0", 0), (b"-0", 0), (b"+0", 0), (b"0", 0),
    (b"-4.294967296", -4_294_967_296), (b"-4.294967297", -4_294_967_297), (b"4.294967295", 4_294_967_295),
    (b"-.5", -500_000_000), (b"+.5", 500_000_000), (b".5", 500_000_000), (b"90.", 90_000_000_000),
    (b"-90.", -90_000_000_000), (b"+12.", 12_000_000_000), (b"-12.", -12_000_000_000), (b"-.0", 0), (b"-0.", 0),
    (b"-.000000001", -1), (b"-.999999999", -999_999_999),
]


def with_value(chance, changes, start, field):
    """A case that writes the last of one to three observations, the one that is changed; its record has the field
    from that byte on."""
    count = chance.randint(1, 3)
    rows = [row()] * (count - 1) + [row(**changes)]
    report = block(rows, shuffled_columns(chance, rows, 1), chance)
    _, after = night.write(report, count, bytes(RECORD_LENGTH * count))
    assert after[-RECORD_LENGTH:][start:start + len(field)] == field, changes
    return written(chance, report, count, RECORD_LENGTH * count + chance.randint(0, 9))


def with_times(times):
    """Each time as a change, where it goes in a record, and the bytes that go there."""
    return [({"obsTime": text}, 8, of_number(day, 4) + of_number(part, 8)) for text, day, part in times]


def worths(chance):
    """Stations, times and angles at their ends."""
    for changes, start, field in (
            *(({"stn": text}, 4, text.ljust(4)) for text in STATIONS),
            *with_times(TIMES),
            *(({"ra": text}, 20, of_number(number, 8)) for text, number in RIGHT_ASCENSIONS),
            *(({"dec": text}, 28, of_number(number, 8)) for text, number in DECLINATIONS)):
        yield with_value(chance, changes, start, field)


def turns_of_the_calendar(chance):
    """Times at the turns of the calendar (order 4)."""
    for changes, start, field in with_times(TURNS):
        yield with_value(chance, changes, start, field)


def writes_by_chance(chance):
    """Reports of several blocks laid out by chance, some of them damaged, and any place."""
    for _ in range(50):
        rows = random_rows(chance, chance.randint(1, 6), [random_shape(chance) for _ in range(2)])
        place = chance.randint(1, len(rows))
        yield written(chance, random_layout(chance, rows), place, RECORD_LENGTH * place + chance.randint(0, 60))
    for _ in range(25):
        report, place = damage.random_damaged(chance), chance.randint(1, 3)
        yield to_write(report, place, chance.randbytes(RECORD_LENGTH * place + chance.choice((-1, 0, 0, 7))))
    yield written(chance, block([whole_row()]), 1, 40)


def with_covariances(chance):
    """Rows with covariances write the record that they write without them; 16, 23 and 19 as ever, the report's own
    refusal before them."""
    record_of_specimen = night.write(SPECIMEN, 1, bytes(RECORD_LENGTH))[1]
    for values in (*({name: value} for name, value in COVARIED.items()), COVARIED, dict.fromkeys(COVARIED, b"-0e-999"),
                   {"posCov11": b"9" * 20}, {"posCov23": b"-.00000000000001e-999"}):
        yield with_value(chance, {**PLACED, **values}, 1, record_of_specimen[1:])
    for length, refusal in ((40, None), (41, None), (200, None), (39, (19, 0, 0)), (0, (19, 0, 0))):
        yield written(chance, ROVING_SPECIMEN, 1, length, refusal)
    for number in (0, 2, 257, LARGEST):
        yield written(chance, ROVING_SPECIMEN, number, chance.choice((0, 40, 80)), (16, 0, 0))
    mixed = ROVING_SPECIMEN + DELAY_SPECIMEN + block([row(), roving_row(posCov22=b"0")])
    for place, length, refusal in ((1, 40, None), (2, 80, (23, 0, 0)), (2, 0, (23, 0, 0)), (3, 120, None),
                                   (4, 160, None), (4, 159, (19, 0, 0)), (5, 0, (16, 0, 0))):
        yield written(chance, mixed, place, length, refusal)
    for observation, refusal in ((row(posCov33=b"1"), (12, 6, 9)), (roving_row(posCov11=b"1e"), (9, 6, 9)),
                                 (delay_row(posCov12=b"1"), (22, 6, 39)), (roving_row(pos1=None), (12, 6, 11))):
        for place, length in ((1, 40), (2, 80), (9, 0)):
            yield written(chance, SPECIMEN + block([observation]), place, length, refusal)
    yield written(chance, FULL_OF_COVARIANCES, ROW_LIMIT, RECORD_LENGTH * ROW_LIMIT)
    for _ in range(16):
        rows = random_rows(chance, chance.randint(1, 3), [random_shape(chance) | set(ades.LOCATION)])
        rows[-1] = {**rows[-1], **{element: random_value(chance, element) for element in ades.COVARIANCES}}
        report, bare = random_layout(chance, rows), random_layout(chance, [
            {element: value for element, value in each.items() if element not in ades.COVARIANCES} for each in rows])
        case = written(chance, report, len(rows), RECORD_LENGTH * len(rows) + chance.randint(0, 9))
        assert night.write(report, len(rows), case[4]) == night.write(bare, len(rows), case[4])
        yield case


# ---- lists

def of_number(number, count):
    """A number of any size in so many bytes, low byte first; higher bits are left out."""
    return bytes(number >> 8 * place & 0xFF for place in range(count))


RIGHT = {"index": 0, "zeros": bytes(3), "station": b"W84 ", "day": 60_370, "microseconds": 14_706_500_000,
         "ra": 10_500_000_000, "dec": -250_000_000, "end": bytes(4)}


def record(number, **changes):
    """A right record at that place with fields changed to anything."""
    field = {**RIGHT, "index": number - 1, **changes}
    return (of_number(field["index"], 1) + field["zeros"] + field["station"] + of_number(field["day"], 4)
            + of_number(field["microseconds"], 8) + of_number(field["ra"], 8) + of_number(field["dec"], 8)
            + field["end"])


def right_list(count):
    """So many right records."""
    return b"".join(record(number) for number in range(1, count + 1))


def checked(lent, bad=None):
    """A case that checks a list; with the number of its first bad record, if any."""
    assert night.check(lent) == (refused(20, 0, bad) if bad else ("records", len(lent) // RECORD_LENGTH)), (lent, bad)
    return to_check_list(lent)


def read(lent, number, bad=None):
    """A case that reads a record; with the number of the list's first bad record, if any."""
    answer = night.read(lent, number)
    if bad:
        assert answer == refused(20, 0, bad)
    elif 1 <= number <= len(lent) // RECORD_LENGTH:
        assert answer[:2] == ("record", number)
    else:
        assert answer == refused(16, 0, 0)
    return to_read(lent, number)


def with_record(chance, changes, is_right):
    """Lists with that record: alone and checked; the second of three, and it or the one before it read."""
    judged_rightly(record(1, **changes), 1)
    yield checked(record(1, **changes), None if is_right else 1)
    lent = record(1) + record(2, **changes) + record(3)
    yield read(lent, 2 if is_right else chance.choice((1, 1, 2, 3)), None if is_right else 2)


# Ends of the fields, one past them, and numbers that are right in their low bits alone.
RIGHT_NUMBERS = {
    "day": (-678_575, -678_574, -1, 0, 1, 2_973_482, 2_973_483),
    "microseconds": (0, 1, 4_294_967_295, 4_294_967_296, 86_399_999_998, 86_399_999_999),
    "ra": (0, 1, 4_294_967_295, 4_294_967_296, 359_999_999_998, 359_999_999_999),
    "dec": (-90_000_000_000, -89_999_999_999, -4_294_967_297, -1, 0, 1, 4_294_967_296, 89_999_999_999, 90_000_000_000),
}
WRONG_NUMBERS = {
    "day": (-678_576, 2_973_484, -2 ** 31, 2 ** 31 - 1, 2 ** 24, 60_370 + 2 ** 24, 60_370 - 2 ** 24, -2_973_483),
    "microseconds": (-1, 86_400_000_000, 86_400_000_001, 86_400_999_999, 2 ** 37, 2 ** 40, 2 ** 63 - 1, 2 ** 63,
                     2 ** 63 + 1, 2 ** 56 + 1, -86_399_999_999),
    "ra": (-1, 360_000_000_000, 360_000_000_001, 399_900_000_000, 2 ** 40, 2 ** 48 + 1, 2 ** 63 - 1, -2 ** 63,
           -2 ** 63 + 1, -359_999_999_999),
    "dec": (-90_000_000_001, 90_000_000_001, -91_000_000_000, 2 ** 32 - 1 + 2 ** 40, -1 - 2 ** 40, 2 ** 63 - 1,
            -2 ** 63, -2 ** 63 + 1, 360_000_000_000),
}


def ends_of_numbers(chance):
    """Day, microseconds, ra and dec at both ends and one past."""
    for numbers, is_right in ((RIGHT_NUMBERS, True), (WRONG_NUMBERS, False)):
        for field in numbers:
            for number in numbers[field]:
                yield from with_record(chance, {field: number}, is_right)


def bytes_that_are_settled(chance):
    """The number one off, and bytes 1 to 3 and 36 to 39 not zero."""
    for place, index in ((1, 1), (1, 255), (2, 0), (2, 2), (3, 1), (3, 131), (3, 34)):
        judged_rightly(record(place, index=index), place)
        lent = right_list(place - 1) + record(place, index=index)
        yield checked(lent, place)
        yield read(lent, chance.randint(1, place), place)
    for field, count in (("zeros", 3), ("end", 4)):
        for place in range(count):
            for byte in (0x01, 0x20, 0x80, 0xFF):
                changed = bytes(place) + bytes([byte]) + bytes(count - place - 1)
                yield from with_record(chance, {field: changed}, False)


def stations(chance):
    """Every shape of letters, blanks and another byte; each byte somewhere, and those next to a class of bytes
    everywhere."""
    right = re.compile(rb"[A-Za-z0-9_]([A-Za-z0-9_ ]{2}[A-Za-z0-9_]|[A-Za-z0-9_ ][A-Za-z0-9_] )")
    shapes = {bytes(shape) for shape in itertools.product(b"A -", repeat=4)} | {text.ljust(4) for text in STATIONS}
    for byte in range(256):
        at = chance.randrange(4)
        shapes.add(b"W84a"[:at] + bytes([byte]) + b"W84a"[at + 1:])
    for byte in b"\x00\x09\x0a\x1f\x20\x21/0:9@A[Z^_`a{z|\x7e\x7f\x80\xa0\xb1\xc1\xdf\xe1\xff":
        shapes |= {b"W84a"[:at] + bytes([byte]) + b"W84a"[at + 1:] for at in range(4)}
    for shape in sorted(shapes):
        judged_rightly(record(1, station=shape), 1)
        yield checked(record(1, station=shape), None if right.fullmatch(shape) else 1)


def changed_bytes(chance):
    """Each bit of a right record changed, and each byte by chance."""
    for bit in range(8 * RECORD_LENGTH):
        changed = (int.from_bytes(record(1), "little") ^ 1 << bit).to_bytes(RECORD_LENGTH, "little")
        judged_rightly(changed, 1)
        yield to_check_list(changed + chance.choice((b"", record(2))))
    for at in range(RECORD_LENGTH):
        rows = random_rows(chance, 3, [random_shape(chance)])
        lent = b"".join(night.record_of(number, each) for number, each in enumerate(rows, start=1))
        at += RECORD_LENGTH * chance.randrange(3)
        lent = lent[:at] + chance.randbytes(1) + lent[at + 1:]
        for number, each in enumerate(night.records_of(lent), start=1):
            judged_rightly(each, number)
        yield to_check_list(lent)
        yield to_read(lent, chance.randint(1, 3))


def short_ends(chance):
    """A short last record of 1 to 39 bytes, however well it begins."""
    for short in range(1, RECORD_LENGTH):
        count = chance.randrange(3)
        lent = right_list(count + 1)[:RECORD_LENGTH * count + short]
        yield checked(lent, count + 1)
        if count:
            yield read(lent, chance.randint(1, count), count + 1)
    yield checked(b"\x00", 1)
    yield read(b"\x00", 1, 1)
    yield read(bytes(39), 0, 1)


def several_bad(chance):
    """Of several bad records the first; also where the last is short."""
    faults = ({"index": 200}, {"station": b"   a"}, {"day": 2 ** 30}, {"microseconds": -1}, {"ra": -1},
              {"dec": 2 ** 40})
    for _ in range(24):
        count = chance.randint(2, 6)
        bad = sorted(chance.sample(range(1, count + 1), chance.randint(2, count)))
        changes = [chance.choice(faults) if number in bad else {} for number in range(1, count + 1)]
        lent = b"".join(record(number, **changed) for number, changed in enumerate(changes, start=1))
        lent += chance.choice((b"", b"", b"\x00", bytes(39)))
        yield checked(lent, bad[0])
        yield read(lent, chance.choice((0, 1, bad[0], count, count + 1)), bad[0])
    for order in itertools.permutations((1, 2, 3)):
        lent = b"".join(map(record, order))
        yield checked(lent, next((place for place, number in enumerate(order, start=1) if place != number), None))


def record_numbers(chance):
    """16 where the list has no record of that number: 0, one past the last, and far ones; after 20."""
    for count in (0, 1, 3):
        lent = right_list(count)
        yield checked(lent)
        for number in (*range(count + 2), *FAR_NUMBERS):
            yield read(lent, number)
    for number in (0, 2, 3, LARGEST, 2 ** 61 + 1):
        yield read(record(1) + record(2, dec=2 ** 40), number, 2)
        yield read(record(1) + chance.randbytes(1), number, 2)


def long_lists(chance):
    """256 records, with a bad one among the last, with a short one or a whole one after them; the whole one also
    with its number in two bytes, so that nothing but its place is wrong."""
    rows = random_rows(chance, ROW_LIMIT, [random_shape(chance) for _ in range(3)])
    full = b"".join(night.record_of(number, each) for number, each in enumerate(rows, start=1))
    yield checked(full)
    yield read(full, 256)
    yield read(full, 257)
    yield checked(full[:-1], 256)
    yield checked(full[:-2 * RECORD_LENGTH] + record(255, ra=-1) + record(256, ra=-1), 255)
    yield checked(full + record(257, zeros=b"\x01\x00\x00"), 257)
    yield checked(full + record(257)[:1], 257)
    yield read(full + record(257), 1, 257)
    yield read(full[:-RECORD_LENGTH] + record(256, zeros=b"\x01\x00\x00") + record(257), 257, 256)


def written_lists(chance):
    """Lists made by writing each observation of a report, each record read."""
    for _ in range(12):
        rows = random_rows(chance, chance.randint(1, 6), [random_shape(chance) for _ in range(2)])
        report, lent = random_layout(chance, rows), chance.randbytes(RECORD_LENGTH * len(rows))
        for number in range(1, len(rows) + 1):
            lent = night.write(report, number, lent)[1]
        yield checked(lent)
        for number in range(1, len(rows) + 1):
            yield read(lent, number)


def cases(chance):
    """All cases of this file."""
    for kind in (lengths, no_such_observation, refused_reports, radar_observations, refused_radar_reports,
                 nights_of_both_kinds, worths, writes_by_chance, ends_of_numbers,
                 bytes_that_are_settled, stations, changed_bytes, short_ends, several_bad, record_numbers, long_lists,
                 written_lists, turns_of_the_calendar, with_covariances):
        yield from kind(chance)
