"""Sums of document 01 and of orders 2, 3, 5 and 6, and checks of the reference against itself, made before any case is
written."""

import datetime
import decimal
import itertools
import re

import ades
import night
import values
from reports import (COVARIED, DELAY_ROW, DELAY_SPECIMEN, DOPPLER_SPECIMEN, PLACED, ROVING_ROW, ROVING_SPECIMEN,
                     SPECIMEN, block, delay_row, doppler_row, random_covariance, random_layout, random_rows,
                     random_shape, random_shapes, roving_row, row, row_with, small_row, whole_row)


def fault(element, text):
    """The number of the refusal that a report with this value gets, or 0."""
    answer = ades.read(block([row_with(element, text)]))
    return answer[1] if ades.is_refused(answer) else 0


def worth(element, text):
    """What the value is worth in a report that is like the specimen but for it and what must stand beside it."""
    return ades.value(block([row_with(element, text)]), 1, ades.NUMBERS[element.encode()])


def proved_sums():
    """P1 to P12."""
    assert ades.check(b"") == ("accepted", 0)
    assert len(SPECIMEN) == 104 and ades.check(SPECIMEN) == ("accepted", 1)
    assert ades.value(SPECIMEN, 1, 15) == ("time", 60_370, 14_706_500_000)
    assert worth("obsTime", b"1858-11-16T00:00:00Z") == ("time", -1, 0)
    assert fault("obsTime", b"2023-02-29T00:00:00Z") == 10
    assert worth("ra", b"359.999999999") == ("angle", 359_999_999_999)
    assert fault("ra", b"360") == 10 and fault("ra", b"005") == 9
    assert worth("dec", b"-0.25") == ("angle", -250_000_000)
    assert fault("dec", b"90.000000001") == 10 and worth("dec", b"-90") == ("angle", -90_000_000_000)
    assert fault("provID", b"2016 AZ6") == 0 and fault("provID", b"2016 AI6") == 9
    assert ades.read(block([row(**{**PLACED, "ctr": b"398"})])) == ades.refused(13, 3, 10)
    assert ades.read(block([row(mag=b"20.1")])) == ades.refused(12, 3, 25)


def sums_of_decimals():
    """Order 2: the point first or last, with each sign; alone; in the width; at the ends of ra, dec and rmsCorr."""
    assert worth("mag", b"12.") == ("decimal", 12, 0) and worth("mag", b".5") == ("decimal", 5, 1)
    assert worth("mag", b"-.5") == ("decimal", -5, 1) and worth("mag", b"+12.") == ("decimal", 12, 0)
    for alone in (b".", b"+.", b"-.", b"+", b"-"):
        assert fault("mag", alone) == fault("dec", alone) == fault("ra", alone) == fault("rmsMag", alone) == 9
    assert fault("mag", b"123456") == fault("mag", b"12345.") == fault("mag", b".12345") == 0
    assert fault("mag", b"123456.") == fault("mag", b".123456") == 8
    assert fault("rmsMag", b"123456") == 0 and fault("rmsMag", b"123456.") == fault("rmsMag", b".123456") == 8
    assert fault("rmsMag", b"0.") == fault("rmsMag", b".0") == 10 and worth("rmsMag", b".1") == ("decimal", 1, 1)
    assert worth("ra", b".5") == ("angle", 500_000_000) and worth("ra", b"12.") == ("angle", 12_000_000_000)
    assert fault("ra", b"360.") == 10 and fault("ra", b"00.") == fault("ra", b".9999999999") == 9
    assert worth("dec", b"-.5") == ("angle", -500_000_000) and worth("dec", b"90.") == ("angle", 90_000_000_000)
    assert worth("rmsCorr", b"-1.") == ("decimal", -1, 0) and fault("rmsCorr", b"2.") == 10
    assert fault("ctr", b"301.") == fault("ctr", b".5") == fault("obsTime", b"2024-03-01T04:05:06.Z") == 9


def sums_of_radar():
    """Order 3: the forms of its elements; 17; what a radar observation has and what is foreign to it; kinds in one
    block; how long a mixed report is; 23 between 16 and 19."""
    for name in ("trx", "rcv"):
        assert fault(name, b"251") == fault(name, b"a_bc") == 0 and fault(name, b"25") == fault(name, b"25112") == 8
        assert fault(name, b"2-1") == 9 and worth(name, b"251") == ("no value",)
    for name, width in (("delay", 14), ("rmsDelay", 6), ("rmsDoppler", 6), ("frq", 14)):
        assert fault(name, b"9" * width) == 0 and fault(name, b"9" * width + b".") == 8
        assert fault(name, b"-1") == fault(name, b"+1") == fault(name, b".") == 9 and fault(name, b"0.0") == 10
        assert worth(name, b"1.50") == ("decimal", 150, 2)
    assert worth("doppler", b"-" + b"9" * 14) == ("decimal", 1 - 10 ** 14, 0) and fault("doppler", b"9" * 15) == 8
    assert worth("doppler", b"-0.25") == ("decimal", -25, 2) and worth("doppler", b"0") == ("decimal", 0, 0)
    assert fault("doppler", b"--1") == 9 and fault("com", b"0") == fault("com", b"1") == 0
    for text in (b"2", b"00", b"01", b"-", b"1.", b"0" * 400):
        assert fault("com", text) == 10
    assert worth("com", b"1") == ("no value",)
    assert ades.showing(SPECIMEN, 1, 37) == ("absent",)
    for rows, refusal in (
            ([delay_row()], None), ([doppler_row()], None), ([delay_row(), doppler_row()], None),
            ([delay_row(trkSub=b"a1")], (22, 3, 4)), ([row(com=b"0")], (22, 3, 4)),
            ([doppler_row(delay=b"1", rmsDoppler=None)], (22, 3, 32)), ([doppler_row(doppler=None)], (22, 3, 35)),
            ([delay_row(permID=None)], (11, 3, 1)), ([delay_row(delay=None)], (11, 3, 32)),
            ([delay_row(delay=None, rmsDelay=None)], (11, 3, 32)), ([doppler_row(rmsDoppler=None)], (11, 3, 35)),
            ([row(), delay_row()], (21, 4, 0)), ([delay_row(), doppler_row(), row()], (21, 5, 0)),
            ([row(), delay_row(com=None)], (11, 4, 37)), ([delay_row(), row(mag=b"1")], (12, 4, 25))):
        assert ades.read(block(rows))[:2] == (("accepted", rows) if refusal is None else ("refused", refusal[0]))
        assert refusal is None or ades.read(block(rows)) == ades.refused(*refusal)
    # The version line, the names with a byte each, the ends of the row's fields, its values.
    assert len(DELAY_SPECIMEN) == 15 + 46 + 8 + 43 and len(DOPPLER_SPECIMEN) == 15 + 50 + 8 + 44
    assert DELAY_SPECIMEN == block([delay_row()]) and DOPPLER_SPECIMEN == block([doppler_row()])
    mixed = SPECIMEN + DELAY_SPECIMEN + SPECIMEN
    assert ades.pair(mixed, 1000)[1] == ("packed", mixed)
    assert ades.pair(DELAY_SPECIMEN * 2, 1000)[1] == ("packed", DELAY_SPECIMEN + DELAY_ROW)
    for number, length, answer in (
            (2, 0, 23), (2, 79, 23), (2, 80, 23), (4, 0, 16), (0, 0, 16), (3, 119, 19), (1, 39, 19)):
        assert night.write(mixed, number, bytes(length)) == (ades.refused(answer, 0, 0), bytes(length))
    assert night.write(mixed, 3, bytes(120))[0] == ("written",)


# Order 5: what covariances are worth, whole number and power; the texts that are 9.
SCALED = {
    b"1.50e3": (150, 1), b"1e005": (1, 5), b"1.E+5": (1, 5), b".5e-3": (5, -4), b"-0e5": (0, 5), b"-1.25": (-125, -2),
    b"99999999999999999999": (99_999_999_999_999_999_999, 0), b"1e999": (1, 999), b"-.99999999999999e-999":
    (-99_999_999_999_999, -1_013), b"+0.0": (0, -1), b"-.0000000000000000001": (-1, -19), b"1E-999": (1, -999),
}
NOT_SCALED = (b"1e", b"1e+", b"e5", b"1e1234", b"1e5.", b"1ee5", b".e5", b"+", b".", b"--1", b"1e+-5", b"1 e5", b"1e 5",
              b"1d5")


def sums_of_covariances():
    """Order 5: the form, its width and what it is worth; 17; 12 within the location check; foreign to radar and no
    sign of it; their columns after pos3; the same record with them as without."""
    for name in COVARIED:
        for text, worth_of_it in SCALED.items():
            assert worth(name, text) == ("scaled", *worth_of_it), text
        for text in NOT_SCALED:
            assert fault(name, text) == 9, text
        for text in (b"9" * 20, b"." * 20, b"1e" + b"0" * 18, b"1" + b" " * 18 + b"1"):
            assert all(fault(name, sign + text) == (0 if text == b"9" * 20 else 9) for sign in (b"", b"+", b"-"))
            assert all(fault(name, sign + text + b"9") == 8 for sign in (b"", b"+", b"-"))
    for report in (SPECIMEN, DELAY_SPECIMEN):
        for element in (38, 43):
            assert ades.showing(report, 1, element) == ades.value(report, 1, element) == ("absent",)
        assert ades.showing(report, 1, 44) == ades.value(report, 1, 44) == ades.refused(17, 0, 0)
    for observation, refusal in (
            (row(posCov11=b"1"), (12, 9)), (row(sys=b"IAU", posCov33=b"1"), (12, 10)),
            (roving_row(pos2=None), (12, 12)), (row(posCov11=b"1", mag=b"1"), (12, 9)),
            (row(posCov11=b"1", astCat=None), (11, 22)), (roving_row(mag=b"1"), (12, 25)),
            (roving_row(ctr=b"398"), (13, 10)), (delay_row(posCov11=b"1"), (22, 38)),
            (delay_row(posCov33=b"1", rmsDoppler=b"1"), (22, 35)), (roving_row(com=b"1"), (22, 4))):
        assert ades.read(block([observation])) == ades.refused(refusal[0], 3, refusal[1])
    assert ades.check(block([row(), roving_row(), whole_row()])) == ("accepted", 3)
    # The version line, the names with a byte each, the ends of the row's fields, its values.
    assert len(ROVING_SPECIMEN) == 15 + 79 + 14 + 78 and ROVING_SPECIMEN == block([roving_row()])
    assert ades.pair(ROVING_SPECIMEN, 186)[1] == ("packed", ROVING_SPECIMEN)
    assert ades.pair(ROVING_SPECIMEN * 2, 1000)[1] == ("packed", ROVING_SPECIMEN + ROVING_ROW)
    assert ades.columns_of([whole_row()]) == [*range(1, 14), *range(38, 44), *range(14, 30)]
    assert len(whole_row()) == 35
    assert night.write(ROVING_SPECIMEN, 1, bytes(40)) == night.write(SPECIMEN.replace(b"W84", b"247"), 1, bytes(40))


def run_rows(count):
    """Rows shaped like the specimen, then one row that also has remarks."""
    return [row()] * count + [row(remarks=b"r")]


def bytes_before_values(rows, cuts):
    """The length of the text by these cuts less the bytes of its values."""
    return len(ades.written(rows, cuts)) - sum(len(value) for each in rows for value in each.values())


def sums_to_be_run():
    """After 53 such rows one block and two blocks both cost 493 bytes before values, so one block;
    after 54, two blocks cost 500 against 501. And the specimen packs to itself."""
    assert bytes_before_values(run_rows(53), [54]) == bytes_before_values(run_rows(53), [53, 1]) == 493
    assert ades.shortest_cuts(run_rows(53)) == [54]
    assert bytes_before_values(run_rows(54), [55]) == 501
    assert bytes_before_values(run_rows(54), [54, 1]) == 500
    assert ades.shortest_cuts(run_rows(54)) == [54, 1]
    assert ades.pair(SPECIMEN, 104)[1] == ("packed", SPECIMEN)
    assert ades.pair(b"", 0)[1] == ("packed", b"")


def sums_of_cuts():
    """Order 6: the length and the cuts of the empty report, of the specimen, of a mixed report and of the sums to be
    run; 24 for any other cuts, after the report's own refusal and before 15."""
    mixed = SPECIMEN + DELAY_SPECIMEN + ROVING_SPECIMEN * 2
    for report, length, cuts in ((b"", 0, []), (SPECIMEN, 104, [1]), (SPECIMEN * 2, 155, [2]),
                                 (mixed, 104 + 112 + 186 + 92, [1, 1, 2])):
        assert ades.length(report) == ("measured", length, cuts)
        assert ades.write(report, cuts, length)[0] == "packed"
        assert length == 0 or ades.write(report, cuts, length - 1) == ades.refused(15, 0, 0)
        for other in (cuts + [0], cuts + [1], [0] + cuts, [256] + cuts[1:], [65_535]):
            assert all(ades.write(report, other, room) == ades.refused(24, 0, 0) for room in (0, length, 1000))
    assert ades.write(mixed, [1, 2, 1], 1000) == ades.write(mixed, [1, 1], 1000) == ades.refused(24, 0, 0)
    assert ades.write(SPECIMEN * 2, [1, 1], 1000) == ades.write(SPECIMEN * 2, [], 0) == ades.refused(24, 0, 0)
    for count, right, other in ((53, [54], [53, 1]), (54, [54, 1], [55])):
        report = block(run_rows(count))
        assert ades.length(report) == ("measured", len(ades.written(run_rows(count), right)), right)
        assert ades.write(report, other, 10_000) == ades.refused(24, 0, 0)
    for cuts in ([], [1], [0], [2, 1]):
        assert ades.length(SPECIMEN[:-1]) == ades.write(SPECIMEN[:-1], cuts, 0) == ades.refused(2, 3, 0)


def day_numbers():
    """The day numbers agree with the calendar of Python's library on every day near the turns of
    years and centuries."""
    origin = datetime.date(1858, 11, 17).toordinal()
    for year in list(range(1, 10_000, 97)) + [4, 100, 400, 1600, 1700, 1858, 1900, 2000, 2024, 9999]:
        for month, day in ((1, 1), (2, 28), (3, 1), (12, 31)):
            day_number, _ = values.time(b"%04d-%02d-%02dT00:00:00Z" % (year, month, day))
            assert day_number == datetime.date(year, month, day).toordinal() - origin


# The decimal of XML Schema, and the patterns of document 001 for decimals without a sign, ra and dec.
DECIMAL = re.compile(rb"[+-]?([0-9]+(\.[0-9]*)?|\.[0-9]+)")
UNSIGNED = re.compile(rb"[0123456789\.]{1,16}")
RIGHT_ASCENSION = re.compile(rb"([1-3][0-9]{2}|[1-9]?[0-9])?(\.[0-9]{0,9})?")
DECLINATION = re.compile(rb"[+\-]?([1-9]?[0-9])?(\.[0123456789]{0,9})?")
# What document 01 took for a decimal, before order 2.
TAKEN_BEFORE = re.compile(rb"[+-]?[0-9]+(\.[0-9]+)?")


def judged_by_patterns(text):
    """The text is taken as a decimal, ra or dec where it is one of XML Schema and fits the pattern, and is worth what
    Python's decimals say; what document 01 took is among these. The text is short: no width is passed."""
    number = decimal.Decimal(text.decode()) if DECIMAL.fullmatch(text) else None
    for given, pattern, is_within in (
            (values.signed_decimal(text, 6), DECIMAL, lambda: True),
            (values.positive_decimal(text, 6), UNSIGNED, lambda: number > 0),
            (values.correlation(text), DECIMAL, lambda: abs(number) <= 1),
            (values.right_ascension(text), RIGHT_ASCENSION, lambda: number < 360),
            (values.declination(text), DECLINATION, lambda: abs(number) <= 90)):
        is_form = number is not None and pattern.fullmatch(text)
        assert given == (9 if not is_form else 0 if is_within() else 10), (text, given)
    if number is None:
        assert not TAKEN_BEFORE.fullmatch(text), text
    else:
        places = -number.as_tuple().exponent
        assert values.decimal(text) == (number.scaleb(places), places), text
        assert values.angle(text) == number.scaleb(9), text


def short_decimals():
    """Every text of one to five of these bytes."""
    for length in range(1, 6):
        for text in itertools.product(b"0139+-. ", repeat=length):
            judged_by_patterns(bytes(text))


# The double of XML Schema less its infinities, with up to three digits in its exponent; document 001's pattern.
DOUBLE = re.compile(rb"[+-]?([0-9]+(\.[0-9]*)?|\.[0-9]+)([Ee][+-]?[0-9]{1,3})?")
WIDTH_21 = re.compile(rb"[+\-]?[+\-Ee0123456789\.]{1,20}")


def judged_as_double(text):
    """The text is taken as a covariance where it is such a double, unless it is too wide, and is worth what Python's
    decimals say; what is taken fits document 001's pattern."""
    is_wide = len(text[1:] if text[:1] in (b"+", b"-") else text) > 20
    given = values.covariance(text, 20)
    assert given == (8 if is_wide else 0 if DOUBLE.fullmatch(text) else 9), (text, given)
    if given == 0:
        sign, digits, power = decimal.Decimal(text.decode()).as_tuple()
        size = sum(digit * 10 ** place for place, digit in enumerate(reversed(digits)))
        assert values.scaled(text) == (-size if sign else size, power), text
        assert WIDTH_21.fullmatch(text), text


def covariances_as_doubles(chance):
    """Every text of one to five of these bytes; then longer ones by chance, right ones with a byte put in or left out
    among them."""
    for length in range(1, 6):
        for text in itertools.product(b"019+-.eE", repeat=length):
            judged_as_double(bytes(text))
    for _ in range(4_000):
        text = random_covariance(chance, 20)
        assert values.covariance(text, 20) == 0, text
        at = chance.randrange(len(text))
        for other in (text, text[:at] + text[at + 1:], text[:at] + bytes([chance.choice(b"09+-.eE ")]) + text[at:]):
            judged_as_double(other)


def packed_among_readable(rows):
    """Of the texts of every cutting those that read back as the same list, and of these the shortest; among equals
    the one whose first block has most rows, then the second, and so on."""
    texts = [(cuts, ades.written(rows, cuts)) for cuts in ades.every_cutting(len(rows))]
    readable = [(-len(text), cuts, text) for cuts, text in texts if ades.read(text)[1] == rows]
    return max(readable)[2]


def pairs_well(report, packed, cuts):
    """The report's length is that of the packed one, which is written by the cuts into exactly so much room and not
    into a byte less."""
    assert ades.pair(report, len(packed)) == (("measured", len(packed), cuts), ("packed", packed))
    assert packed == b"" or ades.write(report, cuts, len(packed) - 1) == ades.refused(15, 0, 0)


def near_cuttings(count):
    """The ways to part so many rows, one fewer and one more, each also with a 0 before it and after it."""
    for cutting in itertools.chain(*map(ades.every_cutting, (count - 1, count, count + 1))):
        yield from (cutting, [0] + cutting, cutting + [0])


def small_lists(count):
    """Every list of at most one number more than there are rows, none of them larger than that."""
    for length in range(count + 2):
        yield from map(list, itertools.product(range(count + 2), repeat=length))


def written_by_its_cuts_alone(rows, report, lists):
    """Of these lists only the report's own cuts, which are among them, are not 24, with enough room and with none."""
    _, length, cuts = ades.length(report)
    is_met = False
    for handed in lists:
        if handed == cuts:
            is_met = True
            assert ades.write(report, handed, length) == ("packed", ades.pack_by_every_cutting(rows))
        else:
            assert all(ades.write(report, handed, room) == ades.refused(24, 0, 0) for room in (length, 0)), handed
    assert is_met


def check_cuts(chance):
    """Reports by chance of one to three rows with every small list, of four to seven with every near cutting."""
    for count, lists, times in ((1, small_lists, 6), (2, small_lists, 6), (3, small_lists, 4), (4, near_cuttings, 6),
                                (5, near_cuttings, 6), (6, near_cuttings, 4), (7, near_cuttings, 4)):
        for _ in range(times):
            rows = random_rows(chance, count, random_shapes(chance, 2))
            written_by_its_cuts_alone(rows, random_layout(chance, rows), lists(count))


def packs_well(rows, chance, layouts=3):
    """The packed report reads as the same observations, is as long as the sum of its blocks' bytes,
    is the one found by every cutting where the rows are few, and is no longer than other layouts. The cuts come to all
    the rows, none of them is 0, and the pair gives it of the last layout."""
    cuts = ades.shortest_cuts(rows)
    layout = packed = ades.written(rows, cuts)
    assert ades.read(packed)[1] == rows
    assert sum(cuts) == len(rows) and 0 not in cuts
    firsts = [sum(cuts[:count]) for count in range(len(cuts))]
    assert len(packed) == sum(ades.block_bytes(rows[first:first + count]) for first, count in zip(firsts, cuts))
    if len(rows) <= 9:
        assert packed == ades.pack_by_every_cutting(rows)
    if len(rows) <= 5:
        assert packed == packed_among_readable(rows)
    for _ in range(layouts):
        layout = random_layout(chance, rows)
        assert ades.read(layout)[1] == rows and len(layout) >= len(packed)
    pairs_well(layout, packed, cuts)


# ---- the night list

def specimens_record():
    """The specimen's record, byte by byte: W84, day 60,370, microsecond 14,706,500,000, ra 10.5, dec -0.25."""
    record = bytes.fromhex("00 000000 57383420 d2eb0000 a061936c03000000 0049d97102000000 804d19f1ffffffff 00000000")
    assert night.write(SPECIMEN, 1, bytes(40)) == (("written",), record)
    assert night.read(record, 1) == ("record", 1, 0x20343857, 60_370, 14_706_500_000, 10_500_000_000, -250_000_000)


def read_back(rows, report, chance):
    """Written in any order into a list of any bytes, the records read back as what the elements are worth. The rows
    are optical."""
    lent = chance.randbytes(night.RECORD_LENGTH * len(rows))
    for number in chance.sample(range(1, len(rows) + 1), len(rows)):
        answer, lent = night.write(report, number, lent)
        assert answer == ("written",)
    assert night.check(lent) == ("records", len(rows))
    for number, each in enumerate(rows, start=1):
        station = int.from_bytes((each[8] + b" ")[:4], "little")
        worths = [part for element in (15, 17, 18) for part in ades.value(report, number, element)[1:]]
        assert night.read(lent, number) == ("record", number, station, *worths)


def who_could_write(record):
    """The row that could have written the record, with all places of its numbers, or None where the day has
    no date. If another one writes it, this one does: it has the same stn, and the rest is worth the same."""
    _, _, day, microseconds, ra, dec = night.fields(record)
    ordinal = day + datetime.date(1858, 11, 17).toordinal()
    if not 1 <= ordinal <= datetime.date.max.toordinal():
        return None
    seconds, microsecond = divmod(microseconds, 1_000_000)
    clock = b"T%02d:%02d:%02d.%06dZ" % (seconds // 3600, seconds // 60 % 60, seconds % 60, microsecond)
    return row(stn=record[4:8], obsTime=datetime.date.fromordinal(ordinal).isoformat().encode() + clock,
               ra=b"%d.%09d" % divmod(ra, values.DEGREE),
               dec=(b"-" if dec < 0 else b"") + b"%d.%09d" % divmod(abs(dec), values.DEGREE))


def written_without_covariances(rows, report, chance):
    """The optical rows with all their covariances taken away write the same records."""
    bare = [{element: value for element, value in each.items() if element not in ades.COVARIANCES} for each in rows]
    for number in range(1, len(rows) + 1):
        lent = chance.randbytes(night.RECORD_LENGTH * number)
        assert night.write(report, number, lent) == night.write(random_layout(chance, bare), number, lent)


def judged_rightly(record, number):
    """A whole record is bad exactly where that row, at that place of a report, does not write it."""
    writer = who_could_write(record)
    report = block([small_row()] * (number - 1) + [writer]) if writer else b""
    answer, after = night.write(report, number, bytes(night.RECORD_LENGTH * number))
    could = answer == ("written",) and after.endswith(record)
    assert night.is_bad(record, number) != could, (record, number)


def written_between(rows, report, chance):
    """Of rows of both kinds the optical ones write the records that they write by themselves, at their places; the
    radar ones are 23 and their places keep their bytes."""
    places = [chance.randbytes(night.RECORD_LENGTH) for _ in rows]
    lent = b"".join(places)
    for number, each in enumerate(rows, start=1):
        answer, lent = night.write(report, number, lent)
        if ades.is_radar(each):
            assert answer == ades.refused(23, 0, 0)
        else:
            alone = night.write(block([each]), 1, bytes(night.RECORD_LENGTH))[1]
            assert answer == ("written",)
            places[number - 1] = bytes([number - 1]) + alone[1:]
    assert lent == b"".join(places)


def check_night_list(chance):
    """The specimen's record; reports by chance read back; records by chance, right and damaged, judged."""
    specimens_record()
    for _ in range(60):
        rows = random_rows(chance, chance.randint(1, 8), [random_shape(chance) for _ in range(2)])
        read_back(rows, random_layout(chance, rows), chance)
        written_without_covariances(rows, random_layout(chance, rows), chance)
        number = chance.choice((1, 2, 3, 100, 256))
        record = night.record_of(number, rows[0])
        judged_rightly(record, number)
        judged_rightly(record, chance.choice((number + 1, 257)))
        rows = random_rows(chance, chance.randint(1, 8), random_shapes(chance, 2))
        written_between(rows, random_layout(chance, rows), chance)
        for _ in range(8):
            at = chance.randrange(night.RECORD_LENGTH)
            judged_rightly(record[:at] + bytes([chance.randrange(256)]) + record[at + 1:], number)


def check_reference(chance):
    """All of the above, and packing of many small reports by chance."""
    proved_sums()
    sums_of_decimals()
    sums_of_radar()
    sums_of_covariances()
    sums_to_be_run()
    sums_of_cuts()
    day_numbers()
    short_decimals()
    covariances_as_doubles(chance)
    for _ in range(250):
        shapes = random_shapes(chance, chance.choice((1, 2, 3)))
        packs_well(random_rows(chance, chance.randint(1, 8), shapes), chance)
    check_cuts(chance)
    check_night_list(chance)
