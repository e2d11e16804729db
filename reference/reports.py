"""How the cases build reports: rows, blocks, layouts of any order and padding, and values by chance.

A row is a dictionary from element number to value, as the reference reads it. `chance` is always a
`random.Random` made from a fixed seed, so each run gives the same reports.
"""

from itertools import groupby

from ades import COVARIANCES, ELEMENTS, LOCATION, NUMBERS, columns_of, is_radar, parted
from values import ALPHANUMERICS, CAPITALS, DIGITS, days_in_month

# The specimen's three lines.
VERSION = b"# version=2022\n"
COLUMNS = b"trkSub|mode|stn|obsTime|ra|dec|astCat\n"
ROW = b"a1|CCD|W84|2024-03-01T04:05:06.5Z|10.5|-0.25|Gaia2\n"
SPECIMEN = VERSION + COLUMNS + ROW

# Radar observations in the same way, of a delay and of a Doppler shift.
DELAY_COLUMNS = b"permID|obsTime|trx|rcv|delay|rmsDelay|frq|com\n"
DELAY_ROW = b"433|2024-03-01T04:05:06.5Z|251|253|12.5|0.5|8560|1\n"
DELAY_SPECIMEN = VERSION + DELAY_COLUMNS + DELAY_ROW
DOPPLER_COLUMNS = b"permID|obsTime|trx|rcv|doppler|rmsDoppler|frq|com\n"
DOPPLER_ROW = b"433|2024-03-01T04:05:06.5Z|251|253|-0.25|0.2|2380|0\n"
DOPPLER_SPECIMEN = VERSION + DOPPLER_COLUMNS + DOPPLER_ROW

# And a roving observer's, with two of the covariances.
ROVING_COLUMNS = b"trkSub|mode|stn|sys|ctr|pos1|pos2|pos3|posCov11|posCov33|obsTime|ra|dec|astCat\n"
ROVING_ROW = b"a1|CCD|247|WGS84|399|-110.79|+32.4|2510|1.5e-3|-.25|2024-03-01T04:05:06.5Z|10.5|-0.25|Gaia2\n"
ROVING_SPECIMEN = VERSION + ROVING_COLUMNS + ROVING_ROW

# A case is a letter, two numbers and two texts, of which the second is empty but where a record is written or cuts are
# handed in.

# The most numbers that a list of cuts has, lent or handed in, and the largest number in it.
LONGEST_LIST = 1_100
LARGEST_NUMBER = 65_535


def to_check(report):
    """A case that checks the report."""
    return ("C", 0, 0, report, b"")


def to_show(report, observation, element):
    """A case that asks where a value lies."""
    return ("S", observation, element, report, b"")


def to_value(report, observation, element):
    """A case that asks what a value is worth."""
    return ("V", observation, element, report, b"")


def to_pack(report, room, filling):
    """A case that asks the length and writes by the cuts given into so much room, filled with a byte before."""
    return ("P", room, filling, report, b"")


def to_measure(report, room, filling):
    """A case that asks the length and lends a list of so many numbers, filled with a number before."""
    assert 0 <= room <= LONGEST_LIST and 0 <= filling <= LARGEST_NUMBER
    return ("M", room, filling, report, b"")


def to_write_by(report, cuts, room, filling):
    """A case that writes by these cuts, two bytes each, into so much room, filled with a byte before."""
    assert len(cuts) <= LONGEST_LIST
    return ("W", room, filling, report, b"".join(cut.to_bytes(2, "little") for cut in cuts))


def to_write(report, observation, lent):
    """A case that writes the observation's record into the lent list."""
    return ("N", observation, 0, report, lent)


def to_check_list(lent):
    """A case that checks a night list."""
    return ("L", 0, 0, lent, b"")


def to_read(lent, number):
    """A case that reads a record of a night list."""
    return ("R", number, 0, lent, b"")


# ---- rows and blocks

def by_number(values):
    """The row with these values by name, less those that are None."""
    return {NUMBERS[name.encode()]: value for name, value in values.items() if value is not None}


def row(**changes):
    """The specimen's observation with elements changed, added, or taken away by None."""
    return by_number({"trkSub": b"a1", "mode": b"CCD", "stn": b"W84", "obsTime": b"2024-03-01T04:05:06.5Z",
                      "ra": b"10.5", "dec": b"-0.25", "astCat": b"Gaia2", **changes})


def delay_row(**changes):
    """The radar observation of a delay, with elements changed, added, or taken away by None."""
    return by_number({"permID": b"433", "obsTime": b"2024-03-01T04:05:06.5Z", "trx": b"251", "rcv": b"253",
                      "delay": b"12.5", "rmsDelay": b"0.5", "frq": b"8560", "com": b"1", **changes})


def doppler_row(**changes):
    """The radar observation of a Doppler shift, in the same way."""
    return by_number({"permID": b"433", "obsTime": b"2024-03-01T04:05:06.5Z", "trx": b"251", "rcv": b"253",
                      "doppler": b"-0.25", "rmsDoppler": b"0.2", "frq": b"2380", "com": b"0", **changes})


PLACED = {"sys": b"WGS84", "ctr": b"399", "pos1": b"-110.79", "pos2": b"+32.4", "pos3": b"2510"}
COVARIED = {"posCov11": b"1.5e-3", "posCov12": b"-2E4", "posCov13": b"0", "posCov22": b".25", "posCov23": b"+1e+00",
            "posCov33": b"9."}
MEASURED = {"mag": b"20.1", "rmsMag": b"0.1", "band": b"G", "photCat": b"Gaia2", "photAp": b"3.5"}
SURE = {"rmsRA": b"0.1", "rmsDec": b"0.2", "rmsCorr": b"-0.5"}


def roving_row(**changes):
    """The roving observer's observation, with elements changed, added, or taken away by None."""
    return row(**{"stn": b"247", **PLACED, "posCov11": b"1.5e-3", "posCov33": b"-.25", **changes})


def row_with(name, value):
    """The specimen's observation, or a radar one, with this value and what must stand beside it."""
    if name in ("doppler", "rmsDoppler"):
        return doppler_row(**{name: value})
    if name in ("trx", "rcv", "delay", "rmsDelay", "frq", "com"):
        return delay_row(**{name: value})
    beside = dict(PLACED) if name in COVARIED else {}
    for group in (PLACED, MEASURED, SURE):
        if name in group:
            beside = dict(group)
    if name == "ctr" or (name == "sys" and value != b"WGS84"):
        beside.update({"sys": b"IAU", "ctr": b"301"})
    return row(**{**beside, name: value})


def whole_row(**changes):
    """An optical observation with elements 1 to 29 and 38 to 43 present, with elements changed or taken away."""
    rest = {"permID": b"123P-A", "provID": b"2016 AZ6", "artSat": b"1998-067A", "obsID": b"x_1",
            "obsSubID": b"n 7", "prog": b"01", "rmsTime": b"0.5", "notes": b"K", "remarks": b"clear sky"}
    return row(**{**rest, **PLACED, **COVARIED, **MEASURED, **SURE, **changes})


ALLOWED = {"provID": b"2016 AZ6", "obsID": b"x_1", "obsSubID": b"n 7", "prog": b"01", "notes": b"K",
           "remarks": b"clear sky"}


def whole_delay_row(**changes):
    """A radar observation of a delay with all that is allowed in it, with elements changed or taken away."""
    return delay_row(**{**ALLOWED, **changes})


def whole_doppler_row(**changes):
    """A radar observation of a Doppler shift in the same way."""
    return doppler_row(**{**ALLOWED, **changes})


def small_radar_row(**changes):
    """A radar observation of few bytes."""
    return delay_row(**{"permID": b"1", "obsTime": b"2024-03-01T04:05:06Z", "trx": b"abc", "rcv": b"abc",
                        "delay": b"1", "rmsDelay": b"1", "frq": b"1", **changes})


def small_row(**changes):
    """An observation of few bytes."""
    return row(**{"trkSub": b"a", "stn": b"abc", "obsTime": b"2024-03-01T04:05:06Z", "ra": b"0",
                  "dec": b"0", "astCat": b"u", **changes})


def small_placed_row(**changes):
    """An observation of few bytes with its location."""
    return small_row(**{"sys": b"IAU", "ctr": b"0", "pos1": b"1", "pos2": b"2", "pos3": b"3", **changes})


def line_of(fields):
    """The fields as one line."""
    return b"|".join(fields) + b"\n"


def names_of(columns):
    """The names of the columns."""
    return [ELEMENTS[element][0] for element in columns]


def padded(chance, fields):
    """The fields with blanks around some of them."""
    return [b" " * chance.choice((0, 0, 1, 3)) + field + b" " * chance.choice((0, 0, 1, 2)) for field in fields]


def block(rows, columns=None, chance=None):
    """One block. Columns default to those present in column order; with a chance, fields are padded.
    A value that would make its line begin with `#` gets a blank before it."""
    columns = columns or columns_of(rows)
    table = [names_of(columns)] + [[each.get(element, b"") for element in columns] for each in rows]
    if chance:
        table = [padded(chance, fields) for fields in table]
    lines = [line_of(fields) for fields in table]
    return VERSION + b"".join(b" " + line if line[:1] == b"#" else line for line in lines)


def shuffled_columns(chance, rows, spare=0):
    """The columns present in any order, with some that are empty in every row."""
    columns = columns_of(rows)
    others = [element for element in ELEMENTS if element not in columns]
    columns += chance.sample(others, min(spare, len(others)))
    chance.shuffle(columns)
    return columns


def random_cuts(chance, count):
    """The rows parted into blocks by chance."""
    cuts = []
    while count:
        cuts.append(chance.randint(1, count))
        count -= cuts[-1]
    return cuts


def stretches(rows):
    """The rows parted where their kind changes."""
    return [list(stretch) for _, stretch in groupby(rows, is_radar)]


def random_block(chance, rows):
    """The rows in one block, its columns in any order, some of them perhaps empty, perhaps padded."""
    columns = shuffled_columns(chance, rows, chance.choice((0, 0, 1, 3)))
    return block(rows, columns, chance if chance.random() < 0.5 else None)


def random_layout(chance, rows):
    """The same observations cut, ordered and padded by chance; no block mixes kinds."""
    text = b""
    for stretch in stretches(rows):
        for part in parted(stretch, random_cuts(chance, len(stretch))):
            text += random_block(chance, part)
    return text


# ---- values and observations by chance

def some(chance, allowed, least, most):
    """So many bytes of those allowed, without a blank at either end."""
    text = bytes(chance.choice(allowed) for _ in range(chance.randint(least, most)))
    return text if text == text.strip(b" ") else text.replace(b" ", b"_")


ALL_ZERO = bytes.maketrans(DIGITS, b"0" * len(DIGITS))


def random_number(chance, width):
    """A decimal above zero of at most so many bytes, now and then with its point first or last."""
    digits = some(chance, DIGITS, 1, width - 1)
    at = chance.randint(0, len(digits))
    text = digits[:at] + b"." + digits[at:] if chance.random() < 0.7 else digits
    return text if text.strip(b"0.") else text.replace(b"0", b"1", 1)


def random_sign(chance):
    """A sign, or more often none."""
    return chance.choice((b"", b"", b"-", b"+"))


def random_places(chance, integer, most):
    """The integer part, mostly with a point and places; now and then the point has digits on one side alone."""
    places = b"." + some(chance, DIGITS, 1, most)
    return chance.choice((integer, integer + b".", places, *[integer + places] * 5))


def random_covariance(chance, width):
    """A decimal, more often than not with an exponent, short or of at most so many bytes; now and then zero."""
    exponent = b""
    if chance.random() < 0.6:
        exponent = chance.choice((b"e", b"E")) + random_sign(chance) + some(chance, DIGITS, 1, 3)
    mantissa = random_number(chance, chance.choice((3, 6, width - len(exponent))))
    if chance.random() < 0.1:
        mantissa = mantissa.translate(ALL_ZERO)
    return random_sign(chance) + mantissa + exponent


def random_time(chance):
    """A time in any year, or more often in ours."""
    year, month = chance.choice((chance.randint(1, 9999), chance.randint(1990, 2030))), chance.randint(1, 12)
    text = b"%04d-%02d-%02dT%02d:%02d:%02d" % (year, month, chance.randint(1, days_in_month(year, month)),
                                              chance.randint(0, 23), chance.randint(0, 59), chance.randint(0, 59))
    return text + (b"." + some(chance, DIGITS, 1, 6) if chance.random() < 0.5 else b"") + b"Z"


def random_permanent(chance):
    """A permID."""
    number = b"%d" % chance.randint(1, 999_999)
    return number + chance.choice((b"", b"P", b"D", b"P-" + some(chance, CAPITALS, 1, 2)))


def random_provisional(chance):
    """A provID of a minor planet or of a comet."""
    if chance.random() < 0.5:
        return b"%04d %s%s" % (chance.randint(1900, 2030), some(chance, b"ABCDEFGH", 2, 2),
                               chance.choice((b"", b"%d" % chance.randint(1, 999))))
    return b"%s/%04d %s%d" % (chance.choice((b"C", b"P", b"D", b"X", b"A")), chance.randint(1700, 2030),
                              some(chance, CAPITALS, 1, 2), chance.randint(1, 999))


def random_value(chance, element):
    """A right value of the element."""
    _, form, *details = ELEMENTS[element]
    if form.__name__ == "alphanumerics":
        return some(chance, ALPHANUMERICS, details[0], details[1]).replace(b"l", b"k")  # a small l is read as 1
    if form.__name__ == "word":
        return chance.choice(details[0].split())
    if form.__name__ == "positive_decimal":
        return random_number(chance, details[0])
    if form.__name__ == "flag":
        return chance.choice((b"0", b"1"))
    if form.__name__ == "signed_decimal":
        return random_sign(chance) + random_number(chance, details[0])
    if form.__name__ == "covariance":
        return random_covariance(chance, details[0])
    return {
        1: lambda: random_permanent(chance),
        2: lambda: random_provisional(chance),
        3: lambda: b"%04d-%03d%s" % (chance.randint(1957, 2030), chance.randint(1, 200), some(chance, CAPITALS, 1, 3)),
        6: lambda: some(chance, range(0x21, 0x7C), 1, 25),
        10: lambda: b"%d" % chance.choice((0, 399, 301, -31, chance.randint(-999, 9999))),
        15: lambda: random_time(chance),
        17: lambda: random_places(chance, b"%d" % chance.randrange(360), 9),
        18: lambda: random_sign(chance) + random_places(chance, b"%d" % chance.randrange(90), 9),
        21: lambda: random_sign(chance) + random_places(chance, b"0", 11),
        29: lambda: some(chance, ALPHANUMERICS, 1, chance.choice((5, 40, 300))),
    }[element]()


def random_shape(chance):
    """A set of elements that one optical observation may hold."""
    shape = {7, 8, 15, 17, 18, 22} | set(chance.sample((1, 2, 3, 4), chance.choice((1, 1, 2))))
    if chance.random() < 0.4:
        shape |= set(LOCATION) | set(chance.sample(COVARIANCES, chance.choice((0, 0, 0, 1, 2, 6))))
    if chance.random() < 0.5:
        shape |= {23, 25} | set(chance.sample((24, 26, 27), chance.randint(0, 3)))
    if chance.random() < 0.4:
        shape |= {19, 20} | set(chance.sample((21,), chance.randint(0, 1)))
    return shape | set(chance.sample((5, 6, 14, 16, 28, 29), chance.choice((0, 0, 1, 2, 4))))


def random_radar_shape(chance):
    """A set of elements that one radar observation may hold."""
    shape = {15, 30, 31, 36, 37} | set(chance.choice(((1,), (1,), (2,), (1, 2))))
    shape |= set(chance.choice(((32, 33), (34, 35))))
    return shape | set(chance.sample((5, 6, 14, 28, 29), chance.choice((0, 0, 1, 2, 4))))


def random_shapes(chance, count):
    """So many shapes: optical ones, radar ones, or some of each."""
    optical, radar = (random_shape,), (random_radar_shape,)
    kinds = chance.choice((optical, radar, optical + radar, radar + optical))
    return [kinds[number % len(kinds)](chance) for number in range(count)]


def random_row(chance, shape):
    """An observation of that shape."""
    values = {element: random_value(chance, element) for element in sorted(shape)}
    if values.get(9) == b"WGS84":
        values[10] = b"399"
    return values


def random_rows(chance, count, shapes):
    """So many observations, each of one of the shapes, which tend to come in runs."""
    rows, shape = [], chance.choice(shapes)
    for _ in range(count):
        if chance.random() < 0.6:
            shape = chance.choice(shapes)
        rows.append(random_row(chance, shape))
    return rows
