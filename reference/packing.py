"""Cases on packing. Each is checked first: the packed report reads as the same observations, no other
layout that was tried is shorter, and up to nine rows every cutting was tried; up to five rows each cutting was
read back as well."""

import ades
from ades import ELEMENTS, ROW_LIMIT, TEXT_LIMIT
from limits import FULL, FULL_OF_COVARIANCES, FULL_OF_RADAR, filled
from refusals import FAULTY_BLOCKS
from reports import (COLUMNS, COVARIED, DELAY_SPECIMEN, DOPPLER_SPECIMEN, PLACED, ROVING_SPECIMEN, ROW, SPECIMEN,
                     VERSION, block, delay_row, doppler_row, random_layout, random_radar_shape, random_row, random_rows,
                     random_shape, random_shapes, roving_row, row, row_with, shuffled_columns, small_placed_row,
                     small_radar_row, small_row, stretches, to_pack, whole_delay_row, whole_doppler_row, whole_row)
from sums import packs_well, run_rows

LARGEST_ROOM = 70_000


def rooms(chance, packed_length, count):
    """Lengths of the lent output: exactly enough first, then one short, longer, none at all."""
    other = [packed_length - 1, packed_length + 1, packed_length + chance.randint(2, 90), 0, packed_length // 2]
    chance.shuffle(other)
    return [room for room in [packed_length] + other if room >= 0][:count]


def pack_cases(chance, report, count=1):
    """The report packed into outputs of several lengths."""
    observations = ades.read(report)[1]
    packs_well(observations, chance, layouts=2)
    packed = ades.written(observations, ades.shortest_cuts(observations))
    for room in rooms(chance, len(packed), count):
        yield to_pack(report, room, chance.randrange(256))


def of_document(chance):
    """The specimen, the empty report, and the sums of document 01."""
    for report in (SPECIMEN, b""):
        packs_well(ades.read(report)[1], chance, layouts=0)
    for room in (104, 103, 105, 0, 1, 65_536, LARGEST_ROOM):
        yield to_pack(SPECIMEN, room, chance.randrange(256))
    for room in (0, 1, 100):
        yield to_pack(b"", room, 0x20)
    for count in (52, 53, 54, 55):
        yield from pack_cases(chance, block(run_rows(count)), 2)
        yield from pack_cases(chance, block(run_rows(count)[::-1]))
    yield from pack_cases(chance, block(run_rows(27) + run_rows(27)[::-1]))
    yield from pack_cases(chance, SPECIMEN * 20, 2)


def refused(chance):
    """Reports that are refused, with room and without: no lent byte is changed."""
    for number, _, _, text in FAULTY_BLOCKS:
        assert ades.read(SPECIMEN + text)[1] == number
        yield to_pack(SPECIMEN + text, chance.choice((0, 50, 300)), chance.randrange(256))
    yield to_pack(SPECIMEN[:-1], 104, 0)
    yield to_pack(SPECIMEN[:-1], 103, 0xFF)
    yield to_pack(filled(SPECIMEN, TEXT_LIMIT + 1), 104, 7)
    yield to_pack(FULL + SPECIMEN, LARGEST_ROOM, 7)
    yield to_pack(b"\n", 0, 0)


def layouts(chance):
    """Columns in any order, padding, empty columns, and blocks of different columns joined by name."""
    first = row(trkSub=b"a1", stn=b"W84", astCat=b"Gaia2")
    second = row(trkSub=b"b2", stn=b"G96", astCat=b"UCAC4", mag=b"10.50", band=b"G")
    for rows in ([first, second], [second, first], [first, second, first], [second] * 3):
        for _ in range(2):
            parts = [block([each], shuffled_columns(chance, [each], 2)) for each in rows]
            yield from pack_cases(chance, b"".join(parts), 2)
    reverse = list(ELEMENTS)[::-1]
    yield from pack_cases(chance, block([whole_row()], reverse), 2)
    yield from pack_cases(chance, block([whole_row(), row(), whole_row()], reverse, chance), 2)
    yield from pack_cases(chance, block([row()], list(ELEMENTS)), 2)
    yield from pack_cases(chance, filled(SPECIMEN, 2000), 2)
    kept = row(ra=b"10.50", dec=b"+0.0", remarks=b"# version=2022", obsSubID=b"#", mag=b"+01.0", band=b"G")
    yield from pack_cases(chance, block([kept, row()], reverse), 2)
    yield from pack_cases(chance, VERSION + b" " + COLUMNS + b" " * 9 + ROW + SPECIMEN, 2)


# ---- bare points

SPELLINGS = (b"12", b"12.", b"12.0", b"+12.", b"012.", b".5", b"0.5", b".50", b"-.5", b"-0.5")

SPELT = b"""# version=2022
trkSub|mode|stn|obsTime|ra|dec|astCat|mag|band
a1|CCD|W84|2024-03-01T04:05:06.5Z|12|-.5|Gaia2|12|G
a1|CCD|W84|2024-03-01T04:05:06.5Z|12.|-0.5|Gaia2|12.|G
a1|CCD|W84|2024-03-01T04:05:06.5Z|12.0|90.|Gaia2|12.0|G
a1|CCD|W84|2024-03-01T04:05:06.5Z|.5|90|Gaia2|+12.|G
"""


def bare_points(chance):
    """Values that are equal as numbers and differ by a point or more are kept, byte for byte; the point is counted."""
    rows = [row(ra=ra, dec=dec, mag=mag, band=b"G") for ra, dec, mag in (
        (b"12", b"-.5", b"12"), (b"12.", b"-0.5", b"12."), (b"12.0", b"90.", b"12.0"), (b".5", b"90", b"+12."))]
    for report in (SPELT, block(rows, list(ELEMENTS), chance), b"".join(block([each]) for each in rows)):
        assert ades.pair(report, len(SPELT))[1] == ("packed", SPELT)
        yield from pack_cases(chance, report)
        assert ades.pair(report, len(SPELT) - 1)[1] == ades.refused(15, 0, 0)
        yield to_pack(report, len(SPELT) - 1, chance.randrange(256))
    for name in ("pos1", "pos2", "pos3", "mag", "doppler"):
        yield from pack_cases(chance, random_layout(chance, [row_with(name, text) for text in SPELLINGS]), 2)
    for name in ("rmsTime", "rmsRA", "rmsDec", "rmsMag", "photAp", "delay", "rmsDelay", "rmsDoppler", "frq"):
        rows = [row_with(name, text) for text in SPELLINGS if text[:1] not in b"+-"]
        yield from pack_cases(chance, random_layout(chance, rows), 2)
    rows = [row_with("rmsCorr", text) for text in (b"1", b"1.", b"+1.", b"001.", b"1.0", b".5", b"-.5", b"0.5")]
    yield from pack_cases(chance, random_layout(chance, rows), 2)
    rows = [row(ra=ra, dec=dec) for ra, dec in ((b"0", b"-.0"), (b"0.", b"-0."), (b".0", b"0."), (b"0.0", b".0"))]
    yield from pack_cases(chance, random_layout(chance, rows), 2)


# ---- radar rows, and nights of both kinds

# Rows in turn, o optical, r of a delay, d of a Doppler shift; the cuts. A block of r and d has two columns more in
# each row than two blocks and saves 46 bytes, a version line and six names: up to 23 rows it is no longer.
NIGHTS = [
    ("r", [1]), ("d", [1]), ("rr", [2]), ("dd", [2]), ("rd", [2]), ("dr", [2]), ("or", [1, 1]), ("ro", [1, 1]),
    ("oro", [1, 1, 1]), ("ror", [1, 1, 1]), ("oorr", [2, 2]), ("rroo", [2, 2]), ("orrd", [1, 3]),
    ("oroorrr", [1, 1, 2, 3]), ("rrrrrrrrr", [9]), ("rrrrddddd", [9]), ("rdrdrdrd", [8]), ("orororor", [1] * 8),
    ("ooorooo", [3, 1, 3]), ("drrdoooodr", [4, 4, 2]), ("ooooooor", [7, 1]), ("rooooooo", [1, 7]),
    ("rrrrrrrrrrrrdddddddddd", [22]), ("rrrrrrrrrrrrddddddddddd", [23]), ("rrrrrrrrrrrrdddddddddddd", [12, 12]),
    ("ddddddddddddrrrrrrrrrrrro", [12, 12, 1]),
]


def worked_out(chance, kinds, table):
    """Nights of rows of these kinds, spelt letter by letter in the table beside their cuts, which were worked out by
    hand; each laid out by chance, the output exactly long enough and one byte short."""
    for spelt, cuts in table:
        rows = [kinds[letter] for letter in spelt]
        assert ades.shortest_cuts(rows) == cuts, (spelt, ades.shortest_cuts(rows))
        packed = b"".join(block(part) for part in ades.parted(rows, cuts))
        for room in (len(packed), len(packed) - 1):
            report = random_layout(chance, rows)
            answer = ("packed", packed) if room == len(packed) else ades.refused(15, 0, 0)
            assert ades.pair(report, room) == (("measured", len(packed), cuts), answer)
            yield to_pack(report, room, chance.randrange(256))
        packs_well(rows, chance)


def nights(chance):
    """Nights of optical and radar rows. A joiner of kinds would write the mixed ones shorter."""
    yield from worked_out(chance, {"o": row(), "r": delay_row(), "d": doppler_row()}, NIGHTS)


def radar_layouts(chance):
    """Columns in any order, padding and empty columns of the other kind; values keep their bytes."""
    reverse = list(ELEMENTS)[::-1]
    for specimen in (DELAY_SPECIMEN, DOPPLER_SPECIMEN):
        assert ades.pair(specimen, len(specimen))[1] == ("packed", specimen)
        for room in (len(specimen), len(specimen) - 1, len(specimen) + 1, 0):
            yield to_pack(specimen, room, chance.randrange(256))
    for rows in ([whole_delay_row()], [whole_doppler_row()], [delay_row(), whole_doppler_row(), delay_row()],
                 [whole_delay_row(), doppler_row()], [delay_row(delay=b"12.50"), delay_row(delay=b"012.5")],
                 [doppler_row(doppler=b"+0.0"), doppler_row(doppler=b"-.0"), doppler_row(doppler=b"0.")]):
        yield from pack_cases(chance, block(rows, reverse), 2)
        yield from pack_cases(chance, block(rows, shuffled_columns(chance, rows, 4), chance))
        yield from pack_cases(chance, block([whole_row()], reverse) + block(rows, reverse) + block([row()], reverse), 2)
    yield from pack_cases(chance, block([delay_row(remarks=b"# version=2022")], reverse) + SPECIMEN)
    yield from pack_cases(chance, (SPECIMEN + DELAY_SPECIMEN) * 10, 2)
    yield from pack_cases(chance, (SPECIMEN * 3 + DELAY_SPECIMEN * 2 + DOPPLER_SPECIMEN) * 4, 2)


def mixed_nights(chance):
    """Stretches of several lengths, optical and radar in turn, of a few shapes each, laid out by chance."""
    for _ in range(45):
        rows, makers = [], [random_shape, random_radar_shape]
        chance.shuffle(makers)
        for number in range(chance.randint(2, 5)):
            shapes = [makers[number % 2](chance) for _ in range(chance.choice((1, 2)))]
            rows += random_rows(chance, chance.choice((1, 1, 2, 3, 6)), shapes)
        yield from pack_cases(chance, random_layout(chance, rows), chance.choice((1, 1, 2)))


def shortest_mixed(chance, wanted):
    """Nights of few rows on which some cutting that mixes kinds, and so does not read back, gives a shorter text."""
    found = 0
    while found < wanted:
        rows = random_rows(chance, chance.randint(2, 6), random_shapes(chance, 3))
        packed = len(ades.written(rows, ades.shortest_cuts(rows)))
        shorter = [text for text in (ades.written(rows, cuts) for cuts in ades.every_cutting(len(rows)))
                   if len(text) < packed]
        if shorter:
            assert all(ades.read(text)[1] == 21 for text in shorter)
            found += 1
            yield from pack_cases(chance, random_layout(chance, rows))


# ---- covariances, whose columns follow pos3

# Every column of an optical row in the order in which it is written.
WHOLE = b"""# version=2022
permID|provID|artSat|trkSub|obsID|obsSubID|mode|stn|sys|ctr|pos1|pos2|pos3|posCov11|posCov12|posCov13|posCov22|\
posCov23|posCov33|prog|obsTime|rmsTime|ra|dec|rmsRA|rmsDec|rmsCorr|astCat|mag|rmsMag|band|photCat|photAp|notes|remarks
123P-A|2016 AZ6|1998-067A|a1|x_1|n 7|CCD|W84|WGS84|399|-110.79|+32.4|2510|1.5e-3|-2E4|0|.25|+1e+00|9.|01|\
2024-03-01T04:05:06.5Z|0.5|10.5|-0.25|0.1|0.2|-0.5|Gaia2|20.1|0.1|G|Gaia2|3.5|K|clear sky
"""

# One number in other bytes, each kept.
COVARIANCE_SPELLINGS = (b"100000", b"1e5", b"1E5", b"1e+5", b"1e05", b"1.e5", b"+1e005", b"10.0E4", b".1e6", b"100000.")

# Rows in turn, o without location, p with it, 1 to 6 with it and so many covariances; the cuts. A block of p costs 76
# bytes before its rows, each covariance a byte in every row.
COVARIANCE_NIGHTS = [
    ("6", [1]), ("66", [2]), ("p6", [2]), ("6p", [2]), ("o6", [2]), ("o6p1", [4]), ("1p6o3", [5]), ("123456", [6]),
    ("p" * 12 + "6", [13]), ("p" * 13 + "6", [13, 1]), ("6" + "p" * 12, [13]), ("6" + "p" * 13, [1, 13]),
    ("p" * 18 + "4", [19]), ("p" * 19 + "4", [20]), ("p" * 20 + "4", [20, 1]), ("4" + "p" * 20, [1, 20]),
    ("p" * 37 + "2", [38]), ("p" * 38 + "2", [39]), ("p" * 39 + "2", [39, 1]), ("ooooo6", [5, 1]), ("oooo6", [5]),
]


def covariance_nights(chance):
    """Nights of rows without a location, with one, and with one to six covariances beside it."""
    kinds = {"o": row(), "p": row(**PLACED)}
    kinds |= {str(count): row(**PLACED, **dict(list(COVARIED.items())[:count])) for count in range(1, 7)}
    yield from worked_out(chance, kinds, COVARIANCE_NIGHTS)


def covariance_layouts(chance):
    """Columns in any order, also by number, are written with the covariances between pos3 and prog; values keep their
    bytes."""
    for specimen, rows in ((ROVING_SPECIMEN, [roving_row()]), (WHOLE, [whole_row()])):
        by_number, reverse = block(rows, sorted(rows[0])), block(rows, sorted(rows[0], reverse=True))
        for report in (specimen, by_number, reverse, block(rows, sorted(ELEMENTS), chance)):
            assert ades.pair(report, len(specimen))[1] == ("packed", specimen)
            for room in (len(specimen), len(specimen) - 1):
                yield to_pack(report, room, chance.randrange(256))
        for room in (len(specimen) + 1, 0, len(specimen) // 2):
            yield to_pack(by_number, room, chance.randrange(256))
    for name in COVARIED:
        rows = [row(**PLACED, **{name: b"1e5"}, prog=b"01"), row(prog=b"02")]
        yield from pack_cases(chance, block(rows, sorted({**rows[0], **rows[1]})))
        rows = [small_placed_row(**{name: text}) for text in chance.sample(COVARIANCE_SPELLINGS, 6)]
        yield from pack_cases(chance, random_layout(chance, rows), 2)
    # One covariance a row, each another one, and blocks joined by name.
    rows = [small_placed_row(**{name: value}) for name, value in COVARIED.items()]
    for parts in ([rows], [rows[:3], rows[3:]], [[each] for each in reversed(rows)]):
        yield from pack_cases(chance, b"".join(block(part, shuffled_columns(chance, part, 2)) for part in parts), 2)
    # Between radar rows.
    for rows in ([roving_row(), delay_row(), roving_row()], [delay_row(), whole_row(), doppler_row(), row()],
                 [row(), roving_row(), delay_row(), doppler_row(), roving_row(posCov12=b"0")]):
        yield from pack_cases(chance, random_layout(chance, rows), 2)
        yield from pack_cases(chance, b"".join(block(part, sorted(ELEMENTS)) for part in stretches(rows)))
    yield from pack_cases(chance, (ROVING_SPECIMEN + DELAY_SPECIMEN + SPECIMEN) * 5, 2)


def covariance_shape(chance):
    """The columns of an optical observation with its location and some covariances."""
    return random_shape(chance) | set(ades.LOCATION) | set(chance.sample(ades.COVARIANCES, chance.choice((1, 3, 6))))


def covariance_runs(chance, wanted):
    """Runs of rows alike but for their covariances, of which several blocks are shortest; every second time joining
    row by row gives a longer text."""
    found = 0
    while found < wanted:
        shape, rows = NARROW | set(ades.LOCATION), []
        for _ in range(chance.randint(3, 5)):
            more = chance.sample(ades.COVARIANCES, chance.choice((0, 0, 3, 6)))
            rows += [of_shape(shape | set(more))] * chance.choice((1, 2, 6, 12, 15))
        cuts = ades.shortest_cuts(rows)
        is_longer = len(ades.written(rows, joined_row_by_row(rows))) > len(ades.written(rows, cuts))
        if len(rows) <= 45 and len(cuts) > 1 and (found % 2 or is_longer):
            found += 1
            yield from pack_cases(chance, random_layout(chance, rows))


def covariance_mixes(chance):
    """Rows with covariances by chance, alone, beside others, beside radar rows, laid out by chance."""
    for _ in range(24):
        shapes = [covariance_shape(chance), chance.choice((covariance_shape, random_shape, random_radar_shape))(chance)]
        rows = random_rows(chance, chance.choice((1, 2, 3, 5, 8)), shapes)
        yield from pack_cases(chance, random_layout(chance, rows), chance.choice((1, 1, 2)))


# ---- shapes that share few columns, so that a cut is worth its bytes

NARROW = {4, 7, 8, 15, 17, 18, 22}
LEFT = [1, 2, 3, 5, 6, 14, 16, 28, 29]
RIGHT = [9, 10, 11, 12, 13, 19, 20, 23, 25]
OPTICAL = {element for element in ELEMENTS if element not in ades.RADAR}


def far_shapes(chance):
    """A narrow shape and two wide ones that share only the narrow one's columns."""
    return NARROW, NARROW | set(chance.sample(LEFT, chance.randint(6, 9))), NARROW | set(RIGHT)


def of_shape(shape):
    """An observation of that shape with the values of the one that has all elements."""
    return {element: whole_row()[element] for element in sorted(shape)}


def two_kinds_in_turn(chance):
    """Two kinds of rows one after the other, by ones, by twos and by fours."""
    for shape in (NARROW | {1}, NARROW | {29}, NARROW | set(RIGHT), OPTICAL):
        narrow, wide = of_shape(NARROW), of_shape(shape)
        for rows in ([narrow, wide] * 5, [wide, narrow, narrow] * 4, [narrow] * 4 + [wide] * 4 + [narrow] * 4):
            yield from pack_cases(chance, random_layout(chance, rows))


def far_apart(chance, wanted):
    """Runs of the three shapes, so that several blocks are shortest."""
    for _ in range(wanted):
        rows = []
        while len(rows) < 7:
            rows += random_rows(chance, chance.randint(1, 4), [chance.choice(far_shapes(chance))])
        yield from pack_cases(chance, random_layout(chance, rows), chance.choice((1, 1, 2)))


# ---- several shortest cuttings

def block_overhead(shape):
    """What a block of these columns costs before its rows."""
    return 15 + sum(len(ELEMENTS[element][0]) + 1 for element in shape)


def tied_rows(chance):
    """A narrow shape, a wide one that holds it, and how many narrow rows before a wide one make one
    block as long as two."""
    while True:
        narrow, more = random_shape(chance), random_shape(chance) | random_shape(chance)
        wide = narrow | more
        spare = len(wide) - len(narrow)
        if spare and block_overhead(narrow) % spare == 0 and block_overhead(narrow) // spare <= 9:
            return narrow, wide, block_overhead(narrow) // spare


def shortest_count(rows):
    """How many cuttings are shortest: from the last row back, the ways to reach the least; no block mixes kinds."""
    least, ways = [0], [1]
    for first in reversed(range(len(rows))):
        lengths = [ades.block_bytes(rows[first:end]) + rest for end, rest in enumerate(least, start=first + 1)
                   if ades.is_of_one_kind(rows[first:end])]
        least.insert(0, min(lengths))
        ways.insert(0, sum(count for length, count in zip(lengths, ways) if length == least[0]))
    return ways[0]


def one_block_as_long_as_two(chance):
    """Shapes of rows for which joining costs as much as cutting."""
    narrow, wide, count = tied_rows(chance)
    return chance.choice(([narrow] * count + [wide], [wide] + [narrow] * count,
                          [narrow] * count + [wide] + [narrow] * count, [wide] + [narrow] * count + [wide]))


def radar_block_as_long_as_two(chance):
    """The same of radar rows, alone, or with optical rows before or after them."""
    while True:
        narrow = random_radar_shape(chance)
        wide = narrow | set(chance.sample((1, 2, 5, 6, 14, 28, 29), chance.randint(2, 7)))
        spare = len(wide) - len(narrow)
        if spare and block_overhead(narrow) % spare == 0 and block_overhead(narrow) // spare <= 24:
            break
    tied = [narrow] * (block_overhead(narrow) // spare)
    optical = [random_shape(chance)] * chance.choice((0, 1, 2))
    return optical + chance.choice((tied + [wide], [wide] + tied)) + chance.choice(([], optical))


def covariances_as_long_as_two(chance):
    """The same of rows with a location and a row that has covariances too."""
    while True:
        narrow = random_shape(chance) - set(ades.COVARIANCES) | set(ades.LOCATION)
        count = chance.randint(3, 6)
        if block_overhead(narrow) % count == 0:
            break
    wide = narrow | set(chance.sample(ades.COVARIANCES, count))
    tied = [narrow] * (block_overhead(narrow) // count)
    return chance.choice((tied + [wide], [wide] + tied))


def between_covariances(chance):
    """Rows with a location that cost as much in the block before as in the block after, with other covariances."""
    narrow = NARROW | set(ades.LOCATION)
    return ([narrow | {38, 39, 40}] * chance.randint(12, 14) + [narrow] * chance.randint(1, 2)
            + [narrow | {41, 42, 43}] * chance.randint(12, 14))


def between_two_wide_ones(chance):
    """Narrow rows that cost as much in the block before as in the block after."""
    narrow, left, right = far_shapes(chance)
    return [left] * chance.randint(3, 4) + [narrow] * chance.randint(1, 2) + [right] * chance.randint(3, 4)


def ties(chance, shapes_by_chance, least_blocks, wanted, most_rows=10):
    """Of several shortest cuttings, the one whose first block has most rows."""
    found = 0
    while found < wanted:
        shapes = shapes_by_chance(chance)
        rows = [random_row(chance, shape) for shape in shapes]
        if len(rows) <= most_rows and shortest_count(rows) > 1 and len(ades.shortest_cuts(rows)) >= least_blocks:
            found += 1
            yield from pack_cases(chance, random_layout(chance, rows))


def long_runs(chance, wanted):
    """Up to forty rows in runs, three blocks or more, and every fourth time a tie."""
    found = 0
    while found < wanted:
        rows = []
        for _ in range(chance.randint(4, 8)):
            shape = chance.choice((*far_shapes(chance), OPTICAL))
            rows += [of_shape(shape)] * chance.randint(1, 9)
        if len(rows) <= 40 and len(ades.shortest_cuts(rows)) >= 3 and (found % 4 or shortest_count(rows) > 1):
            found += 1
            yield from pack_cases(chance, random_layout(chance, rows))


# ---- joiners that look no further than the next row or the next block

def joined_row_by_row(rows):
    """Each row goes into the block before it where that costs no more than a block of its own."""
    cuts, first = [], 0
    for index in range(1, len(rows) + 1):
        if index < len(rows):
            alone = ades.block_bytes(rows[first:index]) + ades.block_bytes(rows[index:index + 1])
            if ades.block_bytes(rows[first:index + 1]) <= alone:
                continue
        cuts.append(index - first)
        first = index
    return cuts


def joined_pair_by_pair(rows):
    """Blocks of one row, and the best saving pair of neighbours joined again and again."""
    blocks = [[each] for each in rows]
    while len(blocks) > 1:
        savings = [ades.block_bytes(left) + ades.block_bytes(right) - ades.block_bytes(left + right)
                   for left, right in zip(blocks, blocks[1:])]
        best = max(savings)
        if best < 0:
            break
        at = savings.index(best)
        blocks[at:at + 2] = [blocks[at] + blocks[at + 1]]
    return [len(part) for part in blocks]


def greedy_fails(chance, joiner, wanted):
    """Reports on which the joiner's text is longer than the shortest."""
    found = 0
    while found < wanted:
        shapes = [random_shape(chance), random_shape(chance) | random_shape(chance), random_shape(chance)]
        rows = random_rows(chance, chance.randint(6, 12), shapes)
        if len(ades.written(rows, joiner(rows))) > len(ades.written(rows, ades.shortest_cuts(rows))):
            found += 1
            yield from pack_cases(chance, random_layout(chance, rows))


def radar_runs(chance, wanted):
    """Up to sixty rows in runs, optical ones among them, whose radar rows take several blocks; every second time
    joining row by row, kind by kind, gives a longer text."""
    kinds = (delay_row(), doppler_row(), whole_delay_row(), whole_doppler_row(), delay_row(prog=b"01", notes=b"K"),
             row())
    found = 0
    while found < wanted:
        rows = []
        for _ in range(chance.randint(3, 6)):
            rows += [chance.choice(kinds)] * chance.choice((1, 2, 5, 9, 14))
        parts = stretches(rows)
        joined = [count for part in parts for count in joined_row_by_row(part)]
        is_cut = any(ades.is_radar(part[0]) and len(ades.shortest_cuts(part)) > 1 for part in parts)
        is_longer = len(ades.written(rows, joined)) > len(ades.written(rows, ades.shortest_cuts(rows)))
        if len(rows) <= 60 and is_cut and (found % 2 or is_longer):
            found += 1
            yield from pack_cases(chance, random_layout(chance, rows))


# ---- many rows, and mixes by chance

def many_rows(chance):
    """256 rows: all alike, two kinds in turn, runs of several kinds, a block for each row."""
    narrow, wide = small_row(), small_row(mag=b"1", band=b"G", notes=b"K")
    yield from pack_cases(chance, FULL)
    yield from pack_cases(chance, block([narrow, wide] * (ROW_LIMIT // 2)))
    shapes = [random_shape(chance) - {29} for _ in range(5)]
    yield from pack_cases(chance, block(random_rows(chance, ROW_LIMIT, shapes)))
    yield from pack_cases(chance, b"".join(block([each]) for each in [narrow, narrow, narrow, wide] * (ROW_LIMIT // 4)))
    runs = [narrow] * 60 + [wide] * 3 + [narrow] * 21 + [wide] * 70 + [narrow] * 102
    yield from pack_cases(chance, block(runs), 2)
    yield from pack_cases(chance, filled(FULL, TEXT_LIMIT))
    yield from pack_cases(chance, FULL_OF_RADAR, 2)
    radar, shifted = small_radar_row(), small_radar_row(delay=None, rmsDelay=None, doppler=b"1", rmsDoppler=b"1")
    in_turn = [narrow, radar] * (ROW_LIMIT // 2)
    assert ades.shortest_cuts(in_turn) == [1] * ROW_LIMIT
    yield from pack_cases(chance, b"".join(block([each]) for each in in_turn), 2)
    yield from pack_cases(chance, block([radar, shifted] * (ROW_LIMIT // 2)))
    runs = [narrow] * 50 + [radar] * 30 + [shifted] * 30 + [narrow] * 3 + [wide] * 80 + [radar] * 4 + [shifted] * 59
    yield from pack_cases(chance, b"".join(map(block, stretches(runs))), 2)
    yield from pack_cases(chance, FULL_OF_COVARIANCES, 2)
    placed, covaried = small_placed_row(), small_placed_row(**dict.fromkeys(COVARIED, b"0"))
    yield from pack_cases(chance, block([placed, covaried] * (ROW_LIMIT // 2)))
    runs = [placed] * 60 + [covaried] * 3 + [radar] * 40 + [covaried] * 50 + [placed] * 90 + [narrow] * 13
    yield from pack_cases(chance, b"".join(map(block, stretches(runs))), 2)


def mixes(chance):
    """One to twelve rows of a few shapes, laid out by chance."""
    for _ in range(110):
        shapes = random_shapes(chance, chance.choice((1, 2, 3, 5)))
        rows = random_rows(chance, chance.choice((1, 2, 3, 4, 5, 6, 7, 8, 9, 9, 10, 12)), shapes)
        yield from pack_cases(chance, random_layout(chance, rows), chance.choice((1, 1, 1, 2)))
    for _ in range(12):
        rows = [random_row(chance, chance.choice((NARROW, OPTICAL - {29}))) for _ in range(chance.randint(2, 9))]
        yield from pack_cases(chance, block(rows, shuffled_columns(chance, rows)))


def cases(chance):
    """All cases of this file."""
    yield from of_document(chance)
    yield from refused(chance)
    yield from layouts(chance)
    yield from bare_points(chance)
    yield from nights(chance)
    yield from radar_layouts(chance)
    yield from covariance_nights(chance)
    yield from covariance_layouts(chance)
    yield from covariance_mixes(chance)
    yield from covariance_runs(chance, 12)
    yield from mixed_nights(chance)
    yield from shortest_mixed(chance, 20)
    yield from two_kinds_in_turn(chance)
    yield from far_apart(chance, 40)
    yield from ties(chance, one_block_as_long_as_two, 1, 20)
    yield from ties(chance, between_two_wide_ones, 2, 16)
    yield from ties(chance, covariances_as_long_as_two, 1, 8, 34)
    yield from ties(chance, between_covariances, 2, 6, 30)
    yield from ties(chance, radar_block_as_long_as_two, 1, 10, 28)
    yield from long_runs(chance, 16)
    yield from greedy_fails(chance, joined_row_by_row, 15)
    yield from greedy_fails(chance, joined_pair_by_pair, 10)
    yield from radar_runs(chance, 14)
    yield from many_rows(chance)
    yield from mixes(chance)
