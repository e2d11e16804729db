"""Cases on asking the length first and on writing by cuts (order 6). The right cuts of each report are written by hand
or found by every cutting; a wrong list follows from how it was changed. The reference has to agree before a case is
made. Reports have few bytes, so that there may be many."""

import itertools

import ades
import damage
from ades import ROW_LIMIT, refused
from limits import FULL, FULL_OF_COVARIANCES, FULL_OF_RADAR
from packing import (COVARIANCE_NIGHTS, LARGEST_ROOM, NIGHTS, between_covariances, between_two_wide_ones,
                     covariances_as_long_as_two, one_block_as_long_as_two, radar_block_as_long_as_two)
from refusals import FAULTY_BLOCKS
from reports import (COVARIED, DELAY_SPECIMEN, LARGEST_NUMBER, LONGEST_LIST, ROVING_SPECIMEN, SPECIMEN, block,
                     random_cuts, random_layout, random_rows, random_shapes, small_placed_row, small_radar_row,
                     small_row, stretches, to_measure, to_write_by, whole_delay_row, whole_doppler_row, whole_row)
from sums import run_rows

# Rows of few bytes by the letters of `NIGHTS` and `COVARIANCE_NIGHTS`: cuts depend on their columns alone.
SMALL_ROWS = {"o": small_row(), "p": small_placed_row(), "r": small_radar_row(),
              "d": small_radar_row(delay=None, rmsDelay=None, doppler=b"1", rmsDoppler=b"1")}
SMALL_ROWS |= {str(count): small_placed_row(**dict.fromkeys(list(COVARIED)[:count], b"0")) for count in range(1, 7)}

# A short value of each element.
SHORT = {**whole_row(), **whole_delay_row(), **whole_doppler_row(),
         **SMALL_ROWS["6"], **SMALL_ROWS["r"], **SMALL_ROWS["d"]}


def small_night(spelt):
    """The report of rows of these letters, no two of them alike, in a block a stretch of one kind."""
    rows = []
    for number, letter in enumerate(spelt, start=1):
        designation = 1 if ades.is_radar(SMALL_ROWS[letter]) else 4
        rows.append({**SMALL_ROWS[letter], designation: b"%d" % number})
    return laid_out(rows)


def laid_out(rows):
    """The rows in a block a stretch of one kind."""
    return b"".join(map(block, stretches(rows)))


def short_rows(shapes):
    """Observations of these shapes with short values."""
    return [{element: SHORT[element] for element in sorted(shape)} for shape in shapes]


# ---- one case

def packed_by(report, cuts):
    """The report's observations in blocks by these cuts."""
    return b"".join(map(block, ades.parted(ades.read(report)[1], cuts)))


def measured(report, right, room, filling):
    """A case that asks the length, for a report whose cuts are these."""
    assert ades.length(report) == ("measured", len(packed_by(report, right)), right), report
    return to_measure(report, room, filling)


def written(report, right, room, filling):
    """A case that writes by the report's cuts: 15 where the room is too little."""
    packed = packed_by(report, right)
    answer = ("packed", packed) if room >= len(packed) else refused(15, 0, 0)
    assert ades.write(report, right, room) == answer, report
    return to_write_by(report, right, room, filling)


def wrong(report, right, cuts, room, filling):
    """A case that hands in other cuts than the report's: 24, however much room there is."""
    assert cuts != right and ades.length(report)[2] == right, (report, cuts)
    assert ades.write(report, cuts, room) == refused(24, 0, 0), (report, cuts)
    return to_write_by(report, cuts, room, filling)


def not_measured(report, refusal, room, filling):
    """A case that asks the length of a report that is refused."""
    assert ades.length(report) == refused(*refusal), report
    return to_measure(report, room, filling)


def not_written(report, refusal, cuts, room, filling):
    """A case that hands in cuts for a report that is refused."""
    assert ades.write(report, cuts, room) == refused(*refusal), (report, cuts)
    return to_write_by(report, cuts, room, filling)


# ---- lists of cuts near the right ones

def one_cut_other(cuts):
    """Each cut one more, one less, equal in its low byte, 0, the largest number."""
    for at, cut in enumerate(cuts):
        for other in (cut + 1, cut - 1, cut + 256, 0, LARGEST_NUMBER):
            yield cuts[:at] + [other] + cuts[at + 1:]


def neighbours_other(cuts):
    """A row moved from a block to the next, or to the one before; both swapped; both joined."""
    for at, (left, right) in enumerate(zip(cuts, cuts[1:])):
        for others in ([left - 1, right + 1], [left + 1, right - 1], [right, left], [left + right]):
            yield cuts[:at] + others + cuts[at + 2:]


def one_cut_more_or_less(cuts):
    """A 0 before each cut and after the last, a row more before and after them, the last cut again; each left out."""
    for at in range(len(cuts) + 1):
        yield cuts[:at] + [0] + cuts[at:]
    yield from ([1] + cuts, cuts + [1], cuts + cuts[-1:])
    for at in range(len(cuts)):
        yield cuts[:at] + cuts[at + 1:]


def all_cuts_other(cuts):
    """All rows in one block, each in its own, the first or the last alone; no cuts; these from last to first, and
    twice; numbers whose sum passes 16 bits and comes to as many rows."""
    count = sum(cuts)
    yield from ([count], [1] * count, [1, count - 1], [count - 1, 1], [], cuts[::-1], cuts + cuts)
    yield from ([LARGEST_NUMBER, count + 1], [32_768, 32_768] + cuts, cuts[:-1] + [LARGEST_NUMBER, cuts[-1] + 1])


def near(cuts):
    """All of these lists, each once, and never the cuts themselves."""
    found = []
    for other in itertools.chain(*(change(cuts) for change in (
            one_cut_other, neighbours_other, one_cut_more_or_less, all_cuts_other))):
        if other != cuts and other not in found:
            found.append(other)
    return found


def with_a_rest(cuts, length, filling):
    """The cuts and what a list of so many numbers has past them."""
    return cuts + [filling] * (length - len(cuts))


def shortest_cuttings(rows):
    """Every cutting that is as short as any, from the last row back; no block mixes kinds. The right one is the one
    whose first block has most rows, then the second, and so on."""
    least, cuttings = [0], [[[]]]
    for first in reversed(range(len(rows))):
        lengths = [(ades.block_bytes(rows[first:first + count]) + rest, count)
                   for count, rest in enumerate(least, start=1) if ades.is_of_one_kind(rows[first:first + count])]
        shortest = min(lengths)[0]
        cuttings.insert(0, [[count] + rest for length, count in lengths if length == shortest
                            for rest in cuttings[count - 1]])
        least.insert(0, shortest)
    assert max(cuttings[0]) == ades.shortest_cuts(rows)
    return cuttings[0]


# ---- asking the length

def list_rooms(cuts):
    """Exactly enough, one number short, one more, none, as many as there can be rows, the most that are lent."""
    return len(cuts), len(cuts) - 1, len(cuts) + 1, 0, ROW_LIMIT, LONGEST_LIST


def fillings(chance, cuts):
    """Numbers that a list is filled with: the ends, two of the cuts, and others by chance."""
    return [0, LARGEST_NUMBER, cuts[0], cuts[-1], chance.randrange(256), chance.randrange(LARGEST_NUMBER)]


# One block and several, of each kind and of both.
MEASURED_NIGHTS = [("o", [1]), ("d", [1]), ("6", [1]), ("or", [1, 1]), ("ooo", [3]), ("rro", [2, 1]),
                   ("p6rdo", [2, 2, 1]), ("oroorrr", [1, 1, 2, 3]), ("orororor", [1] * 8), ("6rd6od", [1, 2, 2, 1])]


def lists(chance):
    """Lists of every length with every filling; the length and the number of blocks are given whatever the list."""
    for spelt, cuts in MEASURED_NIGHTS:
        filled_with = fillings(chance, cuts)
        chance.shuffle(filled_with)
        for room, filling in zip(list_rooms(cuts), filled_with):
            yield measured(small_night(spelt), cuts, room, filling)
    for room, filling in ((0, 0), (1, 0), (1, LARGEST_NUMBER), (2, 1), (ROW_LIMIT, 7), (LONGEST_LIST, 515)):
        yield measured(b"", [], room, filling)
    for report, length in ((SPECIMEN, 104), (DELAY_SPECIMEN, 112), (ROVING_SPECIMEN, 186)):
        for room, filling in ((1, 1), (0, 0), (1, 0x0100), (3, chance.randrange(LARGEST_NUMBER))):
            assert ades.length(report)[1] == length
            yield measured(report, [1], room, filling)


def nights(chance):
    """The nights of up to 25 rows whose cuts were worked out by hand: the list exactly long enough. Up to ten rows
    also written by the cuts, with room and without; up to five rows also with a list one number short."""
    for spelt, cuts in NIGHTS + COVARIANCE_NIGHTS:
        report = small_night(spelt)
        length = len(packed_by(report, cuts))
        if len(spelt) <= 25:
            yield measured(report, cuts, len(cuts), chance.randrange(LARGEST_NUMBER))
        if len(spelt) <= 10:
            yield written(report, cuts, chance.choice((length, length, length + 1, length - 1)), chance.randrange(256))
        if len(spelt) <= 5:
            yield measured(report, cuts, len(cuts) - 1, chance.randrange(LARGEST_NUMBER))


def sums_of_document(chance):
    """The sums of document 01: rows like the specimen, then one with remarks, and the same rows the other way round;
    handed in are the cuts that are as short, those that are a byte longer, those of the other way round."""
    for count, right, other in ((53, [54], [53, 1]), (54, [54, 1], [55])):
        rows = run_rows(count)
        report, reverse = block(rows), block(rows[::-1])
        yield measured(report, right, len(right), chance.randrange(256))
        yield wrong(report, right, other, 5_000, chance.randrange(256))
        yield wrong(reverse, right[::-1], right if count == 54 else other[::-1], 5_000, chance.randrange(256))


# ---- writing by the right cuts and by every other list

# One block, two, three and four, of each kind and of both; rows of one kind in one block and in two.
WRITTEN_NIGHTS = [("o", [1]), ("ddd", [3]), ("or", [1, 1]), ("rr6", [2, 1]), ("ooooo6", [5, 1]), ("rp6", [1, 2]),
                  ("drooor", [2, 3, 1]), ("oroorrr", [1, 1, 2, 3])]


def right_cuts(chance):
    """The right cuts: the output exactly long enough, one byte short, longer, empty, of half the bytes, very long."""
    for spelt, cuts in WRITTEN_NIGHTS + [("orororor", [1] * 8), ("6", [1])]:
        report = small_night(spelt)
        length = len(packed_by(report, cuts))
        for room in (length, length - 1, length + chance.randint(1, 90), 0):
            yield written(report, cuts, room, chance.randrange(256))
    for report, cuts in ((SPECIMEN, [1]), (SPECIMEN + DELAY_SPECIMEN + ROVING_SPECIMEN, [1, 1, 1])):
        for room in (len(report), len(report) - 1, len(report) // 2, LARGEST_ROOM):
            yield written(report, cuts, room, chance.randrange(256))


def wrong_cuts(chance):
    """Every list near the right one, the output long enough; every third also with one that is too short."""
    for spelt, right in WRITTEN_NIGHTS:
        report = small_night(spelt)
        length = len(packed_by(report, right))
        for number, cuts in enumerate(near(right)):
            enough, short = (length, length + chance.randint(1, 90), 2_000), (0, length - 1, length // 2)
            yield wrong(report, right, cuts, chance.choice(enough), chance.randrange(256))
            if number % 3 == 0:
                yield wrong(report, right, cuts, chance.choice(short), chance.randrange(256))


def longer_lists(chance):
    """The right cuts and what a longer list holds past them; lists of 1,100 numbers."""
    for spelt, right in WRITTEN_NIGHTS[:4]:
        report = small_night(spelt)
        length = len(packed_by(report, right))
        for cuts in (with_a_rest(right, ROW_LIMIT, 0), with_a_rest(right, ROW_LIMIT, LARGEST_NUMBER), right + [0, 0]):
            yield wrong(report, right, cuts, chance.choice((length, 2_000)), chance.randrange(256))
        yield wrong(report, right, with_a_rest(right, ROW_LIMIT, 0), chance.choice((0, length - 1)), 0)
    for filling, room in ((0, 2_000), (1, 0)):
        yield wrong(small_night("or"), [1, 1], with_a_rest([1, 1], LONGEST_LIST, filling), room, chance.randrange(256))


# What is handed in for the empty report.
FOR_NO_ROWS = ([0], [1], [0, 0], [1, 1], [256], [LARGEST_NUMBER], [LARGEST_NUMBER, 1], [2, 3, 4], [0] * 16,
               [0] * ROW_LIMIT, [1] * ROW_LIMIT, [0] * LONGEST_LIST)


def empty_report(chance):
    """The empty report has no cuts: none is right and writes nothing, any cut is 24."""
    for room in (0, 1, 104):
        yield written(b"", [], room, chance.randrange(256))
    for cuts in FOR_NO_ROWS:
        yield wrong(b"", [], cuts, 0, chance.randrange(256))
        yield wrong(b"", [], cuts, chance.randint(1, 200), chance.randrange(256))


# Reports of three rows and of four; each is handed the cuts of each other.
OTHERS = ([("ooo", [3]), ("oor", [2, 1]), ("roo", [1, 2]), ("oro", [1, 1, 1])],
          [("rdoo", [2, 2]), ("6666", [4]), ("orrr", [1, 3]), ("rood", [1, 2, 1])])


def cuts_of_others(chance):
    """The cuts of another report with as many rows; every fourth time there is too little room."""
    for group in OTHERS:
        for number, ((spelt, right), (_, cuts)) in enumerate(itertools.permutations(group, 2)):
            room = 1_000 if number % 4 else chance.choice((0, 50))
            yield wrong(small_night(spelt), right, cuts, room, chance.randrange(256))


# ---- cuttings as short

# Nights, their cuts, and another cutting as short, worked out by hand. In one block, 12 r and 11 d have 46 bytes more
# in their rows and save as many; p and a row with four covariances, or two, have 76 more and save as many.
TIED_NIGHTS = [("r" * 12 + "d" * 11, [23], [12, 11]), ("p" * 19 + "4", [20], [19, 1]), ("p" * 38 + "2", [39], [38, 1])]

# Where several cuttings are shortest: shapes by chance, the most rows, how many reports.
TIED = [(one_block_as_long_as_two, 8, 6), (between_two_wide_ones, 9, 3), (covariances_as_long_as_two, 22, 1),
        (between_covariances, 28, 1), (radar_block_as_long_as_two, 16, 3)]


def tied_reports(chance):
    """Reports of short rows that have two to four shortest cuttings."""
    for shapes_by_chance, most_rows, wanted in TIED:
        found = 0
        while found < wanted:
            rows = short_rows(shapes_by_chance(chance))
            if len(rows) <= most_rows and 2 <= len(shortest_cuttings(rows)) <= 4:
                found += 1
                yield rows


def ties(chance):
    """Of several shortest cuttings one is right: it is given, and every other is 24."""
    for spelt, right, other in TIED_NIGHTS:
        report = small_night(spelt)
        assert len(packed_by(report, right)) == len(packed_by(report, other))
        yield wrong(report, right, other, len(packed_by(report, right)), chance.randrange(256))
    for rows in tied_reports(chance):
        report, cuttings = laid_out(rows), shortest_cuttings(rows)
        right = max(cuttings)
        length = len(packed_by(report, right))
        yield measured(report, right, chance.choice((len(right), LONGEST_LIST)), chance.choice(fillings(chance, right)))
        for cuts in cuttings:
            if cuts != right:
                assert len(packed_by(report, cuts)) == length
                yield wrong(report, right, cuts, chance.choice((length, length, 5_000, 0)), chance.randrange(256))


# ---- reports that are refused

ANY_CUTS = ([], [1], [2], [1, 1], [0], [1, 1, 0], [256, LARGEST_NUMBER], [1] * 9)

# Reports and their refusals, beside those of `FAULTY_BLOCKS`.
REFUSED = [(SPECIMEN[:-1], (2, 3, 0)), (b"\n", (4, 1, 0)), (b"#", (2, 1, 0)), (SPECIMEN + b"# version", (2, 4, 0))]


def refused_reports(chance):
    """The report's own refusal comes before 24 and 15, whatever the list, the cuts and the output. (A report that is
    refused with 1 is long: `refused` in packing has it.)"""
    faulty = [(SPECIMEN + text, (number, line + 3, place)) for number, place, line, text in FAULTY_BLOCKS]
    for report, refusal in faulty + REFUSED:
        yield not_measured(report, refusal, 0, chance.randrange(LARGEST_NUMBER))
        yield not_measured(report, refusal, LONGEST_LIST, chance.randrange(LARGEST_NUMBER))
        yield not_written(report, refusal, [], 0, chance.randrange(256))
        yield not_written(report, refusal, chance.choice(([1], [2], [1, 1])), 1_000, chance.randrange(256))
        yield not_written(report, refusal, chance.choice(ANY_CUTS), chance.choice((0, 300)), chance.randrange(256))
    yield not_written(FULL + SPECIMEN, (14, 261, 0), [ROW_LIMIT + 1], LARGEST_ROOM, 7)


def damaged_reports(chance):
    """Reports with damage by chance: mostly refused, else their cuts are right or 24."""
    for _ in range(24):
        report = damage.random_damaged(chance, 2)
        cuts, room = chance.choice(ANY_CUTS), chance.choice((0, 1_500))
        answer = ades.write(report, cuts, room)
        if not ades.is_refused(ades.length(report)):
            assert answer[0] == "packed" or answer[1] in (15, 24)
        yield to_measure(report, chance.choice((0, 1, ROW_LIMIT)), chance.randrange(LARGEST_NUMBER))
        yield to_write_by(report, cuts, room, chance.randrange(256))


# ---- many rows, and lists by chance

def many_rows(chance):
    """256 rows: in one block, whose cut has a low byte of 0; in stretches of both kinds; each in a block of its own."""
    yield measured(FULL, [ROW_LIMIT], 1, 0)
    for report, cuts in ((FULL, [0]), (FULL_OF_RADAR, [1] * ROW_LIMIT), (FULL_OF_COVARIANCES, [2 * ROW_LIMIT])):
        yield wrong(report, [ROW_LIMIT], cuts, LARGEST_ROOM, chance.randrange(256))
    runs, right = small_night("o" * 100 + "r" * 60 + "p" * 2 + "6" * 50 + "d" * 44), [100, 60, 52, 44]
    yield wrong(runs, right, [100, 60, 51, 45], LARGEST_ROOM, chance.randrange(256))
    in_turn, right = small_night("or" * (ROW_LIMIT // 2)), [1] * ROW_LIMIT
    yield measured(in_turn, right, ROW_LIMIT, LARGEST_NUMBER)
    yield wrong(in_turn, right, right[:-1] + [2], LARGEST_ROOM, chance.randrange(256))


def changed(chance, cuts):
    """The cuts with one number changed, put in, left out or moved to the front, by chance."""
    at, number = chance.randrange(len(cuts)), chance.choice((0, 1, 2, 3, 255, 256, 257, LARGEST_NUMBER))
    before, after = cuts[:at], cuts[at + 1:]
    return chance.choice((before + [number] + after, before + [number] + cuts[at:], before + after,
                          [cuts[at]] + before + after))


def by_chance(chance):
    """Short rows of shapes by chance, laid out by chance: any list lent; the right cuts, others near them, and other
    ways to part the rows; any room."""
    for _ in range(36):
        shapes = random_shapes(chance, 3)
        rows = short_rows(map(set, random_rows(chance, chance.randint(1, 5), shapes)))
        report, right = random_layout(chance, rows), max(shortest_cuttings(rows))
        length = len(packed_by(report, right))
        filling = chance.choice(fillings(chance, right))
        yield measured(report, right, chance.choice(list_rooms(right)), filling)
        cuts = chance.choice((right, random_cuts(chance, len(rows)), changed(chance, right), changed(chance, right)))
        room = chance.choice((length, length, length - 1, length + 9, 3_000))
        if cuts == right:
            yield written(report, right, room, chance.randrange(256))
        else:
            yield wrong(report, right, cuts, room, chance.randrange(256))


def cases(chance):
    """All cases of this file."""
    yield from lists(chance)
    yield from nights(chance)
    yield from sums_of_document(chance)
    yield from right_cuts(chance)
    yield from wrong_cuts(chance)
    yield from longer_lists(chance)
    yield from empty_report(chance)
    yield from cuts_of_others(chance)
    yield from ties(chance)
    yield from refused_reports(chance)
    yield from damaged_reports(chance)
    yield from many_rows(chance)
    yield from by_chance(chance)
