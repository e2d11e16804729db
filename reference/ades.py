"""The reference: what document 01 says of a report, of its elements and of packing, document 02's order 3 of radar
observations, its order 5 of covariances and its order 6 of asking the length first, written for reading.

An answer is a tuple whose first member is a word. `read` gives
    ("accepted", observations, starts)   or   ("refused", number, line, place).
An observation is a dictionary from element number to value; `starts` holds, for each observation,
a dictionary from element number to the offset in the report where that value starts.
"""

import values

TEXT_LIMIT = 65_536
ROW_LIMIT = 256
VERSION_LINE = b"# version=2022"

# The elements by number: name, form and what the form needs to know.
ELEMENTS = {
    1: (b"permID", values.permanent),
    2: (b"provID", values.provisional),
    3: (b"artSat", values.artificial_satellite),
    4: (b"trkSub", values.alphanumerics, 1, 8),
    5: (b"obsID", values.alphanumerics, 1, 25),
    6: (b"obsSubID", values.free, 25),
    7: (b"mode", values.word, b"PHO ENC CCD MER MIC NOR VID PMT"),
    8: (b"stn", values.alphanumerics, 3, 4),
    9: (b"sys", values.word, b"WGS84 ITRF IAU ICRF_AU ICRF_KM"),
    10: (b"ctr", values.centre),
    11: (b"pos1", values.signed_decimal, 13),
    12: (b"pos2", values.signed_decimal, 13),
    13: (b"pos3", values.signed_decimal, 13),
    14: (b"prog", values.alphanumerics, 1, 2),
    15: (b"obsTime", values.time_form),
    16: (b"rmsTime", values.positive_decimal, 8),
    17: (b"ra", values.right_ascension),
    18: (b"dec", values.declination),
    19: (b"rmsRA", values.positive_decimal, 7),
    20: (b"rmsDec", values.positive_decimal, 7),
    21: (b"rmsCorr", values.correlation),
    22: (b"astCat", values.alphanumerics, 1, 8),
    23: (b"mag", values.signed_decimal, 6),
    24: (b"rmsMag", values.positive_decimal, 6),
    25: (b"band", values.alphanumerics, 1, 3),
    26: (b"photCat", values.alphanumerics, 1, 8),
    27: (b"photAp", values.positive_decimal, 6),
    28: (b"notes", values.alphanumerics, 1, 6),
    29: (b"remarks", values.free, 300),
    # Order 3: station codes are as stn.
    30: (b"trx", values.alphanumerics, 3, 4),
    31: (b"rcv", values.alphanumerics, 3, 4),
    32: (b"delay", values.positive_decimal, 14),
    33: (b"rmsDelay", values.positive_decimal, 6),
    34: (b"doppler", values.signed_decimal, 14),
    35: (b"rmsDoppler", values.positive_decimal, 6),
    36: (b"frq", values.positive_decimal, 14),
    37: (b"com", values.flag),
    # Order 5: width 20 plus sign.
    38: (b"posCov11", values.covariance, 20),
    39: (b"posCov12", values.covariance, 20),
    40: (b"posCov13", values.covariance, 20),
    41: (b"posCov22", values.covariance, 20),
    42: (b"posCov23", values.covariance, 20),
    43: (b"posCov33", values.covariance, 20),
}
NUMBERS = {ELEMENTS[number][0]: number for number in ELEMENTS}

# The order of columns in what is written: by number, but that the covariances follow pos3 (order 5).
COLUMN_ORDER = (
    1, 2, 3, 4, 5, 6, 7, 8, 9, 10, 11, 12, 13,
    38, 39, 40, 41, 42, 43,
    14, 15, 16, 17, 18, 19, 20, 21, 22, 23, 24, 25, 26, 27, 28, 29, 30, 31, 32, 33, 34, 35, 36, 37)

IDENTIFICATION = (1, 2, 3, 4)
NEEDED = (7, 8, 15, 17, 18, 22)
LOCATION = (9, 10, 11, 12, 13)
COVARIANCES = (38, 39, 40, 41, 42, 43)
PHOTOMETRY = (23, 24, 25, 26, 27)

# Order 3: an observation is radar where any of these is present, and then all of those are foreign to it; so are the
# covariances (order 5).
RADAR = (30, 31, 32, 33, 34, 35, 36, 37)
FOREIGN_TO_RADAR = (3, 4, 7, 8, 9, 10, 11, 12, 13, 16, 17, 18, 19, 20, 21, 22, 23, 24, 25, 26, 27) + COVARIANCES
DELAY, DOPPLER = (32, 33), (34, 35)

# What a line may be, by what came before it.
VERSION_DUE = "the text begins: a version line"
COLUMNS_DUE = "after a version line: a column line"
FIRST_ROW_DUE = "after a column line: a data line"
ROW_OR_VERSION_DUE = "after a data line: a data line or the next block's version line"


def refused(number, line, place):
    """Each refusal is a kind together with its line and place."""
    return ("refused", number, line, place)


def is_refused(answer):
    """The answer is a refusal."""
    return answer[0] == "refused"


# ---- a report

def read(report):
    """The list of observations that a report holds, or its first refusal."""
    # 1: text over 65,536 bytes (line 0).
    if len(report) > TEXT_LIMIT:
        return refused(1, 0, 0)
    observations, starts = [], []
    due, columns, rows = VERSION_DUE, [], []
    start = line_number = 0
    while start < len(report):
        line_number += 1
        end = report.find(b"\n", start)
        # 2: the line has no LF.
        if end < 0:
            return refused(2, line_number, 0)
        line = report[start:end]
        # 3: a byte outside 0x20 to 0x7E.
        if any(byte < 0x20 or byte > 0x7E for byte in line):
            return refused(3, line_number, 0)
        # A line whose first byte is `#` is always taken as a version line.
        if due == VERSION_DUE or line[:1] == b"#":
            # 4: version line expected, or a `#` line that isn't one.
            if line != VERSION_LINE:
                return refused(4, line_number, 0)
            # A right version line where the block before lacks its column or data line is 5.
            if due in (COLUMNS_DUE, FIRST_ROW_DUE):
                return refused(5, line_number, 0)
            due = COLUMNS_DUE
        elif due == COLUMNS_DUE:
            fault, columns = read_columns(line)
            if fault:
                number, place = fault
                return refused(number, line_number, place)
            due, rows = FIRST_ROW_DUE, []
        else:
            fault, observation, where = read_row(line, columns, len(observations) + 1)
            if fault:
                number, place = fault
                return refused(number, line_number, place)
            # 21: kinds mixed in one block, at the first row whose kind differs from the block's first row; after 13.
            rows.append(observation)
            if is_radar(observation) != is_radar(rows[0]):
                return refused(21, line_number, 0)
            observations.append(observation)
            starts.append({element: start + offset for element, offset in where.items()})
            due = ROW_OR_VERSION_DUE
        start = end + 1
    # ... and so is the end of the text there, at the line after the last.
    if due in (COLUMNS_DUE, FIRST_ROW_DUE):
        return refused(5, line_number + 1, 0)
    return ("accepted", observations, starts)


def read_columns(line):
    """A column line: element names parted by `|`, blanks around a name dropped, any order, none twice.
    Field by field: 6 unknown column name, 7 column named twice."""
    columns = []
    for place, field in enumerate(line.split(b"|"), start=1):
        element = NUMBERS.get(field.strip(b" "))
        if element is None:
            return (6, place), []
        if element in columns:
            return (7, place), []
        columns.append(element)
    return None, columns


def read_row(line, columns, row_number):
    """A data line. On it: 14, 18, then field by field 8, 9, 10, then 22, 11, 12, 13."""
    # 14: the 257th data line.
    if row_number > ROW_LIMIT:
        return (14, 0), None, None
    fields = line.split(b"|")
    # 18: field count differs from the columns.
    if len(fields) != len(columns):
        return (18, 0), None, None
    observation, where = {}, {}
    offset = 0
    for place, (field, element) in enumerate(zip(fields, columns), start=1):
        # A field with its leading and trailing blanks dropped is the value;
        # an empty value means the element is absent.
        value = field.strip(b" ")
        if value != b"":
            fault = fault_of(element, value)
            if fault:
                return (fault, place), None, None
            observation[element] = value
            where[element] = offset + len(field) - len(field.lstrip(b" "))
        offset += len(field) + 1
    return foreign_in(observation) or lack_of(observation), observation, where


def fault_of(element, value):
    """The fault of one value: 0, or 8 too wide, 9 wrong form, 10 out of range or vocabulary."""
    _, form, *details = ELEMENTS[element]
    return form(value, *details)


def is_radar(observation):
    """Kind goes by values, not by columns: an observation is radar where any of 30 to 37 is present."""
    return any(element in observation for element in RADAR)


def foreign_in(observation):
    """22: an element foreign to its kind, place the lowest such number; None where there is none."""
    if not is_radar(observation):
        return None
    # With doppler present, 32 and 33 are foreign; without it 34 and 35 are.
    foreign = FOREIGN_TO_RADAR + (DELAY if 34 in observation else DOPPLER)
    for element in sorted(foreign):
        if element in observation:
            return (22, element)
    return None


def lack_of(observation):
    """What one observation must hold: None, or the number and place of what it lacks."""
    return radar_lack_of(observation) if is_radar(observation) else optical_lack_of(observation)


def radar_lack_of(observation):
    """A radar observation has permID or provID (place 1 where both are absent), obsTime, trx, rcv, delay or doppler
    with its own rms, frq and com; by element number. Without doppler, delay and rmsDelay are needed."""
    if 1 not in observation and 2 not in observation:
        return (11, 1)
    measured = DOPPLER if 34 in observation else DELAY
    for element in (15, 30, 31, *measured, 36, 37):
        if element not in observation:
            return (11, element)
    return None


def optical_lack_of(observation):
    """What an optical observation must hold, as document 01 says."""
    # At least one of elements 1 to 4 (place 1 where all are absent), and all of mode, stn, ...
    if not any(element in observation for element in IDENTIFICATION):
        return (11, 1)
    for element in NEEDED:
        if element not in observation:
            return (11, element)
    # 12: place is the lowest missing element. Location: elements 9 to 13 all or none; covariances are allowed only
    # with all of them (order 5).
    if any(element in observation for element in LOCATION + COVARIANCES):
        for element in LOCATION:
            if element not in observation:
                return (12, element)
    # Photometry: if any of 23 to 27 is present, mag and band are.
    if any(element in observation for element in PHOTOMETRY):
        for element in (23, 25):
            if element not in observation:
                return (12, element)
    # rmsCorr needs rmsRA and rmsDec.
    if 21 in observation:
        for element in (19, 20):
            if element not in observation:
                return (12, element)
    # With WGS84, ctr is 399.
    if observation.get(9) == b"WGS84" and observation[10] != b"399":
        return (13, 10)
    return None


# ---- what callers ask

def check(report):
    """("accepted", number of observations) or the refusal."""
    answer = read(report)
    return answer if is_refused(answer) else ("accepted", len(answer[1]))


def asked(report, observation, element):
    """The reader's answer, or the refusal of the request: 16 no observation of that number, then
    17 element number not 1 to 43."""
    answer = read(report)
    if is_refused(answer):
        return answer
    if not 1 <= observation <= len(answer[1]):
        return refused(16, 0, 0)
    if element not in ELEMENTS:
        return refused(17, 0, 0)
    return answer


def showing(report, observation, element):
    """("shown", start, length), ("absent",) or the refusal."""
    answer = asked(report, observation, element)
    if is_refused(answer):
        return answer
    _, observations, starts = answer
    # An absent element, asked for, is answered "absent".
    if element not in observations[observation - 1]:
        return ("absent",)
    return ("shown", starts[observation - 1][element], len(observations[observation - 1][element]))


# Elements with a value are 10 to 13, 15 to 21, 23, 24, 27, of order 3 those from 32 to 36, and of order 5 all.
DECIMALS = (11, 12, 13, 16, 19, 20, 21, 23, 24, 27, 32, 33, 34, 35, 36)


def value(report, observation, element):
    """("whole", number), ("decimal", number, places), ("time", day, microseconds), ("angle", number),
    ("scaled", number, power), ("absent",), ("no value",) or the refusal."""
    answer = asked(report, observation, element)
    if is_refused(answer):
        return answer
    # Any other one, present or not, asked for its value, is answered "no value".
    if element not in (10, 15, 17, 18) + DECIMALS + COVARIANCES:
        return ("no value",)
    present = answer[1][observation - 1].get(element)
    if present is None:
        return ("absent",)
    if element == 10:
        return ("whole", values.integer(present))
    if element == 15:
        return ("time", *values.time(present))
    if element in (17, 18):
        return ("angle", values.angle(present))
    if element in COVARIANCES:
        return ("scaled", *values.scaled(present))
    return ("decimal", *values.decimal(present))


# ---- the packed report

def columns_of(rows):
    """Columns of a block are exactly the elements present in some row of it, in column order."""
    present = set().union(*rows)
    return [element for element in COLUMN_ORDER if element in present]


def written_block(rows):
    """One block: the version line, the column line, the rows, no padding."""
    columns = columns_of(rows)
    lines = [VERSION_LINE, b"|".join(ELEMENTS[element][0] for element in columns)]
    lines += [b"|".join(row.get(element, b"") for element in columns) for row in rows]
    return b"".join(line + b"\n" for line in lines)


def parted(observations, cuts):
    """The rows of each block, the cuts being the blocks' numbers of rows in order."""
    blocks, first = [], 0
    for count in cuts:
        blocks.append(observations[first:first + count])
        first += count
    return blocks


def written(observations, cuts):
    """The observations in blocks by these cuts."""
    return b"".join(map(written_block, parted(observations, cuts)))


def block_bytes(rows):
    """For each block, bytes are 15, plus name lengths, plus one a column, plus values,
    plus rows times columns."""
    columns = columns_of(rows)
    names = sum(len(ELEMENTS[element][0]) for element in columns)
    contents = sum(len(present) for row in rows for present in row.values())
    return 15 + names + len(columns) + contents + len(rows) * len(columns)


def is_of_one_kind(rows):
    """A block holds one kind (order 3)."""
    return len({is_radar(row) for row in rows}) <= 1


def shortest_cuts(observations):
    """The cuts of the shortest text whose blocks hold one kind; among equals the one whose first block has most
    rows, then the second, and so on. From the last row back: the best from each row on rests on the best after it."""
    count = len(observations)
    least = [0] * (count + 1)
    first_block = [0] * (count + 1)
    for first in reversed(range(count)):
        columns, names, contents = set(), 0, 0
        for end in range(first + 1, count + 1):
            row = observations[end - 1]
            if is_radar(row) != is_radar(observations[first]):
                break
            names += sum(len(ELEMENTS[element][0]) for element in row if element not in columns)
            columns.update(row)
            contents += sum(map(len, row.values()))
            block = 15 + names + len(columns) + contents + (end - first) * len(columns)
            if first_block[first] == 0 or block + least[end] <= least[first]:
                least[first], first_block[first] = block + least[end], end - first
    cuts, first = [], 0
    while first < count:
        cuts.append(first_block[first])
        first += first_block[first]
    return cuts


def pack_by_every_cutting(observations):
    """The same text found by writing out every cutting whose blocks hold one kind; for few rows only."""
    if not observations:
        return b""
    texts = [(written(observations, cuts), cuts) for cuts in every_cutting(len(observations))
             if all(map(is_of_one_kind, parted(observations, cuts)))]
    least = min(len(text) for text, _ in texts)
    return max((cuts, text) for text, cuts in texts if len(text) == least)[1]


def every_cutting(count):
    """All the ways to part so many rows into blocks."""
    if count == 0:
        return [[]]
    return [[rows] + rest for rows in range(1, count + 1) for rest in every_cutting(count - rows)]


# ---- the length first, then writing by the cuts (order 6)

def length(report):
    """("measured", length, cuts), the shortest length and the blocks' numbers of rows in order, or the refusal."""
    answer = read(report)
    if is_refused(answer):
        return answer
    observations = answer[1]
    cuts = shortest_cuts(observations)
    return ("measured", sum(map(block_bytes, parted(observations, cuts))), cuts)


def write(report, cuts, output_length):
    """("packed", bytes) or the refusal: after those of the report 24 where the cuts handed in are not the ones that
    `length` gives for it, then 15 where the lent output is shorter than the packed report."""
    answer = read(report)
    if is_refused(answer):
        return answer
    observations = answer[1]
    if cuts != shortest_cuts(observations):
        return refused(24, 0, 0)
    packed = written(observations, cuts)
    return refused(15, 0, 0) if len(packed) > output_length else ("packed", packed)


def pair(report, output_length):
    """The answers of both, `write` being handed the cuts that `length` gave; none where the report is refused."""
    measured = length(report)
    return measured, write(report, [] if is_refused(measured) else measured[2], output_length)
