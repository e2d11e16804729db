"""Cases on which of two refusals comes first, on what one observation must hold, and on the kinds of observations,
covariances among all of them.

The refusal of each report is written by hand or follows from the order in which the faults are listed;
the reference has to agree before a case is made.
"""

from itertools import combinations

import ades
from ades import ELEMENTS, NUMBERS, refused
from reports import (COLUMNS, COVARIED, DELAY_ROW, DELAY_SPECIMEN, PLACED, ROW, SPECIMEN, VERSION, block, delay_row,
                     doppler_row, line_of, names_of, roving_row, row, row_with, small_placed_row, small_radar_row,
                     small_row, to_check, whole_delay_row, whole_doppler_row, whole_row)

# ---- faults on one data line, in the order in which they decide

OF_THE_LINE = [
    # number, place, what is done to the line, what is done to the observation
    (2, 0, "no LF", {}),
    (3, 0, "bad byte", {}),
    (4, 0, "# first", {}),
    (18, 0, "one field more", {}),
]
# The last fault of a line: the block's first row is of the other kind.
MIXED = (21, 0, "other kind first", {})

WHAT_MAKES_THEM = OF_THE_LINE + [
    (9, 1, "", {"permID": b"0"}),
    (8, 4, "", {"trkSub": b"abcdefghi"}),
    (9, 5, "", {"obsID": b"a-b"}),
    (10, 7, "", {"mode": b"ccd"}),
    (8, 14, "", {"prog": b"abc"}),
    (10, 17, "", {"ra": b"360"}),
    (9, 23, "", {"mag": b"."}),
    (10, 27, "", {"photAp": b"0"}),
    (8, 28, "", {"notes": b"abcdefg"}),
    (9, 41, "", {"posCov22": b"1e"}),
    (11, 1, "", {"permID": None, "provID": None, "artSat": None, "trkSub": None}),
    (11, 7, "", {"mode": None}),
    (11, 8, "", {"stn": None}),
    (11, 15, "", {"obsTime": None}),
    (11, 17, "", {"ra": None}),
    (11, 18, "", {"dec": None}),
    (11, 22, "", {"astCat": None}),
    (12, 9, "", dict.fromkeys(PLACED)),
    (12, 13, "", {"pos3": None}),
    (12, 23, "", {"mag": None}),
    (12, 25, "", {"band": None}),
    (12, 20, "", {"rmsDec": None}),
    (13, 10, "", {"ctr": b"398"}),
    MIXED,
]

# The same for radar observations of a delay, and of a Doppler shift.
OF_A_DELAY = [
    (4, 0, "# first", {}),
    (18, 0, "one field more", {}),
    (8, 4, "", {"trkSub": b"abcdefghi"}),
    (9, 17, "", {"ra": b"+1"}),
    (8, 30, "", {"trx": b"25"}),
    (9, 32, "", {"delay": b"-12.5"}),
    (8, 35, "", {"rmsDoppler": b"1234567"}),
    (10, 37, "", {"com": b"2"}),
    (8, 43, "", {"posCov33": b"-" + b"." * 21}),
    (22, 3, "", {"artSat": b"1998-067A"}),
    (22, 4, "", {"trkSub": b"a1"}),
    (22, 10, "", {"ctr": b"398"}),
    (22, 27, "", {"photAp": b"1"}),
    (22, 35, "", {"rmsDoppler": b"1"}),
    (22, 38, "", {"posCov11": b"1e5"}),
    (11, 1, "", {"permID": None, "provID": None}),
    (11, 15, "", {"obsTime": None}),
    (11, 30, "", {"trx": None}),
    (11, 31, "", {"rcv": None}),
    (11, 32, "", {"delay": None}),
    (11, 33, "", {"rmsDelay": None}),
    (11, 36, "", {"frq": None}),
    (11, 37, "", {"com": None}),
    MIXED,
]
OF_A_DOPPLER_SHIFT = [
    (9, 34, "", {"doppler": b"--1"}),
    (10, 35, "", {"rmsDoppler": b"0"}),
    (10, 37, "", {"com": b"00"}),
    (8, 42, "", {"posCov23": b"1e" + b"0" * 19}),
    (22, 26, "", {"photCat": b"Gaia2"}),
    (22, 32, "", {"delay": b"1"}),
    (22, 33, "", {"rmsDelay": b"1"}),
    (22, 40, "", {"posCov13": b"-.5"}),
    (11, 1, "", {"permID": None, "provID": None}),
    (11, 31, "", {"rcv": None}),
    (11, 35, "", {"rmsDoppler": None}),
    (11, 36, "", {"frq": None}),
    (11, 37, "", {"com": None}),
    MIXED,
]


def line_with(faults, columns, whole=whole_row):
    """A data line of all that the kind may hold, with these faults on it."""
    changes = {name: value for _, _, _, changed in faults for name, value in changed.items()}
    doings = [doing for _, _, doing, _ in faults]
    observation = whole(**changes)
    line = line_of([observation.get(element, b"") for element in columns])
    if "one field more" in doings:
        line = line[:-1] + b"|\n"
    if "bad byte" in doings:
        line = line[:-1] + b"\x7f\n"
    if "# first" in doings:
        line = b"#" + line
    return line[:-1] if "no LF" in doings else line


def meet(faults):
    """The two can stand on one line: they change different elements."""
    return not set(faults[0][3]) & set(faults[1][3])


def one_data_line(possible, whole, other):
    """Every pair of the faults that are possible on one data line; the earlier in the list decides."""
    columns = list(ELEMENTS)
    head = VERSION + line_of(names_of(columns))
    for faults in combinations(possible, 2):
        if meet(faults):
            number, place, _, _ = faults[0]
            line = line_with(faults, columns, whole)
            if MIXED in faults:
                yield head + line_with([], columns, other) + line, (number, 4, place)
            else:
                yield head + line, (number, 3, place)
    columns.reverse()
    head = SPECIMEN + VERSION + line_of(names_of(columns))
    for faults in combinations([fault for fault in possible if fault[0] in (8, 9, 10)], 2):
        if meet(faults):
            number, element, _, _ = faults[1]
            yield head + line_with(faults, columns, whole), (number, 6, columns.index(element) + 1)


# Faults of one value that meet: which number it gets.
ONE_VALUE = [
    ("trkSub", b"abcdefgh-", 9), ("stn", b"-", 9), ("remarks", b"~" * 301, 8),
    ("pos1", b"aaaaaaaaaaaaaa", 8), ("ctr", b"-000000000", 8), ("ctr", b"000000000", 9), ("mag", b"+1.2345.6", 8),
    ("mag", b"+1.2.34", 9), ("rmsMag", b"-0.0000", 8), ("rmsMag", b"-0.000", 9), ("rmsMag", b"0.000", 10),
    ("rmsMag", b"0.00000", 8), ("rmsCorr", b"+2.000000000000", 8), ("rmsCorr", b"+2.-", 9), ("rmsCorr", b"+2.0", 10),
    ("mag", b"-12345..", 8), ("mag", b"-1234..", 9), ("rmsMag", b"-0000..", 8), ("rmsMag", b"00000..", 8),
    ("rmsMag", b"0000..", 9), ("rmsCorr", b"+2000000000000.", 8), ("rmsCorr", b"+200000000000..", 8),
    ("rmsCorr", b"+2..", 9), ("obsTime", b"0000-00-00T24:60:60.1234567Z", 9), ("ra", b"400.5", 9),
    ("ra", b"360.1234567890", 9), ("ra", b"360..", 9), ("ra", b"0360.", 9), ("dec", b"-91..", 9), ("dec", b"091.", 9),
    ("dec", b"91.1234567890", 9), ("permID", b"620000000", 9), ("provID", b"2016 AI62000", 9),
]


# The same for covariances.
ONE_COVARIANCE = [
    ("posCov11", b"--" + b"1" * 20, 8), ("posCov11", b"--" + b"1" * 19, 9), ("posCov12", b"1e" + b"5" * 19, 8),
    ("posCov12", b"1e" + b"5" * 18, 9), ("posCov13", b"1" * 19 + b"e.", 8), ("posCov13", b"1" * 18 + b"e.", 9),
    ("posCov22", b"+" + b"." * 21, 8), ("posCov22", b"+" + b"." * 20, 9), ("posCov23", b"-1..e" + b" " * 16 + b"1", 8),
    ("posCov23", b"-1..e" + b" " * 15 + b"1", 9), ("posCov33", b"12345678901234567e999", 8),
    ("posCov33", b"1234567890123456e9999", 8), ("posCov33", b"123456789012345e9999", 9),
]


# The same for radar's elements.
ONE_RADAR_VALUE = [
    ("trx", b"2-", 9), ("trx", b"25-12", 9), ("rcv", b"2", 8), ("rcv", b"25312-", 9), ("delay", b"-00000000000000", 8),
    ("delay", b"-0000000000000", 9), ("delay", b"00000000000000", 10), ("delay", b"0000000000000..", 8),
    ("delay", b"000000000000..", 9), ("rmsDelay", b"-0000..", 8), ("rmsDelay", b"0000..", 9),
    ("rmsDelay", b"-00000", 9), ("doppler", b"+-12345678901234", 8), ("doppler", b"+-1234567890123", 9),
    ("doppler", b"-12345678901234.", 8), ("doppler", b"-123456789012..", 9), ("rmsDoppler", b"+000000", 8),
    ("rmsDoppler", b"+00000", 9), ("frq", b"-8559.999999999", 8), ("frq", b"-8559.99999999", 9),
    ("frq", b"0.0000000000000", 8), ("com", b"2-", 10), ("com", b"-" * 30, 10), ("com", b"00", 10),
    ("com", b"." * 15, 10),
]


def one_value():
    """Values with several faults of their own."""
    for name, value, number in ONE_VALUE:
        observation = whole_row(**{name: value})
        yield block([observation], sorted(observation)), (number, 3, NUMBERS[name.encode()])
    for name, value, number in ONE_RADAR_VALUE:
        yield block([whole_delay_row(**{name: value})], list(ELEMENTS)), (number, 3, NUMBERS[name.encode()])
    for name, value, number in ONE_COVARIANCE:
        # The column after pos3.
        yield block([row_with(name, value)]), (number, 3, 9)


# ---- what one observation must hold: 11, 12 and 13

HOLDING = [
    ({"trkSub": None}, (11, 1)), ({"trkSub": None, "permID": b"1"}, None),
    ({"trkSub": None, "provID": b"2016 AZ"}, None),
    ({"trkSub": None, "artSat": b"1998-067A"}, None), ({"trkSub": None, "mode": None}, (11, 1)),
    ({"permID": b"1", "artSat": b"1998-067A"}, None), ({"mode": None, "astCat": None}, (11, 7)),
    ({"astCat": None}, (11, 22)), ({"dec": None, "ra": None}, (11, 17)), ({"stn": None, "dec": None}, (11, 8)),
    ({"sys": b"IAU"}, (12, 10)), ({"ctr": b"1"}, (12, 9)), ({"pos1": b"1"}, (12, 9)), ({"pos2": b"1"}, (12, 9)),
    ({"pos3": b"1"}, (12, 9)), ({"sys": b"WGS84", "ctr": b"398"}, (12, 11)), ({"sys": b"WGS84"}, (12, 10)),
    ({"sys": b"IAU", "ctr": b"1", "pos1": b"1"}, (12, 12)),
    ({"sys": b"IAU", "ctr": b"1", "pos1": b"1", "pos2": b"1"}, (12, 13)),
    ({"sys": b"IAU", "pos1": b"1", "pos2": b"1", "pos3": b"1"}, (12, 10)),
    ({"sys": b"IAU", "ctr": b"1", "pos1": b"1", "pos3": b"1"}, (12, 12)),
    ({"mag": b"1"}, (12, 25)), ({"band": b"G"}, (12, 23)), ({"rmsMag": b"1"}, (12, 23)), ({"photCat": b"G"}, (12, 23)),
    ({"photAp": b"1"}, (12, 23)), ({"mag": b"1", "rmsMag": b"1", "photCat": b"G", "photAp": b"1"}, (12, 25)),
    ({"mag": b"1", "band": b"G"}, None), ({"band": b"G", "photAp": b"1"}, (12, 23)),
    ({"rmsCorr": b"0"}, (12, 19)), ({"rmsCorr": b"0", "rmsRA": b"1"}, (12, 20)),
    ({"rmsCorr": b"0", "rmsDec": b"1"}, (12, 19)),
    ({"rmsRA": b"1"}, None), ({"rmsDec": b"1"}, None), ({"rmsCorr": b"0", "mag": b"1"}, (12, 25)),
    ({"pos3": b"1", "mag": b"1", "rmsCorr": b"0"}, (12, 9)),
    ({"rmsCorr": b"0", "rmsRA": b"1", "photAp": b"2"}, (12, 23)),
] + [({"sys": system, "ctr": ctr, "pos1": b"1", "pos2": b"1", "pos3": b"1"}, lack) for system, ctr, lack in (
    (b"WGS84", b"399", None), (b"WGS84", b"398", (13, 10)), (b"WGS84", b"-399", (13, 10)), (b"WGS84", b"0", (13, 10)),
    (b"WGS84", b"3990", (13, 10)), (b"WGS84", b"39", (13, 10)), (b"ITRF", b"398", None), (b"ICRF_KM", b"0", None))]


# What a radar observation must hold: 22 and 11.
HOLDING_A_DELAY = [
    ({}, None), ({"permID": None}, (11, 1)), ({"permID": None, "provID": b"2016 AZ"}, None),
    ({"provID": b"2016 AZ"}, None), ({"permID": None, "trkSub": b"a1"}, (22, 4)),
    ({"permID": None, "artSat": b"1998-067A"}, (22, 3)), ({"permID": None, "obsTime": None}, (11, 1)),
    ({"permID": None, "com": None}, (11, 1)), ({"obsTime": None}, (11, 15)), ({"trx": None}, (11, 30)),
    ({"rcv": None}, (11, 31)), ({"delay": None}, (11, 32)), ({"rmsDelay": None}, (11, 33)), ({"frq": None}, (11, 36)),
    ({"com": None}, (11, 37)), ({"obsTime": None, "trx": None}, (11, 15)), ({"trx": None, "rcv": None}, (11, 30)),
    ({"rcv": None, "delay": None}, (11, 31)), ({"delay": None, "rmsDelay": None}, (11, 32)),
    ({"rmsDelay": None, "frq": None}, (11, 33)), ({"delay": None, "frq": None}, (11, 32)),
    ({"frq": None, "com": None}, (11, 36)),
    # With doppler present, 32 and 33 are foreign.
    ({"doppler": b"1"}, (22, 32)), ({"doppler": b"1", "rmsDoppler": b"1"}, (22, 32)),
    ({"doppler": b"1", "rmsDelay": None}, (22, 32)), ({"doppler": b"1", "delay": None}, (22, 33)),
    ({"doppler": b"0", "delay": None}, (22, 33)), ({"doppler": b"1", "delay": None, "rmsDelay": None}, (11, 35)),
    ({"doppler": b"1", "rmsDoppler": b"1", "delay": None, "rmsDelay": None}, None),
    # Without it 34 and 35 are.
    ({"rmsDoppler": b"1"}, (22, 35)), ({"rmsDoppler": b"1", "rmsDelay": None}, (22, 35)),
    ({"rmsDoppler": b"1", "delay": None, "rmsDelay": None}, (22, 35)), ({"rmsDoppler": b"1", "permID": None}, (22, 35)),
    ({"rmsDoppler": b"1", "photAp": b"1"}, (22, 27)), ({"rmsDoppler": b"1", "com": None}, (22, 35)),
    # One radar element alone.
    ({"trx": None, "rcv": None, "delay": None, "rmsDelay": None, "frq": None}, (11, 30)),
    ({"rcv": None, "delay": None, "rmsDelay": None, "frq": None, "com": None}, (11, 31)),
    ({"trx": None, "delay": None, "rmsDelay": None, "frq": None, "com": None}, (11, 30)),
    ({"trx": None, "rcv": None, "rmsDelay": None, "frq": None, "com": None}, (11, 30)),
    ({"trx": None, "rcv": None, "delay": None, "frq": None, "com": None}, (11, 30)),
    ({"trx": None, "rcv": None, "delay": None, "rmsDelay": None, "com": None}, (11, 30)),
    ({"permID": None, "trx": None, "rcv": None, "delay": None, "rmsDelay": None, "frq": None}, (11, 1)),
    # What is allowed, and what optical rules would say otherwise.
    ({"obsID": b"x"}, None), ({"obsSubID": b"-"}, None), ({"prog": b"1"}, None), ({"notes": b"K"}, None),
    ({"remarks": b"#"}, None), ({"mag": b"1"}, (22, 23)), ({"band": b"G"}, (22, 25)), ({"rmsCorr": b"0"}, (22, 21)),
    ({"pos3": b"1"}, (22, 13)), ({"sys": b"WGS84", "ctr": b"398", "pos1": b"1", "pos2": b"1", "pos3": b"1"}, (22, 9)),
    ({"mag": b"1", "permID": None}, (22, 23)), ({"photAp": b"1", "com": None}, (22, 27)),
]
HOLDING_A_DOPPLER_SHIFT = [
    ({}, None), ({"doppler": b"0"}, None), ({"doppler": b"-0.0"}, None), ({"permID": None}, (11, 1)),
    ({"permID": None, "provID": b"C/1999 K7"}, None), ({"obsTime": None}, (11, 15)), ({"trx": None}, (11, 30)),
    ({"rcv": None}, (11, 31)), ({"rmsDoppler": None}, (11, 35)), ({"frq": None}, (11, 36)), ({"com": None}, (11, 37)),
    ({"rcv": None, "rmsDoppler": None}, (11, 31)), ({"rmsDoppler": None, "frq": None}, (11, 35)),
    ({"rmsDoppler": None, "com": None}, (11, 35)), ({"doppler": None}, (22, 35)),
    ({"doppler": None, "delay": b"1"}, (22, 35)), ({"doppler": None, "delay": b"1", "rmsDelay": b"1"}, (22, 35)),
    ({"doppler": None, "rmsDoppler": None}, (11, 32)), ({"doppler": None, "rmsDoppler": None, "delay": b"1"}, (11, 33)),
    ({"doppler": None, "rmsDoppler": None, "rmsDelay": b"1"}, (11, 32)),
    ({"doppler": None, "rmsDoppler": None, "delay": b"1", "rmsDelay": b"1"}, None),
    ({"delay": b"1"}, (22, 32)), ({"rmsDelay": b"1"}, (22, 33)), ({"delay": b"1", "rmsDelay": b"1"}, (22, 32)),
    ({"delay": b"1", "rmsDoppler": None}, (22, 32)), ({"rmsDelay": b"1", "permID": None}, (22, 33)),
    ({"delay": b"1", "trkSub": b"a1"}, (22, 4)), ({"rmsDelay": b"1", "photAp": b"1"}, (22, 27)),
    ({"trx": None, "rcv": None, "rmsDoppler": None, "frq": None, "com": None}, (11, 30)),
    ({"trx": None, "rcv": None, "doppler": None, "frq": None, "com": None}, (22, 35)),
    ({"obsID": b"x"}, None), ({"obsSubID": b"-"}, None), ({"prog": b"1"}, None), ({"notes": b"K"}, None),
    ({"remarks": b"#"}, None), ({"mode": b"CCD", "stn": b"W84"}, (22, 7)), ({"astCat": b"u", "frq": None}, (22, 22)),
]


def holding():
    """Observations that lack something, as the second row of a report with all columns; what they lack, or what is
    foreign to them, comes before 21 where the first row is of the other kind."""
    columns = sorted(NUMBERS.values())
    for own, other, table in ((row, delay_row, HOLDING), (delay_row, row, HOLDING_A_DELAY),
                              (doppler_row, row, HOLDING_A_DOPPLER_SHIFT)):
        for changes, lack in table:
            yield block([own(), own(**changes)], columns), (lack[0], 4, lack[1]) if lack else None
            yield block([other(), own(**changes)], columns), (lack[0], 4, lack[1]) if lack else (21, 4, 0)


# ---- covariances with the location and without it: 12

IN_PLACE = {"sys": b"IAU", "ctr": b"1", "pos1": b"1", "pos2": b"1", "pos3": b"1"}
NAMES = tuple(COVARIED)

# Beside an optical observation, a delay and a Doppler shift: what each comes to.
HOLDING_COVARIANCES = [({name: value}, (12, 9)) for name, value in COVARIED.items()] + [
    ({**IN_PLACE, name: value}, None) for name, value in COVARIED.items()] + [
    ({**IN_PLACE, **COVARIED}, None), (COVARIED, (12, 9)), (dict.fromkeys(NAMES, b"0"), (12, 9)),
    ({**IN_PLACE, **dict.fromkeys(NAMES, b"-0e0")}, None),
    ({**COVARIED, "sys": b"WGS84"}, (12, 10)), ({**COVARIED, "pos3": b"1"}, (12, 9)),
    # 11 comes first.
    ({"posCov11": b"1", "trkSub": None}, (11, 1)), ({"posCov12": b"1", "mode": None}, (11, 7)),
    ({"posCov13": b"1", "stn": None}, (11, 8)), ({"posCov22": b"1", "obsTime": None}, (11, 15)),
    ({"posCov23": b"1", "dec": None}, (11, 18)), ({"posCov33": b"1", "astCat": None}, (11, 22)),
    ({**IN_PLACE, **COVARIED, "astCat": None}, (11, 22)), ({**IN_PLACE, **COVARIED, "trkSub": None}, (11, 1)),
    # Location before photometry before correlation, whichever is incomplete; 13 last.
    ({"posCov11": b"1", "mag": b"1"}, (12, 9)), ({"posCov12": b"1", "band": b"G"}, (12, 9)),
    ({"posCov13": b"1", "rmsCorr": b"0"}, (12, 9)), ({"posCov22": b"1", "mag": b"1", "rmsCorr": b"0"}, (12, 9)),
    ({**PLACED, "pos3": None, "posCov23": b"1", "photAp": b"1", "rmsCorr": b"0", "rmsRA": b"1"}, (12, 13)),
    ({**PLACED, "posCov33": b"1", "mag": b"1"}, (12, 25)), ({**PLACED, "posCov11": b"1", "photAp": b"1"}, (12, 23)),
    ({**PLACED, "posCov12": b"1", "rmsCorr": b"0"}, (12, 19)),
    ({**PLACED, "posCov13": b"1", "rmsCorr": b"0", "rmsRA": b"1"}, (12, 20)),
    ({**PLACED, "ctr": b"398", "posCov22": b"1", "mag": b"1"}, (12, 25)),
    ({**PLACED, "ctr": b"398", "posCov23": b"1", "rmsCorr": b"0"}, (12, 19)),
    ({**PLACED, "ctr": b"398", "pos2": None, "posCov33": b"1"}, (12, 12)),
    ({**PLACED, "ctr": b"398", "posCov11": b"1"}, (13, 10)), ({**PLACED, **COVARIED, "ctr": b"0"}, (13, 10)),
    ({**PLACED, **COVARIED, "sys": b"ITRF", "ctr": b"0"}, None),
    ({**PLACED, **COVARIED, "mag": b"1", "band": b"G"}, None),
]
BESIDE_A_DELAY = [({name: value}, (22, NUMBERS[name.encode()])) for name, value in COVARIED.items()] + [
    (COVARIED, (22, 38)), ({**IN_PLACE, **COVARIED}, (22, 9)), ({"posCov11": b"0", "pos3": b"1"}, (22, 13)),
    ({"posCov11": b"0", "rmsDoppler": b"1"}, (22, 35)), ({"posCov33": b"0", "photAp": b"1"}, (22, 27)),
    ({"posCov12": b"0", "doppler": b"1"}, (22, 32)), ({"posCov12": b"0", "trkSub": b"a1"}, (22, 4)),
    ({"posCov12": b"0", "doppler": b"1", "delay": None, "rmsDelay": None}, (22, 39)),
    ({"posCov13": b"0", "permID": None}, (22, 40)), ({"posCov22": b"0", "obsTime": None}, (22, 41)),
    ({"posCov23": b"0", "com": None}, (22, 42)), ({"posCov33": b"0", "delay": None, "rmsDelay": None}, (22, 43)),
    ({"posCov33": b"0", "trx": None, "rcv": None, "delay": None, "rmsDelay": None, "frq": None}, (22, 43)),
]
BESIDE_A_DOPPLER_SHIFT = [({name: value}, (22, NUMBERS[name.encode()])) for name, value in COVARIED.items()] + [
    ({"posCov11": b"0", "delay": b"1"}, (22, 32)), ({"posCov22": b"0", "rmsDelay": b"1"}, (22, 33)),
    ({"posCov23": b"0", "doppler": None}, (22, 35)), ({"posCov33": b"0", "rmsDoppler": None}, (22, 43)),
    ({"posCov13": b"0", "posCov12": b"0", "frq": None}, (22, 39)), ({"posCov12": b"0", "dec": b"1"}, (22, 18)),
]


def parts_of_location():
    """A covariance with each part of the location, from none of it to all but one: the lowest missing number."""
    for count in range(len(IN_PLACE)):
        for number, present in enumerate(combinations(IN_PLACE, count)):
            missing = next(name for name in IN_PLACE if name not in present)
            changes = {name: IN_PLACE[name] for name in present}
            yield {**changes, NAMES[(count + number) % len(NAMES)]: b"1e5"}, (12, NUMBERS[missing.encode()])


def holding_covariances():
    """These, as the second row of a block; what is said of them comes before 21 where the first row is of the other
    kind. Then the parts of the location, in a block of one row."""
    for own, other, table in ((row, delay_row, HOLDING_COVARIANCES), (delay_row, row, BESIDE_A_DELAY),
                              (doppler_row, row, BESIDE_A_DOPPLER_SHIFT)):
        for changes, lack in table:
            yield block([own(), own(**changes)]), (lack[0], 4, lack[1]) if lack else None
            yield block([other(), own(**changes)]), (lack[0], 4, lack[1]) if lack else (21, 4, 0)
    for changes, lack in parts_of_location():
        yield block([row(**changes)]), (lack[0], 3, lack[1])


# ---- elements foreign to their kind: 22

FOREIGN = ("artSat", "trkSub", "mode", "stn", "sys", "ctr", "pos1", "pos2", "pos3", "rmsTime", "ra", "dec", "rmsRA",
           "rmsDec", "rmsCorr", "astCat", "mag", "rmsMag", "band", "photCat", "photAp")
RADAR_VALUES = {"trx": b"251", "rcv": b"253", "delay": b"12.5", "rmsDelay": b"0.5", "doppler": b"-0.25",
                "rmsDoppler": b"0.2", "frq": b"8560", "com": b"0"}


def foreign():
    """Each foreign element alone, the columns from last to first, and all from each one on; the place is the lowest
    number. Then each radar element in an optical row, and all elements in one row."""
    optical = {ELEMENTS[number][0].decode(): value for number, value in whole_row().items()}
    for own, more in ((delay_row, {"rmsDoppler": b"1"}), (doppler_row, {"delay": b"1", "rmsDelay": b"1"})):
        strange = [(name, optical[name]) for name in FOREIGN] + list(more.items()) + list(COVARIED.items())
        for at, (name, value) in enumerate(strange):
            place, alone = NUMBERS[name.encode()], own(**{name: value})
            yield block([alone], sorted(alone, reverse=True)), (22, 3, place)
            yield block([own(), own(**dict(strange[at:]))]), (22, 4, place)
    for name, value in RADAR_VALUES.items():
        yield block([row(**{name: value})]), (22, 3, 4)
        yield block([row(), row(permID=b"1", trkSub=None, **{name: value})]), (22, 4, 7)
        yield block([whole_row(**{name: value})]), (22, 3, 3)
    yield block([whole_row(**RADAR_VALUES)]), (22, 3, 3)
    yield block([{**whole_row(), **whole_delay_row()}], sorted(ELEMENTS, reverse=True)), (22, 3, 3)


# ---- a block holds one kind: 21

# The rows of each block, o optical, p optical with covariances, r of a delay, d of a Doppler shift; the line of 21, or
# None.
KINDS = [
    ("o", None), ("r", None), ("d", None), ("rd", None), ("dr", None), ("rdr", None), ("o r", None), ("r o", None),
    ("o r o d", None), ("oo rr dd o", None), ("rd o dr o", None), ("r d r d", None), ("o o r r", None),
    ("or", 4), ("ro", 4), ("od", 4), ("do", 4), ("oro", 4), ("ror", 4), ("orr", 4), ("roo", 4), ("oor", 5), ("rro", 5),
    ("rdo", 5), ("dro", 5), ("oooord", 7), ("rrddro", 8), ("o or", 7), ("o ro", 7), ("r ro", 7), ("r or", 7),
    ("d od", 7), ("oo rro o", 9), ("rr o or", 11), ("o r d o ro", 16), ("or or", 4), ("o r oro r", 10),
    ("ooooooooor", 12), ("rrrrrrrrro", 12),
    ("p", None), ("pp", None), ("op", None), ("po", None), ("opo", None), ("p o", None), ("p r p d", None),
    ("op po", None), ("pr", 4), ("rp", 4), ("pd", 4), ("dp", 4), ("opr", 5), ("por", 5), ("rdp", 5), ("o p ro", 10),
    ("p rp", 7), ("r pr", 7),
]


def kinds():
    """These, with the columns that are needed and with all of them from last to first."""
    rows = {"o": row(), "p": roving_row(), "r": delay_row(), "d": doppler_row()}
    for spelt, line in KINDS:
        for columns in (None, sorted(ELEMENTS, reverse=True)):
            report = b"".join(block([rows[letter] for letter in part], columns) for part in spelt.split())
            yield report, (21, line, 0) if line else None


def alone(element, value):
    """A line of all columns with this value alone."""
    return line_of([value if each == element else b"" for each in sorted(ELEMENTS)])


def near_mixed_blocks():
    """21 and faults of the lines before it and after it; values that are blank do not make a kind."""
    wide = sorted(ELEMENTS)
    mixed = block([row(), delay_row()], wide)
    yield mixed + b"a", (21, 4, 0)
    yield mixed + b"\x00\n", (21, 4, 0)
    yield mixed + b"#\n", (21, 4, 0)
    yield mixed + b"|\n", (21, 4, 0)
    yield mixed + alone(37, b"2"), (21, 4, 0)
    yield mixed + VERSION, (21, 4, 0)
    yield mixed[:-1], (2, 4, 0)
    yield block([row(), row(ra=b"05"), delay_row()], wide), (9, 4, 17)
    yield block([row(), row(mode=None), delay_row()], wide), (11, 4, 7)
    yield block([row(mode=None), delay_row()], wide), (11, 3, 7)
    yield block([delay_row(), delay_row(com=b"2"), row()], wide), (10, 4, 37)
    yield block([delay_row(), delay_row(ra=b"1"), row()], wide), (22, 4, 17)
    yield block([delay_row(ra=b"1"), row()], wide), (22, 3, 17)
    yield block([delay_row(frq=None), row()], wide), (11, 3, 36)
    yield block([row(), row()], wide) + alone(37, b""), (11, 5, 1)
    yield block([delay_row()], wide) + alone(37, b""), (11, 4, 1)
    yield block([delay_row()], wide) + alone(37, b"0"), (11, 4, 1)
    yield block([row()], wide) + alone(37, b"0"), (11, 4, 1)
    yield SPECIMEN + DELAY_ROW, (18, 4, 0)
    yield DELAY_SPECIMEN + ROW, (18, 4, 0)
    head = VERSION + b"com|" + COLUMNS
    yield head + b"|" + ROW + b"   |" + ROW, None
    yield head + b"|" + ROW + b" 1 |" + ROW, (22, 4, 4)
    yield head + b"0|" + ROW, (22, 3, 4)
    # Optical and radar rows with the same columns in use: the value decides, not the column.
    both = [1, 4, 7, 8, 15, 17, 18, 22, *ades.RADAR]
    yield block([row(), row(permID=b"1")], both), None
    yield block([delay_row(), doppler_row()], both), None
    yield block([delay_row()], both) + block([row()], both), None
    yield block([delay_row(), row()], both), (21, 4, 0)
    # A covariance makes no kind, and its own refusals come before 21.
    yield mixed + alone(38, b"1"), (21, 4, 0)
    yield block([delay_row()], wide) + alone(38, b"0"), (11, 4, 1)
    yield block([row()], wide) + alone(43, b"1e5"), (11, 4, 1)
    yield block([row()], wide) + alone(43, b"1e"), (9, 4, 43)
    yield block([row()], wide) + alone(41, b"1" * 21), (8, 4, 41)
    yield block([roving_row(), row(), roving_row()], wide), None
    yield block([roving_row(), delay_row()], wide), (21, 4, 0)
    yield block([delay_row(), roving_row()], wide), (21, 4, 0)
    yield block([delay_row(), roving_row(pos3=None)], wide), (12, 4, 13)
    yield block([delay_row(), row(posCov11=b"1")], wide), (12, 4, 9)
    yield block([delay_row(), roving_row(ctr=b"398")], wide), (13, 4, 10)
    yield block([roving_row(), delay_row(posCov11=b"1")], wide), (22, 4, 38)
    yield block([roving_row(), delay_row(posCov11=b"1", com=None)], wide), (22, 4, 38)
    yield block([roving_row(com=b"1")], wide), (22, 3, 4)
    yield block([small_placed_row(posCov12=b"1")] * 255 + [small_radar_row()]), (21, 258, 0)
    # The last row that may stand is looked at like any other.
    yield block([small_row()] * 255 + [small_radar_row()]), (21, 258, 0)
    yield block([small_radar_row()] * 255 + [small_row()]), (21, 258, 0)
    yield block([small_radar_row()] * 256 + [small_row()]), (14, 259, 0)
    yield block([small_row()] * 256 + [small_radar_row()]), (14, 259, 0)
    yield block([small_radar_row()] * 256) + block([small_row()]), (14, 261, 0)


# ---- faults on different lines: the earlier line decides

FAULTY_BLOCKS = [
    # number, place, its line in the block, the block
    (3, 0, 3, VERSION + COLUMNS + b"\x00" + ROW),
    (4, 0, 3, VERSION + COLUMNS + b"#" + ROW),
    (5, 0, 3, VERSION + COLUMNS),
    (6, 8, 2, VERSION + COLUMNS[:-1] + b"|ema\n" + ROW),
    (7, 8, 2, VERSION + COLUMNS[:-1] + b"|dec\n" + ROW),
    (18, 0, 3, VERSION + COLUMNS + b"|" + ROW),
    (8, 1, 3, block([row(trkSub=b"abcdefghi")])),
    (9, 5, 3, block([row(ra=b"05")])),
    (10, 2, 3, block([row(mode=b"OCC")])),
    (11, 7, 3, block([row(mode=None)])),
    (12, 25, 3, block([row(mag=b"20")])),
    (13, 10, 3, block([whole_row(ctr=b"398")])),
    (22, 4, 3, block([delay_row(trkSub=b"a1")])),
    (21, 0, 4, block([row(), delay_row()])),
    (8, 9, 3, block([row_with("posCov11", b"1" * 21)])),
    (12, 9, 3, block([row(posCov22=b"0")])),
    (22, 38, 3, block([delay_row(posCov11=b"1")])),
]


def two_blocks():
    """Two faulty blocks one after the other, and a faulty block before a line without LF."""
    for number, place, line, text in FAULTY_BLOCKS:
        for _, _, _, after in FAULTY_BLOCKS:
            yield text + after, (number, line, place)
        yield SPECIMEN + text + b"a", (number, line + 3, place) if number != 5 else (2, 6, 0)


def with_answers():
    """The reports of this file, each with its refusal or None."""
    yield from one_data_line(WHAT_MAKES_THEM, whole_row, whole_delay_row)
    yield from one_data_line(OF_A_DELAY, whole_delay_row, whole_row)
    yield from one_data_line(OF_A_DOPPLER_SHIFT, whole_doppler_row, whole_row)
    yield from one_value()
    yield from holding()
    yield from holding_covariances()
    yield from foreign()
    yield from kinds()
    yield from near_mixed_blocks()
    yield from two_blocks()


def cases(_):
    """The chance is not used: all these are written out."""
    for report, refusal in with_answers():
        answer = ades.read(report)
        if refusal is None:
            assert not ades.is_refused(answer), report
        else:
            assert answer == refused(*refusal), (report, refusal, answer)
        yield to_check(report)
