"""Cases on the lines of a report: version lines, column lines, the count of fields, odd but right layouts.

Each report stands beside its answer, written by hand from document 01 and orders 3 and 5; the reference has to agree
before a case is made.
"""

import ades
from reports import (COLUMNS, DELAY_COLUMNS, DELAY_ROW, DELAY_SPECIMEN, DOPPLER_COLUMNS, DOPPLER_ROW, DOPPLER_SPECIMEN,
                     ROVING_COLUMNS, ROVING_ROW, ROVING_SPECIMEN, ROW, SPECIMEN, VERSION, names_of, to_check)

# Reports with one fault, or with several on one line that is a version or column line: refusal, line, place.
REFUSED = [
    # 2: the line has no LF.
    (b"x", 2, 1, 0),
    (b" ", 2, 1, 0),
    (VERSION[:-1], 2, 1, 0),
    (VERSION + COLUMNS[:-1], 2, 2, 0),
    (VERSION + COLUMNS + ROW[:-1], 2, 3, 0),
    (SPECIMEN + ROW + b"a", 2, 5, 0),
    (SPECIMEN + SPECIMEN[:-1], 2, 6, 0),
    # 3: a byte outside 0x20 to 0x7E.
    (b"\x00\n", 3, 1, 0),
    (b"\r\n", 3, 1, 0),
    (b"# version=2022\r\n", 3, 1, 0),
    (b"# version=2022\t\n", 3, 1, 0),
    (b"\xef\xbb\xbf" + SPECIMEN, 3, 1, 0),
    (VERSION + COLUMNS[:-1] + b"\r\n" + ROW, 3, 2, 0),
    (VERSION + COLUMNS + ROW[:-1] + b"\x7f\n", 3, 3, 0),
    (VERSION + COLUMNS + ROW[:-1] + b"\x80\n", 3, 3, 0),
    (VERSION + COLUMNS + ROW[:-1] + b"\x1f\n", 3, 3, 0),
    (VERSION + COLUMNS + ROW[:-1] + b"\xff\n", 3, 3, 0),
    (VERSION + COLUMNS + ROW[:-1] + b"\x0b\n", 3, 3, 0),
    (VERSION + COLUMNS + ROW + b"\x00\n", 3, 4, 0),
    # 4: version line expected, or a `#` line that isn't one.
    (b"\n", 4, 1, 0),
    (b" \n", 4, 1, 0),
    (COLUMNS + ROW, 4, 1, 0),
    (b" " + SPECIMEN, 4, 1, 0),
    (b"# version=2017\n" + COLUMNS + ROW, 4, 1, 0),
    (b"# version=2022 \n" + COLUMNS + ROW, 4, 1, 0),
    (b"#version=2022\n" + COLUMNS + ROW, 4, 1, 0),
    (b"# version = 2022\n" + COLUMNS + ROW, 4, 1, 0),
    (b"# Version=2022\n" + COLUMNS + ROW, 4, 1, 0),
    (b"# version=202\n" + COLUMNS + ROW, 4, 1, 0),
    (b"# version=20222\n" + COLUMNS + ROW, 4, 1, 0),
    (b"\n" + SPECIMEN, 4, 1, 0),
    (VERSION + b"#\n", 4, 2, 0),
    (VERSION + b"# observatory\n" + COLUMNS + ROW, 4, 2, 0),
    (VERSION + COLUMNS + b"#\n" + ROW, 4, 3, 0),
    (SPECIMEN + b"# end\n", 4, 4, 0),
    (SPECIMEN + b"#\n" + SPECIMEN, 4, 4, 0),
    (SPECIMEN + b"# version=2022|\n", 4, 4, 0),
    (VERSION + b"remarks|" + COLUMNS + b"#1|" + ROW, 4, 3, 0),
    # 5: block without column line or data line.
    (VERSION, 5, 2, 0),
    (VERSION + COLUMNS, 5, 3, 0),
    (VERSION + VERSION + COLUMNS + ROW, 5, 2, 0),
    (VERSION + COLUMNS + VERSION + COLUMNS + ROW, 5, 3, 0),
    (SPECIMEN + VERSION, 5, 5, 0),
    (SPECIMEN + VERSION + COLUMNS, 5, 6, 0),
    (SPECIMEN + VERSION + SPECIMEN, 5, 5, 0),
    (SPECIMEN + VERSION + COLUMNS + SPECIMEN, 5, 6, 0),
    # 6: unknown column name.
    (VERSION + b"\n" + ROW, 6, 2, 1),
    (VERSION + b"   \n" + ROW, 6, 2, 1),
    (VERSION + b"|\n" + ROW, 6, 2, 1),
    (VERSION + b"trkSub|\n" + ROW, 6, 2, 2),
    (VERSION + b"|trkSub\n" + ROW, 6, 2, 1),
    (VERSION + COLUMNS[:-1] + b"|\n" + ROW, 6, 2, 8),
    (VERSION + b"trksub|mode\n" + ROW, 6, 2, 1),
    (VERSION + b"TRKSUB|mode\n" + ROW, 6, 2, 1),
    (VERSION + b"trkSub|mo de\n" + ROW, 6, 2, 2),
    (VERSION + b"trkSub|mode|pos4\n" + ROW, 6, 2, 3),
    (VERSION + b"pos1|pos2|pos3|pos\n" + ROW, 6, 2, 4),
    (VERSION + b"ra|dec|rmsra\n" + ROW, 6, 2, 3),
    (VERSION + b"r\n" + ROW, 6, 2, 1),
    (VERSION + b"trkSubs\n" + ROW, 6, 2, 1),
    (VERSION + b"remark|remarks\n" + ROW, 6, 2, 1),
    (VERSION + b"obsid\n" + ROW, 6, 2, 1),
    (VERSION + b"comment|trkSub\n" + ROW, 6, 2, 1),
    (VERSION + b"com|trkSub\n" + ROW, 18, 3, 0),
    (VERSION + ROW, 6, 2, 1),
    (VERSION + b"-\n" + ROW, 6, 2, 1),
    (VERSION + b" #\n" + ROW, 6, 2, 1),
    (VERSION + b" # version=2022\n" + COLUMNS + ROW, 6, 2, 1),
    (SPECIMEN + VERSION + b"trkSub|xyz\n", 6, 5, 2),
    # 7: column named twice; the place is the second mention.
    (VERSION + b"ra|ra\n" + ROW, 7, 2, 2),
    (VERSION + b"ra| ra \n" + ROW, 7, 2, 2),
    (VERSION + b"trkSub|mode|stn|obsTime|ra|dec|astCat|trkSub\n" + ROW, 7, 2, 8),
    (VERSION + b"|".join(names_of(ades.ELEMENTS)) + b"|permID\n" + ROW, 7, 2, 44),
    (VERSION + b"|".join(names_of(ades.ELEMENTS)) + b"|remarks\n" + ROW, 7, 2, 44),
    (VERSION + b"|".join(names_of(ades.ELEMENTS)) + b"|com\n" + ROW, 7, 2, 44),
    (VERSION + b"|".join(names_of(ades.ELEMENTS)) + b"|posCov11\n" + ROW, 7, 2, 44),
    (VERSION + b"|".join(names_of(ades.ELEMENTS)) + b"|posCov33\n" + ROW, 7, 2, 44),
    (VERSION + b"|".join(names_of(ades.ELEMENTS)) + b"|posCov21\n" + ROW, 6, 2, 44),
    (VERSION + b"|".join(names_of(ades.ELEMENTS)) + b"|\n" + ROW, 6, 2, 44),
    (SPECIMEN + VERSION + b"ra|dec|ra|dec\n" + ROW, 7, 5, 3),
    # 6 and 7: the leftmost field decides.
    (VERSION + b"ra|what|ra\n" + ROW, 6, 2, 2),
    (VERSION + b"ra|ra|what\n" + ROW, 7, 2, 2),
    (VERSION + b"what|what\n" + ROW, 6, 2, 1),
    (VERSION + b"ra|dec|dec|ra\n" + ROW, 7, 2, 3),
    (VERSION + b"ra|ra||\n" + ROW, 7, 2, 2),
    (VERSION + b"||ra|ra\n" + ROW, 6, 2, 1),
    # 2 before 3, 4, 5, 6, 7 on one line.
    (b"\x00", 2, 1, 0),
    (b"# version=2022\xff", 2, 1, 0),
    (b"# version=2017", 2, 1, 0),
    (VERSION + b"# version=2022", 2, 2, 0),
    (VERSION + b"#", 2, 2, 0),
    (VERSION + b"tr\x01kSub", 2, 2, 0),
    (VERSION + b"what|ra", 2, 2, 0),
    (VERSION + b"ra|ra", 2, 2, 0),
    # 3 before 4, 5, 6, 7.
    (b"# version=2017\x00\n" + COLUMNS + ROW, 3, 1, 0),
    (VERSION + b"#\x00\n" + ROW, 3, 2, 0),
    (VERSION + b"# version=2022\x0d\n" + COLUMNS + ROW, 3, 2, 0),
    (VERSION + COLUMNS + b"# version=2022\x0d\n" + COLUMNS + ROW, 3, 3, 0),
    (VERSION + b"what|\x00\n" + ROW, 3, 2, 0),
    (VERSION + b"ra|ra|\x80\n" + ROW, 3, 2, 0),
    # 4 before 5, 6, 7: a wrong `#` line is no column line and ends no block.
    (VERSION + b"# version=2021\n" + COLUMNS + ROW, 4, 2, 0),
    (VERSION + COLUMNS + b"# version=2022 \n" + COLUMNS + ROW, 4, 3, 0),
    (VERSION + b"#what|ra\n" + ROW, 4, 2, 0),
    (VERSION + b"#ra|ra\n" + ROW, 4, 2, 0),
    (VERSION + b"#\n", 4, 2, 0),
    # An empty or blank line where a data line is due.
    (VERSION + COLUMNS + b"\n", 18, 3, 0),
    (VERSION + COLUMNS + b"   \n", 18, 3, 0),
    (SPECIMEN + b"\n", 18, 4, 0),
    (SPECIMEN + b"\n" + SPECIMEN, 18, 4, 0),
    (SPECIMEN + b" # version=2022\n", 18, 4, 0),
    (VERSION + COLUMNS + ROW.replace(b"10.5", b"   "), 11, 3, 17),
    (VERSION + COLUMNS + ROW.replace(b"a1", b" "), 11, 3, 1),
    (VERSION + b"trkSub\n\n", 11, 3, 1),
    (VERSION + b"remarks\n  \n", 11, 3, 1),
    (VERSION + b"remarks\n #\n", 11, 3, 1),
    (VERSION + b"trkSub\na1\n", 11, 3, 7),
    # 18: field count differs from the columns.
    (VERSION + COLUMNS + b"a1\n", 18, 3, 0),
    (VERSION + COLUMNS + ROW[:-1] + b"|\n", 18, 3, 0),
    (VERSION + COLUMNS + b"|" + ROW, 18, 3, 0),
    (VERSION + COLUMNS + b"||||||\n", 11, 3, 1),
    (VERSION + COLUMNS + b"|||||\n", 18, 3, 0),
    (VERSION + COLUMNS + ROW[:-1] + b"|" * 64 + b"\n", 18, 3, 0),
    (VERSION + COLUMNS + ROW[:-1] + b"|" * 256 + b"\n", 18, 3, 0),
    (SPECIMEN + b"a|b|c\n", 18, 4, 0),
    # Radar reports.
    (DELAY_SPECIMEN[:-1], 2, 3, 0),
    (VERSION + DELAY_COLUMNS[:-1], 2, 2, 0),
    (VERSION + DELAY_COLUMNS, 5, 3, 0),
    (DELAY_SPECIMEN + VERSION + DOPPLER_COLUMNS, 5, 6, 0),
    (VERSION + DELAY_COLUMNS + DOPPLER_SPECIMEN, 5, 3, 0),
    (DELAY_SPECIMEN + b"\x00\n", 3, 4, 0),
    (DELAY_SPECIMEN + b"\n", 18, 4, 0),
    (VERSION + DELAY_COLUMNS + DELAY_ROW[:-1] + b"|\n", 18, 3, 0),
    (VERSION + DELAY_COLUMNS + b"|" + DELAY_ROW, 18, 3, 0),
    (VERSION + DELAY_COLUMNS + b"|||||||\n", 11, 3, 1),
    (VERSION + DELAY_COLUMNS + b"||||||\n", 18, 3, 0),
    (VERSION + DELAY_COLUMNS + b"#33" + DELAY_ROW[3:], 4, 3, 0),
    (VERSION + b"com\n0\n", 11, 3, 1),
    (VERSION + b"com\n \n", 11, 3, 1),
    (VERSION + b"com\n2\n", 10, 3, 1),
    (VERSION + b"delay\n-1\n", 9, 3, 1),
    (VERSION + b"com|permID\n1|1\n", 11, 3, 15),
    (VERSION + b"com|permID\n |1\n", 11, 3, 7),
    (VERSION + DELAY_COLUMNS + DELAY_ROW.replace(b"|1\n", b"|  \n"), 11, 3, 37),
    (VERSION + DELAY_COLUMNS + DELAY_ROW.replace(b"|1\n", b"|\n"), 11, 3, 37),
    (VERSION + DELAY_COLUMNS + DELAY_ROW.replace(b"|1\n", b"|1 1\n"), 10, 3, 8),
    (VERSION + DELAY_COLUMNS + DELAY_ROW.replace(b"|8560|", b"| |"), 11, 3, 36),
    (DELAY_SPECIMEN + VERSION + b"trx|rcv|delay|trx\n" + DELAY_ROW, 7, 5, 4),
    (VERSION + DELAY_COLUMNS[:-1] + b"|doppler|rmsdoppler\n" + DELAY_ROW, 6, 2, 10),
    (VERSION + DELAY_COLUMNS.replace(b"|com", b"|freq") + DELAY_ROW, 6, 2, 8),
    # The leftmost field of a column line decides, new names or not.
    (VERSION + b"trx|what|trx\n" + ROW, 6, 2, 2),
    (VERSION + b"trx|trx|what\n" + ROW, 7, 2, 2),
    (VERSION + b"com|ra|ra|com\n" + ROW, 7, 2, 3),
    (VERSION + b"posCov11|what|posCov11\n" + ROW, 6, 2, 2),
    (VERSION + b"posCov12|posCov12|what\n" + ROW, 7, 2, 2),
    (VERSION + b"posCov13|posCov31|posCov13\n" + ROW, 6, 2, 2),
    (VERSION + b"posCov22|pos2|pos2|posCov22\n" + ROW, 7, 2, 3),
    (VERSION + b"pos1|posCov11|posCov12|posCov13|posCov11\n" + ROW, 7, 2, 5),
    # Reports with covariances.
    (ROVING_SPECIMEN[:-1], 2, 3, 0),
    (VERSION + ROVING_COLUMNS[:-1], 2, 2, 0),
    (VERSION + ROVING_COLUMNS, 5, 3, 0),
    (VERSION + ROVING_COLUMNS + SPECIMEN, 5, 3, 0),
    (ROVING_SPECIMEN + b"\x00\n", 3, 4, 0),
    (ROVING_SPECIMEN.replace(b"e-3", b"e\x883"), 3, 3, 0),
    (ROVING_SPECIMEN.replace(b"e-3", b"\xe9-3"), 3, 3, 0),
    (ROVING_SPECIMEN.replace(b"-.25", b"9" * 21 + b"\xff"), 3, 3, 0),
    (ROVING_SPECIMEN + ROW, 18, 4, 0),
    (ROVING_SPECIMEN + b"|" * 12 + b"\n", 18, 4, 0),
    (ROVING_SPECIMEN + b"|" * 13 + b"\n", 11, 4, 1),
    (SPECIMEN + ROVING_ROW, 18, 4, 0),
    (VERSION + ROVING_COLUMNS + b"#" + ROVING_ROW[1:], 4, 3, 0),
    (VERSION + b"posCov11\n1\n", 11, 3, 1),
    (VERSION + b"posCov11\n1e5\n", 11, 3, 1),
    (VERSION + b"posCov11\n \n", 11, 3, 1),
    (VERSION + b"posCov11\n1e\n", 9, 3, 1),
    (VERSION + b"posCov11\n 1e5 5 \n", 9, 3, 1),
    (VERSION + b"posCov11\n" + b"1" * 21 + b"\n", 8, 3, 1),
    (VERSION + b"posCov23|posCov22\n" + b"-" * 22 + b"|1e\n", 8, 3, 1),
    (VERSION + b"posCov23|posCov22\n1e|" + b"-" * 22 + b"\n", 9, 3, 1),
    (VERSION + b"posCov23|posCov22\n|" + b"-" * 22 + b"\n", 8, 3, 2),
    (VERSION + b"posCov33|trkSub\n1|a\n", 11, 3, 7),
    (VERSION + b"posCov33|" + COLUMNS + b"1|" + ROW, 12, 3, 9),
    (VERSION + b"posCov33|" + COLUMNS + b"|" + ROW + b" 0 |" + ROW, 12, 4, 9),
    (VERSION + b"posCov33|" + DELAY_COLUMNS + b"1|" + DELAY_ROW, 22, 3, 43),
    (VERSION + b"posCov33|" + DELAY_COLUMNS + b"|" + DELAY_ROW + b"1e0|" + DELAY_ROW, 22, 4, 43),
    (ROVING_SPECIMEN.replace(b"2510", b""), 12, 3, 13),
    (ROVING_SPECIMEN.replace(b"399", b"398"), 13, 3, 10),
]

# Names that are near the new ones and are none; a new name alone, or twice.
NEAR_NAMES = (
    b"Trx", b"TRX", b"tr", b"rx", b"trx1", b"tx", b"t rx", b"Rcv", b"RCV", b"rcvr", b"rc", b"rov", b"tcv", b"Delay",
    b"DELAY", b"dela", b"delays", b"delay1", b"rmsdelay", b"RMSDelay", b"rmsDelays", b"rmsDela", b"rms Delay",
    b"sigDelay", b"resDelay", b"Doppler", b"dopler", b"dopple", b"dopplers", b"rmsdoppler", b"rmsDopple",
    b"rmsDopplers", b"rmsDoppler1", b"resDoppler", b"Frq", b"FRQ", b"fr", b"freq", b"frq.", b"frqq", b"Com", b"COM",
    b"co", b"comm", b"com1", b"comment", b"com,", b"raStar", b"rms", b"radar",
    b"posCov", b"posCov1", b"posCov2", b"posCov3", b"posCov00", b"posCov01", b"posCov10", b"posCov14", b"posCov20",
    b"posCov21", b"posCov24", b"posCov30", b"posCov31", b"posCov32", b"posCov34", b"posCov44", b"posCov111",
    b"posCov331", b"poscov11", b"PosCov11", b"POSCOV11", b"posCOV12", b"pos Cov11", b"posCov 11", b"posCov1 1",
    b"posCov-11", b"posCov_12", b"posCov1,1", b"posCov[11]", b"posCov11.", b"posCovII", b"posCov1l", b"oosCov11",
    b"osCov33", b"pocCov22", b"posCov33s", b"pos11", b"pos4", b"cov11", b"velCov11", b"vel1")
NEW_NAMES = (b"trx", b"rcv", b"delay", b"rmsDelay", b"doppler", b"rmsDoppler", b"frq", b"com")
COVARIANCE_NAMES = (b"posCov11", b"posCov12", b"posCov13", b"posCov22", b"posCov23", b"posCov33")


def names():
    """Column lines with these names: report and refusal."""
    for name in NEAR_NAMES:
        yield VERSION + b"permID| " + name + b" |obsTime\n" + ROW, (6, 2, 2)
    for name in NEW_NAMES + COVARIANCE_NAMES:
        yield VERSION + name + b"\n", (5, 3, 0)
        yield VERSION + b"permID|" + name + b"\n" + ROW, (18, 3, 0)
        yield VERSION + name + b"|ra| " + name + b"\n" + ROW, (7, 2, 3)
        yield SPECIMEN + VERSION + b" ".join((name, name)) + b"\n" + ROW, (6, 5, 1)


def turned(line):
    """The line with its fields from last to first."""
    return b"|".join(reversed(line[:-1].split(b"|"))) + b"\n"


# Right reports: the number of observations.
ACCEPTED = [
    (b"", 0),
    (SPECIMEN, 1),
    (SPECIMEN + ROW, 2),
    (SPECIMEN * 3, 3),
    (SPECIMEN + ROW + SPECIMEN + ROW * 4, 7),
    (VERSION + b" " + COLUMNS + ROW, 1),
    (VERSION + COLUMNS[:-1] + b"   \n" + ROW, 1),
    (VERSION + COLUMNS.replace(b"|", b"  |  ") + ROW, 1),
    (VERSION + COLUMNS + ROW.replace(b"|", b"  |  "), 1),
    (VERSION + COLUMNS + b"   " + ROW, 1),
    (VERSION + COLUMNS + ROW[:-1] + b"     \n", 1),
    (VERSION + b"remarks|" + COLUMNS + b" #1|" + ROW, 1),
    (VERSION + b"remarks|" + COLUMNS + b"|" + ROW, 1),
    (VERSION + b"remarks|" + COLUMNS + b"  |" + ROW, 1),
    (VERSION + b"sys|" + COLUMNS + b"|" + ROW + b" |" + ROW, 2),
    (VERSION + COLUMNS[:-1] + b"|permID\n" + ROW[:-1] + b"|\n" + b"|" + ROW[3:-1] + b"|1\n", 2),
    (VERSION + turned(COLUMNS) + turned(ROW), 1),
    # Radar reports, and columns of the other kind that are empty in every row.
    (DELAY_SPECIMEN, 1),
    (DOPPLER_SPECIMEN, 1),
    (DELAY_SPECIMEN + DELAY_ROW * 2, 3),
    (DELAY_SPECIMEN + DOPPLER_SPECIMEN, 2),
    (SPECIMEN + DELAY_SPECIMEN, 2),
    (DELAY_SPECIMEN + SPECIMEN + DOPPLER_SPECIMEN + DOPPLER_ROW + SPECIMEN + ROW, 6),
    (VERSION + turned(DELAY_COLUMNS) + turned(DELAY_ROW), 1),
    (VERSION + b" " + DOPPLER_COLUMNS.replace(b"|", b" | ") + b"  " + DOPPLER_ROW.replace(b"|", b"  |  "), 1),
    (VERSION + DELAY_COLUMNS + DELAY_ROW[:-1] + b"   \n", 1),
    (VERSION + DELAY_COLUMNS + DELAY_ROW.replace(b"|1\n", b"| 0\n"), 1),
    (VERSION + DELAY_COLUMNS + DELAY_ROW.replace(b"|1\n", b"|0 \n"), 1),
    (VERSION + DELAY_COLUMNS[:-1] + b"|doppler|rmsDoppler\n" + DELAY_ROW[:-1] + b"||\n"
     + b"433|2024-03-01T04:05:06.5Z|251|253|||2380|0|-0.25|0.2\n", 2),
    (VERSION + b"com|" + COLUMNS + b"|" + ROW + b" |" + ROW, 2),
    (VERSION + COLUMNS[:-1] + b"|doppler\n" + ROW[:-1] + b"|   \n", 1),
    (VERSION + COLUMNS[:-1] + b"|" + b"|".join(NEW_NAMES) + b"\n" + ROW[:-1] + b"|" * 8 + b"\n", 1),
    (VERSION + b"ra|" + DELAY_COLUMNS + b"|" + DELAY_ROW + b"  |" + DELAY_ROW, 2),
    (VERSION + DELAY_COLUMNS[:-1] + b"|trkSub|mode|stn|ra|dec|astCat\n" + DELAY_ROW[:-1] + b"| " * 6 + b"\n", 1),
    # Covariances, and their columns where they are empty in every row or in some.
    (ROVING_SPECIMEN, 1),
    (ROVING_SPECIMEN + ROVING_ROW * 2, 3),
    (ROVING_SPECIMEN + DELAY_SPECIMEN + SPECIMEN + ROVING_SPECIMEN, 4),
    (VERSION + turned(ROVING_COLUMNS) + turned(ROVING_ROW), 1),
    (VERSION + b" " + ROVING_COLUMNS.replace(b"|", b" | ") + b"  " + ROVING_ROW.replace(b"|", b"  |  "), 1),
    (VERSION + ROVING_COLUMNS + ROVING_ROW.replace(b"|1.5e-3|-.25|", b"|||"), 1),
    (VERSION + ROVING_COLUMNS + ROVING_ROW.replace(b"|1.5e-3|", b"|   |") + ROVING_ROW.replace(b"|-.25|", b"||"), 2),
    (VERSION + ROVING_COLUMNS + b"a1|CCD|W84||||||  ||2024-03-01T04:05:06.5Z|10.5|-0.25|Gaia2\n" + ROVING_ROW, 2),
    (VERSION + b"posCov22|" + COLUMNS + b"|" + ROW + b" |" + ROW, 2),
    (VERSION + b"|".join(COVARIANCE_NAMES) + b"|" + COLUMNS + b"|" * 6 + ROW, 1),
    (VERSION + b"|".join(COVARIANCE_NAMES) + b"|" + DELAY_COLUMNS + b"|" * 6 + DELAY_ROW + b" | " * 6 + DELAY_ROW, 2),
    (VERSION + DOPPLER_COLUMNS[:-1] + b"|" + b"|".join(COVARIANCE_NAMES[::-1]) + b"\n" + DOPPLER_ROW[:-1] + b"| " * 6
     + b"\n", 1),
    (VERSION + b"posCov12|" + ROVING_COLUMNS + b"0e0|" + ROVING_ROW + b" -1E+1 |" + ROVING_ROW, 2),
    (VERSION + ROVING_COLUMNS[:-1] + b"|posCov23\n" + ROVING_ROW[:-1] + b"|12345678901234567890\n", 1),
    (VERSION + ROVING_COLUMNS[:-1] + b"|posCov23\n" + ROVING_ROW[:-1] + b"|   -12345678901234567890   \n", 1),
]


def cases(_):
    """The chance is not used: all these are written out."""
    for report, *refusal in REFUSED:
        assert ades.read(report) == ades.refused(*refusal), (report, refusal)
        yield to_check(report)
    for report, refusal in names():
        assert ades.read(report) == ades.refused(*refusal), (report, refusal)
        yield to_check(report)
    for report, count in ACCEPTED:
        assert ades.check(report) == ("accepted", count), report
        yield to_check(report)
