"""Cases at the limits of size: 65,536 bytes, 256 rows, and long lines. They are few because they are long."""

import ades
from ades import ROW_LIMIT, TEXT_LIMIT, refused
from refusals import WHAT_MAKES_THEM, line_with
from reports import (SPECIMEN, VERSION, block, delay_row, line_of, names_of, row, small_placed_row, small_radar_row,
                     small_row, to_check, to_show, to_value)

FULL = block([small_row()] * ROW_LIMIT)
FULL_OF_RADAR = block([small_radar_row()] * ROW_LIMIT)
FULL_OF_COVARIANCES = block([small_placed_row(posCov12=b"1")] * (ROW_LIMIT - 1) + [small_placed_row(posCov12=b"-1e9")])


def filled(report, length):
    """The report with blanks before its last LF, so that it has this length."""
    return report[:-1] + b" " * (length - len(report)) + b"\n"


def of_row_limit():
    """14 and what may meet it on its line; version and column lines after row 256 are still read."""
    small = line_of(small_row().values())
    yield FULL, None
    yield FULL + small, (14, 259, 0)
    yield FULL + b"\n", (14, 259, 0)
    yield FULL + b"a|b|c\n", (14, 259, 0)
    yield FULL + b"what", (2, 259, 0)
    yield FULL + b"\x00\n", (3, 259, 0)
    yield FULL + b"#\n" + small, (4, 259, 0)
    yield FULL + VERSION, (5, 260, 0)
    yield FULL + VERSION + b"trkSub|what\n" + small, (6, 260, 2)
    yield FULL + VERSION + b"ra|ra\n" + small, (7, 260, 2)
    yield FULL + VERSION + VERSION, (5, 260, 0)
    yield FULL + SPECIMEN, (14, 261, 0)
    head = FULL + VERSION + line_of(names_of(ades.ELEMENTS))
    for number in (18, 8, 9, 10, 11, 12, 13):
        fault = next(fault for fault in WHAT_MAKES_THEM if fault[0] == number)
        yield head + line_with([fault], ades.ELEMENTS), (14, 261, 0)
    yield FULL + block([delay_row(trkSub=b"a1")]), (14, 261, 0)
    yield FULL_OF_RADAR + line_of(small_radar_row(com=b"2").values()), (14, 259, 0)
    yield FULL + block([row(posCov11=b"1e")]), (14, 261, 0)
    # The last row that may stand is looked at like any other.
    yield block([small_row()] * (ROW_LIMIT - 1) + [small_row(dec=b"91")]), (10, 258, 6)
    yield block([small_row()] * (ROW_LIMIT - 1) + [small_row(dec=b"91")]) + small, (10, 258, 6)


def of_text_limit():
    """1, which comes before every other refusal."""
    yield filled(FULL, TEXT_LIMIT), None
    yield filled(FULL, TEXT_LIMIT + 1), (1, 0, 0)
    yield b"\x00" * (TEXT_LIMIT + 1), (1, 0, 0)
    yield filled(FULL, TEXT_LIMIT)[:-1] + b" ", (2, 258, 0)
    yield b"\n" * TEXT_LIMIT, (4, 1, 0)


def of_lines():
    """Long lines, lines of many fields, and a fault on a line far down."""
    yield VERSION + b"trkSub" + b" " * 3000 + b"|ra|" + b" " * 3000 + b"\n", (6, 2, 3)
    yield VERSION + b"trkSub" + b"|" * 5000 + b"\n", (6, 2, 2)
    yield VERSION + b"trkSub|ra\n" + b"|" * 5000 + b"\n", (18, 3, 0)
    yield VERSION + b"trkSub|ra\n" + b"|" * 257 + b"\n", (18, 3, 0)
    yield VERSION + b"trkSub|ra\na" + b" " * 4000 + b"b|1\n", (8, 3, 1)
    yield VERSION + b"posCov11|ra\n1" + b" " * 4000 + b"1|1\n", (8, 3, 1)
    yield VERSION + b"posCov11|ra\n" + b" " * 2000 + b"1e" + b" " * 2000 + b"|1\n", (9, 3, 1)
    yield VERSION + b"posCov11|ra\n" + b"1" * 257 + b"|1\n", (8, 3, 1)
    yield VERSION + b"posCov11|ra\n" + b"0" * 65 + b"e5|1\n", (8, 3, 1)
    yield VERSION + b"posCov11|ra\n" + b" " * 2000 + b"1e5" + b" " * 2000 + b"|1\n", (11, 3, 1)
    yield SPECIMEN * 80 + VERSION + b"what\n", (6, 242, 1)
    yield SPECIMEN * 80 + SPECIMEN.replace(b"10.5", b"010.5"), (9, 243, 5)
    yield VERSION + b" remarks \n" + b" " * 2000 + b"#" + b" " * 2000 + b"\n", (11, 3, 1)
    remark = b"x" * 300
    yield block([row(remarks=remark)] * 8) + block([row(remarks=remark + b"y")]), (8, 13, 8)


def cases(_):
    """The chance is not used: all these are written out."""
    for report, refusal in (*of_row_limit(), *of_text_limit(), *of_lines()):
        answer = ades.read(report)
        assert answer == refused(*refusal) if refusal else not ades.is_refused(answer), refusal
        yield to_check(report)
    yield to_show(filled(FULL, TEXT_LIMIT), ROW_LIMIT, 22)
    yield to_show(filled(FULL, TEXT_LIMIT + 1), 0, 0)
    yield to_value(FULL, ROW_LIMIT, 15)
    yield to_show(FULL, ROW_LIMIT + 1, 22)
    yield to_value(FULL, ROW_LIMIT, 16)
    yield to_show(FULL_OF_RADAR, ROW_LIMIT, 37)
    yield to_value(FULL_OF_RADAR, ROW_LIMIT, 32)
    yield to_show(FULL_OF_RADAR, ROW_LIMIT + 1, 37)
    yield to_show(FULL_OF_COVARIANCES, ROW_LIMIT, 39)
    yield to_value(FULL_OF_COVARIANCES, ROW_LIMIT, 39)
