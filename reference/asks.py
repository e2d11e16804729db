"""Cases that ask for an element of an observation: shown, absent, no value, and refusals 16 and 17."""

import ades
from reports import (DELAY_SPECIMEN, DOPPLER_SPECIMEN, ROVING_SPECIMEN, SPECIMEN, block, delay_row, doppler_row,
                     random_layout, random_rows, random_shapes, roving_row, row, shuffled_columns, to_show, to_value,
                     whole_delay_row, whole_row)

LARGEST = 18_446_744_073_709_551_615
WITHOUT_VALUE = (1, 2, 3, 4, 5, 6, 7, 8, 9, 14, 22, 25, 26, 28, 29, 30, 31, 37)


def each_element(chance):
    """Every element of a report that has all and of one that has few, of both kinds, the columns in any order."""
    for rows in ([whole_row()], [row()], [row(permID=b"1"), whole_row(trkSub=None)], [whole_delay_row()],
                 [delay_row(), doppler_row()], [row(), roving_row(posCov11=None, posCov23=b"0e-1")]):
        report = block(rows, shuffled_columns(chance, rows, 3), chance)
        for element in ades.ELEMENTS:
            is_present = element in rows[-1]
            assert ades.showing(report, len(rows), element)[0] == ("shown" if is_present else "absent")
            yield to_show(report, len(rows), element)
            answer = ades.value(report, len(rows), element)
            assert (answer == ("no value",)) == (element in WITHOUT_VALUE)
            assert (answer == ("absent",)) == (element not in WITHOUT_VALUE and not is_present)
            yield to_value(report, len(rows), element)


# The radar elements of a night of both kinds: observation, element, what is shown, what it is worth.
NIGHT = SPECIMEN + DELAY_SPECIMEN + DOPPLER_SPECIMEN + SPECIMEN
NO_VALUE, ABSENT = ("no value",), ("absent",)
ASKED = [
    (1, 30, None, NO_VALUE), (1, 31, None, NO_VALUE), (1, 32, None, ABSENT), (1, 33, None, ABSENT),
    (1, 34, None, ABSENT), (1, 35, None, ABSENT), (1, 36, None, ABSENT), (1, 37, None, NO_VALUE),
    (2, 30, b"251", NO_VALUE), (2, 31, b"253", NO_VALUE), (2, 32, b"12.5", ("decimal", 125, 1)),
    (2, 33, b"0.5", ("decimal", 5, 1)), (2, 34, None, ABSENT), (2, 35, None, ABSENT),
    (2, 36, b"8560", ("decimal", 8560, 0)), (2, 37, b"1", NO_VALUE), (2, 8, None, NO_VALUE), (2, 17, None, ABSENT),
    (2, 4, None, NO_VALUE), (2, 10, None, ABSENT), (2, 1, b"433", NO_VALUE),
    (3, 30, b"251", NO_VALUE), (3, 31, b"253", NO_VALUE), (3, 32, None, ABSENT), (3, 33, None, ABSENT),
    (3, 34, b"-0.25", ("decimal", -25, 2)), (3, 35, b"0.2", ("decimal", 2, 1)), (3, 36, b"2380", ("decimal", 2380, 0)),
    (3, 37, b"0", NO_VALUE), (3, 15, b"2024-03-01T04:05:06.5Z", ("time", 60_370, 14_706_500_000)),
    (4, 17, b"10.5", ("angle", 10_500_000_000)), (4, 36, None, ABSENT), (4, 37, None, NO_VALUE),
]

# The same of a roving observer's night, with and without covariances: 38 to 43 are elements.
ROVING_NIGHT = SPECIMEN + ROVING_SPECIMEN + DELAY_SPECIMEN + block([roving_row(posCov11=None, posCov22=b"-00.50E+12")])
ASKED_OF_A_ROVER = [(observation, element, None, ABSENT) for observation in (1, 3) for element in range(38, 44)] + [
    (2, 38, b"1.5e-3", ("scaled", 15, -4)), (2, 39, None, ABSENT), (2, 40, None, ABSENT), (2, 41, None, ABSENT),
    (2, 42, None, ABSENT), (2, 43, b"-.25", ("scaled", -25, -2)), (2, 37, None, NO_VALUE), (2, 36, None, ABSENT),
    (2, 13, b"2510", ("decimal", 2510, 0)), (2, 14, None, NO_VALUE), (2, 9, b"WGS84", NO_VALUE),
    (2, 10, b"399", ("whole", 399)), (2, 15, b"2024-03-01T04:05:06.5Z", ("time", 60_370, 14_706_500_000)),
    (3, 32, b"12.5", ("decimal", 125, 1)), (4, 38, None, ABSENT), (4, 41, b"-00.50E+12", ("scaled", -50, 10)),
    (4, 43, b"-.25", ("scaled", -25, -2)), (4, 22, b"Gaia2", NO_VALUE), (4, 18, b"-0.25", ("angle", -250_000_000)),
]


def of_nights(night, asked):
    """Elements of a night of both kinds, shown and valued."""
    for observation, element, text, worth in asked:
        answer, *where = ades.showing(night, observation, element)
        assert (answer, where) == ("absent", []) if text is None else night[where[0]:sum(where)] == text
        assert ades.value(night, observation, element) == worth
        yield to_show(night, observation, element)
        yield to_value(night, observation, element)


def refused_requests():
    """16 before 17, both after the report's own refusals, which here are of several kinds."""
    two = block([row(), row(trkSub=b"a2")]) + SPECIMEN
    mixed = SPECIMEN + DELAY_SPECIMEN
    broken = [SPECIMEN + b"x", SPECIMEN + b"#\n", block([row(mode=None)]), block([row(ra=b"05")]),
              block([row(), delay_row()]), block([delay_row(trkSub=b"a1")]), block([row(posCov11=b"1")]),
              block([roving_row(posCov33=b"1e")]), block([delay_row(posCov33=b"1")])]
    questions = [
        (SPECIMEN, 0, 1, 16), (SPECIMEN, 2, 1, 16), (SPECIMEN, LARGEST, 1, 16), (SPECIMEN, 1, 0, 17),
        (SPECIMEN, 1, 44, 17), (SPECIMEN, 1, LARGEST, 17), (SPECIMEN, 0, 0, 16), (SPECIMEN, 2, 44, 16),
        (SPECIMEN, LARGEST, LARGEST, 16), (SPECIMEN, 1, 32 + 15, 17), (SPECIMEN, 1, 64 + 15, 17),
        (SPECIMEN, 0, 37, 16), (SPECIMEN, 2, 37, 16), (SPECIMEN, 1, 45, 17), (SPECIMEN, 1, 63, 17),
        (SPECIMEN, 0, 38, 16), (SPECIMEN, 2, 38, 16), (SPECIMEN, 0, 43, 16), (SPECIMEN, 2, 43, 16),
        (SPECIMEN, 1, 64 + 30, 17), (SPECIMEN, 1, 256 + 37, 17), (SPECIMEN, 1, 2 ** 32 + 37, 17),
        (DELAY_SPECIMEN, 1, 0, 17), (DELAY_SPECIMEN, 1, 44, 17), (DELAY_SPECIMEN, 1, 45, 17),
        (DELAY_SPECIMEN, 2, 37, 16), (DELAY_SPECIMEN, 0, 44, 16), (DELAY_SPECIMEN, 1, 64, 17),
        (DELAY_SPECIMEN, 2, 43, 16), (DELAY_SPECIMEN, 1, 64 + 43, 17),
        (DOPPLER_SPECIMEN, 1, 44, 17), (DOPPLER_SPECIMEN, 1, 64 + 34, 17), (DOPPLER_SPECIMEN, 1, LARGEST, 17),
        (ROVING_SPECIMEN, 1, 44, 17), (ROVING_SPECIMEN, 1, 0, 17), (ROVING_SPECIMEN, 2, 38, 16),
        (ROVING_SPECIMEN, 0, 43, 16), (ROVING_SPECIMEN, 2, 44, 16), (ROVING_SPECIMEN, 1, 64 + 38, 17),
        (ROVING_SPECIMEN, 1, 256 + 43, 17), (ROVING_SPECIMEN, 1, 2 ** 32 + 38, 17), (ROVING_SPECIMEN, 1, 46, 17),
        (mixed, 1, 44, 17), (mixed, 2, 44, 17), (mixed, 3, 30, 16), (mixed, 3, 44, 16), (mixed, 2, 0, 17),
        (SPECIMEN, 1, 256 + 15, 17), (SPECIMEN, 1, 2 ** 32 + 15, 17), (SPECIMEN, 2 ** 32 + 1, 15, 16),
        (SPECIMEN, 2 ** 63 + 1, 15, 16), (SPECIMEN, 257, 15, 16), (SPECIMEN, 1, 2 ** 63 + 15, 17),
        (b"", 0, 0, 16), (b"", 1, 1, 16), (b"", 1, 0, 16), (b"", LARGEST, 15, 16), (b"", 0, 15, 16),
        (two, 4, 1, 16), (two, 4, 45, 16), (two, 3, 45, 17), (two, 0, 29, 16), (two, 2, 0, 17), (two, 3, 44, 17),
    ]
    for observation, element in ((0, 15), (1, 0), (9, 99), (1, 17), (1, 38)):
        questions += [(report, observation, element, None) for report in broken]
    for report, observation, element, number in questions:
        wanted = ades.read(report) if number is None else ades.refused(number, 0, 0)
        for ask, to_ask in ((ades.showing, to_show), (ades.value, to_value)):
            assert ask(report, observation, element) == wanted
            yield to_ask(report, observation, element)


def in_large_reports(chance):
    """Elements of observations somewhere in reports of several blocks, laid out by chance."""
    for _ in range(80):
        rows = random_rows(chance, chance.randint(2, 9), random_shapes(chance, 3))
        report = random_layout(chance, rows)
        observation = chance.randint(1, len(rows))
        element = chance.choice(sorted(rows[observation - 1]))
        answer, start, length = ades.showing(report, observation, element)
        assert answer == "shown" and report[start:start + length] == rows[observation - 1][element]
        yield to_show(report, observation, element)
        yield to_value(report, observation, element)


def cases(chance):
    """All cases of this file."""
    yield from each_element(chance)
    yield from of_nights(NIGHT, ASKED)
    yield from of_nights(ROVING_NIGHT, ASKED_OF_A_ROVER)
    yield from refused_requests()
    yield from in_large_reports(chance)
