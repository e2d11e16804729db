"""Cases by chance: right reports of every shape and of both kinds with one byte or a few changed, left out or put in,
with a value more or less, or with kinds mixed in a block."""

from ades import ELEMENTS
from reports import random_block, random_layout, random_rows, random_shapes, random_value, to_check, to_show, to_value

# Bytes that mean something, so that a change is often near a rule.
TELLING = b"\n|# -+.0123456789TZ:/PDCAaz_~||  00.-eE"


def damaged(chance, report):
    """The report with one byte changed, left out, put in, or doubled, more often than not on its last line."""
    last_line = report.rfind(b"\n", 0, len(report) - 1) + 1
    at = chance.randrange(last_line if chance.random() < 0.7 else 0, len(report))
    byte = bytes([chance.choice(TELLING) if chance.random() < 0.9 else chance.randrange(256)])
    return chance.choice((
        report[:at] + byte + report[at + 1:],
        report[:at] + byte + report[at + 1:],
        report[:at] + report[at + 1:],
        report[:at] + byte + report[at:],
        report[:at] + report[at:at + 1] + report[at:],
    ))


def some_rows(chance, most_rows):
    """A few rows, optical ones, radar ones or some of each."""
    return random_rows(chance, chance.randint(1, most_rows), random_shapes(chance, 2))


def random_report(chance, most_rows=4):
    """A right report of a few rows, laid out by chance."""
    return random_layout(chance, some_rows(chance, most_rows))


def one_value_other(chance, row):
    """The row with a value taken away, put in or made another, of any element."""
    if chance.random() < 0.4:
        taken = chance.choice(sorted(row))
        return {element: value for element, value in row.items() if element != taken}
    element = chance.choice(sorted(ELEMENTS))
    return {**row, element: random_value(chance, element)}


def random_misfit(chance, most_rows=4):
    """Rows that are right by themselves laid out in one block whatever their kind, or laid out well with one value
    of a row taken away, put in or made another."""
    rows = some_rows(chance, most_rows)
    if chance.random() < 0.4:
        return random_block(chance, rows)
    at = chance.randrange(len(rows))
    rows[at] = one_value_other(chance, rows[at])
    return random_layout(chance, rows) if chance.random() < 0.7 else random_block(chance, rows)


def random_damaged(chance, most_rows=4):
    """A report of a few rows with one, two or three changes, or one whose rows do not fit."""
    if chance.random() < 0.25:
        return random_misfit(chance, most_rows)
    report = random_report(chance, most_rows)
    for _ in range(chance.choice((1, 1, 1, 2, 3))):
        report = damaged(chance, report)
    return report


def cases(chance):
    """Damaged reports, checked or asked for some element."""
    for _ in range(400):
        report = random_damaged(chance)
        ask = chance.choice((to_check, to_check, to_show, to_value))
        if ask is to_check:
            yield to_check(report)
        else:
            yield ask(report, chance.randint(1, 4), chance.randint(1, len(ELEMENTS)))
