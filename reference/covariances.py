"""Cases on the form of covariances (order 5): decimals and numbers with an exponent, at their edges, one byte past
them, with wrong bytes; shown and valued.

`RIGHT`, `WRONG` and the tables after them are written by hand from document 02, what is put together from parts has
its worth from its parts: the reference has to agree before a case is made. posCov11 has all of them, each of the
other elements a few.
"""

import ades
from forms import report_around
from reports import COVARIED, block, small_placed_row, to_check, to_show, to_value

WIDTH = 20
SIGNS = {b"": 1, b"+": 1, b"-": -1}

# Right values of posCov11: whole number and power.
RIGHT = {
    # Plain decimals.
    b"0": (0, 0), b"-0": (0, 0), b"+0": (0, 0), b"0.0": (0, -1), b"-0.00": (0, -2), b"+.0": (0, -1), b"-0.": (0, 0),
    b"1": (1, 0), b"-1": (-1, 0), b"+1": (1, 0), b"-1.25": (-125, -2), b"12.": (12, 0), b"-12.": (-12, 0),
    b".5": (5, -1), b"-.5": (-5, -1), b"+.5": (5, -1), b"007.50": (750, -2), b"1.50": (150, -2), b"000": (0, 0),
    # With an exponent of one, two and three digits, with each sign and with leading zeros.
    b"1e5": (1, 5), b"1E5": (1, 5), b"1e+5": (1, 5), b"1E+5": (1, 5), b"1e-5": (1, -5), b"1E-5": (1, -5),
    b"1e0": (1, 0), b"1e+0": (1, 0), b"1e-0": (1, 0), b"1e00": (1, 0), b"1e-000": (1, 0), b"1e05": (1, 5),
    b"1e005": (1, 5), b"1e+05": (1, 5), b"1E-005": (1, -5), b"1e10": (1, 10), b"1e-10": (1, -10), b"1e99": (1, 99),
    b"1e+99": (1, 99), b"1e100": (1, 100), b"1e-100": (1, -100), b"1E999": (1, 999), b"-1e+999": (-1, 999),
    b"1e-999": (1, -999), b"1e090": (1, 90), b"1e-099": (1, -99), b"1e255": (1, 255), b"1e256": (1, 256),
    b"1e-128": (1, -128), b"1e-129": (1, -129), b"1e308": (1, 308), b"1e309": (1, 309), b"1e-324": (1, -324),
    # Exponent less places.
    b"1.50e3": (150, 1), b"1.5e3": (15, 2), b"1.5e1": (15, 0), b"1.5e0": (15, -1), b"1.5e-1": (15, -2),
    b"1.E+5": (1, 5), b"1.e5": (1, 5), b"-12.E-12": (-12, -12), b".5e-3": (5, -4), b".5e3": (5, 2), b".5e1": (5, 0),
    b"-.05E+2": (-5, 0), b"+.050e2": (50, -1), b"00.10e002": (10, 0), b"1.000e3": (1000, 0), b"1000e-3": (1000, -3),
    b"-1.25e-10": (-125, -12), b"+6.02214076e23": (602214076, 15), b"1.5E-3": (15, -4), b"0.001e3": (1, 0),
    # Zeros keep their power and are above nothing.
    b"-0e5": (0, 5), b"0e5": (0, 5), b"+0e5": (0, 5), b"-0E-5": (0, -5), b"0e0": (0, 0), b"-0.0e1": (0, 0),
    b"-.00e-7": (0, -9), b"0.e999": (0, 999), b"-0e-999": (0, -999), b"000e000": (0, 0), b"-.0e+999": (0, 998),
    # The ends of the power: 999, and 14 places with e-999.
    b".00000000000001e-999": (1, -1013), b"-.99999999999999e-999": (-99999999999999, -1013),
    b".00000000000000E-999": (0, -1013), b"0.0000000000001e-999": (1, -1012), b"9999999999999999e999":
    (9999999999999999, 999), b".999999999999999E999": (999999999999999, 984), b"-.000000000000000e999": (0, 984),
    b".9999999999999999999": (9999999999999999999, -19), b"-.0000000000000000001": (-1, -19),
    b"9.99999999999999e-99": (999999999999999, -113), b"12345678901234e-9": (12345678901234, -9),
}

# Right values of the others.
RIGHT_OF_OTHERS = {
    "posCov12": {b"-2E-4": (-2, -4), b"0": (0, 0), b"1.50e3": (150, 1), b"+.5": (5, -1),
                 b"-12345678901234567890": (-12345678901234567890, 0), b"1e-999": (1, -999)},
    "posCov13": {b"7": (7, 0), b"-0e5": (0, 5), b"1e005": (1, 5), b"99999999999999999999": (99999999999999999999, 0),
                 b"-.99999999999999e-999": (-99999999999999, -1013), b"+1.0": (10, -1)},
    "posCov22": {b"1.E+5": (1, 5), b"-1.25": (-125, -2), b"10000000000": (10000000000, 0), b".5e-3": (5, -4),
                 b"18446744073709551616": (18446744073709551616, 0), b"-00000000000000000.1": (-1, -1)},
    "posCov23": {b"+1e+00": (1, 0), b"-9E999": (-9, 999), b"9999999999": (9999999999, 0), b"0.": (0, 0),
                 b"-10000000000.0000000": (-100000000000000000, -7), b"1234567890.12345e-67": (123456789012345, -72)},
    "posCov33": {b"9.": (9, 0), b"-.25": (-25, -2), b"2.5e-07": (25, -8), b"+99999999999999999999":
                 (99999999999999999999, 0), b"9223372036854775808": (9223372036854775808, 0), b"0e-0": (0, 0)},
}

# Numbers about the ends of the two parts, of 63 and 64 bits, high alone, low with leading zeros.
SIZES = (
    9, 10, 4294967295, 4294967296, 9999999998, 9999999999, 10000000000, 10000000001, 10000000009, 10000000010,
    19999999999, 20000000000, 99999999999, 100000000000, 42949672960000000000, 9223372036854775807,
    9223372036854775808, 9223372036854775809, 9999999999999999999, 10000000000000000000, 10000000000000000001,
    10000000009999999999, 12345678900000000000, 12345678900000000001, 12345678900123456789, 18446744069999999999,
    18446744070000000000, 18446744073709551614, 18446744073709551615, 18446744073709551616, 18446744073709551617,
    28446744073709551616, 36893488147419103232, 50000000000000000000, 90000000000000000009, 99999999990000000000,
    99999999990000000001, 99999999999999999998, 99999999999999999999)

# Parts: mantissas with their whole number and places, exponents with their worth.
MANTISSAS = {b"7": (7, 0), b"70.": (70, 0), b".07": (7, 2), b"3.10": (310, 2), b"00": (0, 0)}
EXPONENTS = {b"": 0, b"e3": 3, b"E0": 0, b"e+20": 20, b"E-4": -4, b"e-034": -34, b"E007": 7, b"e+999": 999,
             b"E-999": -999}


def of_parts():
    """Each sign with each mantissa and each exponent: text and worth."""
    for sign, factor in SIGNS.items():
        for mantissa, (number, places) in MANTISSAS.items():
            for exponent, power in EXPONENTS.items():
                yield sign + mantissa + exponent, (factor * number, power - places)


def of_sizes():
    """Each size in digits alone; with a sign, leading zeros, a point or an exponent, as the width allows: text and
    worth."""
    for at, size in enumerate(SIZES):
        digits = b"%d" % size
        yield digits, (size, 0)
        yield b"-" + digits, (-size, 0)
        if len(digits) < WIDTH:
            yield b"+" + digits.rjust(WIDTH, b"0"), (size, 0)
            cut = at % (len(digits) + 1)
            yield digits[:cut] + b"." + digits[cut:], (size, cut - len(digits))
        if len(digits) < WIDTH - 5:
            yield b"-" + digits + b"E+%03d" % at, (-size, at)


def of_the_width():
    """Texts of exactly the width: digits alone, a point in any place, exponents of every length: text and worth."""
    for digit in b"0", b"1", b"9":
        number = sum((ord(digit) - ord(b"0")) * 10 ** place for place in range(WIDTH))
        yield digit * WIDTH, (number, 0)
        for places in (0, 1, 9, 10, 11, 18, 19):
            yield digit * (WIDTH - 1 - places) + b"." + digit * places, (number // 10, -places)
    for exponent, power in ((b"e5", 5), (b"E99", 99), (b"e999", 999), (b"e-9", -9), (b"E+09", 9), (b"e-999", -999)):
        count = WIDTH - len(exponent)
        yield b"9" * count + exponent, (10 ** count - 1, power)
        yield b"." + b"9" * (count - 1) + exponent, (10 ** (count - 1) - 1, power - count + 1)
        yield b"1" + b"0" * (count - 2) + b"." + exponent, (10 ** (count - 2), power)
        yield b"0" * (count - 3) + b"1.0" + exponent, (10, power - 1)


def with_signs(texts):
    """The same with each sign."""
    for text, (number, power) in texts:
        for sign, factor in SIGNS.items():
            yield sign + text, (factor * number, power)


# ---- wrong values

# Wrong values of posCov11: 9.
WRONG = (
    # No digit in the mantissa.
    b"+", b"-", b".", b"+.", b"-.", b"e", b"E", b"e5", b"E5", b"+e5", b"-E5", b".e5", b"+.e5", b"-.E-5", b"e+5", b"e.5",
    b".e", b"e.", b"-e", b"e-",
    # Signs.
    b"--1", b"++1", b"+-1", b"-+1", b"1-", b"1+", b"1-5", b"1+5", b"- 1", b"-.-5", b"--1e5", b"+-1.5E5", b"1.-5",
    b"-1-e5", b"1e5-", b"1e5+", b"1e+-5", b"1e-+5", b"1e--5", b"1e++5",
    # Points.
    b"..", b"1..", b"..5", b"1..5", b"1.2.3", b".5.", b"1.2.e5", b"1e5.", b"1e.5", b"1e5.0", b"1e0.", b"1.e.5",
    # Exponents: none, four digits, a sign alone, another letter, two of them.
    b"1e", b"1E", b"1.e", b".1E", b"1e+", b"1e-", b"1E+", b"1E-", b"1.5e+", b"1e1234", b"1e0005", b"1e0000",
    b"1e+1234", b"1E-0005", b"0e1000", b"1e-1000", b"1e12345", b"1ee5", b"1eE5", b"1Ee5", b"1e5e5", b"1e5E", b"1E5e5",
    b"1d5", b"1D5", b"1D+5", b"1q5", b"1f5", b"1F", b"1p5", b"1x5", b"1*10", b"1^5", b"1e^5", b"1e(5)", b"1e5f",
    b"1e5L", b"1exp5", b"1x10", b"1.5*10^3", b"1e5m", b"1e1a", b"1eA", b"1eF", b"1e_5", b"1e5_0", b"1_0e5",
    # Blanks and other bytes inside.
    b"1 e5", b"1e 5", b"1 e 5", b"1e+ 5", b"1e- 5", b"1e5 0", b"1 5", b"1. 5", b". 5", b"+ 1", b"1 .5", b"1 E5",
    b"1e1 2", b"1,5", b"1,5e3", b"1.5,3", b"1/2", b"1:5", b"1;5", b"1'5", b"\"1\"", b"(1)", b"[1]", b"#1", b"1#", b"1~",
    b"!", b"~", b"/", b":", b"_", b"1_0", b"$1", b"1%", b"<1", b"=1", b"@", b"`", b"{1}", b"a", b"a1", b"1a", b"A",
    b"0x1", b"0x1p5", b"0b1", b"0xFF", b"1h", b"x", b"O", b"l", b"I", b"1.O", b"1.l", b"l.5", b"1eO", b"1el",
    # Words that others take for a number.
    b"inf", b"INF", b"-INF", b"+inf", b"Infinity", b"nan", b"NaN", b"none", b"null", b"zero", b"true", b"ten",
)
# Wrong values of the others: number, then values.
WRONG_OF_OTHERS = {
    "posCov12": {8: [b"123456789012345678901", b"-" + b"1" * 21], 9: [b"1e", b"--1", b"1e1234", b"1.5.5"]},
    "posCov13": {8: [b"1e0000000000000000001", b"+" + b"a" * 21], 9: [b"e5", b"1 e5", b"1d5", b"."]},
    "posCov22": {8: [b".12345678901234567890", b"-" + b"." * 21], 9: [b"1e+", b".e5", b"1e+-5", b"+"]},
    "posCov23": {8: [b"12345678901234567890.", b"x" * 60], 9: [b"1e 5", b"1ee5", b"NaN", b"-"]},
    "posCov33": {8: [b"9999999999999999e-999", b"+-" + b"0" * 20], 9: [b"1e5.", b"1,5", b"-INF", b"0x1"]},
}

# What makes a right mantissa wrong after it, and a right exponent wrong before it.
WRONG_TAILS = (b"e", b"E", b"e+", b"E-", b"e1234", b"E+1234", b"e-0000", b"ee5", b"eE5", b"e5e5", b"e5.", b"e.5",
               b"e+-5", b"e5-", b"e 5", b" e5", b"e5 0", b"d5", b"e5x", b"+5", b"-5", b"_")
TAILED = (b"-1", b"1.50", b".5", b"12.")
WRONG_HEADS = (b"", b"+", b"-", b".", b"+.", b"-.", b"--1", b"+-1", b"1.2.3", b"..1", b"1..", b"1,5", b"1 5", b"a",
               b"- 1", b"1-", b"0x1", b"1.-5")
HEADED = (b"e5", b"E-05")


def of_wrong_parts():
    """Right mantissas with wrong tails, wrong mantissas with right exponents: all 9."""
    yield from (mantissa + tail for mantissa in TAILED for tail in WRONG_TAILS)
    yield from (head + exponent for head in WRONG_HEADS for exponent in HEADED)


def misshapen(width):
    """Texts of exactly so many bytes that are no number, with any sign or none before them."""
    return [b"9" * (width - 1) + b"e", b"9" * (width - 2) + b"e+", b"9" * (width - 5) + b"e1234",
            b"9" * (width - 6) + b"E-1000", b"1e" + b"0" * (width - 2), b"e" + b"9" * (width - 1), b"e" * width,
            b"." * width, b"." + b"9" * (width - 2) + b".", b"-" * width, b"1" + b" " * (width - 2) + b"1",
            b"a" * width, b"~" * width, b"#" * width, b"Infinity".ljust(width, b"!"), b"9" * (width - 1) + b"-"]


def shaped(width):
    """Numbers of exactly so many bytes that are right but for their width."""
    return [b"9" * width, b"0" * width, b"9" * (width - 1) + b".", b"." + b"9" * (width - 1), b"." + b"0" * (width - 1),
            b"1" + b"0" * (width - 3) + b"e5", b"9" * (width - 4) + b"E999", b"9" * (width - 5) + b"e-999",
            b"." + b"0" * (width - 7) + b"1e+000", b"0" * (width - 2) + b"e0"]


def wrong_values():
    """Element, value and refusal number. One sign is taken off before the width is counted, whatever follows it."""
    yield from (("posCov11", text, 9) for text in (*WRONG, *of_wrong_parts()))
    for sign in SIGNS:
        # The sign of a text of signs is its own first one.
        yield from (("posCov11", sign + text, 9) for text in misshapen(WIDTH) if sign or text[:1] != b"-")
        yield from (("posCov11", sign + text, 8) for text in (*misshapen(WIDTH + 1), *shaped(WIDTH + 1))
                    if sign or text[:1] != b"-")
    yield from (("posCov11", b"-" * count, 8 if count - 1 > WIDTH else 9) for count in (2, 20, 21, 22, 23))
    yield from (("posCov11", text, 8) for text in (b"1" * 22, b"1" * 40, b"x" * 64, b"1e5" * 20, b"0" * 300))
    for name, by_number in WRONG_OF_OTHERS.items():
        yield from ((name, value, number) for number, given in by_number.items() for value in given)


# ---- the cases

def right_values():
    """Element, value and what it is worth, in reports of any layout."""
    yield from (("posCov11", text, worth) for text, worth in RIGHT.items())
    for name, given in RIGHT_OF_OTHERS.items():
        yield from ((name, text, worth) for text, worth in given.items())


def built_values():
    """The same of what is put together, each text once."""
    seen = set(RIGHT)
    for text, worth in (*of_parts(), *of_sizes(), *with_signs(of_the_width())):
        if text not in seen:
            seen.add(text)
            yield text, worth


def small_report(text):
    """A short report with this value of posCov11."""
    return block([small_placed_row(posCov11=text)])


def shown_and_valued(report, observation, element, text, worth):
    """The value shown, and what it is worth."""
    answer, start, length = ades.showing(report, observation, element)
    assert answer == "shown" and report[start:start + length] == text, text
    assert ades.value(report, observation, element) == ("scaled", *worth), (text, worth)
    return to_show(report, observation, element), to_value(report, observation, element)


def right_cases(chance):
    """Each right value shown and valued; of those that are put together every fourth is shown."""
    for name, text, worth in right_values():
        report, _, _, observation = report_around(chance, name, text)
        yield from shown_and_valued(report, observation, ades.NUMBERS[name.encode()], text, worth)
    for at, (text, worth) in enumerate(built_values()):
        shown, valued = shown_and_valued(small_report(text), 1, 38, text, worth)
        yield valued
        if at % 4 == 0:
            yield shown


def wrong_cases(chance):
    """Each wrong value refused, at its line and place, checked or asked for its value."""
    for name, text, number in dict.fromkeys(wrong_values()):
        element = ades.NUMBERS[name.encode()]
        if chance.random() < 0.3:
            report, line, place, observation = report_around(chance, name, text)
        else:
            # posCov11 to posCov33 follow pos3, the eighth column.
            report, line, place, observation = block([small_placed_row(**{name: text})]), 3, 9, 1
        assert ades.read(report) == ades.refused(number, line, place), (name, text, ades.read(report))
        yield to_check(report) if chance.random() < 0.8 else to_value(report, observation, element)


# Values of which one byte is another, or left out.
SHAPED = (b"-1.25e-10", b"+.5E3", b"12.e+05", b"0e0", b"7")
OTHER_BYTES = b"0159eEdf_ -+./:,~"


def one_byte_other(chance):
    """At each place of a value some other bytes, one byte more, and the value without that byte."""
    for value in SHAPED:
        for at in range(len(value)):
            before, after = value[:at], value[at + 1:]
            texts = [before + bytes([other]) + after for other in chance.sample(OTHER_BYTES, 3)]
            texts += [before + bytes([chance.choice(OTHER_BYTES)]) + value[at:], before + after]
            for text in texts:
                report = small_report(text)
                yield chance.choice((to_check(report), to_value(report, 1, 38)))


def on_one_line():
    """Covariances of several columns on one line: the leftmost faulty one decides, and each is worth its own."""
    names = list(COVARIED)
    for at in range(len(names) - 1):
        for first, second, number in ((b"1e", b"1" * 21, 9), (b"1" * 21, b"1e", 8)):
            values = {**dict.fromkeys(names, b"1e5"), names[at]: first, names[at + 1]: second}
            report = block([small_placed_row(**values)])
            assert ades.read(report) == ades.refused(number, 3, 9 + at), values
            yield to_check(report)
    values = {name: b"-%de%d" % (at + 1, at) for at, name in enumerate(names)}
    rows = [small_placed_row(**values), small_placed_row(**dict(zip(names, reversed(values.values()))))]
    for observation, report in ((1, block(rows)), (2, block(rows)), (2, block(rows, sorted(rows[0], reverse=True)))):
        for at, element in enumerate(ades.COVARIANCES):
            power = at if observation == 1 else 5 - at
            assert ades.value(report, observation, element) == ("scaled", -1 - power, power)
            yield to_value(report, observation, element)


def cases(chance):
    """All cases of this file."""
    yield from right_cases(chance)
    yield from wrong_cases(chance)
    yield from one_byte_other(chance)
    yield from on_one_line()
