"""The forms of the values and what they are worth, from document 01's table of elements and document 02's orders 2, 3
and 5.

Every form is a function from a value's bytes to its fault: 0 for none, 8 too wide, 9 wrong form,
10 out of its range or vocabulary. A value is never empty and never begins or ends with a blank:
the reader has dropped those.
"""

DIGITS = b"0123456789"
CAPITALS = b"ABCDEFGHIJKLMNOPQRSTUVWXYZ"
LETTERS = CAPITALS + b"abcdefghijklmnopqrstuvwxyz"
# The subset of characters that source document 000 calls alphanumeric.
ALPHANUMERICS = LETTERS + DIGITS + b" _"

TOO_WIDE = 8
WRONG_FORM = 9
OUT_OF_RANGE = 10


# ---- bytes and whole numbers

def all_in(text, allowed):
    """Each byte of the text is one of those allowed."""
    return all(byte in allowed for byte in text)


def are_digits(text):
    """One or more digits."""
    return text != b"" and all_in(text, DIGITS)


def whole(digits):
    """The number that digits write."""
    number = 0
    for digit in digits:
        number = 10 * number + DIGITS.index(digit)
    return number


def has_no_leading_zero(digits):
    """Where leading zeros are barred and `0` isn't excepted, a lone `0` is 9."""
    return digits[:1] != b"0"


def without_sign(text):
    """The text less one leading `+` or `-`."""
    return text[1:] if text[:1] in (b"+", b"-") else text


def is_negative(text):
    """A `-` stands first."""
    return text[:1] == b"-"


# ---- alphanumerics, free values, words

def alphanumerics(value, shortest, longest):
    """Where only a length of an alphanumeric or free value is wrong it is 8, also when too short."""
    if not all_in(value, ALPHANUMERICS):
        return WRONG_FORM
    return 0 if shortest <= len(value) <= longest else TOO_WIDE


def free(value, longest):
    """Up to so many bytes of any kind that a field can hold."""
    return 0 if len(value) <= longest else TOO_WIDE


def word(value, words):
    """A mode or sys word outside the list is 10."""
    return 0 if value in words.split() else OUT_OF_RANGE


def flag(value):
    """com other than 0 or 1 is 10 (order 3)."""
    return 0 if value in (b"0", b"1") else OUT_OF_RANGE


# ---- designations

def is_fragment(text):
    """Fragment: `-` and one or two capitals."""
    return text[:1] == b"-" and len(text) in (2, 3) and all_in(text[1:], CAPITALS)


def permanent(value):
    """Digits, no leading zero, 1 to 8 of them, 1 to 61,999,999;
    or 1 to 6 digits, no leading zero, then P or D, then optional fragment."""
    if are_digits(value):
        if len(value) > 8 or not has_no_leading_zero(value):
            return WRONG_FORM
        return 0 if whole(value) <= 61_999_999 else OUT_OF_RANGE
    for count in range(1, 7):
        digits, letter, fragment = value[:count], value[count:count + 1], value[count + 1:]
        if (are_digits(digits) and has_no_leading_zero(digits) and letter in (b"P", b"D")
                and (fragment == b"" or is_fragment(fragment))):
            return 0
    return WRONG_FORM


def provisional(value):
    """provID: minor planet or comet."""
    return comet(value) if value[1:2] == b"/" else minor_planet(value)


def minor_planet(value):
    """4 digits, blank, a capital A to Y but not I, a capital A to Z but not I,
    then optionally a number without leading zero, 1 to 5 digits, 1 to 61,999."""
    year, blank, half_month, order, number = value[:4], value[4:5], value[5:6], value[6:7], value[7:]
    if not (len(value) >= 7 and are_digits(year) and blank == b" "):
        return WRONG_FORM
    if half_month not in letters_of("ABCDEFGHJKLMNOPQRSTUVWXY") or order not in letters_of("ABCDEFGHJKLMNOPQRSTUVWXYZ"):
        return WRONG_FORM
    if number == b"":
        return 0
    if not (are_digits(number) and len(number) <= 5 and has_no_leading_zero(number)):
        return WRONG_FORM
    return 0 if whole(number) <= 61_999 else OUT_OF_RANGE


def letters_of(word_of_letters):
    """The letters, each as the byte it is."""
    return [letter.encode() for letter in word_of_letters]


def comet(value):
    """C P D X or A, `/`, 4 digits, blank, one or two capitals, a number of 1 to 3 digits
    without leading zero, and a fragment, but none after `A/`."""
    kind, slash, year, blank, rest = value[:1], value[1:2], value[2:6], value[6:7], value[7:]
    if kind not in letters_of("CPDXA") or slash != b"/" or len(year) != 4 or not are_digits(year) or blank != b" ":
        return WRONG_FORM
    for capitals in (1, 2):
        for count in (1, 2, 3):
            letters, number, fragment = rest[:capitals], rest[capitals:capitals + count], rest[capitals + count:]
            if (len(letters) == capitals and all_in(letters, CAPITALS)
                    and len(number) == count and are_digits(number) and has_no_leading_zero(number)
                    and (fragment == b"" or (is_fragment(fragment) and kind != b"A"))):
                return 0
    return WRONG_FORM


def artificial_satellite(value):
    """4 digits, `-`, 3 digits, 1 to 3 capitals."""
    year, dash, launch, piece = value[:4], value[4:5], value[5:8], value[8:]
    right = (len(value) >= 9 and are_digits(year) and dash == b"-" and are_digits(launch)
             and len(piece) <= 3 and all_in(piece, CAPITALS))
    return 0 if right else WRONG_FORM


# ---- numbers

def is_decimal(text):
    """A decimal is one or more digits, optionally with one point before, between or after them (order 2)."""
    before, _, after = text.partition(b".")
    return are_digits(before + after)


def decimal(value):
    """Its value is a signed whole number with a count of places."""
    before, _, after = without_sign(value).partition(b".")
    number = whole(before + after)
    return (-number if is_negative(value) else number), len(after)


def signed_decimal(value, width):
    """A signed one may have one `+` or `-` before it, not counted in the width."""
    if len(without_sign(value)) > width:
        return TOO_WIDE
    return 0 if is_decimal(without_sign(value)) else WRONG_FORM


def positive_decimal(value, width):
    """A positive one has no sign (else 9) and is above zero (else 10)."""
    if len(value) > width:
        return TOO_WIDE
    if not is_decimal(value):
        return WRONG_FORM
    return 0 if decimal(value)[0] > 0 else OUT_OF_RANGE


def correlation(value):
    """Signed decimal, 13, from -1 to 1 inclusive."""
    fault = signed_decimal(value, 13)
    if fault:
        return fault
    number, places = decimal(value)
    return 0 if -10 ** places <= number <= 10 ** places else OUT_OF_RANGE


def centre(value):
    """Integer, `-` allowed, no leading zero but `0` itself, no `-0`, at most 9 characters."""
    if len(value) > 9:
        return TOO_WIDE
    digits = value[1:] if is_negative(value) else value
    if value == b"0" or (are_digits(digits) and has_no_leading_zero(digits)):
        return 0
    return WRONG_FORM


def integer(value):
    """The number that ctr writes."""
    return -whole(value[1:]) if is_negative(value) else whole(value)


# ---- numbers in decimal or exponential form (order 5)

def parted_at_letter(text):
    """What stands before the first `e` or `E` and what stands after it; None where neither letter is there."""
    for at, byte in enumerate(text):
        if byte in b"eE":
            return text[:at], text[at + 1:]
    return text, None


def is_exponent(text):
    """Optional sign, one to three digits."""
    digits = without_sign(text)
    return are_digits(digits) and len(digits) <= 3


def covariance(value, width):
    """A signed decimal, and perhaps `e` or `E` and an exponent after it. The sign before it is not counted in the
    width, all else is."""
    unsigned = without_sign(value)
    if len(unsigned) > width:
        return TOO_WIDE
    mantissa, exponent = parted_at_letter(unsigned)
    right = is_decimal(mantissa) and (exponent is None or is_exponent(exponent))
    return 0 if right else WRONG_FORM


def scaled(value):
    """Its value is the whole number with a signed power of ten: the exponent less the places."""
    mantissa, exponent = parted_at_letter(value)
    number, places = decimal(mantissa)
    if exponent is None:
        return number, -places
    power = whole(without_sign(exponent))
    return number, (-power if is_negative(exponent) else power) - places


# ---- angles, in units of 0.000000001 degree

DEGREE = 1_000_000_000


def is_angle(text, most_digits):
    """A decimal: an integer part of at most so many digits, no leading zero except `0` alone, and up to 9 places."""
    before, _, after = text.partition(b".")
    return (is_decimal(text) and len(before) <= most_digits and (before == b"0" or has_no_leading_zero(before))
            and len(after) <= 9)


def angle(value):
    """Both have a value in units of 0.000000001 degree."""
    number, places = decimal(value)
    return number * 10 ** (9 - places)


def right_ascension(value):
    """An integer part of up to three digits; three digits start with 1, 2 or 3; 0 to below 360."""
    before = value.partition(b".")[0]
    if not is_angle(value, 3) or (len(before) == 3 and before[:1] not in (b"1", b"2", b"3")):
        return WRONG_FORM
    return 0 if angle(value) < 360 * DEGREE else OUT_OF_RANGE


def declination(value):
    """Optional sign, integer part of up to two digits, the same places; -90 to 90 inclusive."""
    if not is_angle(without_sign(value), 2):
        return WRONG_FORM
    return 0 if -90 * DEGREE <= angle(value) <= 90 * DEGREE else OUT_OF_RANGE


# ---- times

def parts_of_time(value):
    """`yyyy-mm-ddThh:mm:ss`, optionally a point and 1 to 6 digits, then `Z`; None for another form."""
    shape = b"dddd-dd-ddTdd:dd:dd"
    head, tail = value[:len(shape)], value[len(shape):]
    if len(head) < len(shape) or tail[-1:] != b"Z":
        return None
    for byte, wanted in zip(head, shape):
        if (byte not in DIGITS) if wanted == ord("d") else (byte != wanted):
            return None
    point, places = tail[:-1][:1], tail[:-1][1:]
    if point != b"" and not (point == b"." and are_digits(places) and len(places) <= 6):
        return None
    year, month, day = whole(head[0:4]), whole(head[5:7]), whole(head[8:10])
    hour, minute, second = whole(head[11:13]), whole(head[14:16]), whole(head[17:19])
    return year, month, day, hour, minute, second, whole(places.ljust(6, b"0"))


def is_leap(year):
    """Gregorian throughout."""
    return year % 4 == 0 and (year % 100 != 0 or year % 400 == 0)


def days_in_month(year, month):
    """The days of a month, February by the year."""
    return [31, 29 if is_leap(year) else 28, 31, 30, 31, 30, 31, 31, 30, 31, 30, 31][month - 1]


def time_form(value):
    """Years 0001 to 9999, hours 00 to 23, seconds 00 to 59."""
    parts = parts_of_time(value)
    if parts is None:
        return WRONG_FORM
    year, month, day, hour, minute, second, _ = parts
    right = (year >= 1 and 1 <= month <= 12 and 1 <= day <= days_in_month(year, month)
             and hour <= 23 and minute <= 59 and second <= 59)
    return 0 if right else OUT_OF_RANGE


def days_before(year, month, day):
    """Days from 0001-01-01 to this date, year after year and month after month."""
    years = sum(366 if is_leap(earlier) else 365 for earlier in range(1, year))
    return years + sum(days_in_month(year, earlier) for earlier in range(1, month)) + day - 1


def time(value):
    """A signed day number, 0 on 1858-11-17, and the microseconds of the day."""
    year, month, day, hour, minute, second, microsecond = parts_of_time(value)
    microseconds = ((hour * 60 + minute) * 60 + second) * 1_000_000 + microsecond
    return days_before(year, month, day) - days_before(1858, 11, 17), microseconds
