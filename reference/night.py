"""The night list of document 02's order 1, with order 3's refusal of radar observations, written for reading.

A list is bytes: one 40-byte record for each observation, no header, records one after another. An answer
is a tuple as in `ades`. `write` gives ("written",), `check` gives ("records", count), `read` gives
("record", number, station, day, microseconds, ra, dec); each of them else the refusal.
"""

import ades
import values
from ades import is_refused, refused

RECORD_LENGTH = 40

# What obsTime, ra and dec may be worth, both ends included.
DAYS = (values.time(b"0001-01-01T00:00:00Z")[0], values.time(b"9999-12-31T23:59:59Z")[0])
MICROSECONDS = (0, values.time(b"1858-11-17T23:59:59.999999Z")[1])
RIGHT_ASCENSIONS = (0, 360 * values.DEGREE - 1)
DECLINATIONS = (-90 * values.DEGREE, 90 * values.DEGREE)


# ---- one record

def low_first(number, count):
    """A whole number in so many bytes, low byte first, two's complement."""
    return number.to_bytes(count, "little", signed=True)


def whole(record, start, end):
    """The whole number in the bytes from start to before end."""
    return int.from_bytes(record[start:end], "little", signed=True)


def record_of(number, observation):
    """Byte 0 the observation's number less one; bytes 1 to 3 zero; 4 to 7 stn, a blank after a three-letter
    one; 8 to 11 the day number, 12 to 19 microseconds, 20 to 27 ra, 28 to 35 dec; 36 to 39 zero."""
    day, microseconds = values.time(observation[15])
    return (bytes([number - 1, 0, 0, 0]) + observation[8].ljust(4, b" ") + low_first(day, 4)
            + low_first(microseconds, 8) + low_first(values.angle(observation[17]), 8)
            + low_first(values.angle(observation[18]), 8) + bytes(4))


def fields(record):
    """The observation's number, the station's four bytes as a number, day, microseconds, ra and dec."""
    return (record[0] + 1, int.from_bytes(record[4:8], "little"), whole(record, 8, 12), whole(record, 12, 20),
            whole(record, 20, 28), whole(record, 28, 36))


def is_station(text):
    """A value of stn, or one of three letters and a blank. A value has no blank at either end."""
    value = text[:3] if text[3:] == b" " else text
    return value == value.strip(b" ") and values.alphanumerics(value, 3, 4) == 0


def is_within(number, ends):
    """The number is one of those from the first end to the last."""
    return ends[0] <= number <= ends[1]


def is_bad(record, number):
    """No accepted observation at that place could have written it; a short last record and a 257th are bad too.
    The fields do not depend on one another: each day has all microseconds, and any optical row may stand at any
    place."""
    if len(record) < RECORD_LENGTH or number > ades.ROW_LIMIT:
        return True
    written_number, _, day, microseconds, ra, dec = fields(record)
    right = (written_number == number and record[1:4] == bytes(3) and is_station(record[4:8])
             and is_within(day, DAYS) and is_within(microseconds, MICROSECONDS)
             and is_within(ra, RIGHT_ASCENSIONS) and is_within(dec, DECLINATIONS) and record[36:] == bytes(4))
    return not right


# ---- what callers ask

def write(report, observation, lent):
    """The answer, and the list after the call: 16 no observation of that number, then 23 a radar observation
    (order 3), then 19 list too short for that place; bytes outside the record stay."""
    answer = ades.read(report)
    if is_refused(answer):
        return answer, lent
    if not 1 <= observation <= len(answer[1]):
        return refused(16, 0, 0), lent
    if ades.is_radar(answer[1][observation - 1]):
        return refused(23, 0, 0), lent
    end = RECORD_LENGTH * observation
    if len(lent) < end:
        return refused(19, 0, 0), lent
    record = record_of(observation, answer[1][observation - 1])
    return ("written",), lent[:end - RECORD_LENGTH] + record + lent[end:]


def records_of(lent):
    """The list parted into records, the last of them perhaps short."""
    return [lent[start:start + RECORD_LENGTH] for start in range(0, len(lent), RECORD_LENGTH)]


def check(lent):
    """How many records there are, or 20 at the first bad one; line 0, place the record's number from 1."""
    records = records_of(lent)
    for number, record in enumerate(records, start=1):
        if is_bad(record, number):
            return refused(20, 0, number)
    return ("records", len(records))


def read(lent, number):
    """The fields of the record of that number; after 20, 16 where the list has no such record."""
    answer = check(lent)
    if is_refused(answer):
        return answer
    if not 1 <= number <= answer[1]:
        return refused(16, 0, 0)
    return ("record", *fields(records_of(lent)[number - 1]))
