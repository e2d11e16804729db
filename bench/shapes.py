"""Makes the reports that are measured:

    python3 bench/shapes.py FOLDER

writes one file for each shape into the folder and prints the file's name; beside them one for each year in which obsTime is
valued, `year-0001` and so on, and one for each form in which a covariance is, `covariance-exponential` and so on, which it
does not print.
"""

import pathlib
import sys

VERSION = "# version=2022"
TEXT_LIMIT = 65_536
ROW_LIMIT = 256

# The columns of a usual report of one observatory, each with the width that its values are padded to.
USUAL = {"permID": 7, "provID": 11, "trkSub": 8, "mode": 4, "stn": 4, "obsTime": 24, "ra": 10, "dec": 10,
         "rmsRA": 5, "rmsDec": 6, "astCat": 8, "mag": 5, "rmsMag": 6, "band": 4, "photCat": 8, "notes": 5,
         "remarks": 10}

# Elements that any observation may have or not have: eight of them make 256 sets.
FREE_TO_CHOOSE = ("obsID", "obsSubID", "prog", "rmsTime", "rmsRA", "rmsDec", "notes", "remarks")

# Every element of an optical observation but artSat, whose values say nothing that the others do not, and the covariances,
# which have their own shape.
NEARLY_ALL = ("permID provID trkSub obsID obsSubID mode stn sys ctr pos1 pos2 pos3 prog obsTime rmsTime ra dec rmsRA "
              "rmsDec rmsCorr astCat mag rmsMag band photCat photAp notes remarks").split()


def observation(number):
    """A value for every element of a moving object's optical observation of that number."""
    seconds = 4 * 3_600 + 15 * number
    clock = f"{seconds // 3_600:02}:{seconds // 60 % 60:02}:{seconds % 60:02}"
    return {
        "permID": str(3_202 + number), "provID": f"2016 AZ{number + 6}", "trkSub": f"a{number}",
        "obsID": f"L{number:05}x", "obsSubID": f"{number}.1", "mode": "CCD", "stn": "W84", "sys": "WGS84", "ctr": "399",
        "pos1": f"+289.{number:04}", "pos2": f"-30.{number:04}", "pos3": str(2_200 + number), "prog": "01",
        "obsTime": f"2024-03-01T{clock}.{number % 10}Z", "rmsTime": "0.5",
        "ra": f"{10 + number // 9}.{5_000 + 7 * number:06}", "dec": f"-{number // 8}.{25_000 + 11 * number:06}",
        "rmsRA": "0.12", "rmsDec": f"0.{11 + number % 30}", "rmsCorr": "-0.05", "astCat": "Gaia2",
        "mag": f"{18 + number % 3}.{number % 10}", "rmsMag": "0.1", "band": "G", "photCat": "Gaia2", "photAp": "5.6",
        "notes": "K", "remarks": f"frame {number}"}


def covariances_of(number):
    """The six covariances of a roving station: longitude and latitude in degrees, known to some meters, and height in meters.
    Three rows of four have small numbers in exponential form, the fourth has them in decimal form."""
    east, north, up = 2_100 + 37 * number % 1_900, 1_300 + 53 * number % 1_700, 20 + number % 61
    both = 11 * number % 900 - 450
    if number % 4 == 3:
        return {"posCov11": f"0.00000000{east}", "posCov12": f"{both / 1e12:.12f}", "posCov13": f"-0.00000{number:03}",
                "posCov22": f"0.00000000{north}", "posCov23": f"+0.00000{number:03}", "posCov33": f"{up}.25"}
    return {"posCov11": f"{east / 1_000:.3f}e-09", "posCov12": f"{both / 100:.2f}e-10", "posCov13": f"-{number}.5e-8",
            "posCov22": f"{north / 1_000:.3f}E-9", "posCov23": f"+{number}.25E-8", "posCov33": f"{up}.{number % 10}e0"}


def radar_observation(number):
    """A value for every element of a radar observation of that number, of its delay as of its Doppler shift."""
    row = only(observation(number), ("permID", "provID", "obsID", "prog", "obsTime", "notes", "remarks"))
    return row | {
        "trx": "251", "rcv": "257" if number % 5 == 0 else "251", "delay": f"{20 + number // 7}.{37 * number:08}",
        "rmsDelay": f"0.{1 + number % 9}5", "doppler": f"{'-' if number % 2 else ''}{1_000 + 13 * number}.{number:04}",
        "rmsDoppler": f"0.{2 + number % 7}", "frq": "2380", "com": str(number % 2)}


def line(row, columns):
    """A data line without padding."""
    return "|".join(row.get(name, "") for name in columns)


def block(columns, lines):
    """A block of the columns and lines."""
    return "".join(each + "\n" for each in (VERSION, "|".join(columns), *lines))


def only(row, names):
    """The row with those elements only."""
    return {name: row[name] for name in names}


PLAIN = "trkSub mode stn obsTime ra dec astCat".split()

# The columns of a roving station's row.
ROVING = ("trkSub mode stn sys ctr pos1 pos2 pos3 posCov11 posCov12 posCov13 posCov22 posCov23 posCov33 obsTime ra dec "
          "astCat").split()

# The columns of a radar row with its delay, of one with its Doppler shift, and of both in one block.
DELAY = "permID obsTime trx rcv delay rmsDelay frq com".split()
DOPPLER = "permID obsTime trx rcv doppler rmsDoppler frq com".split()
RADAR = "permID obsTime trx rcv delay rmsDelay doppler rmsDoppler frq com".split()


def one_row():
    """One row."""
    return block(PLAIN, [line(observation(1), PLAIN)])


def plain_rows():
    """256 plain rows."""
    return block(PLAIN, [line(observation(number), PLAIN) for number in range(ROW_LIMIT)])


def usual_row(number):
    """A usual row: every third object has a number, and every eighth row has remarks."""
    row = only(observation(number), USUAL)
    for name in ("provID", "trkSub") if number % 3 == 0 else ("permID", "notes"):
        row[name] = ""
    if number % 8:
        row["remarks"] = ""
    return row


def padded_rows():
    """256 usual rows with padding."""
    lines = ["|".join(usual_row(number)[name].ljust(width) for name, width in USUAL.items())
             for number in range(ROW_LIMIT)]
    return block([name.ljust(width) for name, width in USUAL.items()], lines)


def nearly_all_columns():
    """As many rows of nearly all columns as a report may hold."""
    return block(NEARLY_ALL, [line(observation(number), NEARLY_ALL) for number in range(ROW_LIMIT)])


def long_remarks():
    """Rows with remarks of 300 bytes, as many as a report may hold."""
    columns = PLAIN + ["remarks"]
    text = ("seeing 2.1 arcsec, thin cirrus from the west, guiding by hand; " * 5)[:299] + "."
    lines = [line(observation(number) | {"remarks": text}, columns) for number in range(ROW_LIMIT)]
    while len(block(columns, lines)) > TEXT_LIMIT:
        lines.pop()
    return block(columns, lines)


def two_kinds():
    """Two kinds of optical rows in turn."""
    columns = PLAIN + ["mag", "rmsMag", "band", "remarks"]
    kinds = (PLAIN, columns)
    return block(columns, [line(only(observation(number), kinds[number % 2]), columns) for number in range(ROW_LIMIT)])


def own_sets():
    """Every row its own set of elements."""
    columns = PLAIN + list(FREE_TO_CHOOSE)
    lines = []
    for number in range(ROW_LIMIT):
        chosen = [name for place, name in enumerate(FREE_TO_CHOOSE) if number >> place & 1]
        lines.append(line(only(observation(number), PLAIN + chosen), columns))
    return block(columns, lines)


def whole_text():
    """65,536 bytes: 256 usual rows without padding, filled up with remarks."""
    columns = list(USUAL)
    rows = [usual_row(number) | {"remarks": "r"} for number in range(ROW_LIMIT)]
    missing = TEXT_LIMIT - len(block(columns, [line(row, columns) for row in rows]))
    for number, row in enumerate(rows):
        row["remarks"] += "e" * (missing // ROW_LIMIT + (number < missing % ROW_LIMIT))
    return block(columns, [line(row, columns) for row in rows])


def radar_rows():
    """256 radar rows: eight with their delay and eight with their Doppler shift in turn."""
    measured = (DELAY, DOPPLER)
    rows = [only(radar_observation(number), measured[number // 8 % 2]) for number in range(ROW_LIMIT)]
    return block(RADAR, [line(row, RADAR) for row in rows])


def mixed_kinds():
    """Optical and radar rows in turn, each in a block of its own; every second radar row has its Doppler shift."""
    blocks = []
    for number in range(0, ROW_LIMIT, 2):
        columns = (DELAY, DOPPLER)[number // 2 % 2]
        blocks.append(block(PLAIN, [line(observation(number), PLAIN)]))
        blocks.append(block(columns, [line(radar_observation(number + 1), columns)]))
    return "".join(blocks)


def roving_observation(number):
    """A roving station's observation of that number, with its covariances."""
    return observation(number) | {"stn": "247"} | covariances_of(number)


def covariances():
    """256 rows of a roving station, each with the six covariances of its place."""
    return block(ROVING, [line(roving_observation(number), ROVING) for number in range(ROW_LIMIT)])


SHAPES = {"one-row": one_row, "plain-rows": plain_rows, "padded-rows": padded_rows,
          "nearly-all-columns": nearly_all_columns, "long-remarks": long_remarks, "two-kinds": two_kinds,
          "own-sets": own_sets, "whole-text": whole_text, "radar-rows": radar_rows, "mixed-kinds": mixed_kinds,
          "covariances": covariances}


# The years in which obsTime is valued.
YEARS = (1, 1858, 2024, 9999)


def one_row_in(year):
    """One row, of that year."""
    row = observation(1)
    row["obsTime"] = f"{year:04}" + row["obsTime"][4:]
    return block(PLAIN, [line(row, PLAIN)])


# The forms in which posCov11 is valued: a usual one, and as many digits as it may have.
COVARIANCES = {"exponential": "2.137e-09", "digits": "12345678901234567890"}


def one_row_with(covariance):
    """One row of a roving station, with that posCov11."""
    return block(ROVING, [line(roving_observation(1) | {"posCov11": covariance}, ROVING)])


def main(folder):
    """Writes every shape, every year and every form of a covariance."""
    for year in YEARS:
        (folder / f"year-{year:04}").write_bytes(one_row_in(year).encode("ascii"))
    for form, covariance in COVARIANCES.items():
        (folder / f"covariance-{form}").write_bytes(one_row_with(covariance).encode("ascii"))
    for name, shape in SHAPES.items():
        text = shape().encode("ascii")
        assert len(text) <= TEXT_LIMIT, name
        (folder / name).write_bytes(text)
        print(name)


if __name__ == "__main__":
    main(pathlib.Path(sys.argv[1]))
