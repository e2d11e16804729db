"""Cases on the form of each element: at its edges, one byte past them, with wrong bytes.

`RIGHT` and `WRONG` are written by hand from document 01 and orders 2 and 3, not worked out, the decimals of each
width follow from how they are put together, and the day numbers at the turns of the calendar are those of Python's
library: the reference has to agree with all of them before a case is made.
"""

import datetime

import ades
from reports import (DELAY_SPECIMEN, SPECIMEN, block, delay_row, doppler_row, row, row_with, shuffled_columns,
                     small_row, to_check, to_show, to_value)

BYTES_25 = b"abcdefghijklmnopqrstuvwxy"

# Right values by element; where the element has a value, what it is worth.
RIGHT = {
    "permID": [b"1", b"9", b"10", b"433", b"12345678", b"61999999", b"9999999", b"1P", b"9D", b"999999P",
               b"100000D", b"73P-C", b"73P-BK", b"1D-A", b"999999D-ZZ"],
    "provID": [b"2016 AZ6", b"2016 AA", b"2016 YZ", b"0000 HH1", b"9999 JK61999", b"2016 AZ9", b"2016 AZ10",
               b"2016 AZ99", b"2016 AZ12345", b"2016 AZ61999", b"2016 AY", b"C/1999 K7", b"C/1995 O1-A",
               b"P/1996 J1-AZ", b"D/1993 F2", b"X/1106 C1", b"A/2017 U1", b"A/2017 UZ999", b"C/0000 AB999-ZZ",
               b"P/2016 I1", b"C/2016 Z10", b"C/2016 ZZ100"],
    "artSat": [b"1998-067A", b"0000-000A", b"9999-999ZZZ", b"2020-001AB"],
    "trkSub": [b"a", b"_", b"0", b"abcdefgh", b"a b", b"a      b", b"A_9 z_0Z", b"Z"],
    "obsID": [b"a", BYTES_25, b"A b_0", b"0", BYTES_25[:12] + b" " + BYTES_25[13:]],
    "obsSubID": [b"a", BYTES_25, b"!", b"~", b"#", b"a#b", b"{}", b"\"a, b\"; \\", b"-.+/:"],
    "mode": [b"PHO", b"ENC", b"CCD", b"MER", b"MIC", b"NOR", b"VID", b"PMT"],
    "stn": [b"W84", b"000", b"abc", b"ABCD", b"a_b", b"a b", b"a  b", b"____", b"9999"],
    "sys": [b"WGS84", b"ITRF", b"IAU", b"ICRF_AU", b"ICRF_KM"],
    "prog": [b"a", b"01", b"__", b"Z9"],
    "astCat": [b"u", b"Gaia2", b"abcdefgh", b"a b c d", b"UCAC_4", b"2MASS"],
    "band": [b"G", b"Gaa", b"a b", b"_0z", b"Bj"],
    "photCat": [b"a", b"Gaia2", b"ABCDEFGH", b"a_ _9"],
    "notes": [b"K", b"abcdef", b"a b", b"012345"],
    "remarks": [b"a", b"#", b"x" * 300, b"two  words", b"~!@$%^&*()", b"# version=2022", b"x" * 299,
                b"a" + b" " * 298 + b"b"],
    "ctr": {b"0": 0, b"1": 1, b"-1": -1, b"399": 399, b"10": 10, b"999999999": 999999999, b"-99999999": -99999999,
            b"100000000": 100000000},
    "pos1": {b"0": (0, 0), b"-0": (0, 0), b"+0.0": (0, 1), b"-0.00": (0, 2), b"-0.25": (-25, 2),
             b"007.50": (750, 2), b"1234567890123": (1234567890123, 0), b"-0.00000000001": (-1, 11),
             b"12345678901.5": (123456789015, 1), b"1.50": (150, 2), b"0000000000000": (0, 0)},
    "pos2": {b"9999999999.99": (999999999999, 2), b"-1.2": (-12, 1), b"+1.20": (120, 2)},
    "pos3": {b"-00000000000.1": (-1, 1), b"2510.0": (25100, 1), b"5": (5, 0)},
    "obsTime": {b"2024-03-01T04:05:06.5Z": (60370, 14706500000), b"1858-11-17T00:00:00Z": (0, 0),
                b"1858-11-16T23:59:59.999999Z": (-1, 86399999999), b"0001-01-01T00:00:00Z": (-678575, 0),
                b"9999-12-31T23:59:59.999999Z": (2973483, 86399999999), b"2000-02-29T00:00:00.1Z": (51603, 100000),
                b"2024-02-29T12:00:00.000001Z": (60369, 43200000001), b"1900-02-28T01:00:00Z": (15078, 3600000000),
                b"1900-03-01T00:00:00Z": (15079, 0), b"2400-02-29T00:01:00.12Z": (197700, 60120000),
                b"2023-04-30T00:00:01.123Z": (60064, 1123000), b"2023-12-31T23:00:00.1234Z": (60309, 82800123400),
                b"2024-01-01T00:00:00.12345Z": (60310, 123450), b"1582-10-10T00:00:00Z": (-100845, 0)},
    "rmsTime": {b"0.001": (1, 3), b"12345678": (12345678, 0), b"0.000001": (1, 6), b"1": (1, 0), b"00000001": (1, 0),
                b"1.000000": (1000000, 6)},
    "ra": {b"0": 0, b"0.0": 0, b"0.000000001": 1, b"359.999999999": 359999999999, b"9": 9000000000,
           b"10": 10000000000, b"99.9": 99900000000, b"100": 100000000000, b"199": 199000000000,
           b"299.5": 299500000000, b"359": 359000000000, b"10.50": 10500000000, b"1.123456789": 1123456789,
           b".5": 500000000, b"5.": 5000000000, b"0.": 0, b".0": 0, b".000000000": 0, b".000000001": 1,
           b".05": 50000000, b".999999999": 999999999, b"9.": 9000000000, b"10.": 10000000000, b"99.": 99000000000,
           b"100.": 100000000000, b"359.": 359000000000, b"300.": 300000000000},
    "dec": {b"-0.25": -250000000, b"0": 0, b"-0": 0, b"+0": 0, b"+0.0": 0, b"90": 90000000000, b"-90": -90000000000,
            b"+90.000000000": 90000000000, b"-90.0": -90000000000, b"89.999999999": 89999999999, b"9": 9000000000,
            b"-0.000000001": -1, b"+10.5": 10500000000, b"-10": -10000000000, b"-89.999999999": -89999999999,
            b"90.": 90000000000, b"-90.": -90000000000, b"+90.": 90000000000, b"89.": 89000000000, b"-9.": -9000000000,
            b".5": 500000000, b"-.5": -500000000, b"+.5": 500000000, b"5.": 5000000000, b"-5.": -5000000000,
            b"+5.": 5000000000, b"0.": 0, b"-0.": 0, b"+0.": 0, b".0": 0, b"-.0": 0, b"+.0": 0, b"-.000000000": 0,
            b".000000001": 1, b"-.000000001": -1, b"+.999999999": 999999999, b"-.999999999": -999999999,
            b"-.05": -50000000},
    "rmsRA": {b"0.1": (1, 1), b"1234567": (1234567, 0), b"0.00001": (1, 5), b"100": (100, 0), b"0000001": (1, 0)},
    "rmsDec": {b"00.1": (1, 1), b"1234.56": (123456, 2)},
    "rmsCorr": {b"1": (1, 0), b"-1": (-1, 0), b"+1.0": (10, 1), b"0": (0, 0), b"-0.0": (0, 1), b"001": (1, 0),
                b"0.99999999999": (99999999999, 11), b"-0.99999999999": (-99999999999, 11),
                b"1.00000000000": (100000000000, 11), b"-01.0000000000": (-10000000000, 10),
                b"1.": (1, 0), b"-1.": (-1, 0), b"+1.": (1, 0), b".5": (5, 1), b"-.5": (-5, 1), b"+.5": (5, 1),
                b"0.": (0, 0), b"-0.": (0, 0), b".0": (0, 1), b"-.0": (0, 1), b"+.000": (0, 3), b"1.0000": (10000, 4),
                b"-001.": (-1, 0), b".999999999999": (999999999999, 12), b"-.999999999999": (-999999999999, 12),
                b"+.000000000001": (1, 12), b"0000000000001": (1, 0), b"000000000001.": (1, 0),
                b"-000000000001.": (-1, 0), b"+000000000000.": (0, 0)},
    "mag": {b"20.1": (201, 1), b"-26.74": (-2674, 2), b"+00.00": (0, 2), b"123456": (123456, 0),
            b"-123456": (-123456, 0), b"0": (0, 0), b"12.345": (12345, 3), b"+9.9999": (99999, 4),
            b"10.50": (1050, 2)},
    "rmsMag": {b"0.1": (1, 1), b"0.0001": (1, 4), b"000001": (1, 0)},
    "photAp": {b"3.5": (35, 1), b"123456": (123456, 0), b"1234.5": (12345, 1)},
    "trx": [b"251", b"000", b"abc", b"ABCD", b"a_b", b"a b", b"a  b", b"____", b"9999"],
    "rcv": [b"253", b"zzz", b"_ _", b"W84a", b"1 34", b"12 4", b"0123", b"___"],
    "com": [b"0", b"1"],
    "delay": {b"12.5": (125, 1), b"1": (1, 0), b"0.000000000001": (1, 12), b"12345678901234": (12345678901234, 0),
              b"1234567.890123": (1234567890123, 6), b"00000000000001": (1, 0), b"1.50": (150, 2),
              b"007.50": (750, 2), b"99999999999999": (99999999999999, 0), b"1.000000000000": (1000000000000, 12)},
    "rmsDelay": {b"0.5": (5, 1), b"123456": (123456, 0), b"0.0001": (1, 4), b"000001": (1, 0), b"100": (100, 0),
                 b"1234.5": (12345, 1)},
    "doppler": {b"-0.25": (-25, 2), b"0": (0, 0), b"-0": (0, 0), b"+0": (0, 0), b"+0.0": (0, 1), b"-0.00": (0, 2),
                b"12345678901234": (12345678901234, 0), b"-12345678901234": (-12345678901234, 0),
                b"+12345678901234": (12345678901234, 0), b"-1234567.890123": (-1234567890123, 6),
                b"-0.000000000001": (-1, 12), b"+1.20": (120, 2), b"1.2": (12, 1), b"00000000000000": (0, 0),
                b"-00000000000.10": (-10, 2), b"-99999999999999": (-99999999999999, 0), b"007.50": (750, 2)},
    "rmsDoppler": {b"0.2": (2, 1), b"999999": (999999, 0), b"00.100": (100, 3), b"0.0001": (1, 4), b"1": (1, 0)},
    "frq": {b"8560": (8560, 0), b"2380.0": (23800, 1), b"8559.999999999": (8559999999999, 9),
            b"99999999999999": (99999999999999, 0), b"0.000000000001": (1, 12), b"1234567": (1234567, 0),
            b"0000000002380.": (2380, 0)},
}

# Wrong values by element and refusal number.
WRONG = {
    "permID": {
        9: [b"0", b"00", b"01", b"123456789", b"0P", b"01P", b"1234567P", b"P", b"1p", b"1C", b"1P-", b"1P-a",
            b"1P-ABC", b"1P-A1", b"1PA", b"1P A", b"-1", b"+1", b"1.0", b"1 2", b"1I", b"Jupiter 13", b"1P-A-B",
            b"000000001", b"1PP", b"1P/Halley", b"062000000"],
        10: [b"62000000", b"99999999", b"70000000"],
    },
    "provID": {
        9: [b"2016 AI6", b"2016 IA6", b"2016 ZA", b"2016 AZ0", b"2016 AZ06", b"2016 AZ123456", b"2016AZ6",
            b"2016_AZ6", b"201A AZ6", b"2016  AZ6", b"216 AZ6", b"02016 AZ6", b"2016 az6", b"2016 A", b"2016 A6",
            b"2016 AZ6A", b"2016 AZ-6", b"2016 AZ 6", b"2016 AZ6-A", b"4007 P-L", b"S/2001 U 9", b"2016",
            b"C/1996 J0", b"C/1996 J01", b"C/1996 J1000", b"C/1996 J", b"C/1996 1", b"C/1996 ABC1", b"C/1996 J1-",
            b"C/1996 J1-abc", b"C/1996 J1-ABC", b"A/2017 U1-A", b"B/1996 J1", b"c/1996 J1", b"C/199 J1",
            b"C/19966 J1", b"C/1996J1", b"C/1996_J1", b"C/199A J1", b"C-1996 J1", b"C/1996 j1", b"C/1996 J1A", b"/",
            b"C/", b"A/2017 U1-", b"X/ 106 C1", b"2016 A6Z", b"A903 AA", b"2016 AZ620000"],
        10: [b"2016 AZ62000", b"2016 AA99999", b"2016 YZ62001"],
    },
    "artSat": {
        9: [b"1998-067", b"1998-067a", b"1998-067ABCD", b"1998067A", b"998-067A", b"1998-67A", b"1998-0670A",
            b"1998 067A", b"A998-067A", b"1998-067A1", b"1998-06AA", b"199A-067A", b"1998-A67A", b"A",
            b"1998-067A B"],
    },
    "trkSub": {
        8: [b"abcdefghi", b"a       b", b"x" * 60],
        9: [b"a-b", b"a.b", b"-", b"abcdefgh-", b"a#b", b"a~", b"(a)", b"a/b"],
    },
    "obsID": {
        8: [BYTES_25 + b"z", b"a" * 300],
        9: [b"a-b", BYTES_25 + b"-", b"a.b", b"@", b"[a]", b"`", b"{"],
    },
    "obsSubID": {
        8: [BYTES_25 + b"z", b"-" * 26, b"#" * 301],
    },
    "mode": {
        10: [b"ccd", b"CC", b"CCDD", b"C", b"TDI", b"CC D", b"-", b"PHO ENC", b"A" * 40, b"CMO", b"VIDX", b"PM"],
    },
    "stn": {
        8: [b"W8", b"W", b"W8412", b"a   b"],
        9: [b"W-4", b"-", b"W8-12", b"W.84", b"a:", b"$84"],
    },
    "sys": {
        10: [b"wgs84", b"WGS8", b"WGS844", b"ITRF IAU", b"ICRF", b"ICRF_au", b"I", b"_", b"ICRF-AU", b"399"],
    },
    "prog": {
        8: [b"abc", b"a b", b"0123456789"],
        9: [b"-", b"a-", b"abc-", b"+1", b"!"],
    },
    "astCat": {
        8: [b"abcdefghi", b"x" * 301],
        9: [b"Gaia-2", b"Gaia.2", b"abcdefghi.", b"*", b"a,b"],
    },
    "band": {
        8: [b"Gaia", b"a  b"],
        9: [b"g'", b"-", b"Gaia-", b"B.1"],
    },
    "photCat": {
        8: [b"abcdefghi"],
        9: [b"Gaia.2", b"a-b", b"Gaia EDR3."],
    },
    "notes": {
        8: [b"abcdefg", b"a     b"],
        9: [b"a-b", b"?", b"abcdefg?"],
    },
    "remarks": {
        8: [b"x" * 301, b"a" + b" " * 299 + b"b", b"#" * 1000],
    },
    "ctr": {
        8: [b"1234567890", b"-123456789", b"+123456789", b"0000000000", b"abcdefghij", b"1 34567890", b"123456789.",
            b".123456789", b"." * 10],
        9: [b"00", b"-0", b"01", b"-01", b"+1", b"-", b"+", b"--1", b"1.0", b"1-", b"a", b"+12345678", b"1 2",
            b"3A9", b"000000000", b"399.", b".5", b".", b"-.", b"0.", b".0", b"-1.", b"-.5", b"12345678.", b".12345678",
            b"." * 9],
    },
    "pos1": {
        8: [b"12345678901234", b"+12345678901234", b"-12345678901234", b"1234567890.123", b"abcdefghijklmn",
            b"--1234567890123", b"+" * 15, b"00000000000000"],
        9: [b"--1", b"+-1", b"1-", b"1+", b"1.2.3", b"1,2", b"1e5", b"1 2", b"a", b"+abcdefghijklm", b"1..2", b"- 1",
            b"0x10", b"1_0", b"--123456789012"],
    },
    "pos2": {
        8: [b"0.000000000001"],
        9: [b"1.-2", b"1.e5"],
    },
    "pos3": {
        8: [b"-1234567890.123"],
        9: [b"2510m", b"1. 5"],
    },
    "obsTime": {
        9: [b"2024-03-01T04:05:06", b"2024-03-01T04:05Z", b"2024-03-01", b"2024-03-01 04:05:06Z",
            b"2024-03-01t04:05:06Z", b"2024-03-01T04:05:06z", b"2024-03-01T04:05:06.Z",
            b"2024-03-01T04:05:06.1234567Z", b"2024-3-01T04:05:06Z", b"24-03-01T04:05:06Z", b"2024/03/01T04:05:06Z",
            b"2024-03-01T04.05.06Z", b"2024-03-01T04:05:6Z", b"2024-03-01T04:05:06,5Z", b"2024-03-01T04:05:06.5",
            b"02024-03-01T04:05:06Z", b"-024-03-01T04:05:06Z", b"2024-03-01T04:05:06.5ZZ", b"Z",
            b"2024-03-01T04:05:06.5 Z", b"2024-03-01T04:05:06.-Z", b"2O24-03-01T04:05:06Z",
            b"2024-03-01T04:05:06+00", b"2024-03-01T04:05:0 Z", b"2024-03-01T04:05:065Z", b"2024-13-01T04:05:06",
            b"2024-03-01T0:405:06Z", b"2024-03-01T04:05:06.12345xZ", b"2024-03-01T04:05:06..Z",
            b"2024-03-01T04:05:06..5Z", b"2024-03-01T04:05:06.5.Z", b"2024-03-01T04:05:6.Z", b"2024-03-01T04:05:.5Z",
            b"2024-03-01T04:05:06.", b"2024-03-01T04:05:06Z.", b"2024-03-01T04:05:06.123456.Z", b".Z", b".",
            b"2024-13-01T24:60:60.Z"],
        10: [b"2023-02-29T00:00:00Z", b"0000-01-01T00:00:00Z", b"2024-00-01T00:00:00Z", b"2024-13-01T00:00:00Z",
             b"2024-01-00T00:00:00Z", b"2024-01-32T00:00:00Z", b"2024-02-30T00:00:00Z", b"2024-04-31T00:00:00Z",
             b"2024-06-31T00:00:00Z", b"2024-09-31T00:00:00Z", b"2024-11-31T00:00:00Z", b"1900-02-29T00:00:00Z",
             b"2100-02-29T00:00:00Z", b"2024-03-01T24:00:00Z", b"2024-03-01T00:60:00Z", b"2016-12-31T23:59:60Z",
             b"2024-03-01T99:00:00Z", b"2024-03-01T00:00:61.5Z", b"2024-12-32T00:00:00.999999Z",
             b"9999-99-99T99:99:99Z"],
    },
    "rmsTime": {
        8: [b"123456789", b"0.0000001", b"-12345678", b"000000000"],
        9: [b"-1", b"+1", b"-0", b"a", b"1.2.3", b"-1234567", b"1e-3"],
        10: [b"0", b"0.0", b"0.000000", b"00000000"],
    },
    "ra": {
        9: [b"005", b"00", b"01", b"400", b"999.9", b"1000", b"-1", b"+1", b"-0", b"10.1234567890", b"a", b"1 0",
            b"10.5.5", b"00.5", b"000", b"012.3", b"10:30", b"3600", b"360.0000000000", b".", b"+", b"-", b"+.", b"-.",
            b"..", b"..5", b"5..", b".5.", b". 5", b"5 .", b"+.5", b"-.5", b"+5.", b"-5.", b"-.0", b".-5", b"5.+",
            b"00.", b"05.", b"000.", b"005.", b"00.0", b"012.", b"400.", b"999.", b"1000.", b"3600.", b".a", b"a.",
            b".9999999999", b".0000000000", b".1234567890", b"0.0000000000", b"." * 10, b"." * 40],
        10: [b"360", b"360.0", b"399.9", b"360.000000001", b"361", b"399", b"370.123456789", b"360.", b"361.", b"399.",
             b"370.", b"360.000000000"],
    },
    "dec": {
        9: [b"00", b"01", b"-01", b"+00.5", b"100", b"-100", b"+", b"-", b"--1", b"+-1", b"1.0123456789", b"a", b"1 2",
            b"-10.5.5", b"- 1", b"090", b"-90:00", b"999", b".", b"+.", b"-.", b"..", b"-..", b"..5", b"-..5", b"5..",
            b".5.", b"-.5.", b". 5", b"5 .", b"-. 5", b"- .5", b"--.5", b"+-5.", b"-+.", b".-5", b"-5.-", b"00.",
            b"-00.", b"+05.", b"09.", b"100.", b"-100.", b"900.", b".a", b"-a.", b".9999999999", b"-.9999999999",
            b"+.0000000000", b"-0.0000000000", b"-" + b"." * 10, b"." * 40],
        10: [b"91", b"-91", b"90.000000001", b"-90.000000001", b"+90.1", b"99", b"-99.999999999", b"90.1", b"91.",
             b"-91.", b"+91.", b"99.", b"-99."],
    },
    "rmsRA": {
        8: [b"12345678", b"0.000001", b"-1234567", b"+1234.56"],
        9: [b"-0.1", b"+0.1", b"-0", b"x"],
        10: [b"0", b"0.0", b"0.00000"],
    },
    "rmsDec": {
        8: [b"00000000", b"12345.67"],
        9: [b"+1", b"1 1", b"0,1"],
        10: [b"000", b"0000.00"],
    },
    "rmsCorr": {
        8: [b"0.123456789012", b"-0.123456789012", b"12345678901234", b"1.000000000000"],
        9: [b"--1", b"a", b"1/2", b"+-0.5"],
        10: [b"2", b"-2", b"1.00000000001", b"-1.0000000001", b"+1.1", b"10", b"-1.00000000001", b"1234567890123",
             b"2.", b"-2.", b"+2.", b"1.1", b"10.", b"-11.", b"01.00001", b"999999999999.", b"-000000000002."],
    },
    "mag": {
        8: [b"1234567", b"-1234567", b"12.3456", b"+-12345.6", b"abcdefg"],
        9: [b"2 0", b"20m", b"<20.1", b"+-1"],
    },
    "rmsMag": {
        8: [b"0.00001", b"1234567", b"-123456"],
        9: [b"-0.1", b"+0.1", b"a"],
        10: [b"0", b"0.0", b"0.0000", b"000000"],
    },
    "photAp": {
        8: [b"1234567", b"+123456"],
        9: [b"-3.5", b"+3.5", b"3,5"],
        10: [b"0", b"00.000", b"0.00"],
    },
    "trx": {
        8: [b"25", b"2", b"25112", b"a   b", b"x" * 60],
        9: [b"2-1", b"-", b"25-12", b"2.1", b"25.", b"a:", b"$51", b"251/3", b"--"],
    },
    "rcv": {
        8: [b"ab", b"_", b"a b c", b"x" * 301],
        9: [b"25+", b"+", b"2,3", b"253-", b"253-253", b"~53", b"25 3.5"],
    },
    "delay": {
        8: [b"123456789012345", b"0.0000000000001", b"-12345678901234", b"+1234567.890123", b"000000000000000",
            b"abcdefghijklmno", b"-" * 15],
        9: [b"-12.5", b"+12.5", b"-0", b"+1", b"-1234567890123", b"a", b"1.2.3", b"1,2", b"1e5", b"1 2", b"0x1",
            b"12s", b"-00000000000.0", b"+0.00000000001"],
        10: [b"0", b"0.0", b"00", b"00000000000000", b"0.000000000000", b"000000000000.0"],
    },
    "rmsDelay": {
        8: [b"1234567", b"0.00001", b"-123456", b"+0.0001", b"0000000", b"abcdefg"],
        9: [b"-0.5", b"+0.5", b"-0", b"a", b"1 1", b"1e-3", b"-12345"],
        10: [b"0", b"0.0", b"000000", b"0.0000"],
    },
    "doppler": {
        8: [b"123456789012345", b"-123456789012345", b"+123456789012345", b"0.0000000000001", b"-0.0000000000001",
            b"--12345678901234", b"000000000000000", b"abcdefghijklmno", b"+" * 16],
        9: [b"--1", b"+-1", b"-+1", b"1-", b"1+", b"1.2.3", b"1,2", b"1e5", b"1 2", b"a", b"- 1", b"-abcdefghijklmn",
            b"--1234567890123", b"1_0", b"12Hz"],
    },
    "rmsDoppler": {
        8: [b"1234567", b"0.00001", b"-123456", b"+123456", b"0000.00"],
        9: [b"-0.2", b"+0.2", b"-0", b"x", b"0,2"],
        10: [b"0", b"0.0", b"000000", b"00.000"],
    },
    "frq": {
        8: [b"123456789012345", b"8559.9999999999", b"+12345678901234", b"-8559.999999999", b"000000000000000"],
        9: [b"-8560", b"+8560", b"-0", b"8.56e3", b"8560MHz", b"8 560", b"-1234567890123"],
        10: [b"0", b"0.0", b"00000000000000", b"0.000000000000"],
    },
    "com": {
        10: [b"2", b"9", b"00", b"01", b"10", b"11", b"000", b"-", b"+", b".", b"-0", b"+0", b"-1", b"+1", b"0.", b".0",
             b"1.", b"1.0", b"0.0", b".1", b"0 1", b"1 0", b"0 0", b"O", b"o", b"l", b"I", b"T", b"F", b"true",
             b"false", b"yes", b"no", b"True", b"\"1\"", b"0x0", b"/", b":", b"!", b"~", b"_", b"#", b"a", b"@", b"p",
             b"q", b"CCD", b"0,1", b"0" * 40, b"1" * 300, b"1" * 301, b"peak power", b"1" + b" " * 400 + b"1"],
    },
}

TIMES, ANGLES, WHOLES = ("obsTime",), ("ra", "dec"), ("ctr",)


# ---- decimals with the point first or last, by their width

SIGNED = {"pos1": 13, "pos2": 13, "pos3": 13, "mag": 6, "doppler": 14}
POSITIVE = {"rmsTime": 8, "rmsRA": 7, "rmsDec": 7, "rmsMag": 6, "photAp": 6, "delay": 14, "rmsDelay": 6,
            "rmsDoppler": 6, "frq": 14}
SIGNS = {b"": 1, b"+": 1, b"-": -1}


def above_zero(width):
    """Decimals above zero, short ones and those of exactly the width, also in digits alone: whole number and places."""
    digits = width - 1
    return {b"12.": (12, 0), b".5": (5, 1), b"010.": (10, 0), b".010": (10, 3), b"9" * width: (10 ** width - 1, 0),
            b"9" * digits + b".": (10 ** digits - 1, 0), b"." + b"9" * digits: (10 ** digits - 1, digits),
            b"0" * (digits - 1) + b"1.": (1, 0), b"." + b"0" * (digits - 1) + b"1": (1, digits)}


def zeros(width):
    """Zeros in the same way."""
    digits = width - 1
    return {b"0.": (0, 0), b".0": (0, 1), b"00.": (0, 0), b".000": (0, 3),
            b"0" * digits + b".": (0, 0), b"." + b"0" * digits: (0, digits)}


def misshapen(width):
    """Texts within the width that no sign makes a decimal: no digit, two points, or another byte."""
    return [b".", b"..", b"..5", b"5..", b".5.", b". 5", b"5 .", b".+5", b"5.-", b".a", b"a.", b"." * width,
            b"." + b"9" * (width - 2) + b"."]


def passing(width):
    """Texts that pass the width by one byte, decimals that would fit without their point among them."""
    return [b"9" * width + b".", b"." + b"9" * width, b"0" * width + b".", b"." + b"0" * width, b"." * (width + 1),
            b"." + b"9" * (width - 1) + b"."]


def right_decimals():
    """Element, value and what it is worth."""
    for name, width in SIGNED.items():
        for text, (number, places) in {**above_zero(width), **zeros(width)}.items():
            for sign, factor in SIGNS.items():
                yield name, sign + text, (factor * number, places)
    for name, width in POSITIVE.items():
        for text, worth in above_zero(width).items():
            yield name, text, worth


def wrong_decimals():
    """Element, value and refusal number. A sign counts in the width of a positive decimal, and not of a signed one."""
    for name, width in {**SIGNED, "rmsCorr": 13}.items():
        for sign in SIGNS:
            yield from ((name, sign + text, 9) for text in misshapen(width))
            yield from ((name, sign + text, 8) for text in passing(width))
        yield from ((name, text, 9) for text in (b"+", b"-", b"+-", b"--.5", b"+-5.", b"-+."))
    for name, width in POSITIVE.items():
        yield from ((name, text, 9) for text in (b"+", b"-", b"+.", b"-.", *misshapen(width)))
        yield from ((name, text, 8) for text in passing(width))
        yield from ((name, text, 10) for text in zeros(width))
        for text in {**above_zero(width), **zeros(width)}:
            yield from ((name, sign + text, 9 if len(text) < width else 8) for sign in (b"+", b"-"))


def expected_worth(name, worth):
    """The answer to a question for the value."""
    if name in WHOLES:
        return ("whole", worth)
    if name in ANGLES:
        return ("angle", worth)
    return ("time" if name in TIMES else "decimal", *worth)


SHARED = ("permID", "provID", "obsID", "obsSubID", "prog", "obsTime", "notes", "remarks")


def row_around(chance, name, value):
    """A row with the value in it: a radar one where the element is radar's, and now and then where both kinds have
    it."""
    if name in SHARED and chance.random() < 0.3:
        return chance.choice((delay_row, doppler_row))(**{name: value})
    return row_with(name, value)


def report_around(chance, name, value):
    """A report with the value in it, its columns in some order, perhaps padded, perhaps after other rows of its kind,
    perhaps after a block of the other kind; and the value's line, place and observation number."""
    last = row_around(chance, name, value)
    before, other = (delay_row(), SPECIMEN) if ades.is_radar(last) else (row(), DELAY_SPECIMEN)
    rows = [before] * chance.choice((0, 0, 0, 1, 2)) + [last]
    columns = ades.columns_of(rows) if chance.random() < 0.4 else shuffled_columns(chance, rows, chance.choice((0, 1)))
    report = block(rows, columns, chance if chance.random() < 0.5 else None)
    place = columns.index(ades.NUMBERS[name.encode()]) + 1
    if chance.random() < 0.1:
        return other + report, len(rows) + 5, place, len(rows) + 1
    return report, len(rows) + 2, place, len(rows)


# ---- the cases

def right_values():
    """Element, value, and what it is worth where it is worth something."""
    for name, given in RIGHT.items():
        yield from ((name, value, given[value] if isinstance(given, dict) else None) for value in given)
    yield from right_decimals()


def wrong_values():
    """Element, value and refusal number."""
    for name, by_number in WRONG.items():
        yield from ((name, value, number) for number, given in by_number.items() for value in given)
    yield from wrong_decimals()


def right_cases(chance):
    """Each right value shown, and valued where it is worth something."""
    for name, value, worth in right_values():
        element = ades.NUMBERS[name.encode()]
        report, _, _, observation = report_around(chance, name, value)
        answer, start, length = ades.showing(report, observation, element)
        assert answer == "shown" and report[start:start + length] == value, (name, value)
        yield to_show(report, observation, element)
        if worth is not None:
            assert ades.value(report, observation, element) == expected_worth(name, worth), (name, value)
            yield to_value(report, observation, element)


def wrong_cases(chance):
    """Each wrong value refused, at its line and place."""
    for name, value, number in wrong_values():
        report, line, place, _ = report_around(chance, name, value)
        assert ades.read(report) == ades.refused(number, line, place), (name, value, ades.read(report))
        yield to_check(report)


# Values with a shape: what happens when one byte of them is another.
SHAPED = {
    "permID": [b"61999999", b"999999P-ZZ"],
    "provID": [b"2016 AZ61999", b"C/1995 OP123-AB", b"A/2017 U1"],
    "artSat": [b"1998-067ABC"],
    "ctr": [b"-31"],
    "obsTime": [b"2024-12-29T19:55:09.123456Z"],
    "ra": [b"359.123456789", b"359.", b".999999999"],
    "dec": [b"-89.123456789", b"-89.", b"+.5"],
    "rmsCorr": [b"-0.5", b"-1.", b"+.5"],
    "mag": [b"+1.25", b"-12.", b"+.125"],
    "rmsMag": [b"10.5", b"10.", b".01"],
    "trx": [b"251", b"a bc"],
    "delay": [b"12.5"],
    "doppler": [b"-12.5", b"+.5"],
    "rmsDoppler": [b"0.2"],
    "frq": [b"2380."],
    "com": [b"0", b"1"],
}
OTHER_BYTES = b"0123569AIPZaz_ -+./:"


def one_byte_other(chance):
    """At each place of a value some other bytes, and the value without that byte."""
    for name, given in SHAPED.items():
        for value in given:
            for at in range(len(value)):
                for other in chance.sample(OTHER_BYTES, 3):
                    yield to_check(report_around(chance, name, value[:at] + bytes([other]) + value[at + 1:])[0])
                yield to_check(report_around(chance, name, value[:at] + value[at + 1:])[0])


# ---- the turns of the calendar (order 4)

# Each month of a century that is no leap year, of one that is, of a common year and of a leap year.
YEARS_BY_MONTH = (1900, 2000, 2023, 2024)
# The end of February in every century, and about the cycles of 4 and of 400 years.
YEARS_BY_FEBRUARY = (*range(100, 10_000, 100), 1, 3, 4, 5, 96, 104, 399, 401, 1996, 2020, 9996, 9999)
# The beginning of years about centuries and about the same cycles.
YEARS_BY_BEGINNING = (2, 3, 4, 5, 6, 8, 9, 97, 100, 101, 105, 400, 401, 405, 1600, 1601, 1700, 1701, 1901, 2001, 2025,
                      2100, 2101, 2400, 2401, 9600, 9601, 9900, 9901, 9996, 9997, 9999)
DAY_ZERO = datetime.date(1858, 11, 17)
ONE_DAY = datetime.timedelta(days=1)

# Days that do not exist, beside those in `WRONG`.
NO_DAYS = (
    # 29 February of common years, centuries among them; 30 February of leap years.
    b"0001-02-29", b"0002-02-29", b"0003-02-29", b"0005-02-29", b"0100-02-29", b"0200-02-29", b"0300-02-29",
    b"0399-02-29", b"0401-02-29", b"1700-02-29", b"1800-02-29", b"2021-02-29", b"2022-02-29", b"2200-02-29",
    b"2300-02-29", b"9700-02-29", b"9900-02-29", b"9998-02-29", b"9999-02-29",
    b"0004-02-30", b"0400-02-30", b"2000-02-30", b"9996-02-30",
    # The day after the last of each month: in a common year, in a leap year.
    b"2023-01-32", b"2023-02-30", b"2023-03-32", b"2023-04-31", b"2023-05-32", b"2023-06-31", b"2023-07-32",
    b"2023-08-32", b"2023-09-31", b"2023-10-32", b"2023-11-31", b"2023-12-32",
    b"2024-03-32", b"2024-05-32", b"2024-07-32", b"2024-08-32", b"2024-10-32",
    # Day 00, month 00, months past 12, year 0000.
    b"0001-01-00", b"1900-03-00", b"2000-03-00", b"2023-12-00",
    b"0001-00-01", b"2023-00-31", b"2023-13-01", b"2024-14-01", b"2024-16-01", b"9999-13-01",
    b"0000-02-29", b"0000-03-01", b"0000-12-31",
)


def first_days():
    """The days after a turn, each once: they begin a month or a year, or are day number 0 or 1."""
    months = {datetime.date(year, month, 1) for year in YEARS_BY_MONTH for month in range(1, 13)}
    ends_of_february = {datetime.date(year, 3, 1) for year in YEARS_BY_FEBRUARY}
    beginnings = {datetime.date(year, 1, 1) for year in YEARS_BY_BEGINNING}
    return sorted(months | ends_of_february | beginnings | {DAY_ZERO, DAY_ZERO + ONE_DAY})


def seconds_about_turns():
    """The last second before each turn and the first one after it, with its microseconds; those of the calendar's own
    ends too."""
    first, last = (b"T00:00:00Z", 0), (b"T23:59:59Z", 86_399_000_000)
    yield datetime.date.min, *first
    for day in first_days():
        yield day - ONE_DAY, *last
        yield day, *first
    yield datetime.date.max, *last


def turns_of_the_calendar():
    """Times about the turns, valued: the day number is that of Python's library."""
    for date, clock, microseconds in seconds_about_turns():
        report = block([small_row(obsTime=date.isoformat().encode() + clock)])
        day_number = date.toordinal() - DAY_ZERO.toordinal()
        assert ades.value(report, 1, 15) == ("time", day_number, microseconds), date
        yield to_value(report, 1, 15)


def days_that_do_not_exist():
    """10 at the fourth column, where obsTime stands."""
    for date in NO_DAYS:
        report = block([small_row(obsTime=date + b"T00:00:00Z")])
        assert ades.value(report, 1, 15) == ades.refused(10, 3, 4), date
        yield to_value(report, 1, 15)


def cases(chance):
    """All cases of this file."""
    yield from right_cases(chance)
    yield from wrong_cases(chance)
    yield from one_byte_other(chance)
    yield from turns_of_the_calendar()
    yield from days_that_do_not_exist()
