"""Totals worked out by hand, on the compiled library, and the nets and bands that go by them.

    python3 totals.py LIBRARY

LIBRARY is the shared one. An answer has to be the one written here; library.py tests
that it is the plain ledger's too, or on a store that the calls did not make what its
parts say, and that nothing else was written. Exit status 1 at the first difference.
"""

import faulthandler
import sys
from collections import Counter

from cases import LARGEST, Case
from library import RECORDS, RUN, Library
from streams import TOP

# Categories by their windows: three groups of one family, and one of none. Window 1 is periods 1
# to 14 of half hours and 1 to 28 of quarters, window 2 is 2 to 15 and 3 to 30.
NO_WINDOW, FIRST, SECOND = (1, 1, 1, 1, 1, 0), (1, 2, 1, 1, 1, 1), (1, 3, 1, 1, 1, 2)
ADVANCED = (2, 0, 0, 1, 1, 0)
EXPORT = (1, 2, 1, 2, 1, 0)                # of the group with the first window
MOST = RUN - 1                             # Wh in an entry


class Totals(Case):
    """Rows are date -> TOT OFF PEAK TOT7 OFF7 PEAK7 days7 ANN days FRESH BLANK, or the refusal."""

    def totals(self, rows, category=0):
        for date, due in rows.items():
            self.ask(due, 'totals', date, category)

    def net(self, date, due, nets=(), marked_from=1, all_groups=0):
        """Of category 0: TOT and TOT7; the nets of the first periods, all others 0; the marks."""
        if not isinstance(due, int):
            rest = self.sizes.periods + 1 - marked_from
            marks = [0] * (marked_from - 1) + [1] * rest
            due = *due, [*nets, *[0] * (self.sizes.periods - len(nets))], marks
        self.ask(due, 'net', date, 0, all_groups)

    def band(self, least, most, *dates, category=0, day_type=1):
        self.ask((len(dates), len(dates), list(dates)), 'band', category, day_type, least, most)


def first_runs(store):
    """Which periods are in which window: each value has a digit of its own in a sum."""
    case = store(30, (1, 1), NO_WINDOW, FIRST, SECOND, ADVANCED)
    case.receive_day(0, {1: 1, 2: 10, 14: 100, 15: 1000, 16: 10000, 48: 100000})
    case.run(0, 18)                        # the others of the family have flag D
    year = 111111 * 365
    case.totals({0: (111111, 0, 0, 111111, 0, 0, 1, year, 1, 6, 42), 1: 14})
    case.totals({0: (111111, 111, 111000, 111111, 111, 111000, 1, year, 1, 6, 42)}, category=1)
    case.totals({0: (111111, 1110, 110001, 111111, 1110, 110001, 1, year, 1, 6, 42)}, category=2)
    case.totals({0: (0, 0, 0, 0, 0, 0, 1, 0, 1, 0, 48)}, category=3)
    case.run(1, 18)                        # copies
    case.totals({1: (111111, 0, 0, 222222, 0, 0, 2, year, 2, 0, 42)})
    case.totals({1: (111111, 111, 111000, 222222, 222, 222000, 2, year, 2, 0, 42)}, category=1)
    case.totals({1: (111111, 1110, 110001, 222222, 2220, 220002, 2, year, 2, 0, 42)}, category=2)
    case.totals({1: (0, 0, 0, 0, 0, 0, 2, 0, 2, 0, 48)}, category=3)
    # Quarters.
    case = store(15, (1,), NO_WINDOW, FIRST, SECOND)
    case.receive_day(0, {period: 10 ** k
                         for k, period in enumerate((1, 2, 3, 28, 29, 30, 31, 96))})
    case.run(0, 24)
    year = 11111111 * 365
    case.totals({0: (11111111, 0, 0, 11111111, 0, 0, 1, year, 1, 8, 88)})
    case.totals({0: (11111111, 1111, 11110000, 11111111, 1111, 11110000, 1, year, 1, 8, 88)},
                category=1)
    case.totals({0: (11111111, 111100, 11000011, 11111111, 111100, 11000011, 1, year, 1, 8, 88)},
                category=2)


def reruns(store):
    """TOT and OFF change, or OFF alone, or neither, and no flag does."""
    case = store(30, (1,), FIRST)
    case.receive_day(0, {1: 100, 20: 50})
    case.run(0, 2)
    first = {0: (150, 100, 50, 150, 100, 50, 1, 54750, 1, 2, 46)}
    case.totals(first)
    case.receive_day(0, {1: 70, 20: 90})
    case.totals(first)                     # nothing changes before the date is run again
    case.run(0, 2)
    case.totals({0: (160, 70, 90, 160, 70, 90, 1, 58400, 1, 2, 46)})
    case.receive_day(0, {1: 90, 20: 70})
    case.run(0, 2)
    then = {0: (160, 90, 70, 160, 90, 70, 1, 58400, 1, 2, 46)}
    case.totals(then)
    case.run(0, 0)
    case.totals(then)
    # A value moves to another period: the counts stay too.
    case.receive_day(0, {1: 90, 21: 70})
    case.run(0, 2)
    case.totals(then)
    case.receive_day(0, {14: 90, 15: 70})
    case.run(0, 4)
    case.totals(then)
    # A reading of 0 Wh is one, an empty set has none.
    case.receive_day(0, {1: 0})
    case.run(0, 3)                         # 14 and 15 have no shape any more
    case.totals({0: (0, 0, 0, 0, 0, 0, 1, 0, 1, 1, 47)})
    case.receive_day(0, {})
    case.run(0, 1)
    case.totals({0: (0, 0, 0, 0, 0, 0, 1, 0, 1, 0, 48)})


def chain(store):
    """A late day for the first date; all later ones copy it, but date 3 has a period of its own.

    Date 5 is of another day type.
    """
    case = store(30, (1, 1, 1, 1, 1, 2, 1, 1, 1, 1), SECOND)
    case.receive_day(0, {1: 7, 2: 100, 20: 50})
    case.receive_day(3, {2: 10})
    case.receive_day(5, {15: 1000})
    for date, moved in enumerate((3, 3, 3, 3, 3, 1, 3, 3, 3, 3)):
        case.run(date, moved)
    # Dates 0 to 2 have 157 Wh, 100 of them off-peak, date 5 has 1000 and 1000, the others have 67
    # and 10. Date 4: 3 * 157 + 2 * 67 = 605, of 5 dates, 605 * 73 = 44165.
    # Date 6: 3 * 157 + 3 * 67 + 1000 = 1672, of 7 dates, 1672 * 365 / 7 = 87182.86.
    # Date 7 has not date 0: 1672 - 157 + 67 = 1582, off-peak 1330 - 100 + 10 = 1240;
    # of 8 dates 1739, 1739 * 365 / 8 = 79341.88.
    # Date 9 has dates 3 to 9: 6 * 67 + 1000 = 1402, 6 * 10 + 1000 = 1060; of 10 dates
    # 3 * 157 + 6 * 67 + 1000 = 1873, 1873 * 36.5 = 68364.5.
    first = {0: (157, 100, 57, 157, 100, 57, 1, 57305, 1, 3, 45),
             1: (157, 100, 57, 314, 200, 114, 2, 57305, 2, 0, 45),
             2: (157, 100, 57, 471, 300, 171, 3, 57305, 3, 0, 45),
             3: (67, 10, 57, 538, 310, 228, 4, 49093, 4, 1, 45),     # 538 * 365 / 4 = 49092.5
             4: (67, 10, 57, 605, 320, 285, 5, 44165, 5, 0, 45),
             5: (1000, 1000, 0, 1605, 1320, 285, 6, 97638, 6, 1, 47),  # 1605 * 365 / 6 = 97637.5
             6: (67, 10, 57, 1672, 1330, 342, 7, 87183, 7, 0, 45),
             7: (67, 10, 57, 1582, 1240, 342, 7, 79342, 8, 0, 45),
             9: (67, 10, 57, 1402, 1060, 342, 7, 68365, 10, 0, 45)}
    case.totals(first)
    case.receive_day(0, {1: 8, 2: 200, 20: 52, 48: 1})
    case.totals(first)
    # Four cells of dates 0 to 2, three of the six others of the day type.
    case.run(0, 30)
    # Dates 0 to 2 have 261 and 200, date 5 stays, the others have 10 + 8 + 52 + 1 = 71 and 10.
    # Date 6: 3 * 261 + 3 * 71 + 1000 = 1996 and 1630; 1996 * 365 / 7 = 104077.14.
    # Date 7: 1996 - 261 + 71 = 1806 and 1630 - 200 + 10 = 1440; 2067 * 365 / 8 = 94306.88.
    # Date 9: 6 * 71 + 1000 = 1426 and 1060; 783 + 426 + 1000 = 2209, 2209 * 36.5 = 80628.5.
    case.totals({0: (261, 200, 61, 261, 200, 61, 1, 95265, 1, 4, 44),
                 1: (261, 200, 61, 522, 400, 122, 2, 95265, 2, 0, 44),
                 2: (261, 200, 61, 783, 600, 183, 3, 95265, 3, 0, 44),
                 3: (71, 10, 61, 854, 610, 244, 4, 77928, 4, 1, 44),     # 854 * 365 / 4 = 77927.5
                 4: (71, 10, 61, 925, 620, 305, 5, 67525, 5, 0, 44),
                 5: (1000, 1000, 0, 1925, 1620, 305, 6, 117104, 6, 1, 47),   # 117104.17
                 6: (71, 10, 61, 1996, 1630, 366, 7, 104077, 7, 0, 44),
                 7: (71, 10, 61, 1806, 1440, 366, 7, 94307, 8, 0, 44),
                 9: (71, 10, 61, 1426, 1060, 366, 7, 80629, 10, 0, 44)})
    # The first date loses its readings, and all copies of them theirs.
    case.receive_day(0, {})
    case.run(0, 30)
    case.totals({0: (0, 0, 0, 0, 0, 0, 1, 0, 1, 0, 48), 2: (0, 0, 0, 0, 0, 0, 3, 0, 3, 0, 48),
                 3: (10, 10, 0, 10, 10, 0, 4, 913, 4, 1, 47),            # 10 * 365 / 4 = 912.5
                 6: (10, 10, 0, 1030, 1030, 0, 7, 53707, 7, 0, 47),      # 53707.14
                 9: (10, 10, 0, 1060, 1060, 0, 7, 38690, 10, 0, 47)})


def year_left(store):
    """380 dates; from date 1 on they have 11 Wh, the first has 1001."""
    case = store(30, [1] * 380, FIRST)
    case.receive_day(0, {1: 1000, 48: 1})
    case.receive_day(1, {1: 10})
    for date in range(380):
        case.run(date, 2)
    # Date 363: 1001 + 363 * 11 = 4994 of 364 dates, 4994 * 365 / 364 = 5007.72. Date 364: one more
    # makes 365. From date 365 on the year has not the first: 365 * 11 = 4015.
    case.totals({0: (1001, 1000, 1, 1001, 1000, 1, 1, 365365, 1, 2, 46),
                 1: (11, 10, 1, 1012, 1010, 2, 2, 184690, 2, 1, 46),
                 6: (11, 10, 1, 1067, 1060, 7, 7, 55636, 7, 0, 46),      # 1067 * 365 / 7 = 55636.43
                 7: (11, 10, 1, 77, 70, 7, 7, 49184, 8, 0, 46),          # 1078 * 365 / 8 = 49183.75
                 363: (11, 10, 1, 77, 70, 7, 7, 5008, 364, 0, 46),
                 364: (11, 10, 1, 77, 70, 7, 7, 5005, 365, 0, 46),
                 365: (11, 10, 1, 77, 70, 7, 7, 4015, 365, 0, 46),
                 379: (11, 10, 1, 77, 70, 7, 7, 4015, 365, 0, 46)})
    # The last period of the first date, which all others copy: 1006 Wh, and 16 from date 1 on.
    case.receive_day(0, {1: 1000, 48: 6})
    case.run(0, 380)
    # Date 363: 1006 + 363 * 16 = 6814, 6814 * 365 / 364 = 6832.72.
    case.totals({0: (1006, 1000, 6, 1006, 1000, 6, 1, 367190, 1, 2, 46),
                 6: (16, 10, 6, 1102, 1060, 42, 7, 57461, 7, 0, 46),     # 1102 * 365 / 7 = 57461.43
                 7: (16, 10, 6, 112, 70, 42, 7, 51009, 8, 0, 46),        # 1118 * 365 / 8 = 51008.75
                 363: (16, 10, 6, 112, 70, 42, 7, 6833, 364, 0, 46),
                 364: (16, 10, 6, 112, 70, 42, 7, 6830, 365, 0, 46),
                 365: (16, 10, 6, 112, 70, 42, 7, 5840, 365, 0, 46),
                 379: (16, 10, 6, 112, 70, 42, 7, 5840, 365, 0, 46)})


def gaps(store):
    """Seven of 372 dates are run, in any order; each value has a digit of its own in a sum."""
    dates = 0, 6, 7, 364, 365, 370, 371
    for order in dates, dates[::-1], (370, 0, 365, 7, 371, 6, 364):
        case = store(30, [1] * 372, SECOND)
        for k, date in enumerate(dates):
            case.receive_day(date, {2: 10 ** k})
        case.totals(dict.fromkeys(dates, 14))
        for date in order:
            case.run(date, 1)
        # 11 * 365 / 2 = 2007.5, 1111 * 365 / 4 = 101378.75, 11110 * 365 / 4 = 1013787.5.
        case.totals({0: (1, 1, 0, 1, 1, 0, 1, 365, 1, 1, 47), 1: 14, 5: 14,
                     6: (10, 10, 0, 11, 11, 0, 2, 2008, 2, 1, 47),
                     7: (100, 100, 0, 110, 110, 0, 2, 13505, 3, 1, 47), 8: 14, 363: 14,
                     364: (1000, 1000, 0, 1000, 1000, 0, 1, 101379, 4, 1, 47),
                     365: (10000, 10000, 0, 11000, 11000, 0, 2, 1013788, 4, 1, 47), 366: 14,
                     370: (100000, 100000, 0, 111000, 111000, 0, 3, 8111030, 5, 1, 47),
                     371: (10 ** 6, 10 ** 6, 0, 1110000, 1110000, 0, 3, 81110300, 5, 1, 47)})


def largest(store):
    """The largest sums: every quarter of a year has the largest value."""
    case = store(15, [1] * 366, SECOND)
    case.receive_day(0, dict.fromkeys(range(1, 97), TOP))
    for date in range(366):
        case.run(date, 96)
    day, week = (96 * TOP, 28 * TOP, 68 * TOP), (672 * TOP, 196 * TOP, 476 * TOP)
    case.totals({0: (*day, *day, 1, 35040 * TOP, 1, 96, 0),
                 6: (*day, *week, 7, 35040 * TOP, 7, 0, 0),
                 363: (*day, *week, 7, 35040 * TOP, 364, 0, 0),
                 364: (*day, *week, 7, 35040 * TOP, 365, 0, 0),
                 365: (*day, *week, 7, 35040 * TOP, 365, 0, 0)})


def refusals(store):
    """The order of the numbers: 1, 9, 15, 14."""
    case = store(30, (1, 1, 1), FIRST, EXPORT)
    case.receive_day(0, {1: 5})
    case.run(0, 1)
    for date in 0, 1, 2, 3:
        case.cut('totals', date, 0)
        case.cut('totals', date, 2)
        case.cut('net', date, 0, 0)
        case.cut('net', date, 1, 1)
        case.cut('run', date)
    case.cut('band', 0, 1, 0, LARGEST)
    case.cut('band', 2, 17, 1, 0)
    case.cut('opening', *case.opening)
    for category in 0, 1, 2, 2 ** 32:
        case.totals({3: 9, 2 ** 16: 9, 2 ** 32: 9, LARGEST: 9}, category)
    for category in 2, 64, 2 ** 8, 2 ** 32, LARGEST:
        case.totals({0: 15, 1: 15, 2: 15}, category)
        case.ask(15, 'band', category, 1, 0, LARGEST)
    day = 5, 5, 0, 5, 5, 0, 1, 1825, 1, 1, 47
    case.totals({0: day, 1: 14, 2: 14})
    case.totals({0: (0, 0, 0, 0, 0, 0, 1, 0, 1, 0, 48), 1: 14}, category=1)
    case.net(1, 14)
    case.net(3, 9)
    # A part is not too short for having no entry past its least length.
    parts = case.store.parts
    case.store.parts = {**parts, 'days': parts['days'][:8 * case.sizes.least()['days']]}
    case.totals({0: day, 1: 14, 3: 9})
    # Opened once more, with what the run left in days.
    case.store.parts = parts
    case.open()
    case.totals(dict.fromkeys(range(3), 14))
    case.band(0, LARGEST)
    case.run(2, 0)
    case.totals({0: 14, 1: 14, 2: (0, 0, 0, 0, 0, 0, 1, 0, 1, 0, 48)})
    case.band(0, LARGEST, 2)


def nets_and_bands(store):
    """A net's week and the dates of a band follow a rerun, on the copies too."""
    case = store(30, (1, 1, 1, 2, 1, 1, 1, 1, 1), FIRST, EXPORT, SECOND)
    case.receive_day(0, {1: 400, 2: 100})
    case.receive_day(0, {1: 150, 2: 350}, meter=1)
    case.receive_day(3, {3: 20})           # of the other day type; no export
    for date, moved in enumerate((6, 6, 6, 2, 6, 6, 6, 6)):
        case.run(date, moved)
    # The imports have 500 Wh on each date but 20 on date 3, the export has 500 and 0.
    case.net(0, (0, 0), [250, -250], 3)
    case.net(3, (20, 20), [0, 0, 20])
    case.net(7, (0, 20), [250, -250], 3)
    case.net(7, (500, 500 * 6 + 40), [650, -150], 3, all_groups=1)
    case.net(8, 14)
    case.band(500, 500, 0, 1, 2, 4, 5, 6, 7)
    case.band(501, LARGEST)
    case.band(0, 499)
    case.band(0, 499, 3, day_type=2)
    case.band(500, 500, 0, 1, 2, 4, 5, 6, 7, category=1)
    case.band(0, 0, 3, category=1, day_type=2)
    # Late days for date 0. Nothing changes before it is run again.
    case.receive_day(0, {1: 400, 2: 101, 3: 9})
    case.receive_day(0, {1: 0, 2: 600}, meter=1)
    case.net(7, (0, 20), [250, -250], 3)
    case.band(500, 500, 0, 1, 2, 4, 5, 6, 7)
    # Two cells of each import, two of the export, on seven dates; 510 Wh less 600.
    case.run(0, 42)
    case.net(0, (-90, -90), [400, -499, 9], 3)
    case.net(1, (-90, -180), [400, -499, 9], 3)
    case.net(7, (-90, -90 * 6 + 20), [400, -499, 9], 3)
    case.net(7, (420, 420 * 6 + 40), [800, -398, 18], 3, all_groups=1)
    case.band(500, 500)
    case.band(510, 510, 0, 1, 2, 4, 5, 6, 7)
    case.band(511, LARGEST)
    case.band(510, 510, 0, 1, 2, 4, 5, 6, 7, category=2)
    case.band(600, 600, 0, 1, 2, 4, 5, 6, 7, category=1)
    case.band(20, 20, 3, day_type=2)


def foreign(store):
    """Days that no run made: sums are modulo 2^64, and run into the number of dates."""
    case, half = store(30, [1] * 8, FIRST, NO_WINDOW, SECOND), 2 ** 47
    rows = ([1, LARGEST, RUN, 5 * 2 ** 16, 2 ** 32, 0, 7, 9], 0,
            [5, 3 * RUN + 10, LARGEST, 2 ** 64 - RUN, half, half, RUN + 100, 0],
            [7, RUN + 2, 2 ** 64 - 4, 15, half + 1, 0, 40, LARGEST])
    case.put_days(rows, rows, (0, LARGEST, LARGEST, LARGEST))
    # TOT summed from the first date on: 5 of no date; 15 of 3; 14 of 3, past 2^64; 14 of 2, past it
    # again; 2^47 + 14 of 2; 14 of 3, since the two halves make a date; 114 of 4. The last week has
    # not the first date. OFF summed: 7, 9, 5, 20, 2^47 + 21 twice, 2^47 + 61, 2^47 + 53.
    # 14 * 365 / 3 = 1703.33, 114 * 365 / 4 = 10402.5.
    due = {0: (5, 7, 0, 5, 7, 0, 0, 0, 0, 1, 0),
           1: (10, 2, 8, 15, 9, 6, 3, 1825, 3, 65535, 65535),
           2: (MOST, RUN - 4, 3, 14, 5, 9, 3, 1703, 3, 0, 0),
           3: (0, 15, 0, 14, 20, 0, 2, 2555, 2, 0, 5),
           4: (half, half + 1, 0, half + 14, half + 21, 0, 2, 365 * half // 2 + 2555, 2, 0, 0),
           5: 14, 8: 9,
           6: (100, 40, 60, 114, half + 61, 0, 4, 10403, 4, 7, 0),
           7: (0, MOST, 0, 109, half + 53, 0, 4, 10403, 4, 9, 0)}
    # Without a window there is no PEAK.
    flat = {date: (*row[:2], 0, *row[3:5], 0, *row[6:]) if isinstance(row, tuple) else row
            for date, row in due.items()}
    case.totals(due)
    case.totals(flat, category=1)
    case.totals({**dict.fromkeys(range(8), 14), 8: 9}, category=2)
    case.totals({0: 15, 7: 15, 8: 9}, category=3)
    case.cut('totals', 1, 0)
    for category in 0, 1:
        case.band(0, LARGEST, 0, 1, 2, 3, 4, 6, 7, category=category)
        case.band(0, 0, 3, 7, category=category)
        case.band(5, 100, 0, 1, 6, category=category)
        case.band(half, half, 4, category=category)
        case.band(MOST, MOST, 2, category=category)
        case.band(RUN, LARGEST, category=category)
    case.band(0, LARGEST, category=2)      # not one of its days is run
    case.cut('band', 0, 1, 0, LARGEST)
    # Windows that there are not, and day types: only 1 to 16 are found.
    case.put_windows(0, 3, 255)
    case.put_days(rows, rows, rows)
    case.totals(flat)
    case.totals(due, category=1)
    case.totals(due, category=2)
    case.put_settings(RECORDS + 24, 1, 1, 16, 0, 17, 1, 255, 2)
    case.band(0, LARGEST, 0, 1)
    case.band(0, LARGEST, 2, day_type=16)
    for day_type in 0, 17, 255, 2 ** 8 + 1:
        case.band(0, LARGEST, day_type=day_type)
    case.store.replace({part: bytes(len(case.store.parts[part])) for part in case.store.parts})
    case.totals({0: 1, 7: 1, 8: 1})        # unopened
    case.ask(1, 'band', 0, 1, 0, LARGEST)
    case.net(0, 1)


def foreign_years(store):
    """Numbers of dates that no year has."""
    case = store(30, (1,), FIRST)
    # 182 * 365 / 364 and 183 * 365 / 366 are 182.5; 2^48 - 1 is 65535 times 4295032833.
    for dates, energy, annual in ((365, 1000, 1000), (364, 182, 183), (366, 183, 183),
                                  (1, MOST, 365 * MOST), (0, MOST, 0),
                                  (65535, MOST, 365 * 4295032833), (65535, 0, 0)):
        case.put_days((1, 0, dates * RUN + energy, 0))
        case.totals({0: (energy, 0, energy, energy, 0, energy, dates, annual, dates, 1, 0)})
    # 4096 dates an entry: 28672 a week; 1490944 and 1495040 a year, less 22 times 65536.
    # 364000 * 365 / 49152 = 2703.04, 365000 * 365 / 53248 = 2501.97.
    case = store(30, [1] * 370, FIRST)
    case.put_days((1, 0, 4096 * RUN + 1000, RUN))
    for date, annual, days in ((363, 2703, 49152), (364, 2502, 53248), (369, 2502, 53248)):
        case.totals({date: (1000, 0, 1000, 7000, 0, 7000, 28672, annual, days, 1, 0)})


def foreign_runs(store):
    """Runs on days that no run made: TOT and OFF are put of each date whose cells move."""
    case = store(30, [1] * 9, FIRST, SECOND)
    case.receive_day(1, {1: 100, 15: 50})
    case.put_days((LARGEST,) * 4, (LARGEST,) * 4)
    case.run(1, 4)
    # 2^64 - 1 is 1 less than nothing: 149 of one date up to date 1, 148 up to date 2. On date 0 it
    # is 2^48 - 1 of 65535 dates.
    full = MOST, MOST, 0
    first = {0: (*full, *full, 65535, 365 * 4295032833, 65535, 65535, 65535)}
    case.totals({**first, 1: (150, 100, 50, 149, 99, 50, 1, 54385, 1, 2, 46),
                 2: (*full, 148, 98, 50, 1, 54020, 1, 65535, 65535)})
    case.totals({**first, 1: (150, 50, 100, 149, 49, 100, 1, 54385, 1, 2, 46),
                 2: (*full, 148, 48, 100, 1, 54020, 1, 65535, 65535)}, category=1)
    # No cell moves, and OFF is put all the same: 0 with a window that there is not.
    case.put_windows(3, 255)
    case.run(1, 0)
    for category in 0, 1:
        case.totals({1: (150, 0, 150, 149, MOST, 0, 1, 54385, 1, 2, 46)}, category)
    case.put_windows(1, 2)
    # Date 2 copies date 1. Nothing moves there, and its entries stay.
    case.run(2, 4)
    case.put_days((5, 0, 7, 9), (5, 0, 7, 9))
    case.run(1, 0)
    case.totals({0: (7, 9, 0, 7, 9, 0, 0, 0, 0, 5, 0),
                 1: (150, 100, 50, 157, 109, 48, 1, 57305, 1, 2, 46),
                 2: (7, 9, 0, 164, 118, 46, 1, 59860, 1, 5, 0)})
    # A cell of each category moves on both dates. 227 * 365 / 2 = 41427.5, 117 * 365 = 42705.
    case.receive_day(1, {1: 60, 15: 50})
    case.put_days((5, 0, 7, 9), (5, 0, 7, 9))
    case.run(1, 4)
    case.totals({0: (7, 9, 0, 7, 9, 0, 0, 0, 0, 5, 0),
                 1: (110, 60, 50, 117, 69, 48, 1, 42705, 1, 2, 46),
                 2: (110, 60, 50, 227, 129, 98, 2, 41428, 2, 0, 46),
                 3: (7, 9, 0, 234, 138, 96, 2, 42705, 2, 5, 0)})
    case.totals({2: (110, 50, 60, 227, 109, 118, 2, 41428, 2, 0, 46)}, category=1)


def foreign_nets(store):
    """A net's periods and whether its date is run are the cells', its week is that of the days."""
    case = store(30, (1, 1, 1), FIRST, EXPORT, SECOND)
    case.receive_day(0, {1: 400})
    case.receive_day(0, {1: 150}, meter=1)
    for date in 0, 1:
        case.run(date, 3)
    case.put_days((0, 0, LARGEST, 0), (0, 0, RUN + 7, 0), (0, 0, 2 ** 47, 0))
    case.net(0, (250, MOST - 7), [250], 2)
    case.net(0, (650, MOST - 7 + 2 ** 47), [650], 2, all_groups=1)
    # Twice 2^64 - 1 is 2 less than nothing, twice 2^47 is a date and no Wh.
    case.net(1, (250, MOST - 1 - 14), [250], 2)
    case.net(1, (650, MOST - 1 - 14), [650], 2, all_groups=1)
    case.net(2, 14)
    case.put_days((1, 0, 0, 0), (1, 0, MOST, 0), (1, 0, 1, 0))
    case.net(0, (250, -MOST), [250], 2)
    case.net(0, (650, 1 - MOST), [650], 2, all_groups=1)
    case.net(1, (250, 1 - MOST), [250], 2)
    case.net(2, 14)                        # its days are no matter
    case.totals({2: (0, 0, 0, 0, 0, 0, 0, 0, 0, 1, 0)})
    for date in 0, 1, 2:
        case.cut('net', date, 0, 0)


def main():
    if len(sys.argv) != 2:
        sys.exit(__doc__)
    faulthandler.enable()                  # an access past an array ends the process
    library, reached = Library(sys.argv[1]), Counter()

    def store(*opening):
        return Totals(library, reached, *opening)

    for cases in (first_runs, reruns, chain, year_left, gaps, largest, refusals, nets_and_bands,
                  foreign, foreign_years, foreign_runs, foreign_nets):
        cases(store)
    print(f'totals: {reached["by hand"]} as worked out by hand')


if __name__ == '__main__':
    main()
