"""Coverages worked out by hand, on the compiled library.

    python3 coverages.py LIBRARY

LIBRARY is the shared one. An answer has to be the one written here; library.py tests
that it is the plain ledger's too, and that nothing else was written. Exit status 1 at
the first difference.
"""

import faulthandler
import sys
from collections import Counter

from cases import LARGEST, Case
from library import PARTS, RECORDS, Library

# Categories without a window: two of one family, and one of none.
HERE, THERE, ADVANCED = (1, 1, 1, 1, 1, 0), (1, 2, 1, 1, 1, 0), (2, 0, 0, 1, 1, 0)
NONE = 65535                               # the oldest origin where all cells are blank

# The paper's example, in half hours and in quarters: date -> its coverage, or the number of the
# refusal; first with three readings on date 0 and one on date 4, then with one on each.
EXAMPLE = {
    30: ({0: (3, 45, 3, 45, 0), 1: 14, 4: (4, 90, 4, 90, 0), 8: (1, 90, 4, 135, 0)},
         {0: (1, 47, 1, 47, 0), 1: 14, 4: (2, 94, 2, 94, 4), 8: (1, 94, 2, 141, 4)}),
    15: ({0: (3, 93, 3, 93, 0), 1: 14, 4: (4, 186, 4, 186, 0), 8: (1, 186, 4, 279, 0)},
         {0: (1, 95, 1, 95, 0), 1: 14, 4: (2, 190, 2, 190, 4), 8: (1, 190, 2, 285, 4)})}
# Dates in the order of their runs, with the cells that move.
ORDERS = (((0, 3), (4, 3), (8, 3)), ((8, 0), (4, 2), (0, 7)), ((0, 3), (8, 3), (4, 4)))


class Coverages(Case):
    def receive(self, date, *periods, category=0):
        """A set with readings in these periods, of one value each."""
        self.receive_day(date, {period: 10 * period for period in periods}, category)

    def put_counts(self, day, sums):
        """The same day and the same sums for all dates and categories, which no run made."""
        self.put_days(*[(day, sums, LARGEST, LARGEST)] * self.sizes.categories)

    def covers(self, rows, category=0):
        """Date -> the five numbers, or the number of the refusal."""
        for date, due in rows.items():
            self.ask(due, 'coverage', date, category)


def example(store, duration, order):
    case, (first, then) = store(duration, [1] * 9, HERE), EXAMPLE[duration]
    case.receive(0, 1, 2, 3)
    case.receive(4, 1)
    for date, moved in order:
        case.run(date, moved)
    case.covers(first)
    case.receive(0, 1)                     # nothing changes before date 0 is run again
    case.covers(first)
    case.run(0, 6)
    case.covers(then)
    return case


def worked(store):
    for duration in EXAMPLE:
        for order in ORDERS:
            case = example(store, duration, order)
    # On the last of them the order of the numbers: 1, 9, 15, 14.
    for category in 0, 1, 2 ** 32:
        case.covers({9: 9, 2 ** 16: 9, 2 ** 32: 9, LARGEST: 9}, category)
    for category in 1, 64, 2 ** 8, 2 ** 32, LARGEST:
        case.covers({0: 15, 1: 15, 8: 15}, category)
    for date in 0, 1, 9:
        case.cut('coverage', date, 0)
        case.cut('coverage', date, 1)
        case.cut('run', date)
    case.cut('opening', *case.opening)
    case.covers(EXAMPLE[case.duration][1])
    # Opened once more, with what the runs left in days.
    case.open()
    case.covers(dict.fromkeys(range(9), 14))
    case.run(8, 0)
    case.covers({0: 14, 7: 14, 8: (0, 96, 0, 96, NONE)})


def windows_left(store):
    """470 dates that copy the first, of which eight periods have no shape."""
    case = store(30, [1] * 470, HERE)
    case.receive(0, *range(1, 41))
    for date in range(470):
        case.run(date, 40)
    case.covers({0: (40, 8, 40, 8, 0), 6: (40, 56, 40, 56, 0), 7: (0, 56, 40, 64, 0),
                 364: (0, 56, 40, 2920, 0), 365: (0, 56, 0, 2920, 0), 469: (0, 56, 0, 2920, 0)})
    # The first date loses its readings, and with it all others.
    case.receive(0)
    case.run(0, 18800)
    case.covers({0: (0, 48, 0, 48, NONE), 6: (0, 336, 0, 336, NONE), 7: (0, 336, 0, 384, NONE),
                 364: (0, 336, 0, 17520, NONE), 365: (0, 336, 0, 17520, NONE)})
    # Ten readings on date 100, in the middle.
    case.receive(100, *range(1, 11))
    case.run(100, 3700)
    case.covers({99: (0, 336, 0, 4800, NONE), 100: (10, 326, 10, 4838, 100),
                 106: (10, 266, 10, 5066, 100), 107: (0, 266, 10, 5104, 100),
                 364: (0, 266, 10, 14870, 100), 365: (0, 266, 10, 14860, 100),
                 464: (0, 266, 10, 13870, 100), 465: (0, 266, 0, 13870, 100)})


def whole_year(store):
    """The largest sums: all cells fresh in one category, none in the other."""
    case = store(15, [1, 2] * 183, HERE, ADVANCED)
    case.store.replace(case.store.parts)   # without the ledger, which takes long here
    for date in range(366):
        case.receive(date, *range(1, 97))
        case.run(date, 96)
    case.covers({0: (96, 0, 96, 0, 0), 6: (672, 0, 672, 0, 6), 7: (672, 0, 768, 0, 7),
                 363: (672, 0, 34944, 0, 363), 364: (672, 0, 35040, 0, 364),
                 365: (672, 0, 35040, 0, 365)})
    case.covers({0: (0, 96, 0, 96, NONE), 6: (0, 672, 0, 672, NONE), 7: (0, 672, 0, 768, NONE),
                 363: (0, 672, 0, 34944, NONE), 364: (0, 672, 0, 35040, NONE),
                 365: (0, 672, 0, 35040, NONE)}, category=1)


def reverse(store):
    """Nine dates first run with nothing held, then each with one reading, the last date first."""
    case = store(30, [1] * 9, HERE)
    for date in range(9):
        case.run(date, 0)
    case.covers({0: (0, 48, 0, 48, NONE), 6: (0, 336, 0, 336, NONE), 8: (0, 336, 0, 432, NONE)})
    for date in range(8, -1, -1):
        case.receive(date, date + 1)
        case.run(date, 9 - date)
        if date == 8:
            case.covers({7: (0, 336, 0, 384, NONE), 8: (1, 335, 1, 431, 8)})
        if date == 7:
            case.covers({6: (0, 336, 0, 336, NONE), 7: (1, 335, 1, 383, 7), 8: (2, 333, 2, 429, 7)})
    case.covers({0: (1, 47, 1, 47, 0), 1: (2, 93, 2, 93, 0), 6: (7, 308, 7, 308, 0),
                 7: (7, 301, 8, 348, 0), 8: (7, 294, 9, 387, 0)})
    # Emptied, the last date first again: a date then copies all readings before it.
    for date in range(8, -1, -1):
        case.receive(date)
        case.run(date, 9 - date)
        if date == 8:
            case.covers({7: (7, 301, 8, 348, 0), 8: (6, 295, 8, 388, 0)})
        if date == 1:
            case.covers({0: (1, 47, 1, 47, 0), 1: (1, 94, 1, 94, 0), 7: (0, 329, 1, 376, 0)})
    case.covers({0: (0, 48, 0, 48, NONE), 6: (0, 336, 0, 336, NONE), 8: (0, 336, 0, 432, NONE)})


def chain(store):
    """Ten blank dates become copies, and blank again; the other category keeps its own."""
    case = store(30, [1] * 10, HERE, ADVANCED)
    case.receive(2, 1, category=1)
    for date, moved in enumerate((0, 0, 1, 1, 1, 1, 1, 1, 1, 1)):
        case.run(date, moved)
    blank = {0: (0, 48, 0, 48, NONE), 6: (0, 336, 0, 336, NONE), 7: (0, 336, 0, 384, NONE),
             9: (0, 336, 0, 480, NONE)}
    other = {0: (0, 48, 0, 48, NONE), 1: (0, 96, 0, 96, NONE), 2: (1, 143, 1, 143, 2),
             8: (1, 329, 1, 425, 2), 9: (0, 329, 1, 472, 2)}
    case.covers(blank)
    case.covers(other, category=1)
    for _ in range(2):
        case.receive(0, *range(1, 49))
        case.run(0, 480)
        case.covers({0: (48, 0, 48, 0, 0), 1: (48, 0, 48, 0, 0), 6: (48, 0, 48, 0, 0),
                     7: (0, 0, 48, 0, 0), 9: (0, 0, 48, 0, 0)})
        case.covers(other, category=1)
        case.receive(0)
        case.run(0, 480)
        case.covers(blank)
        case.covers(other, category=1)


def origins(store):
    """Copies take over from another date: of their own counts none changes, the oldest does."""
    case = store(30, [1] * 4, HERE)
    case.receive(0, 1)
    case.receive(1, 1)
    for date in range(4):
        case.run(date, 1)
    later = {1: (2, 94, 2, 94, 1), 2: (2, 141, 2, 141, 1), 3: (2, 188, 2, 188, 1)}
    case.covers({0: (1, 47, 1, 47, 0), **later})
    case.receive(1)
    case.run(1, 3)
    case.covers({0: (1, 47, 1, 47, 0), 1: (1, 94, 1, 94, 0), 2: (1, 141, 1, 141, 0),
                 3: (1, 188, 1, 188, 0)})
    case.receive(1, 1)
    case.run(1, 3)
    case.covers(later)


def middle(store):
    """Dates first run between others, of another day type than theirs."""
    case = store(30, (1, 2, 1, 2, 1, 1, 1, 1, 1), HERE)
    case.receive(0, 1, 2)
    case.receive(3, 5)
    for date in (0, 2, 8):
        case.run(date, 2)
    case.covers({0: (2, 46, 2, 46, 0), 1: 14, 2: (2, 92, 2, 92, 0), 3: 14, 8: (0, 92, 2, 138, 0)})
    case.run(3, 1)
    case.covers({0: (2, 46, 2, 46, 0), 1: 14, 2: (2, 92, 2, 92, 0), 3: (3, 139, 3, 139, 3),
                 8: (1, 139, 3, 185, 0)})
    # A date without readings moves no cell, and counts as blank from now on.
    case.run(1, 0)
    case.covers({0: (2, 46, 2, 46, 0), 1: (2, 94, 2, 94, NONE), 2: (2, 140, 2, 140, 0),
                 3: (3, 187, 3, 187, 3), 8: (1, 139, 3, 233, 0)})
    case.receive(1, 6)
    case.run(1, 2)
    case.covers({0: (2, 46, 2, 46, 0), 1: (3, 93, 3, 93, 1), 2: (3, 139, 3, 139, 0),
                 3: (4, 185, 4, 185, 1), 4: 14, 8: (1, 138, 4, 231, 0)})


def family(store):
    """Readings of a category shape the other one of its family too."""
    case = store(30, (1, 1), HERE, THERE)
    case.receive(0, 1, 2, 3)
    case.receive(1, 2, category=1)
    case.run(0, 6)
    case.run(1, 6)
    for category in 0, 1:
        case.covers({0: (3, 45, 3, 45, 0), 1: (4, 90, 4, 90, 0)}, category)


def foreign(store):
    """Parts that no call made: the two entries of a category and date say it all."""
    case = store(30, (1, 1), HERE, THERE)
    case.put_settings(RECORDS, *bytes(16))  # of the category records only their count matters
    case.put_days(([0, 1], [LARGEST, 2 + 3 * 2 ** 16 + 4 * 2 ** 32 + 5 * 2 ** 48], LARGEST, 0),
                  ([2 ** 48 + 6 * 2 ** 32 + 7, LARGEST], [0, LARGEST], 0, LARGEST))
    case.covers({0: 14, 1: (2, 3, 4, 5, 0), 2: 9})
    case.covers({0: (0, 0, 0, 0, 6), 1: (65535, 65535, 65535, 65535, 65535), 2: 9}, category=1)
    case.covers({0: 15, 1: 15, 2: 9}, category=2)
    case.cut('coverage', 1, 0)
    case.store.replace({part: bytes(len(case.store.parts[part])) for part in PARTS})
    case.covers({0: 1, 1: 1, 2: 1})        # unopened


def foreign_runs(store):
    """Runs on days that no run made: sums are raised by what changes, modulo 2^64."""
    case, full = store(30, [1] * 368, HERE, ADVANCED), [65535] * 4
    case.receive(1, 1, 2, 3)
    # From 2^32 - 1 to 3 and 45 * 2^16: by 4 and 45 * 2^16, and 2^32 less.
    case.put_counts(LARGEST, 0)
    case.run(1, 3)
    case.covers({0: (0, 0, 0, 0, NONE), 1: (4, 45, 3, 45, 1), 2: (4, 45, 3, 45, NONE),
                 7: (4, 45, 3, 45, NONE), 8: (0, 0, 4, 45, NONE), 365: (0, 0, 4, 45, NONE),
                 366: (0, 0, 0, 0, NONE)})
    # To 48 * 2^16: by 1 and 48 * 2^16, and 2^32 less.
    case.covers({0: (0, 0, 0, 0, NONE), 1: (1, 48, 0, 48, NONE), 7: (1, 48, 0, 48, NONE),
                 8: (0, 0, 1, 48, NONE), 366: (0, 0, 0, 0, NONE)}, category=1)
    # No cell moves, and the day is put all the same: from 1, by 2 and 45 * 2^16, past 2^64.
    case.put_counts(1, LARGEST)
    case.run(1, 0)
    case.covers({0: (*full, 0), 1: (1, 45, 2, 45, 1), 7: (1, 45, 2, 45, 0),
                 8: (65535, 65535, 1, 45, 0), 365: (65535, 65535, 1, 45, 0), 366: (*full, 0)})
    # By 48 * 2^16 less 1.
    case.covers({1: (65534, 47, 65535, 47, NONE), 7: (65534, 47, 65535, 47, 0),
                 8: (65535, 65535, 65534, 47, 0), 366: (*full, 0)}, category=1)
    # The counts are those of the run: the day is put, its sums stay.
    case.put_counts(48 * 2 ** 16 + 5 * 2 ** 32, LARGEST)
    case.run(1, 0)
    case.covers({0: (*full, 5), 1: (*full, NONE), 2: (*full, 5)}, category=1)
    # By the days no date is run: from 0.
    case.put_counts(0, LARGEST)
    case.run(1, 0)
    case.covers({0: 14, 1: (2, 45, 3, 45, 1), 2: 14})
    case.covers({0: 14, 1: (65535, 47, 0, 48, NONE), 2: 14}, category=1)
    # Date 2 copies date 1, date 3 has its own, which date 4 copies; then date 1 is emptied.
    case.receive(3, 1, 2, 3)
    for date in 2, 3, 4:
        case.run(date, 3)
    case.receive(1)
    # Dates 1 and 2 go from 5 and 100 * 2^16, more than there are periods, to 48 * 2^16. Each takes
    # 5 and 52 * 2^16 off, below 0; nothing moves on date 3, so the days stay from there on.
    case.put_counts(5 + 100 * 2 ** 16 + 9 * 2 ** 32, 0)
    case.run(1, 6)
    for category in 0, 1:
        case.covers({0: (0, 0, 0, 0, 9), 1: (65531, 65483, 65530, 65483, NONE),
                     2: (65526, 65431, 65525, 65431, NONE), 3: (65526, 65431, 65525, 65431, 9),
                     7: (65526, 65431, 65525, 65431, 9), 8: (65531, 65483, 65525, 65431, 9),
                     9: (0, 0, 65526, 65431, 9), 365: (0, 0, 65526, 65431, 9),
                     366: (0, 0, 65531, 65483, 9), 367: (0, 0, 0, 0, 9)}, category)


def main():
    if len(sys.argv) != 2:
        sys.exit(__doc__)
    faulthandler.enable()                  # an access past an array ends the process
    library, reached = Library(sys.argv[1]), Counter()

    def store(*opening):
        return Coverages(library, reached, *opening)

    for cases in (worked, windows_left, whole_year, reverse, chain, origins, middle, family,
                  foreign, foreign_runs):
        cases(store)
    print(f'coverages: {reached["by hand"]} as worked out by hand')


if __name__ == '__main__':
    main()
