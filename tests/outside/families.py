"""Runs and previews of families worked out by hand, on the compiled library.

    python3 families.py LIBRARY

LIBRARY is the shared one. An answer has to be the one written here; library.py tests
that it is the plain ledger's too, that a preview is what a run on a copy is, and that
nothing else was written. Exit status 1 at the first difference.
"""

import faulthandler
import sys
from collections import Counter
from itertools import permutations

from cases import Case
from library import RECORDS, WIDTHS, Library, make

BLANK = 'N', 0, 0, 65535, 0
FAMILIES = [(1, 1, 1), (1, 2, 1), (2, 1, 1), (1, 1, 4)]     # domestic, quantity, connection
ADVANCED = [(2, 0, 0, quantity, connection, 0) for quantity in (1, 2) for connection in (1, 2, 3, 4)]
GROUPS = range(1, 15)


def smart(family, group):
    domestic, quantity, connection = family
    return 1, group, domestic, quantity, connection, 0


class Families(Case):
    def receive_one_each(self, date, values):
        """A set of each meter, with this many Wh in the last period and twice as many in the first."""
        for meter, wh in enumerate(values):
            self.receive_day(date, {1: 2 * wh, self.sizes.periods: wh}, meter)

    def put_keys(self, *keys):
        """Others than the opening left, in the kept category records."""
        records = bytearray(self.opening[3])
        for category, key in enumerate(keys):
            records[8 * category:8 * category + 5] = bytes(key)
        self.put_settings(RECORDS, *records)

    def foretold_and_run(self, date, moved):
        """A preview, and then the run of it."""
        draft = b'\xa5' * (WIDTHS['draft'] * self.sizes.row)
        make(self.store, ('ok', moved), 'preview', draft, date)
        self.run(date, moved)

    def cells(self, date, period, *cells, apart=1):
        """Of each category, or of the first and others so far apart."""
        for category in range(0, len(cells), apart):
            flag, *rest = cells[category]
            self.ask((ord(flag), *rest), 'cell', date, category, period)


def orders(categories):
    """All of them in several orders: the first member of a family is another one in each."""
    yield categories
    yield categories[::-1]
    yield categories[27:] + categories[:27]
    yield sorted(categories, key=lambda category: (category[1], category[2:]))
    yield sorted(categories, key=lambda category: (37 * category[1] + 11 * category[3]) % 17)


def full(store):
    """64 categories: four families of 14 and eight Advanced ones, in any order, with a meter each.

    One reading is too few for a category, so all of a family show its 14, and the others nothing.
    """
    categories = [smart(family, group) for family in FAMILIES for group in GROUPS] + ADVANCED
    for ordered in orders(categories):
        for duration in 30, 15:
            case = store(duration, [1, 1], *ordered, minimums=[2] * 64)
            values = [1000 + 7 * category for category in range(64)]
            case.receive_one_each(0, values)
            case.foretold_and_run(0, 2 * 56)
            for period, times in (1, 2), (case.sizes.periods, 1):
                due = []
                for category in ordered:
                    members = [times * wh for wh, other in zip(values, ordered)
                               if category[0] == other[0] == 1 and category[2:5] == other[2:5]]
                    value = (2 * sum(members) + 14) // 28
                    due.append(('D', value, 14, 0, sum(members) - 14 * value) if members else BLANK)
                case.cells(0, period, *due)
            case.cells(0, 2, *[BLANK] * 64)
            case.foretold_and_run(1, 2 * 56)           # copies
            case.foretold_and_run(0, 0)


def own_minimum(store):
    """Group A has 100, group B 200 and 600 Wh, C nothing; another family stands among them."""
    keys = {'A': smart(FAMILIES[0], 1), 'B': smart(FAMILIES[0], 2), 'C': smart(FAMILIES[0], 3),
            'other': smart(FAMILIES[1], 1), 'advanced': ADVANCED[0]}
    pooled = 'D', 300, 3, 0, 0
    # De-minimis of A, B and C, and what they show.
    for minimums, shown in (
            ((3, 3, 3), (pooled, pooled, pooled)),
            ((1, 2, 3), (('A', 100, 1, 0, 0), ('A', 400, 2, 0, 0), pooled)),
            ((0, 3, 0), (('A', 100, 1, 0, 0), pooled, pooled)),
            ((4, 3, 4), (BLANK, pooled, BLANK)),
            ((65535, 65535, 1), (BLANK, BLANK, pooled)),
            ((2, 2, 4), (pooled, ('A', 400, 2, 0, 0), BLANK))):
        of = {**dict(zip('ABC', zip(minimums, shown))), 'other': (2, BLANK),
              'advanced': (2, BLANK)}
        for names in permutations(keys):
            at = {name: place for place, name in enumerate(names)}
            case = store(30, [1], *(keys[name] for name in names),
                         minimums=[of[name][0] for name in names],
                         meters=[at[name] for name in ('A', 'B', 'B', 'other', 'advanced')])
            for meter, wh in enumerate((100, 200, 600, 5, 7)):
                case.receive_day(0, {1: wh}, meter)
            case.foretold_and_run(0, sum(cell != BLANK for cell in shown))
            case.cells(0, 1, *(of[name][1] for name in names))


def foreign(store):
    """Kept records that no opening takes: up to 64 in one family, and segments that are none."""
    categories = [smart(family, group) for family in FAMILIES for group in GROUPS] + ADVANCED
    one = smart(FAMILIES[0], 1)[:5]
    for minimum in 2, 64, 65:
        case = store(30, [1], *categories, minimums=[minimum] * 64)
        case.receive_one_each(0, [3] * 64)
        case.put_keys(*[one] * 64)         # all alike, group and all
        enough = minimum <= 64
        case.foretold_and_run(0, 2 * 64 * enough)
        case.cells(0, 48, *[('D', 3, 64, 0, 0) if enough else BLANK] * 64, apart=9)
    # Every other one is of no segment; domestic, quantity and connection are any byte.
    for segment in 0, 2, 3, 129, 255:
        for key in (0, 0, 0, 0), (9, 255, 255, 255), (0, 0, 17, 4):
            case = store(15, [1], *categories, minimums=[2] * 64)
            case.receive_one_each(0, [5] * 32 + [6] * 32)
            case.put_keys(*[(1, *key), (segment, *key)] * 32)
            case.foretold_and_run(0, 2 * 32)
            # 16 with 5 and 16 with 6 Wh
            case.cells(0, 96, *[('D', 6, 32, 0, -16), BLANK] * 32, apart=9)
            case.cells(0, 1, *[('D', 11, 32, 0, 0), BLANK] * 32, apart=9)


def main():
    if len(sys.argv) != 2:
        sys.exit(__doc__)
    faulthandler.enable()                  # an access past an array ends the process
    library, reached = Library(sys.argv[1]), Counter()

    def store(duration, day_types, *categories, **other):
        return Families(library, reached, duration, day_types, *categories, **other)

    for cases in (full, own_minimum, foreign):
        cases(store)
    print(f'families: {reached["by hand"]} cells as worked out by hand')


if __name__ == '__main__':
    main()
