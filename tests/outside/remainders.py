"""Cells with what rounding dropped, worked out by hand, on the compiled library.

    python3 remainders.py LIBRARY

LIBRARY is the shared one. An answer has to be the one written here; library.py tests
that it is the plain ledger's too, and that nothing else was written. Exit status 1 at
the first difference.
"""

import faulthandler
import struct
import sys
from collections import Counter

from cases import LARGEST, PAST, Case
from library import WIDTHS, Library
from streams import TOP

HERE, THERE, ADVANCED = (1, 1, 1, 1, 1, 0), (1, 2, 1, 1, 1, 0), (2, 0, 0, 1, 1, 0)
BLANK = 'N', 0, 0, 65535, 0
# Entries that no run made, and the cells that they read as.
WORDS = {2 ** 31: BLANK, LARGEST: ('E', TOP, 1024, 1023, 511), 1: ('A', 0, 1, 0, -512),
         2: ('D', 0, 1, 0, -512), 3 + 4 * 1023: ('E', 0, 1024, 0, -512),
         LARGEST - 3: ('N', TOP, 0, 65535, 0), 4: BLANK, 2 ** 32: ('N', 1, 0, 65535, 0),
         2 + 4096 * 1023: ('D', 0, 1, 1023, -512), 1 + 2 ** 31: ('A', 0, 1, 0, 0),
         1 + 2 ** 22: ('A', 0, 1, 0, -511), 0: BLANK}


class Crowd(Case):
    """A store whose meters are all in category 0; the others have none."""

    def receive(self, date, *counts):
        """Sets of a date by (how many meters, Wh in period 1); None is an empty set."""
        values = [wh for count, wh in counts for _ in range(count)]
        for meter, wh in enumerate(values):
            self.receive_day(date, {} if wh is None else {1: wh}, meter)

    def cells(self, *rows):
        """(date, category, period) and its five fields."""
        for place, (flag, *rest) in rows:
            self.ask((ord(flag), *rest), 'cell', *place)


def worked(store):
    """10, 11 and 13 Wh; then 12 in place of 13, then nothing in its place."""
    crowd = store(3, 2, HERE, THERE, ADVANCED)

    def shown(*rest):
        crowd.cells(*(((date, category, 1), (flag, 11, *rest)) for date, category, flag
                      in ((0, 0, 'A'), (0, 1, 'D'), (1, 0, 'E'), (1, 1, 'E'))),
                    ((0, 2, 1), BLANK), ((1, 2, 1), BLANK), ((0, 0, 2), BLANK))

    crowd.receive(0, (1, 10), (1, 11), (1, 13))
    crowd.run(0, 2)
    crowd.run(1, 2)
    shown(3, 0, 1)
    crowd.receive(0, (1, 10), (1, 11), (1, 12))
    shown(3, 0, 1)                         # until date 0 is run again
    crowd.run(0, 4)
    shown(3, 0, 0)
    crowd.receive(0, (1, 10), (1, 11), (1, None))
    crowd.run(0, 4)
    shown(2, 0, -1)
    crowd.run(0, 0)
    crowd.run(1, 0)


def ends(store):
    """1,024 readings: the least and the greatest remainder, with the greatest values."""
    crowd = store(1024, 2, HERE, THERE)
    crowd.receive(0, (1024, 7))
    crowd.run(0, 2)
    crowd.run(1, 2)
    # Half of them 1 Wh under the greatest value is half a Wh under it, and goes up.
    for counts, value, remainder in (
            (((512, TOP), (512, TOP - 1)), TOP, -512),
            (((511, TOP), (513, TOP - 1)), TOP - 1, 511),
            (((1024, TOP),), TOP, 0),
            (((1023, 0), (1, 511)), 0, 511),
            (((1023, 0), (1, 512)), 1, -512),
            (((1023, 0), (1, 513)), 1, -511),
            (((1024, 0),), 0, 0)):
        crowd.receive(0, *counts)
        crowd.run(0, 4)
        crowd.cells(((0, 0, 1), ('A', value, 1024, 0, remainder)),
                    ((0, 1, 1), ('D', value, 1024, 0, remainder)),
                    ((1, 0, 1), ('E', value, 1024, 0, remainder)),
                    ((1, 1, 1), ('E', value, 1024, 0, remainder)))
    # One reading has no remainder, and N none either.
    crowd.receive(0, (1, TOP), (1023, None))
    crowd.run(0, 4)
    crowd.cells(((0, 0, 1), ('A', TOP, 1, 0, 0)), ((1, 1, 1), ('E', TOP, 1, 0, 0)))
    crowd.receive(0, (1024, None))
    crowd.run(0, 4)
    crowd.cells(((0, 0, 1), BLANK), ((0, 1, 1), BLANK), ((1, 0, 1), BLANK), ((1, 1, 1), BLANK))


def last_date(store):
    """The greatest origin, and a chain over all dates."""
    crowd = store(2, 800, HERE, THERE)
    crowd.receive(798, (1, 1), (1, 2))
    crowd.run(799, 0)
    crowd.run(798, 4)
    crowd.cells(((799, 1, 1), ('E', 2, 2, 798, -1)))
    crowd.receive(799, (1, 1), (1, 4))
    crowd.run(799, 2)
    crowd.cells(((799, 0, 1), ('A', 3, 2, 799, -1)), ((799, 1, 1), ('D', 3, 2, 799, -1)))
    # Date 0 again and again with one average: the copies follow what rounding drops.
    crowd.receive(0, (1, 4), (1, 5))
    crowd.run(0, 2)
    for date in range(1, 798):
        crowd.run(date, 2)
    crowd.cells(((797, 1, 1), ('E', 5, 2, 0, -1)))
    crowd.receive(0, (1, 5), (1, 5))
    crowd.run(0, 2 * 798)
    crowd.cells(((797, 1, 1), ('E', 5, 2, 0, 0)), ((798, 1, 1), ('D', 2, 2, 798, -1)))


def foreign(store):
    """Entries that no run made read as cells, whatever their bits."""
    made = store(1, 1, HERE)
    row = list(WORDS)
    past = made.store.parts['cells'][-PAST * WIDTHS['cells']:]
    row += [1] * (48 - len(row))
    made.store.replace({**made.store.parts, 'cells': struct.pack('48Q', *row) + past})
    made.cells(*(((0, 0, period), cell) for period, cell in enumerate(WORDS.values(), 1)))
    made.cut('cell', 0, 0, 1)
    # A first entry of 0 says that the date is not run; the rest does not matter.
    made.store.replace({**made.store.parts, 'cells': struct.pack('48Q', 0, *row[1:]) + past})
    made.ask(14, 'cell', 0, 0, 2)
    # A run puts N into all places; a 0 counts as N, so the others moved: all but the first two.
    made.store.replace({**made.store.parts,
                        'cells': struct.pack('48Q', 0, 2 ** 31, *[1] * 46) + past})
    made.run(0, 46)
    made.cells(((0, 0, 48), BLANK))


def main():
    if len(sys.argv) != 2:
        sys.exit(__doc__)
    faulthandler.enable()                  # an access past an array ends the process
    library, reached = Library(sys.argv[1]), Counter()

    def store(meters, dates, *categories):
        return Crowd(library, reached, 30, [1] * dates, *categories, meters=[0] * meters)

    for cases in (worked, ends, last_date, foreign):
        cases(store)
    print(f'remainders: {reached["by hand"]} cells as worked out by hand')


if __name__ == '__main__':
    main()
