"""Fills worked out by hand, on the compiled library.

    python3 fills.py LIBRARY

LIBRARY is the shared one. An answer has to be the one written here; library.py tests
that it is the plain ledger's too, and that nothing else was written. Exit status 1 at
the first difference.
"""

import faulthandler
import sys
from collections import Counter

from library import CALLS, PARTS, WIDTHS, Library, Sizes, Store, make
from streams import TOP, valid_mpan
from worked_example import reading

# The key of each category, and what its one meter reads from period 1 on.
CATEGORIES = [((1, 1, 2, 1, 1), (0, 0, 9, 0)),         # as 2, but not domestic
              ((2, 0, 0, 1, 1), (0, 0)),
              ((1, 1, 1, 1, 1), (500, 300, 300, 0)),   # the paper's example
              ((1, 3, 1, 1, 1), ()),                   # shaped by its family: the same values
              ((1, 2, 1, 2, 4), (TOP, TOP - 1, TOP)),
              ((1, 4, 2, 1, 2), (TOP,) * 48),
              ((2, 0, 0, 1, 3), ())]                   # no shape at all
DAY = range(1, 49)
READ, COPY, NOT_RUN, PAST = range(4)                   # dates

# The category, or group, quantity and connection of an opted-out meter; advance; the missing
# periods, and what they get, or the number of the refusal.
FILLS = [
    (2, 100, (1, 2, 3, 4), (46, 27, 27, 0)),
    (2, 1001, (2, 3), (501, 500)),
    (2, 2, (1, 2, 3), (1, 1, 0)),
    (2, TOP, (1, 2), (2684354559, 1610612736)),
    (2, 100, (4, 5), 17),
    (3, 100, (1, 2, 3, 4), (46, 27, 27, 0)),
    # One missing, all missing, an advance of 0, nothing missing.
    (2, 1, (3,), (1,)),
    (2, TOP, (3,), (TOP,)),
    (2, 7, (1, 4), (7, 0)),
    (2, 1100, DAY, (500, 300, 300) + (0,) * 45),
    (2, 1099, DAY, (499, 300, 300) + (0,) * 45),
    (2, 0, (1, 2, 3, 4), (0, 0, 0, 0)),
    (2, 0, DAY, (0,) * 48),
    (2, 0, (4, 5), 17),
    (2, 1, (), 17),
    (2, 0, (), 17),
    # Equal remainders.
    (2, 1, (2, 3), (1, 0)),
    (2, 3, (2, 3), (2, 1)),
    (2, TOP, (2, 3), (2147483648, 2147483647)),
    (5, 1, DAY, (1,) + (0,) * 47),
    (5, 47, DAY, (1,) * 47 + (0,)),
    (5, 49, DAY, (2,) + (1,) * 47),
    (5, TOP, DAY, (89478486,) * 15 + (89478485,) * 33),
    (5, 2, (8, 40, 48), (1, 1, 0)),
    # Values near 2^32.
    (4, TOP, (1, 2), (2147483648, 2147483647)),
    (4, TOP, (2, 3), (2147483647, 2147483648)),
    (4, TOP, (1, 2, 3), (1431655765, 1431655765, 1431655765)),
    (4, 1, (2, 3), (0, 1)),
    (4, 2, (1, 2, 3), (1, 0, 1)),
    # One value that is not 0, and none.
    (0, 5, DAY, (0, 0, 5) + (0,) * 45),
    (0, TOP, (1, 3), (0, TOP)),
    (0, 5, (1, 2, 4, 48), 17),
    (1, 5, (1, 2), 17),
    (1, 5, DAY, 17),
    (6, 5, DAY, 17),
    # No such category.
    (7, 5, (1,), 15),
    (2 ** 32 + 2, 5, (1,), 15),
    # An opted-out meter.
    ((1, 1, 1), 100, (1, 2, 3, 4), (46, 27, 27, 0)),
    ((3, 1, 1), 1001, (2, 3), (501, 500)),
    ((2, 2, 4), 1, (2, 3), (0, 1)),
    ((1, 1, 1), 100, (4, 5), 17),
    ((1, 1, 1), 100, (), 17),
    ((2, 1, 1), 100, (1,), 15),                        # no such group
    ((1, 2, 1), 100, (1,), 15),                        # quantity
    ((1, 1, 2), 100, (1,), 15),                        # connection
    ((4, 1, 2), 100, (1,), 15),                        # there, but not domestic
    ((1, 1, 3), 100, (1,), 15),                        # there, but Advanced
    ((0, 1, 3), 100, (1,), 15),
    ((0, 1, 1), 100, (1,), 15),                        # out of range
    ((15, 1, 1), 100, (1,), 15),
    ((2 ** 8 + 1, 1, 1), 100, (1,), 15),
    ((2 ** 32 + 1, 1, 1), 100, (1,), 15),
    ((1, 2 ** 32 + 1, 1), 100, (1,), 15),
    ((1, 1, 2 ** 32 + 1), 100, (1,), 15),
]


def shaped(library, reached, duration, categories, moved):
    """A store of three dates: one with readings, one that copies it, and one not run."""
    store, count = Store(library, reached), len(categories)
    least = Sizes(duration, count, count, 3).least()
    store.parts = {part: bytes(WIDTHS[part] * least[part]) for part in PARTS}
    records = b''.join(bytes((*key, 0, 0, 1)) for key, _ in categories)
    make(store, ('ok',), 'opening', duration, count, (), records, bytes((1, 1, 1)))
    for number, (key, values) in enumerate(categories):
        mpan = valid_mpan(number + 1)
        body = b''.join(reading(duration * j, wh) for j, wh in enumerate(values, 1))
        make(store, ('ok',), 'registration', mpan, 0, 0, number, 7, 1, TOP)
        make(store, ('ok',), 'reception', 7, mpan, READ, duration, key[3], body)
    for date in READ, COPY:
        make(store, ('ok', moved), 'run', date)
    return store


def fill(store, date, asked, advance, periods, gets, marks=None, filled=None, mark=1):
    """A fill in either form; marks and list have as many entries as the day, unless given."""
    day = store.sizes.periods
    missing = bytes(mark if j in periods else 0
                    for j in range(1, 1 + (day if marks is None else marks)))
    due = ('no', gets, 0)
    if not isinstance(gets, int):
        shares = dict(zip(periods, gets))
        due = 'ok', [shares.get(j, 0) for j in range(1, day + 1)]
    name, asked = ('fill', [asked]) if isinstance(asked, int) else ('fill_opted_out', asked)
    make(store, due, name, date, *asked, advance, missing,
         length=day if filled is None else filled)


def main():
    if len(sys.argv) != 2:
        sys.exit(__doc__)
    faulthandler.enable()                  # an access past an array ends the process
    library, reached = Library(sys.argv[1]), Counter()
    store = shaped(library, reached, 30, CATEGORIES, 65)
    for date in READ, COPY:
        for given in FILLS:
            fill(store, date, *given)
    for asked in 2, (1, 1, 1):
        # Any mark but 0 counts; marks past the day do not, and entries past it stand.
        for mark, length in ((2, 48), (128, 49), (255, 96)):
            fill(store, READ, asked, 100, (1, 2, 3, 4, 49), (46, 27, 27, 0), length, length, mark)
        fill(store, READ, asked, 100, (49, 50), 17, marks=50)
    # The order of the numbers: 1, 9, 15, 14, 17.
    for asked, number in ((2, 14), (7, 15), ((1, 1, 1), 14), ((2, 1, 1), 15)):
        for periods in (), (1,), (4,):
            fill(store, NOT_RUN, asked, 100, periods, number)
            for date in PAST, 2 ** 32:
                fill(store, date, asked, 100, periods, 9)
            for date in READ, NOT_RUN, PAST:
                fill(store, date, asked, 100, periods, 1, marks=47)
                fill(store, date, asked, 100, periods, 1, filled=47)
    # Quarters of an hour, all alike.
    store, day = shaped(library, reached, 15, [((1, 1, 1, 1, 1), (3,) * 96)], 96), range(1, 97)
    for asked in 0, (1, 1, 1):
        fill(store, READ, asked, 95, day, (1,) * 95 + (0,))
        fill(store, READ, asked, 191, day, (2,) * 95 + (1,))
        fill(store, READ, asked, TOP, day, (44739243,) * 63 + (44739242,) * 33)
        fill(store, READ, asked, 95, day, 1, marks=95)
    count = sum(reached[name, number] for name in ('fill', 'fill_opted_out')
                for number in (0, *CALLS[name].checks))
    print(f'fills: {count} as worked out by hand')


if __name__ == '__main__':
    main()
