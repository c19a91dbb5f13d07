"""Previews and rows worked out by hand, on the compiled library.

    python3 previews.py LIBRARY

LIBRARY is the shared one. An answer has to be the one written here; library.py tests
that it is the plain ledger's too, that a run on a copy answers and leaves the same, and
that nothing else was written: no part of the store, nothing of a draft past the cells of
a date, and nothing of it after a refusal. Exit status 1 at the first difference.
"""

import faulthandler
import struct
import sys
from collections import Counter
from itertools import product

from cases import LARGEST, Case
from library import PARTS, WIDTHS, Library, make
from remainders import ADVANCED, BLANK, HERE, THERE, WORDS

DRAFT, PUBLISHED = 1, 0                    # switches
SWITCHES = 0, 1, 2, 2 ** 8, 2 ** 32, 2 ** 63, LARGEST


def fresh(value, date, flag='A'):
    """The cell of one reading."""
    return flag, value, 1, date, 0


class Previews(Case):
    """A store with a draft, at first of the least length and full of other things."""

    def __init__(self, *opening, **meters):
        super().__init__(*opening, **meters)
        self.draft = self.other_draft()

    def other_draft(self, more=0):
        """One that no preview made, with so many entries more than a date has cells."""
        return b'\x5a' * (WIDTHS['draft'] * (self.sizes.row + more))

    def preview(self, date, moved):
        past, before = WIDTHS['draft'] * self.sizes.row, self.draft
        self.ask((moved,), 'preview', before, date)
        self.draft = self.store.draft      # as the call left it
        assert self.draft[past:] == before[past:] and len(self.draft) == len(before)

    def row(self, date, category, due, switch=DRAFT):
        """Period -> its cell where it is not blank, or the number of the refusal."""
        if not isinstance(due, int):
            due = [[due.get(period, BLANK) for period in range(1, self.sizes.periods + 1)]]
        self.ask(due, 'row', self.draft, date, category, switch)

    def cells(self, *rows):
        """(date, category, period) and its five fields, or the number of the refusal."""
        for place, due in rows:
            self.ask(due if isinstance(due, int) else (ord(due[0]), *due[1:]), 'cell', *place)


def worked(store, duration):
    """The paper's example: 5 in period 1 of date 0, then a new set with 6 and 9."""
    case = store(duration, [1] * 3, HERE, ADVANCED)
    case.receive_day(0, {1: 5})
    case.run(0, 1)
    case.run(1, 1)
    case.receive_day(0, {1: 6, 2: 9})
    case.preview(0, 4)
    new, old = {1: fresh(6, 0), 2: fresh(9, 0)}, {1: fresh(5, 0)}
    case.cells(((0, 0, 1), fresh(5, 0)), ((0, 0, 2), BLANK), ((1, 0, 1), fresh(5, 0, 'E')),
               ((1, 0, 2), BLANK), ((2, 0, 1), 14))
    case.row(0, 0, new)
    case.row(0, 0, old, PUBLISHED)
    case.row(1, 0, {1: fresh(5, 0, 'E')}, PUBLISHED)
    case.row(2, 0, 14, PUBLISHED)
    for date in range(3):                  # the draft does not remember its own
        case.row(date, 0, new)
        case.row(date, 1, {})
    case.row(0, 1, {}, PUBLISHED)
    for switch in SWITCHES:
        case.row(3, 0, 9, switch)
        case.row(0, 0, new if switch else old, switch)
    for entries in 0, 1, case.sizes.periods, case.sizes.row - 1:
        cut = case.draft[:WIDTHS['draft'] * entries]
        for date in 0, 2, 3:
            case.ask(18, 'preview', cut, date)
            for switch in SWITCHES:
                case.ask(18, 'row', cut, date, 0, switch)
    # The run goes by what is held, whatever was looked at before it.
    case.run(1, 0)
    case.run(0, 4)
    copies = {1: fresh(6, 0, 'E'), 2: fresh(9, 0, 'E')}
    for date, published in ((0, new), (1, copies)):
        case.row(date, 0, published, PUBLISHED)
        case.row(date, 0, new)
        case.row(date, 1, {}, PUBLISHED)
    # Now nothing would move; and date 2, which is not run, would take both over.
    case.preview(0, 0)
    case.row(2, 0, new)
    case.preview(1, 0)
    case.row(0, 0, copies)
    for _ in range(2):
        case.preview(2, 2)
        case.row(2, 0, copies)
        case.row(2, 0, 14, PUBLISHED)
    case.run(2, 2)
    case.row(2, 0, copies, PUBLISHED)


def longer(store):
    """A draft may have more entries than a date has cells; they stand, whatever is previewed."""
    case = store(30, [1] * 2, HERE, THERE, ADVANCED)
    case.receive_day(0, {48: 7}, meter=2)
    for more in 0, 1, 48, 1000:
        case.draft = case.other_draft(more)
        case.preview(0, 1)
        for category, due in enumerate(({}, {}, {48: fresh(7, 0)})):
            case.row(1, category, due)
        case.row(0, 3, 15)                 # though there may be entries


def first_runs(store):
    """Dates that were not run compare with N; later run dates of the day type count too."""
    case = store(30, (1, 1, 2, 1), HERE, THERE)
    case.run(1, 0)
    case.run(3, 0)
    case.receive_day(0, {1: 5, 48: 0})
    for _ in range(2):
        case.preview(0, 12)                # A and D on date 0, copies of both on dates 1 and 3
        case.row(0, 0, {1: fresh(5, 0), 48: fresh(0, 0)})
        case.row(0, 1, {1: fresh(5, 0, 'D'), 48: fresh(0, 0, 'D')})
        case.row(0, 0, 14, PUBLISHED)
        case.cells(((0, 0, 1), 14), ((1, 0, 1), BLANK), ((3, 1, 48), BLANK))
    case.preview(1, 0)                     # date 0 is still not run, so nothing is taken over
    case.row(0, 0, {})
    case.preview(2, 0)                     # of another day type
    case.row(0, 1, {})
    case.row(2, 0, 14, PUBLISHED)
    case.receive_day(2, {2: 8}, meter=1)
    case.preview(2, 2)
    case.row(2, 0, {2: fresh(8, 2, 'D')})
    case.row(2, 1, {2: fresh(8, 2)})
    case.run(0, 12)
    case.row(3, 1, {1: fresh(5, 0, 'E'), 48: fresh(0, 0, 'E')}, PUBLISHED)
    case.row(3, 1, {2: fresh(8, 2)})


def chain(store):
    """Period 1 is copied up to date 1, since date 2 has its own; period 2 is copied to the end."""
    case = store(30, [1] * 5, HERE)
    case.receive_day(0, {1: 5, 2: 6})
    case.receive_day(2, {1: 7})
    for date in range(5):
        case.run(date, 2)
    for readings, moved in (({1: 5, 2: 6}, 0), ({1: 50, 2: 6}, 2), ({1: 5, 2: 60}, 5),
                            ({1: 50, 2: 60}, 7), ({1: 50}, 7), ({2: 6}, 2), ({}, 7)):
        case.receive_day(0, readings)
        case.preview(0, moved)
        case.row(4, 0, {period: fresh(wh, 0) for period, wh in readings.items()})
        case.cells(((0, 0, 1), fresh(5, 0)), ((4, 0, 1), fresh(7, 2, 'E')),
                   ((4, 0, 2), fresh(6, 0, 'E')))
    # Without its own readings date 2 would copy period 1, and with it dates 3 and 4.
    case.receive_day(2, {})
    case.preview(2, 3)
    case.row(2, 0, {1: fresh(5, 0, 'E'), 2: fresh(6, 0, 'E')})
    case.run(0, 7)
    case.preview(2, 3)                     # to N, as date 0 is empty now
    case.row(2, 0, {})
    case.run(2, 3)


def remainder(store):
    """Of 10, 11 and 13 the last is gone, then it is 12: only what rounding dropped moves then."""
    case = store(30, [1] * 2, HERE, THERE, meters=[0] * 3)
    for meter, wh in enumerate((10, 11, 13)):
        case.receive_day(0, {1: wh}, meter)
    case.run(0, 2)
    case.run(1, 2)
    for readings, count, dropped in (({}, 2, -1), ({1: 12}, 3, 0)):
        case.receive_day(0, readings, meter=2)
        case.preview(0, 4)
        for category, flag in enumerate('AD'):
            case.row(0, category, {1: (flag, 11, count, 0, dropped)})
            case.row(0, category, {1: (flag, 11, 3, 0, 1)}, PUBLISHED)
            case.row(1, category, {1: ('E', 11, 3, 0, 1)}, PUBLISHED)
    case.run(0, 4)


def numbers(store):
    """The order of the numbers; a draft stands after each, and the lent number is put by each."""
    case = store(30, [1] * 3, HERE, ADVANCED)
    case.receive_day(0, {1: 5})
    case.run(0, 1)
    case.preview(0, 0)
    full, short = case.draft, case.draft[:-WIDTHS['draft']]
    past = 3, 2 ** 16, 2 ** 32, LARGEST                # dates
    absent = 2, 64, 2 ** 8, 2 ** 32, LARGEST           # categories
    for date in 0, 1, 3:
        for draft in full, short, b'':
            case.cut('preview', draft, date)
            for category, switch in product((0, 2), SWITCHES):
                case.cut('row', draft, date, category, switch)
    for date in past:
        case.ask(9, 'preview', full, date)
        case.ask(18, 'preview', short, date)
        for category, switch in product((0, *absent), SWITCHES):
            case.row(date, category, 9, switch)
            case.ask(18, 'row', short, date, category, switch)
    for date, category, switch in product((0, 1), absent, SWITCHES):
        case.row(date, category, 15, switch)
        case.ask(18, 'row', short, date, category, switch)
    for category, drafted in ((0, {1: fresh(5, 0)}), (1, {})):
        for switch in SWITCHES:
            case.row(1, category, drafted if switch else 14, switch)
    for stood, (date, switch, due) in product(
            (0, 1, 14, 18, 48, LARGEST), ((0, 0, 0), (0, 1, 0), (1, 0, 14), (1, 1, 0), (3, 1, 9))):
        answer = ('no', due, 0) if due else ('ok', [fresh(5, 0)] + [BLANK] * 47)
        make(case.store, answer, 'row', full, date, 0, switch, number=struct.pack('Q', stood))
    assert case.draft is full              # no refusal, and no row, wrote to it
    # Unopened, before the draft is looked at.
    case.store.replace({part: bytes(len(case.store.parts[part])) for part in PARTS})
    for draft, date in product((full, short, b''), (0, 3)):
        case.ask(1, 'preview', draft, date)
        for switch in SWITCHES:
            case.ask(1, 'row', draft, date, 0, switch)


def largest(store):
    """64 categories of 96 periods: 14 of one family, and 8 of the last one's."""
    keys = [(1, group, domestic, quantity, connection, 0) for connection, domestic, quantity, group
            in product((1, 2), (1, 2), (1, 2), range(1, 15))][:64]
    case = store(15, [1] * 2, *keys)
    case.receive_day(0, {96: 5})
    case.receive_day(0, {1: 9}, meter=63)
    case.run(1, 0)
    case.preview(0, 44)
    for category in range(64):
        due = {96: fresh(5, 0, 'D' if category else 'A')} if category < 14 else {}
        if category >= 56:
            due = {1: fresh(9, 0, 'A' if category == 63 else 'D')}
        case.row(1, category, due)
        case.row(1, category, {}, PUBLISHED)
        case.row(0, category, 14, PUBLISHED)
    case.ask(18, 'preview', case.draft[:-WIDTHS['draft']], 0)
    case.run(0, 44)


def entries(store):
    """Any number reads as a cell, by itself and in a row of a draft that no preview made."""
    case = store(30, [1], HERE, ADVANCED)
    for entry, (flag, *rest) in WORDS.items():
        case.ask((ord(flag), *rest), 'entry', entry)
    case.cut('entry', LARGEST)
    row = [*WORDS, *[1] * (48 - len(WORDS))]
    case.draft = struct.pack('96Q', *row[::-1], *row)
    cells = [*WORDS.values(), *[WORDS[1]] * (48 - len(WORDS))]
    case.row(0, 0, dict(enumerate(cells[::-1], 1)))
    case.row(0, 1, dict(enumerate(cells, 1)))
    case.row(0, 1, 14, PUBLISHED)
    # In cells as well: a first entry of 0 says that the date is not run, whatever the category.
    case.store.replace({**case.store.parts, 'cells': struct.pack('96Q', *row, *row[::-1])})
    case.row(0, 0, dict(enumerate(cells, 1)), PUBLISHED)
    case.row(0, 1, dict(enumerate(cells[::-1], 1)), PUBLISHED)
    case.store.replace({**case.store.parts, 'cells': struct.pack('96Q', 0, *row[1:], *row)})
    case.row(0, 1, 14, PUBLISHED)
    case.row(0, 1, dict(enumerate(cells, 1)))
    # A run would put N into all places; a 0 of the date counts as N, so all others would move.
    case.store.replace({**case.store.parts,
                        'cells': struct.pack('96Q', 0, 2 ** 31, *[1] * 93, 0)})
    case.preview(0, 93)
    case.row(0, 0, {})
    case.row(0, 1, {})
    case.row(0, 1, 14, PUBLISHED)


def main():
    if len(sys.argv) != 2:
        sys.exit(__doc__)
    faulthandler.enable()                  # an access past an array ends the process
    library, reached = Library(sys.argv[1]), Counter()

    def store(*opening, **meters):
        return Previews(library, reached, *opening, **meters)

    for duration in 30, 15:
        worked(store, duration)
    for cases in longer, first_runs, chain, remainder, numbers, largest, entries:
        cases(store)
    print(f'previews: {reached["by hand"]} previews, rows and cells as worked out by hand')


if __name__ == '__main__':
    main()
