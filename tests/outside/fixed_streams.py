"""The fixed streams of the command programs, and what the programs must answer.

    python3 fixed_streams.py DIRECTORY

Writes NAME/stdin and NAME/stdout into DIRECTORY: for the programs shaper (the
paper's worked example), shaper_wide and net_test, which writes the nets of its
store behind the answers; and late_day, midday, refusals and remainder, four more for
shaper. Answers and nets are the plain ledger's.
"""

import pathlib
import sys

from program import PROFILES, Limits, Program
from streams import TOP, command, valid_mpan
from worked_example import INPUT

FIRST, SECOND, THIRD, FOURTH, FIFTH = (valid_mpan(first) for first in
                                       (10 ** 11, 101 * 10 ** 9, 1, 2, 3))
LIMIT = 10000


def open_store(categories, day_types, duration=30, meters=4):
    return (b''.join(b'\x11' + bytes(record) for record in categories)
            + b''.join(bytes((0x12, day_type)) for day_type in day_types)
            + command(0x10, duration, 1, meters, 2))


def register(mpan, date=0, minute=0, category=0, sender=7, status=1, limit=LIMIT):
    return command(0x13, mpan, 8, date, 2, minute, 2, category, 1, sender, 2, status, 1, limit, 4)


def receive(mpan, date, records, sender=7, duration=30, quantity=1):
    """A meter day of records (end minute, quality, Wh)."""
    return (command(0x14, sender, 2, mpan, 8, date, 2, duration, 1, quantity, 1, len(records), 1)
            + b''.join(command(0x15, end, 2, quality, 1, wh, 4) for end, quality, wh in records))


def whole_day(wh, quality=1, duration=30):
    return [(end, quality, wh) for end in range(duration, 1441, duration)]


def run(date):
    return command(0x16, date, 2)


def totals(date, category=0):
    return command(0x17, date, 2, category, 1)


def cell(date, category=0, period=1):
    return command(0x18, date, 2, category, 1, period, 1)


def look(dates, category=0):
    return b''.join(cell(date, category) + totals(date, category) for date in dates)


def late_day():
    """One meter; date 0 is the first of a chain of copies, and its day comes again, late."""
    category, types = (1, 1, 1, 1, 1, 1, 0, 1), (1, 1, 1, 2, 1, 1, 1, 1)
    upward = open_store([category], types) + register(FIRST)
    upward += receive(FIRST, 0, whole_day(500))
    upward += b''.join(map(run, range(8))) + look((0, 2, 3, 7))
    # The late day: copies stand until date 0 is run again, then all of them follow.
    upward += receive(FIRST, 0, whole_day(2500)) + look((7,)) + run(0) + look((0, 2, 3, 7)) + run(0)
    # A day in the middle cuts the chain; another late day then moves only what is before it.
    upward += receive(FIRST, 4, whole_day(800)) + run(4) + look((2, 4, 7))
    upward += receive(FIRST, 0, whole_day(1000)) + run(0) + look((2, 4, 7))
    # The day in the middle is withdrawn, by a set of estimates: the chain closes again.
    upward += receive(FIRST, 4, whole_day(800, quality=8)) + run(4) + look((4, 7))
    # The other way round: copies first find nothing, and the first date is run last.
    downward = open_store([category], types, meters=1) + register(FIRST)
    downward += b''.join(map(run, range(7, 0, -1))) + look((7,))
    downward += receive(FIRST, 0, whole_day(500)) + run(0) + look((1, 3, 7))
    return upward + downward


def midday():
    """A data service changes at 09:00, and its successor sends the day of the change."""
    first, second = (1, 1, 1, 1, 1, 0, 0, 1), (1, 1, 1, 1, 2, 0, 0, 1)
    story = open_store([first, second], [1] * 4) + register(FIRST, sender=7)
    story += receive(FIRST, 0, whole_day(40)) + run(0)
    # 09:00 of date 1, with a category and a limit that start on date 2.
    story += register(FIRST, date=1, minute=540, category=1, sender=8, limit=10)
    story += receive(FIRST, 1, whole_day(50), sender=7) + receive(FIRST, 1, whole_day(50), sender=8)
    story += run(1) + look((1,), 0) + look((1,), 1)
    story += receive(FIRST, 2, whole_day(50), sender=8) + receive(FIRST, 2, whole_day(10), sender=7)
    # 12:01 of date 2 is too late for that date, 12:00 would not be.
    story += register(FIRST, date=2, minute=721, sender=9)
    story += receive(FIRST, 2, whole_day(10), sender=9) + receive(FIRST, 2, whole_day(10), sender=8)
    story += run(2) + look((2,), 0) + look((2,), 1)
    story += receive(FIRST, 3, whole_day(60), sender=8) + receive(FIRST, 3, whole_day(60), sender=9)
    story += register(SECOND, date=1, sender=3) + receive(SECOND, 2, whole_day(20), sender=3)
    story += register(SECOND, date=2, minute=720, sender=4)
    story += receive(SECOND, 2, whole_day(30), sender=3)
    story += receive(SECOND, 2, whole_day(30), sender=4)
    # A meter that is first registered at 10:00 of date 1 has a sender there, and no category.
    story += register(THIRD, date=1, minute=600, sender=5) + receive(THIRD, 1, [], sender=5)
    story += receive(THIRD, 2, whole_day(80), sender=5) + run(2) + run(3) + look((2, 3))
    # The same start as 10:00 of date 1; and a start past the last date.
    story += register(THIRD, date=2, sender=6) + register(FOURTH, date=3, minute=540)
    return story


def remainder():
    """What rounding dropped: where that alone differs, a cell moves, and its copies with it."""
    regions = [(1, group, 1, 1, 1, 0, 0, 1) for group in (1, 2)]

    def sent(mpan, *values):
        return receive(mpan, 0, [(30 * period, 1, wh) for period, wh in enumerate(values, 1)])

    def shown():
        return b''.join(cell(date, category) for date in (0, 1) for category in (0, 1))

    story = open_store(regions, [1, 1], meters=3) + b''.join(map(register, (FIRST, SECOND, THIRD)))
    # 10 + 11 + 13 = 3 x 11 + 1 in period 1, 5 + 6 = 2 x 6 - 1 in period 2.
    story += sent(FIRST, 10, 5) + sent(SECOND, 11, 6) + sent(THIRD, 13) + run(0) + run(1)
    story += shown() + cell(0, 0, 2) + cell(0, 0, 3)
    # 12 in place of 13: the same average of three, and four cells move.
    story += sent(THIRD, 12) + run(0) + shown()
    # Only two: 21 = 2 x 11 - 1.
    story += sent(THIRD) + run(0) + shown() + run(0)
    return story


def refusals():
    """Each number that the program can give, then a ninth 12."""
    good, kept = (1, 1, 1, 1, 1, 1, 0, 1), (2, 0, 0, 1, 1, 0, 0, 1)
    before = register(FIRST) + receive(FIRST, 0, []) + run(0) + totals(0) + cell(0)
    openings = (open_store([good], [1], duration=20) + open_store([good, good], [1])
                + open_store([good], [1, 17]) + open_store([good], [1], meters=5)
                + open_store([good, kept], [1, 2, 1, 2]))
    registrations = (register(FIRST, date=4) + register(FIRST + 1) + register(FIRST, status=4)
                     + register(FIRST, date=3, minute=1) + register(FIRST, category=2)
                     + register(FIRST) + register(SECOND, status=2) + register(THIRD, status=3)
                     + register(FOURTH, date=1, minute=600, limit=5) + register(FIFTH)
                     + register(FIRST))
    days = (receive(FIRST, 4, []) + receive(FIRST + 1, 0, []) + receive(FIFTH, 0, [])
            + receive(FOURTH, 1, []) + receive(FIRST, 0, [], sender=8)
            + receive(FIRST, 0, [], quantity=2) + receive(FIRST, 0, [], duration=15)
            + receive(FIRST, 0, [(30, 1, 5), (60, 15, 5)]) + receive(FIRST, 0, [(0, 1, 5)])
            + receive(FIRST, 0, [(30, 1, 5), (60, 1, 5), (30, 8, 5)])
            + receive(SECOND, 0, [(30, 10, 0)]) + receive(THIRD, 0, [(30, 1, 0)])
            + receive(FIRST, 0, [(30, 10, 1)]) + receive(FOURTH, 2, [(30, 1, 5), (60, 1, 6)])
            + receive(FIRST, 1, [(30, 1, LIMIT)]) + register(FIRST, date=1))
    reads = (run(4) + run(1) + totals(4) + totals(1, 2) + totals(0) + totals(1) + cell(4)
             + cell(1, period=0) + cell(1, period=49) + cell(0) + cell(1))
    return before + openings + registrations + days + reads + bytes((0x12, 1)) * 9


def wide():
    """A meter's ninth registration, families over regions, and a full year of copies."""
    region = lambda group, least: (1, group, 1, 1, 1, 2, 0, least)
    advanced = (2, 0, 0, 1, 1, 0, 0, 1)
    hands = open_store([region(group, 3) for group in (1, 2, 14)] + [advanced], [1] * 12,
                       duration=15, meters=8)
    hands += b''.join(register(FIRST, date=date, category=date % 4) for date in range(9))
    meters = (SECOND, THIRD, FOURTH, FIFTH)
    hands += b''.join(register(mpan, category=number) for number, mpan in enumerate(meters))
    for number, mpan in enumerate((FIRST, *meters)):
        hands += receive(mpan, 8, whole_day(100 + 10 * number ** 2, duration=15), duration=15)
    hands += b''.join(map(run, (9, 8, 11))) + b''.join(look((8, 9, 11), c) for c in range(4))
    year = open_store([region(1, 1)], [1] * 370, meters=1) + register(FIRST)
    year += receive(FIRST, 0, [(30, 1, 1000), (1440, 2, 777)])
    year += b''.join(map(run, range(370))) + look((0, 6, 7, 363, 364, 365, 369))
    year += receive(FIRST, 0, [(30, 1, 1001), (1440, 2, 777)]) + run(0) + look((364, 369))
    year += receive(FIRST, 200, [(60, 1, 5)]) + run(200) + look((199, 200, 369)) + run(369)
    return hands + year


# Nets. Domestic with connection W has import of groups A, B, C and export of A, B, D, where B needs
# two readings. Not domestic with L has one of each, domestic with H no export. Then what belongs to
# none of these families: Advanced, and an export that is not domestic.
NET_CATEGORIES = [(1, 1, 1, 1, 1, 1, 0, 1), (1, 1, 1, 2, 1, 2, 0, 0),
                  (1, 2, 1, 1, 1, 0, 0, 2), (1, 2, 1, 2, 1, 0, 0, 2),
                  (1, 3, 1, 1, 1, 0, 0, 1), (1, 4, 1, 2, 1, 1, 0, 1),
                  (1, 1, 2, 1, 2, 0, 0, 1), (1, 1, 2, 2, 2, 1, 0, 1), (1, 1, 1, 1, 3, 0, 0, 1),
                  (2, 0, 0, 1, 1, 0, 0, 1), (2, 0, 0, 2, 1, 0, 0, 1), (1, 1, 2, 2, 1, 0, 0, 1)]
NET_TYPES = (1, 1, 2, 1, 2, 3, 3, 3, 1, 1, 2, 1)
NOT_RUN = (8, 11)

# date -> category -> period -> Wh
NET_READINGS = {
    # Of categories 0 and 1, periods 1 to 3 and 10 have both, 4 import alone, 5 export alone, 6
    # none, 7 both by their families. In period 3 the second form too has all its cells.
    0: {0: {1: 400, 2: 100, 3: 70, 4: 50, 8: TOP, 10: 0, 48: 5},
        1: {1: 150, 2: 350, 3: 70, 5: 60, 9: TOP, 10: 0, 48: 11},
        2: {1: 200, 8: TOP, 11: 30}, 3: {2: 10, 9: TOP},
        4: {3: 40, 7: 90, 8: TOP}, 5: {3: 5, 5: 20, 7: 33, 9: TOP, 12: 45},
        6: {1: 10, 2: TOP, 3: 8}, 7: {1: 25, 2: 1, 3: 8}, 8: {1: 1000, 6: 1},
        9: {1: 2000, 6: 2}, 10: {1: 3000, 6: 3}, 11: {1: 5000, 6: 4}},
    # Few readings, so most cells are copies; date 2, the first of its type, has none at all.
    1: {0: {1: 410}, 1: {2: 20}, 7: {1: 2}},
    3: {1: {1: 900, 8: TOP}, 3: {1: 100}},
    4: {0: {1: 27, 2: 9}, 1: {1: 3}, 6: {1: 4}, 7: {1: 4}},
    # A day of the largest values: import alone, export against copies of it, export alone.
    5: {0: dict.fromkeys(range(1, 49), TOP)},
    6: {1: dict.fromkeys(range(1, 49), TOP)},
    7: {0: dict.fromkeys(range(1, 49), 0)},
    8: {0: {1: 12345}},                    # held, but the date is not run
    9: {0: {1: 500}, 5: {30: 600}},
    10: {4: {20: 77}}}


def net_store():
    """Each case of a net, over twelve dates of which one in the middle and the last are not run."""
    meters = [valid_mpan(number) for number in range(1, len(NET_CATEGORIES) + 1)]
    store = open_store(NET_CATEGORIES, NET_TYPES, meters=len(meters))
    store += b''.join(register(mpan, category=number, limit=TOP)
                      for number, mpan in enumerate(meters))
    for date, sets in NET_READINGS.items():
        for number, readings in sets.items():
            store += receive(meters[number], date, [(30 * j, 1, wh) for j, wh in readings.items()],
                             quantity=NET_CATEGORIES[number][3])
    return store + b''.join(run(date) for date in range(len(NET_TYPES)) if date not in NOT_RUN)


def net_lines(ledger):
    """All nets, dates and categories one past the last too, then lists of other lengths."""
    dates, categories = range(ledger.dates + 1), range(len(ledger.categories) + 1)
    lines = [net_line(ledger, date, category, all_groups)
             for all_groups in (False, True) for date in dates for category in categories]
    lines += [net_line(ledger, 0, 0, False, 48, 48), net_line(ledger, 0, 0, True, 48, 48),
              net_line(ledger, 0, 0, False, 47, 48), net_line(ledger, 0, 0, True, 48, 47),
              net_line(ledger, dates[-1], categories[-1], False, 47, 47)]
    return lines + ['net 0 0 0 no 1 0 kept']   # the cells without their last entry


def net_line(ledger, date, category, all_groups, numbers=50, marks=50):
    """The lists have 50 entries, -7 and 9 at first, of which so many are lent."""
    answer = ledger.net(date, category, all_groups, numbers, marks)
    if answer[0] == 'ok':
        ok, tot, tot7, nets, blanks = answer
        kept = 50 - ledger.periods
        answer = ok, tot, tot7, *nets, *[-7] * kept, *blanks, *[9] * kept
    else:
        answer = *answer, 'kept'
    return ' '.join(map(str, ('net', date, category, int(all_groups), *answer)))


STREAMS = {'shaper': (INPUT, PROFILES['small']),
           'late_day': (late_day(), PROFILES['small']),
           'midday': (midday(), PROFILES['small']),
           'refusals': (refusals(), PROFILES['small']),
           'remainder': (remainder(), PROFILES['small']),
           'shaper_wide': (wide(), PROFILES['wide']),
           'net_test': (net_store(), Limits(12, 12, 12 * 48, 12))}


def main():
    if len(sys.argv) != 2:
        sys.exit(__doc__)
    for name, (stream, limits) in STREAMS.items():
        program = Program(stream, limits)
        lines = [answer.line for answer in program.answers()]
        if name == 'net_test':
            lines += net_lines(program.ledger)
        folder = pathlib.Path(sys.argv[1]) / name
        folder.mkdir(parents=True, exist_ok=True)
        (folder / 'stdin').write_bytes(stream)
        (folder / 'stdout').write_text(''.join(line + '\n' for line in lines))


if __name__ == '__main__':
    main()
