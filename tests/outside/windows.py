"""Off-peak windows worked out by hand, on the compiled library.

    python3 windows.py LIBRARY

LIBRARY is the shared one. An answer has to be the one written here; library.py tests
that it is the plain ledger's too, or on a store that the calls did not make what its
parts say, that an opening leaves the settings that it was given, byte for byte, and that
nothing else was written: of a refused opening no part at all. Exit status 1 at the first
difference.
"""

import faulthandler
import struct
import sys
from collections import Counter
from itertools import combinations, product

from cases import LARGEST, PAST
from library import CALLS, FIELDS, PARTS, RECORDS, WIDTHS, Library, make
from totals import Totals

ADVANCED = (2, 0, 0, 1, 1, 0)
HALF, QUARTER = 30, 15                     # durations

# Start and end of eight windows at a time, and the first and last of their periods.
SHAPES = {
    HALF: [
        [(0, 420, 1, 14), (30, 450, 2, 15), (0, 1440, 1, 48), (0, 30, 1, 1), (1410, 1440, 48, 48),
         (600, 720, 21, 24), (0, 420, 1, 14), (420, 450, 15, 15)],
        [(1380, 1440, 47, 48), (30, 1410, 2, 47), (30, 60, 2, 2), (1380, 1410, 47, 47),
         (720, 1440, 25, 48), (0, 720, 1, 24), (930, 990, 32, 33), (450, 1440, 16, 48)],
        [(0, 1440, 1, 48)] * 8,
        [(180 * k, 180 * k + 180, 6 * k + 1, 6 * k + 6) for k in range(8)]],
    QUARTER: [
        [(0, 420, 1, 28), (30, 450, 3, 30), (0, 1440, 1, 96), (0, 15, 1, 1), (1425, 1440, 96, 96),
         (600, 720, 41, 48), (45, 75, 4, 5), (420, 435, 29, 29)],
        [(1410, 1440, 95, 96), (15, 1425, 2, 95), (15, 30, 2, 2), (1410, 1425, 95, 95),
         (720, 1440, 49, 96), (0, 735, 1, 49), (465, 495, 32, 33), (945, 975, 64, 65)],
        [(0, 1440, 1, 96)] * 8,
        [(180 * k, 180 * k + 180, 12 * k + 1, 12 * k + 12) for k in range(8)]]}

# Kept minutes that no opening takes, and the first and last of the periods that lie between them;
# from 1 to 0 where none does.
FOREIGN = {
    HALF: [(1, 60, 2, 2), (29, 61, 2, 2), (31, 90, 3, 3), (0, 31, 1, 1), (0, 59, 1, 1),
           (0, 1439, 1, 47), (0, 1441, 1, 48), (1, 1470, 2, 48), (0, 65535, 1, 48),
           (1409, 65535, 48, 48), (1410, 32768, 48, 48), (15, 1425, 2, 47), (255, 512, 10, 17),
           (0, 2048, 1, 48), (0, 4096, 1, 48), (0, 8192, 1, 48), (0, 16384, 1, 48),
           (2048, 65535, 1, 0), (4096, 65535, 1, 0), (8192, 65535, 1, 0), (32768, 65535, 1, 0),
           (15, 45, 1, 0), (30, 59, 1, 0), (31, 60, 1, 0), (0, 29, 1, 0), (0, 0, 1, 0),
           (420, 420, 1, 0), (450, 420, 1, 0), (1411, 1440, 1, 0), (1411, 65535, 1, 0),
           (1440, 1470, 1, 0), (1440, 65535, 1, 0), (65535, 0, 1, 0), (65535, 65535, 1, 0),
           (65505, 65535, 1, 0), (1440, 0, 1, 0), (1470, 1440, 1, 0)],
    QUARTER: [(1, 60, 2, 4), (29, 61, 3, 4), (31, 90, 4, 6), (0, 31, 1, 2), (0, 59, 1, 3),
              (0, 1439, 1, 95), (0, 1441, 1, 96), (1, 1470, 2, 96), (0, 65535, 1, 96),
              (1424, 65535, 96, 96), (1425, 32768, 96, 96), (7, 1433, 2, 95), (255, 512, 18, 34),
              (0, 2048, 1, 96), (0, 4096, 1, 96), (0, 8192, 1, 96), (0, 16384, 1, 96),
              (2048, 65535, 1, 0), (4096, 65535, 1, 0), (8192, 65535, 1, 0), (32768, 65535, 1, 0),
              (15, 29, 1, 0), (16, 30, 1, 0), (16, 44, 1, 0), (0, 14, 1, 0), (0, 0, 1, 0),
              (420, 420, 1, 0), (450, 420, 1, 0), (1426, 1440, 1, 0), (1426, 65535, 1, 0),
              (1440, 1455, 1, 0), (1440, 65535, 1, 0), (65535, 0, 1, 0), (65535, 65535, 1, 0),
              (65520, 65535, 1, 0), (1440, 0, 1, 0), (1455, 1440, 1, 0)]}

# On both grids, and small if they were cut down to 16, 32 or 63 bits.
ON_GRID = [(0, 2 ** 16 + 14), (0, 2 ** 32 + 14), (0, 2 ** 48 + 14), (0, 2 ** 63 + 22),
           (2 ** 16 + 14, 1440), (2 ** 32 + 14, 1440), (2 ** 63 + 22, 1440)]
# Each breaks one rule at least, whatever stands beside it.
BAD = {
    HALF: [(45, 75), (15, 60), (30, 75), (1, 30), (29, 60), (0, 29), (0, 31), (0, 1425), (0, 0),
           (30, 30), (1440, 1440), (30, 0), (1440, 0), (1440, 1410), (0, 1441), (0, 1470),
           (1410, 1470), (1440, 1470), (0, 65535), (0, 2 ** 16), (0, 2 ** 16 + 420),
           (2 ** 16, 2 ** 16 + 420), (2 ** 16, 420), (0, 2 ** 32 + 420), (2 ** 32, 420),
           (2 ** 32, 2 ** 32 + 420), (0, 2 ** 63), (2 ** 63, 0), (2 ** 63, 2 ** 63 + 420),
           (0, LARGEST), (LARGEST, 0), (LARGEST, 30), (LARGEST, LARGEST), (LARGEST - 15, LARGEST),
           (0, LARGEST - 15), (LARGEST - 45, LARGEST - 15), (LARGEST - 15, 30), *ON_GRID],
    QUARTER: [(40, 75), (45, 70), (1, 15), (14, 30), (0, 14), (0, 16), (0, 1433), (0, 0), (15, 15),
              (1440, 1440), (15, 0), (1440, 0), (1440, 1425), (0, 1441), (0, 1455), (1425, 1455),
              (1440, 1455), (0, 65535), (0, 2 ** 16), (0, 2 ** 16 + 420),
              (2 ** 16, 2 ** 16 + 420), (2 ** 16, 420), (0, 2 ** 32 + 420), (2 ** 32, 420),
              (2 ** 32, 2 ** 32 + 420), (0, 2 ** 63), (2 ** 63, 0), (2 ** 63, 2 ** 63 + 420),
              (0, LARGEST), (LARGEST, 0), (LARGEST, 15), (LARGEST, LARGEST),
              (LARGEST - 15, LARGEST), *ON_GRID]}
GOOD = 0, 30                               # at both durations


def groups(*numbers):
    """Categories of one family, each with the window of this number."""
    return [(1, group, 1, 1, 1, number) for group, number in enumerate(numbers, 1)]


def records(*categories):
    return b''.join(bytes((*category, 0, 1)) for category in categories)


def digit(period):
    """A binary digit for each period of a date."""
    return 2 ** ((period - 1) % 32)


class Windows(Totals):
    def open_as(self, due, **other):
        """An opening alike but for these; 'ok', or number and place of the refusal."""
        arguments = [other.pop(name, own)
                     for name, own in zip(CALLS['opening'].arguments, self.opening)]
        make(self.store, (due,) if due == 'ok' else ('no', *due), 'opening', *arguments, **other)
        self.store.reached['by hand'] += 1

    def put_window(self, place, start, end):
        """Another one than the opening was given, in the kept header."""
        self.put_settings(4 + 4 * place, *struct.pack('>2H', start, end))

    def shown(self, date):
        """The periods with readings: 1 to 32 on date 0, 33 to 64 on date 1, the rest on date 2."""
        return range(32 * date + 1, min(32 * date + 32, self.sizes.periods) + 1)

    def receive_digits(self):
        for date in range(self.sizes.dates):
            self.receive_day(date, {j: digit(j) for j in self.shown(date)})
            self.run(date, len(self.shown(date)) * self.sizes.categories)

    def rerun(self):
        """All dates again: no cell moves, and OFF is put by the windows that are kept now."""
        for date in range(self.sizes.dates):
            self.run(date, 0)

    def off_is(self, category, first, last, peak=True):
        """All figures of these dates, where the periods from first to last are off-peak."""
        tot7 = off7 = 0
        for date in range(self.sizes.dates):
            shown = self.shown(date)
            tot = sum(map(digit, shown))
            off = sum(digit(j) for j in shown if first <= j <= last)
            tot7, off7, days = tot7 + tot, off7 + off, date + 1
            annual = (2 * 365 * tot7 + days) // (2 * days)             # halves up
            self.totals({date: (tot, off, (tot - off) * peak, tot7, off7, (tot7 - off7) * peak,
                                days, annual, days, len(shown), self.sizes.periods - len(shown))},
                        category)


def of_digits(store, duration, numbers, minutes):
    """A store of as many dates as digits need, of other day types, so that nothing is copied."""
    day_types = (1, 2) if duration == HALF else (1, 2, 3)
    case = store(duration, day_types, *groups(*numbers), meters=[0], windows=minutes)
    case.receive_digits()
    return case


def worked(store):
    """10 Wh in every period."""
    for duration, minutes, number, due in (
            (30, (600, 720), 1, (480, 40, 440)),
            (30, (0, 420, 1380, 1440), 2, (480, 20, 460)),
            (30, (0, 420, 1380, 1440), 1, (480, 140, 340)),
            (15, (45, 75), 1, (960, 20, 940)),
            (30, (0, 1440), 1, (480, 480, 0)),
            (30, (0, 1440), 0, (480, 0, 0)),
            (30, (), 0, (480, 0, 0))):
        case, periods = store(duration, (1,), *groups(number), windows=minutes), 1440 // duration
        case.receive_day(0, dict.fromkeys(range(1, periods + 1), 10))
        case.run(0, periods)
        case.totals({0: (*due, *due, 1, 365 * due[0], 1, periods, 0)})
    for minutes, place in (((45, 75), 1), ((0, 420, 450, 450), 2), ((0, 420, 30), 2),
                           ((0, 30, 60, 30, 0), 2), ((0, 30) * 9, 9)):
        case.open_as((19, place), windows=minutes)
    # One window, and a category with window 2.
    case.open_as((4, 1), windows=(0, 30), category_records=records(*groups(2)))
    case.totals({0: (480, 0, 0, 480, 0, 0, 1, 365 * 480, 1, 48, 0)})


def named(store):
    """METH005's two windows, as any others, at any places of the list."""
    first, second = (0, 420), (30, 450)
    for windows, numbers in (((first, second), (1, 2)), ((second, first), (2, 1)),
                             ((first, first, second), (2, 3)),
                             (((0, 1440),) * 4 + (second, (600, 660), (0, 30), first), (8, 5))):
        minutes = [minute for window in windows for minute in window]
        for duration, periods, off_first, off_second in (
                (HALF, (1, 2, 14, 15, 16, 48), 111, 1110),
                (QUARTER, (1, 2, 3, 28, 29, 30, 31, 96), 1111, 111100)):
            case = store(duration, (1,), *groups(*numbers), windows=minutes)
            case.receive_day(0, {period: 10 ** k for k, period in enumerate(periods)})
            count = len(periods)
            case.run(0, 2 * count)
            tot = int('1' * count)
            for category, off in enumerate((off_first, off_second)):
                day = tot, off, tot - off
                case.totals({0: (*day, *day, 1, 365 * tot, 1, count, 1440 // duration - count)},
                            category)


def shapes(store):
    """All shapes at each of the eight places; then the categories name them the other way round.

    A ninth category has no window.
    """
    for duration, lists in SHAPES.items():
        for windows in lists:
            minutes = [minute for window in windows for minute in window[:2]]
            for numbers in range(1, 9), range(8, 0, -1):
                case = of_digits(store, duration, (*numbers, 0), minutes)
                for category, number in enumerate(numbers):
                    case.off_is(category, *windows[number - 1][2:])
                case.off_is(8, 1, 0, peak=False)


def week(store):
    """Nine dates, of which date 4 is not run, each with a decimal digit of its own.

    Period 20, before 10:00, has twice what period 21 has.
    """
    case = store(30, [1] * 9, *groups(1, 2, 0), ADVANCED, windows=(600, 720, 570, 600))
    for date in range(9):
        case.receive_day(date, {20: 2 * 10 ** date, 21: 10 ** date})
    for date in 8, 0, 7, 1, 6, 2, 5, 3:
        case.run(date, 6)
    # 3 * 1101111 * 365 / 6 = 200952757.5, 3 * 111101111 * 365 / 8 = 15206964568.13.
    case.totals({0: (3, 1, 2, 3, 1, 2, 1, 1095, 1, 2, 46), 4: 14,
                 6: (3 * 10 ** 6, 10 ** 6, 2 * 10 ** 6, 3303333, 1101111, 2202222, 6, 200952758, 6,
                     2, 46),
                 8: (3 * 10 ** 8, 10 ** 8, 2 * 10 ** 8, 333303300, 111101100, 222202200, 6,
                     15206964568, 8, 2, 46)})
    case.totals({8: (3 * 10 ** 8, 2 * 10 ** 8, 10 ** 8, 333303300, 222202200, 111101100, 6,
                     15206964568, 8, 2, 46)}, category=1)
    case.totals({8: (3 * 10 ** 8, 0, 0, 333303300, 0, 0, 6, 15206964568, 8, 2, 46)}, category=2)
    case.totals({8: (0, 0, 0, 0, 0, 0, 6, 0, 8, 0, 48)}, category=3)
    # Date 3 again: period 21 then copies date 2, and the dates behind copy period 22 of date 3.
    case.receive_day(3, {20: 5000, 22: 7000})
    case.run(3, 9 + 4 * 3)
    # 333340433 * 365 / 8 = 15208657255.63.
    case.totals({3: (12100, 7100, 5000, 12433, 7211, 5222, 4, 1134511, 4, 2, 45),
                 8: (300007000, 100007000, 2 * 10 ** 8, 333340400, 111135200, 222205200, 6,
                     15208657256, 8, 2, 45)})
    case.totals({8: (300007000, 2 * 10 ** 8, 100007000, 333340400, 222205200, 111135200, 6,
                     15208657256, 8, 2, 45)}, category=1)
    case.totals({8: (300007000, 0, 0, 333340400, 0, 0, 6, 15208657256, 8, 2, 45)}, category=2)


def bad_windows(store):
    """Each at each of the places, with good ones before it and anything behind it."""
    for duration, all_bad in BAD.items():
        case = of_digits(store, duration, (1,), GOOD)
        for bad in all_bad:
            for place in range(1, 9):
                for behind in (), GOOD, bad, (0,), GOOD * 12:
                    case.open_as((19, place), windows=GOOD * (place - 1) + bad + behind)
        # Without an end, good or bad as the start is; and a ninth.
        for place in range(1, 10):
            for start in 0, 30, 7, 1440, 2 ** 16, LARGEST:
                case.open_as((19, place), windows=GOOD * (place - 1) + (start,))
        for ninth in (GOOD, *all_bad):
            for behind in (), GOOD, (0,), GOOD * 60:
                case.open_as((19, 9), windows=GOOD * 8 + ninth + behind)
        # The first bad one decides, not the ninth.
        for place in range(1, 9):
            case.open_as((19, place), windows=GOOD * (place - 1) + (30, 30) + GOOD * (9 - place))
        case.off_is(0, 1, 1 if duration == HALF else 2)                # the store is as it was


def numbers(store):
    """A category names 0 or one of the list; one beyond it is bad, and so is one of Advanced."""
    for count in range(9):
        case = store(30, (1,), *groups(*range(count + 1)), windows=GOOD * count)
        for number in {count + 1, count + 2, 9, 10, 16, 128, 255}:
            case.open_as((4, 1), category_records=records(*groups(number)))
            case.open_as((4, 2), category_records=records(*groups(count, number)))
            case.open_as((4, 3), category_records=records(*groups(0, count, number, number)))
        for number in 1, count, 255:
            if number:
                case.open_as((4, 1), category_records=records((*ADVANCED[:5], number)))
        case.open_as('ok', category_records=records(ADVANCED), meter_count=1)
        case.open_as('ok', category_records=records(*groups(count)), meter_count=1)


def order(store):
    """3, 19, 4, 5, 1: all that may be wrong at once, the first of it is heard."""
    case = store(30, (1, 1), *groups(1, 2), windows=(0, 420, 30, 450))
    parts = case.store.parts
    ways = {
        3: [({name: value}, 0) for name, value in
            (('duration', 0), ('duration', 20), ('duration', 2 ** 32 + 30), ('duration', LARGEST),
             ('meter_count', 0), ('meter_count', LARGEST))],
        19: [({'windows': minutes}, place) for minutes, place in
             (((0, 420, 30, 30), 2), ((0, 420, 30, 450, 7), 3), (GOOD * 9, 9), ((420, 0), 1))],
        4: [({'category_records': records(*categories)}, 2) for categories in
            (groups(1, 3), groups(1, 255), groups(1) * 2)],
        5: [({'day_types': bytes(types)}, place) for types, place in (((0, 1), 1), ((1, 17), 2))],
        1: [({part: parts[part][:WIDTHS[part] * (case.sizes.least()[part] - 1)]}, 0)
            for part in PARTS] + [(dict.fromkeys(PARTS, b''), 0)]}
    for count in range(1, len(ways) + 1):
        for wrong in combinations(ways, count):
            for chosen in product(*map(ways.get, wrong)):
                other = {name: value for given, _ in chosen for name, value in given.items()}
                case.open_as((wrong[0], chosen[0][1]), **other)
            # Before all of them: too few fields.
            case.open_as((1, 0), **other, fields=bytes(WIDTHS['fields'] * (FIELDS - 1)))
    # What is 3 for a length, beside a window that is none.
    for name, contents in (('category_records', b''), ('category_records', bytes(15)),
                           ('category_records', records(*groups(1)) * 65), ('day_types', b''),
                           ('day_types', bytes(801))):
        for minutes in (0, 0), (0,), GOOD * 9:
            case.open_as((3, 0), **{name: contents}, windows=minutes)
    case.cut('opening', *case.opening)
    case.open_as('ok')


def laid_out(store):
    """The settings, byte for byte; what is past their least length stands."""
    case = store(15, (3, 16), (1, 14, 2, 2, 4, 3), ADVANCED, meters=[0, 0, 1],
                 windows=(0, 420, 30, 450, 1425, 1440))
    sizes, after = '000f 0003 0002 0002', '010e020204030001 0200000101000001 0310' + 'a5' * PAST

    def settings_are(*windows):
        due = bytes.fromhex(''.join((sizes, *windows, '0000 0000' * (8 - len(windows)), after)))
        assert case.store.parts['settings'] == due, case.store.parts['settings'].hex(' ')

    settings_are('0000 01a4', '001e 01c2', '0591 05a0')
    case.open_as('ok', windows=(0, 15, 15, 1440, 255, 510) + (0, 1440) * 5)
    settings_are('0000 000f', '000f 05a0', '00ff 01fe', *['0000 05a0'] * 5)
    case.open_as('ok', windows=(420, 435, 0, 1440, 720, 960))          # the five behind are emptied
    settings_are('01a4 01b3', '0000 05a0', '02d0 03c0')
    case.open_as((19, 3), windows=(0, 15, 15, 30, 30, 30))
    settings_are('01a4 01b3', '0000 05a0', '02d0 03c0')
    for entries in range(len(case.store.parts['settings']) - PAST):
        case.open_as((1, 0), settings=case.store.parts['settings'][:entries])


def short_settings(store):
    """Fewer bytes than 49 are too short here, those of the header too; layout 5 had 17."""
    case = store(30, (1,), *groups(1), windows=(0, 420))
    case.run(0, 0)
    settings = case.store.parts['settings']
    for length in 0, 7, 8, 16, 17, 39, 40, 41, 48:
        for name, arguments in (('run', (0,)), ('totals', (0, 0)), ('cell', (0, 0, 1)),
                                ('coverage', (0, 0)), ('band', (0, 1, 0, 1)),
                                ('registration', (10, 0, 0, 0, 7, 1, 5)),
                                ('reception', (7, 10, 0, 30, 1, b''))):
            make(case.store, ('no', 1, 0), name, *arguments, settings=settings[:length])
    make(case.store, ('ok', 0), 'run', 0, settings=settings[:49])


def foreign(store):
    """Kept windows that no opening takes: OFF has the periods that lie wholly between the minutes.

    Each stands at the place of its category.
    """
    for duration, windows in FOREIGN.items():
        case = of_digits(store, duration, (*range(1, 9), 0), GOOD * 8)
        first, last = 1, 30 // duration    # of the windows that were given
        for begin in range(0, len(windows), 8):
            chosen = windows[begin:begin + 8]
            for place, (start, end, *_) in enumerate(chosen, 1):
                case.put_window(place, start, end)
            if begin == 0:                 # what is read is what the runs left
                case.off_is(0, first, last)
            case.rerun()
            for category, (*_, first, last) in enumerate(chosen):
                case.off_is(category, first, last)
            case.off_is(8, 1, 0, peak=False)
        # Numbers for which there is no room have no periods, and all is PEAK.
        case.put_window(8, 0, 1440)
        case.put_windows(9, 10, 16, 64, 128, 254, 255, 8, 8)
        case.rerun()
        for category in range(7):
            case.off_is(category, 1, 0)
        case.off_is(7, 1, 1440 // duration)
        case.off_is(8, 1, 1440 // duration)
        case.put_windows(0, 0)
        case.rerun()
        case.off_is(0, 1, 0, peak=False)
        case.off_is(1, 1, 0, peak=False)
        case.off_is(2, 1, 0)
        # A ninth would stand where the first category record is: here it has 0 and 1440.
        case = of_digits(store, duration, (1,), GOOD)
        case.put_settings(RECORDS, 0, 0, 5, 160, 1, 9)
        case.rerun()
        case.off_is(0, 1, 0)


def not_given(store):
    """The windows behind those that an opening was given are kept as 0 to 0, and are empty."""
    for duration in HALF, QUARTER:
        case = of_digits(store, duration, (1, 2, 0), (0, 1440, 30, 60))
        case.put_windows(3, 8, 4)
        case.rerun()
        for category in range(3):
            case.off_is(category, 1, 0)
        case.put_windows(2, 1, 0)
        case.rerun()
        case.off_is(0, *((2, 2) if duration == HALF else (3, 4)))
        case.off_is(1, 1, 1440 // duration)
        case.off_is(2, 1, 0, peak=False)


def damaged(store):
    """255 in place of each byte of the windows, 0000 01a4 and 001e 01c2 and then zeros."""
    for duration, intact, hurt in (
            (HALF, ((1, 14), (2, 15)),
             (((1, 0), (10, 14), (1, 48), (1, 17)), ((1, 0), (10, 15), (2, 48), (2, 17)))),
            (QUARTER, ((1, 28), (3, 30)),
             (((1, 0), (18, 28), (1, 96), (1, 34)), ((1, 0), (18, 30), (3, 96), (3, 34))))):
        case = of_digits(store, duration, (1, 2), (0, 420, 30, 450))
        parts = case.store.parts
        for byte in range(32):
            case.store.replace(parts)
            case.put_settings(8 + byte, 255)
            case.rerun()
            for category in 0, 1:
                first_and_last = intact[category]
                if byte // 4 == category:
                    first_and_last = hurt[category][byte % 4]
                case.off_is(category, *first_and_last)


def brought_over(store):
    """Settings of layout 5 with 32 bytes put in behind the first eight are those of an opening."""
    case = store(30, (1, 2, 1), *groups(1, 2, 0), ADVANCED)
    case.receive_day(0, {1: 1, 2: 10, 14: 100, 15: 1000, 16: 10000})
    case.run(0, 15)
    _, meters, _, categories, day_types = case.opening
    layout5 = struct.pack('>4H', 30, meters, 4, 3) + categories + day_types
    layout6 = layout5[:8] + struct.pack('>4H', 0, 420, 30, 450) + bytes(24) + layout5[8:]
    assert case.store.parts['settings'] == layout6 + b'\xa5' * PAST
    case.store.replace({**case.store.parts, 'settings': layout6})

    def shown():
        for category, (off, peak) in enumerate(((111, 11000), (1110, 10001), (0, 0))):
            day = 11111, off, peak
            case.totals({0: (*day, *day, 1, 365 * 11111, 1, 5, 43), 1: 14}, category)

    shown()
    case.run(0, 0)
    shown()


def main():
    if len(sys.argv) != 2:
        sys.exit(__doc__)
    faulthandler.enable()                  # an access past an array ends the process
    library, reached = Library(sys.argv[1]), Counter()

    def store(*opening, **other):
        return Windows(library, reached, *opening, **other)

    for cases in (worked, named, shapes, week, bad_windows, numbers, order, laid_out,
                  short_settings, foreign, not_given, damaged, brought_over):
        cases(store)
    print(f'windows: {reached["by hand"]} openings and totals as worked out by hand')


if __name__ == '__main__':
    main()
