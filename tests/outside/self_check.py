"""Checks of the outside calculation itself.

    python3 self_check.py

First hand-made inputs for the forms of commands. Then a second, slower
calculation: each cell straight from the list of accepted calls by the rules in
the order the paper gives them, senders by who has taken over by noon, moved by
comparing every cell of every date, totals by minutes and fractions, nets by adding
each cell with its sign, bands by adding each date's cells, fills by whole numbers,
one Wh after the other, coverage by the age of each cell's date, previews from the list
of calls with the run behind it, openings by what stands on the grid. Then known slips: the
ledger's text is changed in one place, and some stream, or for nets, bands, fills, coverage,
totals after reruns, previews and rows some random store, or for windows some random
openings, must hear the difference.
"""

import random
import sys
from fractions import Fraction
from functools import lru_cache
from itertools import product
from math import floor
from pathlib import Path
from types import ModuleType

import ledger
import program
from streams import TOP, stream, valid_mpan
from worked_example import reading


class Doubled(ledger.Ledger):
    """A ledger that works out each answer a second time, from its accepted calls."""

    checked = 0

    def __init__(self, *opening):
        super().__init__(*opening)
        self.calls = []
        self.readings = lru_cache(None)(self.readings)
        self.all_cells = lru_cache(2)(self.all_cells)   # of before a run and after it

    def note(self, answer, *call):
        if answer[0] == 'ok':
            self.calls.append(call)
        return answer

    def registration(self, mpan, date, minute, category, sender, *rest):
        return self.note(super().registration(mpan, date, minute, category, sender, *rest),
                         'registration', mpan, date + (minute > 0), category,
                         24 * 60 * date + minute, sender)

    def reception(self, sender, mpan, date, duration, quantity, body):
        answer = super().reception(sender, mpan, date, duration, quantity, body)
        if answer[0] == 'ok' or answer[1] not in (9, 6, 7):
            noon, there = 24 * 60 * date + 12 * 60, None
            for kind, *call in self.calls:
                if kind == 'registration' and call[0] == mpan and call[3] <= noon:
                    there = call[4]        # who has taken over by noon
            assert (answer == ('no', 1001, 0)) == (sender != there)
            Doubled.checked += 1
        return self.note(answer, 'reception', mpan, date, bytes(body))

    def last_run(self, calls, date):
        """The place after the last run of the date among the first so many calls."""
        return max((place for place, call in enumerate(self.calls[:calls], 1)
                    if call == ('run', date)), default=None)

    def readings(self, calls, date):
        """(category, period, Wh) of what was held on the date after so many calls."""
        category, held = {}, {}
        for kind, *call in self.calls[:calls]:
            if kind == 'registration' and call[1] <= date:
                category[call[0]] = call[2]
            elif kind == 'reception' and call[1] == date:
                held[call[0]] = call[2]
        return [(category[mpan], int.from_bytes(body[at:at + 2], 'big') // self.duration,
                 int.from_bytes(body[at + 3:at + 7], 'big'))
                for mpan, body in held.items()
                for at in range(0, len(body), 7) if 1 <= body[at + 2] <= 7]

    def all_cells(self, calls):
        """(date, category, period) -> cell after so many calls, dates not run included."""
        cells, runs = {}, [self.last_run(calls, date) for date in range(self.dates)]
        for date, run in enumerate(runs):
            earlier = [d for d in range(date) if self.day_types[d] == self.day_types[date]
                       and runs[d] is not None]
            for number, category in enumerate(self.categories):
                for period in range(1, self.periods + 1):
                    key = date, number, period
                    if run is None:
                        cells[key] = 'N', 0, 0, 65535, 0
                        continue
                    here = [(c, wh) for c, p, wh in self.readings(run, date) if p == period]
                    own = [wh for c, wh in here if c == number]
                    alike = [wh for c, wh in here
                             if self.categories[c].segment == category.segment == 1
                             and self.categories[c][2:5] == category[2:5]]
                    if len(own) >= 1 and len(own) >= category.de_minimis:
                        cells[key] = 'A', average(own), len(own), date, dropped(own)
                    elif len(alike) >= 1 and len(alike) >= category.de_minimis:
                        cells[key] = 'D', average(alike), len(alike), date, dropped(alike)
                    elif earlier and cells[earlier[-1], number, period][0] != 'N':
                        cells[key] = 'E', *cells[earlier[-1], number, period][1:]
                    else:
                        cells[key] = 'N', 0, 0, 65535, 0
        return cells

    def run(self, date):
        answer = super().run(date)
        if answer[0] == 'ok':
            before = self.all_cells(len(self.calls))
            self.calls.append(('run', date))
            after = self.all_cells(len(self.calls))
            assert answer[1] == sum(before[key] != after[key] for key in after)
            Doubled.checked += 1
        return answer

    def preview(self, draft, date):
        due = draft[:]
        answer = super().preview(draft, date)
        if answer[0] == 'ok':
            then = doubled(self)           # with the calls of this one, and the run
            then.calls = [*self.calls, ('run', date)]
            before, after = (each.all_cells(len(each.calls)) for each in (self, then))
            assert answer[1] == sum(before[key] != after[key] for key in after)
            for (d, number, period), cell in after.items():
                if d == date:
                    due[self.periods * number + period - 1] = cell
            Doubled.checked += 1
        assert draft == due
        return answer

    def row(self, draft, date, category, from_draft):
        answer = super().row(draft, date, category, from_draft)
        if answer[0] == 'ok':
            cells = self.all_cells(len(self.calls))
            assert answer[1] == [draft[self.periods * category + period - 1] if from_draft
                                 else cells[date, category, period]
                                 for period in range(1, self.periods + 1)]
            Doubled.checked += 1
        return answer

    def cell(self, *place):
        answer = super().cell(*place)
        if answer[0] == 'ok':
            assert answer[1:] == self.all_cells(len(self.calls))[place]
            Doubled.checked += 1
        return answer

    def totals(self, date, category):
        answer = super().totals(date, category)
        if answer[0] != 'ok':
            return answer
        cells = self.all_cells(len(self.calls))
        window = self.categories[category].window
        off_minutes = range(*self.windows[window - 1]) if window else ()
        tot = off = tot7 = off7 = year = days7 = days = 0
        for d in range(self.dates):
            if d > date or date - d >= 365 or self.last_run(len(self.calls), d) is None:
                continue
            days += 1
            days7 += date - d < 7
            for period in range(1, self.periods + 1):
                minutes = range((period - 1) * self.duration, period * self.duration)
                value = cells[d, category, period][1]
                value_off = value if all(minute in off_minutes for minute in minutes) else 0
                year += value
                if date - d < 7:
                    tot7 += value
                    off7 += value_off
                if d == date:
                    tot += value
                    off += value_off
        peak, peak7 = (tot - off, tot7 - off7) if window else (0, 0)
        flags = [cells[date, category, period][0] for period in range(1, self.periods + 1)]
        assert answer[1:] == (tot, off, peak, tot7, off7, peak7, days7,
                              half_up(Fraction(year * 365, days)), days,
                              sum(flag in 'AD' for flag in flags), flags.count('N'))
        Doubled.checked += 1
        return answer

    def net(self, date, category, all_groups, *lengths):
        answer = super().net(date, category, all_groups, *lengths)
        if answer[0] != 'ok':
            return answer
        # Alike in segment, domestic and connection, and but for the second form in group.
        alike = (0, 2, 4) if all_groups else (0, 1, 2, 4)
        signs = {number: {1: 1, 2: -1}[other.quantity]
                 for number, other in enumerate(self.categories)
                 if all(other[field] == self.categories[category][field] for field in alike)}
        tot7, nets, marks = 0, [0] * self.periods, [0] * self.periods
        for (d, number, period), (flag, value, *rest) in self.all_cells(len(self.calls)).items():
            if number not in signs or not date - 7 < d <= date:
                continue
            tot7 += signs[number] * value  # a date not run is blank and adds 0
            if d == date:
                nets[period - 1] += signs[number] * value
                marks[period - 1] |= flag == 'N'
        assert answer[1:] == (sum(nets), tot7, nets, marks)
        Doubled.checked += 1
        return answer

    def band(self, category, day_type, least, most, room):
        answer = super().band(category, day_type, least, most, room)
        if answer[0] != 'ok':
            return answer
        tots = [0] * self.dates
        for (d, number, period), (flag, value, *rest) in self.all_cells(len(self.calls)).items():
            tots[d] += value if number == category else 0
        there_are, dates = 0, []
        for d, tot in enumerate(tots):
            if (('run', d) in self.calls and self.day_types[d] == day_type
                    and tot in range(least, most + 1)):
                there_are += 1
                if len(dates) < room:
                    dates.append(d)
        assert answer[1:] == (len(dates), there_are, dates)
        Doubled.checked += 1
        return answer

    def fill(self, date, category, advance, missing, filled):
        answer = super().fill(date, category, advance, missing, filled)
        if answer[0] != 'ok' and answer[1] != 17:
            return answer
        cells = self.all_cells(len(self.calls))
        values = {period: cells[date, category, period][1]
                  for period in range(1, self.periods + 1) if missing[period - 1] != 0}
        total, gets, rests = sum(values.values()), [0] * self.periods, {}
        if total:
            for period, value in values.items():
                gets[period - 1], rests[period] = divmod(advance * value, total)
            while sum(gets) < advance:     # no period is given two
                first = min(rests, key=lambda period: (-rests[period], period))
                gets[first - 1] += 1
                del rests[first]
        assert answer == (('ok', gets) if total else ('no', 17, 0))
        Doubled.checked += 1
        return answer

    def fill_opted_out(self, date, *asked):
        answer = super().fill_opted_out(date, *asked)
        alike = [self.fill(date, number, *asked[3:]) for number, other in enumerate(self.categories)
                 if other.segment == other.domestic == 1
                 and (other.group, other.quantity, other.connection) == asked[:3]]
        assert alike == [answer] or not alike and answer[1] in (1, 9, 15)
        Doubled.checked += 1
        return answer

    def coverage(self, date, category):
        answer = super().coverage(date, category)
        if answer[0] != 'ok':
            return answer
        cells = self.all_cells(len(self.calls))
        fresh7 = blank7 = fresh365 = blank365 = 0
        oldest = 65535                     # the origin of N too
        for d in range(self.dates):
            age = date - d
            if age not in range(365) or ('run', d) not in self.calls:
                continue
            for period in range(1, self.periods + 1):
                flag, _, _, origin, _ = cells[d, category, period]
                fresh365 += flag in 'AD'
                blank365 += flag == 'N'
                fresh7 += flag in 'AD' and age < 7
                blank7 += flag == 'N' and age < 7
                oldest = min(oldest, origin) if age == 0 else oldest
        assert answer[1:] == (fresh7, blank7, fresh365, blank365, oldest)
        Doubled.checked += 1
        return answer


def doubled(plain):
    return Doubled(plain.duration, plain.meters, plain.windows, plain.categories, plain.day_types)


def opened_twice(*given):
    """An opening with its answer worked out twice: the refusal, or a doubled ledger."""
    answer, refusal = ledger.opening(*given), refusal_of(*given)
    assert refusal == (answer if isinstance(answer, tuple) else None)
    Doubled.checked += 1
    return refusal or doubled(answer)


def refusal_of(duration, meters, minutes, category_bytes, day_types):
    """Of an opening, or None."""
    if (duration not in (15, 30) or meters not in range(1, 1025)
            or len(category_bytes) not in range(8, 8 * 65, 8)
            or len(day_types) not in range(1, 801)):
        return 'no', 3, 0
    grid = range(0, 24 * 60 + 1, duration)
    windows, ends = 0, [*minutes[1::2], None]
    for start, end in zip(minutes[::2], ends):
        later = grid[grid.index(start) + 1:] if start in grid else ()
        if windows == 8 or end not in later:
            return 'no', 19, windows + 1
        windows += 1
    keys = []
    for at in range(0, len(category_bytes), 8):
        segment, group, domestic, quantity, connection, window, _, _ = category_bytes[at:at + 8]
        kind = {1: (range(1, 15), (1, 2), range(windows + 1)), 2: ((0,), (0,), (0,))}
        groups, homes, numbers = kind.get(segment, ((), (), ()))
        keys.append((segment, group, domestic, quantity, connection))
        if (group not in groups or domestic not in homes or window not in numbers
                or quantity not in (1, 2) or connection not in (1, 2, 3, 4)
                or keys.count(keys[-1]) > 1):
            return 'no', 4, len(keys)
    bad = [place for place, day_type in enumerate(day_types, 1) if day_type not in range(1, 17)]
    return ('no', 5, bad[0]) if bad else None


def half_up(fraction):
    return floor(fraction + Fraction(1, 2))


def average(readings):
    return half_up(Fraction(sum(readings), len(readings)))


def dropped(readings):
    """How far the readings are from their average, all together."""
    return sum(wh - average(readings) for wh in readings)


class Doubling(program.Program):
    """The command program on the doubled ledger."""

    def open(self, *operands):
        answer = super().open(*operands)
        if answer == ('ok',):
            self.ledger = doubled(self.ledger)
        return answer

    def ask(self, call, *operands):        # by name, so that the doubled call is taken
        if self.ledger is None:
            return super().ask(call)
        return getattr(self.ledger, call.__name__)(*operands)


# Import and export of two groups, import of a third and export of a fourth; then what is in other
# families: not domestic, another connection, Advanced.
KEYS = [(1, 1, 1, 1, 1), (1, 1, 1, 2, 1), (1, 2, 1, 1, 1), (1, 2, 1, 2, 1), (1, 3, 1, 1, 1),
        (1, 4, 1, 2, 1), (1, 1, 2, 1, 1), (1, 1, 2, 2, 1), (1, 1, 1, 1, 2), (1, 1, 1, 2, 2),
        (2, 0, 0, 1, 1), (2, 0, 0, 2, 1)]


def small_store(opening, rng, limit=1000, dates=range(9)):
    """A store with all but two of these dates run, and a meter for each of six categories."""
    categories = [(*key, rng.randrange(3) if key[0] == 1 else 0, 0, rng.choice((0, 1, 1, 2)))
                  for key in rng.sample(KEYS, 6)]
    store = opening(30, 6, program.WINDOWS, b''.join(map(bytes, categories)),
                    [rng.choice((1, 1, 2)) for _ in range(dates[-1] + 1)])
    for number in range(6):
        store.registration(valid_mpan(number + 1), 0, 0, number, 7, 1, limit)
        for date in rng.sample(dates, 3):
            receive_some(store, rng, number, date, limit)
    for date in rng.sample(dates, len(dates) - 2):
        store.run(date)
    return store


def receive_some(store, rng, number, date, limit=1000):
    """A set of three records for the meter of this category."""
    body = b''.join(reading(30 * period, rng.randrange(limit), rng.choice((1, 1, 8)))
                    for period in rng.sample((1, 2, 3, 47, 48), 3))
    store.reception(7, valid_mpan(number + 1), date, 30, store.categories[number].quantity, body)


def net_answers(opening, seed):
    """All nets of a small random store, of the date and category past the last too."""
    rng = random.Random(seed)
    store = small_store(opening, rng)
    lengths = rng.choice(((47, 48), (48, 47)))
    return [store.net(date, category, all_groups, *given)
            for given in ((48, 48), lengths)
            for date in range(store.dates + 1) for category in range(len(store.categories) + 1)
            for all_groups in (False, True)]


def band_answers(opening, seed):
    """Bands of a small random store, with each end at, below or above the TOT of some date."""
    rng = random.Random(seed)
    store = small_store(opening, rng)
    answers = []
    for category in range(len(store.categories) + 1):
        ends = {0, 1, 2 ** 64 - 1}
        for date in range(store.dates):
            read, *totals = store.totals(date, category)
            if read == 'ok':
                ends.update(range(max(0, totals[0] - 1), totals[0] + 2))
        for day_type in (1, 2, rng.choice((0, 3, 17, 2 ** 64 - 1))):
            for _ in range(12):            # every fourth or so is upside down
                least, most = rng.choices(sorted(ends), k=2)
                if rng.random() < 0.5:
                    least, most = min(least, most), max(least, most)
                answers.append(store.band(category, day_type, least, most, rng.randrange(5)))
    return answers


def fill_answers(opening, seed):
    """Fills of a small random store, of values that are small, middling or of any size."""
    rng = random.Random(seed)
    store = small_store(opening, rng, rng.choice((3, 1000, TOP)))
    answers = []
    for date in 2 * [*range(store.dates + 1)]:
        # Mostly of periods that have readings; the marks and the list are 48, sometimes 47 long.
        chosen = rng.choice(((), range(48), rng.sample((0, 1, 2, 46, 47), rng.randint(1, 5))))
        marks = bytes(rng.choice((1, 2, 255)) if j in chosen else 0
                      for j in range(rng.choice((48, 48, 48, 48, 47))))
        hole = (rng.choice((0, 1, 2, 3, 1000, rng.randint(0, TOP), TOP)), marks,
                rng.choice((48, 48, 48, 48, 47)))
        answers += [store.fill(date, category, *hole)
                    for category in range(len(store.categories) + 1)]
        answers += [store.fill_opted_out(date, *three, *hole)
                    for three in product((0, 1, 2, 3, 4, 15), (1, 2), (1, 2))]
    return answers


def reread(call, opening, seed):
    """A read of a random store, its dates close together or a year apart, after each rerun."""
    rng = random.Random(seed)
    dates = rng.choice((range(9), (0, 1, 6, 7, 8, 364, 365, 366, 371)))
    store = small_store(opening, rng, dates=dates)
    answers = []
    for rerun in rng.choices(dates, k=4):
        receive_some(store, rng, rng.randrange(6), rerun)
        store.run(rerun)
        answers += [getattr(store, call)(date, category) for date in (*dates, store.dates)
                    for category in range(len(store.categories) + 1)]
    return answers


def coverage_answers(opening, seed):
    return reread('coverage', opening, seed)


def totals_answers(opening, seed):
    return reread('totals', opening, seed)


def preview_answers(opening, seed):
    """Previews of a random store after new sets, with rows, cells and runs between them."""
    rng = random.Random(seed)
    store = small_store(opening, rng)
    length = 48 * len(store.categories)
    answers, draft = [], [('any', number) for number in range(length + rng.randrange(3))]
    for _ in range(8):
        date = rng.randrange(store.dates)
        receive_some(store, rng, rng.randrange(6), date)
        # Of the date with new sets, of another one, or of that past the last.
        date = rng.choice((date, date, date, rng.randrange(store.dates + 1)))
        answers += [store.preview(draft, date), draft[:],
                    store.preview(draft[:rng.choice((0, length - 1, length))], rng.choice((0, 9)))]
        for _ in range(12):
            place = rng.randrange(store.dates + 1), rng.randrange(len(store.categories) + 1)
            lent = draft if rng.random() < 0.9 else draft[:rng.choice((0, length - 1, length))]
            answers += [store.row(lent, *place, rng.choice((0, 0, 0, 1, 2, 2 ** 32))),
                        store.cell(*place, rng.choice((1, 2, 3, 47, 48)))]
        if rng.random() < 0.5:
            answers.append(store.run(rng.choice((date, rng.randrange(store.dates)))))
    return answers


def some_windows(rng, duration):
    """Minutes of none to ten windows, on the grid and in order but for a fault here and there."""
    minutes, grid = [], range(0, 1441, duration)
    for _ in range(rng.choice((0, 1, 1, 2, 3, 7, 8, 8, 9, 10))):
        window = sorted(rng.sample(grid, 2))
        if rng.random() < 0.3:
            window = rng.choice(((0, 1440), (0, duration), (1440 - duration, 1440), (0, 1410)))
        if rng.random() < 0.06:
            start, end = window
            window = rng.choice(((start, start), (end, start), (start + 1, end), (start, end - 15),
                                 (start + 15, end), (start, 1440 + duration), (start, end + 7)))
        minutes += window
    return minutes[:-1] if rng.random() < 0.1 else minutes


def window_answers(opening, seed):
    """Openings with windows of all kinds, and the totals of one day of each that is accepted."""
    rng = random.Random(seed)
    answers = []
    for _ in range(20):
        duration = rng.choice((15, 30))
        minutes = some_windows(rng, duration)
        keys = [(1, group, 1, 1, 1) for group in range(1, 5)] + [(2, 0, 0, 1, 1)]
        count = len(minutes) // 2
        numbers = [rng.choice((0, count, rng.randint(0, count))) for _ in range(4)] + [0]
        if rng.random() < 0.3:             # beyond the list, or one of Advanced
            numbers[rng.randrange(5)] = rng.choice((count + 1, count + 1, 1, 1, 255))
        categories = b''.join(bytes((*key, number, 0, 1)) for key, number in zip(keys, numbers))
        store = opening(rng.choice((duration, duration, duration, 0, 45 - duration)),
                        rng.choice((1, 1, 1, 1, 0)), minutes, categories,
                        rng.choice(((1,), (1,), (1,), (0,))))
        answers.append(store if isinstance(store, tuple) else one_day(store, rng))
    return answers


def one_day(store, rng):
    """The totals of all categories where every period has a reading, each a random one."""
    body = b''.join(reading(end, rng.randint(0, TOP))
                    for end in range(store.duration, 1441, store.duration))
    mpan = valid_mpan(1)
    return [store.registration(mpan, 0, 0, 0, 7, 1, TOP),
            store.reception(7, mpan, 0, store.duration, 1, body), store.run(0),
            *(store.totals(0, category) for category in range(len(store.categories)))]


def check_twice(streams, commands, stores):
    for seed in range(streams):
        list(Doubling(stream(seed, 'small', commands), program.PROFILES['small']).answers())
    for seed in range(stores):
        for answers in (net_answers, band_answers, fill_answers, coverage_answers, totals_answers,
                        preview_answers, window_answers):
            answers(opened_twice, seed)
    return Doubled.checked


# Input in hex and the output it must have; D is a good category, M and M2 are good MPANs.
D, M, M2 = '11 0101010101010000', '000000E8D4A51003', '000000EB28B0F400'
OPEN = f'{D} 1201 1201 10 1E 0001'
FORMS = [
    ('', ''),
    ('FF', 'bad'),
    ('0F', 'bad'),
    ('19', 'bad'),
    ('16 0000', '16 no 1 0'),
    ('16 00', 'bad'),
    ('16', 'bad'),
    ('10 1E 0001', '10 no 3 0'),
    ('15 001E 01 00000001', 'bad'),
    (D * 3 + '11', 'bad'),
    ('1201' * 8 + '12', 'bad'),
    ('11 01', 'bad'),
    # What is collected goes with the opening, refused or not.
    (D * 3 + '10 1E 0001' + D * 3 + '10 1E 0001', '10 no 3 0|10 no 3 0'),
    (D + '1201 10 1F 0001 10 1E 0001', '10 no 3 0|10 no 3 0'),
    # The parts hold 4 meters and 384 date-periods; short parts come last.
    (D + '1201' * 8 + '10 1E 0004', '10 ok'),
    (D + '1201' * 4 + '10 0F 0004', '10 ok'),
    (D + '1201' * 5 + '10 0F 0004', '10 no 1 0'),
    (D + '1201 10 1E 0005', '10 no 1 0'),
    (D + '1201 10 1E 0400', '10 no 1 0'),
    (D + '1201 10 1E 0401', '10 no 3 0'),
    (D + '1201 10 1E 0000', '10 no 3 0'),
    (D * 2 + '1200 10 1E 0005', '10 no 4 2'),
    (D + '1201 1211 10 1E 0005', '10 no 5 2'),
    # A category refused for its key, before a bad one further on.
    (D * 2 + '11 0301010101010000 1201 10 1E 0001', '10 no 4 2'),
    # A 14 is answered once, after its 15s, whatever becomes of it.
    (f'14 0007 {M} 0000 1E 01 00', '14 no 1 0'),
    (f'14 0007 {M} 0000 1E 01 01 15 001E 01 00000001', '14 no 1 0'),
    (f'14 0007 {M} 0000 1E 01 01', 'bad'),
    (f'14 0007 {M} 0000 1E 01 01 16 0000', 'bad'),
    (f'14 0007 {M} 0000 1E 01 01 15 001E 01 000000', 'bad'),
    (f'14 0007 {M} 0000 1E 01 02 15 001E 01 00000001 1201', 'bad'),
    # A refused opening leaves the store in use, an accepted one empties it.
    (OPEN + '160000 10 1E 0001 170000 00',
     '10 ok|16 ok 0|10 no 3 0|17 ok 0.000 0.000 0.000 0.000 0.000 0.000 1 0.000 1 0 48'),
    (OPEN + '160000' + OPEN + '170000 00', '10 ok|16 ok 0|10 ok|17 no 14 0'),
    (OPEN + '160000 180000 00 01 180000 00 00 180000 00 31 180001 00 01 180002 01 00',
     '10 ok|16 ok 0|18 ok N 0.000 0 - 0|18 no 15 0|18 no 15 0|18 no 14 0|18 no 9 0'),
    # 1 and 2 Wh have the average 2 and drop -1; 1 and 3 have it too and drop nothing: the cell of
    # the date and its copy move.
    (D + f'1201 1201 10 1E 0002 13 {M} 0000 0000 00 0007 01 00002710'
     f'13 {M2} 0000 0000 00 0007 01 00002710'
     f'14 0007 {M} 0000 1E 01 01 15 001E 01 00000001 14 0007 {M2} 0000 1E 01 01 15 001E 01 00000002'
     '160000 160001 180000 00 01 180001 00 01'
     f'14 0007 {M2} 0000 1E 01 01 15 001E 01 00000003 160000 180000 00 01 180001 00 01',
     '10 ok|13 ok|13 ok|14 ok|14 ok|16 ok 1|16 ok 1|18 ok A 0.002 2 0 -1|18 ok E 0.002 2 0 -1|'
     '14 ok|16 ok 2|18 ok A 0.002 2 0 0|18 ok E 0.002 2 0 0'),
    # Starts: minute 5 of date 0 and minute 0 of date 1 are one; date T-1 has none later.
    (OPEN + f'13 {M} 0000 0005 00 0007 01 00002710 13 {M} 0001 0000 00 0007 01 00002710'
     f'13 {M} 0001 0001 00 0007 01 00002710 14 0007 {M} 0000 1E 01 00',
     '10 ok|13 ok|13 no 10 0|13 no 16 0|14 no 7 0'),
    # An empty set on a date never run counts for 11.
    (OPEN + f'13 {M} 0000 0000 00 0007 01 00002710 14 0007 {M} 0001 1E 01 00'
     f'13 {M} 0001 0000 00 0007 01 00002710', '10 ok|13 ok|14 ok|13 no 11 0'),
    # Minute 720 of date 0 is in time for it, 721 is not; the category starts on date 1 in both.
    (OPEN + f'13 {M} 0000 0000 00 0007 01 00002710 13 {M} 0000 02D0 00 0008 01 00000005'
     f'14 0007 {M} 0000 1E 01 00 14 0008 {M} 0000 1E 01 01 15 001E 01 00002710',
     '10 ok|13 ok|13 ok|14 no 1001 0|14 ok'),
    (OPEN + f'13 {M} 0000 0000 00 0007 01 00002710 13 {M} 0000 02D1 00 0008 01 00000005'
     f'14 0008 {M} 0000 1E 01 00 14 0007 {M} 0000 1E 01 00 14 0007 {M} 0001 1E 01 00'
     f'14 0008 {M} 0001 1E 01 01 15 001E 01 00000006',
     '10 ok|13 ok|13 ok|14 no 1001 0|14 ok|14 no 1001 0|14 no 1012 1'),
    # A sender without a category in force: 7, whoever sends.
    (OPEN + f'13 {M} 0000 0258 00 0007 01 00002710 14 0007 {M} 0000 1E 01 00'
     f'14 0008 {M} 0000 1E 01 00 14 0007 {M} 0001 1E 01 00',
     '10 ok|13 ok|14 no 7 0|14 no 7 0|14 ok'),
    # A disconnected meter may send nothing but an empty set.
    (OPEN + f'13 {M} 0000 0000 00 0007 03 00002710 14 0007 {M} 0000 1E 01 00'
     f'14 0007 {M} 0000 1E 01 01 15 001E 01 00000000', '10 ok|13 ok|14 ok|14 no 1009 1'),
    # At the limit is allowed; each record goes through all its checks before the next.
    (OPEN + f'13 {M} 0000 0000 00 0007 01 00000005 14 0007 {M} 0000 1E 01 01 15 001E 01 00000005'
     f'14 0007 {M} 0000 1E 01 02 15 001E 0E 00000006 15 001F 00 00000000',
     '10 ok|13 ok|14 ok|14 no 1012 1'),
]


# Name, the ledger's text, and what a slip makes of it.
SLIPS = [
    ('averages regional averages', 'wh) >= least:\n                        row[period - 1] = '
     'averaged(flag, wh, date)',
     'wh) >= least:\n                        means = wh if flag == "A" else '
     '[rounded(sum(r[period]), len(r[period])) for c, r in own.items() if period in r '
     'and self.categories[c].family == category.family]\n'
     '                        row[period - 1] = '
     'averaged(flag, means, date)._replace(count=len(wh))'),
    ('dates a copied cell by its copy', 'copied(earlier[number])',
     '[c if c.flag == "N" else c._replace(flag="E", origin=date) for c in earlier[number]]'),
    ('merges a new set with the old', '[date] = readings',
     '[date] = {**self.held.get(mpan, {}).get(date, {}), **readings}'),
    ('leaves later copies after a rerun', 'self.cells = self.worked_out()',
     'self.cells = {**before, date: self.worked_out()[date]}'),
    ('passes over reruns', '        before = self.cells\n',
     '        before = self.cells\n        if date in self.pictures: return "ok", 0\n'),
    ('counts moved on the one date only', 'for date in before.keys() | after.keys()',
     'for date in [max(after, key=lambda d: after[d] != before.get(d))]'),
    ('takes the present sets when another date is run', '        self.cells = self.worked_out()',
     '        for d in self.pictures: self.pictures[d] = [(self.in_force(m, d).category, s[d]) '
     'for m, s in self.held.items() if d in s]\n        self.cells = self.worked_out()'),
    ('copies from the latest run, not the nearest earlier date', 'in sorted(self.pictures):',
     'in self.pictures:'),
    ('rounds halves down', '(2 * total + count) // (2 * count)',
     '(2 * total + count - 1) // (2 * count)'),
    ('takes ZE for a zero reading', 'if quality <= 7:', 'if quality <= 7 or 10 <= quality <= 13:'),
    ('puts Advanced into a Smart family', 'return None\n\n    def good',
     'return 1, self.quantity, self.connection\n\n    def good'),
    ('puts domestic and other into one family', 'return self.domestic, self', 'return 1, self'),
    ('puts import and export into one family', 'domestic, self.quantity', 'domestic, 1'),
    ('puts all connections into one family', 'quantity, self.connection\n', 'quantity, 1\n'),
    ('leaves the own readings out of the family', "len(wh) >= least:",
     "len(wh) >= least and not (flag == 'D' and number in own and period in own[number]):"),
    ('carries N as E', "cell.flag in 'EN'", "cell.flag in 'E'"),
    ('turns the sign of the remainder', 'sum(wh) - value * count)', 'value * count - sum(wh))'),
    ('has no remainders below zero', 'sum(wh) - value * count)', 'max(0, sum(wh) - value * count))'),
    ('takes what is left of the division', 'sum(wh) - value * count)', 'sum(wh) % count)'),
    ('drops the remainder of a copy', "_replace(flag='E')", "_replace(flag='E', remainder=0)"),
    ('does not see a moved remainder', 'sum(map(ne, old, new))',
     'sum(a[:4] != b[:4] for a, b in zip(old, new))'),
    ("takes a family's remainder by the own count", 'row[period - 1] = averaged(flag, wh, date)\n',
     'made = row[period - 1] = averaged(flag, wh, date)\n'
     '                        if flag == "D":\n'
     '                            mine = len(own.get(number, {}).get(period, ()))\n'
     '                            row[period - 1] = made._replace('
     'remainder=sum(wh) - made.value * mine)\n'),
    ('takes the own remainder for a family', 'row[period - 1] = averaged(flag, wh, date)\n',
     'row[period - 1] = averaged(flag, wh, date)\n'
     '                        if flag == "D" and own.get(number, {}).get(period):\n'
     '                            mine = averaged(flag, own[number][period], date)\n'
     '                            row[period - 1] = row[period - 1]._replace('
     'remainder=mine.remainder)\n'),
    ('appoints the sender at the start of the date', 'self.appointed(mpan, date).sender',
     'registration.sender'),
    ('has a sender that was appointed at midday wait', '<= (date, MIDDAY)', '< (date, MIDDAY)'),
    ('has one that was appointed a minute later send', 'MIDDAY = 720', 'MIDDAY = 721'),
    ('has one that was appointed in the evening send', 'MIDDAY = 720', 'MIDDAY = 1439'),
    ('takes the first service of several', 'max(appointed, key=', 'min(appointed, key='),
    ('takes the earlier service of two on one date', 'max(appointed, key=lambda r: r.moment,',
     'max(appointed, key=lambda r: (r.date, -r.minute),'),
    ('takes status, limit and quantity at midday', 'registration = self.in_force(mpan, date)\n',
     'registration = self.in_force(mpan, date) and self.appointed(mpan, date)\n'),
    ('accepts a day by the sender alone', 'registration = self.in_force(mpan, date)\n',
     'registration = self.in_force(mpan, date) or self.appointed(mpan, date)\n'),
    ('counts a set for the category of midday', '[(self.in_force(mpan, date).category,',
     '[(self.appointed(mpan, date).category,'),
    ('starts at once before midday', 'if self.minute == 0 else', 'if self.minute <= 720 else'),
    ('gives PEAK without a window', 'if window else 0', ''),
    ('counts seven run dates, not calendar dates', 'week, year = self.run_dates(date, 7)',
     'week, year = self.run_dates(date, 365)[-7:]'),
]

# The same for nets.
NET_SLIPS = [
    ('adds the export', '- sum(rows', '+ sum(rows'),
    ('lets Advanced in', 'category.family == family', 'category.family in (None, family)'),
    ('lets the other domestic in', 'category.family == family',
     'category.family and category.family[1:] == family[1:]'),
    ('lets other connections in', 'category.family == family',
     'category.family and category.family[:2] == family[:2]'),
    ('keeps to the group in the second form', 'all_groups or category.group', 'category.group'),
    ('wants the own partner in the second form', 'or not exports',
     'or not self.side(asked, EXPORT, False)'),
    ('nets an export category', ' or asked.quantity != IMPORT', ''),
    ('marks the import side only', 'in imports + exports', 'in imports'),
    ('marks the export side only', 'in imports + exports', 'in exports'),
    ('marks where the net is 0',
     "[any(self.cells[date][c][j].flag == 'N' for c in imports + exports)", '[nets[j] == 0'),
    ('marks copies', "[j].flag == 'N'", "[j].flag in 'EN'"),
    ('marks where all are blank', '[any(self', '[all(self'),
    ('sums six dates', 'in self.run_dates(date, 7)]', 'in self.run_dates(date, 6)]'),
    ('sums eight dates', 'in self.run_dates(date, 7)]', 'in self.run_dates(date, 8)]'),
    ('sums seven run dates', 'in self.run_dates(date, 7)]', 'in self.run_dates(date, 365)[-7:]]'),
    ('finds a date not run before a partner that is absent', 'asked = self.categories[category]\n',
     'asked = self.categories[category]\n        if date not in self.pictures: return no(14)\n'),
    ('finds no fault with short marks', 'numbers < self.periods or marks', 'numbers'),
]

# And for bands.
BAND_SLIPS = [
    ('goes downward', 'dates = [date for date in sorted(self.pictures)',
     'dates = [date for date in sorted(self.pictures, reverse=True)'),
    ('leaves out the upper end', '<= most]', '< most]'),
    ('leaves out the lower end', 'and least <= self', 'and least < self'),
    ('takes a date not run for one with TOT 0',
     'sorted(self.pictures)\n                 if self.day_types[date] == day_type\n'
     '                 and least <= self.tot([date], category)',
     'range(self.dates)\n                 if self.day_types[date] == day_type\n'
     '                 and least <= self.tot([date] if date in self.cells else [], category)'),
    ('lets other day types in', 'if self.day_types[date] == day_type\n', 'if day_type\n'),
    ('says that all were written', 'len(written), len(dates)', 'len(dates), len(dates)'),
    ('says that there are those written', 'len(written), len(dates)', 'len(written), len(written)'),
    ('writes the last ones', 'written = dates[:room]', 'written = dates[-room:] if room else []'),
    ('writes past the room', 'len(dates), written\n', 'len(dates), dates\n'),
    ('turns a band that is upside down', 'written = dates[:room]',
     'written = dates[:room]\n        if least > most:\n'
     '            return self.band(category, day_type, most, least, room)'),
    ('finds a band upside down before a category that is absent',
     'if category >= len(self.categories):\n            return no(15)\n        # No',
     'if category >= len(self.categories) and least <= most:\n            return no(15)\n'
     '        if least > most:\n            return "ok", 0, 0, []\n        # No'),
]

# And for fills.
FILL_SLIPS = [
    ('gives the later one of equals its Wh first', 'lambda j: wholes[j] - shares[j])',
     'lambda j: (wholes[j] - shares[j], -j))'),
    ('gives the smallest remainder its Wh first', 'lambda j: wholes[j] - shares[j])',
     'lambda j: shares[j] - wholes[j] or 1)'),
    ('gives the largest value its Wh first', 'lambda j: wholes[j] - shares[j])',
     'lambda j: -shares[j])'),
    ('gives the earliest periods theirs first', 'lambda j: wholes[j] - shares[j])',
     'lambda j: wholes[j] == shares[j])'),
    ('drops what is left over', 'order[:advance - sum(wholes)]', 'order[:0]'),
    ('leaves all that is left over to one period',
     'for j in order[:advance - sum(wholes)]:\n            wholes[j] += 1',
     'wholes[order[0]] += advance - sum(wholes)'),
    ('rounds', 'floor(share) for share in shares', 'round(share) for share in shares'),
    ('has unmarked periods in the sum', 'value, sum(shape)) for',
     'value, sum(cell.value for cell in self.cells[date][category])) for'),
    ('fills all periods', 'cell.value if mark else 0\n', 'cell.value\n'),
    ('takes no mark but 1', 'cell.value if mark else', 'cell.value if mark == 1 else'),
    ('shapes by fresh cells only', 'cell.value if mark else',
     'cell.value if mark and cell.flag in "AD" else'),
    ('shares evenly where there is no shape', 'return no(17)',
     'shape = [int(mark > 0) for mark in missing]\n            if not any(shape): return no(17)'),
    ('finds fault with one period without a value', 'if sum(shape) == 0:',
     'if not all(v for v, mark in zip(shape, missing) if mark) or not any(shape):'),
    ('finds nothing to fill in an advance of 0', 'if sum(shape) == 0:',
     'if advance * sum(shape) == 0:'),
    ('finds no mark before a date not run', 'return no(14)\n        # Whatever',
     'return no(14 if any(missing) else 17)\n        # Whatever'),
    ('finds a date not run before a category that is absent',
     'if category >= len(self.categories):\n            return no(15)\n'
     '        if date not in self.pictures:\n            return no(14)\n        # Whatever',
     'if date not in self.pictures:\n            return no(14)\n'
     '        if category >= len(self.categories):\n            return no(15)\n        # Whatever'),
    ('finds no fault with short marks', 'len(missing) < self.periods or filled', 'filled'),
    ('finds no fault with a short list', ' or filled < self.periods', ''),
    ('takes Advanced for an opted-out meter', 'key = SMART, group, DOMESTIC,',
     'key = ADVANCED, 0, 0,'),
    ('takes Advanced where there is no Smart one', 'if category.key == key]',
     'if category.key == key] or [number for number, category in enumerate(self.categories)\n'
     '                   if category.key == (ADVANCED, 0, 0, quantity, connection)]'),
    ('takes one that is not domestic', 'group, DOMESTIC, quantity', 'group, 2, quantity'),
    ('takes domestic or not', 'if category.key == key]',
     'if category.key[:2] + category.key[3:] == key[:2] + key[3:]]'),
    ('takes any group', 'if category.key == key]',
     'if category.key[0] == 1 and category.key[2:] == key[2:]]'),
    ('takes import for export', 'DOMESTIC, quantity, connection\n', 'DOMESTIC, 1, connection\n'),
    ('takes any connection', 'if category.key == key]', 'if category.key[:4] == key[:4]]'),
    ('finds no category before a date past the last', 'return self.fill(date, fitting',
     'if not fitting: return no(15)\n        return self.fill(date, fitting'),
]

# And for coverage.
COVERAGE_SLIPS = [
    ('has a week of six dates', 'length in (7, 365)', 'length in (6, 365)'),
    ('has a week of eight dates', 'length in (7, 365)', 'length in (8, 365)'),
    ('has a year of 364 dates', 'length in (7, 365)', 'length in (7, 364)'),
    ('has a year of 366 dates', 'length in (7, 365)', 'length in (7, 366)'),
    ('swaps week and year', 'length in (7, 365)', 'length in (365, 7)'),
    ('counts seven run dates, not calendar dates', 'self.run_dates(date, length)',
     'self.run_dates(date, 365)[-length:]'),
    ('counts the dates ahead', 'self.run_dates(date, length)',
     'self.run_dates(date + length - 1, length)'),
    ('counts dates not run as blank', "return 'ok', *week, *year,",
     'week, year = ((fresh, blank + self.periods * sum(\n'
     '            d not in self.pictures for d in range(max(0, date - length), date)))\n'
     '            for (fresh, blank), length in ((week, 6), (year, 364)))\n'
     '        return "ok", *week, *year,'),
    ('counts copies as fresh', "return flags.count('A') + flags",
     "return flags.count('A') + flags.count('E') + flags"),
    ('counts own shapes alone as fresh', " + flags.count('D'), flags", ', flags'),
    ('counts copies as blank', "flags.count('D'), flags.count('N')",
     "flags.count('D'), flags.count('N') + flags.count('E')"),
    ('forgets what is blank on a date without readings', 'return flags.count',
     'flags = [cell.flag for d in dates for cell in self.cells[d][category] if cell.flag != "N"\n'
     '                 or any(other.flag in "AD" for other in self.cells[d][category])]\n'
     '        return flags.count'),
    ('counts all categories', 'for cell in self.cells[d][category]]\n        return flags',
     'for row in self.cells[d] for cell in row]\n        return flags'),
    ('has BLANK before FRESH', '*week, *year', '*week[::-1], *year[::-1]'),
    ('has both FRESH before both BLANK', '*week, *year', '*sum(zip(week, year), ())'),
    ('takes the newest origin', 'min(origins, ', 'max(origins, '),
    ('takes the origin of the first cell that has one', 'min(origins, default=65535)',
     '[*origins, 65535][0]'),
    ('takes the oldest origin of fresh cells', "if cell.flag != 'N']", "if cell.flag in 'AD']"),
    ('takes the oldest origin of copies', "if cell.flag != 'N']", "if cell.flag == 'E']"),
    ('takes the oldest origin of the week', 'cell in self.cells[date][category] if cell.flag !=',
     'd in self.run_dates(date, 7) for cell in self.cells[d][category] if cell.flag !='),
    ('has no oldest origin where a cell is blank', 'min(origins, default=65535)',
     'min(origins) if len(origins) == self.periods else 65535'),
    ('dates the blank cells 0', 'min(origins, default=65535)',
     'min(origins) if len(origins) == self.periods else 0'),
    ('has the date where all is blank', 'min(origins, default=65535)',
     'min(origins, default=date)'),
    ('keeps what it gave first', "return 'ok', *week, *year,",
     'self.kept = getattr(self, "kept", {})\n'
     '        week, year = self.kept.setdefault((date, category), (week, year))\n'
     '        return "ok", *week, *year,'),
    ('keeps its sums until the date is run again', "return 'ok', *week, *year,",
     'self.kept = getattr(self, "kept", {})\n'
     '        picture, sums = self.kept.get((date, category), (None, None))\n'
     '        if picture is self.pictures[date]: week, year = sums\n'
     '        self.kept[date, category] = self.pictures[date], (week, year)\n'
     '        return "ok", *week, *year,'),
    ('keeps its sums until cells of the date move', "return 'ok', *week, *year,",
     'self.kept = getattr(self, "kept", {})\n'
     '        key = date, category, *self.cells[date][category]\n'
     '        week, year = self.kept.setdefault(key, (week, year))\n'
     '        return "ok", *week, *year,'),
    ('finds a date not run before a category that is absent',
     'if category >= len(self.categories):\n            return no(15)\n'
     '        if date not in self.pictures:\n            return no(14)\n        week, year = (',
     'if date not in self.pictures:\n            return no(14)\n'
     '        if category >= len(self.categories):\n            return no(15)\n'
     '        week, year = ('),
]

# And for totals after reruns.
TOTALS_SLIPS = [
    ('has a week of six dates', 'week, year = self.run_dates(date, 7)',
     'week, year = self.run_dates(date, 6)'),
    ('has a week of eight dates', 'week, year = self.run_dates(date, 7)',
     'week, year = self.run_dates(date, 8)'),
    ('has a year of 364 dates', 'self.run_dates(date, 365)', 'self.run_dates(date, 364)'),
    ('has a year of 366 dates', 'self.run_dates(date, 365)', 'self.run_dates(date, 366)'),
    ('counts dates not run', 'len(week), annual, len(year)',
     'min(7, date + 1), annual, min(365, date + 1)'),
    ('scales by dates not run', 'rounded(annual * 365, len(year))',
     'rounded(annual * 365, min(365, date + 1))'),
    ('rounds ANN down', 'rounded(annual * 365, len(year))', 'annual * 365 // len(year)'),
    ('takes one window for the other', 'off_peak = self.windows[window - 1]',
     'off_peak = self.windows[2 - window]'),
    ('takes OFF for PEAK', 'return tot(dates) - off(dates) if', 'return off(dates) if'),
    ('keeps the TOT that it gave first', 'return self.tot(dates, category)',
     'kept = self.__dict__.setdefault("kept", {})\n'
     '            return sum(kept.setdefault((d, category), self.tot([d], category))\n'
     '                       for d in dates)'),
    ('keeps TOT until the date is run again', 'return self.tot(dates, category)',
     'kept = self.__dict__.setdefault("kept", {})\n'
     '            for d in dates:\n'
     '                if kept.get((d, category), [None])[0] is not self.pictures[d]:\n'
     '                    kept[d, category] = self.pictures[d], self.tot([d], category)\n'
     '            return sum(kept[d, category][1] for d in dates)'),
    ('keeps TOT until a flag of the date changes', 'return self.tot(dates, category)',
     'kept = self.__dict__.setdefault("kept", {})\n'
     '            return sum(kept.setdefault(\n'
     '                (d, category, *(cell.flag for cell in self.cells[d][category])),\n'
     '                self.tot([d], category)) for d in dates)'),
    ('keeps OFF until a flag of the date changes',
     'return sum(self.cells[d][category][j - 1].value for d in dates for j in off_peak)',
     'kept = self.__dict__.setdefault("kept", {})\n'
     '            return sum(kept.setdefault(\n'
     '                (d, category, *(cell.flag for cell in self.cells[d][category])),\n'
     '                sum(self.cells[d][category][j - 1].value for j in off_peak))\n'
     '                for d in dates)'),
    ('keeps ANN until the date is run again', 'annual = tot(year)\n',
     'kept = self.__dict__.setdefault("kept", {})\n'
     '        if kept.get((date, category), [None])[0] is not self.pictures[date]:\n'
     '            kept[date, category] = self.pictures[date], tot(year)\n'
     '        annual = kept[date, category][1]\n'),
    ('finds a date not run before a category that is absent',
     'if category >= len(self.categories):\n            return no(15)\n'
     '        if date not in self.pictures:\n            return no(14)\n        window = ',
     'if date not in self.pictures:\n            return no(14)\n'
     '        if category >= len(self.categories):\n            return no(15)\n'
     '        window = '),
]

# And for previews and rows.
PREVIEW_SLIPS = [
    ('runs the date', 'other = self.copy()', 'other = self'),
    ('previews what is published', 'for row in other.cells[date] for cell in row]',
     'for row in self.cells.get(date, other.cells[date]) for cell in row]'),
    ('leaves the new sets out', 'answer = other.run(date)\n',
     'other.held = {m: {d: r for d, r in s.items() if d != date or d not in self.pictures}\n'
     '                      for m, s in self.held.items()}\n'
     '        answer = other.run(date)\n'),
    ("counts its own date's cells only", 'draft[:length] = [cell for',
     'blank = [[BLANK] * self.periods] * len(self.categories)\n'
     '        answer = "ok", sum(sum(map(ne, *rows)) for rows in zip(\n'
     '            self.cells.get(date, blank), other.cells[date]))\n'
     '        draft[:length] = [cell for'),
    ('counts the later dates only', 'draft[:length] = [cell for',
     'blank = [[BLANK] * self.periods] * len(self.categories)\n'
     '        answer = "ok", answer[1] - sum(sum(map(ne, *rows)) for rows in zip(\n'
     '            self.cells.get(date, blank), other.cells[date]))\n'
     '        draft[:length] = [cell for'),
    ('counts what differs from the draft', 'draft[:length] = [cell for',
     'answer = "ok", sum(map(ne, draft, [c for row in other.cells[date] for c in row]))\n'
     '        draft[:length] = [cell for'),
    ('counts all cells of a date not run', 'draft[:length] = [cell for',
     'if date not in self.pictures: answer = "ok", max(answer[1], length)\n'
     '        draft[:length] = [cell for'),
    ('writes the periods one after the other',
     '[cell for row in other.cells[date] for cell in row]',
     '[cell for column in zip(*other.cells[date]) for cell in column]'),
    ('writes the cells of the last run date', 'for row in other.cells[date] for cell in row]',
     'for row in other.cells[max(other.cells)] for cell in row]'),
    ('writes fresh cells only',
     'draft[:length] = [cell for row in other.cells[date] for cell in row]',
     'draft[:length] = [cell if cell.flag in "AD" else old for old, cell in\n'
     '                          zip(draft, [c for row in other.cells[date] for c in row])]'),
    ('writes the changed cells only',
     'draft[:length] = [cell for row in other.cells[date] for cell in row]',
     'draft[:length] = [old if date in self.cells and cell == self.cells[date][at // 48][at % 48]\n'
     '                          else cell for at, (old, cell) in enumerate(\n'
     '                              zip(draft, [c for row in other.cells[date] for c in row]))]'),
    ('empties the rest of the draft', 'draft[:length] = [cell for', 'draft[:] = [cell for'),
    ('wants a longer draft', 'if len(draft) < length:', 'if len(draft) <= length:'),
    ('finds a date past the last before a short draft',
     'if len(draft) < length:\n            return no(18)\n'
     '        if date >= self.dates:\n            return no(9)\n',
     'if date >= self.dates:\n            return no(9)\n'
     '        if len(draft) < length:\n            return no(18)\n'),
    ('says 1 of a short draft', 'if len(draft) < length:\n            return no(18)',
     'if len(draft) < length:\n            return no(1)'),
    ('turns the switch', 'if from_draft: ', 'if not from_draft: '),
    ('takes no switch but 1 for the draft', 'if from_draft: ', 'if from_draft == 1: '),
    ('takes the published row for the draft', "'ok', draft[category * self.periods:(category",
     "'ok', self.cells[date][category] if date in self.cells else draft[\n"
     "                category * self.periods:(category"),
    ("takes the first category's row of the draft",
     'draft[category * self.periods:(category + 1) * self.periods]', 'draft[:self.periods]'),
    ('takes the rest of the draft', 'draft[category * self.periods:(category + 1) * self.periods]',
     'draft[category * self.periods:]'),
    ('finds fault with a date not run in the draft too', 'if from_draft: ',
     'if date not in self.pictures:\n            return no(14)\n        if from_draft: '),
    ('finds no fault with a date not run', 'if date not in self.pictures:\n'
     "            return no(14)\n        return 'ok', self.cells[date][category]\n",
     'if date not in self.pictures:\n            return "ok", [BLANK] * self.periods\n'
     "        return 'ok', self.cells[date][category]\n"),
    ('finds no fault with a date past the last in the draft',
     'if date >= self.dates:\n            return no(9)\n        if category >= '
     'len(self.categories):\n            return no(15)\n        if from_draft',
     'if date >= self.dates and not from_draft:\n            return no(9)\n        if category >= '
     'len(self.categories):\n            return no(15)\n        if from_draft'),
    ('finds no fault with an absent category in the draft',
     'if category >= len(self.categories):\n            return no(15)\n        if from_draft',
     'if category >= len(self.categories) and not from_draft:\n            return no(15)\n'
     '        if from_draft'),
    ('finds no fault with a short draft that is not asked for',
     'if len(draft) < len(self.categories) * self.periods:',
     'if from_draft and len(draft) < len(self.categories) * self.periods:'),
    ('finds no fault with a draft as long as it reads',
     'if len(draft) < len(self.categories) * self.periods:',
     'if len(draft) < (min(category, len(self.categories) - 1) + 1) * self.periods:'),
    ('finds a date past the last before a short draft of a row',
     'if len(draft) < len(self.categories) * self.periods:\n            return no(18)\n'
     '        if date >= self.dates:\n            return no(9)\n',
     'if date >= self.dates:\n            return no(9)\n'
     '        if len(draft) < len(self.categories) * self.periods:\n            return no(18)\n'),
    ('finds a date not run before a category that is absent',
     'if category >= len(self.categories):\n            return no(15)\n        if from_draft',
     'if not from_draft and date not in self.pictures:\n            return no(14)\n'
     '        if category >= len(self.categories):\n            return no(15)\n'
     '        if from_draft'),
]

# And for windows.
WINDOW_SLIPS = [
    ('takes an end off the grid', 'self.start % duration == self.end % duration == 0',
     'self.start % duration == 0'),
    ('takes a start off the grid', 'self.start % duration == self.end % duration == 0',
     'self.end % duration == 0'),
    ('has a grid of quarters at any duration', 'self.start % duration == self.end % duration == 0',
     'self.start % 15 == self.end % 15 == 0'),
    ('has a grid of half hours at any duration',
     'self.start % duration == self.end % duration == 0', 'self.start % 30 == self.end % 30 == 0'),
    ('takes a start that is the end', 'self.start < self.end <= DAY',
     'self.start <= self.end <= DAY'),
    ('takes a start past the end', 'self.start < self.end <= DAY', 'self.end <= DAY'),
    ('takes an end past the day', 'self.start < self.end <= DAY', 'self.start < self.end'),
    ('refuses an end at midnight', 'self.start < self.end <= DAY', 'self.start < self.end < DAY'),
    ('takes a ninth', 'MOST_WINDOWS = 8 ', 'MOST_WINDOWS = 9 '),
    ('takes any number of windows', 'place > MOST_WINDOWS or ', ''),
    ('refuses an eighth', 'MOST_WINDOWS = 8 ', 'MOST_WINDOWS = 7 '),
    ('drops a start without an end', 'range(0, len(minutes), 2)', 'range(0, len(minutes) - 1, 2)'),
    ('has a window without an end last to midnight',
     'both = minutes[first:first + 2]  ', 'both = [*minutes[first:], DAY][:2]  '),
    ('finds a missing end before all', '    windows = []\n',
     '    windows = []\n    if len(minutes) % 2: return no(19, len(minutes) // 2 + 1)\n'),
    ('finds a ninth before all', '    windows = []\n',
     '    windows = []\n    if len(minutes) > 2 * MOST_WINDOWS: return no(19, 9)\n'),
    ('finds the last bad window', 'in enumerate(range(0, len(minutes), 2), 1):\n',
     'in [*enumerate(range(0, len(minutes), 2), 1)][::-1]:\n'),
    ('counts the places from 0', 'return no(19, place)', 'return no(19, place - 1)'),
    ('gives the place of the minute', 'return no(19, place)', 'return no(19, 2 * place - 1)'),
    ('gives no place', 'return no(19, place)', 'return no(19)'),
    ('gives the number of the windows as the place of a ninth', 'return no(19, place)',
     'return no(19, (len(minutes) + 1) // 2 if place == 9 else place)'),
    ('says 4 of a window', 'return no(19, place)', 'return no(4, place)'),
    ('says 3 of a window', 'return no(19, place)', 'return no(3)'),
    ('looks at the categories before the windows', '    windows = []\n',
     '    windows = []\n'
     '    for place, record in enumerate(iter_unpack(">6BH", category_bytes), 1):\n'
     '        if not Category(*record).good(len(minutes) // 2): return no(4, place)\n'),
    ('looks at the day types before the windows', '    windows = []\n',
     '    windows = []\n    if day_types[0] == 0: return no(5, 1)\n'),
    ('looks at the windows before the sizes', '    if not (duration in (15, 30) and 1 <= meters',
     '    for place, first in enumerate(range(0, len(minutes), 2), 1):\n'
     '        both = minutes[first:first + 2]\n'
     '        if place > 8 or len(both) < 2 or not Window(*both).good(duration or 30):\n'
     '            return no(19, place)\n'
     '    if not (duration in (15, 30) and 1 <= meters'),
    ('has room for a window more than the list has', '    categories = []\n',
     '    windows.append(Window(0, 0))\n    categories = []\n'),
    ('takes no category with the last window', 'self.window <= windows)', 'self.window < windows)'),
    ('wants a window of every category', 'and self.window <= windows)',
     'and 1 <= self.window <= windows)'),
    ('takes Advanced with a window', 'self.group == self.domestic == self.window == 0',
     'self.group == self.domestic == 0 and self.window <= windows'),
    ('takes the window behind the one that is named', 'self.windows[window - 1]',
     'self.windows[window % len(self.windows)]'),
    ('counts the windows from the last', 'self.windows[window - 1]', 'self.windows[-window]'),
    ('takes the first window for all', 'self.windows[window - 1]', 'self.windows[0]'),
    ('joins all windows', 'off_peak = self.windows[window - 1].periods(self.duration) if window',
     'off_peak = sorted({j for w in self.windows for j in w.periods(self.duration)}) if window'),
    ('has periods of half hours at any duration', '.periods(self.duration) if', '.periods(30) if'),
    ('leaves the first period out', 'if self.start <= (j - 1) * duration',
     'if self.start < (j - 1) * duration'),
    ('leaves the last period out', 'j * duration <= self.end]', 'j * duration < self.end]'),
    ('takes the period before', 'if self.start <= (j - 1) * duration',
     'if self.start <= j * duration'),
    ('takes the period behind', 'j * duration <= self.end]', '(j - 1) * duration <= self.end]'),
]


def changed_program(old, new):
    """The command program on the ledger with one place of its text changed."""
    here = Path(__file__).parent
    text = (here / 'ledger.py').read_text()
    assert text.count(old) == 1, old
    modules = {name: ModuleType(name) for name in ('ledger', 'program')}
    exec(text.replace(old, new), modules['ledger'].__dict__)
    kept = sys.modules['ledger']
    sys.modules['ledger'] = modules['ledger']
    try:
        exec((here / 'program.py').read_text(), modules['program'].__dict__)
    finally:
        sys.modules['ledger'] = kept
    return modules['program']


def heard_each(slips, kind, answers):
    """Whether each slip changes the answers to one of the first inputs of the kind."""
    most, expected = 200, {}
    for name, old, new in slips:
        slipping = changed_program(old, new)
        for seed in range(most):
            if seed not in expected:
                expected[seed] = answers(program, seed)
            if answers(slipping, seed) != expected[seed]:
                print(f'{name}: heard in {kind} {seed + 1}')
                break
        else:
            print(f'{name}: not heard in {most} {kind}s')
            return False
    return True


def main():
    for form, output in FORMS:
        heard = program.run(bytes.fromhex(form))
        assert heard == ''.join(line + '\n' for line in output.split('|') if line), (form, heard)
    print(len(FORMS), 'hand-made inputs answered as they must be')
    print(check_twice(20, 80, 5), 'answers worked out twice and alike')
    given = lru_cache(None)(stream)
    heard = (heard_each(SLIPS, 'stream', lambda program, seed: program.run(given(seed)))
             and heard_each(NET_SLIPS, 'store',
                            lambda program, seed: net_answers(program.opening, seed))
             and heard_each(BAND_SLIPS, 'store',
                            lambda program, seed: band_answers(program.opening, seed))
             and heard_each(FILL_SLIPS, 'store',
                            lambda program, seed: fill_answers(program.opening, seed))
             and heard_each(COVERAGE_SLIPS, 'store',
                            lambda program, seed: coverage_answers(program.opening, seed))
             and heard_each(TOTALS_SLIPS, 'store',
                            lambda program, seed: totals_answers(program.opening, seed))
             and heard_each(PREVIEW_SLIPS, 'store',
                            lambda program, seed: preview_answers(program.opening, seed))
             and heard_each(WINDOW_SLIPS, 'list',
                            lambda program, seed: window_answers(program.opening, seed)))
    return 0 if heard else 1


if __name__ == '__main__':
    sys.exit(main())
