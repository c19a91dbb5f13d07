"""Replays random lists of calls on the compiled library, against the plain ledger.

    python3 calls.py LIBRARY [--calls N] [--seed S]

LIBRARY is the shared library of include/jihoweka.h; library.py has what is tested
of each call. Lists have the seeds S, S + 1 and so on, until N calls are made, so
--calls 1 replays the list with seed S alone. Some lists are on a store of random
bytes, and in some the store is damaged on the way. Previews of a list share a draft,
which is now and then cut, longer or another one. Exit status 1 at the first
difference, at an access past an array, at a call that does not end, and if a
number that can be reached was not in 20,000 calls or more.
"""

import argparse
import faulthandler
import mmap
import multiprocessing
import random
import struct
import sys
from collections import Counter

from ledger import (BLANK, DAY, EXPORT, IMPORT, MOST_WINDOWS, Category, Ledger, Registration,
                    opening)
from library import (ARRAYS, BITS, CALLS, FIELDS, HEADER, PARTS, RECORDS, WIDTHS, Difference,
                     Library, Store, described, entries_of, packed, sizes_of, to_be_reached)
from streams import TOP, category_bytes, valid_mpan

SECONDS = 60                               # after which a list of calls does not end
ENOUGH = 20_000                            # calls that reach every number
LONGEST = 100_000                          # entries of an array; a longer one is not lent here
# How often each call is made once the first meters are registered. Dates are mostly run again, and
# what runs keep in days is read in between. Most openings are refused, and the store goes on.
TURNS = {'opening': 5, 'registration': 10, 'reception': 26, 'run': 26, 'preview': 16, 'totals': 26,
         'cell': 12, 'row': 16, 'entry': 4, 'net': 18, 'band': 18, 'fill': 12, 'fill_opted_out': 12,
         'coverage': 26}
SWITCHES = (0, 0, 0, 0, 1, 2, 2 ** 8, 2 ** 16, 2 ** 32, 2 ** 63)       # 0 and any other number


class Caller:
    """One list of calls: a turn is the method of that name, which gives the call's arguments."""

    def __init__(self, library, reached, note, seed):
        self.rng = random.Random(seed)
        self.store = Store(library, reached)
        self.note, self.seed, self.made = note, seed, 0
        self.fault_rate = self.rng.choice((0, 0.1, 0.2, 0.3, 0.4))
        self.aim(opening(*self.good_opening()))

    def aim(self, ledger):
        """Few dates, periods and meters, so that readings meet; one meter more than fit."""
        self.aims, self.waiting = ledger, []
        firsts = [1, 10 ** 12 - 1, *(self.rng.randrange(2, 10 ** 12) for _ in range(3))]
        self.mpans = [valid_mpan(first) for first in firsts[:ledger.meters + 1]]
        self.dates = range(ledger.dates)
        if ledger.dates > 16:              # the ledger is quick where few are run
            self.dates = [0, 6, 7, 364, 365, 370, ledger.dates - 4, ledger.dates - 1]
        # Five periods, mostly the last and first ones in and beside the windows that are named.
        named = [ledger.windows[category.window - 1] for category in ledger.categories
                 if category.window]
        edges = {1, ledger.periods, *(minute // ledger.duration + beside for window in named
                                      for minute in window for beside in (0, 1))}
        day = range(1, ledger.periods + 1)
        first = [period for period in day if period in edges]
        others = [period for period in day if period not in edges]
        self.periods = (self.rng.sample(first, len(first)) + others)[:5]

    def chance(self, share):
        return self.rng.random() < share

    # Lists

    def replay(self):
        """The whole list; gives the number of its calls."""
        kind, = self.rng.choices(('made', 'damaged', 'random'), (5, 2, 2))
        if kind == 'random':
            self.scramble()
        while kind != 'random' and self.store.ledger is None:
            self.make('opening')
        self.turns(120)
        for _ in range(9 if kind == 'damaged' else 0):
            self.damage()                  # of what the calls had made, each time
            self.make('run', [self.rng.choice(self.dates)])
            self.turns(9)
        return self.made

    def turns(self, count):
        for name in self.rng.choices(list(TURNS), list(TURNS.values()), k=count):
            self.make(name)

    def make(self, name, arguments=None):
        """One call, with random arguments unless they are given."""
        if arguments is None:
            arguments = self.spoiled(name, getattr(self, name)())
        store, given = self.store, dict(zip(CALLS[name].arguments, arguments))
        if name == 'opening':
            given['windows'] = packed(given['windows'])
        for each in (*CALLS[name].lists, CALLS[name].parameters[-1]):
            given[each] = self.rng.randbytes(WIDTHS[each] * self.length(each))
        given.update(self.lent_parts(name, arguments))
        self.made += 1
        text = f'list with seed {self.seed}, call {self.made}: {described(name, given)}\0'
        self.note[:len(text)] = text.encode()
        store.call(name, given, null=self.chance(0.5))
        if store.ledger is not None and store.ledger is not self.aims:
            self.aim(store.ledger)
            self.settle()

    def settle(self):
        """The first meters of a store, sometimes one registered on each date, and first days."""
        meters = self.mpans[:-1]
        for place, mpan in enumerate(meters):
            _, date, minute, _, *rest = self.registration()
            category = place % len(self.aims.categories)
            self.make('registration', [mpan, date, minute, category, *rest])
        if self.aims.dates >= 9 and self.chance(0.3):
            for date in range(9):
                self.make('registration', [meters[0], date, 0, self.category(), 7, 1, TOP])
        for date in self.rng.sample(self.dates, min(3, len(self.dates))):
            for mpan in meters:
                self.make('reception', self.reception(mpan, date))
            self.make('run', [date])

    # What is lent

    def length(self, array):
        """Of a list for results, in entries."""
        rng, periods = self.rng, self.aims.periods
        if array == 'fields':
            return FIELDS if self.chance(0.94) else rng.choice((0, 1, 10, 11, 12, 20))
        if array == 'number':
            return 1
        if array == 'dates':
            return rng.choice((0, 1, 2, 3, 12))
        return periods + (rng.randint(0, 2) if self.chance(0.95) else rng.choice((-1, -periods)))

    def lent_parts(self, name, arguments):
        """The parts as they stand, now and then one of another length about its least."""
        rng, parts = self.rng, CALLS[name].parts
        lent = {part: self.store.parts[part] for part in parts}
        least = {part: len(contents) // WIDTHS[part] for part, contents in lent.items()}
        if name != 'opening' and self.store.sizes:
            least = self.store.sizes.least()
        if name == 'opening' and isinstance(ledger := opening(*arguments), Ledger):
            least = sizes_of(ledger).least()
            for part in parts:
                lent[part] = self.resized(part, least[part] + rng.choice((0, 0, 1, 2)))
        if parts and self.chance(0.1):
            part = rng.choice(parts)
            lent[part] = self.resized(part, rng.choice((
                0, least[part] - 2, least[part] - 1, least[part] - 1, least[part], least[part] + 1,
                rng.randint(0, least[part]))))
        return lent

    def resized(self, part, length):
        """The part cut to this length, or with anything behind it."""
        size = WIDTHS[part] * max(0, min(length, LONGEST))
        contents = self.store.parts[part][:size]
        return contents + self.rng.randbytes(size - len(contents))

    def draft(self):
        """The draft as it stands, now and then another one or of another length about its least."""
        rng, least = self.rng, (self.store.sizes or sizes_of(self.aims)).row
        contents = self.store.draft if self.chance(0.95) else b''
        length = max(len(contents) // WIDTHS['draft'], least + rng.choice((0, 0, 1, 2)))
        if self.chance(0.2):
            length = max(0, rng.choice((
                0, least - 2, least - 1, least - 1, least, least, least + 1, 2 * least,
                rng.randint(0, least))))
        more = length - len(contents) // WIDTHS['draft']
        return contents + self.strange(more) if more > 0 else contents[:WIDTHS['draft'] * length]

    # Stores that the calls did not make

    def strange(self, count):
        """Entries of all kinds: none, small, readings, cells, totals, MPANs, anything."""
        rng, flag = self.rng, self.rng.randrange(4)
        kinds = [0, 0, 0, 1, 2, 3, 2 ** 31, 2 ** 32 + 500, 2 ** 33,
                 500 * 2 ** 32 + 513 * 2 ** 22 + 4096 + 4 + flag,
                 2 ** 48 + 500, 2 ** 64 - 4 + flag, *self.mpans,
                 *(rng.getrandbits(64) for _ in range(4))]
        return struct.pack(f'{count}Q', *rng.choices(kinds, k=count))

    def scramble(self):
        """Random parts, mostly with a header that says opened and long enough for it.

        The windows in it and their numbers in the category records are any.
        """
        rng, sizes = self.rng, sizes_of(self.aims)
        parts = {part: self.strange(min(length + rng.randint(0, 1), LONGEST))
                 for part, length in sizes.least().items()}
        settings = rng.randbytes(sizes.least()['settings'])
        if self.chance(0.5):               # with the category records and day types of an opening
            records = b''.join(map(category_bytes, self.aims.categories))
            settings = settings[:RECORDS] + records + bytes(self.aims.day_types)
        if self.chance(0.9):
            minutes = [minute for _ in range(MOST_WINDOWS) for minute in self.strange_window()]
            settings = struct.pack(HEADER, *sizes, *minutes) + settings[RECORDS:]
        settings = bytearray(settings)
        for category in range(sizes.categories):
            if self.chance(0.5):
                settings[RECORDS + 8 * category + 5] = self.strange_number()
        self.store.replace({**parts, 'settings': bytes(settings)})

    def strange_window(self):
        """Start and end about periods that have readings, on the grid or not; or anything."""
        rng, duration = self.rng, self.aims.duration
        first, last = sorted(rng.choices(self.periods, k=2))
        start, end = duration * (first - 1), duration * last
        off_start, off_end = (
            max(0, minute + rng.choice((-1, 1, rng.randint(-duration, duration))))
            for minute in (start, end))
        far = rng.choice((DAY, DAY + 1, 2 * DAY, 4096, 65535, rng.randrange(65536)))
        return rng.choice(((0, 0), (start, end), (off_start, end), (start, off_end),
                           (off_start, off_end), (end, start), (start, start), (start, far),
                           (far, end), (off_start, far), (rng.randrange(65536), far)))

    def strange_number(self):
        """Of a window, as any byte of a category record."""
        return self.rng.choice((*range(MOST_WINDOWS + 1), MOST_WINDOWS + 1, 16, 255))

    def damage(self):
        """Other entries here and there, and registrations for categories or dates that are none."""
        rng, aims = self.rng, self.aims
        if self.store.ledger is not None:
            self.intact = dict(self.store.parts)
        parts = {part: bytearray(contents) for part, contents in self.intact.items()}
        for part in PARTS:
            for _ in range(rng.randrange(4)):
                at = WIDTHS[part] * rng.randrange(len(parts[part]) // WIDTHS[part])
                if part != 'settings':
                    parts[part][at:at + 8] = self.strange(1)
                elif at >= 8 or self.chance(0.3):      # the sizes less often
                    parts[part][at] = rng.choice((0, 1, 2, 3, 15, 30, 255, parts[part][at] ^ 1))
        if self.chance(0.7):               # a category's window, by its number and its minutes
            record = RECORDS + 8 * rng.randrange(len(aims.categories))
            number = parts['settings'][record + 5] = self.strange_number()
            place = number if 1 <= number <= MOST_WINDOWS else 1
            struct.pack_into('>2H', parts['settings'], 4 + 4 * place, *self.strange_window())
        if self.chance(0.5):
            entry = aims.meters + 40 * rng.randrange(min(aims.meters, 3)) + 1
            number = len(aims.categories) + rng.choice((0, 1, 2 ** 8, 2 ** 32, 2 ** 63))
            struct.pack_into('Q', parts['meters'], 8 * entry, number)
        if self.chance(0.5):               # also at midday, and as late as there are numbers
            entry = aims.meters + 40 * rng.randrange(min(aims.meters, 3)) + 5 * rng.randrange(2)
            moment = DAY * rng.choice(self.dates) + rng.choice((0, 1, 719, 720, 721, 1439))
            moment = rng.choice((moment, moment, 2 ** 64 - 1, 2 ** 64 - rng.randint(1, 2 * DAY)))
            struct.pack_into('Q', parts['meters'], 8 * entry, moment)
        self.store.replace({part: bytes(contents) for part, contents in parts.items()})

    # Arguments

    def faults(self):
        """How many to put into a call: mostly none, sometimes several."""
        count = 0
        while self.chance(self.fault_rate):
            count += 1
        return count

    def spoiled(self, name, arguments):
        """The same arguments with some numbers replaced by others, mostly out of range."""
        rng, aims = self.rng, self.aims
        for _ in range(self.faults()):
            at = rng.randrange(len(arguments))
            argument, good = CALLS[name].arguments[at], arguments[at]
            if argument in ARRAYS:
                continue
            near = {'date': aims.dates, 'category': len(aims.categories), 'mpan': 10 ** 13,
                    'period': aims.periods + 1, 'minute': DAY, 'status': 4, 'meter_count': 1025,
                    'day_type': 17, 'duration': 45 - good, 'quantity': 3 - good, 'group': 15,
                    'connection': 5}
            number = rng.choice((0, near.get(argument, good + 1), near.get(argument, good + 1),
                                 good ^ 1, good + 2 ** 8, good + 2 ** 16, good + 2 ** 32,
                                 good + 2 ** 63, 2 ** 16, 2 ** 32, 2 ** 63, 2 ** 64 - 1,
                                 rng.getrandbits(64)))
            arguments[at] = number % 2 ** BITS.get(argument, 64)
        return arguments

    def good_opening(self):
        """Mostly small ones, for which the ledger is quick; a few at the ends of the ranges."""
        rng = self.rng
        dates, meters = rng.randint(1, 5), rng.choice((1, 2, 3, 4, 4))
        count = rng.choice((1, 2, 2, 3, 4))             # of categories
        if self.chance(0.3):               # more than a week
            dates, count = rng.randint(9, 16), rng.randint(1, 3)
        elif self.chance(0.08):
            dates, count, meters = rng.choice((
                (800, 1, 1), (375, 2, 2), (375, 1, 2), (1, 64, 2), (1, 1, 1024), (800, 64, 1024)))
        duration = 15 if self.chance(0.25) else 30
        windows = rng.choice((0, 1, 2, 2, rng.randint(3, MOST_WINDOWS), MOST_WINDOWS))
        categories, home = {}, (rng.randint(1, 2), rng.randint(1, 4))
        while len(categories) < count:     # mostly of two families, import and export
            domestic, connection = home
            if self.chance(0.15):
                domestic, connection = rng.randint(1, 2), rng.randint(1, 4)
            smart = self.chance(0.9)
            category = Category(1 if smart else 2, smart * rng.randint(1, 2 if count < 9 else 14),
                                smart * domestic, rng.randint(1, 2), connection,
                                smart * rng.choice((0, windows, rng.randint(0, windows))),
                                rng.choice((0, 1, 1, 1, 2, 2, 3)))
            categories[category.key] = category
        types = rng.sample(range(1, 17), rng.randint(1, 2))
        return [duration, meters, self.good_windows(duration, windows),
                b''.join(map(category_bytes, categories.values())),
                bytes(rng.choices(types, k=dates))]

    def good_windows(self, duration, count):
        """The minutes of so many: of any hours, at the ends of the day, of one period, alike.

        Some begin where another one ends.
        """
        rng, windows = self.rng, []
        for _ in range(count):
            start, end = sorted(rng.sample(range(0, DAY + 1, duration), 2))
            shapes = [(start, end), (start, end), (start, start + duration), (0, end), (start, DAY),
                      (0, DAY), (0, duration), (DAY - duration, DAY), (0, 420), (30, 450)]
            if windows:
                other = rng.choice(windows)
                shapes += [other, other]
                if other[1] < DAY:
                    shapes += [(other[1], DAY), (other[1], other[1] + duration)]
            windows.append(rng.choice(shapes))
        return [minute for window in windows for minute in window]

    def bad_window(self, duration):
        """Start and end that break a rule."""
        rng = self.rng
        start, end = sorted(rng.sample(range(0, DAY + 1, duration), 2))
        off = rng.choice((1, duration // 2, duration - 1))             # the grid
        huge = rng.choice((2 ** 64 - 1, 2 ** 63, 2 ** 16 + end, 2 ** 32 + end, 2 ** 16 + 420))
        huge -= rng.choice((0, huge % duration))
        return rng.choice((
            (start, start), (end, end), (end, start), (end, start + off), (start + off, end),
            (start, end - off), (start + off, end + off), (start, DAY + off),
            (start, DAY + duration), (DAY, DAY + duration), (start, huge), (huge, end),
            (huge, huge), (2 ** 16 + start, end), (2 ** 32 + start, 2 ** 32 + end)))

    def bad_windows(self, duration):
        """Minutes with a bad window at one of nine places, in front of it good ones only."""
        rng, place = self.rng, self.rng.randint(1, MOST_WINDOWS + 1)
        minutes = self.good_windows(duration, place - 1)
        if self.chance(0.25):              # without its end
            return minutes + self.good_windows(duration, 1)[:1]
        if place > MOST_WINDOWS and self.chance(0.7):
            minutes += self.good_windows(duration, 1)
        else:
            minutes += self.bad_window(duration)
        if self.chance(0.5):               # whatever follows, as many as there may be
            minutes += self.good_windows(duration, rng.choice((1, 2, MOST_WINDOWS - 1, 12)))
            minutes += rng.choice(((), (0,), (2 ** 64 - 1,), self.bad_window(duration)))
        return minutes

    def opening(self):
        rng = self.rng
        duration, meters, minutes, records, types = self.good_opening()
        for _ in range(self.faults() + self.chance(0.8)):
            fault = rng.choice(('record', 'record', 'twin', 'twin', 'cut', 'records', 'number',
                                'number', 'last', 'advanced', 'type', 'type', 'types',
                                *('windows',) * 6))
            if fault == 'windows':
                minutes = self.bad_windows(duration)
            elif fault == 'last':          # the categories that name it keep its number
                minutes = minutes[:-2]
            elif fault == 'number':        # one beyond the list, or any
                at = 8 * rng.randrange(len(records) // 8 or 1) + 5
                number = rng.choice((len(minutes) // 2 + 1, self.strange_number()))
                records = records[:at] + bytes([number]) + records[at + 1:]
            elif fault == 'advanced':      # with a window
                records += bytes((2, 0, 0, 1, 4, rng.choice((1, len(minutes) // 2)), 0, 1))
            elif fault == 'record':
                records = self.replaced(records, (0, 1, 3, 5, 15, 255))
            elif fault == 'twin':          # alike in the key only
                records += records[:5] + bytes((0, 0, 9))
            elif fault == 'cut':
                records = records[:-1]
            elif fault == 'records':
                records = rng.choice((b'', (65 * records)[:65 * 8]))
            elif fault == 'type':
                types = self.replaced(types, (0, 17, 255))
            elif fault == 'types':
                types = rng.choice((b'', (801 * types)[:801]))
        return [duration, meters, minutes, records, types]

    def replaced(self, contents, values):
        """With another byte in one place."""
        at = self.rng.randrange(len(contents) or 1)
        return contents[:at] + bytes([self.rng.choice(values)]) + contents[at + 1:]

    def category(self):
        return self.rng.randrange(len(self.aims.categories))

    def registration(self):
        rng, mpan = self.rng, self.rng.choice(self.mpans)
        first = mpan not in self.aims.registrations and self.chance(0.9)
        minute = rng.choice((1, 719, 720, 720, 721, rng.randrange(DAY)))
        return [mpan, 0 if first else rng.choice(self.dates),
                0 if first or self.chance(0.5) else minute, self.category(),
                rng.choice((7, 7, 8, 0, 65535)), rng.choice((1, 1, 1, 1, 1, 1, 2, 3)),
                rng.choice((1000, 1000, 1000, 5, 0, TOP))]

    def reception(self, mpan=None, date=None):
        rng, aims = self.rng, self.aims
        if mpan is None:
            known = self.chance(0.95) and list(aims.registrations)
            mpan, date = rng.choice(known or self.mpans), rng.choice(self.dates)
        self.waiting.append(date)
        registration = aims.in_force(mpan, date) or Registration(0, 0, 0, 7, 1, 1000)
        appointed = aims.appointed(mpan, date) or registration
        sender = appointed.sender if self.chance(0.95) else registration.sender
        return [sender, mpan, date, aims.duration,
                aims.categories[registration.category].quantity, self.body(registration)]

    def body(self, registration):
        """Records that are good for this registration, but for faults."""
        rng, aims = self.rng, self.aims
        most = min(registration.limit, rng.choice((3, 1000, 1000, TOP)))
        periods = rng.sample(self.periods, rng.choice((0, 1, 2, 3, 3, 4, 4, 5, 5, 5)))
        if self.chance(0.15):
            periods = range(1, aims.periods + 1)
        if registration.status == 3 and self.chance(0.7):
            periods = ()
        records = [[aims.duration * period, rng.randint(1, 9 if self.chance(0.2) else 7),
                    rng.randint(0, most)] for period in periods]
        for _ in range(self.faults() if records else 0):
            record = rng.choice(records)
            fault = rng.choice(('quality', 'zero', 'end', 'twice', 'limit'))
            if fault == 'quality':
                record[1] = rng.choice((0, 8, 9, 10, 13, 14, 15, 255))
            elif fault == 'zero':
                record[1:] = rng.randint(9, 14), rng.choice((0, 0, 1, 256, TOP))
            elif fault == 'end':
                record[0] = rng.choice((0, record[0] ^ 1, DAY + aims.duration, 65535))
            elif fault == 'twice':
                records.insert(rng.randint(0, len(records)), [record[0], 14, 0])
            elif fault == 'limit':
                record[2] = min(TOP, registration.limit + rng.randint(0, 1))
        body = b''.join(struct.pack('>HBI', *record) for record in records)
        return body[:-1] if self.chance(self.fault_rate / 8) else body

    def run(self):
        """Mostly a date that sets were received for since, the last one first."""
        if self.waiting and self.chance(0.7):
            return [self.waiting.pop()]
        return [self.rng.choice(self.dates)]

    def preview(self):
        """Mostly of a date that the next run may be of; sometimes all is as it was published."""
        if self.waiting and self.chance(0.7):
            return [self.draft(), self.waiting[-1]]
        return [self.draft(), self.rng.choice(self.dates)]

    def date_to_read(self):
        """Mostly one that was run, else one that was not."""
        run = self.chance(0.75)
        fit = [date for date in self.dates if (date in self.aims.pictures) == run]
        return self.rng.choice(fit or self.dates)

    def totals(self):
        return [self.date_to_read(), self.category()]

    def cell(self):
        last = self.aims.periods
        period = self.rng.choice(self.periods) if self.chance(0.9) else self.rng.randint(1, last)
        return [self.date_to_read(), self.category(), period]

    def row(self):
        date, category = self.shape_to_read() if self.chance(0.5) else self.totals()
        return [self.draft(), date, category, self.rng.choice(SWITCHES)]

    def entry(self):
        """One of the cells' or of a draft's, or any number."""
        array = self.rng.choice((self.store.parts['cells'], self.draft(), self.strange(1)))
        return [self.rng.choice(entries_of(array) or [0])]

    def net(self):
        rng, aims = self.rng, self.aims
        netted = [number for number, category in enumerate(aims.categories)
                  if category.quantity == IMPORT and aims.side(category, EXPORT, True)]
        category = rng.choice(netted) if netted and self.chance(0.9) else self.category()
        return [self.date_to_read(), category, rng.choice(SWITCHES)]

    def band(self):
        """Ends at the TOT of a run date, next to it, or far off; 500 is that of a strange one."""
        rng, aims, category = self.rng, self.aims, self.category()
        ends = [0, 500, 2 ** 64 - 1]
        for _ in range(2 if aims.pictures else 0):
            tot = aims.tot([rng.choice(list(aims.pictures))], category)
            ends += tot, tot, max(0, tot + rng.choice((-1, 1)))
        least, most = rng.choice(ends), rng.choice(ends)
        if self.chance(0.8):
            least, most = min(least, most), max(least, most)
        day_type = rng.choice(aims.day_types) if self.chance(0.9) else rng.randint(0, 17)
        return [category, day_type, least, most]

    def shape_to_read(self):
        """Date and category, mostly with a value that is not 0."""
        shaped = [[date, number] for date, rows in self.aims.cells.items()
                  for number, row in enumerate(rows) if any(cell.value for cell in row)]
        return self.rng.choice(shaped) if shaped and self.chance(0.8) else self.totals()

    def hole(self, date, category):
        """An advance, and marks of some periods, all, one, none, or all whose value is 0."""
        rng, aims = self.rng, self.aims
        row = aims.cells[date][category] if date in aims.cells else [BLANK] * aims.periods
        day, tot = range(1, aims.periods + 1), sum(cell.value for cell in row)
        missing = rng.choice((day, rng.sample(day, rng.randint(2, aims.periods)), self.periods,
                              rng.sample(self.periods, 2), [rng.choice(self.periods)], (),
                              [j for j in day if row[j - 1].value == 0]))
        marks = [rng.choice((1, 1, 2, 128, 255)) if j in missing or j > aims.periods else 0
                 for j in range(1, self.length('missing') + 1)]
        advance = rng.choice((0, 1, 2, 3, 1000, max(0, tot - 1), TOP, rng.randint(0, TOP)))
        return [min(advance, TOP), bytes(marks)]

    def fill(self):
        date, category = self.shape_to_read()
        return [date, category, *self.hole(date, category)]

    def fill_opted_out(self):
        """By those three of a category, Smart domestic or not, sometimes with one replaced."""
        rng, (date, category) = self.rng, self.shape_to_read()
        _, group, _, quantity, connection, *_ = self.aims.categories[category]
        three = [group, quantity, connection]
        if self.chance(0.3):
            at = rng.choice((0, 0, 1, 2))
            three[at] = rng.choice((0, 1, 2, 15, 2 ** 16, three[at] + 2 ** 8, three[at] + 2 ** 32))
        return [date, *three, *self.hole(date, category)]

    def coverage(self):
        return self.shape_to_read()


def replay_lists(options, note):
    """Lists until enough calls are made; ends the process with the test's exit status."""
    library, reached = Library(options.library), Counter()
    calls = lists = 0
    while calls < options.calls:
        faulthandler.dump_traceback_later(SECONDS, exit=True)
        try:
            calls += Caller(library, reached, note, options.seed + lists).replay()
        except Difference as difference:
            print(difference)
            sys.exit(1)
        lists += 1
    note[0] = 0                            # all calls are made
    missing = [f'{name} {number}' for name, number in to_be_reached() if not reached[name, number]]
    print(f'calls: {calls:,} calls in {lists:,} lists, {reached["accepted"]:,} accepted, '
          + ('not reached: ' + ', '.join(missing) if missing else 'all numbers reached'))
    if missing and calls >= ENOUGH:
        sys.exit(1)


def main():
    parser = argparse.ArgumentParser(description='Compares the C calls with the ledger.')
    parser.add_argument('library', help='path of the shared library')
    parser.add_argument('--calls', type=int, default=200_000)
    parser.add_argument('--seed', type=int, default=1)
    options = parser.parse_args()
    # In a process of its own, since a wrong access ends it; the note says in which call.
    note = mmap.mmap(-1, 1 << 14)
    worker = multiprocessing.get_context('fork').Process(target=replay_lists, args=(options, note))
    worker.start()
    worker.join()
    if worker.exitcode < 0:
        print(f'ended by signal {-worker.exitcode}')
    if worker.exitcode:
        print(note[:note.find(b'\0')].decode())
    return 1 if worker.exitcode else 0


if __name__ == '__main__':
    sys.exit(main())
