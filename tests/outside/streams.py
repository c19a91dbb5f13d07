"""Random command streams for the command program, each from its own seed.

    python3 streams.py --seed 5 [--profile small|wide] [--commands N] > stream

Traffic is mostly valid and aimed with short notes of what was sent; faults are
put in on purpose, often several at once, so that the order of checks is heard.
"""

import argparse
import random
import sys

from ledger import DAY, MIDDAY, WEIGHTS, Category, Ledger, Opened, Registration, opening
from program import PROFILES, WINDOWS

TOP = 2 ** 32 - 1                          # the largest Wh and limit


def valid_mpan(first_twelve):
    """The MPAN with these first twelve digits, given as a number from 1 up."""
    digits = map(int, f'{first_twelve:012d}')
    return 10 * first_twelve + sum(w * d for w, d in zip(WEIGHTS, digits)) % 11 % 10


def category_bytes(category):
    return bytes(category[:6]) + category.de_minimis.to_bytes(2, 'big')


def command(byte, *pairs):
    """A command byte and its operands, given as value, width, value, width..."""
    operands = (value.to_bytes(width, 'big') for value, width in zip(pairs[::2], pairs[1::2]))
    return bytes([byte]) + b''.join(operands)


class Notes(Opened):
    """What was sent since the opening and is believed accepted."""

    def __init__(self, *opening):
        super().__init__(*opening)
        self.registrations = {}            # MPAN -> [Registration]
        self.held = {}                     # MPAN -> dates with a set
        self.run = set()

    def free_from(self, mpan):
        """The earliest start a further registration of the meter may have."""
        starts = [r.start for r in self.registrations.get(mpan, [])]
        return max([-1, *starts[-1:], *self.held.get(mpan, ())]) + 1

    def in_force(self, mpan, date):
        return [r for r in self.registrations[mpan] if r.start <= date][-1]

    def sender(self, mpan, date):
        return [r for r in self.registrations[mpan] if r.moment <= (date, MIDDAY)][-1].sender


class Maker:
    def __init__(self, seed, profile, commands):
        self.rng = random.Random(seed)
        self.limits = PROFILES[profile]
        self.wide = profile == 'wide'
        self.commands = commands
        self.out = bytearray()
        self.sent = 0                      # commands that print a line
        self.categories = b''              # 11s and 12s since the last 10
        self.day_types = b''
        rng = self.rng
        self.fault_rate = rng.choice((0, 0.05, 0.1, 0.1, 0.2, 0.3))
        self.year = self.wide and self.chance(0.05)
        # One MPAN more than the parts hold, among them the least and large ones.
        firsts = [1, 10 ** 12 - 1, 10 ** 11, 101 * 10 ** 9]
        firsts += rng.sample(range(2, 10 ** 6), 2) + rng.sample(range(2 * 10 ** 11, 10 ** 12), 6)
        self.pool = [valid_mpan(first) for first in rng.sample(firsts, self.limits.meters + 1)]
        # Aims for calls before the first accepted opening.
        self.notes = Notes(30, 1, [], [Category(1, 1, 1, 1, 1, 0, 1)], [1, 1])
        self.hot, self.busy = [1], [0]
        self.opened = False

    def chance(self, share):
        return self.rng.random() < share

    def pick(self, weighted):
        """One key of a dictionary of weights."""
        return self.rng.choices(list(weighted), list(weighted.values()))[0]

    def faults(self, kinds, share=1.0, at_least=0):
        """The faults to put into one call: mostly none, sometimes several."""
        count = max(at_least, self.chance(self.fault_rate * share))
        while count and self.chance(0.4):
            count += 1
        return [self.rng.choice(kinds) for _ in range(count)]

    def send(self, data):
        self.out += data
        if data[0] not in (0x11, 0x12, 0x15):
            self.sent += 1

    # Openings

    def new_categories(self):
        """Mostly one family across GSP groups, with strangers and Advanced among it."""
        rng = self.rng
        home = (rng.choice((1, 2)), rng.choice((1, 2)), rng.choice((1, 2, 3, 4)))
        count = rng.choice((1, 2, 3, 3, 3)) if not self.wide else rng.choice((1, 2, 3, 4, 5, 8))
        if self.year:
            count = rng.choice((1, 2))
        categories = {}
        while len(categories) < count:
            kind = self.pick({'home': 7, 'stranger': 1, 'advanced': 1})
            domestic, quantity, connection = home
            if kind == 'stranger':         # unlike the family in one thing only
                unlike = rng.choice(('domestic', 'quantity', 'connection'))
                if unlike == 'domestic':
                    domestic = 3 - domestic
                elif unlike == 'quantity':
                    quantity = 3 - quantity
                else:
                    connection = connection % 4 + 1
            group, window = rng.randint(1, 14), rng.choice((0, 1, 2, 2))
            if kind == 'advanced':
                connection = rng.choice((connection, rng.randint(1, 4)))
                group = domestic = window = 0
            few = {0: 4, 1: 5, 2: 1}       # a category without family gets few readings
            least = self.pick(few if kind != 'home' else
                              {0: 3, 1: 4, 2: 6, 3: 3, 4: 0.5, 256: 0.1, 65535: 0.1})
            category = Category(2 if kind == 'advanced' else 1,
                                group, domestic, quantity, connection, window, least)
            categories[category.key] = category
        return list(categories.values())

    def new_day_types(self, duration, categories):
        rng = self.rng
        if self.year:
            dates = rng.randint(366, 370)
        elif self.wide and self.chance(0.1):
            dates = self.limits.day_types  # the parts are just long enough
        elif self.wide:
            # As long as they may be without making one run a matter of seconds.
            dates = min(rng.choice((1, 7, 9, 15, 30, 60)), 400 * duration // (categories * 30) + 9)
        else:
            most = self.limits.date_periods * duration // DAY
            dates = rng.choice((most, most, most, most - 1, rng.randint(1, most)))
        kinds = rng.sample(range(1, 17), rng.choice((1, 1, 2, 2, 3)))
        return [rng.choice(kinds) for _ in range(dates)]

    def opening(self, at_least=0):
        rng, limits = self.rng, self.limits
        duration = 30 if self.chance(0.6 if not self.year else 0.9) else 15
        meters = rng.randint(1, limits.meters) if self.chance(0.3) else limits.meters
        categories = [bytearray(category_bytes(c)) for c in self.new_categories()]
        day_types = self.new_day_types(duration, len(categories))
        for fault in self.faults(('duration', 'meters', 'parts', 'parts', 'none', 'record',
                                  'record', 'twice', 'twice', 'type', 'type'), 0.5, at_least):
            if fault == 'duration':
                duration = rng.choice((0, 1, 14, 29, 31, 45, 60, 255))
            elif fault == 'meters':
                meters = rng.choice((0, 1025, 65535))
            elif fault == 'parts':
                if self.wide or self.chance(0.5):
                    meters = rng.choice((limits.meters + 1, limits.meters + 1, 1024))
                else:                      # at 15 minutes these no longer fit
                    duration = 15
                    day_types = [rng.randint(1, 3) for _ in range(rng.randint(4, 8))]
            elif fault == 'none':
                if self.chance(0.5):
                    categories = []
                else:
                    day_types = []
            elif fault == 'record' and categories:
                self.spoil_category(rng.choice(categories))
            elif fault == 'twice' and categories:
                twin = bytearray(rng.choice(categories))
                twin[5:] = 0, 0, rng.randrange(4)       # alike in the key only
                categories.insert(rng.randint(0, len(categories)), twin)
            elif fault == 'type' and day_types:
                day_types[rng.randrange(len(day_types))] = rng.choice((0, 17, 255))
        # Room may be short if some were collected before.
        room = limits.categories - len(self.categories) // 8
        pieces = [b'\x11' + record for record in categories[:room]]
        room = limits.day_types - len(self.day_types)
        pieces += [bytes((0x12, day_type)) for day_type in day_types[:room]]
        if self.chance(0.3):               # 11s and 12s in any order
            rng.shuffle(pieces)
        for piece in pieces:
            self.collect(piece)
        self.send(command(0x10, duration, 1, meters, 2))
        answer = opening(duration, meters, WINDOWS, self.categories, self.day_types)
        self.categories = self.day_types = b''
        if (isinstance(answer, Ledger) and meters <= limits.meters
                and answer.dates * answer.periods <= limits.date_periods):
            self.accepted(Notes(duration, meters, answer.windows, answer.categories,
                                answer.day_types))

    def accepted(self, notes):
        self.notes, self.opened = notes, True
        # Most records aim at few dates and periods, so that meters meet there; among
        # the periods are the first and last and those at the edges of the windows.
        edges = [1, 2, 3, 420 // notes.duration, 420 // notes.duration + 1,
                 450 // notes.duration, 450 // notes.duration + 1, notes.periods]
        self.hot = sorted({*self.rng.sample(edges, 3), self.rng.randint(1, notes.periods)})
        self.busy = self.rng.sample(range(notes.dates), min(3, notes.dates))

    def spoil_category(self, record):
        rng = self.rng
        place, values = rng.choice((
            (0, (0, 3, 255)), (0, (1, 2)), (1, (0, 15, 255)), (1, (1,)), (2, (0, 3)),
            (2, (1,)), (3, (0, 3)), (4, (0, 5)), (5, (3, 255)), (5, (1, 2))))
        record[place] = rng.choice(values)

    def collect(self, piece):
        self.send(piece)
        if piece[0] == 0x11:
            self.categories += piece[1:]
        else:
            self.day_types += piece[1:]

    def stray(self):
        """An 11 or 12 some time before its opening."""
        if self.chance(0.5) and len(self.categories) < 8 * self.limits.categories:
            self.collect(b'\x11' + category_bytes(self.new_categories()[0]))
        elif len(self.day_types) < self.limits.day_types:
            self.collect(bytes((0x12, self.rng.randint(1, 3))))

    # Registrations

    def bad_mpan(self, mpan):
        return self.rng.choice((0, 1, 10 ** 13, 2 ** 64 - 1, mpan ^ 1, mpan ^ 2 ** 40,
                                (mpan + 10 ** 13) % 2 ** 64, (mpan + 10 ** 6) % 10 ** 13))

    def bad_date(self):
        return self.rng.choice((self.notes.dates, self.notes.dates + 1, 65535))

    def new_registration(self, mpan):
        rng, notes = self.rng, self.notes
        start = notes.free_from(mpan)
        if mpan in notes.registrations:
            start += self.pick({0: 6, 1: 2, 2: 1})
        elif self.chance(0.3):
            start = rng.randrange(notes.dates)
        date, minute = start, 0
        if start and self.chance(0.4):     # on the date before, often about midday
            date, minute = start - 1, rng.choice((1, 1439, rng.randint(1, 1439),
                                                  rng.randint(1, 719), 719, 720, 720, 721))
        return Registration(date, minute, rng.randrange(len(notes.categories)),
                            rng.choice((7, 7, 8, 0, 65535)), self.pick({1: 20, 2: 2, 3: 1}),
                            rng.choice((10000, 10000, 600, 5, 0, TOP, TOP - 1)))

    def registration(self, mpan=None):
        rng, notes = self.rng, self.notes
        if mpan is None:
            mpan = rng.choice(self.pool)
            fresh = [m for m in self.pool if m not in notes.registrations]
            if fresh and len(notes.registrations) < notes.meters and self.chance(0.8):
                mpan = rng.choice(fresh)
        wanted = self.new_registration(mpan)
        if wanted.start >= notes.dates and self.chance(0.7):
            return                         # no start left for this meter
        date, minute = wanted.moment
        category, status = wanted.category, wanted.status
        faults = self.faults(('date', 'mpan', 'mpan', 'minute', 'category', 'status',
                              'late', 'start', 'start', 'start', 'meter', 'meter'))
        for fault in faults:
            if fault == 'date':
                date = self.bad_date()
            elif fault == 'mpan':
                mpan = self.bad_mpan(mpan)
            elif fault == 'minute':
                minute = rng.choice((1440, 65535))
            elif fault == 'category':
                category = rng.choice((len(notes.categories), 255))
            elif fault == 'status':
                status = rng.choice((0, 4, 255))
            elif fault == 'late':
                date, minute = notes.dates - 1, 1
            elif fault == 'start':         # too early for its meter, one way or another
                mpan = rng.choice([*notes.registrations, mpan])
                start = max(0, notes.free_from(mpan) - rng.choice((1, 1, 2)))
                date, minute = (start, 0) if not start or self.chance(0.5) else (start - 1, 9)
            elif fault == 'meter':         # any of the pool, often one too many
                mpan = rng.choice(self.pool)
        self.send(command(0x13, mpan, 8, date, 2, minute, 2, category, 1,
                          wanted.sender, 2, status, 1, wanted.limit, 4))
        known = notes.registrations
        if (not faults and wanted.start < notes.dates and len(known.get(mpan, [])) < 8
                and (mpan in known or len(known) < notes.meters)):
            known.setdefault(mpan, []).append(wanted)

    def many_registrations(self):
        """One meter changes hands until it has all the registrations it may have."""
        notes, mpan = self.notes, self.rng.choice([*self.notes.registrations, *self.pool[:1]])
        for _ in range(10):
            self.registration(mpan)
        if mpan in notes.registrations:    # a set held after the last start, then once more
            self.reception(mpan, notes.dates - 1)
            last = notes.registrations[mpan][-1].start
            self.send(command(0x13, mpan, 8, min(last + 1, notes.dates - 1), 2, 0, 2, 0, 1,
                              7, 2, 1, 1, TOP, 4))

    # Receptions

    def new_records(self, status, limit):
        """Good records for a meter of this status, [end, quality, Wh]."""
        rng, notes = self.rng, self.notes
        everything = range(1, notes.periods + 1)
        kind = self.pick({'hot': 14, 'one': 2, 'some': 2, 'none': 1,
                          'all': 0.1 if self.year else 0.5})
        periods = {'hot': lambda: rng.sample(self.hot, len(self.hot)),
                   'one': lambda: [rng.choice(self.hot)],
                   'some': lambda: rng.sample(everything, rng.randint(1, 9)),
                   'all': lambda: everything, 'none': lambda: ()}[kind]()
        # Small values make halves; equal and largest ones are wanted too.
        most = min(limit, self.pick({3: 3, 1000: 6, 60000: 1, TOP: 2}))
        least = most if self.chance(0.1) else 0
        records = []
        for period in periods:
            quality, wh = rng.randint(1, 7), rng.randint(least, most)
            if rng.random() < 0.15:
                quality = rng.randint(8, 14 if status != 2 else 9)
                if 10 <= quality <= 13:
                    wh = 0
            records.append([period * notes.duration, quality, wh])
        return records

    def reception(self, mpan=None, date=None):
        rng, notes = self.rng, self.notes
        if not notes.registrations:
            return self.unknown_reception()
        if mpan is None:
            mpan = rng.choice(list(notes.registrations))
        first = notes.registrations[mpan][0].start
        if date is None:
            date = rng.choice(self.busy)
            changes = [r.date for r in notes.registrations[mpan] if r.minute and r.date >= first]
            if date < first or self.chance(0.15):
                date = rng.randrange(first, notes.dates)
            elif changes and self.chance(0.2):
                date = rng.choice(changes)  # a date on which the service changes
        if date < first:
            return None
        registration = notes.in_force(mpan, date)
        sender, duration = notes.sender(mpan, date), notes.duration
        quantity = notes.categories[registration.category].quantity
        records = self.new_records(registration.status, registration.limit)
        refused = registration.status == 3 and self.chance(0.6)
        if registration.status == 3 and not refused:
            records = []                   # all that a disconnected meter may send
        if registration.status == 2 and records and self.chance(0.2):
            rng.choice(records)[1:] = rng.randint(10, 14), rng.choice((0, 0, 1))
            refused = True
        faults = self.faults(('date', 'mpan', 'unknown', 'early', 'sender', 'quantity', 'duration',
                              'long', *('quality', 'end', 'twice', 'zero', 'limit') * 2))
        for fault in faults:
            if fault == 'date':
                date = self.bad_date()
            elif fault == 'mpan':
                mpan = self.bad_mpan(mpan)
            elif fault == 'unknown':
                mpan = rng.choice(self.pool)
            elif fault == 'early':
                date = rng.choice((first - 1, rng.randrange(first))) if first else date
            elif fault == 'sender':
                # That of another time may be the same one after all.
                other = rng.choice(notes.registrations.get(mpan, [registration]))
                sender = rng.choice((sender ^ 1, sender ^ 0x8000, registration.sender,
                                     other.sender))
            elif fault == 'quantity':
                quantity = rng.choice((3 - quantity % 3, 0, 3, 255))
            elif fault == 'duration':
                duration = rng.choice((15, 30, 0, 60))
            elif fault == 'long':          # as many as a 14 can announce
                records += [[notes.duration, 1, 0] for _ in range(255 - len(records))]
            else:
                self.spoil_record(fault, records, registration.limit)
        self.send_reception(sender, mpan, date, duration, quantity, records)
        if not faults and not refused:
            notes.held.setdefault(mpan, set()).add(date)

    def spoil_record(self, fault, records, limit):
        rng, duration = self.rng, self.notes.duration
        if not records:
            records.append([duration, 1, 0])
        record = rng.choice(records)
        if fault == 'quality':
            record[1] = rng.choice((0, 15, 255))
        elif fault == 'end':
            record[0] = rng.choice((0, record[0] ^ 1, record[0] ^ 16, 5, 1440 + duration, 65535))
        elif fault == 'twice' and len(records) < 255:
            twin = [record[0], rng.choice((1, 8, 14)), min(limit, 1)]
            records.insert(rng.randint(0, len(records)), twin)
        elif fault == 'zero':
            record[1:] = rng.randint(10, 13), rng.choice((1, 256, TOP))
        elif fault == 'limit':
            record[2] = min(TOP, limit + 1)

    def send_reception(self, sender, mpan, date, duration, quantity, records):
        self.send(command(0x14, sender, 2, mpan, 8, date, 2, duration, 1, quantity, 1,
                          len(records), 1))
        for end, quality, wh in records:
            self.out += command(0x15, end, 2, quality, 1, wh, 4)

    def unknown_reception(self):
        notes = self.notes
        self.send_reception(7, self.rng.choice(self.pool), self.rng.randrange(notes.dates),
                            notes.duration, 1, self.new_records(1, TOP))

    # Runs and reads

    def run(self, date=None, sure=False):
        notes = self.notes
        if date is None:
            date = self.rng.randrange(notes.dates)
        if not sure and self.faults(('date',), 0.3):
            date = self.bad_date()
        else:
            notes.run.add(date)
        self.send(command(0x16, date, 2))

    def read_place(self, date):
        """A date and category to read, mostly of a run date."""
        rng, notes = self.rng, self.notes
        if date is None:
            date = rng.choice(sorted(notes.run) or [0])
        category = rng.randrange(len(notes.categories))
        for fault in self.faults(('date', 'not run', 'category'), 0.6):
            if fault == 'date':
                date = self.bad_date()
            elif fault == 'not run':
                date = rng.choice([d for d in range(notes.dates) if d not in notes.run] or [date])
            elif fault == 'category':
                category = rng.choice((len(notes.categories), 255))
        return date, category

    def totals(self, date=None):
        date, category = self.read_place(date)
        self.send(command(0x17, date, 2, category, 1))

    def cell(self, date=None):
        date, category = self.read_place(date)
        periods = self.notes.periods
        period = self.rng.choice(self.hot) if self.chance(0.9) else self.rng.randint(1, periods)
        if self.faults(('period',), 0.3):
            period = self.rng.choice((0, periods + 1, 255))
        self.send(command(0x18, date, 2, category, 1, period, 1))

    # Longer turns

    def fill(self):
        """Every meter sends for one date, so that de-minimis counts are met."""
        date = self.rng.choice([*self.busy, self.rng.randrange(self.notes.dates)])
        for mpan in list(self.notes.registrations):
            self.reception(mpan, date)
        self.run(date)
        self.cell(date)

    def flood(self):
        """A whole day at the limit, which may be the largest number there is."""
        notes, rng = self.notes, self.rng
        if notes.registrations:
            mpan = rng.choice(list(notes.registrations))
            date = rng.randrange(notes.registrations[mpan][0].start, notes.dates)
            registration = notes.in_force(mpan, date)
            if registration.status != 3:
                records = [[j * notes.duration, 1, registration.limit]
                           for j in range(1, notes.periods + 1)]
                self.send_reception(notes.sender(mpan, date), mpan, date, notes.duration,
                                    notes.categories[registration.category].quantity, records)
                notes.held.setdefault(mpan, set()).add(date)
                self.run(date)

    def late(self):
        """A set arrives for a run date; another date is run, then this one again."""
        notes, rng = self.notes, self.rng
        if notes.run and notes.registrations:
            date = rng.choice(sorted(notes.run))
            self.reception(rng.choice(list(notes.registrations)), date)
            if self.chance(0.5):
                self.run()
            self.run(date)
            later = [d for d in sorted(notes.run) if d >= date]
            for _ in range(3):
                self.cell(rng.choice(later))
            self.totals(rng.choice(later))

    def sweep(self, sure=False):
        """Runs of all dates, upward, downward or in any order."""
        dates = list(range(self.notes.dates))
        if len(dates) > 60 and not sure:
            dates = sorted(self.rng.sample(dates, 20))
        order = self.rng.choice(('up', 'down', 'any'))
        if order == 'down':
            dates.reverse()
        elif order == 'any':
            self.rng.shuffle(dates)
        for date in dates:
            self.run(date, sure)

    def look(self):
        """The same cell and totals on several dates: what was copied, and from where."""
        for date in self.rng.sample(sorted(self.notes.run), min(4, len(self.notes.run))):
            self.cell(date)
            self.totals(date)

    def whole_year(self):
        """All dates run, few sets, then late sets and reads around the full year."""
        notes = self.notes
        for _ in range(30):
            self.reception()
        self.flood()
        self.sweep(sure=True)
        for _ in range(6):
            self.late()
            for date in {364, 365, notes.dates - 1, 363, 6, 7}:
                self.totals(min(date, notes.dates - 1))
            self.look()

    # Streams

    def settle(self):
        """First meters, sets and runs after an opening."""
        for _ in range(self.rng.randint(3, self.limits.meters + 2)):
            self.registration()
        for _ in range(self.rng.randint(0, 4)):
            self.fill()
        if self.chance(0.5) and not self.year:
            self.sweep()

    def stream(self):
        if self.chance(0.1):               # before any opening all calls answer 1
            for _ in range(self.rng.randint(1, 12)):
                self.rng.choice((self.registration, self.reception, self.run,
                                 self.totals, self.cell))()
        self.opening()
        self.settle()
        if self.year:
            self.whole_year()
        reopening = lambda: (self.opening(), self.settle())
        refused_opening = lambda: self.opening(at_least=1)
        turns = {self.registration: 6, self.reception: 16, self.run: 6, self.totals: 8,
                 self.cell: 9, self.fill: 7, self.late: 7, self.sweep: 1, self.look: 3,
                 self.flood: 0.4, self.many_registrations: 1 if self.wide else 0.3,
                 self.stray: 0.2, reopening: 0.3, refused_opening: 1}
        while self.sent < self.commands:
            if not self.opened and self.chance(0.2):
                reopening()
            self.pick(turns)()
        if self.chance(0.3):
            self.end_badly()
        elif self.chance(0.05):            # some bytes garbled anywhere
            for _ in range(self.rng.randint(1, 3)):
                self.out[self.rng.randrange(len(self.out))] = self.rng.randrange(256)
        return bytes(self.out)

    def end_badly(self):
        rng = self.rng
        way = rng.choice(('many 11', 'many 12', 'unknown', 'stray 15', 'other', 'end', 'cut'))
        if way == 'many 11':
            for _ in range(self.limits.categories + 1):
                self.out += b'\x11' + category_bytes(self.new_categories()[0])
        elif way == 'many 12':
            self.out += bytes((0x12, 1)) * (self.limits.day_types + 1)
        elif way == 'unknown':
            self.out.append(rng.choice([b for b in range(256) if not 0x10 <= b <= 0x18]
                                       + [0x0f, 0x19, 0x00] * 9))
        elif way == 'stray 15':
            self.out += command(0x15, self.notes.duration, 2, 1, 1, 1, 4)
        elif way in ('other', 'end'):
            records = self.new_records(1, 5)
            self.send_reception(7, self.pool[0], 0, self.notes.duration, 1, records)
            # Announces more 15s than it sends.
            at = len(self.out) - 8 * len(records) - 1
            self.out[at] = min(255, len(records) + rng.choice((1, 2, 100)))
            if way == 'other':
                rng.choice((self.run, self.cell, self.stray, self.opening, self.registration))()
                self.run()
        elif way == 'cut':
            begin = len(self.out)
            while len(self.out) < begin + 2:
                rng.choice((self.registration, self.reception, self.run, self.totals, self.cell,
                            self.stray, self.opening))()
            del self.out[rng.randrange(begin + 1, len(self.out)):]
            return
        if way != 'end' and self.chance(0.5):
            self.run()                     # no longer heard


def stream(seed, profile='small', commands=200):
    return Maker(seed, profile, commands).stream()


def main():
    parser = argparse.ArgumentParser(description='Writes one random command stream.')
    parser.add_argument('--seed', type=int, default=1)
    parser.add_argument('--profile', choices=PROFILES, default='small')
    parser.add_argument('--commands', type=int, default=200)
    options = parser.parse_args()
    sys.stdout.buffer.write(stream(options.seed, options.profile, options.commands))


if __name__ == '__main__':
    main()
