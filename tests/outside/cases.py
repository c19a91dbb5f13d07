"""Stores for calls that are worked out by hand, on the compiled library."""

import struct

from library import CALLS, FIELDS, RECORDS, WIDTHS, Sizes, Store, make
from program import WINDOWS
from streams import TOP, valid_mpan
from worked_example import reading

PAST = 2                                   # entries of each part past its least length
LARGEST = 2 ** 64 - 1                      # number, and entry of days


class Case:
    """A store opened on parts that are full of other things, with a meter for each category.

    A category is its key and its window, which is one of the command program's unless others are
    given; its de-minimis count is 1 unless all are given. Other meters may be given, each by its
    category.
    """

    def __init__(self, library, reached, duration, day_types, *categories, meters=None,
                 windows=WINDOWS, minimums=None):
        self.store, self.duration, self.categories = Store(library, reached), duration, categories
        self.meters = meters or range(len(categories))
        self.sizes = Sizes(duration, len(self.meters), len(categories), len(day_types))
        self.store.parts = {part: b'\xa5' * (WIDTHS[part] * (least + PAST))
                            for part, least in self.sizes.least().items()}
        self.opening = (duration, len(self.meters), windows,
                        b''.join(struct.pack('>6BH', *category, minimum) for category, minimum
                                 in zip(categories, minimums or [1] * len(categories))),
                        bytes(day_types))
        self.open()

    def open(self):
        make(self.store, ('ok',), 'opening', *self.opening)
        assert not any(self.store.parts['days'][:-WIDTHS['days'] * PAST]), 'days is not emptied'
        for meter, category in enumerate(self.meters, 1):
            make(self.store, ('ok',), 'registration', valid_mpan(meter), 0, 0, category, 7, 1, TOP)

    def receive_day(self, date, readings, meter=0):
        """A set with these readings, period -> Wh."""
        body = b''.join(reading(self.duration * period, wh) for period, wh in readings.items())
        quantity = self.categories[self.meters[meter]][3]
        make(self.store, ('ok',), 'reception', 7, valid_mpan(meter + 1), date, self.duration,
             quantity, body)

    def run(self, date, moved):
        make(self.store, ('ok', moved), 'run', date)

    def put_days(self, *categories):
        """Days that no run made: the rows of each category, with one entry for all dates or a list.

        They are day, sums, TOT and OFF.
        """
        dates, past = self.sizes.dates, self.store.parts['days'][-WIDTHS['days'] * PAST:]
        days = [entry for rows in categories for row in rows
                for entry in ([row] * dates if isinstance(row, int) else row)]
        assert len(days) == self.sizes.least()['days'], 'an entry is missing'
        self.store.replace({**self.store.parts, 'days': struct.pack(f'{len(days)}Q', *days) + past})

    def put_settings(self, first, *contents):
        """Others than the opening left, from this byte on."""
        settings = bytearray(self.store.parts['settings'])
        settings[first:first + len(contents)] = contents
        self.store.replace({**self.store.parts, 'settings': bytes(settings)})

    def put_windows(self, *numbers):
        """Other windows in the kept category records."""
        for category, number in enumerate(numbers):
            self.put_settings(RECORDS + 8 * category + 5, number)

    def ask(self, due, name, *arguments):
        """A read with its results, or the number of the refusal; lists for results hold a day."""
        due = ('no', due, 0) if isinstance(due, int) else ('ok', *due)
        make(self.store, due, name, *arguments, length=self.sizes.periods)
        self.store.reached['by hand'] += 1

    def cut(self, name, *arguments):
        """The call with each of its parts an entry too short, then with too few fields if any."""
        for part in CALLS[name].parts:
            least = WIDTHS[part] * self.sizes.least()[part]
            make(self.store, ('no', 1, 0), name, *arguments, length=self.sizes.periods,
                 **{part: self.store.parts[part][:least - WIDTHS[part]]})
        if 'fields' in CALLS[name].parameters:
            make(self.store, ('no', 1, 0), name, *arguments, length=self.sizes.periods,
                 fields=bytes(WIDTHS['fields'] * (FIELDS - 1)))
