"""The compiled library's calls, each tested against the plain ledger.

An array that is lent stands in memory of its own, with marked bytes before its
first entry and a page behind its last that nobody may touch: an access past its
end ends the process, and a write before it is found.

On a store that the calls made, every answer must be the ledger's. On any other,
receptions, totals, cells, rows, nets, bands and coverage must be answered as the arrays
lent for them say. Of the other calls only what holds of every store is tested: the
refusals for lengths and for arguments out of range, what else a call may answer, and what
it must leave alone. The moved count of a run and the days that it leaves are worked out on
every store, from what there was before it and the cells before and after it. A preview is
compared on every store with a run of the compiled library on a copy, and a row is read
entry by entry. What an opening leaves in the settings is compared byte for byte.
"""

import ctypes
import mmap
import struct
import sys
from operator import ne
from typing import NamedTuple

from ledger import (BLANK, DAY, EXPORT, IMPORT, MOST_WINDOWS, SMART, Category, Cell, Ledger,
                    Registration, Window, mpan_good, no, opening, rounded)

FIELDS = 11                                # entries that `fields` has at least
ENDINGS = {'fields': FIELDS, 'number': 1}  # what a call has last, with its entries
# Of the settings: duration, meters, categories, dates, then start and end of each window, those
# that were not given 0 and 0.
HEADER = '>20H'
RECORDS = struct.calcsize(HEADER)          # where the category records begin

# Each array that a call may be lent, with the struct letter of its entries.
ARRAYS = {'settings': 'B', 'meters': 'Q', 'readings': 'Q', 'cells': 'Q', 'days': 'Q',
          'draft': 'Q', 'windows': 'Q', 'category_records': 'B', 'day_types': 'B', 'body': 'B',
          'missing': 'B', 'numbers': 'q', 'marks': 'B', 'dates': 'Q', 'filled': 'Q', 'fields': 'q',
          'number': 'Q'}
WIDTHS = {name: struct.calcsize(letter) for name, letter in ARRAYS.items()}
PARTS = ('settings', 'meters', 'readings', 'cells', 'days')
ROWS = 4                                   # of a category in days: day, sums, TOT and OFF
WEEK, YEAR = 7, 365                        # dates that are summed
RUN = 2 ** 48                              # a run date, in an entry of day or TOT
BLANK_ENTRY = 2 ** 31                      # of a blank cell
BITS = {'sender': 16, 'limit': 32, 'advance': 32}      # of a number; all others have 64


class Call(NamedTuple):
    """A function of the header. Its parameters are parts, arguments, lists and `fields`.

    One has a lent number, one entry without a count, in place of `fields`.
    """
    function: str
    parts: list                            # lent
    written: list                          # the parts among them that it writes, and the draft
    arguments: list                        # numbers and lists, in the ledger's order too
    lists: list                            # lent for results
    results: int                           # how many stand in `fields`; None where it has none
    checks: tuple                          # their numbers, in their order
    parameters: list


def call(function, parts, written, arguments, lists, results, *checks):
    parts, written, arguments, lists = (
        names.split() for names in (parts, written, arguments, lists))
    return Call(function, parts, written, arguments, lists, results, checks,
                [*parts, *arguments, *lists, 'number' if results is None else 'fields'])


# By the names of the ledger's calls. A further one is a line here, and in calls.py a turn and the
# method that makes its arguments.
CALLS = {
    'opening': call('jihoweka_open', 'settings meters readings cells days',
                    'settings meters readings cells days',
                    'duration meter_count windows category_records day_types', '', 0,
                    3, 19, 4, 5, 1),
    'registration': call('jihoweka_register', 'settings meters readings', 'meters',
                         'mpan date minute category sender status limit', '', 0,
                         1, 9, 6, 16, 8, 10, 11, 12),
    'reception': call('jihoweka_receive', 'settings meters readings', 'readings',
                      'sender mpan date duration quantity body', '', 0,
                      1, 9, 6, 7, 2, 1001, 1002, 1004, 13, 1005, 1006, 1008, 1009, 1011, 1012),
    'run': call('jihoweka_run', 'settings meters readings cells days', 'cells days', 'date', '',
                1, 1, 9),
    'preview': call('jihoweka_preview', 'settings meters readings cells days', 'draft',
                    'draft date', '', 1, 1, 18, 9),
    'totals': call('jihoweka_read_totals', 'settings days', '', 'date category', '', 11,
                   1, 9, 15, 14),
    'cell': call('jihoweka_read_cell', 'settings cells', '', 'date category period', '', 5,
                 1, 9, 15, 14),
    'row': call('jihoweka_read_row', 'settings cells', '', 'draft date category from_draft', '',
                None, 1, 18, 9, 15, 14),
    'entry': call('jihoweka_read_entry', '', '', 'entry', '', 5),
    'net': call('jihoweka_read_net', 'settings cells days', '', 'date category all_groups',
                'numbers marks', 2, 1, 9, 15, 26, 14),
    'band': call('jihoweka_search_band', 'settings days', '', 'category day_type least most',
                 'dates', 2, 1, 15),
    'fill': call('jihoweka_fill', 'settings cells', '', 'date category advance missing', 'filled',
                 0, 1, 9, 15, 14, 17),
    'fill_opted_out': call('jihoweka_fill_opted_out', 'settings cells', '',
                           'date group quantity connection advance missing', 'filled',
                           0, 1, 9, 15, 14, 17),
    'coverage': call('jihoweka_read_coverage', 'settings days', '', 'date category', '', 5,
                     1, 9, 15, 14),
}
FOR_ARGUMENTS = (1, 18, 9, 6, 16, 15)      # checks that any store answers alike
OF_RECORDS = (1005, 1006, 1008, 1009, 1011, 1012)      # with a place always, 13 with one or none


def to_be_reached():
    """(call, number) of all that must have been heard; what has two forms, in both.

    A bad window at each place.
    """
    keys = [(name, number) for name, made in CALLS.items()
            for number in dict.fromkeys((0, 1, *made.checks))]         # too few fields are 1
    keys += [('net of all groups', number) for number in (0, *CALLS['net'].checks)]
    keys += [('row of the draft', number) for number in (0, *CALLS['row'].checks) if number != 14]
    keys += [(f'window {place} of an opening', 19) for place in range(1, MOST_WINDOWS + 2)]
    return [*keys, ('reception of a bad record', 13)]


def described(name, given):
    """A call with its numbers and the lists that it is given, and how long the others are."""
    shown = []
    for parameter in CALLS[name].parameters:
        value = given[parameter]
        if parameter not in ARRAYS:
            shown.append(f'{parameter} {value}')
        elif parameter == 'windows':
            shown.append(f'{parameter} {entries_of(value)}')
        elif parameter in CALLS[name].arguments and parameter != 'draft':
            shown.append(f'{parameter} {value.hex() or "empty"}')
        else:
            shown.append(f'{parameter}[{len(value) // WIDTHS[parameter]}]')
    return f'{CALLS[name].function}: {", ".join(shown)}'


class Difference(Exception):
    """What came is not what must come; its text says how."""


class Memory:
    """Where an array stands whenever it is lent: right before a page that nobody may touch."""

    ROOM = 1 << 20                         # bytes, in whole pages
    MARKS = bytes((37 * k + 101) % 256 for k in range(64))

    def __init__(self, name):
        self.name = name
        self.memory = mmap.mmap(-1, self.ROOM + mmap.PAGESIZE)
        self.end = ctypes.addressof(ctypes.c_char.from_buffer(self.memory)) + self.ROOM
        protect = ctypes.CDLL(None, use_errno=True).mprotect
        if protect(ctypes.c_void_p(self.end), ctypes.c_size_t(mmap.PAGESIZE), 0):
            raise OSError(ctypes.get_errno(), 'no page could be closed')
        self.contents = None

    def lend(self, contents, null):
        """Pointer and count of entries; null says how an empty array is lent."""
        if contents is not self.contents:  # else they stand there since the last call
            begin = self.ROOM - len(contents) - len(self.MARKS)
            self.memory[begin:self.ROOM] = self.MARKS + contents
            self.contents = contents
        pointer = None if null and not contents else self.end - len(contents)
        return pointer, len(contents) // WIDTHS[self.name]

    def taken_back(self):
        """The contents after a call, the same object if they are the same."""
        begin = self.ROOM - len(self.contents)
        if self.memory[begin - len(self.MARKS):begin] != self.MARKS:
            raise Difference(f'bytes before {self.name} were written')
        after = self.memory[begin:self.ROOM]
        if after != self.contents:
            self.contents = after
        return self.contents


class Library:
    def __init__(self, path):
        library = ctypes.CDLL(path)
        self.memory = {name: Memory(name) for name in ARRAYS}
        self.functions = {}
        for name, made in CALLS.items():
            types = []
            for parameter in made.parameters:
                if parameter == 'number':
                    types += [ctypes.c_void_p]
                elif parameter in ARRAYS:
                    types += [ctypes.c_void_p, ctypes.c_size_t]
                else:
                    types += [getattr(ctypes, f'c_uint{BITS.get(parameter, 64)}')]
            function = self.functions[name] = getattr(library, made.function)
            function.restype, function.argtypes = ctypes.c_uint64, types

    def call(self, name, given, null):
        """What is returned, and what each array holds that was lent."""
        passed, lent = [], []
        for parameter in CALLS[name].parameters:
            if parameter in ARRAYS:
                lent.append(self.memory[parameter])
                pointer, count = lent[-1].lend(given[parameter], null)
                passed += [pointer] if parameter == 'number' else [pointer, count]
            else:
                passed.append(given[parameter])
        returned = self.functions[name](*passed)
        return returned, {memory.name: memory.taken_back() for memory in lent}

    def cells_of(self, entries):
        """The cells that the library reads these entries as, any 64-bit numbers."""
        fields, cells = bytes(WIDTHS['fields'] * FIELDS), {}
        for entry in set(entries):
            number, after = self.call('entry', {'entry': entry, 'fields': fields}, False)
            flag, *rest = struct.unpack_from('5q', after['fields'])
            if number or flag not in b'ADEN':
                raise Difference(f'entry {entry} is read as {number, flag, *rest}')
            cells[entry] = Cell(chr(flag), *rest)
        return [cells[entry] for entry in entries]


class Sizes(NamedTuple):
    """What a store is opened for."""
    duration: int
    meters: int
    categories: int
    dates: int

    @property
    def periods(self):
        return DAY // self.duration

    def least(self):
        """The least lengths of the parts in entries, as docs/STORE.md has them."""
        return {'settings': RECORDS + 8 * self.categories + self.dates,
                'meters': 41 * self.meters,
                'readings': self.dates * self.meters * (1 + self.periods),
                'cells': self.dates * self.categories * self.periods,
                'days': ROWS * self.categories * self.dates}

    @property
    def row(self):
        """The cells of a date, and the least length of a draft."""
        return self.categories * self.periods


def sizes_of(ledger):
    return Sizes(ledger.duration, ledger.meters, len(ledger.categories), ledger.dates)


def sizes_kept(settings):
    """The sizes in the header of any settings, or None where they say unopened."""
    if len(settings) < RECORDS:
        return None
    sizes = Sizes(*struct.unpack_from(HEADER, settings)[:4])
    opened = (sizes.duration in (15, 30) and 1 <= sizes.meters <= 1024
              and 1 <= sizes.categories <= 64 and 1 <= sizes.dates <= 800)
    return sizes if opened else None


def windows_kept(settings):
    """All that the header of any settings has room for, whatever their minutes."""
    minutes = struct.unpack_from(HEADER, settings)[4:]
    return list(map(Window, minutes[::2], minutes[1::2]))


def short(given, sizes):
    """Whether a part, or a list that has to hold a day, has fewer entries than it must."""
    least = {**sizes.least(),
             **dict.fromkeys(('numbers', 'marks', 'missing', 'filled'), sizes.periods)}
    return any(len(given[array]) < WIDTHS[array] * least[array] for array in least.keys() & given)


def as_fields(cell):
    """A cell as fields have it, its flag as a number."""
    flag, *rest = cell
    return ord(flag), *rest


def cell_of(entry):
    """The cell that an entry reads as, whatever made it; flag 0 has no fields but the value."""
    flag, value = 'NADE'[entry % 4], entry >> 32
    if flag == 'N':
        return BLANK._replace(value=value)
    count, origin, remainder = (entry >> shift & 1023 for shift in (2, 12, 22))
    return Cell(flag, value, count + 1, origin, remainder - 512)


def entry_of(cell):
    """The entry that a run makes of a cell."""
    if cell.flag == 'N':
        return BLANK_ENTRY
    return ('NADE'.index(cell.flag) + (cell.count - 1 << 2) + (cell.origin << 12)
            + (cell.remainder + 512 << 22) + (cell.value << 32))


def entries_of(contents, first=0, length=None):
    """The numbers in these bytes, or so many of them from one of them on."""
    last = None if length is None else 8 * (first + length)
    return [entry for entry, in struct.iter_unpack('Q', contents[8 * first:last])]


def packed(numbers):
    """The bytes of these numbers, as entries."""
    return struct.pack(f'{len(numbers)}Q', *numbers)


def day_of(cells):
    """The day of a category, from its cells on a date."""
    flags = [cell.flag for cell in cells]
    oldest = min(cell.origin for cell in cells)            # N has the highest
    fresh, blank = flags.count('A') + flags.count('D'), flags.count('N')
    return fresh + (blank << 16) + (oldest << 32) + RUN


def off_peak(kept, number):
    """The periods of the window with this number in any settings.

    Those that the opening was not given have none, and what there is no room for neither.
    """
    return kept.windows[number - 1].periods(kept.duration) if 1 <= number <= MOST_WINDOWS else []


def tot_and_off(cells, periods):
    """The entries of TOT and OFF for the same, with the periods of the window."""
    return sum(cell.value for cell in cells) + RUN, sum(cells[j - 1].value for j in periods)


def summed(row, date, length):
    """The entries of a row for this date and the length - 1 before, modulo 2^64."""
    return sum(row[max(0, date + 1 - length):date + 1]) % 2 ** 64


class Store:
    """The parts, and the ledger for as long as the calls made what the parts hold.

    Beside them a draft, and the cells that are in it if previews did what they must.
    """

    def __init__(self, library, reached):
        self.library, self.reached = library, reached
        self.parts = dict.fromkeys(PARTS, b'')
        self.ledger = None
        self.sizes = None                  # None while unopened
        self.draft, self.drafted = b'', []

    def replace(self, parts):
        """Parts that the calls did not make, at least not alone."""
        self.parts, self.ledger, self.sizes = parts, None, sizes_kept(parts['settings'])

    def call(self, name, given, null):
        """Makes the call, tests all that comes of it, and gives the answer."""
        told = dict(given)
        if 'draft' in given:
            told['draft'] = self.draft_told(given['draft'])
        if 'windows' in given:
            told['windows'] = entries_of(given['windows'])
        expected = self.expected(name, told)
        returned, after = self.library.call(name, given, null)
        came = self.heard(name, returned, given, after)
        if expected is None:
            self.test_possible(name, given, came)
        elif came != expected:
            raise Difference(f'expected {expected}\ncame     {came}')
        self.test_unchanged(name, given, after, came)
        accepted = came[0] == 'ok'
        if accepted and name == 'opening':
            self.test_settings(told, after)
        if accepted and name == 'run':
            self.test_moved(given, after, came)
            self.test_days(given, after)
        if name == 'preview':
            self.test_as_run(given, after, came)
        if accepted and name == 'preview':
            if expected is None:           # of such a store the ledger knows nothing
                told['draft'] = list(map(cell_of, entries_of(after['draft'])))
            else:
                self.test_draft(after, told['draft'])
            self.draft, self.drafted = after['draft'], told['draft']
        if accepted:
            self.parts.update((part, after[part]) for part in CALLS[name].parts)
        self.count(name, given, came, expected)
        return came

    def draft_told(self, contents):
        """The cells of a draft that is lent, as the ledger is told of them.

        Of the draft that stands, cut or with more behind it, they are those that the ledger has;
        of any other they are what its entries read as.
        """
        common = min(len(contents), len(self.draft))
        known = self.drafted[:common // 8] if contents[:common] == self.draft[:common] else []
        return known + list(map(cell_of, entries_of(contents, len(known))))

    def expected(self, name, given):
        """The answer that must come; None if it hangs on what the ledger does not know.

        An accepted preview changes the draft that is given, which has the ledger's cells.
        """
        made = CALLS[name]
        if len(given.get('fields', b'')) < WIDTHS['fields'] * FIELDS and made.results is not None:
            return no(1)
        arguments = [given[argument] for argument in made.arguments]
        if name == 'entry':
            return 'ok', *as_fields(cell_of(*arguments))
        if name == 'opening':              # it does not matter what the parts hold
            ledger = opening(*arguments)
            if not isinstance(ledger, Ledger):
                return ledger
            if short(given, sizes_of(ledger)):
                return no(1)
            self.ledger, self.sizes = ledger, sizes_of(ledger)
            return ('ok',)
        if self.sizes is None or short(given, self.sizes):
            return no(1)
        if self.ledger is None:
            return self.refused_for_arguments(name, given)
        lengths = [len(given[each]) // WIDTHS[each] for each in made.lists]
        answer = getattr(self.ledger, name)(*arguments, *lengths)
        if name == 'cell' and answer[0] == 'ok':
            return 'ok', *as_fields(answer[1:])
        return answer

    def refused_for_arguments(self, name, given):
        """The refusal that comes of the arguments and the kept settings alone, or None."""
        sizes, date, category = self.sizes, given.get('date', 0), given.get('category', 0)
        if 'draft' in given and len(given['draft']) < sizes.row:
            return no(18)
        if date >= sizes.dates:
            return no(9)
        if 'mpan' in given and not mpan_good(given['mpan']):
            return no(6)
        if name == 'registration':
            start = date + (given['minute'] > 0)
            if (given['minute'] >= DAY or category >= sizes.categories
                    or given['status'] not in (1, 2, 3) or start >= sizes.dates):
                return no(16)
        elif category >= sizes.categories or not 1 <= given.get('period', 1) <= sizes.periods:
            return no(15)
        elif name == 'fill_opted_out' and not self.opted_out_kept(given):
            return no(15)
        return None

    # What any store answers alike, from the parts that are lent

    def opening_kept(self, given):
        """An empty ledger with the windows, categories and day types of any settings."""
        settings, after = given['settings'], RECORDS + 8 * self.sizes.categories
        records = struct.iter_unpack('>6BH', settings[RECORDS:after])
        return Ledger(self.sizes.duration, self.sizes.meters, windows_kept(settings),
                      [Category(*record) for record in records],
                      settings[after:after + self.sizes.dates])

    def opted_out_kept(self, given):
        """Whether the settings keep a Smart domestic category record with these three."""
        key = 1, given['group'], 1, given['quantity'], given['connection']
        return any(category.key == key for category in self.opening_kept(given).categories)

    def registrations_kept(self, given):
        """Those of the MPAN in its slot, up to the first unused one, whatever their entries are."""
        meters, count, mpan = given['meters'], self.sizes.meters, given['mpan']
        slots = struct.unpack_from(f'{count}Q', meters)
        slot = next((place for place, kept in enumerate(slots) if kept in (mpan, 0)), count)
        registrations = []
        while slot < count and slots[slot] == mpan and len(registrations) < 8:
            at = count + 40 * slot + 5 * len(registrations)
            moment, category, sender, status, limit = struct.unpack_from('5Q', meters, 8 * at)
            if status == 0:
                break
            date, minute = divmod(moment, DAY)
            registrations.append(Registration(date, minute, category, sender, status, limit))
        return registrations

    def reception_kept(self, given):
        mpan, date, kept = given['mpan'], given['date'], self.opening_kept(given)
        # The engine takes the last of equals, the ledger, which has none, the first.
        kept.registrations[mpan] = self.registrations_kept(given)[::-1]
        current = kept.in_force(mpan, date)
        if current is not None and current.category >= self.sizes.categories:
            return no(2)
        return kept.reception(*(given[argument] for argument in CALLS['reception'].arguments))

    def category_rows(self, given, category):
        """The rows of a category in days: day, sums, TOT and OFF, each with an entry for a date."""
        dates, width = self.sizes.dates, WIDTHS['days']
        return [struct.unpack_from(f'{dates}Q', given['days'], width * dates * row)
                for row in range(ROWS * category, ROWS * (category + 1))]

    def totals_kept(self, given):
        date, category = given['date'], given['category']
        window = self.opening_kept(given).categories[category].window
        day, _, tot, off = self.category_rows(given, category)
        if day[date] == 0:
            return no(14)
        week, year = summed(tot, date, WEEK), summed(tot, date, YEAR)
        days, annual = year // RUN, year % RUN
        if days != YEAR:
            annual = rounded(annual * YEAR, days) if days else 0
        six = ()
        for energy, off_peak in ((tot[date], off[date]), (week, summed(off, date, WEEK))):
            energy, off_peak = energy % RUN, off_peak % RUN
            six += energy, off_peak, max(0, energy - off_peak) if window else 0
        fresh, blank = day[date] & 65535, day[date] >> 16 & 65535
        return 'ok', *six, week // RUN, annual, days, fresh, blank

    def coverage_kept(self, given):
        day, sums, _, _ = (row[given['date']]
                           for row in self.category_rows(given, given['category']))
        if day == 0:
            return no(14)
        return ('ok', *(sums >> shift & 65535 for shift in (0, 16, 32, 48)), day >> 32 & 65535)

    def cells_kept(self, given):
        """The cells of the date, or None where the first entry says that it is not run."""
        width = self.sizes.categories * self.sizes.periods
        row = struct.unpack_from(f'{width}Q', given['cells'],
                                 WIDTHS['cells'] * width * given['date'])
        return list(map(cell_of, row)) if row[0] else None

    def cell_kept(self, given):
        cells = self.cells_kept(given)
        if cells is None:
            return no(14)
        cell = cells[self.sizes.periods * given['category'] + given['period'] - 1]
        return 'ok', *as_fields(cell)

    def row_kept(self, given):
        """The stretch of the array that is asked for."""
        if not given['from_draft'] and self.cells_kept(given) is None:
            return no(14)
        return 'ok', list(map(cell_of, self.row_entries(given, self.sizes.periods)))

    def row_entries(self, given, length):
        """So many entries from where a row begins."""
        array, first = 'cells', given['date'] * self.sizes.row
        if given['from_draft']:
            array, first = 'draft', 0
        return entries_of(given[array], first + given['category'] * self.sizes.periods, length)

    def net_kept(self, given):
        """The date's periods from the cells, the week from the days."""
        date, periods, kept = given['date'], self.sizes.periods, self.opening_kept(given)
        asked, all_groups = kept.categories[given['category']], given['all_groups'] != 0
        imports = kept.side(asked, IMPORT, all_groups)
        exports = kept.side(asked, EXPORT, all_groups)
        if asked.segment != SMART or asked.quantity != IMPORT or not exports:
            return no(26)
        cells = self.cells_kept(given)
        if cells is None:
            return no(14)
        nets, marks, tot7 = [0] * periods, [0] * periods, 0
        for category in imports + exports:
            sign = 1 if category in imports else -1
            for j, cell in enumerate(cells[periods * category:periods * (category + 1)]):
                nets[j] += sign * cell.value
                marks[j] |= cell.flag == 'N'
            _, _, tot, _ = self.category_rows(given, category)
            tot7 += sign * (summed(tot, date, WEEK) % RUN)
        return 'ok', sum(nets), tot7, nets, marks

    def band_kept(self, given):
        day, _, tot, _ = self.category_rows(given, given['category'])
        day_type, day_types = given['day_type'], self.opening_kept(given).day_types
        dates = [date for date in range(self.sizes.dates)
                 if day[date] != 0 and day_types[date] == day_type and 1 <= day_type <= 16
                 and given['least'] <= tot[date] % RUN <= given['most']]
        written = dates[:len(given['dates']) // WIDTHS['dates']]
        return 'ok', len(written), len(dates), written

    def heard(self, name, number, given, after):
        """What came, in the form of the ledger's answers."""
        made = CALLS[name]
        if name == 'row':
            return self.heard_row(number, given, after)
        fields = [field for field, in struct.iter_unpack(ARRAYS['fields'], after['fields'])]
        if number:
            return no(number, fields[0] if len(fields) >= FIELDS else 0)
        answer = 'ok', *fields[:made.results]
        periods = self.sizes.periods if self.sizes else 0
        for each in made.lists:
            length = max(0, fields[0]) if each == 'dates' else periods
            contents = after[each][:WIDTHS[each] * length]
            answer = *answer, [entry for entry, in struct.iter_unpack(ARRAYS[each], contents)]
        return answer

    def heard_row(self, length, given, after):
        """The cells of the row; a refused one that is not empty has its length for the place."""
        number, = entries_of(after['number'])
        if number:
            return no(number, length)
        if self.sizes is None or length != self.sizes.periods:
            raise Difference(f'came a row of {length} entries')
        return 'ok', self.library.cells_of(self.row_entries(given, length))

    def test_possible(self, name, given, came):
        """What holds of all other answers on any store."""
        if name in ('reception', 'totals', 'cell', 'row', 'net', 'band', 'coverage'):
            due = getattr(self, f'{name}_kept')(given)
            if came != due:
                raise Difference(f'the parts say {due}\ncame          {came}')
        number, place = came[1:] if came[0] == 'no' else (0, 0)
        records = len(given.get('body', b'')) // 7
        places = {0} if number not in OF_RECORDS else range(1, records + 1)
        if number == 13:
            places = range(records + 1)
        possible = (number in (0, *CALLS[name].checks) and number not in FOR_ARGUMENTS
                    and place in places)
        if number == 0 and 'advance' in given:
            marked = [wh for wh, mark in zip(came[1], given['missing']) if mark]
            possible &= sum(marked) == sum(came[1]) == given['advance']
        if not possible:
            raise Difference(f'came {came}, which cannot be')

    def test_unchanged(self, name, given, after, came):
        """Whether all that the call had no business to write is as it was."""
        made, fronts = CALLS[name], {}     # array -> entries at its front that may be written
        if name == 'row':
            fronts['number'] = 1
        elif came[0] == 'ok':
            least = {**self.sizes.least(), 'draft': self.sizes.row} if made.written else {}
            fronts = {array: least[array] for array in made.written}
            fronts.update(zip(made.lists, map(len, came[1 + made.results:])))
            fronts['fields'] = made.results
        elif len(given['fields']) >= WIDTHS['fields'] * FIELDS:
            fronts['fields'] = 1
        for array, contents in after.items():
            if contents is given[array]:
                continue
            letter, front = ARRAYS[array], fronts.get(array, 0)
            if contents[WIDTHS[array] * front:] != given[array][WIDTHS[array] * front:]:
                entries = zip(struct.iter_unpack(letter, given[array]),
                              struct.iter_unpack(letter, contents))
                at, before, now = next((at, before, now) for at, (before, now)
                                       in enumerate(entries) if at >= front and before != now)
                raise Difference(f'came {came}, and entry {at} of {array} was changed '
                                 f'from {before[0]} to {now[0]}')

    def test_settings(self, told, after):
        """Whether the settings are those of the opening, byte for byte."""
        unused = [0] * (2 * MOST_WINDOWS - len(told['windows']))
        due = (struct.pack(HEADER, *self.sizes, *told['windows'], *unused)
               + told['category_records'] + told['day_types'])
        for at, pair in enumerate(zip(after['settings'], due)):
            if pair[0] != pair[1]:
                raise Difference(f'byte {at} of settings is {pair[0]} where {pair[1]} is due')

    def test_moved(self, given, after, came):
        """Whether a run counted the entries that it changed; on a date not run they are blank."""
        sizes = self.sizes
        width = sizes.categories * sizes.periods
        first = given['date'] * width
        old, new = (list(struct.unpack_from(f"{sizes.least()['cells']}Q", cells))
                    for cells in (given['cells'], after['cells']))
        old[first:first + width] = [entry or BLANK_ENTRY for entry in old[first:first + width]]
        moved = sum(map(ne, old, new))
        if came != ('ok', moved):
            raise Difference(f'{moved} entries changed, and {came} came')

    def test_as_run(self, given, after, came):
        """Whether a run on a copy answers the same, and leaves the draft's cells on the date."""
        returned, copy = self.library.call('run', given, False)
        run = self.heard('run', returned, given, copy)
        if came != run and came != no(18):
            raise Difference(f'came {came}, of a run {run}')
        if came[0] == 'ok':
            row = self.sizes.row
            drafted = entries_of(after['draft'], 0, row)
            self.test_entries(drafted, entries_of(copy['cells'], given['date'] * row, row))

    def test_draft(self, after, draft):
        """Whether the draft has the ledger's cells, in the entries that a run makes of them."""
        row = self.sizes.row
        self.test_entries(entries_of(after['draft'], 0, row), list(map(entry_of, draft[:row])))

    def test_entries(self, drafted, due):
        if drafted != due:
            at = next(at for at, pair in enumerate(zip(drafted, due)) if pair[0] != pair[1])
            raise Difference(f'entry {at} of the draft is {drafted[at]} where {due[at]} is due')

    def rows_kept(self, given, after):
        """Date and new row of all whose days a run puts, as the cells show them.

        The date that is run, and the later run dates of its day type up to one whose row stays.
        """
        sizes, run = self.sizes, given['date']
        day_types = given['settings'][RECORDS + 8 * sizes.categories:]
        width = WIDTHS['cells'] * sizes.categories * sizes.periods
        for date in range(run, sizes.dates):
            old, new = (cells[width * date:width * (date + 1)]
                        for cells in (given['cells'], after['cells']))
            if date > run:
                is_run = struct.unpack_from('Q', old)[0] != 0
                if not is_run or day_types[date] != day_types[run]:
                    continue
                if old == new:
                    return
            yield date, [cell_of(entry) for entry, in struct.iter_unpack('Q', new)]

    def test_days(self, given, after):
        """Whether a run put day, TOT and OFF, and raised the sums by what changed, modulo 2^64."""
        dates, periods, least = self.sizes.dates, self.sizes.periods, self.sizes.least()['days']
        due = list(struct.unpack_from(f'{least}Q', given['days']))
        kept = self.opening_kept(given)
        windows = [off_peak(kept, category.window) for category in kept.categories]
        for date, row in self.rows_kept(given, after):
            for category, window in enumerate(windows):
                first = ROWS * dates * category + date
                day, sums, tot, off = range(first, first + ROWS * dates, dates)
                cells = row[periods * category:periods * (category + 1)]
                new = day_of(cells)
                change = new % 2 ** 32 - due[day] % 2 ** 32
                due[day] = new
                due[tot], due[off] = tot_and_off(cells, window)
                for ahead in range(min(YEAR, dates - date) if change else 0):
                    raised = (change << 32) + (change if ahead < WEEK else 0)
                    due[sums + ahead] = (due[sums + ahead] + raised) % 2 ** 64
        for at, came in enumerate(struct.unpack_from(f'{least}Q', after['days'])):
            if came != due[at]:
                raise Difference(f'entry {at} of days is {came} where {due[at]} is due')

    def count(self, name, given, came, expected):
        number, place = came[1:] if came[0] == 'no' else (0, 0)
        self.reached['accepted'] += number == 0
        if expected is None and number != 2:
            return                         # only what the ledger said shows that it was tested
        if name == 'net' and given['all_groups']:
            name = 'net of all groups'
        if name == 'row' and given['from_draft']:
            name = 'row of the draft'
        if number == 13 and place:
            name = 'reception of a bad record'
        if number == 19:
            self.reached[f'window {place} of an opening', number] += 1
        self.reached[name, number] += 1


def make(store, due, name, *arguments, length=0, **lent):
    """A call with the answer worked out by hand; ends the program where another one comes.

    Windows are a list of minutes. A list for results has so many entries, a part is as it stands
    unless it is given.
    """
    given = {part: store.parts[part] for part in CALLS[name].parts}
    given.update(zip(CALLS[name].arguments, arguments, strict=True))
    if 'windows' in given:
        given['windows'] = packed(given['windows'])
    given.update((each, b'\xa5' * (WIDTHS[each] * length)) for each in CALLS[name].lists)
    ending = CALLS[name].parameters[-1]
    given[ending] = b'\xa5' * (WIDTHS[ending] * ENDINGS[ending])
    given.update(lent)
    try:
        came = store.call(name, given, null=False)
        if came != due:
            raise Difference(f'by hand  {due}\ncame     {came}')
    except Difference as difference:
        sys.exit(f'{described(name, given)}\n{difference}')
