"""Compares the example programs with the plain ledger, byte for byte.

    python3 examples.py PROGRAM..

Programs named first_calls make the calls of the scope document's example and a band
search. The others, the head-ends, make a fixed list of calls on a CSV file of meter
days. Here the plain ledger answers the same calls, of a head-end on examples/day.csv
and on a file with a day for each refusal, and the programs have to write its lines.
All head-ends have to save the same bytes. Files that cannot be used have to end them
with status 1 and the reason.
"""

import csv
import difflib
import pathlib
import re
import subprocess
import sys
import tempfile
from itertools import groupby
from struct import pack

from ledger import EXPORT, IMPORT, opening
from program import WINDOWS
from streams import TOP, valid_mpan

ROOT = pathlib.Path(__file__).resolve().parents[2]
DAY_TYPES = 1, 1, 2, 1, 1, 2               # the last date is never run
CATEGORIES = [(1, 1, 2, IMPORT, 1, 1, 1), (1, 1, 2, EXPORT, 1, 0, 1),
              (1, 2, 2, IMPORT, 1, 2, 2), (1, 2, 2, EXPORT, 1, 0, 1)]
METERS = {valid_mpan(first): category for first, category in
          ((100000000101, 0), (100000000102, 0), (100000000103, 1),
           (110000000104, 2), (110000000105, 3))}
FIRST = min(METERS)
UNKNOWN = valid_mpan(1)
DURATION, PERIODS, SENDER, LIMIT = 30, 48, 7, 10000
HEAD = 'mpan,date,end,quality,Wh\n'


def names():
    """The header's name of each number."""
    text = (ROOT / 'include' / 'jihoweka.h').read_text()
    numbers, = re.findall(r'enum jihoweka_number \{(.*?)\n\};', text, re.DOTALL)
    return {int(number): name for name, number in re.findall(r'JIHOWEKA_(\w+) = (\d+)', numbers)}


NAMES = names()


def kwh(wh):
    return f'{"-" if wh < 0 else ""}{abs(wh) // 1000}.{abs(wh) % 1000:03d}'


def date_or_dash(origin):
    return '-' if origin == 65535 else origin


def line(asked, answer, words):
    """What was asked, then the results put into words, or the refusal."""
    if answer[0] == 'ok':
        return f'{asked}: {words(*answer[1:])}'
    _, number, place = answer
    return f'{asked}: refused {number} {NAMES[number]}, place {place}'


def accepted():
    return 'accepted'


def in_eights(first, periods):
    """A first line, and below it the periods, eight to a line."""
    return '\n  '.join((first, *(' '.join(periods[begin:begin + 8])
                                 for begin in range(0, PERIODS, 8))))


class Example:
    """The calls of the examples, and the lines that they have to write."""

    def __init__(self, days):
        records = b''.join(pack('>6BH', *category) for category in CATEGORIES)
        self.days = days
        self.ledger = opening(DURATION, len(METERS), WINDOWS, records, DAY_TYPES)

    def lines(self):
        yield 'open: accepted'
        for mpan, category in METERS.items():
            yield self.register(mpan, category)
        yield self.register(FIRST + 1, 0)  # mistyped
        yield from self.receive_file()
        yield from map(self.run, range(5))
        for date in range(6):
            yield self.totals(date, 0)
        for category in (1, 2, 3):
            yield self.totals(0, category)
        for cell in ((0, 0, 1), (0, 2, 1), (0, 1, 25), (1, 2, 1)):
            yield self.cell(*cell)
        for net in ((0, 0, False), (0, 2, False), (4, 0, True), (0, 1, False)):
            yield self.net(*net)
        yield self.band(6)
        yield self.band(2)
        yield self.fill(4, 0, 17, 24, 13000)
        yield self.fill(2, 0, 17, 24, 13000)  # no shape there
        yield self.coverage(4, 0)
        yield self.coverage(2, 1)
        yield f'save: {saved_size()} bytes'
        yield f'load: {saved_size()} bytes'
        # A late day for date 0: copies stand until it is run again, then they follow.
        yield self.receive(FIRST, 0, [(end, 1, 2000) for end in range(30, 1441, 30)])
        yield self.totals(1, 0)
        draft = [None] * (len(CATEGORIES) * PERIODS)
        yield self.preview(draft, 0)
        yield self.row(draft, 0, 0, False)
        yield self.row(draft, 0, 0, True)
        yield self.preview(draft[:-1], 0)  # no room for a date
        yield self.row(draft, 5, 0, False)
        yield self.run(0)
        yield self.totals(0, 0)
        yield self.totals(1, 0)
        yield self.cell(1, 2, 1)
        yield self.net(1, 0, True)
        yield self.band(6)
        yield self.coverage(1, 0)

    def register(self, mpan, category):
        answer = self.ledger.registration(mpan, 0, 0, category, SENDER, 1, LIMIT)
        return line(f'register {mpan}', answer, accepted)

    def receive(self, mpan, date, records):
        """A meter day of records (end minute, quality, Wh)."""
        # An unknown meter's day is refused before its quantity matters.
        quantity = CATEGORIES[METERS[mpan]][3] if mpan in METERS else 0
        body = b''.join(pack('>HBI', *record) for record in records)
        answer = self.ledger.reception(SENDER, mpan, date, DURATION, quantity, body)
        return line(f'receive {mpan} date {date}', answer, accepted)

    def receive_file(self):
        """Neighbouring records of one MPAN and date are a meter day."""
        rows = [(int(row['mpan']), int(row['date']), row)
                for row in csv.DictReader(self.days.splitlines())]
        for (mpan, date), day in groupby(rows, lambda row: row[:2]):
            records = []
            for _, _, row in day:
                hours, minutes = map(int, row['end'].split(':'))
                records.append((60 * hours + minutes, int(row['quality']), int(row['Wh'])))
            yield self.receive(mpan, date, records)

    def run(self, date):
        return line(f'run {date}', self.ledger.run(date), '{} cells moved'.format)

    def preview(self, draft, date):
        return line(f'preview {date}', self.ledger.preview(draft, date),
                    '{} cells would move'.format)

    def row(self, draft, date, category, from_draft):
        """Flag and value of each period, eight to a line."""
        def words(cells):
            shown = [f'{cell.flag} {kwh(cell.value)}' for cell in cells]
            return in_eights(f'{len(cells)} periods', shown)
        return line(f'row of date {date}, category {category}, '
                    + ('draft' if from_draft else 'published'),
                    self.ledger.row(draft, date, category, from_draft), words)

    def totals(self, date, category):
        def words(tot, off, peak, tot7, off7, peak7, days7, annual, days, fresh, blank):
            return (f'TOT {kwh(tot)} OFF {kwh(off)} PEAK {kwh(peak)} TOT7 {kwh(tot7)} '
                    f'OFF7 {kwh(off7)} PEAK7 {kwh(peak7)} days7 {days7} ANN {kwh(annual)} '
                    f'days {days} FRESH {fresh} BLANK {blank}')
        return line(f'totals of date {date}, category {category}',
                    self.ledger.totals(date, category), words)

    def cell(self, date, category, period):
        def words(flag, value, count, origin, remainder):
            return f'{flag} {kwh(value)} {count} {date_or_dash(origin)} {remainder}'
        return line(f'cell of date {date}, category {category}, period {period}',
                    self.ledger.cell(date, category, period), words)

    def net(self, date, category, all_groups):
        """Eight periods to a line; a star behind a number is its mark."""
        def words(tot, tot7, numbers, marks):
            shown = [kwh(number) + '*' * mark for number, mark in zip(numbers, marks)]
            return in_eights(f'TOT {kwh(tot)} TOT7 {kwh(tot7)}', shown)
        form = 'all groups' if all_groups else 'own group'
        return line(f'net of date {date}, category {category}, {form}',
                    self.ledger.net(date, category, all_groups, PERIODS, PERIODS), words)

    def band(self, room):
        def words(written, there_are, dates):
            return ' '.join(map(str, (written, 'of', f'{there_are}:', *dates)))
        return line(f'band with room for {room}',
                    self.ledger.band(0, 1, 63652, 69122, room), words)

    def fill(self, date, category, first, last, advance):
        """The periods of the hole and their sum, which is the advance."""
        def words(filled):
            return ' '.join((*map(kwh, filled[first - 1:last]), 'sum', kwh(advance)))
        missing = [first <= period <= last for period in range(1, PERIODS + 1)]
        return line(f'fill of date {date}, category {category}, periods {first} to {last}, '
                    f'advance {kwh(advance)}',
                    self.ledger.fill(date, category, advance, missing, PERIODS), words)

    def coverage(self, date, category):
        def words(fresh7, blank7, fresh365, blank365, oldest):
            return (f'FRESH7 {fresh7} BLANK7 {blank7} FRESH365 {fresh365} BLANK365 {blank365} '
                    f'oldest {date_or_dash(oldest)}')
        return line(f'coverage of date {date}, category {category}',
                    self.ledger.coverage(date, category), words)


def first_calls():
    """The lines of first_calls: each call with its number and results, or the place."""
    ledger = opening(DURATION, 1, WINDOWS[:2], bytes((1, 1, 1, IMPORT, 1, 1, 0, 1)), (1, 1))
    mpan = valid_mpan(100000000000)
    body = pack('>HBI', 30, 1, 500) + pack('>HBI', 480, 1, 250)
    calls = [('open', lambda: ('ok',)),
             ('register', lambda: ledger.registration(mpan, 0, 0, 0, SENDER, 1, LIMIT)),
             ('receive', lambda: ledger.reception(SENDER, mpan, 0, DURATION, IMPORT, body)),
             ('run', lambda: ledger.run(0)), ('run', lambda: ledger.run(1)),
             ('totals', lambda: ledger.totals(1, 0)), ('cell', lambda: ledger.cell(0, 1, 3)),
             ('band', lambda: ledger.band(0, 1, 750, 750, 5)[:3])]
    for name, call in calls:
        answer = call()
        yield ' '.join(map(str, (name, *((0, *answer[1:]) if answer[0] == 'ok' else answer[1:]))))


def saved_size():
    """A header of six numbers, then the parts by docs/STORE.md."""
    meters, categories, dates = len(METERS), len(CATEGORIES), len(DAY_TYPES)
    settings = 40 + 8 * categories + dates
    numbers = (41 * meters + dates * meters * (1 + PERIODS) + dates * categories * PERIODS
               + 4 * categories * dates)
    return 8 * (6 + numbers) + settings


def refused_days():
    """A file with a day for each refusal, at the end two good ones; its last line has no end."""
    rows = [(FIRST + 1, 0, '00:30', 1, 5), (10 ** 13, 0, '00:30', 1, 5), (0, 0, '00:30', 1, 5),
            (UNKNOWN, 0, '00:30', 1, 5), (FIRST, 6, '00:30', 1, 5), (FIRST, 2 ** 32, '00:30', 1, 5),
            (FIRST, 0, '00:30', 1, 5), (FIRST, 0, '01:00', 15, 5),
            (FIRST, 1, '00:30', 0, 5), (FIRST, 2, '00:00', 1, 5), (FIRST, 3, '24:30', 1, 5),
            (FIRST, 4, '24:00', 14, LIMIT), (FIRST, 4, '23:59', 1, 5),
            (FIRST, 5, '00:30', 1, 5), (FIRST, 5, '01:00', 1, 5), (FIRST, 5, '00:30', 8, 5),
            (FIRST, 0, '00:30', 10, 0), (FIRST, 0, '01:00', 13, 1),
            (FIRST, 1, '00:30', 1, LIMIT + 1), (FIRST, 2, '00:30', 14, TOP)]
    # Days of more records than there are periods.
    ends = [f'{end // 60}:{end % 60}' for end in range(30, 1441, 30)]
    rows += [(FIRST, 3, end, 1, 5) for end in ends + ends]
    rows += [(FIRST, 4, end, 1, 5) for end in ends[:20] + ['24:01'] + ends]
    rows += [(FIRST, 5, end, 1, LIMIT) for end in ends] + [(FIRST, 0, '0024:0000', 7, 0)]
    return HEAD + ''.join(','.join(map(str, row)) + '\n' for row in rows)[:-1]


def unusable():
    """Days (None: no such file), where to save, and the reason to be given."""
    malformed = 'day.csv: line {} is not mpan,date,end,quality,Wh'
    good = f'{FIRST},0,00:30,1,5\n'
    yield None, 'store', 'day.csv: cannot be read'
    yield HEAD + good, 'none/store', 'none/store: cannot be written'
    yield HEAD + good, '/dev/full', '/dev/full: cannot be written'
    yield HEAD + good, '/dev/null', '/dev/null: is no store of this size and layout'
    for text in ('', '\n', HEAD[:-1], HEAD[1:], good, HEAD.replace(',Wh', '')):
        yield text, 'store', malformed.format(1)
    for row in ('', '1,0,00:30,1', '1,0,00:30,1,5,', '1,0,0030,1,5', '1,0,00:60,1,5',
                '1,0,25:00,1,5', '1,-1,00:30,1,5', '1,+1,00:30,1,5', '1,0,00:30,256,5',
                '1,0,00:30,1,4294967296', '1,0,00:30,1, 5', '1,0,00:30,,5', '1,0,00:30,1,5\r',
                '1,0,00:30,1,5\0', f'{10 ** 18},0,00:30,1,5', f'{2 ** 64 + 1},0,00:30,1,5',
                '1,0,00:30,1,0x5', '1,0,00:30,1,', '1'):
        yield HEAD + good + row + '\n', 'store', malformed.format(3)


def heard(program, days, store='store'):
    """How the program ends on these days, and the bytes that it saved."""
    with tempfile.TemporaryDirectory() as folder:
        folder = pathlib.Path(folder)
        if days is not None:
            (folder / 'day.csv').write_bytes(days.encode())
        ended = subprocess.run([program, 'day.csv', store], cwd=folder, capture_output=True,
                               encoding='latin-1', timeout=60)
        saved = folder / store
        return ended, saved.read_bytes() if saved.is_file() else b''


def differences(program, days, expected):
    """What is wrong on these days, as lines, and the bytes saved."""
    ended, saved = heard(program, days)
    lines = ended.stdout.split('\n')
    wrong = list(difflib.unified_diff(expected, lines, 'expected', 'heard', n=1, lineterm=''))
    if ended.returncode != 0 or ended.stderr:
        wrong.append(f'status {ended.returncode}, standard error: {ended.stderr}')
    if len(saved) != saved_size():
        wrong.append(f'{len(saved)} bytes saved, not {saved_size()}')
    return wrong, saved


def wrong_ends(program):
    """Unusable files after which the program does not end as it should."""
    for days, store, reason in unusable():
        ended, _ = heard(program, days, store)
        if (ended.returncode, ended.stderr) != (1, reason + '\n'):
            yield (f'expected: status 1, {reason}\nheard: status {ended.returncode}, '
                   f'{ended.stderr}on {days!r}')


def main():
    if not sys.argv[1:]:
        sys.exit(__doc__)
    programs, wrong = [], []
    for program in map(pathlib.Path, sys.argv[1:]):
        if program.stem != 'first_calls':
            programs.append(str(program.resolve()))
            continue
        ended = subprocess.run([program.resolve()], capture_output=True, text=True, timeout=60)
        lines = ended.stdout.split('\n')
        differs = list(difflib.unified_diff([*first_calls(), ''], lines, 'expected', 'heard', n=1,
                                            lineterm=''))
        if ended.returncode != 0 or ended.stderr:
            differs.append(f'status {ended.returncode}, standard error: {ended.stderr}')
        print(f'{program}: {"differs" if differs else f"{len(lines) - 1} lines agreed"}')
        wrong += differs
    for days in ((ROOT / 'examples' / 'day.csv').read_text(), refused_days()):
        expected = '\n'.join(Example(days).lines()).split('\n') + ['']
        stores = set()
        for program in programs:
            differs, saved = differences(program, days, expected)
            stores.add(saved)
            wrong += differs
            print(f'{program}: {"differs" if differs else f"{len(expected) - 1} lines agreed"}')
        if len(stores) > 1:
            wrong.append('the programs saved different stores')
    for program in programs:
        wrong += wrong_ends(program)
    print(''.join(text + '\n' for text in wrong[:40]), end='')
    return 1 if wrong else 0


if __name__ == '__main__':
    sys.exit(main())
