"""The paper's worked example, its marked list, a net, bands, coverage, remainders, a preview and
windows worked by hand, on the plain ledger.

    python3 worked_example.py
"""

from ledger import Window, mpan_good, opening, period_ending, rounded
from program import run

INPUT = bytes.fromhex('''
1201 1201 110101010101010001 101E0001 13 000000E8D4A51003 0000 0000 00 0007 01 00002710
14 0007 000000E8D4A51003 0000 1E 01 02 15001E01000001F4 1501E001000000FA
160000 160001 17000100 18000001 03''')

OUTPUT = '''\
10 ok
13 ok
14 ok
16 ok 2
16 ok 2
17 ok 0.750 0.500 0.250 1.500 1.000 0.500 2 273.750 2 0 46
18 no 15 0
'''


def reading(end, wh, quality=1):
    return end.to_bytes(2, 'big') + bytes([quality]) + wh.to_bytes(4, 'big')


def store(*categories, dates=1, meters=4):
    ledger = opening(30, meters, (), b''.join(map(bytes, categories)), [1] * dates)
    assert not isinstance(ledger, tuple), ledger
    return ledger


def marked_list():
    # MPANs, here and as the calls hear them.
    assert mpan_good(1000000000003) and not mpan_good(1000000000004)
    assert mpan_good(1010000000000) and not mpan_good(0)
    plain = (1, 1, 1, 1, 1, 0, 0, 0)
    ledger = store(plain)
    for mpan, heard in ((1000000000003, ('ok',)), (1000000000004, ('no', 6, 0)),
                        (1010000000000, ('ok',)), (0, ('no', 6, 0))):
        assert ledger.registration(mpan, 0, 0, 0, 7, 1, 10000) == heard

    # Halves up, and below a half down.
    assert rounded(5, 2) == 3 and rounded(4, 3) == 1

    # Ends at 30 minutes.
    assert period_ending(0, 30) is None and period_ending(1440, 30) == 48
    receive = lambda body: ledger.reception(7, 1000000000003, 0, 30, 1, body)
    assert receive(reading(0, 5)) == ('no', 1005, 1)
    assert receive(reading(1440, 5)) == ('ok',)
    assert ledger.run(0) == ('ok', 1)
    assert ledger.cell(0, 0, 48) == ('ok', 'A', 5, 1, 0, 0)

    # Window 2.
    assert Window(30, 450).periods(30) == list(range(2, 16))
    assert Window(30, 450).periods(15) == list(range(3, 31))

    # De-minimis 0 without readings and predecessor.
    ledger = store(plain)
    assert ledger.run(0) == ('ok', 0)
    assert ledger.cell(0, 0, 1) == ('ok', 'N', 0, 0, 65535, 0)

    # Group A has 100, group B 200 and 600, de-minimis 3: 300, not 250.
    ledger = store((1, 1, 1, 1, 1, 0, 0, 3), (1, 2, 1, 1, 1, 0, 0, 3))
    for mpan, category, wh in ((1000000000003, 0, 100), (1010000000000, 1, 200), (10, 1, 600)):
        assert ledger.registration(mpan, 0, 0, category, 7, 1, 10000) == ('ok',)
        assert ledger.reception(7, mpan, 0, 30, 1, reading(30, wh)) == ('ok',)
    assert ledger.run(0) == ('ok', 2)
    assert ledger.cell(0, 0, 1) == ledger.cell(0, 1, 1) == ('ok', 'D', 300, 3, 0, 0)

    # ANN of sum 1,000 over 3 days: one reading of 1,000, then two dates without a copy.
    assert rounded(1000 * 365, 3) == 121667
    ledger = opening(30, 1, (), bytes(plain), [3, 2, 1])
    assert ledger.registration(1000000000003, 0, 0, 0, 7, 1, 10000) == ('ok',)
    assert ledger.reception(7, 1000000000003, 0, 30, 1, reading(30, 1000)) == ('ok',)
    assert [ledger.run(date) for date in range(3)] == [('ok', 1), ('ok', 0), ('ok', 0)]
    assert ledger.totals(2, 0) == ('ok', 0, 0, 0, 1000, 0, 0, 3, 121667, 3, 0, 48)


def net_of_panels():
    """Import and export of groups A and B; the export of B needs two readings and has no shape."""
    categories = [(1, group, 1, quantity, 1, 0, 0, least)
                  for group, quantity, least in ((1, 1, 1), (1, 2, 1), (2, 1, 1), (2, 2, 2))]
    ledger = store(*categories, dates=2)
    for mpan, category, values in ((1000000000003, 0, (400, 100, 50)),
                                   (1010000000000, 1, (150, 350)), (10, 2, (200,))):
        quantity = categories[category][3]
        body = b''.join(reading(30 * period, wh) for period, wh in enumerate(values, 1))
        assert ledger.registration(mpan, 0, 0, category, 7, 1, 2 ** 32 - 1) == ('ok',)
        assert ledger.reception(7, mpan, 0, 30, quantity, body) == ('ok',)
    assert ledger.run(0) == ('ok', 8)
    assert ([ledger.cell(0, 2, period)[1:3] for period in range(1, 5)]
            == [('A', 200), ('D', 100), ('D', 50), ('N', 0)])
    assert all(ledger.cell(0, 3, period)[1] == 'N' for period in range(1, 49))

    def net(date, category, all_groups):
        return ledger.net(date, category, all_groups, 48, 48)

    def day(nets, marked_from):
        """The nets and marks of a day: nets, then 0; unmarked, then marked from this period on."""
        return nets + [0] * (48 - len(nets)), [0] * (marked_from - 1) + [1] * (49 - marked_from)

    assert net(0, 0, False) == ('ok', 50, 50, *day([250, -250, 50], 3))
    assert net(0, 2, False) == ('ok', 350, 350, *day([200, 100, 50], 1))
    for category in (0, 2):
        assert net(0, category, True) == ('ok', 400, 400, *day([450, -150, 100], 1))
    # Date 1 is not run; what there is no net of is 26 all the same, and a short list is 1.
    assert net(1, 1, False) == net(1, 1, True) == ('no', 26, 0)
    assert net(1, 0, False) == net(1, 0, True) == ('no', 14, 0)
    assert ledger.net(2, 4, False, 47, 48) == ledger.net(2, 4, True, 48, 47) == ('no', 1, 0)
    # Its run copies date 0, and copies are not marked.
    assert ledger.run(1) == ('ok', 8)
    assert net(1, 0, False) == ('ok', 50, 100, *day([250, -250, 50], 3))


def days_like_the_coming_one():
    """Dates by their TOT: one of another day type among them, and the last not run at first."""
    ledger = opening(30, 1, (), bytes((1, 1, 1, 1, 1, 0, 0, 1)), [1, 2, 1, 1, 1])
    assert ledger.registration(1000000000003, 0, 0, 0, 7, 1, 2 ** 32 - 1) == ('ok',)
    for date, wh in enumerate((700, 700, 900, 650)):
        assert ledger.reception(7, 1000000000003, date, 30, 1, reading(30, wh)) == ('ok',)
        assert ledger.run(date) == ('ok', 1)
    assert ledger.band(0, 1, 650, 700, 5) == ('ok', 2, 2, [0, 3])
    assert ledger.band(0, 1, 0, 1000, 2) == ('ok', 2, 3, [0, 2])
    assert ledger.band(0, 1, 701, 700, 5) == ('ok', 0, 0, [])
    # Date 4 copies date 3.
    assert ledger.run(4) == ('ok', 1)
    assert ledger.band(0, 1, 650, 650, 5) == ('ok', 2, 2, [3, 4])


def real_part_of_a_week():
    """Coverage of the run dates among nine: three readings on the first, then one on the second."""
    ledger = store((1, 1, 1, 1, 1, 0, 0, 1), dates=9, meters=1)
    assert ledger.registration(1000000000003, 0, 0, 0, 7, 1, 2 ** 32 - 1) == ('ok',)

    def receive(date, *values):
        body = b''.join(reading(30 * period, wh) for period, wh in enumerate(values, 1))
        assert ledger.reception(7, 1000000000003, date, 30, 1, body) == ('ok',)

    receive(0, 10, 20, 30)
    receive(4, 40)
    assert [ledger.run(date) for date in (0, 4, 8)] == [('ok', 3), ('ok', 3), ('ok', 3)]
    assert ledger.coverage(0, 0) == ('ok', 3, 45, 3, 45, 0)
    assert ledger.coverage(4, 0) == ('ok', 4, 90, 4, 90, 0)
    assert ledger.coverage(8, 0) == ('ok', 1, 90, 4, 135, 0)
    assert ledger.coverage(1, 0) == ('no', 14, 0) and ledger.coverage(9, 0) == ('no', 9, 0)
    # Only the first reading comes again: two cells of each date are lost.
    receive(0, 10)
    assert ledger.run(0) == ('ok', 6)
    assert ledger.coverage(0, 0) == ('ok', 1, 47, 1, 47, 0)
    assert ledger.coverage(4, 0) == ('ok', 2, 94, 2, 94, 4)
    assert ledger.coverage(8, 0) == ('ok', 1, 94, 2, 141, 4)


def what_rounding_dropped():
    """Three meters of one category with 10, 11 and 13 Wh; the third has 12 Wh, then nothing."""
    ledger = store((1, 1, 1, 1, 1, 0, 0, 1), (1, 2, 1, 1, 1, 0, 0, 1), dates=2, meters=3)
    meters = 1000000000003, 1010000000000, 10
    for mpan in meters:
        assert ledger.registration(mpan, 0, 0, 0, 7, 1, 10000) == ('ok',)

    def receive(mpan, *values):
        assert ledger.reception(7, mpan, 0, 30, 1, b''.join(reading(30, wh) for wh in values))[0] \
            == 'ok'

    def cells():
        return [ledger.cell(date, category, 1) for date in (0, 1) for category in (0, 1)]

    def of(count, remainder):
        return [('ok', flag, 11, count, 0, remainder) for flag in 'ADEE']

    for mpan, wh in zip(meters, (10, 11, 13)):
        receive(mpan, wh)
    assert [ledger.run(0), ledger.run(1)] == [('ok', 2), ('ok', 2)]
    assert cells() == of(3, 1)             # 34 = 3 x 11 + 1
    receive(meters[2], 12)
    assert ledger.run(0) == ('ok', 4) and cells() == of(3, 0)
    receive(meters[2])
    assert ledger.run(0) == ('ok', 4) and cells() == of(2, -1)
    assert ledger.cell(0, 0, 2) == ('ok', 'N', 0, 0, 65535, 0)


def before_publishing():
    """A rerun of date 0 is looked at before it is done: 6 and 9 Wh in place of 5."""
    ledger = store((1, 1, 1, 1, 1, 0, 0, 1), (2, 0, 0, 1, 1, 0, 0, 1), dates=3, meters=1)
    assert ledger.registration(1000000000003, 0, 0, 0, 7, 1, 10000) == ('ok',)

    def receive(*values):
        body = b''.join(reading(30 * period, wh) for period, wh in enumerate(values, 1))
        assert ledger.reception(7, 1000000000003, 0, 30, 1, body) == ('ok',)

    receive(5)
    assert [ledger.run(0), ledger.run(1)] == [('ok', 1), ('ok', 1)]
    receive(6, 9)
    blank, past = ('N', 0, 0, 65535, 0), ['past', 'the', 'cells']
    draft = ['any'] * 96 + past
    assert ledger.preview(draft, 0) == ('ok', 4)
    new = [('A', 6, 1, 0, 0), ('A', 9, 1, 0, 0)] + 46 * [blank]
    assert draft == new + 48 * [blank] + past
    assert ledger.cell(0, 0, 1) == ('ok', 'A', 5, 1, 0, 0)
    assert ledger.cell(1, 0, 1) == ('ok', 'E', 5, 1, 0, 0)
    assert ledger.row(draft, 0, 0, 1) == ledger.row(draft, 2, 0, 1) == ('ok', new)
    assert ledger.row(draft, 0, 0, 0) == ('ok', [('A', 5, 1, 0, 0)] + 47 * [blank])
    assert ledger.row(draft, 2, 0, 0) == ('no', 14, 0)
    assert ledger.row(draft, 3, 0, 0) == ledger.row(draft, 3, 0, 1) == ('no', 9, 0)
    assert ledger.preview(draft[:95], 3) == ledger.row(draft[:95], 3, 2, 1) == ('no', 18, 0)
    assert ledger.run(0) == ('ok', 4) and ledger.row(draft, 0, 0, 0) == ('ok', new)


def off_peak_hours():
    """Windows of any hours, 10 Wh in every period."""
    def opened(duration, minutes, window):
        return opening(duration, 1, minutes, bytes((1, 1, 1, 1, 1, window, 0, 1)), [1])

    def first_three(duration, minutes, window):
        ledger = opened(duration, minutes, window)
        assert ledger.registration(1000000000003, 0, 0, 0, 7, 1, 10000) == ('ok',)
        body = b''.join(reading(end, 10) for end in range(duration, 1441, duration))
        assert ledger.reception(7, 1000000000003, 0, duration, 1, body) == ('ok',)
        assert ledger.run(0) == ('ok', 1440 // duration)
        ok, *totals = ledger.totals(0, 0)
        assert ok == 'ok' and totals[:3] == totals[3:6]
        return totals[:3]

    assert first_three(30, (600, 720), 1) == [480, 40, 440]
    assert first_three(30, (0, 420, 1380, 1440), 2) == [480, 20, 460]
    assert first_three(15, (45, 75), 1) == [960, 20, 940]
    assert first_three(30, (0, 1440), 1) == [480, 480, 0]
    assert first_three(30, (0, 1440), 0) == first_three(30, (), 0) == [480, 0, 0]
    for minutes, place in (((45, 75), 1), ((0, 420, 450, 450), 2), ((0, 420, 30), 2),
                           ((0, 30, 60, 30, 0), 2), ((0, 30) * 9, 9), ((0, 30) * 10, 9)):
        assert opened(30, minutes, 0) == ('no', 19, place)
    # One window and a category with window 2; a list of none and one with window 1.
    assert opened(30, (0, 30), 2) == opened(30, (), 1) == ('no', 4, 1)
    assert opened(30, (0, 30) * 8, 9) == ('no', 4, 1)


if __name__ == '__main__':
    assert run(INPUT) == OUTPUT
    marked_list()
    net_of_panels()
    days_like_the_coming_one()
    real_part_of_a_week()
    what_rounding_dropped()
    before_publishing()
    off_peak_hours()
    print('worked example, marked list, net, bands, coverage, remainders, preview and windows '
          'agree')
