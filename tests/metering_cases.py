#!/usr/bin/env python3
"""Cases for the lower crate, with the answers that the scope document asks for.

usage: tests/metering_cases.py DIRECTORY

Writes DIRECTORY/stdin, a case to a line, and DIRECTORY/stdout, what metering_test has to write
for them. Nothing here is taken from the Rattle code: each rule is written again, from the
document, in another way where there is one.
"""
import pathlib
import sys
from fractions import Fraction
from math import floor

WEIGHTS = (3, 5, 7, 13, 17, 19, 23, 29, 31, 37, 41, 43)
CLOCK = (("00:00", "00:00"), ("00:00", "07:00"), ("00:30", "07:30"))  # none, and METH005's two
DAY = 24 * 60
U64 = 2**64 - 1
LARGEST_YEARLY = U64 // 365  # the largest sum whose product with 365 fits 64 bits

# by segment, the first byte of a category record: GSP group, domestic, quantity, connection
SEGMENTS = {
    1: [set(range(1, 15)), {1, 2}, {1, 2}, {1, 2, 3, 4}],
    2: [{0}, {0}, {1, 2}, {1, 2, 3, 4}],
}


def check_digit(first_twelve):
    digits = [int(c) for c in f"{first_twelve:012d}"]
    return sum(d * w for d, w in zip(digits, WEIGHTS)) % 11 % 10


def mpan_good(number):
    text = f"{number:013d}"
    return number != 0 and len(text) == 13 and check_digit(int(text[:12])) == int(text[12])


def rounded(value):
    """The nearest whole number, halves up."""
    return floor(value + Fraction(1, 2))


def minute(clock):
    hours, minutes = clock.split(":")
    return int(hours) * 60 + int(minutes)


def period_closed_by(duration, end):
    ends = {j * duration: j for j in range(1, DAY // duration + 1)}
    return ends.get(end, 0)


def wholly_within(duration, start, end, period):
    return all(start <= m < end for m in range((period - 1) * duration, period * duration))


def window_good(duration, start, end):
    """From the end of one period, or the day's beginning, to the end of a later one."""
    edges = range(0, DAY + 1, duration)
    return start in edges and end in edges and start < end


def stretch(duration, start, end):
    """How many periods come before those between the minutes, and how many these are."""
    periods = [j for j in range(1, DAY // duration + 1) if wholly_within(duration, start, end, j)]
    return (periods[0] - 1 if periods else 0), len(periods)


def category_good(record, windows):
    fields = SEGMENTS.get(record[0])
    if fields is None or record[5] not in range(windows + 1 if record[0] == 1 else 1):
        return False
    return all(b in allowed for b, allowed in zip(record[1:5], fields))


def yes(answer):
    return "yes" if answer else "no"


class Cases:
    def __init__(self):
        self.given = []
        self.wanted = []

    def add(self, kind, operands, shown, *answers):
        padded = list(operands) + [0] * (3 - len(operands))
        self.given.append(" ".join([kind] + [f"{n:016x}" for n in padded]))
        self.wanted.append(" ".join(str(word) for word in (*shown, *answers)))

    def mpan(self, number):
        self.add("m", [number], ["mpan", number], yes(mpan_good(number)))

    def average(self, total, count):
        value = rounded(Fraction(total, count))
        self.add("a", [total, count], ["average", total, count], value, total - value * count)

    def annual(self, total, days):
        figure = total if days == 365 else rounded(Fraction(total * 365, days))
        self.add("y", [total, days], ["annual", total, days], figure)

    def duration(self, duration):
        shown = ["duration", duration, yes(duration in (15, 30))]
        self.add("d", [duration], shown, DAY // duration)

    def end(self, duration, end):
        self.add("e", [duration, end], ["end", duration, end], period_closed_by(duration, end))

    def window(self, duration, start, end):
        self.add("w", [duration, start, end], ["window", duration, start, end],
                 yes(window_good(duration, start, end)), *stretch(duration, start, end))

    def between(self, low, high, x):
        self.add("b", [low, high, x], ["between", low, high, x], yes(x in range(low, high + 1)))

    def in_range(self, x):
        answers = [yes(1 <= x <= most) for most in (1024, 64, 800, 16)]
        self.add("r", [x], ["range", x], *answers)

    def category(self, record, windows=2):
        number = int.from_bytes(bytes(record), "big")
        self.add("c", [number, windows], ["category", f"{number:016x}", windows],
                 yes(category_good(record, windows)))


def pseudo_random(seed):
    """A fixed sequence that no release of Python can change."""
    state = seed
    while True:
        state = (state * 6364136223846793005 + 1442695040888963407) % 2**64
        yield state >> 16


def mpan_cases(cases):
    # the marked ones, then the ends of the range
    for number in (1000000000003, 1000000000004, 1010000000000, 0):
        cases.mpan(number)
    for number in (1, 9, 10, 9999999999998, 9999999999999, 10000000000000, 10**13 + 3, U64):
        cases.mpan(number)
    # each weight alone: one digit of twelve, with its check digit and with the next
    for place in range(12):
        for digit in (1, 9):
            first = digit * 10**place
            good = check_digit(first)
            cases.mpan(first * 10 + good)
            cases.mpan(first * 10 + (good + 1) % 10)
    numbers = pseudo_random(5003)
    for _ in range(20):
        first = next(numbers) % 10**12
        good = first * 10 + check_digit(first)
        cases.mpan(good)
        cases.mpan(good + 10 ** (next(numbers) % 14))


def average_cases(cases):
    cases.average(5, 2)
    cases.average(4, 3)
    for total in range(0, 9):
        for count in range(1, 6):
            cases.average(total, count)
    for total in (U64 - 1, U64):
        for count in (1, 2, 3, 1024, 2**63, U64 - 1, U64):
            cases.average(total, count)
    for count in (2**63, U64):
        cases.average(count // 2, count)
        cases.average(count // 2 + 1, count)


def annual_cases(cases):
    cases.annual(1000, 3)
    for days in (1, 2, 3, 364, 365, 366, 800, U64):
        for total in (0, 1, 1000, LARGEST_YEARLY - 1, LARGEST_YEARLY):
            cases.annual(total, days)


def calendar_cases(cases):
    for duration in (1, 14, 15, 16, 29, 30, 31, 60, 1440, 1441, U64):
        cases.duration(duration)
    for duration in (15, 30):
        ends = [j * duration for j in range(0, DAY // duration + 2)]
        near = [e + step for e in (duration, 720, DAY) for step in (-1, 1)]
        for end in ends + near + [65535, 2 * DAY, U64]:
            cases.end(duration, end)
    for duration in (15, 30):
        for window in CLOCK:
            cases.window(duration, *(minute(clock) for clock in window))
        # minutes on the grid, beside it, at the day's end and past it, in either order
        near = [e + step for e in (duration, 450, DAY - duration, DAY) for step in (-1, 0, 1)]
        minutes = sorted({0, 45, 75, *near, DAY + duration, 65535, 65536 + 420, U64})
        for start in minutes:
            for end in minutes:
                cases.window(duration, start, end)


def range_cases(cases):
    for x in (0, 1, 2, 15, 16, 17, 63, 64, 65, 799, 800, 801, 1023, 1024, 1025, U64):
        cases.in_range(x)
    for low, high in ((0, 0), (1, 1), (3, 5), (5, 3), (0, U64), (U64, U64)):
        for x in sorted({0, max(0, low - 1), low, high, min(U64, high + 1), U64}):
            cases.between(low, high, x)


def category_cases(cases):
    smart = [1, 1, 1, 1, 1, 1, 0, 0]
    advanced = [2, 0, 0, 1, 1, 0, 0, 0]
    for base in (smart, advanced):
        cases.category(base)
        for place in range(8):
            for value in (0, 1, 2, 3, 4, 5, 13, 14, 15, 255):
                record = list(base)
                record[place] = value
                cases.category(record)
    # a window by its place among none to eight, among more than a byte counts, and the next one
    for windows in (0, 1, 2, 3, 7, 8, 255, 256, U64):
        for window in sorted({0, 1, 2, 3, 7, 8, 9, 254, 255}):
            cases.category([1, 1, 1, 1, 1, window, 0, 0], windows)
        cases.category([2, 0, 0, 1, 1, 1, 0, 0], windows)
    cases.category([1, 14, 2, 2, 4, 2, 255, 255])
    cases.category([2, 0, 0, 2, 4, 0, 255, 255])
    cases.category([0] * 8)
    cases.category([255] * 8)


def main():
    if len(sys.argv) != 2:
        sys.exit(__doc__)
    folder = pathlib.Path(sys.argv[1])
    folder.mkdir(parents=True, exist_ok=True)
    cases = Cases()
    for group in (mpan_cases, average_cases, annual_cases, calendar_cases, range_cases, category_cases):
        group(cases)
    (folder / "stdin").write_text("".join(f"{line}\n" for line in cases.given))
    (folder / "stdout").write_text("".join(f"{line}\n" for line in cases.wanted))


if __name__ == "__main__":
    main()
