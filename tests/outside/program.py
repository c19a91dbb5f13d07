"""The command program on the plain ledger: bytes in, text out.

    python3 program.py [--profile small|wide] < stream

The small profile is the program of the paper; the wide one has larger parts, so
that a ninth registration, long chains of copies and a full year are reached.
"""

import argparse
import sys
from typing import NamedTuple

from ledger import Ledger, opening


class Limits(NamedTuple):
    """What the program has parts for, and how many 12s it collects."""
    categories: int
    meters: int
    date_periods: int
    day_types: int


WINDOWS = 0, 420, 30, 450                  # minutes: 00:00 to 07:00, 00:30 to 07:30
PROFILES = {'small': Limits(3, 4, 384, 8), 'wide': Limits(8, 8, 370 * 96, 370)}


class Bad(Exception):
    """The input breaks the command form; its text says how."""


class Answer(NamedTuple):
    """A printed line, the stretch of input it answers, and for `bad` the cause."""
    begin: int
    end: int
    line: str
    cause: str = ''


def kwh(wh):
    return f'{wh // 1000}.{wh % 1000:03d}'


class Program:
    def __init__(self, data, limits):
        self.data = data
        self.at = 0
        self.limits = limits
        self.ledger = None                 # until an opening is accepted
        self.categories = bytearray()      # collected 11s
        self.day_types = bytearray()       # collected 12s

    def answers(self):
        while self.at < len(self.data):
            begin = self.at
            try:
                line = self.command()
            except Bad as bad:
                yield Answer(begin, self.at, 'bad', str(bad))
                return
            if line is not None:
                yield Answer(begin, self.at, line)

    def take(self, width):
        if self.at + width > len(self.data):
            raise Bad('cut operand')
        self.at += width
        return self.data[self.at - width:self.at]

    def numbers(self, *widths):
        return [int.from_bytes(self.take(width), 'big') for width in widths]

    def command(self):
        """Reads one command; gives its line, or None for those that print nothing."""
        byte, = self.take(1)
        if byte == 0x11:
            if len(self.categories) == 8 * self.limits.categories:
                raise Bad('too many 11')
            self.categories += self.take(8)
            return None
        if byte == 0x12:
            if len(self.day_types) == self.limits.day_types:
                raise Bad('too many 12')
            self.day_types += self.take(1)
            return None
        if byte == 0x10:
            answer = self.open(*self.numbers(1, 2))
        elif byte == 0x13:
            answer = self.ask(Ledger.registration, *self.numbers(8, 2, 2, 1, 2, 1, 4))
        elif byte == 0x14:
            *head, count = self.numbers(2, 8, 2, 1, 1, 1)
            answer = self.ask(Ledger.reception, *head, self.body(count))
        elif byte == 0x16:
            answer = self.ask(Ledger.run, *self.numbers(2))
        elif byte == 0x17:
            answer = self.ask(Ledger.totals, *self.numbers(2, 1))
            if answer[0] == 'ok':
                *six, days7, annual, days, fresh, blank = answer[1:]
                answer = ('ok', *map(kwh, six), days7, kwh(annual), days, fresh, blank)
        elif byte == 0x18:
            answer = self.ask(Ledger.cell, *self.numbers(2, 1, 1))
            if answer[0] == 'ok':
                flag, value, count, origin, remainder = answer[1:]
                origin = '-' if origin == 65535 else origin
                answer = 'ok', flag, kwh(value), count, origin, remainder
        else:
            raise Bad('15 not due' if byte == 0x15 else 'unknown byte')
        return ' '.join(map(str, (f'{byte:02X}', *answer)))

    def body(self, count):
        """The records of the 15s that a 14 has announced."""
        body = bytearray()
        for _ in range(count):
            if self.at == len(self.data):
                raise Bad('end where 15 due')
            if self.take(1) != b'\x15':
                raise Bad('another byte where 15 due')
            body += self.take(7)
        return body

    def open(self, duration, meters):
        answer = opening(duration, meters, WINDOWS, bytes(self.categories), self.day_types)
        # Collected 11s and 12s are used up by a refused opening too.
        self.categories, self.day_types = bytearray(), bytearray()
        if not isinstance(answer, Ledger):
            return answer
        if (meters > self.limits.meters
                or answer.dates * answer.periods > self.limits.date_periods):
            return 'no', 1, 0              # empty parts are lent; tested last
        self.ledger = answer
        return ('ok',)

    def ask(self, call, *operands):
        if self.ledger is None:
            return 'no', 1, 0
        return call(self.ledger, *operands)


def answers(data, limits=PROFILES['small']):
    return list(Program(data, limits).answers())


def run(data, limits=PROFILES['small']):
    return ''.join(answer.line + '\n' for answer in answers(data, limits))


def main():
    parser = argparse.ArgumentParser(description='The command program on the plain ledger.')
    parser.add_argument('--profile', choices=PROFILES, default='small')
    options = parser.parse_args()
    sys.stdout.write(run(sys.stdin.buffer.read(), PROFILES[options.profile]))


if __name__ == '__main__':
    main()
