"""Compares a command program with the plain ledger's, byte for byte.

    python3 compare.py PROGRAM [--profile small|wide] [--streams N] [--commands N]
                       [--seed S] [--jobs J]
    python3 compare.py PROGRAM --fixed DIRECTORY..

PROGRAM is a command line, such as './program' or 'python3 program.py'. Streams
have the seeds S, S + 1 and so on. Exit status 1 at the first difference, or if
an answer, flag or way to `bad` that can be reached was not. With --fixed the
program is given DIRECTORY/stdin and has to write DIRECTORY/stdout.
"""

import argparse
import pathlib
import shlex
import shutil
import subprocess
import sys
import time
from collections import Counter
from functools import partial
from itertools import zip_longest
from multiprocessing import Pool
from typing import NamedTuple

from program import PROFILES, answers
from streams import stream

COMMANDS = ('10', '13', '14', '16', '17', '18')
NUMBERS = {'10': [1, 3, 4, 5],
           '13': [1, 6, 8, 9, 10, 11, 16],
           '14': [1, 6, 7, 9, 13, 1001, 1002, 1004, 1005, 1006, 1008, 1009, 1011, 1012],
           '16': [1, 9],
           '17': [1, 9, 14, 15],
           '18': [1, 9, 14, 15]}
FLAGS = 'ADEN'
SIGNS = ('above 0', 'below 0')
MINUTES = (719, 720, 721)                  # of registrations
CAUSES = ('too many 11', 'too many 12', 'unknown byte', '15 not due',
          'another byte where 15 due', 'end where 15 due', 'cut operand')


def reachable(profile):
    """All that a test must have met at least once."""
    keys = [(command, answer) for command in COMMANDS for answer in ('ok', *NUMBERS[command])]
    keys += [('flag', flag) for flag in FLAGS]
    keys += [('remainder', sign) for sign in SIGNS]
    keys += [('minute', minute) for minute in MINUTES]
    keys += [('bad', cause) for cause in CAUSES]
    if profile == 'wide':
        keys += [('13', 12), ('ANN', 'of 365 days'), ('copy', 'over 100 dates')]
    return keys


class Result(NamedTuple):
    seed: int
    answered: int
    reached: Counter
    ours: float                            # processor seconds to make and answer the stream
    theirs: float                          # seconds the program took
    difference: str


def reached_by(data, expected):
    reached = Counter()
    for answer in expected:
        words = answer.line.split()
        if answer.cause:
            reached['bad', answer.cause] += 1
        elif words[1] == 'no':
            reached[words[0], int(words[2])] += 1
        else:
            reached[words[0], 'ok'] += 1
            if words[0] == '13':
                minute = int.from_bytes(data[answer.begin + 11:answer.begin + 13], 'big')
                reached['minute', minute] += minute in MINUTES
            elif words[0] == '18':
                reached['flag', words[2]] += 1
                if words[6] != '0':
                    reached['remainder', SIGNS[words[6].startswith('-')]] += 1
                date = int.from_bytes(data[answer.begin + 1:answer.begin + 3], 'big')
                if words[2] == 'E' and date - int(words[5]) > 100:
                    reached['copy', 'over 100 dates'] += 1
            elif words[0] == '17' and words[10] == '365':
                reached['ANN', 'of 365 days'] += 1
    return reached


def describe(data, expected, heard):
    """The first line that differs, with the commands around it."""
    ours, theirs = [answer.line for answer in expected], heard.decode('latin-1').split('\n')
    if theirs[-1] == '':                   # after the last line's end
        theirs.pop()
    at = next((number for number, (one, other) in enumerate(zip_longest(ours, theirs))
               if one != other), None)
    if at is None:
        return 'only the end of the last line differs'
    lines = [f'line {at + 1}',
             f'  expected: {ours[at] if at < len(ours) else "(no more)"}',
             f'  heard:    {theirs[at] if at < len(theirs) else "(no more)"}',
             'commands around it, and what they must answer:']
    for number in range(max(0, at - 3), min(len(expected), at + 2)):
        begin, end, line, cause = expected[number]
        shown = data[begin:end].hex(' ')
        if len(shown) > 400:
            shown = shown[:400] + ' ...'
        mark = '>' if number == at else ' '
        lines.append(f'{mark} {shown}  ->  {line}{" (" + cause + ")" if cause else ""}')
    return '\n'.join(lines)


def length_of(seed, commands):
    """Some streams are long, so that commands lie across the blocks that a program reads."""
    return 25 * commands if seed % 200 == 0 else commands


def compare(program, profile, commands, seed):
    begin = time.process_time()
    data = stream(seed, profile, length_of(seed, commands))
    expected = answers(data, PROFILES[profile])
    text = ''.join(answer.line + '\n' for answer in expected).encode()
    ours = time.process_time() - begin
    difference, begin = '', time.perf_counter()
    try:
        heard = subprocess.run(program, input=data, capture_output=True, timeout=120)
        if heard.stdout != text:
            difference = describe(data, expected, heard.stdout)
        if heard.returncode < 0:
            difference += f'\nended by signal {-heard.returncode}'
        if difference and heard.stderr:
            difference += '\nstandard error: ' + heard.stderr[:500].decode('latin-1')
    except subprocess.TimeoutExpired:
        difference = 'no end within 120 seconds'
    theirs = time.perf_counter() - begin
    answered = sum(not answer.cause for answer in expected)
    return Result(seed, answered, reached_by(data, expected), ours, theirs, difference)


def compare_fixed(program, directory):
    data, expected = ((directory / name).read_bytes() for name in ('stdin', 'stdout'))
    heard = subprocess.run(program, input=data, capture_output=True, timeout=120)
    agreed = heard.returncode == 0 and heard.stdout == expected
    print(f'{directory}: {"agreed" if agreed else "differs"}')
    return agreed


def print_table(reached):
    print('answer' + ''.join(f'{command:>9}' for command in COMMANDS))
    for answer in ('ok', *sorted({n for key, n in reached if key in COMMANDS and n != 'ok'})):
        counts = [reached[command, answer] or '' for command in COMMANDS]
        print(f'{answer:<6}' + ''.join(f'{count:>9}' for count in counts))
    for kind in ('flag', 'remainder', 'minute', 'bad', 'ANN', 'copy'):
        for (key, name), count in sorted(reached.items(), key=str):
            if key == kind:
                print(f'{kind} {name}: {count}')


def main():
    parser = argparse.ArgumentParser(description='Compares a command program with the ledger.')
    parser.add_argument('program', help='command line of the program')
    parser.add_argument('--profile', choices=PROFILES, default='small')
    parser.add_argument('--streams', type=int, default=2000)
    parser.add_argument('--commands', type=int, default=200)
    parser.add_argument('--seed', type=int, default=1)
    parser.add_argument('--jobs', type=int, default=2)
    parser.add_argument('--fixed', type=pathlib.Path, nargs='+', metavar='DIRECTORY')
    options = parser.parse_args()
    program = shlex.split(options.program)
    if not program or shutil.which(program[0]) is None:
        parser.error(f'no such program: {options.program}')
    if options.fixed:
        return 0 if all([compare_fixed(program, directory) for directory in options.fixed]) else 1
    work = partial(compare, program, options.profile, options.commands)
    seeds = range(options.seed, options.seed + options.streams)
    begin, reached = time.perf_counter(), Counter()
    answered = ours = theirs = 0
    with Pool(options.jobs) as pool:       # leaving it stops what is still under way
        for result in pool.imap(work, seeds, chunksize=2):
            if result.difference:
                print(f'stream with seed {result.seed} differs: {result.difference}')
                print(f'to have the stream: python3 streams.py --seed {result.seed} '
                      f'--profile {options.profile} '
                      f'--commands {length_of(result.seed, options.commands)}')
                return 1
            answered += result.answered
            ours += result.ours
            theirs += result.theirs
            reached += result.reached
    print(f'{len(seeds)} streams with {answered} commands agreed, profile {options.profile}')
    print(f'seconds: {time.perf_counter() - begin:.1f} in all; summed over {options.jobs} jobs, '
          f'{ours:.1f} of processor for streams and expected answers, {theirs:.1f} for the program')
    print_table(reached)
    missing = [' '.join(map(str, key)) for key in reachable(options.profile) if not reached[key]]
    if missing:
        print('reachable but not reached: ' + ', '.join(missing))
        return 1
    return 0


if __name__ == '__main__':
    sys.exit(main())
