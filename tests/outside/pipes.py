"""What a compiled command program does with its input and output themselves: slow and closed readers, a full disk, input that is
late, comes in small pieces or cannot be read. No contract can say what a read brings and what a write does.

    pipes.py PROGRAM
"""

import fcntl
import os
import random
import signal
import subprocess
import sys
import tempfile
import threading
import time

from program import run as outside
from streams import stream

# A run before any opening: three bytes in, ten out. The output is many times what a pipe or a block holds.
COMMAND = bytes.fromhex('160000')
LINE = b'16 no 1 0\n'
MANY = 60000
STREAM = COMMAND * MANY
ANSWER = LINE * MANY

WAIT = 60  # seconds after which a program counts as stuck


def non_blocking(descriptor):
    fcntl.fcntl(descriptor, fcntl.F_SETFL, fcntl.fcntl(descriptor, fcntl.F_GETFL) | os.O_NONBLOCK)


def small_pipe():
    reader, writer = os.pipe()
    fcntl.fcntl(writer, fcntl.F_SETPIPE_SZ, 4096)
    return reader, writer


class Run:
    """One run of the program, its standard error gathered in a file."""

    def __init__(self, program, stdin, stdout, ignoring_sigpipe=False):
        self.errors = tempfile.TemporaryFile()
        # Python itself ignores SIGPIPE, and hands that on unless it restores signals.
        self.process = subprocess.Popen([program], stdin=stdin, stdout=stdout, stderr=self.errors, restore_signals=not ignoring_sigpipe)

    def end(self):
        try:
            status = self.process.wait(timeout=WAIT)
        except subprocess.TimeoutExpired:
            self.process.kill()
            status = 'stuck'
        self.errors.seek(0)
        return status, self.errors.read()


def file_with(content):
    file = tempfile.TemporaryFile()
    file.write(content)
    file.seek(0)
    return file


def read_slowly(reader, size, pause):
    got = b''
    while piece := os.read(reader, size):
        got += piece
        if pause and len(got) < 300000:
            time.sleep(pause)
    os.close(reader)
    return got


def slow_reader(program, blocking):
    """Every byte arrives, in order, at a reader that is slower than the program."""
    reader, writer = small_pipe()
    if not blocking:
        non_blocking(writer)
    run = Run(program, file_with(STREAM), writer)
    os.close(writer)
    got = read_slowly(reader, 5000, 0.002)
    return got == ANSWER and run.end() == (0, b'')


def full_disk(program):
    """A failed write ends the program, and one line says so; the rest of the input is not asked for."""
    reader, writer = os.pipe()
    with open('/dev/full', 'wb') as full:
        run = Run(program, reader, full)
    os.close(reader)
    os.write(writer, COMMAND)  # and no end of the input
    try:
        return run.end() == (0, b'standard output: No space left on device\n')
    finally:
        os.close(writer)


def full_while_writing(program):
    """A file that may grow no further: what is in it is the start of the answer, and nothing stands behind a gap."""
    limit = 100000
    with tempfile.TemporaryFile() as file:
        errors = tempfile.TemporaryFile()
        limited = f'trap "" XFSZ; ulimit -f {limit // 1000}; exec "$0"'
        process = subprocess.Popen(['bash', '-c', limited, program], stdin=file_with(STREAM), stdout=file, stderr=errors)
        process.wait()
        file.seek(0)
        errors.seek(0)
        got = file.read()
        return 0 < len(got) < len(ANSWER) and ANSWER.startswith(got) and errors.read() == b'standard output: File too large\n'


def closed_reader(program, ignoring_sigpipe):
    """A reader that is gone makes the write fail, whether or not the caller ignores SIGPIPE."""
    reader, writer = small_pipe()
    run = Run(program, file_with(STREAM), writer, ignoring_sigpipe)
    os.close(writer)
    started = os.read(reader, 100)
    os.close(reader)
    return ANSWER.startswith(started) and run.end() == (0, b'standard output: Broken pipe\n')


def directory_as_input(program):
    """A failed read is not the end of the input: no `bad`, no answer, and one line on standard error."""
    directory = os.open('/', os.O_RDONLY)
    output = tempfile.TemporaryFile()
    run = Run(program, directory, output)
    os.close(directory)
    ended = run.end()
    output.seek(0)
    return ended == (0, b'standard input: Is a directory\n') and output.read() == b''


def fed(program, pieces, pause, blocking=True):
    """Input that comes in pieces, with nothing there for a while between them."""
    reader, writer = os.pipe()
    if not blocking:
        non_blocking(reader)
    output = tempfile.TemporaryFile()
    run = Run(program, reader, output)
    os.close(reader)

    def feed():
        try:
            for piece in pieces:
                time.sleep(pause)
                os.write(writer, piece)
        except BrokenPipeError:
            pass  # the program has ended, which the answer shows
        os.close(writer)

    feeder = threading.Thread(target=feed)
    feeder.start()
    ended = run.end()
    feeder.join()
    output.seek(0)
    return output.read() if ended == (0, b'') else ended


def late_input(program):
    return fed(program, [COMMAND[:1], COMMAND[1:] + COMMAND[:2], COMMAND[2:]], 0.2, blocking=False) == LINE * 2


def byte_by_byte(program):
    return fed(program, [bytes([byte]) for byte in COMMAND * 100], 0) == LINE * 100


def cut_at_the_end(program):
    return fed(program, [COMMAND, COMMAND[:2]], 0.1) == LINE + b'bad\n'


def bad_before_the_end(program):
    """`bad` ends the program while the input is still open."""
    reader, writer = os.pipe()
    output = tempfile.TemporaryFile()
    run = Run(program, reader, output)
    os.close(reader)
    os.write(writer, COMMAND + b'\x00' + COMMAND)
    ended = run.end()
    os.close(writer)
    output.seek(0)
    return ended == (0, b'') and output.read() == LINE + b'bad\n'


def interrupted(program):
    """Stopped and continued again and again, while it reads and while it writes."""
    reader, writer = small_pipe()
    run = Run(program, file_with(STREAM), writer)
    os.close(writer)

    def disturb():
        for _ in range(100):
            time.sleep(0.002)
            try:
                os.kill(run.process.pid, signal.SIGSTOP)
                os.kill(run.process.pid, signal.SIGCONT)
            except ProcessLookupError:
                return

    disturber = threading.Thread(target=disturb)
    disturber.start()
    got = read_slowly(reader, 5000, 0.001)
    ended = run.end()
    disturber.join()
    return got == ANSWER and ended == (0, b'')


def in_pieces(program):
    """Random streams through non-blocking pipes, in pieces of any size, to a reader that takes pieces of any size."""
    return all(in_random_pieces(program, seed) for seed in range(40))


def in_random_pieces(program, seed):
    choice = random.Random(seed).choice
    data = stream(seed, commands=choice((50, 200, 2000)))
    source, feeding = os.pipe()
    reader, writer = small_pipe()
    non_blocking(source)
    non_blocking(writer)
    run = Run(program, source, writer)
    os.close(source)
    os.close(writer)

    def feed():
        at = 0
        try:
            while at < len(data):
                at += os.write(feeding, data[at:at + choice((1, 2, 3, 7, 50, 500, 5000, 70000))])
        except BrokenPipeError:
            pass  # `bad` came before the end
        os.close(feeding)

    feeder = threading.Thread(target=feed)
    feeder.start()
    got = b''
    while piece := os.read(reader, choice((1, 10, 1000, 4096))):
        got += piece
    os.close(reader)
    feeder.join()
    return run.end() == (0, b'') and got == outside(data).encode()


CASES = {
    'a slow reader': lambda program: slow_reader(program, True),
    'a slow reader of a non-blocking pipe': lambda program: slow_reader(program, False),
    'a full disk': full_disk,
    'a file that may grow no further': full_while_writing,
    'a closed reader': lambda program: closed_reader(program, False),
    'a closed reader, SIGPIPE ignored': lambda program: closed_reader(program, True),
    'a directory as input': directory_as_input,
    'a non-blocking input that is empty for a while': late_input,
    'input byte by byte': byte_by_byte,
    'a command cut off by the end of the input': cut_at_the_end,
    'bytes that are no command, before the end of the input': bad_before_the_end,
    'stopped and continued': interrupted,
    'random streams in pieces of any size': in_pieces,
}


def main():
    program = os.path.abspath(sys.argv[1])
    failed = 0
    for name, case in CASES.items():
        if not case(program):
            print(f'pipes: FAILED: {name}')
            failed += 1
    print(f'pipes: {len(CASES) - failed} of {len(CASES)} cases as they should be')
    sys.exit(failed != 0)


main()
