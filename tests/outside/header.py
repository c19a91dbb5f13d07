"""Compares include/jihoweka.h with what it speaks of.

    python3 header.py LIBRARY             the static one

Its functions with those that the crate `jihoweka` exports, parameter by parameter,
and with the symbols of LIBRARY, which needs memcpy and memset and nothing else; its
numbers with those of the calls; its layout with that of docs/STORE.md; its least
lengths, as the compiler works them out, with the definitions that the proofs cite;
where rows begin with the places of their first cells in docs/STORE.md.
"""

import pathlib
import re
import subprocess
import sys
import tempfile
from itertools import product

from library import CALLS, FIELDS, PARTS

ROOT = pathlib.Path(__file__).resolve().parents[2]
HEADER = (ROOT / 'include' / 'jihoweka.h').read_text()
# The crate's types as C has them; a slice is a pointer and a count.
SLICES = {'&[u8]': 'const uint8_t *', '&[u64]': 'const uint64_t *',
          '&mut [u8]': 'uint8_t *', '&mut [u64]': 'uint64_t *', '&mut [i64]': 'int64_t *'}
NUMBERS = {'u16': 'uint16_t ', 'u32': 'uint32_t ', 'u64': 'uint64_t ', '&mut u64': 'uint64_t *'}


def declared():
    """Function -> its parameters, as the header writes them."""
    functions = re.findall(r'^uint64_t (\w+)\((.*?)\);', HEADER, re.DOTALL | re.MULTILINE)
    return {name: [' '.join(parameter.split()) for parameter in parameters.split(',')]
            for name, parameters in functions}


def exported():
    """Function -> its parameters, as the header has to write them."""
    text = (ROOT / 'crates' / 'jihoweka' / 'src' / 'lib.rt').read_text()
    functions = {}
    for name, parameters in re.findall(
            r'#\[unsafe\(no_mangle\)\]\npub extern "C" fn (\w+)(?:<\'a>)?\((.*?)\) -> u64\n', text,
            re.DOTALL):
        functions[name] = []
        for parameter in parameters.strip().rstrip(',').split(','):
            word, kind = parameter.strip().replace("&'a ", '&').split(': ')
            if kind in SLICES:
                functions[name] += [SLICES[kind] + word, f'size_t {word}_length']
            else:
                functions[name].append(NUMBERS[kind] + word)
    return functions


def numbers():
    text, = re.findall(r'enum jihoweka_number \{(.*?)\n\};', HEADER, re.DOTALL)
    return {int(number) for number in re.findall(r'= (\d+)', text)}


def checks():
    """Function -> the numbers of its checks, in the order that the header gives them."""
    parts = re.split(r'^uint64_t (\w+)\(', HEADER, flags=re.MULTILINE)
    return {name: [int(number) for number in
                   re.findall(r'\b\d+\b', re.sub(r'\(.*?\)', '', text[text.rindex('Checks:'):]))]
            for text, name in zip(parts[::2], parts[1::2])}


def definitions():
    """Name of a part -> its least length in M, C, T and P, as Sizes.antt defines it."""
    text = (ROOT / 'crates' / 'ledger' / 'specs' / 'Sizes.antt').read_text()
    header, = re.findall(r'^header_length = (\d+)$', text, re.MULTILINE)
    found = re.findall(r'^(\w+)_length ([MCTP ]+) = (.*)$', text, re.MULTILINE)
    return {part: (names.split(), formula.replace('header_length', header))
            for part, names, formula in found}


def worked_out(sizes):
    """The header's least lengths for each (duration, M, C, T), by the C compiler.

    Also where the row of the last date and category begins, in cells and in a draft.
    """
    rows = ''.join(
        f'    show(JIHOWEKA_SETTINGS_LENGTH({C}, {T}), JIHOWEKA_METERS_LENGTH({M}), '
        f'JIHOWEKA_READINGS_LENGTH({M}, {T}, JIHOWEKA_PERIODS({duration})), '
        f'JIHOWEKA_CELLS_LENGTH({C}, {T}, JIHOWEKA_PERIODS({duration})), '
        f'JIHOWEKA_DAYS_LENGTH({C}, {T}), '
        f'JIHOWEKA_DRAFT_LENGTH({C}, JIHOWEKA_PERIODS({duration})), '
        f'JIHOWEKA_PUBLISHED_ROW({C}, JIHOWEKA_PERIODS({duration}), {T} - 1, {C} - 1), '
        f'JIHOWEKA_DRAFT_ROW(JIHOWEKA_PERIODS({duration}), {C} - 1));\n'
        for duration, M, C, T in sizes)
    program = ('#include "jihoweka.h"\n#include <stdio.h>\n'
               'static void show(size_t s, size_t m, size_t r, size_t c, size_t d, size_t l, '
               'size_t p, size_t q) '
               '{ printf("%zu %zu %zu %zu %zu %zu %zu %zu\\n", s, m, r, c, d, l, p, q); }\n'
               f'int main(void) {{\n{rows}}}\n')
    with tempfile.TemporaryDirectory() as folder:
        source, compiled = pathlib.Path(folder, 'lengths.c'), pathlib.Path(folder, 'lengths')
        source.write_text(program)
        subprocess.run(['cc', '-std=c99', f'-I{ROOT / "include"}', source, '-o', compiled],
                       check=True)
        lines = subprocess.run([compiled], check=True, capture_output=True, text=True).stdout
    names = *PARTS, 'draft', 'row', 'draft_row'
    return [dict(zip(names, map(int, line.split()), strict=True)) for line in lines.splitlines()]


def main():
    assert declared() == exported(), 'functions or parameters differ'
    symbols = subprocess.run(['nm', sys.argv[1]], check=True, capture_output=True, text=True).stdout
    assert set(re.findall(r' T (\w+)$', symbols, re.MULTILINE)) == set(declared())
    assert set(re.findall(r' U (\w+)$', symbols, re.MULTILINE)) <= {'memcpy', 'memset'}
    assert {call.function for call in CALLS.values()} == set(declared())
    assert numbers() == {0}.union(*(call.checks for call in CALLS.values())), 'numbers differ'
    for call in CALLS.values():            # 13 stands twice in a reception's list
        heard = list(dict.fromkeys(checks()[call.function]))
        assert heard == list(call.checks), f'{call.function}: checks differ'
    assert f'JIHOWEKA_FIELDS = {FIELDS},' in HEADER
    layout, = re.findall(r'JIHOWEKA_LAYOUT = (\d+),', HEADER)
    assert f'This is layout {layout}' in (ROOT / 'docs' / 'STORE.md').read_text()
    sizes = list(product((15, 30), (1, 2, 3, 1023, 1024), (1, 2, 63, 64), (1, 2, 799, 800)))
    defined = definitions()
    for (duration, M, C, T), lengths in zip(sizes, worked_out(sizes), strict=True):
        given = {'M': M, 'C': C, 'T': T, 'P': 1440 // duration}
        # A draft holds one date. The cell of period 1 is entry d C P + c P.
        P, d, c = given['P'], T - 1, C - 1
        due = {'draft': C * P, 'row': d * C * P + c * P, 'draft_row': c * P}
        for part, (names, formula) in defined.items():
            due[part] = eval(formula, {name: given[name] for name in names})
        assert lengths == due, (given, lengths, due)
    print(f'header: {len(declared())} functions, {len(numbers())} numbers, and the least lengths '
          f'and rows for {len(sizes)} sizes agree')


if __name__ == '__main__':
    main()
