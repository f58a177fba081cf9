#!/usr/bin/env python3
"""Counts the places that docs/DESIGN-PASS.md counts, in the sources of a checkout.

    python3 tools/design/places.py [FOLDER]      the counts, a line for each
    python3 tools/design/places.py -l [FOLDER]   each place too

It goes by the text of crates/*/src. What it cannot know by text (whether an enum has the shape of an Option, whether two functions that look
alike differ only in a constant) the page says by name."""
import collections
import difflib
import itertools
import pathlib
import re
import sys

REFUSALS = (
    'CUT_OFF UNKNOWN_KIND WRONG_LENGTH NINTH_DRIVE BAD_FIELD PAST_STORE OVERLAPPING NOT_LAST BYTE_FOLLOWS SHORT_BUFFER NO_GUEST NOT_VACANT '
    'NOT_FINISHED NOT_WAITING OTHER_LENGTH NOT_ACCEPTABLE BAD_PLACE NO_READER OUTSIDE BAD_PARAMETER WRITE_PROTECTED NO_PARAMETERS BAD_BUFFER '
    'WITHDRAWN BAD_READ BAD_WRITE CONVERSION').split()
KINDS = (
    'PARAMETERS_KIND BAD_KIND DRIVE_KIND WIDE_KIND END_KIND READ_SECTORS WRITE_SECTORS GET_PARAMETERS CHECK_EXTENSIONS EXTENDED_READ '
    'EXTENDED_WRITE EXTENDED_VERIFY EXTENDED_SEEK GET_RESULT PLAIN PROTECTED VERIFYING LARGEST FLAGS_78 ISA PCI ATA ATAPI SCSI USB IEEE1394 '
    'FIBRE I2O').split()
# functions whose answer is a refusal's number, or 0
NUMBERED = 'refusal_among refusal_of list_refusal bads_refusal house_number house number_at up down'.split()
FLAGS = 'known present placed table'.split()


def sources(root):
    for path in sorted(pathlib.Path(root).glob('crates/*/src/*.rt')):
        yield path.parts[-3], path, path.read_text(encoding='utf-8')


def lines(root, pattern):
    found = []
    for crate, path, text in sources(root):
        for number, line in enumerate(text.split('\n'), 1):
            if re.search(pattern, line):
                found.append(f'{crate}/src/{path.name}:{number}: {line.strip()}')
    return found


def facts(root):
    """conjuncts of `requires` that stand in three or more functions of a crate"""
    found = []
    for crate in sorted({crate for crate, _, _ in sources(root)}):
        count = collections.Counter()
        for name, _, text in sources(root):
            if name != crate:
                continue
            for clause in re.findall(r'^\s*requires(?: \w+)? \{ (.*) \}$', text, re.M):
                for fact in clause.split(' × '):
                    count[re.sub(r'^\((.*)\)$', r'\1', fact)] += 1
        found += [f'{crate}: {n} times {fact}' for fact, n in count.most_common() if n >= 3]
    return found


def functions(root):
    for crate, _, text in sources(root):
        if crate == 'exports_c':
            continue
        for m in re.finditer(r'^( *)(?:pub )?(?:extern "C" )?fn (\w+)', text, re.M):
            body = text[m.end():text.find('\n' + m.group(1) + '}\n', m.end())]
            body = re.sub(r'^\s*(requires|ensures).*$|//.*', '', body, flags=re.M)
            tokens = re.findall(r'\w+|[^\s\w]', body)
            if len(tokens) >= 25:
                yield f'{crate}::{m.group(2)}', tokens


def alike(root):
    """pairs of functions four fifths of whose words are the same, in the same order"""
    found = []
    for (a, x), (b, y) in itertools.combinations(functions(root), 2):
        if min(len(x), len(y)) < 0.72 * max(len(x), len(y)):
            continue
        match = difflib.SequenceMatcher(None, x, y, autojunk=False)
        if match.quick_ratio() >= 0.8 and match.ratio() >= 0.8:
            found.append(f'{a} {b}')
    return found


def constants(names):
    return r'^(pub )?const (' + '|'.join(names) + r'): u'


COUNTS = [
    ('1a enums', lambda r: lines(r, r'^(pub )?enum ')),
    ('1b flags that may stand beside a value', lambda r: lines(r, r'\b(' + '|'.join(FLAGS) + r'): (\[bool; 8\]|bool)')),
    ('1c numbers of refusals', lambda r: lines(r, constants(REFUSALS))),
    ('1d numbers of kinds', lambda r: lines(r, constants(KINDS))),
    ('1e answers that are a number or 0', lambda r: lines(r, r'fn (' + '|'.join(NUMBERED) + r')\(.*-> u8$')),
    ('2 functions that look alike', alike),
    ('3 loops that count by hand', lambda r: lines(r, r'^\s*(while|loop) ')),
    ('4 a struct copied field by field', lambda r: lines(r, r'^\s*(\w+): (\w+)\.\1,$')),
    ('5 facts in three contracts or more', facts),
]


def main(words):
    each = '-l' in words
    rest = [word for word in words if word != '-l']
    root = rest[0] if rest else '.'
    for name, find in COUNTS:
        found = find(root)
        print(f'{name}: {len(found)}')
        if each:
            for place in found:
                print(f'    {place}')


main(sys.argv[1:])
