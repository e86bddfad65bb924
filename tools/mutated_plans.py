#!/usr/bin/env python3
"""Compares `nandlab check` with the second reader of plans (plan_reader.py) on plans changed at random.

  tools/mutated_plans.py PROGRAM FOLDER.. [--seed N] [--runs N] [--keep FOLDER]

Plans are all files below the folders that the second reader takes. Each run changes one of them in one to four places: a
byte, a line or a word left out, doubled, put elsewhere or taken from another plan, or a number near a limit. A run
depends on the seed and its own number alone, so that it can be repeated. Exit status: 1 where an answer differs.
"""
import argparse
import collections
import pathlib
import random
import re
import subprocess
import sys

import plan_reader

NUMBERS = (0, 1, 2, 3, 4, 7, 8, 9, 12, 15, 16, 17, 31, 32, 63, 64, 65, 127, 128, 224, 511, 512, 896, 1023, 1024, 2047,
           2048, 2112, 4095, 4096, 4097, 4320, 4321, 8192, 16895, 16896, 33792, 34560, 65535, 65536, 65537, 131072,
           524287, 524288, 524289, 1048576, 2097152, 16777215, 16777216, 16777217, (1 << 32) - 1, 1 << 32,
           (1 << 64) - 1, 1 << 64)
WORDS = ('-N', '-m', '-n', '-o', '-p', '-s', '-l', '-k', '--bb=padbad', '--bb=dumpbad', '--bb=skipbad', '--bb=', '--',
         '-', 'mtd0', 'mtd1', 'mtd00', 'mtd', 'mtd18446744073709551615', 'mtd18446744073709551616', '0.0', '0.1', '1.0',
         '0x0.00', '0.0.0', '0', '.', 'none', 'all', 'seed:7', 'seed:', 'spans:0-4,4-8', 'spans:4-4', 'spans:0-4320',
         'spans:0-4321', 'spans:5-9,8-12', 'spans:', 'fill:00:0', 'fill:0:1', 'fill:Ff:2048', 'fill:00:4294967296',
         'hex:', 'hex:0', 'hex:aB', 'seed:1:2048', 'seed:1:', 'seed:1:18446744073709551616', 'program', 'erase', 'img',
         'a_name_of_more_than_thirty_two_letters', '1d', '#', '#x', 'x#', '0X10', '0x', '+1', '-1', '0x1G')
LINES = ('nandlab 1', 'controller', 'chip 2048 64 64 8 1 0', 'chip 2048 64 64 16 4 1', 'chip 4096 224 128 8 16 2 5',
         'bad 1', 'bad 5 6 7', 'bad 12 13 14', 'weak program 5 0 none', 'weak erase 5 1 seed:3', 'bus', 'part 0 0',
         'part 1 2', 'part 3 1', 'data d hex:00ff', 'data img fill:00:2048', 'data e seed:1:4096', 'boot',
         'flip 0.0 0 1 0', 'cut 0 1 all', 'cut 0x0 2 spans:0-8', 'session 0', 'session 1', 'schedule 0', 'schedule 0 0 1',
         'flash_erase -N mtd0 0 0', 'flash_erase mtd0 1 1', 'nandwrite -m -p mtd0 d', 'nandwrite -o mtd0 e',
         'nandwrite -n -p -s 2048 mtd0 d', 'nanddump -l 2048 mtd0', 'nanddump --bb=skipbad -o mtd0',
         'nandtest -k -m mtd0', 'nandtest -p 31 -s 1 mtd0', 'nandtest -l 131072 -o 131072 mtd0', 'markbad mtd0 1',
         'isbad mtd0 9', 'stats mtd1', '', '# comment', '\t ', '"')


def near(rng, value):
    """A number near a value or near a limit, in one of its forms."""
    value = rng.choice((value - 1, value + 1, value * 2, 0, rng.choice(NUMBERS), rng.choice(NUMBERS) + 1))
    return rng.choice(('%d', '%d', '0x%x', '0x%X', '00%d')) % abs(value)


def changed_word(rng, word):
    numbers = list(re.finditer(r'0x[0-9a-fA-F]+|[0-9]+', word))
    if numbers and rng.random() < 0.7:
        at = rng.choice(numbers)
        digits = at.group()
        return word[:at.start()] + near(rng, int(digits, 0 if digits[:2] == '0x' else 10)) + word[at.end():]
    return rng.choice(WORDS)


def change_words(rng, line):
    words = line.split(' ')
    first = 1 if len(words) > 1 and rng.random() < 0.95 else 0
    at = rng.randrange(first, len(words))
    kind = rng.randrange(7)
    if kind < 4:
        words[at] = changed_word(rng, words[at])
    elif kind == 4:
        words.insert(at, words[at])
    elif kind == 5:
        words.insert(rng.randrange(first, len(words) + 1), rng.choice(WORDS))
    else:
        other = rng.randrange(first, len(words))
        words[at], words[other] = words[other], words[at]
        if rng.random() < 0.5:
            del words[at]
    return rng.choice((' ', ' ', ' ', '\t', '  ')).join(words)


def beside(rng, lines, line):
    """A place before or behind a line with the same first word, so that the new line may stand there; or any place."""
    first = line.split(' ')[0]
    places = [at + after for at, old in enumerate(lines) if old.split(' ')[0] == first for after in (0, 1)]
    return rng.choice(places) if places and rng.random() < 0.8 else rng.randrange(len(lines) + 1)


def change_lines(rng, lines, others):
    at = max(rng.choices(range(len(lines)), k=2), key=lambda at: len(lines[at]))
    kind = rng.randrange(20)
    if kind < 12:
        lines[at] = change_words(rng, lines[at])
    elif kind == 12:
        del lines[at]
    elif kind == 13:
        lines.insert(at, lines[at])
    elif kind == 14:
        lines.insert(rng.randrange(len(lines) + 1), lines.pop(at))
    else:
        line = rng.choice(LINES if kind < 17 else others)
        lines.insert(beside(rng, lines, line), line)
    return lines or ['']


def change_bytes(rng, text):
    at = rng.randrange(len(text) + 1)
    byte = bytes([rng.choice((0, 9, 10, 13, 32, 35, 45, 46, 48, 58, 95, 126, 127, 128, 255))])
    return rng.choice((text[:at] + byte + text[at:], text[:at] + text[at + 1:], text[:at] + byte + text[at + 1:],
                       text[:at]))


def changed(rng, plans):
    """A plan changed in one to four places."""
    lines = rng.choice(plans).split('\n')
    others = rng.choice(plans).split('\n')
    for _ in range(rng.choice((1, 1, 1, 2, 2, 3, 4))):
        lines = change_lines(rng, lines, others)
    text = '\n'.join(lines).encode()
    return change_bytes(rng, text) if rng.random() < 0.15 else text


def plans_below(folders):
    found = []
    for folder in folders:
        for path in sorted(pathlib.Path(folder).rglob('*')):
            if path.is_file() and path.stat().st_size <= 65_536:
                text = path.read_bytes()
                if plan_reader.answer(text)[0] == 0:
                    found.append(text.decode())
    return found


def main():
    parser = argparse.ArgumentParser(description=__doc__.split('\n')[0])
    parser.add_argument('program')
    parser.add_argument('folder', nargs='+')
    parser.add_argument('--seed', type=int, default=1)
    parser.add_argument('--runs', type=int, default=2000)
    parser.add_argument('--keep', help='a folder for the plans on which the answers differ')
    given = parser.parse_args()
    plans = plans_below(given.folder)
    if not plans:
        parser.error('no plan below these folders')
    differ, answers = 0, collections.Counter()
    for run in range(given.runs):
        plan = changed(random.Random('%d %d' % (given.seed, run)), plans)
        status, text = plan_reader.answer(plan)
        answers['plan' if status == 0 else text.decode().split()[-1]] += 1
        if status == 0 and plan_reader.answer(text) != (0, text):
            sys.exit('run %d: the canonical text is not read as itself' % run)
        got = subprocess.run([given.program, 'check'], input=plan, stdout=subprocess.PIPE, timeout=60)
        if (got.returncode, got.stdout) != (status, text):
            differ += 1
            print('run %d: status %d and %r, expected %d and %r'
                  % (run, got.returncode, got.stdout[:200], status, text[:200]), flush=True)
            if given.keep:
                pathlib.Path(given.keep, 'seed-%d-run-%d.plan' % (given.seed, run)).write_bytes(plan)
    print('%d plans, %d runs from seed %d, %d differ' % (len(plans), given.runs, given.seed, differ))
    print(', '.join('%s %d' % row for row in answers.most_common()))
    return 1 if differ else 0


if __name__ == '__main__':
    sys.exit(main())
