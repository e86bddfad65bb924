#!/usr/bin/env python3
"""Compares `nandlab replay` with the second replay of plans (plan_replayer.py) on random small plans.

  tools/random_plans.py PROGRAM [--seed N] [--runs N] [--keep FOLDER]
  tools/random_plans.py --show N [--seed N]     prints the plan of run N

A plan has one or two controllers, chips with and without tables, some factory-bad blocks, some chips behind a bus, and
up to three boots in which a few sessions share the chips by a random schedule, with flips near the events that read
pages and in the tables, and with power cuts. A run depends on the seed and its own number alone. Exit status: 1 where a
report differs.
"""
import argparse
import pathlib
import random
import subprocess
import sys

import plan_replayer

SIZES = ((2048, 64, (1, 2, 4, 9)), (4096, 128, (1, 8)), (4096, 224, (4, 16)))
PAGES_PER_BLOCK, BLOCKS = 64, 8


class Chip:
    def __init__(self, rng):
        self.page, self.spare, strengths = rng.choice(SIZES[:1] * 4 + SIZES)
        self.strength = rng.choice(strengths)
        self.block = PAGES_PER_BLOCK * self.page
        self.bits = 8 * (self.page + self.spare)
        parity = self.page // 512 * ((13 * self.strength + 7) // 8)
        self.tables = rng.choice((0, 1, 2) if self.spare - parity >= 13 else (0, 2))


def places(rng, chip, blocks):
    """Offset and length of a few pages of a device, mostly at its start, so that commands meet."""
    page = rng.choice((0, 0, 0, blocks - 1)) * PAGES_PER_BLOCK + rng.choice((0, 0, 0, 1, 62, 63))
    return page * chip.page, rng.randrange(1, 4) * chip.page


def command(rng, name, chip, blocks, data):
    off, length = places(rng, chip, blocks)
    length = min(length, blocks * chip.block - off)
    raw, spare = rng.choice(('', '', '-n ')), rng.choice(('', '', '-o '))
    block = rng.randrange(blocks + 1)
    start = rng.randrange(blocks)
    mode = rng.choice(('', '', '--bb=dumpbad ', '--bb=skipbad '))
    keep, mark = rng.choice(('', '-k ')), rng.choice(('', '-m '))
    test = '-s %d -o %d -l %d ' % (rng.randrange(9), start * chip.block, chip.block)
    return rng.choice((
        'nandwrite %s%s%s-p -s %d %s %s' % (mark, raw, spare, off, name, rng.choice(data)),
        'nandwrite %s-p -s %d %s %s' % (raw, off, name, rng.choice(data)),
        'nanddump -s %d -l %d %s%s%s%s' % (off, length, raw, spare, mode, name),
        'nanddump -s %d -l %d %s' % (off, length, name),
        'flash_erase %s%s %d %d' % (rng.choice(('', '-N ')), name, start, rng.randrange(blocks - start + 1)),
        'markbad %s %d' % (name, block),
        'isbad %s %d' % (name, block),
        'stats %s' % name) + (('nandtest %s%s%s%s' % (keep, mark, test, name),) if rng.random() < 0.05 else ()))


def flip(rng, controllers):
    controller = rng.randrange(len(controllers))
    chip = rng.randrange(len(controllers[controller]))
    chips = controllers[controller]
    page = rng.choice((0, 0, 0, 3, 6, 7)) * PAGES_PER_BLOCK + rng.choice((0, 0, 0, 1, 63))
    step, spare = rng.randrange(chips[chip].page // 512) * 4096, 8 * chips[chip].page
    bits = [rng.choice((step + rng.randrange(4096), rng.randrange(chips[chip].bits), rng.choice((0, spare, spare + 64))
                        + rng.randrange(40)))
            for _ in range(rng.choice((1, 1, 2, 3, 4, 5, 8, 9, 17)))]
    before = rng.choice((1, 9, len(chips) * BLOCKS + rng.randrange(1, 30)))
    return 'flip %d.%d %d %d %s' % (controller, chip, page, before, ' '.join(map(str, bits)))


def tear(rng):
    first = rng.choice((0, 2040, 2048, 2056, rng.randrange(4096)))
    return rng.choice(('none', 'all', 'seed:%d' % rng.randrange(9), 'spans:%d-%d' % (first, first + rng.randrange(1, 30))))


def cuts(rng, controllers):
    return ['cut %d %d %s' % (n, rng.choice((rng.randrange(1, 17), rng.randrange(16, 60))), tear(rng))
            for n, _ in enumerate(controllers) if rng.random() < 0.4]


def head(rng):
    """Lines of controllers, chips and parts; the controllers' chips; and each device as (controller, chip, blocks)."""
    lines, controllers, devices = ['nandlab 1'], [], []
    for controller in range(rng.choice((1, 1, 2))):
        lines.append('controller')
        controllers.append([])
        for _ in range(rng.choice((1, 1, 2, 3))):
            chip = Chip(rng)
            controllers[-1].append(chip)
            lines.append('chip %d %d %d %d %d %d' % (chip.page, chip.spare, PAGES_PER_BLOCK, BLOCKS, chip.strength,
                                                     chip.tables))
            if rng.random() < 0.3:
                lines.append('bad %s' % ' '.join(map(str, rng.sample(range(BLOCKS), rng.randrange(1, 3)))))
            if rng.random() < 0.3:
                lines.append('bus')
            cut = rng.choice((0, 3, 8))
            for start, blocks in ((0, cut), (cut, BLOCKS - cut)):
                if blocks:
                    lines.append('part %d %d' % (start, blocks))
                    devices.append((controller, chip, blocks))
    return lines, controllers, devices


def plan(rng):
    lines, controllers, devices = head(rng)
    names = ['d%d' % n for n in range(3)]
    lines += ['data %s seed:%d:%d' % (name, rng.randrange(9), rng.choice((0, 1, 2048, 4096, 6000))) for name in names]
    for _ in range(rng.choice((1, 1, 2, 3))):
        lines.append('boot')
        lines += [flip(rng, controllers) for _ in range(rng.choice((0, rng.randrange(12))))] + cuts(rng, controllers)
        sessions = [rng.randrange(len(controllers)) for _ in range(rng.randrange(1, 5))]
        for controller in sessions:
            lines.append('session %d' % controller)
            own = [j for j, device in enumerate(devices) if device[0] == controller]
            for _ in range(rng.randrange(5)):
                j = rng.choice(own)
                lines.append(command(rng, 'mtd%d' % j, devices[j][1], devices[j][2], names))
        if rng.random() < 0.7:
            turns = [str(rng.randrange(len(sessions))) for _ in range(rng.randrange(1, 60))]
            lines.append('schedule ' + ' '.join(turns))
    return '\n'.join(lines + ['']).encode()


def main():
    parser = argparse.ArgumentParser(description=__doc__.split('\n')[0])
    parser.add_argument('program', nargs='?')
    parser.add_argument('--seed', type=int, default=1)
    parser.add_argument('--runs', type=int, default=200)
    parser.add_argument('--show', type=int, help='print the plan of this run')
    parser.add_argument('--keep', help='a folder for the plans on which the reports differ')
    given = parser.parse_args()
    plan_of = lambda run: plan(random.Random('%d %d' % (given.seed, run)))
    if given.show is not None:
        sys.stdout.buffer.write(plan_of(given.show))
        return 0
    if not given.program:
        parser.error('no program')
    differ = 0
    for run in range(given.runs):
        text = plan_of(run)
        expected = plan_replayer.answer(text)
        got = subprocess.run([given.program, 'replay'], input=text, stdout=subprocess.PIPE, timeout=60)
        if (got.returncode, got.stdout) != expected:
            differ += 1
            lines = zip(got.stdout.split(b'\n'), expected[1].split(b'\n'))
            at = next((n for n, (a, b) in enumerate(lines, 1) if a != b), 'at its end')
            print('run %d: status %d, expected %d; line %s differs' % (run, got.returncode, expected[0], at), flush=True)
            if given.keep:
                pathlib.Path(given.keep, 'seed-%d-run-%d.plan' % (given.seed, run)).write_bytes(text)
    print('%d runs from seed %d, %d differ' % (given.runs, given.seed, differ))
    return 1 if differ else 0


if __name__ == '__main__':
    sys.exit(main())
