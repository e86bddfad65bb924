#!/usr/bin/env python3
"""Runs `nandlab replay` on plans at the limits, on plans one above them, and on plans changed at random.

  tools/hostile_plans.py PROGRAM limits
  tools/hostile_plans.py PROGRAM mutated [--seed N] [--runs N] [--jobs N] [--keep FOLDER] FOLDER..

`limits` wants status 0 of each plan at a limit, and of each plan above it the refusal that the rules of plans say; the
second reader of plans (plan_reader.py) has to agree on all but the one of 65,536 lines. `mutated` changes the plans
below the folders, and random small plans beside them, as tools/mutated_plans.py does. Each run has to end with status 0
and a report, or with status 3 and one line of a refusal, within a minute of a processor and in less memory than plans
within the limits may take. A run depends on the seed and its own number alone. Exit status: 1 where a run ended
otherwise.
"""
import argparse
import collections
import multiprocessing
import os
import pathlib
import random
import re
import signal
import sys

import mutated_plans
import plan_reader
import random_plans

SECONDS, CLOCK, MOST_MEMORY = 60, 1200, 3_500_000_000 # by the processor; by the clock a run is ended later
SECOND_READER = 20_000 # the most lines that it reads in a fair time
KINDS = ('LineTooLong BadByte UnknownWord WrongPlace BadWords BadNumber BadSize SpareTooSmall OutOfChip '
         'TooFewTableBlocks Overlap UnknownDevice UnknownName NotMultiple TooLarge Ended TooLong')
REFUSAL = re.compile(r'line (0|[1-9][0-9]*): (%s)\n' % KINDS.replace(' ', '|'))
END = re.compile(r'(^|\n)end boot [0-9]+\n\Z')


class Program:
    """The program with the files of its standard input and output, which are used again by each run."""

    def __init__(self, path):
        self.path = path
        self.source, self.sink = (os.memfd_create(name) for name in ('plan', 'report'))
        self.pid = 0
        signal.signal(signal.SIGALRM, lambda *_: os.kill(self.pid, signal.SIGKILL))

    def replay(self, plan):
        """Status (negative for a signal), greatest memory in bytes, processor seconds, and both ends of the output."""
        for file in (self.source, self.sink):
            os.ftruncate(file, 0)
            os.lseek(file, 0, os.SEEK_SET)
        os.write(self.source, plan)
        os.lseek(self.source, 0, os.SEEK_SET)
        files = [(os.POSIX_SPAWN_DUP2, self.source, 0), (os.POSIX_SPAWN_DUP2, self.sink, 1)]
        self.pid = os.posix_spawn(self.path, [self.path, 'replay'], {}, file_actions=files)
        signal.alarm(CLOCK)
        _, status, used = os.wait4(self.pid, 0)
        signal.alarm(0)
        size = os.fstat(self.sink).st_size
        first, last = os.pread(self.sink, 100, 0), os.pread(self.sink, 100, max(size - 100, 0))
        seconds = used.ru_utime + used.ru_stime
        return os.waitstatus_to_exitcode(status), used.ru_maxrss * 1024, seconds, first.decode(), last.decode()


def ending(status, memory, seconds, first, last):
    """How a run ended, and whether it may end so."""
    is_within = memory < MOST_MEMORY and seconds < SECONDS
    if status == 0:
        return 'report', bool(END.search(last)) and is_within
    found = REFUSAL.fullmatch(first)
    if status == 3 and found:
        return found[2], is_within
    return 'status %d' % status, False


# ---------------------------------------------------------------- plans at limits

HEAD, CHIP = 'nandlab 1\ncontroller\n', 'chip 2048 64 64 16 4 0\n'
SMALL = HEAD + CHIP + 'part 0 16\n'
RUN = SMALL + 'boot\nsession 0\n'


def up_to(size, text):
    """A text with comment lines behind it up to this size."""
    lines, rest = divmod(size - len(text), 80)
    return text + ('#' * 79 + '\n') * lines + '#' * rest


def limits():
    """For each limit its name, the plan at it, the plan above it, and how that is refused."""
    wide = 'chip 2048 64 64 1024 4 0\n'
    bits = lambda length: 'flip 0.0 0 1'.ljust(length - 2 * 32_000) + ' 7' * 32_000
    return (
        ('controllers', lambda more: 'nandlab 1\n' + ('controller\n' + CHIP) * (8 + more) + 'boot\n', 18, 'TooLarge'),
        ('chips of a controller', lambda more: HEAD + CHIP * (8 + more) + 'boot\n', 11, 'TooLarge'),
        ('blocks of a chip', lambda more: HEAD + 'chip 2048 64 64 %d 4 0\nboot\n' % (4096 + 4 * more), 3, 'BadSize'),
        ('pages of all chips', lambda more: HEAD + wide * 7 + 'chip 2048 64 64 %d 4 0\nboot\n' % (1024 + 4 * more), 10,
         'TooLarge'),
        ('bad blocks among the last four', lambda more: HEAD + 'chip 2048 64 64 16 4 1\nbad %s\nboot\n'
         % ' '.join(map(str, range(12, 14 + more))), 4, 'TooFewTableBlocks'),
        ('blocks of a part', lambda more: HEAD + CHIP + 'part 8 %d\nboot\n' % (8 + more), 4, 'OutOfChip'),
        ('letters of a name', lambda more: SMALL + 'data %s hex:\nboot\n' % ('n' * (32 + more)), 5, 'BadWords'),
        ('bytes of data', lambda more: SMALL + 'data d seed:1:16777215 hex:00%s\nboot\n' % ('00' * more), 5, 'TooLarge'),
        ('boots', lambda more: SMALL + 'boot\n' * (64 + more), 69, 'TooLarge'),
        ('sessions of a boot', lambda more: SMALL + 'boot\n' + 'session 0\n' * (64 + more), 70, 'TooLarge'),
        ('operations', lambda more: RUN + 'nandtest -p 31 mtd0\n' + 'isbad mtd0 5\n' * (560 + more), 568, 'TooLarge'),
        ('flip lines', lambda more: SMALL + 'boot\n' + 'flip 0.0 0 1 7\n' * (65_536 + more), 65_542, 'TooLarge'),
        ('bytes of a line', lambda more: SMALL + 'boot\n' + bits(65_536 + more) + '\n', 6, 'LineTooLong'),
        ('bytes of a plan', lambda more: up_to(16_777_216 + more, RUN), 0, 'TooLong'),
        ('numbers of 32 bits', lambda more: RUN + 'isbad mtd0 %d\n' % ((1 << 32) - 1 + more), 7, 'BadNumber'),
        ('numbers of 64 bits', lambda more: SMALL + 'data d seed:%d:1\nboot\n' % ((1 << 64) - 1 + more), 5, 'BadNumber'),
    )


def try_limits(path):
    program, wrong = Program(path), 0
    print('| Limit | Answer at it | Seconds | MB | Answer above it |\n|---|---|---|---|---|')
    for name, plan, line, kind in limits():
        at, above = plan(0).encode(), plan(1).encode()
        answer = program.replay(at)
        told, is_good = ending(*answer)
        refused = program.replay(above)
        refusal = 'line %d: %s' % (line, kind)
        agrees = at.count(b'\n') > SECOND_READER or (
            plan_reader.answer(at)[0] == 0 and plan_reader.answer(above) == (3, refusal.encode() + b'\n'))
        is_right = is_good and told == 'report' and refused[0] == 3 and refused[3] == refusal + '\n' and agrees
        wrong += not is_right
        print('| %s | %s | %.2f | %.0f | `%s`%s |' % (name, told, answer[2], answer[1] / 1e6, refused[3].strip(),
                                                   '' if is_right else ' WRONG, expected %s' % refusal), flush=True)
    return wrong


# ---------------------------------------------------------------- mutated plans

def plan_of(seed, run, plans):
    rng = random.Random('%d %d' % (seed, run))
    source = plans if rng.random() < 0.7 else [random_plans.plan(rng).decode()]
    return mutated_plans.changed(rng, source)


def begin(path, plans, seed):
    global at_work
    os.nice(19)
    at_work = Program(path), plans, seed


def run_one(run):
    program, plans, seed = at_work
    return run, program.replay(plan_of(seed, run, plans))


def try_mutated(given):
    plans = mutated_plans.plans_below(given.folder)
    if not plans:
        sys.exit('no plan below these folders')
    wrong, endings, most, longest = 0, collections.Counter(), (0, 0), (0, 0)
    with multiprocessing.Pool(given.jobs, begin, (given.program, plans, given.seed)) as pool:
        for run, answer in pool.imap_unordered(run_one, range(given.runs), 50):
            told, is_good = ending(*answer)
            endings[told] += 1
            most, longest = max(most, (answer[1], run)), max(longest, (answer[2], run))
            if not is_good:
                wrong += 1
                print('run %d: status %d, %d bytes of memory, %.2f s, %r' % (run, *answer[:4]), flush=True)
                if given.keep:
                    plan = plan_of(given.seed, run, plans)
                    pathlib.Path(given.keep, 'seed-%d-run-%d.plan' % (given.seed, run)).write_bytes(plan)
    print('%d plans, %d runs from seed %d, %d wrong' % (len(plans), given.runs, given.seed, wrong))
    print('most memory %.0f MB in run %d, longest %.2f s in run %d' % (most[0] / 1e6, most[1], *longest))
    print(', '.join('%s %d' % row for row in endings.most_common()))
    return wrong


def main():
    parser = argparse.ArgumentParser(description=__doc__.split('\n')[0])
    parser.add_argument('program')
    parser.add_argument('what', choices=('limits', 'mutated'))
    parser.add_argument('folder', nargs='*')
    parser.add_argument('--seed', type=int, default=1)
    parser.add_argument('--runs', type=int, default=1000)
    parser.add_argument('--jobs', type=int, default=4)
    parser.add_argument('--keep', help='a folder for the plans of runs that ended otherwise')
    given = parser.parse_intermixed_args()
    given.program = os.path.realpath(given.program)
    return 1 if (try_limits(given.program) if given.what == 'limits' else try_mutated(given)) else 0


if __name__ == '__main__':
    sys.exit(main())
