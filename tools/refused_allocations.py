#!/usr/bin/env python3
"""Runs `nandlab replay` on plans while memory runs out: each allocation is refused in turn.

  tools/refused_allocations.py PROGRAM PLAN..

For each plan the first, the second and so on of the program's allocations is refused, up to the last one: once alone, and
once with all later ones. A run has to end with status 6 and nothing written, or as it does with ample memory, with the
same status and the same output. A row is printed for each plan. Exit status: 1 where a run ended otherwise. Needs a C
compiler, as $CC or cc: it builds a library that is loaded before the C library's own allocator.
"""
import collections
import os
import pathlib
import shlex
import subprocess
import sys
import tempfile

REFUSER = r"""
#include <errno.h>
#include <stdlib.h>
#include <unistd.h>

extern void *__libc_malloc(size_t), *__libc_realloc(void *, size_t);

/* Whether this allocation is refused. The first refusal is told on descriptor 3. */
static int is_refused(void)
{
    static long made, from, to;
    if (!made++) {
        from = atol(getenv("REFUSED_FROM"));
        to = atol(getenv("REFUSED_TO"));
    }
    if (made == from && write(3, "x", 1) != 1)
        abort();
    errno = ENOMEM;
    return from <= made && made <= to;
}

void *malloc(size_t size) { return is_refused() ? 0 : __libc_malloc(size); }
void *realloc(void *old, size_t size) { return is_refused() ? 0 : __libc_realloc(old, size); }
"""
MEMORY, NEVER = 6, 0


class Runs:
    """Runs of a program on a plan, over a refuser that was built."""

    def __init__(self, program, refuser, plan):
        self.program, self.refuser, self.plan = program, refuser, plan

    def run(self, first, last):
        """Status and output where the allocations from `first` to `last` are refused, and whether there is one."""
        refused = {'LD_PRELOAD': self.refuser, 'REFUSED_FROM': str(first), 'REFUSED_TO': str(last)}
        files = [os.open(self.plan, os.O_RDONLY), os.memfd_create('report'), os.memfd_create('told')]
        actions = [(os.POSIX_SPAWN_DUP2, file, to) for file, to in zip(files, (0, 1, 3))]
        pid = os.posix_spawn(self.program, [self.program, 'replay'], refused, file_actions=actions)
        status = os.waitstatus_to_exitcode(os.waitpid(pid, 0)[1])
        output, told = (os.pread(file, os.fstat(file).st_size, 0) for file in files[1:])
        for file in files:
            os.close(file)
        return (status, output), bool(told)


def try_plan(runs):
    """Prints a row of the allocations refused alone and with all later ones; returns how many runs ended otherwise."""
    own, _ = runs.run(NEVER, NEVER)
    wrong, rows = 0, []
    for is_alone in (True, False):
        endings, number, is_told = collections.Counter(), 0, True
        while is_told:
            number += 1
            ended, is_told = runs.run(number, number if is_alone else 1 << 60)
            if is_told:
                endings['memory' if ended == (MEMORY, b'') else 'own' if ended == own else 'other'] += 1
                if ended not in (own, (MEMORY, b'')):
                    print('%s: allocation %d: status %d, %r' % (runs.plan, number, ended[0], ended[1][-80:]), flush=True)
        wrong += endings['other']
        rows.append('%d refused, status 6 %d, own %d' % (number - 1, endings['memory'], endings['own']))
    print('%s: status %d, %d bytes; alone: %s; with all later ones: %s' % (runs.plan, own[0], len(own[1]), *rows), flush=True)
    return wrong


def main():
    if len(sys.argv) < 3:
        sys.exit(__doc__)
    program, *plans = map(os.path.realpath, sys.argv[1:])
    with tempfile.TemporaryDirectory() as folder:
        source, refuser = pathlib.Path(folder, 'refuser.c'), folder + '/refuser.so'
        source.write_text(REFUSER)
        compiler = shlex.split(os.environ.get('CC', 'cc'))
        subprocess.run([*compiler, '-O1', '-fno-builtin', '-shared', '-fPIC', '-o', refuser, str(source)], check=True)
        return 1 if sum(try_plan(Runs(program, refuser, plan)) for plan in plans) else 0


if __name__ == '__main__':
    sys.exit(main())
