#!/usr/bin/env python3
"""Reads a plan from standard input, and prints its canonical text or `line L: KIND`.

A second reader of plans beside the proved one, written from the standard that docs/plans.md tells a user of, and not
from the code under crates/. tools/mutated_plans.py compares the two. Exit status: 0 for a plan, 3 for a refusal.
"""
import re
import sys

GREATEST_PLAN = 16_777_216
GREATEST_LINE = 65_536
GREATEST_SPAN = 4_320
LIMIT_CONTROLLERS = LIMIT_CHIPS = 8
LIMIT_BOOTS = LIMIT_SESSIONS = 64
LIMIT_PAGES = 524_288
LIMIT_DATA = 16_777_216
LIMIT_FLIPS = 65_536
LIMIT_COST = 65_536
U32 = (1 << 32) - 1
U64 = (1 << 64) - 1

COMMANDS = ('flash_erase', 'nandwrite', 'nanddump', 'nandtest', 'markbad', 'isbad', 'stats')
ALLOWED = re.compile(rb'[\t\x20-\x7e]*')
NUMBER = re.compile(r'[0-9]+|0x[0-9a-fA-F]+')
DEVICE = re.compile(r'mtd(0|[1-9][0-9]*)')
NAME = re.compile(r'[A-Za-z][A-Za-z0-9_]{0,31}')
HEX_PAIRS = re.compile(r'([0-9a-fA-F]{2})*')
FILL = re.compile(r'fill:([0-9a-fA-F]{2}):(.*)')

sys.set_int_max_str_digits(0)


class Refused(Exception):
    """A broken rule; the line is added by the loop over lines."""


def need(holds, kind):
    if not holds:
        raise Refused(kind)


# ---------------------------------------------------------------- words

def number_of(word):
    """The value of a number of at most 64 bits, or None."""
    if not NUMBER.fullmatch(word):
        return None
    value = int(word[2:], 16) if word[:2] == '0x' else int(word)
    return value if value <= U64 else None


def number(word, most=U32, least=0):
    value = number_of(word)
    need(value is not None and least <= value <= most, 'BadNumber')
    return value


def tear(word):
    """A tear, as its canonical word."""
    if word in ('none', 'all'):
        return word
    kind, colon, rest = word.partition(':')
    if kind == 'seed' and colon:
        return 'seed:%d' % number(rest, U64)
    need(kind == 'spans' and colon, 'BadNumber')
    end, spans = 0, []
    for span in rest.split(','):
        parts = span.split('-')
        need(len(parts) == 2, 'BadNumber')
        first, last = number(parts[0], U64), number(parts[1], U64)
        need(end <= first < last <= GREATEST_SPAN, 'BadNumber')
        spans.append('%d-%d' % (first, last))
        end = last
    return 'spans:' + ','.join(spans)


def piece(word):
    """The length of a piece of data, and its canonical word."""
    if word.startswith('hex:'):
        need(HEX_PAIRS.fullmatch(word[4:]), 'BadNumber')
        return (len(word) - 4) // 2, word.lower()
    fill = FILL.fullmatch(word)
    if fill:
        length = number(fill.group(2), U64)
        return length, 'fill:%s:%d' % (fill.group(1).lower(), length)
    parts = word.split(':')
    need(len(parts) == 3 and parts[0] == 'seed', 'BadNumber')
    seed, length = number(parts[1], U64), number(parts[2], U64)
    return length, 'seed:%d:%d' % (seed, length)


# ---------------------------------------------------------------- what a plan has

class Chip:
    def __init__(self, page, spare, pages_per_block, blocks, bbt):
        self.page, self.spare = page, spare
        self.pages_per_block, self.blocks, self.bbt = pages_per_block, blocks, bbt
        self.block_bytes = pages_per_block * page
        self.has_parts = self.has_bus = False
        self.bad, self.used = set(), set()
        self.weak = {'program': set(), 'erase': set()}

    def tables_fit(self, bad):
        return self.bbt == 0 or sum(self.blocks - 4 <= block for block in bad) <= 2


class Device:
    def __init__(self, controller, chip, blocks):
        self.controller, self.chip, self.blocks = controller, chip, blocks
        self.size = blocks * chip.block_bytes


class Write:
    """A nandwrite: the session it is of, and what its cost depends on."""

    def __init__(self, session, device, first_block, units):
        self.session, self.device = session, device
        self.blocks = device.blocks - first_block
        self.units = units

    def cost(self, marking):
        chip = self.device.chip
        weak = min(len(chip.weak['program']) + marking, self.blocks)
        return self.blocks + self.units + (chip.pages_per_block + 2) * weak


class Marking:
    """What the commands so far of one boot do to one device: markings by session, and its writes."""

    def __init__(self):
        self.by_session, self.total = {}, 0
        self.writes, self.cost = [], 0

    def mark(self, session, count):
        self.by_session[session] = self.by_session.get(session, 0) + count
        self.total += count
        self.cost = sum(map(self.cost_of, self.writes))

    def cost_of(self, write):
        return write.cost(self.total - self.by_session.get(write.session, 0))

    def add(self, write):
        self.writes.append(write)
        self.cost += self.cost_of(write)


# ---------------------------------------------------------------- the options of commands

# For each command: its options in canonical order, each with whether a value follows; and its words behind them.
FORMS = {
    'flash_erase': ({'-N': False}, 3),
    'nandwrite': ({'-m': False, '-n': False, '-o': False, '-p': False, '-s': True}, 2),
    'nanddump': ({'-s': True, '-l': True, '-n': False, '-o': False}, 1),
    'nandtest': ({'-k': False, '-m': False, '-s': True, '-p': True, '-o': True, '-l': True}, 1),
    'markbad': ({}, 2),
    'isbad': ({}, 2),
    'stats': ({}, 1),
}
BAD_MODES = ('padbad', 'dumpbad', 'skipbad')


def options_of(command, words):
    """The options of a command's words, as a map, and the words behind them."""
    known, after = FORMS[command]
    found, at = {}, 0
    while at < len(words) and words[at].startswith('-'):
        word, value = words[at], True
        if command == 'nanddump' and word.startswith('--bb='):
            word, value = '--bb', word[5:]
            need(value in BAD_MODES, 'BadWords')
        else:
            need(word in known, 'BadWords')
            if known[word]:
                at += 1
                need(at < len(words), 'BadWords')
                value = words[at]
        need(word not in found, 'BadWords')
        found[word] = value
        at += 1
    need(len(words) - at == after, 'BadWords')
    return found, words[at:]


# ---------------------------------------------------------------- the lines

class Reader:
    def __init__(self):
        self.text = []
        self.begun = False
        self.controllers, self.devices = [], []     # a controller is the list of its chips
        self.data, self.data_bytes, self.pages = {}, 0, 0
        self.boots, self.flips = 0, 0
        self.sessions, self.cuts, self.has_schedule = [], set(), False
        self.marking, self.cost_over, self.cost_writes = {}, 0, 0

    def put(self, *words):
        self.text.append(' '.join(map(str, words)))

    # Places. Each says whether a line of its kind may stand after the lines so far.

    def in_head(self):
        return self.begun and not self.data and not self.boots

    def has_chip(self):
        return self.begun and bool(self.controllers) and bool(self.controllers[-1])

    def place_nandlab(self):
        return not self.begun

    def place_controller(self):
        return self.in_head() and (not self.controllers or self.has_chip())

    def place_chip(self):
        return self.in_head() and bool(self.controllers)

    def place_bad(self):
        return self.in_head() and self.has_chip() and not self.controllers[-1][-1].has_parts

    place_weak = place_bus = place_bad

    def place_part(self):
        return self.in_head() and self.has_chip()

    def place_data(self):
        return self.has_chip() and not self.boots

    def place_boot(self):
        return self.has_chip()

    def place_flip(self):
        return self.boots > 0 and not self.sessions

    place_cut = place_flip

    def place_session(self):
        return self.boots > 0 and not self.has_schedule

    place_schedule = place_session

    def place_command(self):
        return bool(self.sessions) and not self.has_schedule

    # Lines. Each has the words behind the first one, and raises the first rule that is broken.

    def line_nandlab(self, words):
        need(len(words) == 1 and number_of(words[0]) == 1, 'BadWords')
        self.begun = True
        self.put('nandlab', 1)

    def line_controller(self, words):
        need(not words, 'BadWords')
        need(len(self.controllers) < LIMIT_CONTROLLERS, 'TooLarge')
        self.controllers.append([])
        self.put('controller')

    def line_chip(self, words):
        need(len(words) in (6, 7), 'BadWords')
        page, spare, pages_per_block, blocks, strength, bbt, *rest = map(number, words)
        threshold = rest[0] if rest else 0
        need((page, spare) in ((2048, 64), (4096, 128), (4096, 224)) and pages_per_block in (64, 128)
             and 8 <= blocks <= 4096 and blocks % 4 == 0 and 1 <= strength <= 16 and bbt <= 2
             and threshold <= strength, 'BadSize')
        parities = page // 512 * ((13 * strength + 7) // 8)
        need(parities + (13 if bbt == 1 else 2) <= spare, 'SpareTooSmall')
        pages = self.pages + pages_per_block * blocks
        need(len(self.controllers[-1]) < LIMIT_CHIPS and pages <= LIMIT_PAGES, 'TooLarge')
        self.pages = pages
        self.controllers[-1].append(Chip(page, spare, pages_per_block, blocks, bbt))
        self.put('chip', page, spare, pages_per_block, blocks, strength, bbt,
                 threshold or (3 * strength + 3) // 4)

    def line_bad(self, words):
        need(words, 'BadWords')
        blocks = [number(word) for word in words]
        chip = self.controllers[-1][-1]
        need(max(blocks) < chip.blocks, 'OutOfChip')
        bad = chip.bad | set(blocks)
        need(chip.tables_fit(bad), 'TooFewTableBlocks')
        need(len(bad) == len(chip.bad) + len(blocks), 'Overlap')
        chip.bad = bad
        self.put('bad', *blocks)

    def line_weak(self, words):
        need(len(words) == 4 and words[0] in ('program', 'erase'), 'BadWords')
        kind, place, after, torn = words[0], number(words[1]), number(words[2]), tear(words[3])
        chip = self.controllers[-1][-1]
        need(place < chip.blocks * (chip.pages_per_block if kind == 'program' else 1), 'OutOfChip')
        need(place not in chip.weak[kind], 'Overlap')
        chip.weak[kind].add(place)
        self.put('weak', kind, place, after, torn)

    def line_bus(self, words):
        chip = self.controllers[-1][-1]
        need(not words and not chip.has_bus, 'BadWords')
        chip.has_bus = True
        self.put('bus')

    def line_part(self, words):
        need(len(words) == 2, 'BadWords')
        start, count = map(number, words)
        chip = self.controllers[-1][-1]
        need(start < chip.blocks and start + count <= chip.blocks, 'OutOfChip')
        count = count or chip.blocks - start
        blocks = set(range(start, start + count))
        need(not blocks & chip.used, 'Overlap')
        chip.used |= blocks
        chip.has_parts = True
        self.devices.append(Device(len(self.controllers) - 1, chip, count))
        self.put('part', start, count)

    def line_data(self, words):
        need(len(words) >= 2 and NAME.fullmatch(words[0]), 'BadWords')
        pieces = [piece(word) for word in words[1:]]
        need(words[0] not in self.data, 'Overlap')
        length = sum(length for length, _ in pieces)
        need(self.data_bytes + length <= LIMIT_DATA, 'TooLarge')
        self.data_bytes += length
        self.data[words[0]] = length
        self.put('data', words[0], *(word for _, word in pieces))

    def line_boot(self, words):
        need(not words, 'BadWords')
        need(self.boots < LIMIT_BOOTS, 'TooLarge')
        self.boots += 1
        self.sessions, self.cuts, self.has_schedule = [], set(), False
        self.cost_over += self.cost_writes
        self.marking, self.cost_writes = {}, 0
        self.put('boot')

    def line_flip(self, words):
        need(len(words) >= 4, 'BadWords')
        names = [number_of(word) for word in words[0].split('.')]
        need(len(names) == 2 and None not in names, 'BadWords')
        page, before = number(words[1]), number(words[2], least=1)
        bits = [number(word) for word in words[3:]]
        controller, k = names
        need(controller < len(self.controllers) and k < len(self.controllers[controller]), 'OutOfChip')
        chip = self.controllers[controller][k]
        need(page < chip.blocks * chip.pages_per_block and max(bits) < 8 * (chip.page + chip.spare), 'OutOfChip')
        need(self.flips < LIMIT_FLIPS, 'TooLarge')
        self.flips += 1
        self.put('flip', '%d.%d' % (controller, k), page, before, *bits)

    def line_cut(self, words):
        need(len(words) == 3 and number_of(words[0]) not in self.cuts, 'BadWords')
        controller, event, torn = number(words[0], U64), number(words[1], least=1), tear(words[2])
        need(controller < len(self.controllers), 'OutOfChip')
        self.cuts.add(controller)
        self.put('cut', controller, event, torn)

    def line_session(self, words):
        need(len(words) == 1, 'BadWords')
        controller = number(words[0], U64)
        need(controller < len(self.controllers), 'OutOfChip')
        need(len(self.sessions) < LIMIT_SESSIONS, 'TooLarge')
        self.sessions.append(controller)
        self.put('session', controller)

    def line_schedule(self, words):
        need(words, 'BadWords')
        numbers = [number(word, U64) for word in words]
        need(max(numbers) < len(self.sessions), 'OutOfChip')
        self.has_schedule = True
        self.put('schedule', *numbers)

    # Commands.

    def device(self, word):
        j = int(word[3:])
        need(j < len(self.devices) and self.devices[j].controller == self.sessions[-1], 'UnknownDevice')
        return self.devices[j]

    def charge(self, device, cost=0, marks=0, write=None):
        """Adds a command's cost, after it is known that the sum of all costs stays within the limit."""
        session = len(self.sessions) - 1
        marking = self.marking.setdefault(device, Marking())
        self.cost_writes -= marking.cost
        if marks:
            marking.mark(session, marks)
        if write:
            marking.add(write)
        self.cost_writes += marking.cost
        self.cost_over += cost
        need(self.cost_over + self.cost_writes <= LIMIT_COST, 'TooLarge')

    def line_command(self, command, words):
        options, rest = options_of(command, words)
        word = DEVICE.fullmatch(rest[0])
        need(word and int(word.group(1)) <= U64, 'BadWords')
        getattr(self, 'line_' + command)(options, *rest)

    def put_command(self, command, options, rest):
        """Options stand in the order of the command's form; a value that is its default is left out."""
        words = []
        for option, has_value in FORMS[command][0].items():
            if option in options:
                value = options[option]
                if not has_value:
                    words.append(option)
                elif value != (1 if option == '-p' else 0):
                    words += [option, value]
        if options.get('--bb', 'padbad') != 'padbad':
            words.append('--bb=' + options['--bb'])
        self.put(command, *words, *rest)

    def line_flash_erase(self, options, name, start, count):
        start, count = number(start), number(count)
        device = self.device(name)
        need(start < device.blocks and start + count <= device.blocks, 'OutOfChip')
        self.charge(device, 2 * (count or device.blocks - start))
        self.put_command('flash_erase', options, [name, start, count])

    def line_nandwrite(self, options, name, data):
        need(NAME.fullmatch(data), 'BadWords')
        options['-s'] = number(options.get('-s', '0'), U64)
        device = self.device(name)
        chip = device.chip
        need(data in self.data, 'UnknownName')
        unit = chip.page + (chip.spare if '-o' in options else 0)
        need(options['-s'] % chip.page == 0 and ('-p' in options or self.data[data] % unit == 0), 'NotMultiple')
        need(options['-s'] < device.size, 'OutOfChip')
        units = (self.data[data] + unit - 1) // unit
        write = Write(len(self.sessions) - 1, device, options['-s'] // chip.block_bytes, units)
        self.charge(device, marks=device.blocks if '-m' in options else 0, write=write)
        self.put_command('nandwrite', options, [name, data])

    def line_nanddump(self, options, name):
        options['-s'] = number(options.get('-s', '0'), U64)
        options['-l'] = number(options.get('-l', '0'), U64)
        device = self.device(name)
        page = device.chip.page
        off, length = options['-s'], options['-l']
        need(off % page == 0 and length % page == 0, 'NotMultiple')
        need(off < device.size and off + length <= device.size, 'OutOfChip')
        length = length or device.size - off
        block = device.chip.block_bytes
        self.charge(device, length // page + (off + length - 1) // block - off // block + 1)
        self.put_command('nanddump', options, [name])

    def line_nandtest(self, options, name):
        for option in ('-s', '-o', '-l'):
            options[option] = number(options.get(option, '0'), U64)
        passes = options['-p'] = number(options.get('-p', '1'), least=1)
        device = self.device(name)
        block, off, length = device.chip.block_bytes, options['-o'], options['-l']
        need(off % block == 0 and length % block == 0, 'NotMultiple')
        need(off < device.size and off + length <= device.size, 'OutOfChip')
        blocks = (length or device.size - off) // block
        pages = 2 * device.chip.pages_per_block
        cost = passes * blocks * (pages + 3 + (pages + 1 if '-k' in options else 0))
        self.charge(device, cost, marks=device.blocks if '-m' in options else 0)
        self.put_command('nandtest', options, [name])

    def line_markbad(self, options, name, block):
        block = number(block)
        self.charge(self.device(name), 1, marks=1)
        self.put('markbad', name, block)

    def line_isbad(self, options, name, block):
        block = number(block)
        self.charge(self.device(name), 1)
        self.put('isbad', name, block)

    def line_stats(self, options, name):
        self.charge(self.device(name), 1)
        self.put('stats', name)

    # All lines.

    def line(self, line):
        need(len(line) <= GREATEST_LINE, 'LineTooLong')
        need(ALLOWED.fullmatch(line), 'BadByte')
        words = []
        for word in line.decode('ascii').replace('\t', ' ').split(' '):
            if word.startswith('#'):
                break
            if word:
                words.append(word)
        if not words:
            return
        first, *rest = words
        if first in COMMANDS:
            need(self.place_command(), 'WrongPlace')
            self.line_command(first, rest)
        else:
            place = getattr(self, 'place_' + first, None) if first in LINES else None
            need(place, 'UnknownWord')
            need(place(), 'WrongPlace')
            getattr(self, 'line_' + first)(rest)


LINES = ('nandlab', 'controller', 'chip', 'bad', 'weak', 'bus', 'part', 'data', 'boot', 'flip', 'cut', 'session',
         'schedule')


def answer(plan):
    """What `nandlab check` writes for the bytes of a plan, and the exit status."""
    if len(plan) > GREATEST_PLAN:
        return 3, b'line 0: TooLong\n'
    lines = plan.split(b'\n')
    if not lines[-1]:
        lines.pop()
    reader = Reader()
    for at, line in enumerate(lines, 1):
        try:
            reader.line(line)
        except Refused as broken:
            return 3, b'line %d: %s\n' % (at, str(broken).encode())
    if not reader.boots:
        return 3, b'line %d: Ended\n' % (len(lines) + 1)
    return 0, '\n'.join(reader.text + ['']).encode()


def main():
    status, text = answer(sys.stdin.buffer.read())
    sys.stdout.buffer.write(text)
    return status


if __name__ == '__main__':
    sys.exit(main())
