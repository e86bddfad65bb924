#!/usr/bin/env python3
"""Replays a plan from standard input, and prints its report, or the line that the plan is refused with.

A second replay beside the proved one, written from the standard and not from the code under crates/; plans are read by
plan_reader.py. Exit status: 0, or 3 for a refusal. tools/random_plans.py compares the two programs.
"""
import functools
import sys

import plan_reader

# ---------------------------------------------------------------- the code of a step

DEGREE, ORDER, MODULUS = 13, 8191, 0x201b
BODY_BITS = 4096


def powers():
    exp, value = [], 1
    for _ in range(ORDER):
        exp.append(value)
        value <<= 1
        if value >> DEGREE:
            value ^= MODULUS
    return exp


EXP = powers()
LOG = {value: power for power, value in enumerate(EXP)}


def times(a, b):
    return EXP[(LOG[a] + LOG[b]) % ORDER] if a and b else 0


def minimal(j):
    """The product of X + a^(j 2^k), as a number whose bit k is the coefficient of X^k."""
    poly = [1]
    for k in range(DEGREE):
        root = EXP[(j << k) % ORDER]
        shifted = [0] + poly
        poly = [high ^ times(root, low) for high, low in zip(shifted, poly + [0])]
    return sum(coefficient << k for k, coefficient in enumerate(poly))


def product(a, b):
    total = 0
    while b:
        if b & 1:
            total ^= a
        a, b = a << 1, b >> 1
    return total


class Code:
    """The code of strength t over a step of 512 bytes and its stored parity."""

    def __init__(self, t):
        self.t, self.bits, self.length = t, DEGREE * t, (DEGREE * t + 7) // 8
        self.padding = 8 * self.length - self.bits
        self.generator = functools.reduce(product, (minimal(j) for j in range(1, 2 * t, 2)))
        self.table = [self.divide(byte << self.bits) for byte in range(256)]
        self.mask = ((1 << 8 * self.length) - 1) ^ (self.remainder(b'\xff' * 512) << self.padding)

    def divide(self, poly):
        while poly.bit_length() > self.bits:
            poly ^= self.generator << (poly.bit_length() - self.bits - 1)
        return poly

    def remainder(self, body):
        rest, keep = 0, (1 << self.bits) - 1
        for byte in body:
            rest = (rest << 8 & keep) ^ self.table[rest >> (self.bits - 8) ^ byte]
        return rest

    def stored(self, body):
        return (self.remainder(body) << self.padding ^ self.mask).to_bytes(self.length, 'big')

    def decode(self, body, stored):
        """Body and stored parity of the nearest code word with its distance, or None where none is near."""
        number = int.from_bytes(stored, 'big')
        parity = (number ^ self.mask) >> self.padding
        rest = self.remainder(body) ^ parity
        if rest == 0:
            return body, stored, 0
        places = self.wrong_places(rest)
        if places is None:
            return None
        flips = sum(1 << place for place in places)
        body = (int.from_bytes(body, 'big') ^ flips >> self.bits).to_bytes(512, 'big')
        parity ^= flips & (1 << self.bits) - 1
        if self.remainder(body) != parity:
            return None
        number ^= (flips & (1 << self.bits) - 1) << self.padding
        return body, number.to_bytes(self.length, 'big'), len(places)

    def wrong_places(self, rest):
        """The powers of x at the wrong bits, by Berlekamp and Massey, and a search over all places of the word."""
        syndromes = []
        for j in range(1, 2 * self.t + 1):
            value, left = 0, rest
            while left:
                low = left & -left
                value ^= EXP[j * (low.bit_length() - 1) % ORDER]
                left ^= low
            syndromes.append(value)
        locator, before, size, gap, last = [1], [1], 0, 1, 1
        for n, syndrome in enumerate(syndromes):
            wrong = syndrome
            for i in range(1, size + 1):
                if i < len(locator):
                    wrong ^= times(locator[i], syndromes[n - i])
            if wrong == 0:
                gap += 1
                continue
            scale = times(wrong, EXP[-LOG[last] % ORDER])
            step = [0] * gap + [times(scale, c) for c in before]
            grown = [a ^ b for a, b in zip(locator + [0] * (len(step) - len(locator)),
                                           step + [0] * (len(locator) - len(step)))]
            if 2 * size <= n:
                size, before, last, gap = n + 1 - size, locator, wrong, 1
            else:
                gap += 1
            locator = grown
        while not locator[-1]:
            locator.pop()
        if len(locator) - 1 > self.t:
            return None
        logs = [(i, LOG[c]) for i, c in enumerate(locator) if c]
        places = []
        for place in range(BODY_BITS + self.bits):
            value = 0
            for i, power in logs:
                value ^= EXP[(power - i * place) % ORDER]
            if value == 0:
                places.append(place)
        return places if len(places) == len(locator) - 1 else None


code = functools.lru_cache(None)(Code)


# ---------------------------------------------------------------- bytes

def seed_bytes(seed, first, count):
    mask, out = (1 << 64) - 1, bytearray(count)
    for at in range(count):
        z = seed + (first + at + 1) * 0x9e3779b97f4a7c15 & mask
        z = (z ^ z >> 30) * 0xbf58476d1ce4e5b9 & mask
        z = (z ^ z >> 27) * 0x94d049bb133111eb & mask
        out[at] = (z ^ z >> 31) & 0xff
    return bytes(out)


def piece_bytes(word):
    kind, *rest = word.split(':')
    if kind == 'hex':
        return bytes.fromhex(rest[0])
    if kind == 'fill':
        return bytes.fromhex(rest[0]) * int(rest[1])
    return seed_bytes(int(rest[0]), 0, int(rest[1]))


def rows(data):
    """Runs of equal rows of 32 bytes, a line each."""
    lines, at = [], 0
    while at < len(data):
        row, count = data[at:at + 32], 1
        while data[at + 32 * count:at + 32 * count + 32] == row:
            count += 1
        lines.append(' %08x %d %s' % (at, count, row.hex()))
        at += 32 * count
    return lines


# ---------------------------------------------------------------- chips and operations

GOOD, WORN, RESERVED, FACTORY = range(4)
STATE_WORDS = ('good', 'worn', 'reserved', 'factory')


LAST = 4  # the blocks at a chip's end that may hold tables
KINDS = {b'Bbt0': 'primary', b'1tbB': 'mirror'}
PATTERNS = {kind: pattern for pattern, kind in KINDS.items()}
OTHER = {'primary': 'mirror', 'mirror': 'primary'}
ON_FLASH, FROM_FLASH = (3, 2, 3, 0), (3, 1, 1, 0)


def done_bits(tear, page_in_block, raw):
    """The bits of a torn page that were done."""
    kind, _, rest = tear.partition(':')
    if kind == 'seed':
        return seed_bytes(int(rest), page_in_block * raw, raw)
    done = bytearray((b'\xff' if kind == 'all' else b'\0') * raw)
    for first, end in (map(int, span.split('-')) for span in rest.split(',') if span):
        done[first:end] = b'\xff' * len(done[first:end])
    return bytes(done)


class Weak:
    """A place that fails once it has been programmed or erased so often."""

    def __init__(self, after, tear):
        self.left, self.tear = after, tear

    def fails(self):
        self.left -= 1
        return self.left < 0


class Chip:
    def __init__(self, numbers):
        self.page, self.spare, self.pages_per_block, self.blocks, t, self.bbt, self.threshold = numbers
        self.raw = self.page + self.spare
        self.code = code(t)
        self.parity_start = self.spare - self.page // 512 * self.code.length
        self.cells, self.flips, self.weak = {}, {}, {}
        self.torn, self.flipped_since = set(), set()
        self.table_blocks = range(self.blocks - 1, self.blocks - 1 - LAST, -1) if self.bbt else ()
        self.start_boot()

    def start_boot(self):
        self.entries, self.holder = [], None

    def first_page(self, block):
        return block * self.pages_per_block

    def pages_of(self, block):
        return range(self.first_page(block), self.first_page(block + 1))

    def marker(self):
        return b'\xff' * self.page + b'\0' + b'\xff' * (self.spare - 1)

    def read(self, page):
        return self.cells.get(page, b'\xff' * self.raw)

    def program(self, page, image):
        self.cells[page] = bytes(a & b for a, b in zip(self.read(page), image))
        self.torn.discard(page)
        self.flipped_since.discard(page)

    def erase(self, block):
        for page in self.pages_of(block):
            self.cells.pop(page, None)
            self.flips.pop(page, None)
            self.torn.discard(page)
            self.flipped_since.discard(page)

    def tear(self, kind, place, image, tear):
        """A program or an erase of which a part was done; a read changes nothing."""
        pages = {'read': (), 'program': (place,), 'erase': self.pages_of(place) if kind == 'erase' else ()}[kind]
        for number, page in enumerate(pages):
            done, old = done_bits(tear, number, self.raw), self.read(page)
            if kind == 'program':
                self.cells[page] = bytes(a & (b | ~c & 0xff) for a, b, c in zip(old, image, done))
            else:
                self.cells[page] = bytes(a | c for a, c in zip(old, done))
            if page not in self.torn:
                self.torn.add(page)
                self.flipped_since.discard(page)

    def flip(self, page, bits):
        cells = bytearray(self.read(page))
        for bit in bits:
            cells[bit // 8] ^= 0x80 >> bit % 8
        self.cells[page] = bytes(cells)
        self.flips.setdefault(page, []).extend(bits)
        self.flipped_since.add(page)

    def flips_in(self, page, first, count):
        return sum(first <= bit < first + count for bit in self.flips.get(page, ()))

    def is_quiet(self):
        if any(self.flips_in(self.first_page(block), 8 * self.page, 8) for block in range(self.blocks)):
            return False
        return all(self.is_quiet_table(self.first_page(block)) for block in self.table_blocks)

    def is_quiet_table(self, page):
        if page in self.torn and page in self.flipped_since:
            return False
        if self.bbt == 1 and self.flips_in(page, 8 * (self.page + 8), 40):
            return False
        for step in range(self.page // 512):
            parity = 8 * (self.page + self.parity_start + step * self.code.length)
            if self.flips_in(page, BODY_BITS * step, BODY_BITS) + self.flips_in(page, parity, self.code.bits) > self.code.t:
                return False
        return True

    def image(self, body, free):
        """A page in its code: marker bytes of 0xFF, the free bytes, and the parity of each step."""
        parities = b''.join(self.code.stored(body[at:at + 512]) for at in range(0, self.page, 512))
        return body + b'\xff\xff' + free + parities

    def decode(self, cells):
        if cells == b'\xff' * self.raw:
            return cells, 0, 0, 0
        image, corrected, greatest, failed = bytearray(cells), 0, 0, 0
        for step in range(self.page // 512):
            body = slice(512 * step, 512 * step + 512)
            at = self.page + self.parity_start + step * self.code.length
            parity = slice(at, at + self.code.length)
            decoded = self.code.decode(bytes(cells[body]), bytes(cells[parity]))
            if decoded is None:
                failed += 1
            else:
                image[body], image[parity], wrong = decoded
                corrected += wrong
                greatest = max(greatest, wrong)
        return bytes(image), corrected, greatest, failed

    def table_page(self, kind, version):
        """The page of a copy of the entries."""
        table = bytearray(self.blocks // 4)
        for block, entry in enumerate(self.entries):
            table[block // 4] |= ON_FLASH[entry] << 2 * (block % 4)
        header, free = PATTERNS[kind] + bytes([version]), b'\xff' * (self.parity_start - 2)
        if self.bbt == 1:
            body, free = bytes(table), free[:6] + header + free[11:]
        else:
            body = header + bytes(table)
        return self.image(body.ljust(self.page, b'\xff'), free)

    def copy_in(self, cells):
        """The kind, the version and the states of the copy that a page holds, if it holds one."""
        decoded, _, _, failed = self.decode(cells)
        header = cells[self.page + 8:self.page + 13] if self.bbt == 1 else decoded[:5]
        if failed or header[:4] not in KINDS:
            return None
        table = decoded[0 if self.bbt == 1 else 5:]
        states = [FROM_FLASH[table[block // 4] >> 2 * (block % 4) & 3] for block in range(self.blocks)]
        return KINDS[header[:4]], header[4], states

    def fairness(self, kind, place, image, before):
        """What a torn event left in the first page of a table block, which stood so before it."""
        block = place // self.pages_per_block if kind == 'program' else place
        if kind == 'read' or block not in self.table_blocks or kind == 'program' and place % self.pages_per_block:
            return 'plain'
        after = self.copy_in(self.read(self.first_page(block)))
        if after is None:
            return 'missing'
        return 'whole' if after == self.copy_in(image if kind == 'program' else before) else 'foul'


class Reply:
    """What an operation is answered: its line, and for a page the image and the counts."""

    def __init__(self, text, image=b'', corrected=0, failed=0):
        self.text, self.image, self.corrected, self.failed = text, image, corrected, failed


class Device:
    def __init__(self, name, controller, chip, start, blocks):
        self.name, self.controller, self.chip, self.start, self.blocks = name, controller, chip, start, blocks
        self.first_page = chip.first_page(start)
        self.pages = blocks * chip.pages_per_block
        self.corrected = self.failed = 0

    def entries(self):
        return self.chip.entries[self.start:self.start + self.blocks]


def operate(device, kind, number, image):
    """Yields each page event of an operation as (kind, place, image), is sent whether it was good and what a read gave,
    and returns its reply."""
    chip = device.chip
    if kind == 'stats':
        bad = sum(entry != GOOD for entry in device.entries())
        return Reply('counts corrected %d failed %d bad %d' % (device.corrected, device.failed, bad))
    of_page = kind in ('read', 'write', 'rawread', 'rawwrite')
    if number >= (device.pages if of_page else device.blocks):
        return Reply('out of range')
    block = device.start + (number // chip.pages_per_block if of_page else number)
    place = device.first_page + number if of_page else block
    if kind == 'isbad':
        return Reply(STATE_WORDS[chip.entries[block]])
    if kind == 'mark':
        return Reply((yield from mark(chip, block)))
    if kind == 'rawread':
        _, cells = yield 'read', place, None
        return Reply('page raw corrected 0 greatest 0 failed 0', cells)
    if kind == 'read':
        _, cells = yield 'read', place, None
        decoded, corrected, greatest, failed = chip.decode(cells)
        word = 'uncorrectable' if failed else 'bitflips' if greatest >= chip.threshold else 'clean'
        text = 'page %s corrected %d greatest %d failed %d' % (word, corrected, greatest, failed)
        return Reply(text, decoded, corrected, failed)
    if chip.entries[block] != GOOD:
        return Reply('bad block')
    if kind == 'rawwrite' and image[chip.page] != 0xff:
        return Reply('marker byte')
    event = 'erase' if kind == 'erase' else 'program'
    good, _ = yield event, place, image
    return Reply('ok' if good else event + ' failed')


def mark(chip, block):
    """Marks a block: its marker, its entry, and then the tables."""
    if chip.entries[block] == RESERVED:
        return 'reserved'
    if chip.bbt and sum(chip.whole.values()) < 2:
        return 'copies %d' % sum(chip.whole.values())
    if chip.entries[block] in (WORN, FACTORY):
        return 'ok'
    yield 'erase', block, None
    marked, _ = yield 'program', chip.first_page(block), chip.marker()
    if marked or chip.bbt:
        chip.entries[block] |= WORN
    failed = None
    if chip.bbt:
        chip.version = (chip.version + 1) % 256
        failed = yield from write_tables(chip, ['primary', 'mirror'])
    if not marked:
        return 'marker failed'
    return 'table failed ' + failed if failed else 'ok'


def write_tables(chip, left):
    """Writes these copies of the table; a block that fails gives way to another. Returns the copy that failed for good."""
    while left:
        kind = left[0]
        chip.whole[kind] = False
        good, _ = yield 'erase', chip.places[kind], None
        if good:
            page = chip.first_page(chip.places[kind])
            good, _ = yield 'program', page, chip.table_page(kind, chip.version)
        if good:
            chip.whole[kind], left = True, left[1:]
            continue
        chip.entries[chip.places[kind]] |= WORN
        free = [block for block in chip.table_blocks
                if chip.entries[block] == RESERVED and block != chip.places[OTHER[kind]]]
        if not free:
            return kind
        chip.places[kind], chip.version = free[0], (chip.version + 1) % 256
        left = [kind, OTHER[kind]]
    return None


def attach(chip):
    """Yields the page events of an attach, and returns where the table came from."""
    if not chip.bbt:
        chip.version, chip.whole = 0, {}
        chip.entries = yield from marker_table(chip)
        return 'markers'
    candidates = []
    for block in chip.table_blocks:
        _, cells = yield 'read', chip.first_page(block), None
        if cells[chip.page] == 0xff:
            candidates.append((block, chip.copy_in(cells)))
    found = found_copies(candidates)
    chip.places = places_of(chip, [block for block, _ in candidates], found)
    primary, mirror = found.get('primary'), found.get('mirror')
    if primary is None and mirror is None:
        origin, left, chip.version = 'markers', ['primary', 'mirror'], 1
        entries = yield from marker_table(chip)
    else:
        origin = chosen(primary, mirror)
        chip.version, entries = found[origin][1:]
        same = len(found) == 2 and primary[1] == mirror[1]
        left = [] if same else [OTHER[origin]]
    chip.entries = [entry | RESERVED * (block in chip.table_blocks) for block, entry in enumerate(entries)]
    chip.whole = {kind: kind not in left for kind in ('primary', 'mirror')}
    yield from write_tables(chip, left)
    return origin


def marker_table(chip):
    entries = []
    for block in range(chip.blocks):
        _, cells = yield 'read', chip.first_page(block), None
        entries.append(GOOD if cells[chip.page] == 0xff else FACTORY)
    return entries


def calls_bad(copy, block):
    return copy is not None and copy[2][block] in (WORN, FACTORY)


def found_copies(candidates):
    """The first copy of each kind that no other candidate disowns, as block, version and states."""
    found = {}
    for block, copy in candidates:
        disowned = any(calls_bad(other, block) for at, other in candidates if at != block)
        if copy and not disowned:
            found.setdefault(copy[0], (block, *copy[1:]))
    return found


def places_of(chip, candidates, found):
    """The block of each copy: where it was found, or the highest one that is free for it."""
    places = {kind: copy[0] for kind, copy in found.items()}
    for kind in ('primary', 'mirror'):
        if kind not in places:
            other = places.get(OTHER[kind])
            good = [block for block in candidates if block != other
                    and not any(states[block] in (WORN, FACTORY) for _, _, states in found.values())]
            places[kind] = (good + [block for block in chip.table_blocks if block != other])[0]
    return places


def chosen(primary, mirror):
    """The copy that is used: the newer one by the signed difference of the versions, else the primary."""
    if primary is None or mirror is None:
        return 'mirror' if primary is None else 'primary'
    difference = (primary[1] - mirror[1]) % 256
    return 'primary' if difference < 128 else 'mirror'


# ---------------------------------------------------------------- commands
# A command yields operations (kind, number, image) on its device, is sent the replies, and returns its lines.

def is_bad(block):
    reply = yield 'isbad', block, None
    return reply.text != 'good'


def flash_erase(device, options, start, count):
    erased = bad = failed = 0
    first, count = int(start), int(count)
    for block in range(first, first + count if count else device.blocks):
        if '-N' not in options and (yield from is_bad(block)):
            bad += 1
        elif (yield 'erase', block, None).text == 'ok':
            erased += 1
        else:
            failed += 1
    return ['flash_erase %s: erased %d, bad %d, failed %d' % (device.name, erased, bad, failed)]


def write_unit(device, options, page, unit):
    """Writes one unit: raw as it is, or in the code with its free bytes."""
    chip = device.chip
    body, spare = unit[:chip.page], unit[chip.page:] or b'\xff' * chip.spare
    if '-n' in options:
        return (yield 'rawwrite', page, body + spare).text
    return (yield 'write', page, chip.image(body, spare[2:chip.parity_start])).text


def give_up(options, block):
    """Erases a block in which a page failed, and marks it where that is asked for."""
    yield 'erase', block, None
    if '-m' in options:
        yield 'mark', block, None


def nandwrite(device, options, data):
    chip = device.chip
    size = chip.raw if '-o' in options else chip.page
    units = [data[at:at + size].ljust(size, b'\xff') for at in range(0, len(data), size)]
    done = skipped = failed = 0
    page, ending = options.get('-s', 0) // chip.page, ''
    while done < len(units) and not ending:
        if page >= device.pages:
            ending = ', no space'
            break
        block = page // chip.pages_per_block
        after, first = (block + 1) * chip.pages_per_block, done
        if (yield from is_bad(block)):
            skipped += 1
            page = after
        while done < len(units) and page < after and not ending:
            answer = yield from write_unit(device, options, page, units[done])
            if answer == 'ok':
                page, done = page + 1, done + 1
                continue
            if answer == 'marker byte':
                ending = ', marker byte'
                break
            page, done = after, first
            failed += answer == 'program failed'
            skipped += answer == 'bad block'
            if answer == 'program failed':
                yield from give_up(options, block)
    return ['nandwrite %s: pages %d, skipped %d, failed %d%s' % (device.name, done, skipped, failed, ending)]


def nanddump(device, options):
    chip = device.chip
    first = options.get('-s', 0) // chip.page
    last = first + options['-l'] // chip.page if options.get('-l') else device.pages
    size = chip.raw if '-o' in options else chip.page
    pages = bad = corrected = failed = 0
    mode, dump, page = options.get('--bb', 'padbad'), bytearray(), first
    while page < last:
        block = page // chip.pages_per_block
        after = min(last, (block + 1) * chip.pages_per_block)
        if mode != 'dumpbad' and (yield from is_bad(block)):
            bad += 1
            dump += b'\xff' * (size * (after - page) if mode == 'padbad' else 0)
            page = after
        for page in range(page, after):
            reply = yield ('rawread' if '-n' in options else 'read'), page, None
            pages, corrected, failed = pages + 1, corrected + reply.corrected, failed + reply.failed
            dump += reply.image[:size]
        page = after
    return ['nanddump %s: pages %d, bad %d, corrected %d, failed %d'
            % (device.name, pages, bad, corrected, failed)] + rows(bytes(dump))


class BlockTest:
    """A nandtest: what it counts, and how it tests a block."""

    def __init__(self, device, options):
        self.device, self.options = device, options
        self.counts = dict.fromkeys(('blocks', 'bad', 'worn', 'mismatched', 'corrected', 'failed'), 0)

    def read(self, page):
        reply = yield 'read', page, None
        self.counts['corrected'] += reply.corrected
        self.counts['failed'] += reply.failed
        return reply.image[:self.device.chip.page]

    def fill(self, block, pages, bodies):
        """Erases a block and writes bodies to its pages; gives the first answer that is not `ok`."""
        answer = (yield 'erase', block, None).text
        for page, body in zip(pages, bodies):
            if answer == 'ok':
                answer = yield from write_unit(self.device, {}, page, body)
        return answer

    def refill(self, block, pages, bodies):
        """Fills a block, and counts why it could not be; tells whether it could."""
        answer = yield from self.fill(block, pages, bodies)
        if answer == 'bad block':
            self.counts['bad'] += 1
        elif answer != 'ok':
            yield from self.worn(block)
        return answer == 'ok'

    def worn(self, block):
        self.counts['worn'] += 1
        if '-m' in self.options:
            yield 'mark', block, None

    def block(self, seed, block):
        chip = self.device.chip
        pages = range(chip.first_page(block), chip.first_page(block + 1))
        if (yield from is_bad(block)):
            self.counts['bad'] += 1
            return
        kept = []
        for page in pages if '-k' in self.options else ():
            kept.append((yield from self.read(page)))
        bodies = [seed_bytes(seed, page * chip.page, chip.page) for page in pages]
        if not (yield from self.refill(block, pages, bodies)):
            return
        mismatched = 0
        for page, body in zip(pages, bodies):
            mismatched += (yield from self.read(page)) != body
        self.counts['mismatched'] += mismatched
        if mismatched:
            yield from self.worn(block)
        elif not kept or (yield from self.refill(block, pages, kept)):
            self.counts['blocks'] += 1


def nandtest(device, options):
    size, passes = device.chip.pages_per_block * device.chip.page, options.get('-p', 1)
    first = options.get('-o', 0) // size
    last = first + options['-l'] // size if options.get('-l') else device.blocks
    test = BlockTest(device, options)
    for run in range(passes):
        for block in range(first, last):
            yield from test.block(options.get('-s', 0) + run, block)
    counts = ', '.join('%s %d' % row for row in test.counts.items())
    return ['nandtest %s: passes %d, %s' % (device.name, passes, counts)]


def markbad(device, options, block):
    return ['markbad %s %s: %s' % (device.name, block, (yield 'mark', int(block), None).text)]


def isbad(device, options, block):
    return ['isbad %s %s: %s' % (device.name, block, (yield 'isbad', int(block), None).text)]


def stats(device, options):
    words = (yield 'stats', None, None).text.split()
    return ['stats %s: corrected %s, failed %s, bad %s' % (device.name, words[2], words[4], words[6])]


TOOLS = {tool.__name__: tool for tool in (flash_erase, nandwrite, nanddump, nandtest, markbad, isbad, stats)}


# ---------------------------------------------------------------- sessions and controllers

class Session:
    def __init__(self, number, controller):
        self.number, self.controller = number, controller
        self.commands, self.lines, self.finished = [], [], 0
        self.running = self.events = self.reply = None

    def start(self):
        self.work = self.course()
        self.advance(None)

    def course(self):
        for tool, device, options, rest in self.commands:
            self.device = device
            self.lines += yield from TOOLS[tool](device, options, *rest)
            self.finished += 1

    def advance(self, reply):
        """Takes the reply to the last operation, and keeps the next one; None where all is over."""
        try:
            self.operation = self.work.send(reply)
        except StopIteration:
            self.operation = None

    def step(self, answer):
        """Keeps the next page event of the operation in flight, or its reply."""
        try:
            self.event = self.events.send(answer)
        except StopIteration as end:
            self.event, self.reply = None, end.value


class Controller:
    def __init__(self, number):
        self.number, self.chips = number, []
        self.start_boot()

    def start_boot(self):
        self.notes, self.event, self.flips, self.cut, self.dark = [], 0, {}, None, False
        for chip in self.chips:
            chip.start_boot()

    def do_event(self, chip, quiet, kind, place, image):
        """The flips that are due, and a page event; tells whether it was good, what was read, and whether the attach is
        still quiet."""
        self.event += 1
        for k, page, bits in self.flips.get(self.event, ()):
            self.chips[k].flip(page, bits)
        quiet = quiet and chip.is_quiet()
        before = chip.read(chip.first_page(place)) if kind == 'erase' else None
        weak = chip.weak.get((kind, place))
        fails = weak is not None and weak.fails()
        self.dark = self.cut is not None and self.cut[0] == self.event
        if not fails and not self.dark:
            cells = chip.read(place) if kind == 'read' else None
            if kind == 'program':
                chip.program(place, image)
            elif kind == 'erase':
                chip.erase(place)
            return (True, cells), quiet
        chip.tear(kind, place, image, self.cut[1] if self.dark else weak.tear)
        self.notes.append('torn %d.%d event %d %s %d %s %s' % (
            self.number, self.chips.index(chip), self.event, kind, place, 'cut' if self.dark else 'fault',
            chip.fairness(kind, place, image, before)))
        return (False, None), quiet

    def attach(self):
        for k, chip in enumerate(self.chips):
            quiet, answer, events = True, None, attach(chip)
            while True:
                try:
                    event = events.send(answer)
                except StopIteration as end:
                    origin = end.value
                    break
                answer, quiet = self.do_event(chip, quiet, *event)
                if self.dark:
                    return
            bad = ','.join('%d%s' % (block, 'w' if entry == WORN else 'f')
                           for block, entry in enumerate(chip.entries) if entry in (WORN, FACTORY)) or '-'
            self.notes.append('attach %d.%d %s version %d copies %d quiet %s bad %s' % (
                self.number, k, origin, chip.version, sum(chip.whole.values()), 'yes' if quiet else 'no', bad))

    def turn(self, session):
        if self.dark or session.operation is None:
            return
        chip = session.device.chip
        if session.events is None:
            if chip.holder is None:
                self.begin(session, chip)
        elif session.event is not None:
            answer, _ = self.do_event(chip, False, *session.event)
            if not self.dark:
                session.step(answer)
        else:
            self.end(session, chip)

    def begin(self, session, chip):
        chip.holder = session
        kind, number, image = session.operation
        self.notes.append('b %d %s %s' % (session.number, kind, session.device.name)
                          + (' %d' % number if number is not None else ''))
        session.events = operate(session.device, kind, number, image)
        session.step(None)

    def end(self, session, chip):
        reply, device = session.reply, session.device
        self.notes.append('a %d %s' % (session.number, reply.text))
        self.notes += rows(reply.image)
        device.corrected += reply.corrected
        device.failed += reply.failed
        chip.holder = session.events = None
        session.advance(reply)


# ---------------------------------------------------------------- plans

def options_of(words):
    """The options of a canonical command as a map with numbers, and the words from its device on."""
    options, at = {}, 0
    while words[at].startswith('-'):
        if words[at].startswith('--bb='):
            options['--bb'] = words[at][5:]
        elif words[at + 1][0].isdigit():
            options[words[at]] = int(words[at + 1])
            at += 1
        else:
            options[words[at]] = True
        at += 1
    return options, words[at:]


class Replay:
    """Goes through the lines of a canonical plan, and runs each boot where it ends."""

    def __init__(self):
        self.controllers, self.devices, self.data = [], [], {}
        self.boot, self.report = -1, []

    def line(self, first, words):
        if first in TOOLS:
            options, (name, *rest) = options_of(words)
            if first == 'nandwrite':
                rest = [self.data[rest[0]]]
            self.sessions[-1].commands.append((first, self.devices[int(name[3:])], options, rest))
        else:
            getattr(self, 'line_' + first)(*words)

    def line_nandlab(self, one):
        pass

    def line_controller(self):
        self.controllers.append(Controller(len(self.controllers)))

    def line_chip(self, *numbers):
        self.controllers[-1].chips.append(Chip(list(map(int, numbers))))

    def line_bad(self, *blocks):
        chip = self.controllers[-1].chips[-1]
        for block in map(int, blocks):
            chip.program(chip.first_page(block), chip.marker())

    def line_weak(self, kind, place, after, tear):
        self.controllers[-1].chips[-1].weak[kind, int(place)] = Weak(int(after), tear)

    def line_bus(self):
        pass    # a chip behind a bus does what it does without one

    def line_part(self, start, count):
        chip = self.controllers[-1].chips[-1]
        name = 'mtd%d' % len(self.devices)
        self.devices.append(Device(name, len(self.controllers) - 1, chip, int(start), int(count)))

    def line_data(self, name, *pieces):
        self.data[name] = b''.join(map(piece_bytes, pieces))

    def line_boot(self):
        if self.boot >= 0:
            self.run()
        self.boot += 1
        self.sessions, self.schedule = [], []
        for controller in self.controllers:
            controller.start_boot()
        for device in self.devices:
            device.corrected = device.failed = 0

    def line_flip(self, chip, page, before, *bits):
        controller, k = map(int, chip.split('.'))
        flips = self.controllers[controller].flips.setdefault(int(before), [])
        flips.append((k, int(page), list(map(int, bits))))

    def line_cut(self, controller, event, tear):
        self.controllers[int(controller)].cut = int(event), tear

    def line_session(self, controller):
        self.sessions.append(Session(len(self.sessions), self.controllers[int(controller)]))

    def line_schedule(self, *numbers):
        self.schedule = list(map(int, numbers))

    def run(self):
        """One boot: attaches, the turns of the schedule, rounds of all sessions, and the lines of the report."""
        for controller in self.controllers:
            controller.attach()
        for session in self.sessions:
            session.start()
        for number in self.schedule:
            self.sessions[number].controller.turn(self.sessions[number])
        while any(session.operation is not None and not session.controller.dark for session in self.sessions):
            for session in self.sessions:
                session.controller.turn(session)
        self.report.append('boot %d' % self.boot)
        for controller in self.controllers:
            self.report += ['controller %d' % controller.number] + controller.notes
        for session in self.sessions:
            self.report += ['session %d' % session.number] + session.lines
            if session.operation is not None:
                self.report.append('cut after %d' % session.finished)
        for device in self.devices:
            self.report.append('device %s corrected %d failed %d' % (device.name, device.corrected, device.failed))
        self.report.append('end boot %d' % self.boot)


def answer(plan):
    """What `nandlab replay` writes for the bytes of a plan, and the exit status."""
    status, text = plan_reader.answer(plan)
    if status:
        return status, text
    replay = Replay()
    for line in text.decode().splitlines():
        first, *words = line.split()
        replay.line(first, words)
    replay.run()
    return 0, '\n'.join(replay.report + ['']).encode()


def main():
    status, text = answer(sys.stdin.buffer.read())
    sys.stdout.buffer.write(text)
    return status


if __name__ == '__main__':
    sys.exit(main())
