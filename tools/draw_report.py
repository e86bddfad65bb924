#!/usr/bin/env python3
"""Draws the report of a plan as one picture (SVG), and writes it to standard output.

  tools/draw_report.py PLAN REPORT > PICTURE

The picture has a map of the blocks of each chip, a row for each boot, and for each controller of each boot the
operations of its sessions in the order of the notes, with the events that failed or were cut. The plan gives sizes and
partitions, the report all else: nothing is replayed. The script is no part of what is proved.
"""
import sys
from xml.sax.saxutils import escape

import plan_reader

WIDTH, MARGIN, LABEL = 960, 20, 64
LINE, LANE, STEP, BLOCK = 16, 22, 52, 18
RED, DARK, PALE = '#d9534f', '#222222', '#999999'
STATES = {'good': '#d7ead7', 'worn': '#e8a33d', 'factory': '#4a4a4a', 'reserved': '#a9c3e6', 'unknown': '#ffffff'}
ANSWERS = {'done': '#8fb8de', 'corrected': '#f2d16b', 'failed': RED, 'unanswered': '#ffffff', 'attach': '#d5d5d5'}
KEY_OF_STATES = {'good': 'good', 'worn': 'worn', 'factory': 'factory bad', 'reserved': 'reserved for tables',
                 'unknown': 'not attached'}
KEY_OF_ANSWERS = {'done': 'answered', 'corrected': 'bits corrected', 'failed': 'refused or failed',
                  'unanswered': 'not answered', 'attach': 'attached'}


# ---------------------------------------------------------------- what the plan and the report say

class Chip:
    def __init__(self, name, numbers):
        self.name, self.pages_per_block, self.blocks, self.has_tables = name, numbers[2], numbers[3], numbers[5] != 0

    def states_at_attach(self, found):
        """The states of all blocks, by the list of bad ones in an attach line."""
        states = ['good'] * self.blocks
        if self.has_tables:
            states[-4:] = ['reserved'] * 4
        for block in [] if found == '-' else found.split(','):
            states[int(block[:-1])] = {'w': 'worn', 'f': 'factory'}[block[-1]]
        return states


class Operation:
    """An operation of a session; it begins and ends at places in the order of the notes."""

    def __init__(self, words, begun):
        self.session, self.kind, self.device = int(words[0]), words[1], int(words[2][3:])
        self.number = int(words[3]) if len(words) > 3 else None
        self.begun, self.ended, self.reply = begun, None, ''

    def label(self):
        return self.kind if self.number is None else f'{self.kind} {self.number}'

    def answer(self):
        words = self.reply.split()
        if not words:
            return 'unanswered'
        if words[0] == 'page':
            return 'failed' if words[1] == 'uncorrectable' else 'corrected' if words[3] != '0' else 'done'
        is_done = words[0] in ('ok', 'counts') or self.kind == 'isbad' and self.reply in STATES
        return 'done' if is_done else 'failed'


class ChipInBoot:
    """The states of a chip's blocks as it was attached and as the boot left them, and its torn events by block."""

    def __init__(self, chip):
        self.before = self.after = ['unknown'] * chip.blocks
        self.torn, self.attach = {}, 'attach not finished'


class ControllerInBoot:
    """The notes of one controller in one boot."""

    def __init__(self):
        self.length, self.attaches, self.operations, self.pending, self.events = 0, [], [], {}, []

    def place(self):
        self.length += 1
        return self.length - 1


class Boot:
    def __init__(self, chips):
        self.chips, self.controllers = {name: ChipInBoot(it) for name, it in chips.items()}, []


class Run:
    """A plan's chips and devices, and what its report says of each boot."""

    def __init__(self, plan, report):
        self.chips, self.devices, self.boots, self.notes = {}, [], [], None
        self.read_plan(plan)
        for line in report:
            first, *words = line.split()
            if line[:1] != ' ' and first in ('boot', 'controller', 'session') or self.notes and first in NOTES:
                getattr(self, 'line_' + first)(*words)

    def read_plan(self, plan):
        """Takes the lines that give chips and devices; a plan that is refused has no report."""
        controllers = []
        for line in plan:
            first, *words = line.partition('#')[0].split() or ['']
            if first == 'controller':
                controllers.append(0)
            elif first == 'chip':
                chip = Chip(f'{len(controllers) - 1}.{controllers[-1]}', list(map(plan_reader.number_of, words)))
                self.chips[chip.name] = chip
                controllers[-1] += 1
            elif first == 'part':
                self.devices.append((chip.name, plan_reader.number_of(words[0])))

    def line_boot(self, *words):
        self.boots.append(Boot(self.chips))

    def line_controller(self, *words):
        self.notes = ControllerInBoot()
        self.boots[-1].controllers.append(self.notes)

    def line_session(self, *words):
        self.notes = None

    def line_attach(self, name, origin, _, version, __, copies, ___, quiet, ____, found):
        chip = self.boots[-1].chips[name]
        chip.before = self.chips[name].states_at_attach(found)
        chip.after = list(chip.before)
        tables = f', version {version}, copies {copies}' if self.chips[name].has_tables else ''
        chip.attach = f'by {origin}{tables}' + ('' if quiet == 'yes' else ', not quiet')
        self.notes.attaches.append((self.notes.place(), name))

    def line_b(self, *words):
        operation = Operation(words, self.notes.place())
        self.notes.pending[operation.session] = operation
        self.notes.operations.append(operation)

    def line_a(self, session, *reply):
        operation = self.notes.pending.pop(int(session))
        operation.ended, operation.reply = self.notes.place(), ' '.join(reply)
        name, start = self.devices[operation.device]
        after = self.boots[-1].chips[name].after
        if operation.kind == 'mark' and operation.reply == 'ok' and after[start + operation.number] == 'good':
            after[start + operation.number] = 'worn'

    def line_torn(self, name, _, event, kind, where, cause, fairness):
        place = 'block' if kind == 'erase' else 'page'
        block = int(where) // (1 if kind == 'erase' else self.chips[name].pages_per_block)
        how = 'cut' if cause == 'cut' else 'failed'
        text = f'event {event}: {kind} of {place} {where} of chip {name} {how}'
        text += '' if fairness == 'plain' else f' ({fairness})'
        self.boots[-1].chips[name].torn.setdefault(block, []).append(text)
        self.notes.events.append((self.notes.place(), text))


NOTES = ('attach', 'b', 'a', 'torn')


# ---------------------------------------------------------------- drawing

def length(number):
    return f'{round(number, 2):g}'


class Picture:
    """The elements so far, and the height that they take."""

    def __init__(self):
        self.elements, self.height = [], MARGIN

    def rect(self, x, y, width, height, fill, border=PALE, title=''):
        x, y, width, height = map(length, (x, y, width, height))
        size = f'x="{x}" y="{y}" width="{width}" height="{height}"'
        inside = f'<title>{escape(title)}</title>' if title else ''
        self.elements.append(f'<rect {size} fill="{fill}" stroke="{border}" stroke-width="0.5">{inside}</rect>')

    def text(self, x, y, text, size=11, weight='normal', fill=DARK):
        style = f'font-size="{size}" font-weight="{weight}" fill="{fill}"'
        self.elements.append(f'<text x="{length(x)}" y="{length(y)}" {style}>{escape(text)}</text>')

    def path(self, steps):
        steps = ''.join(it if isinstance(it, str) else length(it) + ' ' for it in steps)
        self.elements.append(f'<path d="{steps.strip()}" stroke="{RED}" stroke-width="1.5"/>')

    def cross(self, x, y, half):
        self.path(['M', x - half, y - half, 'L', x + half, y + half, 'M', x + half, y - half, 'L', x - half, y + half])

    def heading(self, text):
        self.height += LINE
        self.text(MARGIN, self.height, text, 13, 'bold')
        self.height += LINE / 2

    def key(self, colours, meanings, last):
        """A line of coloured squares with their meanings, ended by a cross with its own."""
        x = MARGIN
        for name, meaning in meanings.items():
            self.rect(x, self.height, 11, 11, colours[name])
            self.text(x + 16, self.height + 10, meaning)
            x += 34 + 6.2 * len(meaning)
        self.cross(x + 5, self.height + 5.5, 4)
        self.text(x + 16, self.height + 10, last)
        self.height += LINE + 4

    def svg(self):
        width, height = WIDTH, length(self.height + MARGIN)
        size = f'width="{width}" height="{height}" viewBox="0 0 {width} {height}"'
        head = f'<svg xmlns="http://www.w3.org/2000/svg" {size} font-family="sans-serif">'
        return '\n'.join([head, '<rect width="100%" height="100%" fill="#ffffff"/>', *self.elements, '</svg>', ''])


def draw_blocks(picture, chip, columns, cell):
    """The blocks of a chip in one boot: the left half as it was attached, the right half as the boot left it.

    Where cells are small, blocks that stay as most are only share one rectangle.
    """
    common = None
    if cell < BLOCK:
        common = 'unknown' if chip.before[0] == 'unknown' else 'good'
        rows = -(-len(chip.before) // columns)
        picture.rect(MARGIN + LABEL, picture.height, columns * cell, rows * cell, STATES[common])
    for block, (before, after) in enumerate(zip(chip.before, chip.after)):
        if before == after == common and block not in chip.torn:
            continue
        x, y = MARGIN + LABEL + block % columns * cell, picture.height + block // columns * cell
        states = KEY_OF_STATES[before] + ('' if before == after else f', then {KEY_OF_STATES[after]}')
        title = '; '.join([f'block {block}: {states}', *chip.torn.get(block, [])])
        picture.rect(x, y, cell, cell, STATES[before], title=title)
        if before != after:
            picture.rect(x + cell / 2, y, cell / 2, cell, STATES[after], title=title)
        if block in chip.torn:
            picture.cross(x + cell / 2, y + cell / 2, cell * 0.3)


def draw_chip(picture, chip, boots):
    columns, cell = (chip.blocks, BLOCK) if chip.blocks <= 32 else (64, 9) if chip.blocks <= 256 else (128, 4.5)
    rows = -(-chip.blocks // columns)
    picture.heading(f'chip {chip.name}: {chip.blocks} blocks')
    if rows == 1:
        for block in range(chip.blocks):
            picture.text(MARGIN + LABEL + block * cell + 3, picture.height + 10, str(block), 9)
        picture.height += LINE - 2
    for number, boot in enumerate(boots):
        found = boot.chips[chip.name]
        picture.text(MARGIN, picture.height + 13, f'boot {number}')
        draw_blocks(picture, found, columns, cell)
        picture.text(MARGIN + LABEL + columns * cell + 12, picture.height + 13, found.attach)
        picture.height += max(rows * cell, LINE) + 4


class Bar:
    """A stretch of a lane, in places of the notes."""

    def __init__(self, begun, ended, answer, label, title):
        self.begun, self.ended, self.answer, self.label, self.title, self.count = begun, ended, answer, label, title, 1

    def join(self, other):
        self.ended, self.label, self.count = other.ended, '', self.count + 1
        self.title = f'{self.count} operations: {KEY_OF_ANSWERS[self.answer]}'


def bars_of(operations, length, step):
    """The bars of a session's operations. Too narrow ones are joined, if they were answered alike."""
    bars = []
    for it in operations:
        ended = length if it.ended is None else it.ended + 1
        title = f'mtd{it.device}: {it.label()}: {it.reply or "not answered"}'
        bar = Bar(it.begun, ended, it.answer(), it.label(), title)
        if bars and step < 2 and bars[-1].answer == bar.answer and (bar.begun - bars[-1].ended) * step < 1:
            bars[-1].join(bar)
        else:
            bars.append(bar)
    return bars


def draw_lane(picture, label, bars, step):
    picture.text(MARGIN, picture.height + 14, label)
    for bar in bars:
        x, width = MARGIN + LABEL + bar.begun * step, (bar.ended - bar.begun) * step
        border = RED if bar.answer == 'unanswered' else PALE
        picture.rect(x, picture.height + 2, width, LANE - 5, ANSWERS[bar.answer], border, bar.title)
        if 5.6 * len(bar.label) < width:
            fill = '#ffffff' if bar.answer == 'failed' else DARK
            picture.text(x + 3, picture.height + 14, bar.label, 10, fill=fill)
    picture.height += LANE


def draw_controller(picture, notes):
    """A lane for the attaches and one for each session; below them the torn events, with a line up to their places."""
    step, top = min(STEP, (WIDTH - 2 * MARGIN - LABEL) / max(notes.length, 1)), picture.height
    attaches = [Bar(at, at + 1, 'attach', f'chip {name}', f'chip {name} attached') for at, name in notes.attaches]
    draw_lane(picture, 'attaches', attaches, step)
    sessions = {}
    for it in notes.operations:
        sessions.setdefault(it.session, []).append(it)
    for session, operations in sorted(sessions.items()):
        draw_lane(picture, f'session {session}', bars_of(operations, notes.length, step), step)
    for at, text in notes.events:
        x = MARGIN + LABEL + (at + 0.5) * step
        picture.path(['M', x, top, 'L', x, picture.height + 4])
        picture.cross(x, picture.height + 8, 4)
        picture.text(min(x + 8, WIDTH - 6 * len(text)), picture.height + 12, text, fill=RED)
        picture.height += LINE


def draw(run):
    picture = Picture()
    picture.key(STATES, KEY_OF_STATES, 'an event in the block failed or was cut')
    for chip in run.chips.values():
        draw_chip(picture, chip, run.boots)
    picture.height += LINE
    picture.key(ANSWERS, KEY_OF_ANSWERS, 'an event failed or was cut')
    for number, boot in enumerate(run.boots):
        for controller, notes in enumerate(boot.controllers):
            picture.heading(f'boot {number}, controller {controller}')
            draw_controller(picture, notes)
    return picture.svg()


def main():
    if len(sys.argv) != 3:
        sys.exit(__doc__)
    with open(sys.argv[1], encoding='ascii') as plan, open(sys.argv[2], encoding='ascii') as report:
        sys.stdout.write(draw(Run(plan, report)))


if __name__ == '__main__':
    main()
