"""The view of a script that is debugged, in the model: the screen that `debug --view` draws at a terminal after each line.

It was written from docs/CONSOLE.md ("A view"), over the console of the model. compare/rows/worked_views.py has screens that were worked out by
hand, and compare/runs/views.py compares a program with it.
"""

from typing import NamedTuple

from model.console import Look
from model.console_lines import can_go_on, has_ended, stands_at
from model.debugger import lines_of

CLEAR = b'\x1b[2J\x1b[H'
BETWEEN = b' | '
GUTTER, NUMBER = 9, 4
# What takes the place of a screen, or of an answer, that is refused memory.
UNDRAWN, MEMORY = b'memory for the screen was refused\n', b'refused: memory\n'


class Size(NamedTuple):
    """How many rows and columns a screen has."""
    rows: int = 24
    columns: int = 80


def shown(data):
    """Bytes as they are shown: a tab as a blank, and what is no printable ASCII as a question mark."""
    return bytes(32 if byte == 9 else byte if 32 <= byte <= 126 else 63 for byte in data)


def cut(line, columns):
    return shown(line[:columns])


def left_columns(columns):
    return max(columns // 2 - 1, 0)


def pane_rows(rows, ranks):
    """How many rows the panes have."""
    return min(max(rows - 6, 0), max(max(rows - 2, 0) // 2, ranks))


def raw_lines(text):
    """The lines of a text, each with the line feed that ends it, if one does."""
    *lines, last = text.split(b'\n')
    return [line + b'\n' for line in lines] + [last] * bool(last)


def last_lines(lines, rows, columns):
    """The last of some lines, in so many rows; of those above the first row tells how many they are."""
    if len(lines) <= rows:
        return lines
    above = len(lines) - rows + 1
    return [cut(b'.. %d lines above' % above, columns) + b'\n', *lines[above:]]


def answer_line(line, columns):
    """A line of an answer, as a screen has it."""
    if not line.endswith(b'\n'):
        return cut(line, columns)
    return cut(line[:-1].removesuffix(b'\r'), columns) + b'\n'


def pointer(ranks):
    """What points to a line where these ranks stand."""
    if not ranks:
        return b''
    told = b''.join(b'%d ' % rank for rank in ranks) + b'>'
    return told if len(told) <= GUTTER else b'%d here >' % len(ranks)


class View:
    """A console, and the screen that is drawn after each of its answers."""

    def __init__(self, console, size):
        self.console, self.size = console, size
        console.look = Look(size.columns)

    @property
    def ranks(self):
        return range(len(self.console.world.ranks))

    def first(self):
        """The screen before any line is read."""
        return self.drawn(self.console.first.encode() + self.console.prompt().encode())

    def answer(self, line):
        """The screen after a line without its end; nothing after `quit`."""
        told = self.console.answer(line).encode()
        return self.drawn(told if self.console.is_over else told + self.console.prompt().encode())

    def drawn(self, told):
        """The screen after what the console has said; nothing where that is nothing."""
        return self.screen(told) if told else b''

    def screen(self, told):
        rows = pane_rows(self.size.rows, len(self.ranks))
        left = max(self.size.rows - rows - 1, 0)
        answer = b''.join(answer_line(line, self.size.columns) for line in last_lines(raw_lines(told), left, self.size.columns))
        return CLEAR + self.panes(rows) + self.state() + answer

    def can_go_on(self, rank):
        """Whether a rank can go on."""
        world = self.console.world
        return not has_ended(world.ranks[rank]) if world.ranks[rank].mode == 'running' else can_go_on(world, rank)

    def focus(self):
        """The line that is shown in any case."""
        at = self.console.at
        first = [rank for rank in self.ranks if self.can_go_on(rank)] or [rank for rank in self.ranks if not has_ended(at.world.ranks[rank])]
        return stands_at(at, first[0]) if first else 1

    def above(self, rows, count):
        """How many lines of a script of so many stand above so many rows."""
        return min(max(self.focus() - 1 - rows // 2, 0), max(count - rows, 0))

    def here(self, number):
        """The ranks that stand at a line."""
        at = self.console.at
        return [rank for rank in self.ranks if stands_at(at, rank) == number]

    def cell(self, number, lines):
        """What the left pane has of a line, if there is one."""
        if number > len(lines):
            return b''
        return pointer(self.here(number)).rjust(GUTTER) + (b'%d' % number).rjust(NUMBER) + b'  ' + lines[number - 1]

    def panes(self, rows):
        """The panes, of so many rows."""
        lines, told = lines_of(self.console.text), [line.encode() for line in self.console.ranks()]
        above = self.above(rows, len(lines))
        return b''.join(self.row(self.cell(above + place + 1, lines), told[place] if place < len(told) else b'') for place in range(rows))

    def row(self, left, right):
        width = left_columns(self.size.columns)
        return cut(left, width).ljust(width) + BETWEEN + cut(right, max(self.size.columns - width - len(BETWEEN), 0)) + b'\n'

    def state(self):
        """The row that says where it stands."""
        told = f'-- depth {self.console.debugger.depth}; {self.console.where()[0]} '.encode()
        return cut(told + b'-' * self.size.columns, self.size.columns) + b'\n'
