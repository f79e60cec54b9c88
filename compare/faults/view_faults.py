"""Faults that are put into the view of the model on purpose: views.py must notice each."""

from inspect import isfunction

from faults.policy_faults import Breakage
from model import view
from model.console_lines import has_ended, stands_at
from model.debugger import lines_of
from model.view import BETWEEN, CLEAR, View

SOUND = {name: value for name, value in vars(View).items() if isfunction(value)}


def of_view(name, faults):
    """Faults that stand in the place of a method, each by what it is called."""
    return [Breakage(f'{name}: {what}', View, name, replacement) for what, replacement in faults.items()]


def of_rows(name, faults):
    """The same of a function."""
    return [Breakage(f'{name}: {what}', view, name, replacement) for what, replacement in faults.items()]


def panes_with(cell=None, told=None):
    """What draws the panes with other cells, or other lines about ranks."""
    def panes(self, rows):
        lines, own = lines_of(self.console.text), [line.encode() for line in self.console.ranks()]
        about, above = own if told is None else told(own), self.above(rows, len(lines))
        cells = [self.cell(above + place + 1, lines) if cell is None else cell(self, above + place, lines) for place in range(rows)]
        return b''.join(self.row(one, about[place] if place < len(about) else b'') for place, one in enumerate(cells))
    return panes


def row_with(width=0, fill=b' ', between=BETWEEN):
    """What draws a row of the panes otherwise."""
    def row(self, left, right):
        first = max(view.left_columns(self.size.columns) + width, 0)
        return view.cut(left, first).ljust(first, fill) + between + view.cut(right, max(self.size.columns - first - len(between), 0)) + b'\n'
    return row


def cell_with(number=0, width=view.NUMBER, ranks=None):
    """What draws a line of the script otherwise."""
    def cell(self, place, lines):
        if place > len(lines):
            return b''
        here = self.here(place) if ranks is None else ranks(self, place)
        return view.pointer(here).rjust(view.GUTTER) + (b'%d' % (place + number)).rjust(width) + b'  ' + lines[place - 1]
    return cell


def screen_with(rows=0, left=0):
    """What draws a screen of other parts."""
    def screen(self, told):
        panes = max(view.pane_rows(self.size.rows, len(self.ranks)) + rows, 0)
        count = max(self.size.rows - panes - 1 + left, 0)
        lines = view.raw_lines(told)
        answer = b''.join(view.answer_line(line, self.size.columns) for line in view.last_lines(lines, count, self.size.columns))
        return CLEAR + self.panes(panes) + self.state() + answer
    return screen


def first_lines(self, told):
    """A screen with the first lines of an answer."""
    rows = view.pane_rows(self.size.rows, len(self.ranks))
    lines = view.raw_lines(told)[:max(self.size.rows - rows - 1, 0)]
    return CLEAR + self.panes(rows) + self.state() + b''.join(view.answer_line(line, self.size.columns) for line in lines)


def focus_on(choose):
    """What shows the line of another rank in any case."""
    def focus(self):
        at = self.console.at
        ranks = choose(self, [rank for rank in self.ranks if not has_ended(at.world.ranks[rank])])
        return stands_at(at, ranks[0]) if ranks else 1
    return focus


def state_with(change):
    """What tells otherwise where it stands, by the depth and the lines that tell it."""
    def state(self):
        told = change(self.console.debugger.depth, self.console.where()).encode()
        return view.cut(told + b'-' * self.size.columns, self.size.columns) + b'\n'
    return state


def one_less_above(lines, rows, _columns):
    """The last lines, where the first row tells of one line less than stand above."""
    above = len(lines) - rows
    return lines if above <= 0 else [b'.. %d lines above\n' % above, *lines[above + 1:]]


def breakages():
    """All of them."""
    return [
        *of_view('drawn', {'a screen after quit': lambda self, told: self.screen(told)}),
        *of_view('first', {'without its prompt': lambda self: self.drawn(self.console.first.encode()) or self.screen(b''),
                           'nothing is drawn first': lambda self: b''}),
        *of_view('answer', {'without a prompt': lambda self, line: self.drawn(self.console.answer(line).encode())}),
        *of_view('screen', {'a row of panes more': screen_with(rows=1), 'a row of panes less': screen_with(rows=-1), 'a line of the answer more': screen_with(left=1),
                            'a line of the answer less': screen_with(left=-1), 'the first lines of the answer': first_lines}),
        *of_view('focus', {'of the first rank': focus_on(lambda self, ranks: ranks),
                           'of the last rank that can go on': focus_on(lambda self, ranks: ([rank for rank in ranks if self.can_go_on(rank)] or ranks)[::-1]),
                           'line 1': lambda self: 1}),
        *of_view('can_go_on', {'each rank that has not ended': lambda self, rank: not has_ended(self.console.world.ranks[rank]),
                               'a running one alone': lambda self, rank: self.console.world.ranks[rank].mode == 'running' and not has_ended(self.console.world.ranks[rank])}),
        *of_view('above', {'a line less above': lambda self, rows, count: max(SOUND['above'](self, rows, count) - 1, 0),
                           'past the end': lambda self, rows, count: max(self.focus() - 1 - rows // 2, 0),
                           'the line first': lambda self, rows, count: min(max(self.focus() - 1, 0), max(count - rows, 0))}),
        *of_view('cell', {'numbers from 0': cell_with(number=-1), 'numbers in five columns': cell_with(width=5),
                          'ranks of the line before': cell_with(ranks=lambda self, place: self.here(place - 1)),
                          'the first rank alone': cell_with(ranks=lambda self, place: self.here(place)[:1])}),
        *of_view('panes', {'ranks from the last': panes_with(told=lambda lines: lines[::-1]), 'without the first rank': panes_with(told=lambda lines: lines[1:]),
                           'lines are repeated': panes_with(cell=lambda self, place, lines: self.cell(max(place, 1), lines))}),
        *of_view('row', {'a column more on the left': row_with(1), 'a column less on the left': row_with(-1), 'another bar': row_with(between=b' ! '),
                         'filled with dots': row_with(fill=b'.')}),
        *of_view('state', {'a step more': state_with(lambda depth, lines: f'-- depth {depth + 1}; {lines[0]} '),
                           'its last line': state_with(lambda depth, lines: f'-- depth {depth}; {lines[-1]} '),
                           'no blank behind it': state_with(lambda depth, lines: f'-- depth {depth}; {lines[0]}')}),
        *of_rows('pointer', {'never a number of ranks': lambda ranks: b''.join(b'%d ' % rank for rank in ranks) + b'>' if ranks else b'',
                             'without a mark': lambda ranks: b' '.join(b'%d' % rank for rank in ranks),
                             'always a number of ranks': lambda ranks: b'%d here >' % len(ranks) if ranks else b''}),
        *of_rows('shown', {'tabs as they are': lambda data: bytes(byte if byte == 9 or 32 <= byte <= 126 else 63 for byte in data),
                           'a tab as a question mark': lambda data: bytes(byte if 32 <= byte <= 126 else 63 for byte in data)}),
        *of_rows('cut', {'a column more': lambda line, columns: view.shown(line[:columns + 1]), 'never': lambda line, columns: view.shown(line)}),
        *of_rows('left_columns', {'a half': lambda columns: columns // 2}),
        *of_rows('last_lines', {'nothing tells of those above': lambda lines, rows, columns: lines[max(len(lines) - rows, 0):],
                                'one line less above': one_less_above}),
        *of_rows('pane_rows', {'a half': lambda rows, ranks: rows // 2, 'whatever the ranks': lambda rows, ranks: min(max(rows - 6, 0), max(rows - 2, 0) // 2),
                               'a row for each rank': lambda rows, ranks: max(max(rows - 2, 0) // 2, ranks)}),
        *of_rows('CLEAR', {'the screen stays': b'\x1b[H'}),
    ]
