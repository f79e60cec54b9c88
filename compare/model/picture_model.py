"""The picture of a run, in the model: a space-time diagram as SVG, and the same as text, as docs/PICTURES.md says.

It was written from that page, over the debugger, the runs and the explorer of the model. compare/runs/pictures.py compares a program with it.
"""

from itertools import starmap
from typing import NamedTuple, Optional

from model.console_lines import has_ended, whole_text, reached
from model.debugger import Debugger, call_word, enabled_steps, find_call, first_world, last_call, outcome, partner
from model.explaining import next_line, plain_text
from model.modes import slots_of
from model.run_words import follower, run_by
from model.walks import Run, ending, listed, taken
from model.worlds import CallId

MOST_GLYPHS = 20000
MOST_LABEL = 16
TOO_LONG = 'refused: this run has too many calls to be drawn\n'
ISSUED, PAIRED, RELEASED, WENT_ON, NOTED = 'issued', 'paired', 'released', 'went on', 'noted'


# ---- rows

class Note(NamedTuple):
    """What a rank does by itself that is drawn: the value that it prints, or the trap; and the line of its statement."""
    rank: int
    line: int
    value: Optional[int]
    trap: Optional[str]


class Glyph(NamedTuple):
    """What a step shows, the row at which it is drawn, and the calls that it is about, or the note."""
    kind: str
    row: int
    call: Optional[CallId] = None
    other: Optional[CallId] = None
    note: Optional[Note] = None


def note_of_step(rank, before, behind):
    """What a rank has done by itself in a step that is drawn, if anything."""
    if behind.mode == 'trapped':
        return Note(rank, next_line(before), None, behind.trap)
    printed = behind.printed[len(before.printed):]
    return Note(rank, next_line(before), printed[0], None) if printed else None


def glyphs_of_step(step, before, behind, row):
    """What a step shows, where the next row is this one."""
    if step.kind == 'local':
        if len(behind.ranks[step.first].calls) > len(before.ranks[step.first].calls):
            return [Glyph(ISSUED, row, last_call(behind, step.first))]
        note = note_of_step(step.first, before.ranks[step.first], behind.ranks[step.first])
        return [] if note is None else [Glyph(NOTED, row, note=note)]
    if step.kind == 'match':
        return [Glyph(PAIRED, row, step.first, step.second)]
    if step.kind == 'release':
        return [Glyph(RELEASED, row), *(Glyph(WENT_ON, row, last_call(behind, rank)) for rank in range(len(behind.ranks)))]
    return [Glyph(WENT_ON, row - 1, last_call(behind, step.first))]


def takes_row(glyph):
    return glyph.kind != WENT_ON


def glyphs_of(walked):
    """All that the steps of a walk show, in order."""
    glyphs, row = [], 0
    for step, before, behind in zip(walked.steps, walked.worlds, walked.worlds[1:]):
        shown = glyphs_of_step(step, before, behind, row)
        glyphs += shown
        row += any(map(takes_row, shown))
    return glyphs


class Mark(NamedTuple):
    """What a step shows, the row at which it is drawn, and its place in the list of what is told."""
    kind: str
    row: int
    place: int
    call: Optional[CallId] = None
    other: Optional[CallId] = None
    note: Optional[Note] = None


def lanes_of(glyph, count):
    """The ranks in whose lanes stands what a step shows."""
    if glyph.kind == RELEASED:
        return range(count)
    return [{PAIRED: glyph.other, NOTED: glyph.note}.get(glyph.kind, glyph.call).rank]


class TakenRows(NamedTuple):
    """The rows that are taken: the next of each lane, that of each call, and that of the last match of each rank's sends."""
    nexts: dict
    issued: dict
    sent: dict


def row_after(rows, glyph, lanes):
    """The row of what a step shows: below all in its lanes, and below what it waits for elsewhere."""
    row = max((rows.nexts.get(lane, 0) for lane in lanes), default=0)
    if glyph.kind == PAIRED:
        return max(row, rows.issued.get(glyph.call, -1) + 1)
    return max(row - 1, rows.sent.get(glyph.call.rank, 0)) if glyph.kind == WENT_ON else row


def marks_of(glyphs, count):
    """The same by rows."""
    rows, marks = TakenRows({}, {}, {}), []
    for glyph in glyphs:
        lanes = lanes_of(glyph, count)
        row = row_after(rows, glyph, lanes)
        rows.nexts.update((lane, row + 1) for lane in lanes)
        if glyph.kind == ISSUED:
            rows.issued[glyph.call] = row
        if glyph.kind == PAIRED:
            rows.sent[glyph.call.rank] = max(row, rows.sent.get(glyph.call.rank, 0))
        marks.append(Mark(glyph.kind, row, glyph.row, glyph.call, glyph.other, glyph.note))
    return marks


def is_open(world, step):
    """Whether somebody has to choose a step: a match of a receive of any source, or a request of a waitany."""
    return step.kind == 'wakeany' or step.kind == 'match' and find_call(world, step.second).other is None


def candidates_of(world):
    """The candidates of a choice; none where another step is enabled."""
    steps = enabled_steps(world)
    return steps if all(is_open(world, step) for step in steps) else []


class Picture:
    """What is drawn: the steps of a run, where they lead, and what they show."""

    def __init__(self, walked):
        self.walked, self.world, self.at = walked, walked.world, reached(walked)
        self.ranks = range(len(self.world.ranks))
        self.glyphs = marks_of(glyphs_of(walked), len(self.ranks))
        self.rows = max((mark.row + 1 for mark in self.glyphs), default=0)
        self.places = sum(map(takes_row, self.glyphs))
        self.issued = {glyph.call: glyph.row for glyph in self.glyphs if glyph.kind == ISSUED}

    @property
    def is_stuck(self):
        return not enabled_steps(self.world)

    @property
    def is_too_long(self):
        return len(self.glyphs) > MOST_GLYPHS

    def is_free(self, call_id):
        return find_call(self.world, call_id).kind in ('send', 'recv') and partner(self.world, call_id) is None


def word_of(call):
    return call_word(call) if call.kind in ('send', 'recv') else call.kind


# ---- the drawing: what is the same in each

LARGE_STYLE = '''<style type="text/css">
.mpd{font-family:sans-serif;font-size:15px}
.mpd-head{font-size:17px}
.mpd-number{font-size:17px}
</style>
'''
STYLE = '''<style type="text/css">
.mpd{font-family:monospace;font-size:11px;fill:#000}
.mpd-head{font-size:13px;font-weight:bold}
.mpd-name{text-anchor:middle}
.mpd-left{text-anchor:end}
.mpd-paper{fill:#fff}
.mpd-lane{stroke:#999;stroke-width:1}
.mpd-waiting{stroke:#b45f06;stroke-width:5}
.mpd-posted{stroke:#38761d;stroke-width:1.5;stroke-dasharray:4 2;fill:none}
.mpd-arrow{stroke:#0b5394;stroke-width:1.5;fill:none;marker-end:url(#mpd-tip)}
.mpd-candidate{stroke:#0b5394;stroke-width:1.5;stroke-dasharray:6 4;fill:none;marker-end:url(#mpd-tip)}
.mpd-want{stroke:#c00;stroke-width:1.5;stroke-dasharray:2 3;fill:none;marker-end:url(#mpd-wanted)}
.mpd-number{font-size:13px;font-weight:bold;text-anchor:middle}
.mpd-bar{stroke:#000;stroke-width:4}
.mpd-stub{stroke:#000;stroke-width:1.5;fill:#fff}
.mpd-send{fill:#0b5394;stroke:#000}
.mpd-recv{fill:#fff;stroke:#000;stroke-width:1.5}
.mpd-wait{fill:#b45f06;stroke:#000}
.mpd-waitany{fill:#fff;stroke:#b45f06;stroke-width:2}
.mpd-barrier{fill:#000;stroke:#000}
.mpd-print{fill:#ffd966;stroke:#000}
.mpd-ended{fill:none;stroke:#000;stroke-width:3}
.mpd-running{fill:#fff;stroke:#000;stroke-width:1.5}
.mpd-held{fill:#fff;stroke:#b45f06;stroke-width:2}
.mpd-blocked{fill:#c00;stroke:#000}
.mpd-trapped{fill:none;stroke:#c00;stroke-width:3}
</style>
<defs><marker id="mpd-tip" viewBox="0 0 10 10" refX="10" refY="5" markerWidth="9" markerHeight="9" markerUnits="userSpaceOnUse" orient="auto"><path d="M0 1L10 5L0 9z" fill="#0b5394"/></marker><marker id="mpd-wanted" viewBox="0 0 10 10" refX="10" refY="5" markerWidth="9" markerHeight="9" markerUnits="userSpaceOnUse" orient="auto"><path d="M0 1L10 5L0 9z" fill="#c00"/></marker></defs>
'''
DISC, SQUARE, FLAT = 'm-5 0a5 5 0 1 0 10 0a5 5 0 1 0 -10 0z', 'm-5 -5h10v10h-10z', 'm-8 -3h16v6h-16z'
PATHS = {'send': DISC, 'recv': DISC, 'wait': SQUARE, 'waitany': SQUARE, 'barrier': FLAT}
KNOB = 'm-3 0a3 3 0 1 0 6 0a3 3 0 1 0 -6 0'
DIAMOND, CROSS = 'm0 -5l5 5l-5 5l-5 -5z', 'm-5 -5l10 10m0 -10l-10 10'
TO_RIGHT, TO_LEFT, FROM_LEFT, FROM_FAR = 'l12 16' + KNOB, 'l-12 16' + KNOB, 'l-18 0' + KNOB, 'l-26 0' + KNOB
ENDS = {'ended': 'm-9 0h18', 'running': 'm-6 -5h12l-6 10z', 'held': 'm-6 -7h12l-12 14h12z',
        'blocked': 'm-3 -7h6l5 5v5l-5 5h-6l-5 -5v-5z', 'trapped': 'm-6 -6l12 12m0 -12l-12 12'}


def lane_x(rank):
    return 132 + 160 * rank


def row_y(row):
    return 80 + 36 * row


def told_y(place):
    return 52 + 16 * place


def line(kind, x1, y1, x2, y2):
    return f'<line class="mpd-{kind}" x1="{x1}" y1="{y1}" x2="{x2}" y2="{y2}"/>\n'


def path(kind, x, y, rest):
    return f'<path class="mpd-{kind}" d="M{x} {y}{rest}"/>\n'


def text(kind, x, y, content):
    return f'<text class="mpd-{kind}" x="{x}" y="{y}">{content}</text>\n'


def group(title, *parts):
    return f'<g><title>{title}</title>\n{"".join(parts)}</g>\n'


def in_columns(columns):
    """The legend: columns of shapes, each with what it is."""
    for x, (shape_x, entries) in zip((40, 230, 460), columns):
        for place, (form, kind, rest, told) in enumerate(entries):
            y = 20 * place
            if form == 'line':
                shape = f'<line class="mpd-{kind}" x1="{shape_x}" y1="{y}" x2="{shape_x + 20}" y2="{y}"/>'
            else:
                shape = f'<path class="mpd-{kind}" d="M{form[0]} {y + form[1]}{rest}"/>'
            yield f'{shape}<text x="{x}" y="{y + 4}">{told}</text>\n'


COLUMNS = ((None, (((20, 0), 'send', DISC, 'a send'), ((20, 0), 'recv', DISC, 'a receive'), ((20, 0), 'wait', SQUARE, 'a wait'),
                   ((20, 0), 'waitany', SQUARE, 'a wait for any'), ((20, 0), 'barrier', FLAT, 'a barrier'), ((10, 0), 'want', 'L30 100', 'waits for a rank'),
                   ((20, 0), 'print', DIAMOND, 'a print'))),
           (200, (((200, -5), 'arrow', 'L220 5', 'a message, up to its match'), ((204, -6), 'stub', TO_RIGHT, 'a send that is not matched'),
                  ((218, 0), 'stub', FROM_LEFT, 'a receive that is not'), ('line', 'posted', '', 'a receive is posted'),
                  ('line', 'waiting', '', 'a rank waits'), ((200, -5), 'candidate', 'L220 105', 'a candidate of a choice'))),
           (430, (('line', 'bar', '', 'a release'), ((440, 0), 'ended', ENDS['ended'], 'ended'), ((440, 0), 'blocked', ENDS['blocked'], 'blocked for good'),
                  ((440, 0), 'trapped', ENDS['trapped'], 'trapped'), ((440, 0), 'running', ENDS['running'], 'can go on'),
                 ((440, 0), 'held', ENDS['held'], 'waits'))))
LEGEND = ''.join(in_columns(COLUMNS)) + '</g>\n</svg>\n'


# ---- the drawing: its shapes

def path_between(sender, x1, y1, receiver, x2, y2):
    """The path from a place of a sender to one of a receiver."""
    if sender == receiver:
        return f'C{x1 - 40} {y1} {x2 - 40} {y2} {x2} {y2}'
    side, tip = (80, x2 - 7) if sender < receiver else (-80, x2 + 4)
    turns = '' if abs(sender - receiver) == 1 else f'L{x1 + side} {y2 - 28}L{x2 - side} {y2 - 9}'
    return f'{turns}L{tip} {y2}'


def beside_of(receive):
    """Where a receive is posted, at the left of its lane."""
    return lane_x(receive.rank) - 8 - 4 * (receive.number % 4)


def beside(is_left, x, y, label):
    """A label beside a lane."""
    return text('left', x - 24, y + 4, label) if is_left else text('right', x + 12, y + 4, label)


def first_short(*labels):
    """The first label that has so many characters at most."""
    return next(label for label in (*labels, '..') if len(label) <= MOST_LABEL)


def label_of(send):
    """What stands beside a match."""
    return first_short(f'{send.value} tag {send.tag}', f'{send.value}')


def label_of_note(note):
    """What stands beside a print or a trap."""
    what = note.trap or f'{note.value}'
    return first_short(f'{note.line} {what if note.trap else f"print {what}"}', what)


def told_of_note(note):
    return f'rank {note.rank} {f"is trapped: {note.trap}" if note.trap else f"prints {note.value}"}'


TRACKS, MOST_HUNG = 6, 4


def tracks_height(count):
    """How much lower a drawing of so many ranks ends."""
    return 8 * max(count - TRACKS, 0)


class Drawing(Picture):
    """A picture as SVG."""

    @property
    def column(self):
        return max(lane_x(len(self.ranks)), 620)

    def listed(self, glyph):
        """What is told of a glyph, in the list."""
        if glyph.kind == WENT_ON:
            return ''
        told = {ISSUED: lambda: whole_text(self.at, glyph.call), PAIRED: lambda: self.told_of_pair(glyph.call, glyph.other), RELEASED: lambda: 'release',
                NOTED: lambda: f'line {glyph.note.line}, {told_of_note(glyph.note)}'}
        return text('row', self.column, told_y(glyph.place), told[glyph.kind]())

    def told_of_pair(self, send, receive):
        call = find_call(self.world, send)
        return f'{send} to {receive}: value {call.value} tag {call.tag}'

    def lane(self, rank):
        return line('lane', lane_x(rank), 60, lane_x(rank), row_y(self.rows)) + text('name', lane_x(rank), 52, f'rank {rank}')

    def waiting(self, call_id, row):
        x = lane_x(call_id.rank)
        return line('waiting', x, row_y(self.issued[call_id]) + 5, x, row_y(row) + 5)

    def posted(self, call_id, row):
        x = lane_x(call_id.rank)
        return path('posted', x - 5, row_y(self.issued[call_id]), f'H{beside_of(call_id)}V{row_y(row)}H{x - 5}')

    def free(self, call_id, call, row):
        """What is drawn of a send or a receive that stays free."""
        x, y = lane_x(call_id.rank), row_y(row)
        if call.kind == 'recv':
            return self.posted(call_id, self.rows) + path('stub', x, y, FROM_FAR)
        return path('stub', x, y, TO_LEFT if call.other < call_id.rank else TO_RIGHT)

    def issued_call(self, glyph):
        call_id, x, y = glyph.call, lane_x(glyph.call.rank), row_y(glyph.row)
        call, told = find_call(self.world, call_id), whole_text(self.at, call_id)
        is_left = call.kind == 'send' and call.other > call_id.rank
        parts = path(call.kind, x, y, PATHS[call.kind]), beside(is_left, x, y, f'{self.at.lines[call_id]} {word_of(call)}')
        return (self.free(call_id, call, glyph.row) if self.is_free(call_id) else '') + group(told, *parts)

    def pair(self, glyph):
        send, receive = glyph.call, glyph.other
        x1, y1, x2, y2 = lane_x(send.rank), row_y(self.issued[send]), lane_x(receive.rank), row_y(glyph.row)
        rest = path_between(send.rank, x1, y1, receive.rank, x2, y2)
        label = beside(receive.rank < send.rank, x2, y2, label_of(find_call(self.world, send)))
        return self.posted(receive, glyph.row) + group(self.told_of_pair(send, receive), path('arrow', x1, y1, rest), label)

    def request(self, number, step):
        """A request that a waitany can go on by."""
        wait = last_call(self.world, step.first)
        call_id = CallId(step.first, self.world.ranks[step.first].handles[find_call(self.world, wait).first + step.second])
        x, y = lane_x(step.first), row_y(self.issued[call_id])
        rest = path_between(step.first, x, y, step.first, x, row_y(self.issued[wait]))
        return group(f'{number}: {whole_text(self.at, call_id)}', path('candidate', x, y, rest), text('number', x, y - 9, number))

    def candidate(self, number, step):
        """A candidate of the choice at the end."""
        if step.kind == 'wakeany':
            return self.request(number, step)
        send, receive = step.first, step.second
        x1, y1, x2, y2 = lane_x(send.rank), row_y(self.issued[send]), lane_x(receive.rank), row_y(self.issued[receive])
        told = f'{number}: {self.told_of_pair(send, receive)}'
        hanging = f'C{x1} {y1 + 18} {x2} {y2 + 18} {x2} {y2}'
        rest = path_between(send.rank, x1, y1, receive.rank, x2, y2) if send.rank == receive.rank else hanging
        return group(told, path('candidate', x1, y1, rest), text('number', x1, y1 - 9, number))

    def release(self, glyph):
        y = row_y(glyph.row)
        bar = line('bar', lane_x(0) - 14, y, lane_x(self.ranks[-1]) + 14, y)
        return group('release: all ranks leave the barrier', bar)

    def noted(self, glyph):
        """What a rank prints, or by what it is trapped."""
        note, x, y = glyph.note, lane_x(glyph.note.rank), row_y(glyph.row)
        kind, rest = ('trapped', CROSS) if note.trap else ('print', DIAMOND)
        return group(f'line {note.line}, {told_of_note(note)}', path(kind, x, y, rest), beside(False, x, y, label_of_note(note)))

    def glyph(self, glyph):
        if glyph.kind == WENT_ON:
            return self.waiting(glyph.call, glyph.row)
        return {ISSUED: self.issued_call, PAIRED: self.pair, RELEASED: self.release, NOTED: self.noted}[glyph.kind](glyph)

    def end(self, number):
        x, y, name = lane_x(number), row_y(self.rows), f'rank {number}'
        rank = self.world.ranks[number]
        kind, told = end_of(rank, self.is_stuck)
        waited = self.waiting(last_call(self.world, number), self.rows) if rank.mode == 'blocked' else ''
        line = self.at.lines[last_call(self.world, number)] if rank.mode == 'blocked' else None if kind == 'ended' else next_line(rank)
        place = '' if line is None else text('name', x, y + 52, f'line {line}')
        return waited + group(f'{name}: {told}', path(kind, x, y, ENDS[kind]), text('name', x, y + 24, name), text('name', x, y + 38, told), place, self.wanted(number, x, y))

    def wanted(self, number, x, y):
        """Whom a blocked rank waits for."""
        if self.world.ranks[number].mode != 'blocked':
            return ''
        words, rank = self.whom(find_call(self.world, last_call(self.world, number)), number)
        told = text('name', x, y + 66, f'for {words}')
        if not self.is_stuck or rank is None:
            return told
        return told + path('want', x + 12, y + 72, self.want_path(number, rank, x + 12, lane_x(rank) - 12, y))

    def want_path(self, number, rank, x1, x2, y):
        """The path of an arrow to a rank that is waited for: each at a height of its own where there are many ranks."""
        if len(self.ranks) > MOST_HUNG:
            return f'V{y + 84 + 8 * number}H{x2}V{y + 74}'
        low = y + (124 if rank < number else 108)
        return f'C{x1} {low} {x2} {low} {x2} {y + 74}'

    def whom(self, call, number):
        """Whom a call of a rank waits for, and the rank, if it is one."""
        if call.kind == 'wait' and call.target is not None:
            return self.whom(find_call(self.world, CallId(number, call.target)), number)
        if call.kind == 'barrier':
            absent = [rank for rank, there in enumerate(self.world.ranks) if there.mode != 'blocked' or there.calls[-1].kind != 'barrier']
            return (f'rank {absent[0]}', absent[0]) if len(absent) == 1 else ('all ranks', None)
        if call.kind in ('send', 'recv') and call.other is not None:
            return f'rank {call.other}', call.other
        return 'any rank' if call.kind == 'recv' else 'a request', None

    def svg(self, look):
        """The whole, as text, of this look: '' with list and legend, or 'plain' or 'large' without them."""
        low = row_y(self.rows) + tracks_height(len(self.ranks))
        width, height, title = self.column + 560, max(low + 274, told_y(self.places) + 12), title_of(self)
        if look:
            width, height = self.column, low + 134
        size, drawn = (f'width="{it * width // 5}" height="{it * height // 5}"' for it in (5, 8 if look == 'large' else 5))
        shapes = [*map(self.lane, self.ranks), *map(self.glyph, self.glyphs),
                  *starmap(self.candidate, enumerate(candidates_of(self.world), 1)), *map(self.end, self.ranks)]
        return (f'<svg xmlns="http://www.w3.org/2000/svg" class="mpd" version="1.1" {drawn} viewBox="0 0 {width} {height}">\n<title>{title}</title>\n{STYLE}{LARGE_STYLE if look == "large" else ""}'
                f'<rect class="mpd-paper" {size}/>\n{text("head", 12, 24, title)}{"".join(shapes)}{self.plain_end() if look else self.full_end()}')

    def plain_end(self):
        return '</svg>\n'

    def full_end(self):
        """The list, and the legend."""
        return f'{"".join(map(self.listed, self.glyphs))}<g transform="translate(12 {row_y(self.rows) + 140 + tracks_height(len(self.ranks))})">\n{LEGEND}'


def end_of(rank, is_stuck):
    """How a rank is at the end, in a state where no step is enabled or one is, and in words."""
    if rank.mode == 'trapped':
        return 'trapped', rank.trap
    if rank.mode == 'blocked':
        return ('blocked', 'blocked') if is_stuck else ('held', 'waits')
    return ('ended', 'ended') if has_ended(rank) else ('running', 'can go on')


def title_of(picture):
    how = 'can go on' if enabled_steps(picture.world) else outcome(picture.world)
    slots = slots_of(picture.world.mode)
    mode = picture.world.mode if slots is None else f'slots:{slots}'
    return f'{len(picture.ranks)} ranks, {mode}, {picture.walked.depth} steps: {how}'


# ---- the picture as text

LETTERS = {'send': 'S', 'recv': 'R', 'wait': 'W', 'waitany': 'A', 'barrier': 'B'}
END_LETTERS = {'ended': 'E', 'running': 'V', 'held': '~', 'blocked': '!', 'trapped': 'X'}
LETTERS_TOLD = ('S send, R receive, W wait, A waitany, B barrier, P print, o-> match, == release\n'
                'at the end: E ended, V can go on, ~ waits, ! blocked, X trapped\n')


class Rows(Picture):
    """A picture as text."""

    def row(self, signs, told):
        return f'{"".join(signs)} {told}\n'

    def issued_call(self, glyph):
        call_id = glyph.call
        call = find_call(self.world, call_id)
        signs = (f'{LETTERS[call.kind]} ' if rank == call_id.rank else '| ' for rank in self.ranks)
        short = plain_text(self.world, call_id).partition(' value')[0]
        return self.row(signs, f'{self.at.lines[call_id]}: {call_id} {short}{" free" if self.is_free(call_id) else ""}')

    def pair(self, glyph):
        send, receive = glyph.call, glyph.other
        signs = (sign_of_pair(send.rank, receive.rank, rank) for rank in self.ranks)
        return self.row(signs, f'{send} to {receive}: {find_call(self.world, send).value}')

    def noted(self, note):
        signs = (f'{"X" if note.trap else "P"} ' if rank == note.rank else '| ' for rank in self.ranks)
        return self.row(signs, f'{note.line}: {told_of_note(note)}')

    def glyph(self, glyph):
        if glyph.kind == WENT_ON:
            return ''
        if glyph.kind == NOTED:
            return self.noted(glyph.note)
        if glyph.kind == RELEASED:
            return self.row(['=='] * len(self.ranks), 'release')
        return self.issued_call(glyph) if glyph.kind == ISSUED else self.pair(glyph)

    def text(self):
        """The whole, as text."""
        ends = (f'{END_LETTERS[end_of(rank, self.is_stuck)[0]]} ' for rank in self.world.ranks)
        lines = [self.row((f'{rank % 10} ' for rank in self.ranks), 'line: call'), *map(self.glyph, self.glyphs), self.row(ends, 'at the end')]
        return ''.join(lines) + LETTERS_TOLD


def sign_of_pair(sender, receiver, rank):
    """What stands in a lane where a message is taken."""
    if rank == receiver:
        return '> ' if sender < receiver else '@ ' if sender == receiver else '<-'
    if rank == sender:
        return 'o-' if sender < receiver else 'o '
    return '--' if min(sender, receiver) < rank < max(sender, receiver) else '| '


def svg_of(walked, look=''):
    """The drawing of a walk; None where it shows too much."""
    drawing = Drawing(walked)
    return None if drawing.is_too_long else drawing.svg(look)


def text_of(walked):
    """The picture of a walk as text."""
    rows = Rows(walked)
    return TOO_LONG if rows.is_too_long else rows.text()


# ---- runs

def first_run(script, mode, fuel, ends=False):
    """The steps of the run that takes the first candidate of each choice."""
    run, followed = Run(first_world(script, mode), fuel), follower(ends)
    while True:
        run, decided = followed(run)
        if ending(decided, run.fuel) is not None:
            return listed(run.steps)
        run = taken(run, decided.steps[0], 0)


def walk(script, mode, steps):
    """A debugger that has taken some steps."""
    walked = Debugger(script, mode)
    for step in steps:
        walked.take(step)
    return walked


def steps_of(script, mode, choices, fuel, ends=False):
    """The steps of the run with some choices, or with the first candidates."""
    return first_run(script, mode, fuel, ends) if choices is None else run_by(Run(first_world(script, mode), fuel), choices, ends).steps
