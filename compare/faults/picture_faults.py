"""Faults that are put into pictures of the model on purpose: pictures.py must notice each."""

from faults.policy_faults import Breakage
from model import picture_model, run_words
from model.debugger import enabled_steps
from model.picture_model import ISSUED, NOTED, PAIRED, RELEASED, WENT_ON, Drawing, Picture, beside_of

SOUND_GLYPHS = picture_model.glyphs_of_step
SOUND_MARKS = picture_model.marks_of
SOUND_OPEN = picture_model.is_open
SOUND_ROW = picture_model.row_after
SOUND_PATH = picture_model.path_between
SOUND_LANES = picture_model.lanes_of
SOUND_NOTE = picture_model.note_of_step
SOUND_NOTE_LABEL = picture_model.label_of_note
SOUND = {name: getattr(Drawing, name) for name in ('pair', 'end', 'free', 'issued_call', 'posted', 'request', 'wanted', 'want_path', 'whom')}


def without(kind):
    """Marks without those of a kind."""
    return lambda *step: [glyph for glyph in SOUND_GLYPHS(*step) if glyph.kind != kind]


def wakes_below(glyphs, count):
    """Marks, of which ranks that go on are a row lower."""
    return [mark._replace(row=mark.row + 1) if mark.kind == WENT_ON else mark for mark in SOUND_MARKS(glyphs, count)]


def a_row_each(glyphs, count):
    """Marks, of which each has a row of its own."""
    return [mark._replace(row=mark.place - (mark.kind == WENT_ON)) for mark in SOUND_MARKS(glyphs, count)]


def listed_by_rows(glyphs, count):
    """Marks, of which each stands in the list beside its row."""
    return [mark._replace(place=mark.row) for mark in SOUND_MARKS(glyphs, count)]


def at_send(glyph, count):
    """The lanes of a step, of a match that of the send."""
    return [glyph.call.rank] if glyph.kind == PAIRED else SOUND_LANES(glyph, count)


def at_both(glyph, count):
    """The lanes of a step, of a match those of both ranks."""
    return [glyph.call.rank, glyph.other.rank] if glyph.kind == PAIRED else SOUND_LANES(glyph, count)


def at_own(glyph, count):
    """The lanes of a step, of a release the first alone."""
    return SOUND_LANES(glyph, count)[:1]


def unsent(rows, glyph, lanes):
    """The row of what a step shows, where a rank goes on whenever its sends are matched."""
    return SOUND_ROW(rows._replace(sent={}), glyph, lanes)


def beside_send(rows, glyph, lanes):
    """The row of what a step shows, of a match beside its send."""
    return SOUND_ROW(rows._replace(issued={call: row - 1 for call, row in rows.issued.items()}), glyph, lanes)


def turned(step, before, behind, row):
    """Marks, of which pairs are from the receive."""
    return [glyph._replace(call=glyph.other, other=glyph.call) if glyph.kind == PAIRED else glyph for glyph in SOUND_GLYPHS(step, before, behind, row)]


def value_of_first(self, glyph):
    """A pair that has the value of the first send."""
    first = next(other for other in self.glyphs if other.kind == PAIRED)
    return SOUND['pair'](self, glyph._replace(call=first.call))


def through_lanes(sender, x1, y1, receiver, x2, y2):
    """A path as it is between neighbours, whatever lanes are between."""
    return SOUND_PATH(sender, x1, y1, receiver, x2, y2) if sender == receiver else f'L{x2 - 7 if sender < receiver else x2 + 4} {y2}'


def never_free(self, call_id):
    return False


def any_open(world):
    """The open matches that are enabled, whatever else is."""
    return [step for step in enabled_steps(world) if picture_model.is_open(world, step)]


def no_candidates(world):
    return []


def all_first(self, number, step):
    """A request that is numbered as the first."""
    return SOUND['request'](self, 1, step)


def always_wanted(self, number, x, y):
    """Whom a rank waits for, as where no step is enabled."""
    self.__class__.is_stuck = True
    try:
        return SOUND['wanted'](self, number, x, y)
    finally:
        del self.__class__.is_stuck


def whom_of_waits(self, call, number):
    """Whom a call waits for, of a wait nobody."""
    return ('a request', None) if call.kind == 'wait' else SOUND['whom'](self, call, number)


def whom_at_barriers(self, call, number):
    """Whom a call waits for, of a barrier all."""
    return ('all ranks', None) if call.kind == 'barrier' else SOUND['whom'](self, call, number)


def all_end(rank, is_stuck):
    return 'ended', 'ended'


SOUND_END = picture_model.end_of


def all_stop(rank, is_stuck):
    """How a rank is at the end, where each that is blocked has stopped."""
    return SOUND_END(rank, True)


def on_one_line(self, call_id, row):
    """A receive that is posted where the first of its rank is."""
    return SOUND['posted'](self, call_id, row).replace(f'H{beside_of(call_id)}V', f'H{beside_of(call_id._replace(number=0))}V')


def printed_first(rank, before, behind):
    """A note, of a print the first value of its rank."""
    note = SOUND_NOTE(rank, before, behind)
    return note._replace(value=behind.printed[0]) if note is not None and note.trap is None else note


def no_traps(rank, before, behind):
    note = SOUND_NOTE(rank, before, behind)
    return None if note is None or note.trap else note


def at_next_line(rank, before, behind):
    """A note with the line of the next statement, if there is one."""
    note = SOUND_NOTE(rank, before, behind)
    return note._replace(line=behind.rest[0].line) if note is not None and behind.rest else note


def in_no_row(glyph, count):
    """The lanes of a step, of a note none."""
    return [] if glyph.kind == NOTED else SOUND_LANES(glyph, count)


def without_line(note):
    """What stands beside a note, without its line."""
    return SOUND_NOTE_LABEL(note).removeprefix(f'{note.line} ')


def on_one_height(self, number, rank, x1, x2, y):
    """The path of an arrow to a rank that is waited for, as that of the first rank."""
    return SOUND['want_path'](self, 0, rank, x1, x2, y)


def straight(sender, receiver, rank):
    """The sign of a match that is always to the right."""
    return '> ' if rank == receiver else 'o-' if rank == sender else '| '


def breakages():
    """All faults."""
    model = picture_model
    return [
        Breakage('calls are not shown', model, 'glyphs_of_step', without(ISSUED)),
        Breakage('matches are not shown', model, 'glyphs_of_step', without(PAIRED)),
        Breakage('releases are lost', model, 'glyphs_of_step', without(RELEASED)),
        Breakage('ranks wait for ever', model, 'glyphs_of_step', without(WENT_ON)),
        Breakage('prints and traps are not shown', model, 'glyphs_of_step', without(NOTED)),
        Breakage('each print is the first', model, 'note_of_step', printed_first),
        Breakage('traps are shown at the end alone', model, 'note_of_step', no_traps),
        Breakage('prints at the line of the next statement', model, 'note_of_step', at_next_line),
        Breakage('prints take no row', model, 'lanes_of', in_no_row),
        Breakage('prints without their line', model, 'label_of_note', without_line),
        Breakage('arrows to whom ranks wait for lie on one another', Drawing, 'want_path', on_one_height),
        Breakage('all arrows to whom ranks wait for hang', model, 'MOST_HUNG', 16),
        Breakage('arrows of four ranks have heights of their own', model, 'MOST_HUNG', 3),
        Breakage('drawings of many ranks end no lower', model, 'tracks_height', lambda count: 0),
        Breakage('drawings of few ranks end lower', model, 'TRACKS', 5),
        Breakage('ranks go on a row later', model, 'marks_of', wakes_below),
        Breakage('each step has a row of its own', model, 'marks_of', a_row_each),
        Breakage('the list stands beside the rows', model, 'marks_of', listed_by_rows),
        Breakage('a match stands in the lane of its send', model, 'lanes_of', at_send),
        Breakage('a match stands in both lanes', model, 'lanes_of', at_both),
        Breakage('a release is below the first rank alone', model, 'lanes_of', at_own),
        Breakage('a rank goes on before its send is matched', model, 'row_after', unsent),
        Breakage('a match stands beside its send', model, 'row_after', beside_send),
        Breakage('arrows are from the receive', model, 'glyphs_of_step', turned),
        Breakage('the value of another send', Drawing, 'pair', value_of_first),
        Breakage('arrows pass through the lanes between', model, 'path_between', through_lanes),
        Breakage('no call is free', Picture, 'is_free', never_free),
        Breakage('no candidate is drawn', model, 'candidates_of', no_candidates),
        Breakage('candidates where nobody chooses', model, 'candidates_of', any_open),
        Breakage('matches of receives that name their source are candidates', model, 'is_open', lambda world, step: step.kind in ('match', 'wakeany')),
        Breakage('requests of a waitany are no candidates', model, 'is_open', lambda world, step: step.kind == 'match' and SOUND_OPEN(world, step)),
        Breakage('each request is the first', Drawing, 'request', all_first),
        Breakage('nobody is waited for', Drawing, 'wanted', lambda self, number, x, y: ''),
        Breakage('a rank that waits for a moment has an arrow', Drawing, 'wanted', always_wanted),
        Breakage('a wait is for a request', Drawing, 'whom', whom_of_waits),
        Breakage('a barrier is for all', Drawing, 'whom', whom_at_barriers),
        Breakage('all ranks end', model, 'end_of', all_end),
        Breakage('all that are blocked have stopped', model, 'end_of', all_stop),
        Breakage('lanes are too near', model, 'lane_x', lambda rank: 132 + 80 * rank),
        Breakage('rows are too near', model, 'row_y', lambda row: 80 + 18 * row),
        Breakage('a plain drawing has a legend', Drawing, 'plain_end', Drawing.full_end),
        Breakage('no drawing has a list', Drawing, 'listed', lambda self, glyph: ''),
        Breakage('labels of any length', model, 'MOST_LABEL', 64),
        Breakage('labels that are shorter than they can be', model, 'MOST_LABEL', 15),
        Breakage('receives are posted on one line', Drawing, 'posted', on_one_line),
        Breakage('every match is to the right', model, 'sign_of_pair', straight),
        Breakage('--ends is not looked at', model, 'follower', lambda ends: run_words.follower(False)),
        Breakage('first candidates along the wide walk without --ends', model, 'follower', lambda ends: run_words.follower(True)),
        Breakage('choices along decisions with --ends', model, 'run_by', lambda begun, choices, ends=False: run_words.run_by(begun, choices)),
        Breakage('choices along the wide walk without --ends', model, 'run_by', lambda begun, choices, ends=False: run_words.run_by(begun, choices, True))]
