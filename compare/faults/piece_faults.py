"""Faults that are put into the checks by pieces of the model on purpose: explore.py must notice each, in a worked row or a random script,
and explore_rules.py those of what is reported."""

import re
from itertools import islice
from typing import NamedTuple

from faults.policy_faults import Breakage
from model import explorer, walks
from model.explorer import USUAL, Report
from model.walks import CUT


class Sound(NamedTuple):
    """What is not broken."""
    pieces: object
    part: object
    joined: object
    up_to_bad: object
    is_bad: object
    reported: object
    checked: object


SOUND = Sound(*(getattr(explorer, name) for name in Sound._fields))


# ---- which pieces there are

# Of so many pieces it is told that they are too many.
ENOUGH = 1100


def of_whole(replacement):
    """What cuts the whole of all runs into other pieces; what is behind a choice is cut as ever."""
    return lambda begun, split, ends=False: SOUND.pieces(begun, split, ends) if begun.choices else replacement(begun, split)


def other_pieces(change):
    """What has other pieces of those that there are."""
    return of_whole(lambda begun, split: iter(change(list(islice(SOUND.pieces(begun, split), ENOUGH)), begun, split)))


def ended_early_left_out(found, begun, split):
    """What takes a run that ends before its last choice of so many for none, but where there is no other."""
    return [piece for piece in found if len(piece.choices) == len(begun.choices) + split] or found


def ended_early_joined(found, begun, split):
    """What takes all runs that end before their last choice of so many for one piece."""
    early = [piece for piece in found if len(piece.choices) < len(begun.choices) + split]
    return [piece for piece in found if piece not in early[1:]]


def one_candidate_not_counted(begun, split, ends=False):
    """What doesn't count a choice of one candidate."""
    run, decided = walks.followed(begun)
    if not split or walks.ending(decided, run.fuel) is not None:
        yield run
        return
    for chosen in walks.candidates(run, decided.steps):
        yield from one_candidate_not_counted(chosen, split - (len(decided.steps) > 1))


def piece_faults():
    """Those of which pieces there are, and with how much fuel each goes on."""
    changes = (
        ('the first piece twice', lambda found, begun, split: found[:1] + found),
        ('the last piece twice', lambda found, begun, split: found + found[-1:]),
        ('the first piece is left out', lambda found, begun, split: found[1:] or found),
        ('the last piece is left out', lambda found, begun, split: found[:-1] or found),
        ('the second of three pieces is left out', lambda found, begun, split: found[:1] + found[2:] if len(found) > 2 else found),
        ('the last two pieces exchanged', lambda found, begun, split: found[:-2] + found[-2:][::-1]),
        ('a run that ends before its last choice is no piece', ended_early_left_out),
        ('runs that end before their last choice are one piece', ended_early_joined),
        ('fuel counted from where a piece begins', lambda found, begun, split: [piece._replace(fuel=begun.fuel) for piece in found]),
        ('one step of fuel less for a piece', lambda found, begun, split: [piece._replace(fuel=max(0, piece.fuel - 1)) for piece in found]),
        ('one step of fuel more for a piece', lambda found, begun, split: [piece._replace(fuel=piece.fuel + bool(piece.choices)) for piece in found]),
        ('choices from where a piece begins', lambda found, begun, split: [piece._replace(choices=()) for piece in found]),
        ('steps from where a piece begins', lambda found, begun, split: [piece._replace(steps=None) for piece in found]))
    splits = (
        ('cut by one choice less', lambda split: max(0, split - 1)), ('cut by one choice more', lambda split: split + 1),
        ('never cut', lambda split: 0), ('cut by one choice at most', lambda split: min(split, 1)),
        ('cut by one choice at least', lambda split: max(split, 1)))
    return ([Breakage(name, explorer, 'pieces', other_pieces(change)) for name, change in changes]
            + [Breakage(name, explorer, 'pieces', of_whole(lambda begun, split, change=change: SOUND.pieces(begun, change(split))))
               for name, change in splits]
            + [Breakage('a choice of one candidate is none', explorer, 'pieces', one_candidate_not_counted)])


# ---- how parts are joined

def arrived(parts):
    """Parts in the order in which they are ready: the shorter ones first."""
    return sorted(parts, key=lambda found: sum(len(leaf.steps) for leaf in found.leaves))


def in_order(order):
    """What joins the parts in another order."""
    return lambda parts: SOUND.joined(order(parts))


def more_of(change):
    """What says otherwise whether there are more, by what the parts say."""
    return lambda parts: SOUND.joined(parts)._replace(more=change([found.more for found in parts]))


def join_faults():
    """Those of how the parts become a report."""
    orders = (
        ('parts in the order of their arrival', arrived), ('parts from the last to the first', lambda parts: parts[::-1]),
        ('the first part last', lambda parts: parts[1:] + parts[:1]), ('the last part is lost', lambda parts: parts[:-1] or parts),
        ('the first part is lost', lambda parts: parts[1:] or parts), ('a part twice', lambda parts: parts + parts[-1:]),
        ('one part in the place of the next', lambda parts: parts[:1] + parts[:-1] if parts[1:] else parts),
        ('sixteen parts at most', lambda parts: parts[:16]))
    more = (
        ('more of the last piece alone', lambda told: told[-1]), ('more of the first piece alone', lambda told: told[0]),
        ('more where all pieces have more', all), ('more where there are two pieces', lambda told: any(told) or len(told) > 1))
    return ([Breakage(name, explorer, 'joined', in_order(order)) for name, order in orders]
            + [Breakage(name, explorer, 'joined', more_of(change)) for name, change in more])


# ---- the report

def in_order_of_workers(cut, asked):
    """What joins what each worker brings, where they take the pieces in turn."""
    if asked.piece is not None:
        return SOUND.reported(cut, asked)
    return SOUND.reported([piece for first in range(asked.workers) for piece in cut[first::asked.workers]], asked)


def runs_of_all_together(cut, asked):
    """What lists so many runs of all pieces together."""
    found = SOUND.reported(cut, asked)
    return Report(found.leaves[:asked.runs], found.more or len(found.leaves) > asked.runs)


def runs_that_are_left(cut, asked):
    """What has each piece list as many runs as the one before has left."""
    parts, left = [], asked.runs
    for piece in cut if asked.piece is None else [cut[asked.piece]]:
        parts.append(SOUND.part(piece, max(1, left)))
        left -= len(parts[-1].leaves)
    found = SOUND.joined(parts)
    return SOUND.up_to_bad(found) if asked.until else found


def up_to_bad_of_each(cut, asked):
    """What lists each piece up to its first deadlock or trap."""
    if not asked.until or asked.piece is not None:
        return SOUND.reported(cut, asked)
    return SOUND.joined([SOUND.up_to_bad(SOUND.part(piece, asked.runs)) for piece in cut])


def up_to_piece_of_bad(cut, asked):
    """What lists the whole piece in which the first deadlock or trap is."""
    if not asked.until or asked.piece is not None:
        return SOUND.reported(cut, asked)
    parts = [SOUND.part(piece, asked.runs) for piece in cut]
    count = next((number for number, found in enumerate(parts, 1) if any(map(SOUND.is_bad, found.leaves))), len(parts))
    return SOUND.joined(parts[:count])._replace(more=count < len(parts) or any(found.more for found in parts))


def more_of_whole(cut, asked):
    """What says of a piece whether the whole has more."""
    whole = SOUND.reported(cut, asked._replace(piece=None))
    return SOUND.reported(cut, asked)._replace(more=whole.more)


def other_asked(change):
    """What has the report of other options."""
    return lambda cut, asked: SOUND.reported(cut, change(cut, asked))


def report_faults():
    """Those of what a check reports."""
    return [Breakage(name, explorer, 'reported', replacement) for name, replacement in (
        ('parts in the order of the workers', in_order_of_workers), ('so many runs of all pieces together', runs_of_all_together),
        ('the runs that the piece before has left', runs_that_are_left), ('up to the first deadlock of each piece', up_to_bad_of_each),
        ('the whole piece that has the first deadlock', up_to_piece_of_bad), ('more of the whole for a piece', more_of_whole),
        ('not up to the first deadlock where it is a piece', other_asked(lambda cut, asked: asked._replace(until=asked.until and asked.piece is None))),
        ('the whole for a piece', other_asked(lambda cut, asked: asked._replace(piece=None))),
        ('the first piece for each', other_asked(lambda cut, asked: asked._replace(piece=asked.piece and 0))),
        ('the piece before', other_asked(lambda cut, asked: asked._replace(piece=asked.piece and asked.piece - 1))),
        ('the piece behind', other_asked(lambda cut, asked: asked if asked.piece is None else asked._replace(piece=min(asked.piece + 1, len(cut) - 1)))))]


# ---- up to the first deadlock

def stopping_at(is_end):
    """What stops at other leaves."""
    def up_to_bad(found):
        count = next((number for number, leaf in enumerate(found.leaves, 1) if is_end(leaf)), None)
        return found if count is None else Report(found.leaves[:count], found.more or count < len(found.leaves))
    return up_to_bad


def stopped_otherwise(change):
    """What says otherwise where it stops, by the report, what stops rightly, and how many leaves that has."""
    def up_to_bad(found):
        said = SOUND.up_to_bad(found)
        return change(found, said, len(said.leaves)) if any(map(SOUND.is_bad, found.leaves)) else said
    return up_to_bad


def last_bad(found):
    """What stops at the last deadlock or trap in place of the first."""
    places = [number for number, leaf in enumerate(found.leaves, 1) if SOUND.is_bad(leaf)]
    return Report(found.leaves[:places[-1]], found.more or places[-1] < len(found.leaves)) if places else found


def until_faults():
    """Those of where a check up to the first deadlock stops, and of what it says then."""
    kinds = (('a run that is cut', ('deadlock', 'trap', CUT)), ('leftovers', ('deadlock', 'trap', 'leftovers')),
             ('a deadlock alone', ('deadlock',)), ('a trap alone', ('trap',)), ('any end', ('deadlock', 'trap', 'leftovers', 'done', CUT)))
    others = (
        ('right before the first deadlock', lambda found, said, count: Report(found.leaves[:count - 1], True)),
        ('one leaf behind the first deadlock', lambda found, said, count: Report(found.leaves[:count + 1], found.more or count + 1 < len(found.leaves))),
        ('more is always yes where it stops', lambda found, said, count: said._replace(more=True)),
        ('more is always no where it stops', lambda found, said, count: said._replace(more=False)),
        ('more by the runs of pieces alone', lambda found, said, count: said._replace(more=found.more)),
        ('it does not stop', lambda found, said, count: found))
    return ([Breakage(f'stops at {name}', explorer, 'up_to_bad', stopping_at(lambda leaf, words=words: leaf.outcome.split()[0] in words))
             for name, words in kinds]
            + [Breakage(f'until: {name}', explorer, 'up_to_bad', stopped_otherwise(change)) for name, change in others]
            + [Breakage('more is always yes though nothing is found', explorer, 'up_to_bad', lambda found: SOUND.up_to_bad(found)._replace(more=True)),
               Breakage('the last deadlock', explorer, 'up_to_bad', last_bad)])


# ---- what is refused, and in which order

def other_check(change):
    """What checks with other options."""
    return lambda script, asked: SOUND.checked(script, change(asked))


def said_otherwise(change):
    """What says something else, by what is rightly said, the script and the options."""
    return lambda script, asked: change(SOUND.checked(script, asked), script, asked)


def is_refused_by(said, number):
    return b'refused %d ' % number in said.errors


def pieces_before_workers(said, script, asked):
    other = SOUND.checked(script, asked._replace(workers=1))
    return other if is_refused_by(said, 35) and is_refused_by(other, 31) else said


def piece_before_pieces(said, script, asked):
    return explorer.refused(f'no piece {asked.piece} of 1024') if is_refused_by(said, 31) and asked.piece is not None else said


def piece_before_workers(said, script, asked):
    other = SOUND.checked(script, asked._replace(workers=1))
    return other if is_refused_by(said, 35) and b'no piece' in other.errors else said


def numbered_as_in_whole(said, script, asked):
    """What numbers the leaves of a piece as the whole report does."""
    if asked.piece is None or said.status == 2 or asked.pieces:
        return said
    parts = [SOUND.checked(script, asked._replace(piece=number)).output for number in range(asked.piece)]
    before = sum(len(re.findall(rb'^leaf ', output, re.M)) for output in parts)
    return said._replace(output=re.sub(rb'^(leaf|witness) ([0-9]+)', lambda line: b'%s %d' % (line[1], int(line[2]) + before), said.output, flags=re.M))


def last_in_place_of_none(said, script, asked):
    """What has the last piece where there is none of that number."""
    count = re.search(rb'no piece [0-9]+ of ([0-9]+)', said.errors)
    return SOUND.checked(script, asked._replace(piece=int(count[1]) - 1)) if count else said


def leaves_in_place_of_pieces(said, script, asked):
    """What says how many leaves there are where it is asked how many pieces."""
    if not asked.pieces or said.status:
        return said
    return said._replace(output=re.sub(rb'leaves ([0-9]+) .*', rb'pieces \1', SOUND.checked(script, asked._replace(pieces=False)).output.splitlines()[-1]) + b'\n')


def refusal_faults():
    """Those of what is refused, of its text, and of the order of tests."""
    limits = (('1,025 pieces allowed', 'MOST_PIECES', 1025), ('1,023 pieces at most', 'MOST_PIECES', 1023), ('35 for 16 workers', 'MOST_WORKERS', 15),
              ('17 workers allowed', 'MOST_WORKERS', 17), ('any number of workers', 'MOST_WORKERS', 1000),
              ('cut by no choice where nothing is said', 'USUAL', USUAL._replace(split=0)),
              ('cut by two choices where nothing is said', 'USUAL', USUAL._replace(split=2)))
    said = (
        ('no worker is allowed', other_check(lambda asked: asked._replace(workers=max(1, asked.workers)))),
        ('the workers behind the pieces', said_otherwise(pieces_before_workers)),
        ('the piece before the pieces', said_otherwise(piece_before_pieces)), ('the piece before the workers', said_otherwise(piece_before_workers)),
        ('no piece, counted from one', said_otherwise(lambda said, script, asked: said._replace(
            errors=said.errors.replace(b'no piece %d of' % (asked.piece or 0), b'no piece %d of' % ((asked.piece or 0) + 1))))),
        ('no piece, of one less', said_otherwise(lambda said, script, asked: said._replace(
            errors=re.sub(rb'(no piece [0-9]+ of) ([0-9]+)', lambda line: b'%s %d' % (line[1], int(line[2]) - 1), said.errors)))),
        ('the last piece where there is none', said_otherwise(last_in_place_of_none)),
        ('status 1 for no piece', said_otherwise(lambda said, script, asked: said._replace(status=1) if b'no piece' in said.errors else said)),
        ('no piece on standard output', said_otherwise(lambda said, script, asked: (
            said._replace(output=said.errors, errors=b'') if b'no piece' in said.errors else said))),
        ('no name of a refusal', said_otherwise(lambda said, script, asked: said._replace(errors=re.sub(rb'(refused [0-9]+) .*', rb'\1', said.errors)))),
        ('status 1 for too many pieces', said_otherwise(lambda said, script, asked: said._replace(status=1) if is_refused_by(said, 31) else said)),
        ('leaves of a piece numbered as in the whole', said_otherwise(numbered_as_in_whole)),
        ('leaves in the place of pieces', said_otherwise(leaves_in_place_of_pieces)),
        ('a report though pieces are counted', other_check(lambda asked: asked._replace(pieces=False))),
        ('the status of a report where pieces are counted', said_otherwise(lambda said, script, asked: said if not asked.pieces or said.status else (
            said._replace(status=SOUND.checked(script, asked._replace(pieces=False, piece=None)).status)))))
    return ([Breakage(name, explorer, attribute, value) for name, attribute, value in limits]
            + [Breakage(name, explorer, 'checked', replacement) for name, replacement in said]
            + [Breakage(name, explorer, attribute, replacement) for name, attribute, replacement in (
                # (which no script of explore_rules.py meets)
                ('cut by seven choices at most', 'pieces', of_whole(lambda begun, split: SOUND.pieces(begun, min(split, 7)))),
                ('until: more by the leaves that are left alone', 'up_to_bad', stopped_otherwise(
                    lambda found, said, count: said._replace(more=count < len(found.leaves)))))])


def report_breakages():
    """Those of which pieces there are and of what is reported of them."""
    return [*piece_faults(), *join_faults(), *report_faults(), *until_faults()]


def breakages():
    """All of them."""
    return [*report_breakages(), *refusal_faults()]
