"""The explorer, in the model: the report of the leaves that runs come to, by pieces, and witnesses of deadlocks and traps.

Runs go along decisions (walks.py), and where each end is asked for once along the wide walk with sleep sets (wide.py).
compare/rows/worked_explorer.py, compare/rows/worked_pieces.py, compare/rows/worked_ends.py and compare/rows/worked_explained.py have rows of it,
compare/runs/explore_rules.py checks on random scripts what must hold of it, and compare/runs/explore.py, compare/runs/ends.py and
compare/runs/explained.py compare a program with it.
"""

import argparse
from itertools import islice
from typing import NamedTuple, Optional

from model import explaining, marks, walks, wide
from model.debugger import (BAD_FILE, BAD_MODE, BUFFERED, RENDEZVOUS, Debugger, Result, blocked_calls, call_id_of, enabled_steps, first_world,
                            next_world, outcome, refusal, step_text)
from model.language import Branch, Fault, Probe, WaitAny, While, read_script
from model.modes import is_mode, slots_of
from model.walks import CUT, Leaf, Run, listed, walk

MOST_RUNS, MOST_FUEL = 65536, 1000000
# Up to how many slots modes are tried one after another.
MOST_MODES = 1000
# Of pieces, choices that cut them, and workers; and how many workers can be asked for, though no more than 16 are there.
MOST_PIECES, MOST_SPLIT, MOST_WORKERS, MOST_WORKERS_ASKED = 1024, 8, 16, 1000
NOT_WHOLE = 4
NO_SUCH_STEP, NOT_STUCK, WRONG_BLOCKED = 32, 33, 34


def walk_of_ends(begun):
    """The leaves of the runs behind one along the wide walk with sleep sets; none where that one has taken what is asleep."""
    return iter(()) if begun.asleep is None else (leaf for leaf in wide.ways_behind(begun) if leaf.outcome != wide.ASLEEP)


class Report(NamedTuple):
    """The first leaves of a walk, and whether it has more."""
    leaves: tuple
    more: bool


def pieces(begun, split, ends=False):
    """The runs behind one, each stopped right behind so many choices more, or at its leaf where that comes sooner, in order. Those of ends go
    along the wide walk by all candidates, and know what is asleep."""
    if not split:
        yield begun
        return
    run, decided = (wide.followed_asleep if ends else walks.followed)(begun)
    if walks.ending(decided, run.fuel) is not None:
        yield run
        return
    for chosen in (wide.awake_or_not if ends else walks.candidates)(run, decided.steps):
        yield from pieces(chosen, split - 1, ends)


def ends_part(piece, runs):
    """What a report of ends has of a piece."""
    found = list(islice(walk_of_ends(piece), runs + 1))
    return Report(tuple(found[:runs]), len(found) > runs)


def part(piece, runs):
    """What a report has of a piece: the first leaves behind it, each with its choices and steps in front, and whether there are more."""
    found = list(islice(walk(piece.world, piece.fuel), runs + 1))
    steps = listed(piece.steps)
    return Report(tuple(Leaf(piece.choices + leaf.choices, steps + leaf.steps, leaf.outcome) for leaf in found[:runs]), len(found) > runs)


def joined(parts):
    """The report that has these parts; there are more where one has more."""
    return Report(tuple(leaf for found in parts for leaf in found.leaves), any(found.more for found in parts))


def up_to_bad(found):
    """A report up to its first deadlock or trap, with that; there are more where anything is left out."""
    for count, leaf in enumerate(found.leaves, 1):
        if is_bad(leaf):
            return Report(found.leaves[:count], found.more or count < len(found.leaves))
    return found


def explored(walked, runs, fuel, ends=False):
    """The report of where a debugger is, in one piece: fuel is for the steps from there, and each leaf has all steps from the start."""
    found = (ends_part if ends else part)(Run(walked.world, fuel), runs)
    before = tuple(walked.steps[:walked.depth])
    return found._replace(leaves=tuple(leaf._replace(steps=before + leaf.steps) for leaf in found.leaves))


def report(script, mode, runs, fuel):
    """The report of a script that was read, in one piece."""
    return explored(Debugger(script, mode), runs, fuel)


class Witness(NamedTuple):
    """The steps from the start to a deadlock, and the calls that are blocked there; or to a trap, and the ranks that trap, each with its
    trap, as `0 assert`."""
    steps: tuple
    blocked: tuple
    word: str = 'deadlock'


def traps_of(outcome_text):
    """The ranks that trap, each with its trap, of an outcome's text."""
    words = outcome_text.split()[1:]
    return tuple(f'{rank} {name}' for rank, name in zip(words[::2], words[1::2]))


def witness(leaf):
    """The witness of a leaf; None where that is neither a deadlock nor a trap."""
    word, *calls = leaf.outcome.split()
    if word == 'trap':
        return Witness(leaf.steps, traps_of(leaf.outcome), word)
    return Witness(leaf.steps, tuple(call_id_of(call.encode()) for call in calls)) if word == 'deadlock' else None


class Refusal(NamedTuple):
    """Why a witness is refused: by its number, and the place of the step where it is one."""
    number: int
    place: Optional[int] = None


def verify(script, mode, steps, blocked, word='deadlock'):
    """Why steps and blocked calls, or trapped ranks, are no witness: the first step that isn't enabled, an end that isn't the deadlock or the
    trap that is told, or other calls or ranks.

    None where they are one.
    """
    world = first_world(script, mode)
    for place, step in enumerate(steps):
        world = next_world(world, step)
        if world is None:
            return Refusal(NO_SUCH_STEP, place)
    if enabled_steps(world) or outcome(world).split()[0] != word:
        return Refusal(NOT_STUCK)
    told = traps_of(outcome(world)) if word == 'trap' else blocked_calls(world)
    return None if tuple(blocked) == told else Refusal(WRONG_BLOCKED)


# Of which leaves witnesses are written, where it isn't of none (False) or of all that have one (True).
OF_DEADLOCKS = 'of deadlocks'


def witnesses_of(asked):
    """Of which leaves a check writes the witnesses, if any are asked for: of deadlocks, and of traps where that is asked for, and wherever more is
    told of leaves, or other runs are tried, than in a plain report."""
    if not asked.witnesses:
        return False
    return True if asked.traps or asked.explain or asked.ends or asked.until or asked.group else OF_DEADLOCKS


def leaf_lines(number, leaf, witnesses):
    """The line of a leaf, that of its witness where there is one and it is asked for, and those that explain it."""
    yield f'leaf {number} [{" ".join(map(str, leaf.choices))}] {leaf.outcome}'
    if witnesses and (found := witness(leaf)) and (witnesses != OF_DEADLOCKS or found.word == 'deadlock'):
        yield f'witness {number}: {", ".join(map(step_text, found.steps))}'
    yield from leaf.explained


def report_text(found, witnesses):
    """The text of a report, with a line for each witness where they are asked for."""
    lines = [line for number, leaf in enumerate(found.leaves) for line in leaf_lines(number, leaf, witnesses)]
    lines.append(f'leaves {len(found.leaves)} more {"yes" if found.more else "no"}')
    return ''.join(f'{line}\n' for line in lines)


class End(NamedTuple):
    """One of the different outcomes of a report, which are others where other statements issued their calls or trap: how many leaves end so, and
    the number of the first of these."""
    outcome: str
    leaves: int
    first: int


def ends_of(found):
    """The different outcomes of a report, in the order in which it has them first."""
    outcomes = [leaf.outcome for leaf in found.leaves]
    return [End(outcome, outcomes.count(outcome), outcomes.index(outcome)) for outcome in dict.fromkeys(outcomes)]


def group_text(found, witnesses):
    """The text of a report with a line for each different outcome in the place of its leaves, and what stands below that of its first leaf."""
    lines = []
    for number, end in enumerate(ends_of(found)):
        lines.append(f'end {number} leaves {end.leaves} first {end.first} {end.outcome}')
        lines += list(leaf_lines(end.first, found.leaves[end.first], witnesses))[1:]
    return ''.join(f'{line}\n' for line in lines) + report_text(found, False).splitlines(keepends=True)[-1]


def is_bad(leaf):
    """Whether a leaf makes the status of a check 1."""
    return leaf.outcome.split()[0] in ('deadlock', 'trap')


def is_whole(found):
    """Whether all runs are listed, each to its end."""
    return not found.more and all(leaf.outcome != CUT for leaf in found.leaves)


def status(found, complete=False):
    """The status of a check by its report; what that doesn't list has no part in it, unless it must be whole."""
    if any(map(is_bad, found.leaves)):
        return 1
    return 0 if is_whole(found) or not complete else NOT_WHOLE


def has_waitany(statements):
    """Whether a wait for any of some handles stands among statements, or in a block of one."""
    return any(isinstance(one, WaitAny)
               or isinstance(one, Branch) and (has_waitany(one.then) or has_waitany(one.otherwise))
               or isinstance(one, While) and has_waitany(one.body) for one in statements)


def has_choice_of_wakes(statements):
    """Whether a statement from which a rank goes on by a choice stands among statements, or in a block of one: a wait for any of some handles, or a
    probe of any source."""
    return any(isinstance(one, WaitAny) or isinstance(one, Probe) and one.source is None
               or isinstance(one, Branch) and (has_choice_of_wakes(one.then) or has_choice_of_wakes(one.otherwise))
               or isinstance(one, While) and has_choice_of_wakes(one.body) for one in statements)


def tells_all(script, mode, is_wide):
    """Whether a report where all runs are listed to their ends tells every way in which a script can end in a mode: each does along the wide
    walk, and along decisions none with a wait for any of some handles or a probe of any source, nor in a mode of slots."""
    return is_wide or not has_choice_of_wakes(script.body) and slots_of(mode) is None


def status_of(script, mode, found, complete, is_wide):
    """The status of a check of a script in a mode, along the wide walk or along decisions."""
    told = status(found, complete)
    return NOT_WHOLE if told == 0 and complete and not tells_all(script, mode, is_wide) else told


class Asked(NamedTuple):
    """The options of a check; one that is None is left out. `until` is whether the first deadlock or trap is the last leaf, `ends` whether
    the walk of ends is listed, `explain` whether each deadlock and each trap is explained."""
    mode: Optional[str] = None
    runs: Optional[int] = None
    fuel: Optional[int] = None
    witnesses: bool = False
    complete: bool = False
    split: Optional[int] = None
    workers: Optional[int] = None
    until: bool = False
    piece: Optional[int] = None
    pieces: bool = False
    modes: Optional[int] = None
    ends: bool = False
    group: bool = False
    explain: bool = False
    traps: bool = False


# What is meant where an option is left out.
USUAL = Asked(mode=RENDEZVOUS, runs=1000, fuel=100000, split=1, workers=4)


def refused(line):
    """The result of a check that is refused by this line."""
    return Result(b'', f'mpdbg: {line}\n'.encode(), 2)


def cut_into(script, mode, asked):
    """The pieces of a script in a mode, and one more than there may be at most."""
    return list(islice(pieces(Run(first_world(script, mode), asked.fuel), asked.split, asked.ends), MOST_PIECES + 1))


def reported(cut, asked):
    """The report by the pieces that a script was cut into: of all of them, or of the one that is asked for."""
    chosen = cut if asked.piece is None else [cut[asked.piece]]
    found = joined([(ends_part if asked.ends else part)(piece, asked.runs) for piece in chosen])
    return up_to_bad(found) if asked.until else found


def explained(script, mode, found):
    """A report with what explains each of its leaves."""
    return found._replace(leaves=tuple(leaf._replace(explained=explaining.explanation(script, mode, leaf)) for leaf in found.leaves))


def counted(found):
    """What a report tells of its leaves in one line, and whether a deadlock or a trap is among them."""
    ended = [leaf.outcome.split()[0] for leaf in found.leaves]
    counts = [f'{name} {ended.count(word)}' for name, word in (('deadlocks', 'deadlock'), ('traps', 'trap'), ('leftovers', 'leftovers'), ('cut', 'cut'))]
    return f'leaves {len(ended)} {" ".join(counts)} more {"yes" if found.more else "no"}', any(map(is_bad, found.leaves))


def modes_tried(script, asked):
    """The result of a check in several modes, one after another: a line for each, up to one that is refused, and which is the first that has
    nothing bad. Where all must be told, the report of each must be whole."""
    lines, least, status, are_whole = [], 'none', 0, True
    for mode in (RENDEZVOUS, *(f'slots:{slots}' for slots in range(1, asked.modes + 1)), BUFFERED):
        cut = cut_into(script, mode, asked)
        if len(cut) > MOST_PIECES:
            return refused('refused 31 too-many-pieces')._replace(output=''.join(lines).encode())
        found = reported(cut, asked._replace(mode=mode, piece=None))
        line, bad = counted(found)
        lines.append(f'{mode} {line}\n')
        least = mode if least == 'none' and not bad else least
        status, are_whole = 1 if bad else status, are_whole and is_whole(found)
    text = ''.join([*lines, f'least {least}\n']).encode()
    return Result(text, b'', NOT_WHOLE if status == 0 and asked.complete and not are_whole else status)


def told(script, asked, found, is_wide):
    """The result of a check of a script that comes to a report, along the wide walk or along decisions."""
    found = explained(script, asked.mode, found) if asked.explain else found
    text = (group_text if asked.group else report_text)(found, witnesses_of(asked))
    return Result(text.encode(), b'', status_of(script, asked.mode, found, asked.complete, is_wide))


def checked(script, asked):
    """The result of a check of a script that was read: workers are tested first, then the number of pieces, and then that of the piece."""
    if not 1 <= asked.workers <= MOST_WORKERS:
        return refused('refused 35 bad-workers')
    if asked.modes is not None:
        return modes_tried(script, asked)
    cut = cut_into(script, asked.mode, asked)
    if len(cut) > MOST_PIECES:
        return refused('refused 31 too-many-pieces')
    if asked.pieces:
        return Result(f'pieces {len(cut)}\n'.encode(), b'', 0)
    if asked.piece is not None and asked.piece >= len(cut):
        return refused(f'no piece {asked.piece} of {len(cut)}')
    return told(script, asked, reported(cut, asked), asked.ends)


def clash(asked):
    """What can't stand beside `--complete`, where that is there: a piece, and how many there are, tell nothing of all runs."""
    given = [name for name, is_given in (('--piece', asked.piece is not None), ('--pieces', asked.pieces)) if is_given]
    return given[0] if asked.complete and given else None


def check(text, asked):
    """The result of a check of the text of a file, which is None where that can't be read: whether the options can stand together is
    tested first, then the mode, and no option is left out."""
    if asked.traps and not asked.witnesses:
        return refused('--traps wants --witness')
    if clash(asked) is not None:
        return refused(f"--complete and {clash(asked)} can't stand together")
    if not is_mode(asked.mode):
        return BAD_MODE
    if text is None:
        return BAD_FILE
    try:
        found = checked(read_script(text), asked)
    except Fault as fault:
        return refusal(text, fault)
    return with_places(text, found) if asked.explain else found


def with_places(text, found):
    """A result with the places of marks beside lines of the script."""
    return found._replace(output=''.join(f'{line}\n' for line in marks.all_marked(text, found.output.decode().splitlines())).encode())


def answer(text, asked):
    """The result of a check that has these options."""
    return check(text, Asked(*(usual if given is None else given for given, usual in zip(asked, USUAL))))


def option_words(asked):
    """The options as words of the command line."""
    numbers = [(name, getattr(asked, name)) for name in ('mode', 'runs', 'fuel', 'split', 'workers', 'piece', 'modes')]
    there = [(f'--{name}', str(value)) for name, value in numbers if value is not None]
    flags = [('--witness', asked.witnesses), ('--complete', asked.complete), ('--pieces', asked.pieces), ('--ends', asked.ends),
             ('--group', asked.group), ('--explain', asked.explain), ('--traps', asked.traps)]
    return [word for pair in there for word in pair] + [flag for flag, is_there in flags if is_there] + ['--until', 'deadlock'] * asked.until


def number_between(least, most):
    """What reads a number of these."""
    def number(word):
        if not word.isdecimal() or not least <= int(word) <= most:
            raise argparse.ArgumentTypeError(f'{word} is no number from {least} to {most}')
        return int(word)
    return number


def asked_by(words):
    """The file that words of the command line name, and the options of its check."""
    parser = argparse.ArgumentParser(description=__doc__, formatter_class=argparse.RawDescriptionHelpFormatter)
    parser.add_argument('file', metavar='FILE')
    parser.add_argument('--mode', metavar='M')
    for name, least, most in (('runs', 1, MOST_RUNS), ('fuel', 1, MOST_FUEL), ('split', 0, MOST_SPLIT), ('workers', 0, MOST_WORKERS_ASKED),
                              ('piece', 0, MOST_PIECES - 1), ('modes', 0, MOST_MODES)):
        parser.add_argument(f'--{name}', type=number_between(least, most), metavar='N')
    parser.add_argument('--until', choices=['deadlock'])
    parser.add_argument('--witness', dest='witnesses', action='store_true')
    for name in ('complete', 'pieces', 'ends', 'group', 'explain', 'traps'):
        parser.add_argument(f'--{name}', action='store_true')
    chosen = vars(parser.parse_args(words))
    file = chosen.pop('file')
    return file, Asked(**{**chosen, 'until': chosen['until'] is not None})
