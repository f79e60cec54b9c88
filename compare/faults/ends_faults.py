"""Faults that are put into reports of ends, and into those that are grouped, of the model on purpose: ends.py must notice each.

A walk that lets sleep what was not tried, takes what sleeps, or forgets it; pieces that are cut by what is awake, or don't know what sleeps;
other counts, numbers and witnesses of the different ends.
"""

from faults.policy_faults import Breakage
from model import explorer, policy, wide
from model.explorer import End, Report
from model.modes import slots_of
from model.walks import CUT, candidates, leaves_behind

SOUND = {name: getattr(explorer, name) for name in ('walk_of_ends', 'ends_part', 'part', 'pieces', 'ends_of', 'group_text', 'checked')}
SOUND |= {name: getattr(wide, name) for name in ('asleep_below', 'awake', 'still_asleep', 'passed', 'in_conflict', 'is_quiet', 'falling_asleep')}


# ---- what falls asleep, and what wakes

def other_tried(change):
    """What lets other steps sleep behind each candidate, by what is asleep before, all candidates, and its number."""
    def asleep_below(asleep, steps):
        for number, step in enumerate(steps):
            yield None if asleep is None or step in asleep else tuple(dict.fromkeys(change(asleep, steps, number)))
    return asleep_below


def passed_over(is_asleep):
    """What passes over other candidates, by what is asleep."""
    def asleep_below(asleep, steps):
        for step in steps:
            yield None if asleep is None or is_asleep(asleep, step) else asleep
            if asleep is not None:
                asleep = (*asleep, step)
    return asleep_below


def slept_at_once(asleep, steps):
    """What lets the candidates of one choice sleep behind one another, and forgets them behind the next."""
    return SOUND['asleep_below'](asleep and asleep[:2], steps)


def of_ranks(step):
    """The ranks of a match, or of another step."""
    return {step.first.rank, step.second.rank} if step.kind == 'match' else {step.first}


def kept_asleep(is_kept):
    """What keeps other steps asleep, by the run, what is taken, and what was asleep."""
    return lambda run, step: run.asleep and tuple(other for other in run.asleep if is_kept(run, step, other))


def sound_conflict(run, step, other):
    return SOUND['in_conflict'](run.world, step, other)


def forgotten(is_forgotten):
    """What forgets all that sleeps before some steps: forced ones have no choice."""
    def passed(run, step, *choice):
        return SOUND['passed'](run._replace(asleep=run.asleep and ()) if is_forgotten(choice) else run, step, *choice)
    return passed


def numbered_by_awake(run, steps):
    """What numbers the candidates that are awake alone."""
    for number, chosen in enumerate(SOUND['awake'](run, steps)):
        yield chosen._replace(choices=(*run.choices, number))


def all_but_last(run, steps):
    found = list(SOUND['awake'](run, steps))
    return iter(found[:-1] or found)


def cut_where_all_sleep(begun):
    """What lists a run that is cut where all candidates of a choice are asleep."""
    ways = () if begun.asleep is None else wide.ways_behind(begun)
    return (way._replace(outcome=CUT) if way.outcome == wide.ASLEEP else way for way in ways)


def without_leaves_that_are_cut(begun):
    return (leaf for number, leaf in enumerate(SOUND['walk_of_ends'](begun)) if not number or leaf.outcome != CUT)


def each_outcome_once(begun):
    """What takes two ends for one where their outcomes are alike."""
    found = set()
    for leaf in SOUND['walk_of_ends'](begun):
        if leaf.outcome not in found:
            found.add(leaf.outcome)
            yield leaf


def cut_runs_of_all(begun):
    """What lists all runs that are cut, and of the others those that are awake."""
    awake = {leaf.choices for leaf in SOUND['walk_of_ends'](begun)}
    leaves = leaves_behind(begun._replace(asleep=()), candidates, wide.followed)
    return (leaf for leaf in leaves if leaf.outcome == CUT or leaf.choices in awake)


def walk_faults():
    """Those of which ends are listed."""
    tried = (
        ('what was not tried sleeps', lambda asleep, steps, number: (*asleep, *steps[:number], *steps[number + 1:])),
        ('what comes behind sleeps in the place of what was tried', lambda asleep, steps, number: (*asleep, *steps[number + 1:])),
        ('what was taken sleeps in the place of what was tried', lambda asleep, steps, number: (*asleep, steps[number])),
        ('what slept above is forgotten', lambda asleep, steps, number: [step for step in steps[:number] if step not in asleep]),
        ('the candidate before alone sleeps', lambda asleep, steps, number: (*asleep, *steps[max(0, number - 1):number])),
        ('the first candidate alone sleeps', lambda asleep, steps, number: (*asleep, *steps[:min(1, number)])),
        ('what slept above alone sleeps', lambda asleep, steps, number: asleep))
    passed = (
        ('all matches of one rank that receives sleep', lambda asleep, step: step.kind == 'match' and step.second.rank in {
            other.second.rank for other in asleep if other.kind == 'match'}),
        ('all matches of one receive sleep', lambda asleep, step: step.kind == 'match' and step.second in {
            other.second for other in asleep if other.kind == 'match'}),
        ('all matches of one send sleep', lambda asleep, step: step.kind == 'match' and step.first in {
            other.first for other in asleep if other.kind == 'match'}),
        ('all matches of one sender sleep', lambda asleep, step: step.kind == 'match' and step.first.rank in {
            other.first.rank for other in asleep if other.kind == 'match'}))
    return ([Breakage('nothing falls asleep', wide, 'falling_asleep', lambda asleep, step: asleep),
             Breakage('matches alone fall asleep', wide, 'falling_asleep', lambda asleep, step: (
                 SOUND['falling_asleep'](asleep, step) if step.kind == 'match' else asleep))]
            + [Breakage(name, wide, 'asleep_below', other_tried(change)) for name, change in tried]
            + [Breakage(name, wide, 'asleep_below', passed_over(is_asleep)) for name, is_asleep in passed]
            + [Breakage('two steps sleep at most', wide, 'asleep_below', slept_at_once)]
            + [Breakage(name, wide, 'still_asleep', kept_asleep(is_kept)) for name, is_kept in (
                ('what shares a rank wakes up', lambda run, step, other: not of_ranks(other) & of_ranks(step)),
                ('what sleeps does not wake', lambda run, step, other: True),
                ('a send that gets a slot does not wake', lambda run, step, other: step.kind == 'match' or not sound_conflict(run, step, other)),
                ('a request does not wake where another is taken', lambda run, step, other: (
                    other.kind == 'wakeany' or not sound_conflict(run, step, other))),
                ('all wakes at each step', lambda run, step, other: False))]
            + [Breakage(name, wide, 'passed', forgotten(is_forgotten)) for name, is_forgotten in (
                ('sleepers are lost at a forced step', lambda choice: not choice), ('sleepers are lost at a choice', bool))]
            + [Breakage(name, wide, 'awake', replacement) for name, replacement in (
                ('candidates numbered among those that are awake', numbered_by_awake), ('the last candidate that is awake is lost', all_but_last))]
            + [Breakage(name, explorer, 'walk_of_ends', replacement) for name, replacement in (
                ('a leaf where all candidates sleep', cut_where_all_sleep), ('ends that are cut are left out', without_leaves_that_are_cut),
                ('each outcome once', each_outcome_once), ('all runs that are cut', cut_runs_of_all))])


# ---- what is decided

def along_decisions(world, sharper=False):
    """What goes along decisions."""
    return policy.decision(world)


def along_decisions_but(test):
    """What goes along decisions in some worlds."""
    return lambda world, sharper=False: policy.decision(world) if test(world) else SOUND_DECISION(world, sharper)


SOUND_DECISION = wide.wide_decision


def quiet_too(test):
    """What takes more steps for quiet."""
    return lambda world, step, sharper=False: test(world, step) or SOUND['is_quiet'](world, step, sharper)


def decision_faults():
    """Those of what is forced, and what is to be chosen."""
    return ([Breakage(name, wide, 'wide_decision', decided) for name, decided in (
                ('ends along decisions', along_decisions),
                ('ends along decisions in modes of slots', along_decisions_but(lambda world: slots_of(world.mode) is not None)),
                ('ends along decisions in other modes', along_decisions_but(lambda world: slots_of(world.mode) is None)))]
            + [Breakage(name, wide, 'is_quiet', quiet) for name, quiet in (
                ('a send that lacks a slot is forced', quiet_too(lambda world, step: step.kind == 'local')),
                ('a match that gives a slot back is forced', quiet_too(
                    lambda world, step: step.kind == 'match' and policy.names_source(world, step))),
                ('a request of a waitany is forced', quiet_too(lambda world, step: step.kind == 'wakeany')),
                ('the sharper rule', lambda world, step, sharper=False: SOUND['is_quiet'](world, step, True)),
                ('no match is forced in modes of slots', lambda world, step, sharper=False: (
                    SOUND['is_quiet'](world, step, sharper) and (step.kind != 'match' or slots_of(world.mode) is None))))])


# ---- pieces, and what is listed of each

def of_pieces(change):
    """What cuts a script into other pieces, by those that there are."""
    return lambda begun, split, ends=False: change(list(SOUND['pieces'](begun, split, ends)))


def not_asleep(found):
    return [piece for piece in found if piece.asleep is not None] or found[:1]


def awake_all(found):
    """Pieces that know nothing of what sleeps."""
    return [piece._replace(asleep=()) for piece in found]


def awake_where_asleep(found):
    """A piece whose choices take what sleeps lists its runs, with nothing asleep."""
    return [piece._replace(asleep=() if piece.asleep is None else piece.asleep) for piece in found]


def more_of_walk(piece, runs):
    """What says whether there are more by all runs of a piece."""
    return SOUND['ends_part'](piece, runs)._replace(more=SOUND['part'](piece, runs).more)


def of_first_runs(piece, runs):
    """What lists those of the first runs of a piece that are awake."""
    first = {leaf.choices for leaf in SOUND['part'](piece, runs).leaves}
    found = SOUND['ends_part'](piece, runs)
    return Report(tuple(leaf for leaf in found.leaves if leaf.choices in first), found.more or not first >= {leaf.choices for leaf in found.leaves})


def of_all_runs(piece, runs):
    return SOUND['part'](piece, runs)


def more_where_none(piece, runs):
    """What says that there are more where a piece has no leaf."""
    found = SOUND['ends_part'](piece, runs)
    return found._replace(more=found.more or not found.leaves)


def one_leaf_at_least(piece, runs):
    """What lists the first run of a piece that has no leaf of its own."""
    found = SOUND['ends_part'](piece, runs)
    return found if found.leaves else Report(SOUND['part'](piece, 1).leaves, False)


def piece_faults():
    """Those of the pieces of a report of ends."""
    parts = (
        ('more by all runs', more_of_walk), ('the first runs that are awake', of_first_runs), ('all runs', of_all_runs),
        ('more where a piece has no leaf', more_where_none), ('one leaf of each piece at least', one_leaf_at_least),
        ('one end more of a piece', lambda piece, runs: SOUND['ends_part'](piece, runs + 1)),
        ('more is never said of ends', lambda piece, runs: SOUND['ends_part'](piece, runs)._replace(more=False)))
    return ([Breakage(name, explorer, 'pieces', of_pieces(change)) for name, change in (
                ('pieces of what is awake alone', not_asleep), ('pieces that know nothing of what sleeps', awake_all),
                ('a piece that takes what sleeps', awake_where_asleep))]
            + [Breakage('pieces along decisions', explorer, 'pieces', lambda begun, split, ends=False: SOUND['pieces'](begun, split))]
            + [Breakage(name, explorer, 'ends_part', replacement) for name, replacement in parts])


# ---- groups

def other_ends(change):
    """What tells other ends, by those that there are."""
    return lambda found: change(SOUND['ends_of'](found), found)


def in_runs(found):
    """What counts leaves that stand one behind the other alone."""
    ends = []
    for number, leaf in enumerate(found.leaves):
        if ends and ends[-1].outcome == leaf.outcome:
            ends[-1] = ends[-1]._replace(leaves=ends[-1].leaves + 1)
        else:
            ends.append(End(leaf.outcome, 1, number))
    return ends


def told_alike(found):
    """What takes ends for one that are told alike, whichever statements issued their calls or trap."""
    told = [str(leaf.outcome) for leaf in found.leaves]
    return [End(text, told.count(text), told.index(text)) for text in dict.fromkeys(told)]


def as_told_alike(name):
    """What says of each end what is so of those that are told alike."""
    def change(ends, found):
        return [end._replace(**{name: getattr(alike, name)}) for end in ends for alike in told_alike(found) if alike.outcome == str(end.outcome)]
    return change


def by_word(found):
    """What tells ends apart by their words alone."""
    words = [leaf.outcome.split()[0] for leaf in found.leaves]
    return [End(found.leaves[words.index(word)].outcome, words.count(word), words.index(word)) for word in dict.fromkeys(words)]


def last_of(end, found):
    """The number of the last leaf that ends so."""
    return max(number for number, leaf in enumerate(found.leaves) if leaf.outcome == end.outcome)


def other_text(change):
    """What writes another text, by the right one, the report, and whether witnesses are asked for."""
    return lambda found, witnesses: change(SOUND['group_text'](found, witnesses), found, witnesses)


def lines_of(text):
    return text.splitlines(keepends=True)


def witness_by_end(text, found, witnesses):
    """What numbers a witness by its end."""
    lines = []
    for line in lines_of(text):
        number = sum(other.startswith('end ') for other in lines) - 1
        lines.append(f'witness {number}:{line.partition(":")[2]}' if line.startswith('witness ') else line)
    return ''.join(lines)


def counting_ends(text, found, witnesses):
    """What counts the ends in its last line."""
    count = len(SOUND['ends_of'](found))
    return ''.join([*lines_of(text)[:-1], f'leaves {count} more {"yes" if found.more else "no"}\n'])


def of_more(found):
    """What says that there are more where an outcome has several leaves."""
    return found._replace(more=found.more or len(SOUND['ends_of'](found)) < len(found.leaves))


def with_choices(text, found, witnesses):
    """What has the choices of the first leaf."""
    lines = []
    for line in lines_of(text):
        if line.startswith('end '):
            words = line.split(' ', 6)
            line = ' '.join([*words[:6], f'[{" ".join(map(str, found.leaves[int(words[5])].choices))}]', words[6]])
        lines.append(line)
    return ''.join(lines)


def status_by_group(change):
    """What has another status where leaves are grouped."""
    def checked(script, asked):
        said = SOUND['checked'](script, asked)
        return said._replace(status=change(said.status)) if asked.group and said.status in (0, 1, 4) else said
    return checked


def group_faults():
    """Those of reports that are grouped."""
    ends = (
        ('ends counted from one leaf less', lambda ends, found: [end._replace(leaves=end.leaves - 1) for end in ends]),
        ('the last leaf in the place of the first', lambda ends, found: [end._replace(first=last_of(end, found)) for end in ends]),
        ('the first leaf numbered among ends', lambda ends, found: [end._replace(first=number) for number, end in enumerate(ends)]),
        ('ends by how many leaves they have', lambda ends, found: sorted(ends, key=lambda end: -end.leaves)),
        ('ends by their texts', lambda ends, found: sorted(ends, key=lambda end: end.outcome)),
        ('ends from the last to the first', lambda ends, found: ends[::-1]),
        ('leaves one behind the other alone', lambda ends, found: in_runs(found)), ('ends by their words', lambda ends, found: by_word(found)),
        ('ends that are told alike are one', lambda ends, found: told_alike(found)),
        ('leaves that are told alike are counted', as_told_alike('leaves')),
        ('the first leaf that is told alike', as_told_alike('first')),
        ('ends that are cut are left out', lambda ends, found: [end for end in ends if end.outcome != CUT] or ends),
        ('bad ends alone', lambda ends, found: [end for end in ends if end.outcome.split()[0] in ('deadlock', 'trap')] or ends),
        ('one leaf of each end', lambda ends, found: [end._replace(leaves=1) for end in ends]),
        ('the last end is left out', lambda ends, found: ends[:-1] or ends))
    texts = (
        ('a witness numbered by its end', witness_by_end), ('ends in the last line', counting_ends),
        ('more where an end has several leaves', lambda text, found, witnesses: SOUND['group_text'](of_more(found), witnesses)),
        ('choices in an end', with_choices),
        ('no witness of an end', lambda text, found, witnesses: SOUND['group_text'](found, False)),
        ('a witness of an end though none is asked for', lambda text, found, witnesses: SOUND['group_text'](found, True)),
        ('ends numbered from one', lambda text, found, witnesses: ''.join(
            f'end {int(line.split()[1]) + 1} {line.split(" ", 2)[2]}' if line.startswith('end ') else line for line in lines_of(text))),
        ('no last line', lambda text, found, witnesses: ''.join(lines_of(text)[:-1])),
        ('leaves beside ends', lambda text, found, witnesses: explorer.report_text(found, witnesses)))
    return ([Breakage(f'group: {name}', explorer, 'ends_of', other_ends(change)) for name, change in ends]
            + [Breakage(f'group: {name}', explorer, 'group_text', other_text(change)) for name, change in texts]
            + [Breakage(f'group: {name}', explorer, 'checked', status_by_group(change)) for name, change in (
                ('status 0', lambda status: 0), ('no status 4', lambda status: 0 if status == 4 else status),
                ('status 1', lambda status: 1))])


def status_faults():
    """Those of whether a report of ends tells all."""
    def not_with_ends(script, asked):
        said = SOUND['checked'](script, asked)
        is_report = asked.modes is None and not asked.pieces
        return said._replace(status=4) if asked.ends and asked.complete and is_report and said.status == 0 else said

    def always_with_ends(script, asked):
        said = SOUND['checked'](script, asked)
        return said._replace(status=0) if asked.ends and said.status == 4 else said

    return ([Breakage(name, explorer, 'checked', replacement) for name, replacement in (
                ('no report of ends is whole', not_with_ends), ('each report of ends is whole', always_with_ends))]
            + [Breakage(name, explorer, 'tells_all', told) for name, told in (
                ('with a waitany no report is whole', lambda script, mode, is_wide: (
                    not explorer.has_waitany(script.body) and (is_wide or slots_of(mode) is None))),
                ('in modes of slots no report is whole', lambda script, mode, is_wide: (
                    slots_of(mode) is None and (is_wide or not explorer.has_waitany(script.body)))),
                ('a report along decisions is whole, too', lambda script, mode, is_wide: True))])


def breakages():
    """All that reports show beside those of the model."""
    return [*walk_faults(), *decision_faults(), *piece_faults(), *group_faults(), *status_faults()]


# Those by which an end of a small script is lost, comes twice, or isn't as it is told: all interleavings must show them.
OF_EVERY_END = ('nothing falls asleep', 'what was not tried sleeps', 'what was taken sleeps in the place of what was tried',
                'what slept above is forgotten', 'the first candidate alone sleeps', 'all matches of one rank that receives sleep',
                'all matches of one sender sleep', 'what shares a rank wakes up', 'what sleeps does not wake', 'a send that gets a slot does not wake',
                'sleepers are lost at a forced step', 'ends along decisions', 'ends along decisions in modes of slots',
                'ends along decisions in other modes', 'a send that lacks a slot is forced', 'a match that gives a slot back is forced',
                'a request of a waitany is forced', 'with a waitany no report is whole', 'in modes of slots no report is whole',
                'the last candidate that is awake is lost', 'candidates numbered among those that are awake', 'each outcome once',
                'a leaf where all candidates sleep', 'pieces that know nothing of what sleeps', 'a piece that takes what sleeps', 'all runs',
                'one leaf of each piece at least')


def every_end_faults():
    return [fault for fault in breakages() if fault.name in OF_EVERY_END]
