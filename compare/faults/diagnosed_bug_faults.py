"""Faults that are put on purpose into what the model takes for one bug: diagnosed.py must notice each (diagnosed_faults.py).

Ends that are told together though they are two bugs, or apart though they are one; bugs in another order; another end that is explained.
"""

from faults.diagnosed_command_faults import named
from model import diagnosed
from model.diagnosed import CUT, HANG, LEFT, TRAP
from model.states import word_of

SOUND = {name: getattr(diagnosed, name) for name in ('ends_of', 'bug_of', 'is_wider', 'bugs_of')}


def steps_of(end):
    """How many steps the first run of an end has."""
    return len(end.leaf.steps)


def by_ranks(end):
    """What tells ends apart by their ranks, and not by lines."""
    return end.kind, tuple(word.split('.')[0] for word in end.leaf.outcome.split()[1:])


def by_trap(end):
    """What tells traps apart by the last of their names, too."""
    return *SOUND['bug_of'](end), end.leaf.outcome.split()[-1] if end.kind == TRAP else ''


def leftovers_together(ends):
    """Bugs with all leftovers in one."""
    ends = list(ends)
    left = [end for end in ends if end.kind == LEFT]
    return SOUND['bugs_of'](end for end in ends if end.kind != LEFT) + [left] * bool(left)


def sorted_by(place):
    """What has bugs in another order."""
    return lambda ends: sorted(SOUND['bugs_of'](ends), key=place)


def by_first_runs(ends):
    """Bugs in the order of the first of each, whatever their kind."""
    ends = list(ends)
    return sorted(SOUND['bugs_of'](ends), key=lambda bug: ends.index(bug[0]))


def neighbours(ends):
    """Bugs of ends that stand next to each other alone."""
    found = []
    for end in ends:
        if found and diagnosed.bug_of(found[-1][0]) == diagnosed.bug_of(end):
            found[-1].append(end)
        else:
            found.append([end])
    return found


def without_ends(kind):
    """What leaves out the ends of a kind."""
    return lambda asked, found: (end for end in SOUND['ends_of'](asked, found) if end.kind != kind)


def with_ways(change):
    """What tells ends by other ways that were found."""
    return lambda asked, found: SOUND['ends_of'](asked, found._replace(ways=change(found.ways)))


def first_runs(ways):
    """The ways, all with the first run of the first one of their kind."""
    firsts = {}
    for outcome, way in ways.items():
        firsts.setdefault(word_of(outcome), way.first)
    return {outcome: way._replace(first=firsts[word_of(outcome)]) for outcome, way in ways.items()}


def bug_lines_more(ends, others):
    """Whether ends stand at all lines of others of any kind, and at more."""
    return set(others[0].lines) < set(ends[0].lines)


def bug_faults():
    """Those of ends that are told together."""
    together = (
        ('by kinds alone', lambda end: end.kind), ('by lines alone', lambda end: end.lines), ('by outcomes', lambda end: end.leaf.outcome),
        ('by the first line', lambda end: (end.kind, end.lines[:1])), ('by the last line', lambda end: (end.kind, end.lines[-1:])),
        ('by ranks and not by lines', by_ranks), ('by kinds and how many lines', lambda end: (end.kind, len(end.lines))),
        ('by lengths, too', lambda end: (*SOUND['bug_of'](end), steps_of(end))), ('of a trap by its name, too', by_trap))
    bugs = (
        ('leftovers are one bug', leftovers_together), ('in the order of their first runs', by_first_runs),
        ('leftovers first', sorted_by(lambda bug: bug[0].kind != LEFT)), ('by their lines', sorted_by(lambda bug: bug[0].lines)),
        ('hangs first', sorted_by(lambda bug: (HANG, TRAP, LEFT, CUT).index(bug[0].kind))),
        ('by their runs', sorted_by(lambda bug: -sum(end.runs for end in bug))),
        ('from the last to the first', lambda ends: SOUND['bugs_of'](ends)[::-1]), ('the first alone', lambda ends: SOUND['bugs_of'](ends)[:1]),
        ('of ends beside each other', neighbours), ('without the last end of one', lambda ends: [bug[:-1] or bug for bug in SOUND['bugs_of'](ends)]))
    explained = (
        ('the first', lambda ends: ends[0]), ('the last', lambda ends: ends[-1]), ('the longest', lambda ends: max(ends, key=steps_of)),
        ('the last of equals', lambda ends: min(reversed(ends), key=steps_of)),
        ('that with the fewest choices', lambda ends: min(ends, key=lambda end: len(end.leaf.choices))),
        ('that with the most runs', lambda ends: max(ends, key=lambda end: end.runs)),
        ('that with the fewest runs', lambda ends: min(ends, key=lambda end: end.runs)))
    ends = (
        ('none that is cut', without_ends(CUT)), ('no leftovers', without_ends(LEFT)), ('no traps', without_ends(TRAP)), ('no deadlocks', without_ends(HANG)),
        ('the first run of another end', with_ways(first_runs)), ('the last end is left out', with_ways(lambda ways: dict(list(ways.items())[:-1]))),
        ('no end of one run', with_ways(lambda ways: {outcome: way for outcome, way in ways.items() if way.runs > 1})))
    wider = (
        ('in the order of their first runs, of one kind', lambda ends, others: False), ('two bugs before one of them', lambda ends, others: SOUND['is_wider'](others, ends)),
        ('last whose lines are more', lambda ends, others: ends[0].kind == others[0].kind and len(ends[0].lines) > len(others[0].lines)),
        ('last that has a line of another', lambda ends, others: ends[0].kind == others[0].kind and ends[0].lines != others[0].lines
            and bool(set(ends[0].lines) & set(others[0].lines))),
        ('last that has a line of another kind, too', lambda ends, others: bug_lines_more(ends, others)))
    return [*named('bugs', diagnosed, 'is_wider', wider), *named('bugs', diagnosed, 'bug_of', together), *named('bugs', diagnosed, 'bugs_of', bugs),
            *named('explained', diagnosed, 'explained_of', explained), *named('ends', diagnosed, 'ends_of', ends)]
