"""Faults that are put on purpose into what the model tells of how the runs of a script end: outcomes.py must notice each.

A search that takes different states for one, or a result for one of other fuel; counts, first runs and orders that are others; one that
stops and says nothing of it, or tells of runs that it has not come to; other lines, and other statuses. Those of the step that decides, of
the first run that ends badly, and of several modes stand in decided_faults.py.
"""

from faults import decided_faults
from faults.policy_faults import Breakage
from model import explorer, outcomes, policy, states, wide
from model.debugger import Result
from model.outcomes import MOST_COUNTED
from model.states import NO_RUNS, Found, Search, Told, Way, of_leaves, word_of
from model.walks import CUT, walk

SOUND = {name: getattr(owner, name) for owner, names in (
    (states, ('key', 'unread', 'variables', 'activity', 'asked_by_call', 'free', 'waited_for', 'requests', 'blocked_on', 'serves', 'ended',
              'behind_step', 'chosen', 'joined', 'searched')),
    (outcomes, ('count_text', 'way_lines', 'text_of', 'status', 'clash', 'answer'))) for name in names}
TOLD_BEHIND, KEEP = Search.told_behind, Search.keep


# ---- what tells states apart

def asked_without(*names):
    """What a call asks for, without some of that."""
    def asked(call):
        there = {name: None for name in names if name in call._fields}
        return SOUND['asked_by_call'](call)._replace(**there)
    return asked


def read_again(world, number):
    """What leaves out of requests which call each is of."""
    return tuple(request and request[1] for request in SOUND['requests'](world, number))


def unread_where(test):
    """What takes the variables for unread of ranks that pass a test."""
    return lambda rank: range(len(rank.cells)) if test(rank) else SOUND['unread'](rank)


def of_requests(rank):
    """The cells that the receives of requests will write, too, though the rank goes on meanwhile."""
    calls = [rank.calls[handle] for handle in rank.handles if handle is not None]
    return (*SOUND['unread'](rank), *(call.cell for call in calls if call.kind == 'recv'))


def key_faults():
    """Those of what is told of a state."""
    return [Breakage(f'a key: {name}', states, attribute, replacement) for name, attribute, replacement in (
        ('without requests', 'requests', lambda world, number: ()), ('without which call a request is of', 'requests', read_again),
        ('without whether there is a request', 'requests', lambda world, number: tuple(
            request for request in SOUND['requests'](world, number) if request is not None)),
        ('without where free calls were issued', 'free', lambda rank: tuple((number, asked) for number, _, asked in SOUND['free'](rank))),
        ('without where a rank is blocked', 'blocked_on', lambda world, number: SOUND['blocked_on'](world, number)[1:]),
        ('without free calls', 'free', lambda rank: ()), ('without how many calls there are', 'call_count', lambda rank: 0),
        ('without what will be written', 'will_write', lambda world, call_id: ()),
        ('without activity', 'activity', lambda rank: None), ('without which trap', 'activity', lambda rank: rank.mode),
        ('without the mode', 'mode_of', lambda world: None), ('without what is left to run', 'left', lambda rank: ()),
        ('without variables', 'variables', lambda rank: ()),
        ('without what a rank is blocked on', 'blocked_on', lambda world, number: ()),
        ('without whether a send is buffered', 'asked_by_call', asked_without('buffered')),
        ('without tags', 'asked_by_call', asked_without('tag')),
        ('without values', 'asked_by_call', asked_without('value')),
        ('without what a receive will write', 'asked_by_call', asked_without('cell')),
        ('without the handle of a wait', 'asked_by_call', asked_without('handle', 'target')),
        ('without variables of a rank that is blocked', 'unread', unread_where(lambda rank: rank.mode == 'blocked')),
        ('without variables of a rank that waits', 'unread', unread_where(lambda rank: rank.mode == 'blocked'
                                                                          and rank.calls[-1].kind == 'wait')),
        ('without variables that a request will write', 'unread', of_requests),
        ('without variables of a rank with few statements left', 'variables', lambda rank: (
            () if rank.rest is not None and rank.rest[1] is None else SOUND['variables'](rank))),
        ('the first rank alone', 'key', lambda world: SOUND['key'](world)[1][0]), ('all but the last rank', 'key', lambda world: (
            SOUND['key'](world)[1][:-1] or SOUND['key'](world))))]


# ---- what is kept

def kept_with_more_fuel(search, place, kept):
    """What takes results for those of more fuel than there was."""
    KEEP(search, place, kept._replace(fuel=kept.fuel + 1))


def kept_faults():
    """Those of which results serve."""
    serves = (
        ('whatever fuel', lambda kept, fuel: True),
        ('more fuel than it was found with', lambda kept, fuel: SOUND['serves'](kept, fuel) or kept.fuel < fuel),
        ('any fuel where the longest run has as many steps', lambda kept, fuel: SOUND['serves'](kept, fuel) or kept.told.longest <= fuel),
        ('less fuel than the longest run has steps', lambda kept,
         fuel: SOUND['serves'](kept, fuel) or fuel < kept.fuel and CUT not in kept.told.ways),
        ('a step less than the longest run has', lambda kept, fuel: kept.fuel == fuel or kept.told.longest <= 1 + min(kept.fuel, fuel)))
    return ([Breakage(f'a result for {name}', states, 'serves', replacement) for name, replacement in serves]
            + [Breakage('a run that is cut has as many steps as it has fuel', states, 'ended',
                        lambda outcome: SOUND['ended'](outcome)._replace(longest=0)),
               Breakage('traps at other statements are one outcome', states, 'ended', lambda outcome: SOUND['ended'](str(outcome))),
               Breakage('the longest run is that of the last candidate', states, 'joined', lambda told, later: (
                   SOUND['joined'](told, later)._replace(longest=later.longest))),
               Breakage('the longest run is that of the first candidate', states, 'joined', lambda told, later: (
                   SOUND['joined'](told, later)._replace(longest=told.longest or later.longest))),
               Breakage('a result is kept with a step more of fuel', Search, 'keep', kept_with_more_fuel)])


# ---- counts, first runs, and their order

def other_joined(change):
    """What joins ways otherwise: by those before, by later ones, and by what they make."""
    return lambda told, later: SOUND['joined'](told, later)._replace(ways=change(told.ways, later.ways, SOUND['joined'](told, later).ways))


def counted(count):
    """What counts otherwise where an outcome comes once more, by both counts."""
    return other_joined(lambda before, later, ways: {
        outcome: way._replace(runs=count(before[outcome].runs, later[outcome].runs)) if outcome in before and outcome in later else way
        for outcome, way in ways.items()})


def with_first(first):
    """What has another first run where an outcome comes once more, by both."""
    return other_joined(lambda before, later, ways: {
        outcome: way._replace(first=first(before[outcome].first, later[outcome].first)) if outcome in before and outcome in later else way
        for outcome, way in ways.items()})


def of_another(before, later, ways):
    """What gives a later outcome the first run of another one, where that is new."""
    return {outcome: way if outcome in before or not before else way._replace(first=next(iter(before.values())).first) for outcome,
            way in ways.items()}


def as_one(name_of):
    """What takes outcomes for one that have the same name."""
    def change(before, later, ways):
        found = {}
        for outcome, way in ways.items():
            same = next((other for other in found if name_of(other) == name_of(outcome)), None)
            found[same or outcome] = way if same is None else found[same]._replace(runs=found[same].runs + way.runs)
        return found
    return change


def other_found(change):
    """What finds otherwise, by what there is to be found."""
    return lambda begun, *limits, **named: change(SOUND['searched'](begun, *limits, **named))


def in_order_of(order):
    """What has the outcomes in another order."""
    return other_found(lambda found: found._replace(ways=dict(sorted(found.ways.items(), key=order))))


def without_cut(found):
    """What leaves out runs that are cut, where there are others."""
    return found._replace(ways={outcome: way for outcome, way in found.ways.items() if outcome != CUT} or found.ways)


def along(leaves_of):
    """What is found of other runs."""
    return lambda begun, *limits, **named: of_leaves(leaves_of(begun))


def without_last_candidate(search, world, fuel):
    """What comes to all candidates of a choice but the last."""
    decided = states.decided(world)
    if not isinstance(decided, policy.Choice) or len(decided.steps) < 3 or not fuel:
        return (yield from TOLD_BEHIND(search, world, fuel))
    told = yield from TOLD_BEHIND(search, world, fuel)
    last = len(decided.steps) - 1
    return told._replace(ways={outcome: way for outcome, way in told.ways.items() if way.first[0] != last} or told.ways)


def count_faults():
    """Those of how many runs there are, of the first ones, and of their order."""
    joins = (
        ('a count forgets a branch', counted(lambda one, other: one)),
        ('a count has the last branch alone', counted(lambda one, other: other)),
        ('a count wraps at 2^64', counted(lambda one, other: (one + other) % 2 ** 64)),
        ('a count wraps at 2^32', counted(lambda one, other: (one + other) % 2 ** 32)),
        ('a count stays at the most that is told', counted(lambda one, other: min(one + other, MOST_COUNTED))),
        ('a count stays at 2^63', counted(lambda one, other: min(one + other, 2 ** 63))),
        ('each outcome is counted once', counted(lambda one, other: 1)),
        ('a count by multiplying', counted(lambda one, other: one * other)),
        ('the last run in the place of the first', with_first(lambda one, other: other)),
        ('the first run with the most choices', with_first(lambda one, other: max(one, other, key=len))),
        ('the first run of another outcome', other_joined(of_another)), ('outcomes by their words', other_joined(as_one(word_of))),
        ('outcomes that are told alike are one', other_joined(as_one(str))))
    return ([Breakage(name, states, 'joined', replacement) for name, replacement in joins]
            + [Breakage(name, outcomes, 'count_text', replacement) for name, replacement in (
                ('at least for the most that is told, too', lambda count: SOUND['count_text'](count if count < MOST_COUNTED
                                                                                              else MOST_COUNTED + 1)),
                ('a count of any size', str), ('nothing but the most where there are more', lambda count: str(min(count, MOST_COUNTED))))]
            + [Breakage(name, states, 'chosen', replacement) for name, replacement in (
                ('choices from the last one on', lambda told, number: told._replace(ways={
                    outcome: way._replace(first=(*way.first, number)) for outcome, way in told.ways.items()})),
                ('the first candidate is no choice', lambda told, number: SOUND['chosen'](told, number) if number else told),
                ('candidates numbered from one', lambda told, number: SOUND['chosen'](told, number + 1)))]
            + [Breakage(name, states, 'searched', replacement) for name, replacement in (
                ('outcomes by their texts', in_order_of(lambda one: one[0])),
                ('outcomes by how many runs they have', in_order_of(lambda one: -one[1].runs)),
                ('outcomes from the last to the first', other_found(lambda found: found._replace(ways=dict(reversed(found.ways.items()))))),
                ('bad outcomes first', in_order_of(lambda one: one[0].split()[0] not in ('deadlock', 'trap'))),
                ('runs that are cut are left out', other_found(without_cut)),
                ('ends of the walk that sleeps', along(explorer.walk_of_ends)),
                ('runs along decisions', along(lambda begun: walk(begun.world, begun.fuel))),
                ('a step of fuel more', lambda begun, *limits,
                 **named: SOUND['searched'](begun._replace(fuel=begun.fuel + 1), *limits, **named)),
                ('a step of fuel less', lambda begun, *limits,
                 **named: SOUND['searched'](begun._replace(fuel=begun.fuel - 1), *limits, **named)),
                ('as many states as are kept', lambda begun, kept=states.USUAL_STATES, most=states.MOST_COME_TO, **named: (
                    SOUND['searched'](begun, kept, min(kept, most), **named))),
                ('more where a run is cut', other_found(lambda found: found._replace(more=found.more or CUT in found.ways))))]
            + [Breakage('the sharper rule', states, 'decided', lambda world: wide.wide_decision(world, True)),
               Breakage('the last of three candidates is lost', Search, 'told_behind', without_last_candidate)])


# ---- what is written

def other_text(change):
    """What writes another text, by the lines that are right."""
    return lambda asked, found: ''.join(f'{line}\n' for line in change(SOUND['text_of'](asked, found).splitlines()))


def other_lines(change):
    """What writes the lines of an outcome otherwise."""
    return lambda asked, number, outcome, way: change(asked, number, outcome, way)


def by_run(lines):
    """What numbers outcomes by their first run among all of them."""
    runs, found = 0, []
    for line in lines:
        words = line.split()
        if words[0] == 'outcome':
            line = ' '.join(['outcome', str(runs), *words[2:]])
            runs += int(words[3].replace('at', '1'))
        found.append(line)
    return found


def in_last(lines, place, change):
    """The lines, with another word in the last one."""
    words = lines[-1].replace('at least ', 'at-least-').split()
    words[place] = change(words[place], lines)
    return [*lines[:-1], ' '.join(words).replace('at-least-', 'at least ')]


def text_faults():
    """Those of the lines."""
    texts = (
        ('outcomes numbered from one', lambda lines: [
            f'outcome {int(line.split()[1]) + 1} {line.split(" ", 2)[2]}' if line.startswith('outcome ') else line for line in lines]),
        ('outcomes numbered by their first run', by_run), ('no last line', lambda lines: lines[:-1]),
        ('no first runs', lambda lines: [line.replace(line[line.index(' first'):line.index(']') + 1], '') if line.startswith('outcome ')
                                         else line
                                         for line in lines]),
        ('as many runs as outcomes', lambda lines: in_last(lines, 3, lambda word, lines: lines[-1].split()[1])),
        ('as many outcomes as runs', lambda lines: in_last(lines, 1, lambda word, lines: lines[-1].split()[3].replace('at', '1'))),
        ('the last line counts what is told exactly', lambda lines: in_last(lines, 3, lambda word, lines: word.replace('at-least-', ''))),
        ('more runs that are cut', lambda lines: in_last(lines, 5, lambda word,
                                                         lines: 'yes' if any(line.endswith(' cut') for line in lines) else word)))
    ways = (
        ('no witness', lambda asked, *way: SOUND['way_lines'](asked._replace(witnesses=False), *way)),
        ('a witness though none is asked for', lambda asked, *way: SOUND['way_lines'](asked._replace(witnesses=True), *way)),
        ('no explanation', lambda asked, *way: SOUND['way_lines'](asked._replace(explain=False), *way)),
        ('an explanation though none is asked for', lambda asked, *way: SOUND['way_lines'](asked._replace(explain=True), *way)),
        ('a witness numbered from one', lambda asked, number, outcome, way: [
            line.replace(f'witness {number}:', f'witness {number + 1}:') for line in SOUND['way_lines'](asked, number, outcome, way)]),
        ('an explanation before the witness', lambda asked, *way: sorted(SOUND['way_lines'](asked, *way),
                                                                         key=lambda line: line.startswith('witness '))))
    return ([Breakage(name, outcomes, 'text_of', other_text(change)) for name, change in texts]
            + [Breakage(name, outcomes, 'way_lines', other_lines(change)) for name, change in ways])


def without_status(asked):
    """What writes of what it refuses, too."""
    said = SOUND['answer'](asked)
    return Result(said.output or b'outcomes 0 runs 0 more no\n', said.errors, said.status)


def status_faults():
    """Those of the status, and of what is refused."""
    statuses = (
        ('status 0 for a trap', lambda found, complete: SOUND['status'](found._replace(ways={
            outcome: way for outcome, way in found.ways.items() if not outcome.startswith('trap')}), complete)),
        ('status 0 for a deadlock', lambda found, complete: SOUND['status'](found._replace(ways={
            outcome: way for outcome, way in found.ways.items() if not outcome.startswith('deadlock')}), complete)),
        ('status 1 for leftovers', lambda found, complete: (
            1 if any(outcome.startswith('leftovers') for outcome in found.ways) else SOUND['status'](found, complete))),
        ('status 1 for a run that is cut', lambda found, complete: 1 if CUT in found.ways else SOUND['status'](found, complete)),
        ('no status 4', lambda found, complete: SOUND['status'](found, False)),
        ('status 4 though not all is asked for', lambda found, complete: (
            SOUND['status'](found, True))),
        ('status 4 before status 1', lambda found, complete: (
            4 if complete and not outcomes.is_whole(found) else SOUND['status'](found, complete))),
        ('status 4 where all is asked for and nothing is bad', lambda found, complete: SOUND['status'](found, complete) or 4 * complete),
        ('status by the first outcome', lambda found, complete: SOUND['status'](found._replace(ways=dict(list(found.ways.items())[:1])),
                                                                                complete)))
    clashes = (('what can\'t stand beside it is left out', lambda asked: None),
               ('pieces can stand beside it', lambda asked: None if '--pieces' in asked.beside else SOUND['clash'](asked)),
               ('what can\'t stand beside it, by another name', lambda asked: SOUND['clash'](asked) and '--ends'))
    return ([Breakage(name, outcomes, 'status', replacement) for name, replacement in statuses]
            + [Breakage(name, outcomes, 'clash', replacement) for name, replacement in clashes]
            + [Breakage('the mode before what can\'t stand beside it', outcomes, 'answer', lambda asked: (
                SOUND['answer'](asked._replace(beside=()) if asked.mode == 'fast' else asked))),
               Breakage('a line where it is refused', outcomes, 'answer', without_status)])


def breakages():
    """All that rows and checks must show."""
    return [*key_faults(), *kept_faults(), *count_faults(), *text_faults(), *status_faults(), *decided_faults.breakages()]


# ---- what runs one after another must show

def stops_silently(found):
    return found._replace(more=False)


def stopped_early(search, world, fuel):
    """What tells nothing of a choice behind one of whose candidates it has stopped."""
    told = yield from TOLD_BEHIND(search, world, fuel)
    return NO_RUNS if search.has_stopped else told


def cut_where_stopped(search, world, fuel):
    """What tells of a run that is cut where it has stopped."""
    told = yield from TOLD_BEHIND(search, world, fuel)
    return Told({CUT: Way(1, ())}, 1) if search.has_stopped and not told.ways else told


class NeverStopping(Search):
    """A search that goes on with the candidates of other choices where it has stopped."""

    def behind(self, world, fuel):
        """Stops behind the state alone at which there are too many."""
        self.has_stopped = False
        told = yield from super().behind(world, fuel)
        return told


def stop_faults():
    """Those of a search that stops."""
    def never_stopping(begun, kept=states.USUAL_STATES, most=states.MOST_COME_TO, **_):
        search = NeverStopping(kept, most)
        told = states.answered(search.behind(begun.world, begun.fuel))
        return Found(told.ways, search.come_to == most)

    return ([Breakage(name, states, 'searched', replacement) for name, replacement in (
                ('more no where it has stopped', other_found(stops_silently)), ('it goes on where it has stopped', never_stopping),
                ('more where it has come to as many states as it may', lambda begun, kept=states.USUAL_STATES, most=states.MOST_COME_TO, **named: (
                    SOUND['searched'](begun, kept, most - 1, **named))))]
            + [Breakage(name, Search, 'told_behind', replacement) for name, replacement in (
                ('what comes before is lost where it has stopped', stopped_early),
                ('a run that is cut where it has stopped', cut_where_stopped))])


# Those of other searches that runs one after another must show, too; rows show them all.
BY_DEFINITION = ('a key: without free calls', 'a key: without variables', 'a key: the first rank alone', 'a result for whatever fuel',
                 'a count forgets a branch', 'the last run in the place of the first', 'choices from the last one on',
                 'as many states as are kept',
                 'the last of three candidates is lost')


def definition_faults():
    """Those that the runs of scripts, one after another, must show of their search."""
    return [*stop_faults(), *decided_faults.stop_faults(), *(fault for fault in breakages() if fault.name in (*BY_DEFINITION, *decided_faults.BY_DEFINITION))]


# Those by which an outcome of a small script is lost, or its first run is another: all interleavings must show them.
OF_EVERY_END = ('a key: without requests', 'a key: without variables', 'a key: the first rank alone', 'the first run of another outcome',
                'outcomes by their words', 'choices from the last one on', 'the first candidate is no choice',
                'candidates numbered from one',
                'outcomes by their texts', 'outcomes from the last to the first', 'runs along decisions', 'status 0 for a trap',
                'status 0 for a deadlock',
                'as many runs as outcomes', 'no last line')


def every_end_faults():
    """Those that all interleavings must show."""
    return [fault for fault in breakages() if fault.name in (*OF_EVERY_END, *decided_faults.OF_EVERY_END)]
