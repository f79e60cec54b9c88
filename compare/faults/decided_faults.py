"""Faults that are put on purpose into what the model tells of the step that decides how a run ends, of outcomes up to the first deadlock or trap,
and of those in several modes: outcomes.py must notice each."""

from itertools import islice

from faults.policy_faults import Breakage
from model import deciding, outcomes, states
from model.console_lines import request_of
from model.deciding import Last
from model.explaining import call_text
from model.outcomes import Outcomes
from model.policy import Choice
from model.states import of_leaves, word_of
from model.walks import CUT
from model.wide import wide_walk

SOUND = {name: getattr(owner, name) for owner, names in (
    (deciding, ('by_ways', 'in_its_place', 'last_not_doomed', 'line_of', 'message', 'told_step')),
    (outcomes, ('explained', 'mode_line', 'least_of', 'modes_tried', 'modes_status', 'in_modes')), (states, ('searched',))) for name in names}
SOUND_FOUND, SOUND_STOPS_AT = Outcomes.found, Outcomes.stops_at
# So many runs are listed at most, of one after another.
SOME = 300


# ---- which state it is

def beside(steps):
    """What takes the state that is so many steps behind the last one that isn't doomed, as far as it is there."""
    def last_not_doomed(worlds, fuel, look):
        found = SOUND['last_not_doomed'](worlds, fuel, look)
        if found is None or found.ahead.well is None or not 0 <= found.depth + steps < len(worlds) - 1:
            return found
        depth = found.depth + steps
        return Last(depth, deciding.Ahead(look(worlds[depth], fuel - depth).well or (0,), True))
    return last_not_doomed


def at_choice(which):
    """What takes the first or the last choice of a run, where some run can still end well from one of its states."""
    def last_not_doomed(worlds, fuel, look):
        found = SOUND['last_not_doomed'](worlds, fuel, look)
        choices = [depth for depth, world in enumerate(worlds) if isinstance(states.decided(world), Choice) and len(states.decided(world).steps) > 1]
        if found is None or found.ahead.well is None or not choices:
            return found
        return Last(choices[which], found.ahead if found.depth == choices[which] else deciding.Ahead((0,), True))
    return last_not_doomed


def first_not_whole(worlds, fuel, look):
    """What takes the last state from which not all runs are known for one from which some run ends well."""
    found = SOUND['last_not_doomed'](worlds, fuel, look)
    if found is None or found.depth + 1 == len(worlds):
        return found
    return found._replace(ahead=found.ahead._replace(well=found.ahead.well or (0,)))


def with_ways(change):
    """What is ahead by other ways."""
    return lambda ways, left_out: SOUND['by_ways'](change(ways), left_out)


def last_well(ways, left_out):
    """What takes the last way that ends well for the first one."""
    return SOUND['by_ways'](dict(reversed(ways.items())), left_out)


def state_faults():
    """Those of the state before the step that decides, and of what is ahead of it."""
    lasts = (('one step early', beside(-1)), ('one step late', beside(1)), ('the first choice', at_choice(0)), ('the last choice', at_choice(-1)),
             ('the whole fuel from each state', lambda worlds, fuel, look: SOUND['last_not_doomed'](worlds, fuel, lambda world, _: look(world, fuel))),
             ('a step of fuel less from each state', lambda worlds, fuel, look: (
                 SOUND['last_not_doomed'](worlds, fuel, lambda world, left: look(world, max(0, left - 1))))),
             ('what is not known ends well', first_not_whole),
             ('none but the start', lambda worlds, fuel, look: SOUND['last_not_doomed'](worlds[:1], fuel, look)))
    aheads = (('runs that are cut end badly', with_ways(lambda ways: {outcome: way for outcome, way in ways.items() if outcome != CUT})),
              ('the last run that ends well', last_well))
    ends = (('leftovers end badly', ('done',)), ('done ends badly', ('leftovers',)), ('traps end well', ('done', 'leftovers', 'trap')),
            ('deadlocks end well', ('done', 'leftovers', 'deadlock')), ('runs that are cut end well', ('done', 'leftovers', CUT)))
    return ([Breakage(f'decided: {name}', deciding, 'last_not_doomed', replacement) for name, replacement in lasts]
            + [Breakage(f'decided: {name}', deciding, 'by_ways', replacement) for name, replacement in aheads]
            + [Breakage(f'decided: {name}', deciding, 'ENDS_WELL', replacement) for name, replacement in ends])


# ---- how it is told

def swapped(at, step, other):
    """What tells of the message of the step itself what could be taken in its place."""
    return SOUND['in_its_place'](at, step, other) if step.kind != 'match' or other.kind != 'match' else f'with that of {SOUND["message"](at, step.first)}'


def without_same_receive(at, step, other):
    return f'if {SOUND["told_step"](at, other)} instead,'


def of_any_receive(at, step, other):
    """What tells of each other match as of one of the same receive."""
    return SOUND['in_its_place'](at, step, other._replace(second=step.second) if step.kind == other.kind == 'match' else other)


def by_receive(at, step):
    """What tells the line of the receive for that of the send."""
    return SOUND['told_step'](at, step).replace(f'(line {at.lines[step.first]},', f'(line {at.lines[step.second]},') if step.kind == 'match' else (
        SOUND['told_step'](at, step))


def by_first_request(at, step):
    """What tells of the first request that a wait for any has."""
    return SOUND['told_step'](at, step._replace(second=0)) if step.kind == 'wakeany' else SOUND['told_step'](at, step)


def by_request(at, step):
    """What tells a request without its line."""
    if step.kind != 'wakeany':
        return SOUND['told_step'](at, step)
    request = call_text(at, request_of(at.world, step))
    return SOUND['told_step'](at, step).replace(request, request.partition(', ')[2])


def told_by(kind, change):
    """What tells steps of a kind otherwise."""
    return lambda at, step: change(SOUND['told_step'](at, step)) if step.kind == kind else SOUND['told_step'](at, step)


def other_line(change):
    return lambda script, mode, steps, last: change(SOUND['line_of'](script, mode, steps, last))


def first_line(asked, leaf):
    """What tells what decided before all else."""
    lines = SOUND['explained'](asked, leaf)
    return (lines[-1], *lines[:-1]) if lines else lines


def without_line(word):
    """What doesn't tell what decided of ends by a word."""
    return lambda asked, leaf: SOUND['explained'](asked, leaf)[:-1] if word_of(leaf.outcome) == word else SOUND['explained'](asked, leaf)


def text_faults():
    """Those of the line."""
    messages = (
        ('the value of no send', lambda at, send: SOUND['message'](at, send).replace('value ', 'value 1')),
        ('values without a sign', lambda at, send: SOUND['message'](at, send).replace('value -', 'value ')),
        ('values of 32 bits', lambda at, send: SOUND['message'](at, send).replace(
            f'value {(value := deciding.find_call(at.world, send).value)}', f'value {(value + 2 ** 31) % 2 ** 32 - 2 ** 31}')),
        ('the tag for the value', lambda at, send: SOUND['message'](at, send).replace('value', 'tag', 1)),
        ('no tag', lambda at, send: SOUND['message'](at, send).partition(', tag')[0] + ')'))
    steps = (('the line of the receive for that of the send', by_receive), ('the first request', by_first_request), ('a request without its line', by_request),
             ('a local step runs', told_by('local', lambda text: text.replace('goes on', 'runs'))),
             ('a local step without a line', told_by('local', lambda text: text.replace(text[text.index(', line'):text.index(', goes')], ''))))
    places = (('the message of the step itself', swapped), ('no word of the same receive', without_same_receive), ('the same receive for others', of_any_receive))
    lines = (('no depth', lambda line: line.replace('at depth ', 'at ')), ('nothing in its place', lambda line: line.partition(';')[0]),
             ('or earlier is none', lambda line: line.partition(' or earlier')[0]),
             ('or earlier from the start', lambda line: deciding.FROM_START if ' or earlier' in line else line),
             ('from the start at depth 0', lambda line: 'decided at depth 0 or earlier: not all runs from there were counted'
              if line == deciding.FROM_START else line))
    wholes = (('before all else', first_line), ('not of a trap', without_line('trap')), ('not of a deadlock', without_line('deadlock')),
              ('with no blanks', lambda asked, leaf: tuple(line.replace('  decided', 'decided') for line in SOUND['explained'](asked, leaf))))
    return ([Breakage(f'decided: {name}', deciding, 'message', replacement) for name, replacement in messages]
            + [Breakage(f'decided: {name}', deciding, 'told_step', replacement) for name, replacement in steps]
            + [Breakage(f'decided: {name}', deciding, 'in_its_place', replacement) for name, replacement in places]
            + [Breakage(f'decided: {name}', deciding, 'line_of', other_line(change)) for name, change in lines]
            + [Breakage(f'decided: {name}', outcomes, 'explained', replacement) for name, replacement in wholes])


# ---- up to the first that ends badly

def by_listing(change):
    """What is found up to the first bad run, told by the runs one after another and its place; where they are many, as it is."""
    def searched(begun, *limits, stops_at=(), **named):
        leaves = list(islice(wide_walk(begun.world, begun.fuel), SOME)) if stops_at else []
        place = next((place for place, leaf in enumerate(leaves) if word_of(leaf.outcome) in stops_at), None)
        return SOUND['searched'](begun, *limits, stops_at=stops_at, **named) if place is None or len(leaves) == SOME else change(leaves, place)
    return searched


def until_faults():
    """Those of where the search stops, and of what is told then."""
    stops = (('traps are passed', ('deadlock',)), ('deadlocks are passed', ('trap',)), ('all are passed', ()),
             ('leftovers end it', ('deadlock', 'trap', 'leftovers')),
             ('a run that is cut ends it', ('deadlock', 'trap', CUT)), ('any run ends it', ('deadlock', 'trap', 'leftovers', 'done', CUT)))
    found = (('one run more', lambda leaves, place: of_leaves(leaves[:place + 2], place + 2 < len(leaves))),
             ('without the last run', lambda leaves, place: of_leaves(leaves[:place], True)),
             ('the last run alone', lambda leaves, place: of_leaves(leaves[place:place + 1], place + 1 < len(leaves))),
             ('more no', lambda leaves, place: of_leaves(leaves[:place + 1])), ('more yes', lambda leaves, place: of_leaves(leaves[:place + 1], True)),
             ('each outcome up to it once', lambda leaves, place: of_leaves({leaf.outcome: leaf for leaf in reversed(leaves[:place + 1])}.values(), True)))
    return ([Breakage(f'until: {name}', Outcomes, 'stops_at', property(lambda self, words=words: words if self.until else ())) for name, words in stops]
            + [Breakage('until: though it is not asked', Outcomes, 'stops_at', property(lambda self: outcomes.BAD))]
            + [Breakage(f'until: {name}', states, 'searched', by_listing(change)) for name, change in found])


# ---- in several modes

def runs_for_outcomes(mode, found):
    """What counts runs."""
    return SOUND['mode_line'](mode, found).replace(f'outcomes {len(found.ways)} ', f'outcomes {outcomes.total(found)} ')


def bad_runs(mode, found):
    """What counts the runs that end in a deadlock."""
    count = sum(way.runs for outcome, way in found.ways.items() if word_of(outcome) == 'deadlock')
    words = SOUND['mode_line'](mode, found).split()
    return ' '.join(str(count) if words[place - 1] == 'deadlocks' else word for place, word in enumerate(words))


def with_states_of(words):
    """What tells of each mode by a check without some of what is asked."""
    return lambda asked: SOUND['in_modes'](asked._replace(**words))


def mode_faults():
    """Those of the line of a mode, of which modes are tried, and of the status."""
    lines = (('runs for outcomes', runs_for_outcomes), ('runs that are deadlocks', bad_runs),
             ('leaves', lambda mode, found: SOUND['mode_line'](mode, found).replace('outcomes', 'leaves')),
             ('traps are deadlocks', lambda mode, found: SOUND['mode_line'](mode, found._replace(ways={
                 outcome.replace('trap', 'deadlock'): way for outcome, way in found.ways.items()}))),
             ('none is cut', lambda mode, found: SOUND['mode_line'](mode, found).replace('cut 1', 'cut 0')),
             ('more no', lambda mode, found: SOUND['mode_line'](mode, found._replace(more=False))))
    leasts = (('the first without a deadlock', lambda reports: SOUND['least_of']({
                  mode: found._replace(ways={outcome: way for outcome, way in found.ways.items() if word_of(outcome) != 'trap'})
                  for mode, found in reports.items()})),
              ('the last', lambda reports: SOUND['least_of'](dict(reversed(reports.items())))),
              ('the first that is whole', lambda reports: SOUND['least_of']({mode: found for mode, found in reports.items() if outcomes.is_whole(found)})))
    tried = (('no rendezvous', lambda most: SOUND['modes_tried'](most)[1:]), ('not buffered', lambda most: SOUND['modes_tried'](most)[:-1]),
             ('one slot less', lambda most: SOUND['modes_tried'](max(0, most - 1))), ('one slot more', lambda most: SOUND['modes_tried'](most + 1)))
    statuses = (('4 before 1', lambda reports, complete: max(outcomes.status(found, complete) for found in reports.values())),
                ('that of the last mode', lambda reports, complete: outcomes.status(list(reports.values())[-1], complete)),
                ('no 4', lambda reports, complete: SOUND['modes_status'](reports, False)), ('4 though not all is asked', lambda reports, complete: (
                    SOUND['modes_status'](reports, True))))
    asked = (('not up to the first', {'until': False}), ('whatever fuel', {'fuel': None}), ('not all is asked for', {'complete': False}))
    return ([Breakage(f'modes: {name}', outcomes, 'mode_line', replacement) for name, replacement in lines]
            + [Breakage(f'modes: {name}', outcomes, 'least_of', replacement) for name, replacement in leasts]
            + [Breakage(f'modes: {name}', outcomes, 'modes_tried', replacement) for name, replacement in tried]
            + [Breakage(f'modes: status, {name}', outcomes, 'modes_status', replacement) for name, replacement in statuses]
            + [Breakage(f'modes: {name}', outcomes, 'in_modes', with_states_of(words)) for name, words in asked])


def breakages():
    """All that rows and checks must show."""
    return [*state_faults(), *text_faults(), *until_faults(), *mode_faults()]


# Those that the runs of scripts, one after another, must show of their search, and those that all interleavings of small scripts must show; rows
# show them all.
BY_DEFINITION = ('decided: one step early', 'decided: one step late', 'decided: runs that are cut end badly', 'until: one run more', 'until: more no')
OF_EVERY_END = ('decided: one step early', 'decided: one step late', 'decided: the first choice', 'decided: the last choice', 'decided: traps end well',
                'decided: deadlocks end well', 'decided: none but the start', 'decided: the value of no send', 'decided: the message of the step itself',
                'decided: not of a trap', 'decided: no depth')


def stop_faults():
    """Those of a search that stops, which the runs one after another must show, too."""
    return [Breakage('decided: runs that are left out end badly', deciding, 'by_ways', lambda ways, left_out: SOUND['by_ways'](ways, False))]
