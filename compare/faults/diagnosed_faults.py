"""Faults that are put on purpose into what the model tells of whether the runs of a script can hang or trap: diagnosed.py must notice each.

States that are counted otherwise, and other limits; another verdict; ends that are told together though they are two bugs, or apart though they are
one; another of them that is explained; lines of the script, counts and headings that are others; commands of another run; lines that are folded
otherwise; other statuses, and others that are refused; runs that are drawn where none should be, others that are drawn, and what is told of them.
"""

import re

from faults import decided_faults
from faults.diagnosed_bug_faults import bug_faults
from faults.diagnosed_command_faults import command_faults, named
from faults.policy_faults import Breakage
from model import diagnosed, explaining, outcomes, sampler, states
from model.console_lines import all_folded
from model.debugger import BAD_FILE, BAD_MODE, RENDEZVOUS, Debugger, Result
from model.diagnosed import HANG, LEAVES, LEFT, NEVER, NOT_FOUND, TRAP, UNTRIED, Counting, Diagnosis
from model.explorer import read_script
from model.outcomes import count_text, is_bad, total
from model.policy import Choice
from model.states import Found, Search, answered, decided, word_of
from model.walks import CUT

SOUND = {name: getattr(owner, name) for owner, names in (
    (diagnosed, ('places', 'lines_of', 'ends_of', 'bug_of', 'bugs_of', 'several', 'those_runs', 'of_runs', 'runs_of', 'mode_of',
                 'verdict_lines', 'always', 'fails_both', 'well_line', 'tried_next', 'hints', 'verdict', 'heading', 'bug_lines', 'all_bug_lines', 'text_of', 'status',
                 'answer', 'drawn_of', 'drawn_lines', 'drawn_verdict')),
    (outcomes, ('explained', 'is_whole'))) for name in names}
BEHIND, SEARCHED, DRAWN = Counting.behind, Diagnosis.searched, Diagnosis.drawn


# ---- the search

class AllStates(Search):
    """A search that counts each state, also those without a choice."""

    @property
    def counted(self):
        return self.come_to


def searched_by_all(asked):
    """What counts each state, also those without a choice, once."""
    search, begun = AllStates(asked.limits.kept, asked.limits.come_to), asked.begun()
    ways = answered(search.behind(begun.world, begun.fuel)).ways
    return search, Found(ways, search.left_out)


class Seen:
    """A search as it was, that has come to other states."""

    def __init__(self, counted):
        self.counted = counted


def with_states(count):
    """What counts other states, by the search."""
    def searched(asked):
        search, found = SEARCHED(asked)
        return Seen(count(search)), found
    return searched


def with_found(change):
    """What finds otherwise."""
    def searched(asked):
        search, found = SEARCHED(asked)
        return search, change(found)
    return searched


def without_first(search, world, fuel):
    """What doesn't count the choice where it begins."""
    search.counted -= search.counted == 0 and isinstance(decided(world), Choice)
    return (yield from BEHIND(search, world, fuel))


def with_limit(name, change):
    """What is asked with another limit."""
    return lambda asked: SEARCHED(asked._replace(limits=asked.limits._replace(**{name: change(asked.limits)})))


def search_faults():
    """Those of how many states there are, and of the limits."""
    searches = (
        ('those without a choice, too', searched_by_all),
        ('those that are kept', with_states(lambda search: len(search.kept))),
        ('each once', with_states(lambda search: search.come_to - sum(search.again.values()))),
        ('one more', with_states(lambda search: search.counted + 1)),
        ('more no where it has stopped', with_found(lambda found: found._replace(more=False))),
        ('more yes where a run is cut', with_found(lambda found: found._replace(more=found.more or CUT in found.ways))),
        ('one more is come to', with_limit('come_to', lambda limits: limits.come_to + 1)),
        ('one less is come to', with_limit('come_to', lambda limits: limits.come_to - 1)),
        ('as many are come to as are kept', with_limit('come_to', lambda limits: min(limits.kept, limits.come_to))),
        ('all are kept', with_limit('kept', lambda limits: 1000000)),
        ('a step less', with_limit('fuel', lambda limits: limits.fuel - 1)), ('a step more', with_limit('fuel', lambda limits: limits.fuel + 1)))
    deciding = (
        ('as many for the step that decides as for all', lambda asked: Counting(asked.limits.kept, asked.limits.come_to)),
        ('one less for the step that decides', lambda asked: Counting(asked.limits.kept, asked.limits.deciding - 1)))
    return [*named('states', Diagnosis, 'searched', searches), *named('states', Diagnosis, 'deciding', deciding),
            Breakage('states: the first is not counted', Counting, 'behind', without_first)]


# ---- what becomes of the runs

def told_lines(change):
    """What becomes of the runs by other lines."""
    return lambda asked, search, found: change(list(SOUND['verdict_lines'](asked, search, found)), found)


def changed(change):
    """What changes each line by itself."""
    return told_lines(lambda lines, found: [change(line) for line in lines])


def without(begins):
    """What leaves out lines that begin so."""
    return told_lines(lambda lines, found: [line for line in lines if not line.startswith(begins)])


def first(begins):
    """What has lines in front that begin so."""
    return told_lines(lambda lines, found: sorted(lines, key=lambda line: not line.startswith(begins)))


def with_none_left(lines, found):
    """What is told of runs that leave something over, also where there are none."""
    return lines if SOUND['runs_of'](found, LEFT) else [*lines, f'{LEAVES}: {SOUND["of_runs"](0, found)}']


def never_where(test):
    """What says that it never hangs where no hang was found, and something holds of what was found."""
    return told_lines(lambda lines, found: [
        f'{NEVER} rendezvous, whatever is taken first (1 run, 1 state)' if line.startswith(NOT_FOUND) else line for line in lines]
        if test(found) else lines)


def by_ends(counted):
    """What counts ends of a kind, and not their runs."""
    return lambda found, kind: sum(word_of(outcome) == kind for outcome in found.ways) if kind == counted else SOUND['runs_of'](found, kind)


def of_first_end(found, kind):
    """How many runs the first end of a kind has."""
    return next((way.runs for outcome, way in found.ways.items() if word_of(outcome) == kind), 0)


def cut_hangs(found, kind):
    """What takes runs that are cut for runs that hang."""
    return SOUND['runs_of'](found, kind) + (SOUND['runs_of'](found, CUT) if kind == HANG else 0)


def of_as_many_ends(count, found):
    return SOUND['of_runs'](count, found).replace(f'of {total(found)} ', f'of {len(found.ways)} ')


def of_told_runs(count, found):
    """What counts those runs alone that hang, trap or leave something over."""
    return f'{count} of {SOUND["several"](sum(SOUND["runs_of"](found, kind) for kind in (HANG, TRAP, LEFT)), "run")}'


def ends_alike(found, kind, *others):
    """Whether some run ends in a kind of way, and all others end so, or in some other ones."""
    there = {word_of(outcome) for outcome in found.ways}
    return kind in there and there <= {kind, *others}


def in_both_ways(found, *others):
    """Whether some run hangs and some traps, and all others end so, or in some other ways."""
    there = {word_of(outcome) for outcome in found.ways}
    return {HANG, TRAP} <= there <= {HANG, TRAP, *others}


def always_modes(asked, found, also):
    """The command that is tried next, or that which tries other modes, where something holds."""
    lines = list(SOUND['tried_next'](asked, found))
    return lines or [diagnosed.modes_in_turn(asked)] * also


def verdict_faults():
    """Those of what becomes of the runs."""
    lines = (
        ('never hangs where the search was stopped', never_where(lambda found: found.more)),
        ('never hangs where a run is cut', never_where(lambda found: CUT in found.ways)),
        ('not that it can hang', without('it can hang')), ('not that it can trap', without('it can trap')),
        ('not that it never hangs', without(NEVER)),
        ('not that none was found', without(NOT_FOUND)), ('not what is left over', without('it can end')),
        ('not what is cut', without(f'{UNTRIED}: 1 of')),
        ('not that there are more', without(f'{UNTRIED}: there')), ('traps before hangs', first('it can trap')),
        ('what is left over first', first('it can end')),
        ('what is not tried first', first(UNTRIED)),
        ('never hangs nor traps beside what is bad', told_lines(lambda lines, found: [*lines, *[NEVER] * any(map(is_bad, found.ways))])),
        ('of no run, too', told_lines(with_none_left)),
        ('what is left over hangs', changed(lambda line: line.replace('end with calls left over', 'hang'))),
        ('messages are left over', changed(lambda line: line.replace('end with calls left over', 'leave messages over'))),
        ('no mode', changed(lambda line: re.sub(r' in (rendezvous|buffered|slots:[0-9]+)', '', line))),
        ('how many states there are is not told', changed(lambda line: re.sub(r', [0-9]+ states?\)', ')', line))),
        ('were cut of one, too', changed(lambda line: line.replace(' was cut', ' were cut'))),
        ('was cut of several, too', changed(lambda line: line.replace(' were cut', ' was cut'))),
        ('it fails as often as it hangs', changed(lambda line: re.sub('hangs in ([0-9]+) of (.*) and traps in [0-9]+', r'hangs in \1 of \2 and traps in \1', line))),
        ('cut after other steps', changed(lambda line: line.replace(' steps', '0 steps'))))
    counts = (
        ('ends that hang', by_ends(HANG)), ('ends that trap', by_ends(TRAP)), ('ends with leftovers', by_ends(LEFT)),
        ('what is cut hangs', cut_hangs),
        ('hangs are traps', lambda found, kind: SOUND['runs_of'](found, {HANG: TRAP, TRAP: HANG}.get(kind, kind))),
        ('the first end alone', of_first_end))
    words = (
        ('1 runs', lambda count, what: SOUND['several'](count, what) + 's' * (count == 1)),
        ('2 run', lambda count, what: f'{count} {what}'),
        ('1 states', lambda count, what: SOUND['several'](count, what) + 's' * (count == 1 and what == 'state')),
        ('counts of any size', lambda count, what: f'{count} {what}{"" if count == 1 else "s"}'),
        ('at least so many', lambda count, what: f'{count_text(count)} {what}{"" if count == 1 else "s"}'))
    those = (
        ('never the first', lambda found: SOUND['several'](total(found), 'run')), ('always the first', lambda found: SOUND['those_runs'](found._replace(more=True))),
        ('the first where one is cut', lambda found: SOUND['those_runs'](found._replace(more=found.more or CUT in found.ways))),
        ('the first where none is bad', lambda found: SOUND['those_runs'](found._replace(more=found.more and not any(map(is_bad, found.ways))))),
        ('the first where some are bad', lambda found: SOUND['those_runs'](found._replace(more=found.more and any(map(is_bad, found.ways))))))
    always_so = (
        ('never', lambda found, kind: False), ('though a run is cut', lambda found, kind: not found.more and ends_alike(found, kind, CUT)),
        ('though there are more', lambda found, kind: CUT not in found.ways and ends_alike(found, kind)),
        ('beside leftovers', lambda found, kind: outcomes.is_whole(found) and ends_alike(found, kind, LEFT)),
        ('beside what is done', lambda found, kind: outcomes.is_whole(found) and ends_alike(found, kind, 'done')))
    both = (
        ('never', lambda found: False), ('though there are more', lambda found: CUT not in found.ways and in_both_ways(found)),
        ('though a run is cut', lambda found: not found.more and in_both_ways(found, CUT)),
        ('though a run is well', lambda found: outcomes.is_whole(found) and in_both_ways(found, 'done')),
        ('beside leftovers', lambda found: outcomes.is_whole(found) and in_both_ways(found, LEFT)),
        ('where all runs hang, too', lambda found: SOUND['fails_both'](found) or SOUND['always'](found, HANG)),
        ('where all runs trap, too', lambda found: SOUND['fails_both'](found) or SOUND['always'](found, TRAP)))
    modes = (
        ('the usual mode', lambda asked, search, found: SOUND['well_line'](asked._replace(mode=None), search, found)),
        ('the mode as it was given', lambda asked, search, found:
            SOUND['well_line'](asked, search, found).replace(f' {SOUND["mode_of"](asked)}', f' {asked.mode or RENDEZVOUS}')))
    following = (
        ('no command that tries other modes', lambda asked, found: [line for line in SOUND['tried_next'](asked, found) if '--modes' not in line]),
        ('a command that tries other modes where it is cut', lambda asked, found: always_modes(asked, found, CUT in found.ways)),
        ('a command that tries other modes where there are more', lambda asked, found: always_modes(asked, found, found.more)),
        ('no command that tries other modes where all is bad', lambda asked, found: SOUND['tried_next'](asked, found) if not any(map(is_bad, found.ways)) else []),
        ('a command that tries other modes beside a trap', lambda asked, found: always_modes(asked, found, not SOUND['runs_of'](found, HANG))),
        ('a command that tries other modes beside a deadlock', lambda asked, found: always_modes(asked, found, not SOUND['runs_of'](found, TRAP))),
        ('a command that tries other modes beside nothing that is left over', lambda asked, found:
            [] if SOUND['runs_of'](found, LEFT) and not found.more else SOUND['tried_next'](asked, found)),
        ('a command that tries other modes in a mode', lambda asked, found:
            [line.replace(' --modes', f' --mode {asked.mode} --modes') for line in SOUND['tried_next'](asked, found)]),
        ('a command that tries five modes', lambda asked, found:
            [line.replace('--modes 4', '--modes 5') for line in SOUND['tried_next'](asked, found)]))
    commands = (
        ('no command that tries others', lambda *told: [line for line in SOUND['verdict'](*told) if './mpdbg' not in line]),
        ('a command that tries others though there are none', lambda asked, search,
         found: SOUND['verdict'](asked, search, found._replace(more=True))),
        ('a command that tries others without a mode', lambda asked, search, found: SOUND['verdict'](asked._replace(mode=None), search, found)),
        ('a command that tries others first', lambda *told: sorted(SOUND['verdict'](*told), key=lambda line: './mpdbg' not in line)))
    return [*named('verdict', diagnosed, 'verdict_lines', lines), *named('verdict', diagnosed, 'runs_of', counts),
            *named('verdict', diagnosed, 'of_runs', (('of as many ends', of_as_many_ends), ('of bad runs alone', of_told_runs))),
            *named('verdict', diagnosed, 'several', words), *named('verdict', diagnosed, 'those_runs', those), *named('verdict', diagnosed, 'verdict', commands),
            *named('always', diagnosed, 'always', always_so), *named('both', diagnosed, 'fails_both', both), *named('verdict', diagnosed, 'well_line', modes),
            *named('verdict', diagnosed, 'tried_next', following)]


# ---- lines of the script, headings, explanations

def in_order_of(order):
    """What has the lines of an end in another order, or as often as there are ranks and calls."""
    def lines_of(asked, leaf):
        at = explaining.reached(read_script(asked.script), asked.mode or RENDEZVOUS, leaf.steps)
        return tuple(order(SOUND['places'](at, word_of(leaf.outcome))))
    return lines_of


def other_lines(change):
    """What has other lines of an end."""
    return lambda asked, leaf: tuple(change(SOUND['lines_of'](asked, leaf)))


def standing(where):
    """What has ends of a kind stand elsewhere, by how that was reached, and where they stand."""
    kind, change = where
    return lambda at, of_kind: change(at, SOUND['places'](at, of_kind)) if of_kind == kind else SOUND['places'](at, of_kind)


def standing_ranks(at):
    """The ranks that haven't ended."""
    return [rank for number, rank in enumerate(at.world.ranks) if diagnosed.standing_line(at, number) is not None]


def headed(change):
    """What is told otherwise above the ends of a bug."""
    return lambda ends, found: change(SOUND['heading'](ends, found))


def counting(count):
    """What tells another number of runs above the ends of a bug."""
    return lambda ends, found: SOUND['heading'](ends, found).replace(f': {sum(end.runs for end in ends)} of', f': {count(ends, found)} of')


def of_kind(ends, found):
    """What tells of a bug how many of the runs of its kind end so."""
    begins, _, _ = SOUND['heading'](ends, found).partition(' of ')
    return f'{begins} of {SOUND["several"](SOUND["runs_of"](found, ends[0].kind), "run")}'


def line_faults():
    """Those of where an end stands, and of what is told above it."""
    lines = (
        ('not sorted', in_order_of(dict.fromkeys)), ('repeated', in_order_of(sorted)),
        ('as texts', other_lines(lambda lines: sorted(lines, key=str))),
        ('the last first', other_lines(reversed)), ('the first alone', other_lines(lambda lines: lines[:1])),
        ('from 0', other_lines(lambda lines: [line - 1 for line in lines])))
    places = (
        ('of all calls', (HANG, lambda at, there: list(at.lines.values()))),
        ('of calls that are left over, too', (HANG, lambda at, there: there + SOUND['places'](at, LEFT))),
        ('of the calls of ranks that trapped', (TRAP, lambda at, there: [max(at.lines.values(), default=1)])),
        ('of the first call that is left over', (LEFT, lambda at, there: there[:1])),
        ('of ranks that are blocked, where it is cut', (CUT, lambda at, there: [line for line, rank in zip(there, standing_ranks(at)) if rank.mode == 'blocked'])),
        ('of ranks that are not blocked, where it is cut', (CUT, lambda at, there: [line for line, rank in zip(there, standing_ranks(at)) if rank.mode != 'blocked'])),
        ('of the calls, where it is cut', (CUT, lambda at, there: [*at.lines.values()])))
    counts = (
        ('the runs of one end', counting(lambda ends, found: ends[0].runs)),
        ('the runs of the last end', counting(lambda ends, found: ends[-1].runs)),
        ('how many ends', counting(lambda ends, found: len(ends))),
        ('all runs of the kind', counting(lambda ends, found: SOUND['runs_of'](found, ends[0].kind))),
        ('of the runs of the kind', of_kind))
    texts = (
        ('not that one of several is told', lambda line: line.removesuffix(diagnosed.OF_ONE)),
        ('that one is told, though it is alone', lambda line: f'{line.removesuffix(diagnosed.OF_ONE)}{diagnosed.OF_ONE}'),
        ('no count', lambda line: line.partition(':')[0]), ('line for lines', lambda line: line.replace(' lines ', ' line ')),
        ('lines for line', lambda line: line.replace(' line ', ' lines ')), ('left over at', lambda line: line.replace('from', 'at')),
        ('lines without commas', lambda line: line.replace(', ', ' ')))
    return [*named('lines', diagnosed, 'lines_of', lines), *named('lines', diagnosed, 'places', [(name, standing(where)) for name, where in places]),
            *named('heading', diagnosed, 'heading', counts), *named('heading', diagnosed, 'heading',
                                                                    [(name, headed(change)) for name, change in texts])]


def decides(line):
    """Whether a line of an explanation tells what decided."""
    return line.startswith('  decided ')


def explained_by(change):
    """What explains an end by other lines, by its kind."""
    return lambda asked, leaf: tuple(change(SOUND['explained'](asked, leaf), word_of(leaf.outcome)))


def undecided(*kinds):
    """What leaves out the line that decides of some kinds."""
    return explained_by(lambda lines, kind: [line for line in lines if not decides(line) or kind not in kinds])


def explanation_faults():
    """Those of what explains an end."""
    hints = (
        ('never', lambda explained: []), ('always', lambda explained: [diagnosed.HINT]),
        ('where it is not known, too', lambda explained: [diagnosed.HINT] * any(line.startswith('  decided at depth') for line in explained)),
        ('from the start, too', lambda explained: [diagnosed.HINT] * any(line.startswith('  decided ') for line in explained)),
        ('twice', lambda explained: SOUND['hints'](explained) * 2),
        ('to where it is run to', lambda explained: [line.replace('redo all', 'run') for line in SOUND['hints'](explained)]))
    return named('hints', diagnosed, 'hints', hints) + named('explanation', outcomes, 'explained', (
        ('none', explained_by(lambda lines, kind: ())), ('none of leftovers', explained_by(lambda lines, kind: () if kind == LEFT else lines)),
        ('nothing decides', undecided(HANG, TRAP)), ('nothing decides a trap', undecided(TRAP)), ('nothing decides a deadlock', undecided(HANG)),
        ('what decides comes first', explained_by(lambda lines, kind: sorted(lines, key=lambda line: not decides(line)))),
        ('what decides alone', explained_by(lambda lines, kind: [line for line in lines if decides(line) or kind == LEFT])),
        ('the first line alone', explained_by(lambda lines, kind: lines[:1]))))


# ---- long lines

def joined_again(text):
    return text.replace(f'\n{" " * 8}', ' ')


def folded(line, width, indent):
    """A line in parts of so many bytes, each further one behind so many blanks."""
    parts, head = [], ''
    while len(head + line) > width and (place := line.rfind(' ', len(line) - len(line.lstrip()), width - len(head) + 1)) > 0:
        parts.append(head + line[:place])
        line, head = line[place + 1:], ' ' * indent
    return [*parts, head + line]


def folded_by(width, indent):
    """What folds lines of another width, or behind another number of blanks."""
    def change(text):
        lines = joined_again(text).splitlines()
        return ''.join(f'{part}\n' for line in lines for part in ([line] if './mpdbg' in line else folded(line, width, indent)))
    return change


def text_changes():
    """What writes the whole text otherwise."""
    return named('text', diagnosed, 'text_of', [(name, lambda *told, change=change: change(SOUND['text_of'](*told))) for name, change in (
        ('not folded', joined_again), ('folded at 79', folded_by(79, 8)), ('folded at 81', folded_by(81, 8)),
        ('six blanks in front of what goes on', folded_by(80, 6)), ('no blanks in front of what goes on', folded_by(80, 0)),
        ('a tab in front of what goes on', lambda text: text.replace(f'\n{" " * 8}', '\n\t')),
        ('commands are folded', lambda text: ''.join(f'{line}\n' for line in all_folded(text.splitlines()))),
        ('no empty lines', lambda text: text.replace('\n\n', '\n')), ('an empty line at the end', lambda text: f'{text}\n'),
        ('no end of the last line', lambda text: text[:-1]))])


# ---- the status, and what is refused

def without_kind(kind):
    """The status where ends of a kind aren't seen."""
    return lambda asked, found, drawn: SOUND['status'](asked, without_ways(found, kind), drawn)


def without_ways(found, kind):
    """What was found, or drawn, without the ends of a kind."""
    return found._replace(ways={outcome: way for outcome, way in found.ways.items() if word_of(outcome) != kind})


def drawn_without(kind):
    """The status where ends of a kind aren't seen of what was drawn."""
    return lambda asked, found, drawn: SOUND['status'](asked, found, drawn and without_ways(drawn, kind))


def four_first(asked, found, drawn):
    """4 where not all was tried, whatever was found."""
    return SOUND['status'](asked, found, drawn) if SOUND['is_whole'](found) else 4


def four_before_left(asked, found, drawn):
    """4 where not all was tried, but for what hangs and traps."""
    is_any_bad = any(map(is_bad, [*found.ways, *(drawn.ways if drawn else ())]))
    return SOUND['status'](asked, found, drawn) if is_any_bad else four_first(asked, found, drawn)


def four_where_drawn(asked, found, drawn):
    """4 where runs were drawn, whatever these are."""
    return SOUND['status'](asked, found, drawn) if drawn is None else 4


def as_if_all(asked, found, drawn):
    """0 where nothing bad was drawn, as if that were all."""
    return SOUND['status'](asked, found._replace(more=found.more and drawn is None), drawn)


def script_first(asked):
    """What tells of the script before the mode."""
    by_script = BAD_MODE if asked.script is None else SOUND['answer'](asked._replace(mode=None))
    return by_script if by_script.errors else SOUND['answer'](asked)


def any_mode(asked):
    """What takes the usual mode for one that is none."""
    said = SOUND['answer'](asked)
    return SOUND['answer'](asked._replace(mode=None)) if said == BAD_MODE else said


def never_silent(asked):
    """What writes of what it refuses, too."""
    said = SOUND['answer'](asked)
    return Result(said.output or b'no hang and no trap was found in 0 runs in rendezvous\n', said.errors, said.status)


def status_faults():
    """Those of the status, and of what is refused."""
    statuses = (
        ('0 with a trap', without_kind(TRAP)), ('0 with a deadlock', without_kind(HANG)), ('0 with leftovers', without_kind(LEFT)),
        ('without --strict', lambda asked, found, drawn: SOUND['status'](asked._replace(strict=False), found, drawn)),
        ('--strict though it is not asked', lambda asked, found, drawn: SOUND['status'](asked._replace(strict=True), found, drawn)),
        ('0 though a run is cut', lambda asked, found, drawn: SOUND['status'](asked, without_ways(found, CUT), drawn)),
        ('0 though there are more', lambda asked, found, drawn: SOUND['status'](asked, found._replace(more=False), drawn)),
        ('4 before 1', four_first), ('4 before leftovers', four_before_left),
        ('4 by --strict alone', lambda asked, found, drawn: SOUND['status'](asked, found, drawn) % (5 if asked.strict else 4)),
        ('1 by --strict though nothing is left over', lambda asked, found, drawn: 1 if asked.strict else SOUND['status'](asked, found, drawn)),
        ('that of the first end', lambda asked, found, drawn: SOUND['status'](asked, found._replace(ways=dict(list(found.ways.items())[:1])), drawn)),
        ('4 with a deadlock that was drawn', drawn_without(HANG)), ('4 with a trap that was drawn', drawn_without(TRAP)),
        ('4 with leftovers that were drawn', drawn_without(LEFT)), ('4 whatever was drawn', four_where_drawn),
        ('0 where nothing bad was drawn', as_if_all),
        ('that of the draw alone', lambda asked, found, drawn: SOUND['status'](asked, found if drawn is None else drawn, None)))
    answers = (
        ('the file before the mode', lambda asked: BAD_FILE if asked.script is None else SOUND['answer'](asked)),
        ('the script before the mode', script_first),
        ('a mode that is none is the usual one', any_mode), ('a text where it is refused', never_silent))
    return [*named('status', diagnosed, 'status', statuses), *named('refused', diagnosed, 'answer', answers)]


# ---- runs that are drawn

def drawn_by(**changed):
    """What draws by other limits."""
    return lambda asked: DRAWN(asked._replace(limits=asked.limits._replace(**{name: change(asked.limits) for name, change in changed.items()})))


def each_drawn(asked):
    """All runs that are drawn, also those that were before, in the order of the walk."""
    numbers, start = sampler.words(diagnosed.SEED), Debugger(read_script(asked.script), asked.mode or RENDEZVOUS)
    return sorted(sampler.drawn(start.world, asked.limits.fuel, numbers) for _ in range(asked.limits.drawn))


def as_drawn(asked):
    """The runs in the order in which they are drawn."""
    numbers, start = sampler.words(diagnosed.SEED), Debugger(read_script(asked.script), asked.mode or RENDEZVOUS)
    return list(dict.fromkeys(sampler.drawn(start.world, asked.limits.fuel, numbers) for _ in range(asked.limits.drawn)))


def drawn_elsewhere(asked):
    """The runs that `check --sample` of another mode draws."""
    return DRAWN(asked._replace(mode=None))


def up_to_bad(asked):
    """The runs that are drawn up to the first deadlock or trap among them."""
    found = []
    for leaf in as_drawn(asked):
        found.append(leaf)
        if is_bad(leaf.outcome):
            break
    return sorted(found)


def found_again(ways_of):
    """What is drawn with other ways, by those that were found."""
    def drawn_of(asked, found):
        drawn = SOUND['drawn_of'](asked, found)
        return drawn and drawn._replace(ways=ways_of(found.ways, drawn.ways))
    return drawn_of


def added(ways, drawn):
    """The ways that were found and drawn, with the runs of both."""
    both = dict(ways)
    for outcome, way in drawn.items():
        both[outcome] = both[outcome]._replace(runs=both[outcome].runs + way.runs) if outcome in both else way
    return both


def with_firsts(ways, drawn):
    """The ways that were drawn, with the first run that was found where there is one."""
    return {outcome: way._replace(first=ways.get(outcome, way).first) for outcome, way in drawn.items()}


def drawn_told(change):
    """What becomes of runs that are drawn, by other lines."""
    return lambda drawn: change(list(SOUND['drawn_lines'](drawn)))


def with_cut(drawn):
    """What tells of runs that are cut, too."""
    yield from SOUND['drawn_lines'](drawn)
    if cut := SOUND['runs_of'](drawn, CUT):
        yield f'drawn at random: {SOUND["of_runs"](cut, drawn)} were cut'


def one_that_hangs(lines):
    """What says of one run that it hangs, traps, or ends with calls left over."""
    for line in lines:
        one = re.fullmatch('(drawn at random: 1 of .* )(hang|trap|end with calls left over)', line)
        yield line if one is None else one[1] + {'hang': 'hangs', 'trap': 'traps'}.get(one[2], 'ends with calls left over')


def always_others(asked, drawn):
    """What has the command that tries others, also beside what hangs."""
    lines = SOUND['drawn_verdict'](asked, drawn)
    return lines if './mpdbg' in lines[-1] else [*lines, diagnosed.others(asked)]


def others_but_for(kind):
    """What leaves the command out beside ends of one kind, and of no other."""
    return lambda asked, drawn: [line for line in always_others(asked, drawn) if './mpdbg' not in line or not SOUND['runs_of'](drawn, kind)]


def others_behind_search(asked, search, found):
    """What has the command that tries others where it stood before any were drawn."""
    lines = SOUND['verdict'](asked, search, found)
    return lines if not found.more or './mpdbg' in lines[-1] else [*lines, diagnosed.others(asked)]


def others_last(asked, search, found, drawn):
    """What has the command that tries others behind the bad ends that were drawn."""
    text, line = SOUND['text_of'](asked, search, found, drawn), f'{diagnosed.others(asked)}\n'
    return text.replace(line, '') + line if drawn is not None and line in text else text


def by_parts(*parts):
    """The text of four parts in another order: what becomes of the runs and their bad ends, and the same of those that were drawn; or without some."""
    def text_of(asked, search, found, drawn):
        if drawn is None:
            return SOUND['text_of'](asked, search, found, drawn)
        texts = (diagnosed.verdict(asked, search, found), diagnosed.all_bug_lines(asked, found), diagnosed.drawn_verdict(asked, drawn),
                 diagnosed.all_bug_lines(asked, drawn, diagnosed.OF_DRAWN))
        return ''.join(f'{line}\n' for part in parts for line in texts[part])
    return text_of


def told_once(asked, search, found, drawn):
    """The text without the bugs that were drawn where the search has told of their kind and lines."""
    if drawn is None:
        return SOUND['text_of'](asked, search, found, drawn)
    there = {(end.kind, end.lines) for end in SOUND['ends_of'](asked, found)}
    lines = [line for ends in SOUND['bugs_of'](SOUND['ends_of'](asked, drawn)) if SOUND['bug_of'](ends[0]) not in there
             for line in SOUND['bug_lines'](asked, ends, drawn, 'drawn.svg')]
    return by_parts(0, 1, 2)(asked, search, found, drawn) + ''.join(f'{line}\n' for line in lines)


def of_all_that_was_found(asked, search, found, drawn):
    """The text, whose bad ends that were drawn have counts of all runs that were found and drawn."""
    if drawn is None:
        return SOUND['text_of'](asked, search, found, drawn)
    both = found._replace(ways=added(found.ways, drawn.ways))
    bugs = SOUND['bugs_of'](SOUND['ends_of'](asked, drawn))
    lines = [line for ends in bugs for line in SOUND['bug_lines'](asked, ends, both, 'drawn.svg')]
    return by_parts(0, 1, 2)(asked, search, found, drawn) + ''.join(f'{line}\n' for line in lines)


def counts_of_search(asked, search, found, drawn):
    """The text, in which the counts of the search stand for those of the draw."""
    with_counts = drawn and drawn._replace(ways=found.ways)
    return SOUND['text_of'](asked, search, found, with_counts)


def which_faults():
    """Those of whether runs are drawn, and which."""
    whether = (
        ('though a hang was found', lambda found: found.more), ('though all was seen', lambda found: not any(map(is_bad, found.ways))),
        ('never', lambda found: False), ('where no run was found alone', lambda found: found.more and not found.ways),
        ('where nothing is left over alone', lambda found: found.more and all(word == 'done' for word in map(word_of, found.ways))),
        ('though a deadlock was found', lambda found: found.more and not SOUND['runs_of'](found, TRAP)),
        ('though a trap was found', lambda found: found.more and not SOUND['runs_of'](found, HANG)))
    which = (
        ('one more', drawn_by(drawn=lambda limits: limits.drawn + 1)), ('one less', drawn_by(drawn=lambda limits: limits.drawn - 1)),
        ('half of them', drawn_by(drawn=lambda limits: (limits.drawn + 1) // 2)), ('a step less', drawn_by(fuel=lambda limits: limits.fuel - 1)),
        ('one that was drawn twice counts twice', each_drawn),
        ('in the order of the draw', as_drawn), ('in the mode rendezvous', drawn_elsewhere), ('up to the first that is bad', up_to_bad),
        ('from the last to the first', lambda asked: DRAWN(asked)[::-1]), ('without the first', lambda asked: DRAWN(asked)[1:] or DRAWN(asked)),
        ('those that are bad alone', lambda asked: [leaf for leaf in DRAWN(asked) if is_bad(leaf.outcome)] or DRAWN(asked)))
    ways = (
        ('what was found, too', found_again(added)), ('with the first run that was found', found_again(with_firsts)),
        ('what was not found alone', found_again(lambda ways, drawn: {outcome: way for outcome, way in drawn.items() if outcome not in ways} or drawn)))
    return [*named('drawn', diagnosed, 'is_drawn', whether), *named('drawn', Diagnosis, 'drawn', which),
            *named('drawn', diagnosed, 'drawn_of', ways), *named('drawn', diagnosed, 'SEED', (('another seed', 1), ('the largest seed', 2 ** 64 - 1)))]


def drawn_faults():
    """Those of runs that are drawn."""
    lines = (
        ('not that they hang', drawn_told(lambda lines: [line for line in lines if not line.endswith(' hang')])),
        ('not that they trap', drawn_told(lambda lines: [line for line in lines if not line.endswith(' trap')])),
        ('not that none hangs', drawn_told(lambda lines: [line for line in lines if ' none of ' not in line] or ['drawn at random'])),
        ('not what is left over', drawn_told(lambda lines: [line for line in lines if not line.endswith(' over')])),
        ('traps before hangs', drawn_told(lambda lines: sorted(lines, key=lambda line: not line.endswith(' trap')))),
        ('what is left over first', drawn_told(lambda lines: sorted(lines, key=lambda line: not line.endswith(' over')))),
        ('what is cut', with_cut), ('one hangs', drawn_told(one_that_hangs)),
        ('in the words of the search', drawn_told(lambda lines: [line.replace('drawn at random: ', 'it can: ') for line in lines])),
        ('none of runs without a number', drawn_told(lambda lines: [re.sub('none of [0-9]+ run', 'none of the run', line) for line in lines])),
        ('none hang', drawn_told(lambda lines: [line.replace('hangs or traps', 'hang or trap') for line in lines])))
    verdicts = (
        ('no command that tries others', lambda asked, drawn: [line for line in SOUND['drawn_verdict'](asked, drawn) if './mpdbg' not in line]),
        ('a command that tries others beside a hang', always_others),
        ('a command that tries others beside a deadlock', others_but_for(TRAP)), ('a command that tries others beside a trap', others_but_for(HANG)),
        ('no command that tries others beside leftovers', others_but_for(LEFT)),
        ('a command that tries others without a mode', lambda asked, drawn: SOUND['drawn_verdict'](asked._replace(mode=None), drawn)),
        ('a command that tries others first', lambda asked, drawn: sorted(SOUND['drawn_verdict'](asked, drawn), key=lambda line: './mpdbg' not in line)),
        ('no empty line in front', lambda asked, drawn: SOUND['drawn_verdict'](asked, drawn)[1:]))
    texts = (
        ('their bad ends are left out', by_parts(0, 1, 2)), ('before the bad ends that were found', by_parts(0, 2, 1, 3)),
        ('the bad ends that were found are left out', by_parts(0, 2, 3)), ('first', by_parts(2, 3, 0, 1)),
        ('what becomes of them behind their bad ends', by_parts(0, 1, 3, 2)), ('what becomes of them is left out', by_parts(0, 1, 3)),
        ('all is left out', by_parts(0, 1)), ('what was found is left out', by_parts(2, 3)), ('a bug that was found is not told again', told_once),
        ('of all runs that were found and drawn', of_all_that_was_found), ('the counts of the search', counts_of_search),
        ('a command that tries others last', others_last))
    return [*which_faults(), *named('drawn', diagnosed, 'drawn_lines', lines), *named('drawn', diagnosed, 'drawn_verdict', verdicts),
            *named('drawn', diagnosed, 'text_of', texts),
            Breakage('drawn: a command that tries others behind the search, too', diagnosed, 'verdict', others_behind_search)]


def breakages():
    """All that rows and scripts must show."""
    return [*search_faults(), *verdict_faults(), *bug_faults(), *line_faults(), *explanation_faults(), *command_faults(), *text_changes(),
            *status_faults(), *drawn_faults()]


# Those that the text itself must show, or all runs of its script, one after another; rows show them all.
BY_TEXT = {
    'states': ('those without a choice, too', 'those that are kept', 'one more', 'the first is not counted'),
    'verdict': ('never the first', 'always the first', 'not that it can hang', 'not that it can trap', 'not that it never hangs', 'not what is left over', 'traps before hangs',
                'never hangs nor traps beside what is bad', 'of no run, too', 'ends that hang', 'hangs are traps', 'the first end alone',
                'of as many ends', '1 runs',
                '1 states',
                'a command that tries others though there are none', 'messages are left over', 'no mode', 'the usual mode',
                'no command that tries other modes', 'a command that tries other modes beside a deadlock',
                'a command that tries other modes where there are more', 'a command that tries five modes'),
    'always': ('never', 'though there are more', 'beside what is done', 'beside leftovers'),
    'both': ('never', 'though a run is well', 'where all runs hang, too'),
    'word': ('as it was given', 'no ./ in front of -', './ in front of the quotes', 'quotes are left out', 'two quotes for one',
             'backslashes before quotes', 'by the first byte', "as it stands with ' '"),
    'hints': ('never', 'always', 'from the start, too', 'twice', 'to where it is run to'),
    'pictures': ('no numbers', 'always a number', 'from 0', 'run though it was drawn', 'from the last to the first'),
    'bugs': ('by kinds alone', 'by lines alone', 'by outcomes', 'by the first line', 'by ranks and not by lines', 'by their lines', 'hangs first',
             'in the order of their first runs',
             'two bugs before one of them', 'leftovers first', 'from the last to the first', 'the first alone', 'of ends beside each other', 'without the last end of one'),
    'explained': ('the first', 'the longest', 'the last of equals', 'that with the most runs'),
    'ends': ('no leftovers', 'no traps', 'the first run of another end', 'no end of one run'),
    'lines': ('not sorted', 'repeated', 'as texts', 'the first alone', 'from 0', 'of all calls', 'of calls that are left over, too'),
    'heading': ('not that one of several is told', 'that one is told, though it is alone', 'the runs of one end', 'how many ends', 'of the runs of the kind', 'line for lines'),
    'explanation': ('none', 'none of leftovers', 'nothing decides a trap', 'what decides comes first', 'the first line alone'),
    'commands': ('without --ends', 'choices without quotes', 'without a mode', 'with a mode that is usual', 'the picture first', 'no picture',
                 'the picture of another run', 'of all choices but the last', 'of another end'),
    'text': ('not folded', 'folded at 79', 'folded at 81', 'six blanks in front of what goes on', 'commands are folded', 'no empty lines',
             'an empty line at the end', 'no end of the last line'),
    # (those of decided_faults.py)
    'decided': ('one step early', 'one step late', 'the first choice', 'the value of no send', 'the message of the step itself'),
    'drawn': ('though a hang was found', 'never', 'one more', 'half of them', 'one that was drawn twice counts twice', 'in the order of the draw',
              'up to the first that is bad', 'without the first', 'what was found, too', 'what was not found alone', 'another seed', 'not that they hang',
              'not that they trap', 'not that none hangs', 'not what is left over', 'traps before hangs', 'one hangs', 'no command that tries others',
              'a command that tries others beside a hang', 'no command that tries others beside leftovers', 'no empty line in front',
              'their bad ends are left out', 'before the bad ends that were found', 'the bad ends that were found are left out',
              'what becomes of them is left out', 'a bug that was found is not told again', 'the counts of the search',
              'a command that tries others last', 'a command that tries others behind the search, too'),
    'status': ('0 with a trap', '0 with leftovers', '--strict though it is not asked', 'that of the first end', '4 with a deadlock that was drawn',
               '4 with leftovers that were drawn')}


def text_faults():
    """Those that the text must show by itself, or by all runs of its script."""
    names = {f'{part}: {name}' for part, there in BY_TEXT.items() for name in there}
    return [fault for fault in (*breakages(), *decided_faults.breakages()) if fault.name in names]
