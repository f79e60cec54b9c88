"""Faults that are put into the explorer of the model on purpose: explore_rules.py must notice each but those of the texts of witnesses,
explore.py those of `check` and of `verify`."""

import re
from os.path import commonprefix
from typing import NamedTuple

from faults.policy_faults import Breakage, without_forced_match
from model import explorer, policy, walks, witness
from model.debugger import BAD_FILE, BAD_MODE, BUFFERED, RENDEZVOUS, blocked_calls, enabled_steps, first_world, next_world, outcome, step_text
from model.explorer import NO_SUCH_STEP, NOT_STUCK, WRONG_BLOCKED, Refusal, Report
from model.modes import is_mode
from model.policy import Choice, Forced
from model.walks import CUT, Leaf
from model.witness import BadWitness


class Sound(NamedTuple):
    """What is not broken."""
    taken: object
    ending: object
    walk: object
    part: object
    explored: object
    witness: object
    verify: object
    leaf_lines: object
    report_text: object
    check: object


SOUND = Sound(walks.taken, walks.ending, *(getattr(explorer, name) for name in Sound._fields[2:]))
# What is not broken of the texts of witnesses.
LINES_OF, READ, TOLD, TELL = witness.lines_of, witness.read_witness, witness.told, witness.verify
LINES = witness.FIRST_LINE, witness.SECOND_LINE
PASSED = witness.is_passed_over


def choosing(change):
    """What offers other candidates."""
    def decided(world):
        found = policy.decision(world)
        return Choice(tuple(change(found.steps))) if isinstance(found, Choice) else found
    return decided


def one_is_forced(world):
    found = policy.decision(world)
    return Forced(found.steps[0]) if isinstance(found, Choice) and len(found.steps) == 1 else found


def ended_by_trap(world):
    """What goes no further where a rank is trapped."""
    trapped = any(rank.mode == 'trapped' for rank in world.ranks)
    return policy.Leaf(outcome(world)) if trapped else policy.decision(world)


def of_report(change):
    """What lists other leaves of a piece, or says otherwise whether there are more."""
    return lambda piece, runs: change(SOUND.part(piece, runs), runs)


def looking_ahead(walked, runs, fuel):
    """What seeks ten leaves more than it needs."""
    SOUND.explored(walked, runs + 10, fuel)
    return SOUND.explored(walked, runs, fuel)


def last_leaves(piece, runs):
    """What lists the last of twenty leaves more."""
    leaves = SOUND.part(piece, runs + 20).leaves
    return Report(leaves[-runs:], len(leaves) > runs)


def from_start(walked, runs, fuel):
    """What counts the steps before the place where it begins as well."""
    return SOUND.explored(walked, runs, max(0, fuel - walked.depth))


def steps_from_here(walked, runs, fuel):
    """What leaves out the steps before the place where it begins."""
    found = SOUND.explored(walked, runs, fuel)
    return found._replace(leaves=tuple(leaf._replace(steps=leaf.steps[walked.depth:]) for leaf in found.leaves))


def undone_too(walked, runs, fuel):
    """What takes undone steps for steps before the place where it begins."""
    found, undone = SOUND.explored(walked, runs, fuel), tuple(walked.steps[walked.depth:])
    return found._replace(leaves=tuple(
        leaf._replace(steps=leaf.steps[:walked.depth] + undone + leaf.steps[walked.depth:]) for leaf in found.leaves))


def left_elsewhere(walked, runs, fuel):
    """What leaves the debugger where the last leaf is."""
    found = SOUND.explored(walked, runs, fuel)
    for step in found.leaves[-1].steps[walked.depth:]:
        walked.take(step)
    return found


def undone_dropped(walked, runs, fuel):
    """What forgets the undone steps of the debugger."""
    del walked.steps[walked.depth:]
    return SOUND.explored(walked, runs, fuel)


def for_all_runs(world, fuel):
    """What has so much fuel for all runs together."""
    spent, before = 0, ()
    for leaf in SOUND.walk(world, fuel):
        spent += len(leaf.steps) - len(commonprefix([leaf.steps, before]))
        before = leaf.steps
        yield leaf if spent <= fuel else Leaf(leaf.choices, leaf.steps[:fuel - spent], CUT)


def choices_kept(world, fuel):
    """What keeps choices of the leaf before, where that had more of them."""
    before = ()
    for leaf in SOUND.walk(world, fuel):
        before = leaf.choices + before[len(leaf.choices):]
        yield leaf._replace(choices=before)


def without_cut(world, fuel):
    """What passes by the runs that are cut, but for the first leaf."""
    for number, leaf in enumerate(SOUND.walk(world, fuel)):
        if not number or leaf.outcome != CUT:
            yield leaf


def free_choices(run, step, *choice):
    """The run behind a step, which takes no fuel where it was chosen."""
    return SOUND.taken(run, step, *choice)._replace(fuel=run.fuel if choice else run.fuel - 1)


def counted_from_one(run, steps):
    for number, step in enumerate(steps, 1):
        yield SOUND.taken(run, step, number)


def forgotten(decided, fuel):
    """What knows no outcome where no fuel is left."""
    return SOUND.ending(decided, fuel) if fuel else CUT


def outcome_word(decided, fuel):
    """What leaves out of which calls or ranks an outcome is."""
    ended = SOUND.ending(decided, fuel)
    return ended and ended.split()[0]


def of_witness(change):
    """What tells another witness, by the steps and the calls of the right one."""
    def witness(leaf):
        found = SOUND.witness(leaf)
        return found and found._replace(**change(found))
    return witness


def lines_of_all(number, leaf, witnesses):
    """A witness of each leaf."""
    yield from SOUND.leaf_lines(number, leaf, False)
    if witnesses:
        yield f'witness {number}: {", ".join(map(step_text, leaf.steps))}'


def lines_with_commas(number, leaf, witnesses):
    """Choices with a comma between them."""
    line, *behind = SOUND.leaf_lines(number, leaf, witnesses)
    choices = f'[{" ".join(map(str, leaf.choices))}]'
    return [line.replace(choices, choices.replace(' ', ', ')), *behind]


def counted_on(found, witnesses):
    """What counts leaves that aren't listed."""
    text = SOUND.report_text(found, witnesses)
    return text.replace(f'leaves {len(found.leaves)} more yes', f'leaves {len(found.leaves) + 1} more yes')


def bad_by(*kinds):
    return lambda leaf: leaf.outcome.split()[0] in kinds


def status_of_more(text, asked):
    """What has a status by twenty leaves of each piece that it doesn't list, too."""
    said = SOUND.check(text, asked)
    return said._replace(status=SOUND.check(text, asked._replace(runs=asked.runs + 20)).status)


def end_of(script, mode, steps):
    """The world behind the steps up to the first that isn't enabled."""
    world = first_world(script, mode)
    for step in steps:
        if (after := next_world(world, step)) is None:
            return world
        world = after
    return world


def is_stuck(world):
    return not enabled_steps(world) and outcome(world).startswith('deadlock')


def told_otherwise(change):
    """What says otherwise of a witness, by what is rightly said, the script, the mode, the steps and the calls."""
    return lambda *asked: change(SOUND.verify(*asked), *asked)


def accepting(kind):
    """What takes the end of a run for a deadlock that has this outcome, whatever is said of the calls."""
    def change(refused, script, mode, steps, blocked, word='deadlock'):
        if refused != Refusal(NOT_STUCK):
            return refused
        world = end_of(script, mode, steps)
        return None if not enabled_steps(world) and outcome(world).split()[0] == kind else refused
    return told_otherwise(change)


def ends_not_looked_at(refused, script, mode, steps, blocked, word='deadlock'):
    """What looks at the steps and the calls alone."""
    if refused != Refusal(NOT_STUCK):
        return refused
    return None if tuple(blocked) == blocked_calls(end_of(script, mode, steps)) else Refusal(WRONG_BLOCKED)


def traps_are_stuck(refused, script, mode, steps, blocked, word='deadlock'):
    """What takes blocked ranks for a deadlock where another is trapped."""
    world = end_of(script, mode, steps)
    is_trap = refused == Refusal(NOT_STUCK) and not enabled_steps(world) and blocked_calls(world)
    return (None if tuple(blocked) == blocked_calls(world) else Refusal(WRONG_BLOCKED)) if is_trap else refused


def ended_at_wrong_step(refused, script, mode, steps, blocked, word='deadlock'):
    """What judges a run by its steps up to the first that isn't enabled, if these are no witness."""
    if refused is None or refused.number != NO_SUCH_STEP:
        return refused
    return refused if is_stuck(end_of(script, mode, steps)) else Refusal(NOT_STUCK)


def wrong_steps_passed_over(refused, script, mode, steps, blocked, word='deadlock'):
    """What goes on behind a step that isn't enabled."""
    while refused is not None and refused.number == NO_SUCH_STEP:
        steps = steps[:refused.place] + steps[refused.place + 1:]
        refused = SOUND.verify(script, mode, steps, blocked, word)
    return refused


def steps_behind_end(refused, script, mode, steps, blocked, word='deadlock'):
    """What doesn't look at steps behind a deadlock."""
    if refused is None or refused.number != NO_SUCH_STEP or not is_stuck(end_of(script, mode, steps)):
        return refused
    return SOUND.verify(script, mode, steps[:refused.place], blocked, word)


def calls_first(refused, script, mode, steps, blocked, word='deadlock'):
    """What looks at the calls before it looks whether the end is a deadlock."""
    other_calls = tuple(blocked) != blocked_calls(end_of(script, mode, steps))
    return Refusal(WRONG_BLOCKED) if refused == Refusal(NOT_STUCK) and other_calls else refused


def placed(change):
    """What tells another place of a step."""
    return lambda refused, script, mode, steps, blocked, word='deadlock': (
        refused._replace(place=change(refused.place, steps)) if refused and refused.number == NO_SUCH_STEP else refused)


def compared(alike):
    """What compares the calls in another way."""
    def change(refused, script, mode, steps, blocked, word='deadlock'):
        is_alike = refused == Refusal(WRONG_BLOCKED) and word == 'deadlock' and alike(tuple(blocked), blocked_calls(end_of(script, mode, steps)))
        return None if is_alike else refused
    return told_otherwise(change)


def compared_traps(alike):
    """What takes other trapped ranks for those that trap."""
    def change(refused, script, mode, steps, blocked, word='deadlock'):
        is_alike = refused == Refusal(WRONG_BLOCKED) and word == 'trap' and alike(blocked, explorer.traps_of(outcome(end_of(script, mode, steps))))
        return None if is_alike else refused
    return told_otherwise(change)


def parts_alike(place):
    """Whether ranks, or their traps, are the same, one by one."""
    return lambda said, there: [it.split()[place] for it in said] == [it.split()[place] for it in there]


def walk_faults():
    """Those of which leaves there are, as a check shows them."""
    decisions = (
        ('the last candidate is left out', choosing(lambda steps: steps[:-1] or steps)),
        ('the first candidate alone', choosing(lambda steps: steps[:1])),
        ('nine candidates at most', choosing(lambda steps: steps[:9])),
        ('candidates from the last one on', choosing(reversed)),
        ('candidates of the first receive alone', choosing(lambda steps: [step for step in steps if step.second == steps[0].second])),
        ('candidates by sender', choosing(lambda steps: sorted(steps, key=lambda step: step.first))),
        ('candidates as their texts are ordered', choosing(lambda steps: sorted(steps, key=step_text))),
        ('one candidate is no choice', one_is_forced),
        ('a choice where a receive names its source', without_forced_match),
        ('a run that ends where a rank is trapped', ended_by_trap),
    )
    others = (
        ('cut one step early', lambda world, fuel: SOUND.walk(world, max(0, fuel - 1))),
        ('cut one step late', lambda world, fuel: SOUND.walk(world, fuel + 1)),
        ('fuel for all runs together', for_all_runs),
        ('choices of the leaf before', choices_kept),
        ('runs that are cut are left out', without_cut),
    )
    return ([Breakage(name, walks, 'decision', replacement) for name, replacement in decisions]
            + [Breakage(name, explorer, 'walk', replacement) for name, replacement in others]
            + [Breakage('a choice takes no fuel', walks, 'taken', free_choices),
               Breakage('candidates counted from one', walks, 'candidates', counted_from_one),
               Breakage('no outcome where no fuel is left', walks, 'ending', forgotten),
               Breakage('an outcome without its calls or ranks', walks, 'ending', outcome_word)])


def report_faults():
    """Those of what is listed and said of it, as a check shows them."""
    parts = (
        ('more is always no', of_report(lambda found, runs: found._replace(more=False))),
        ('more is always yes', of_report(lambda found, runs: found._replace(more=True))),
        ('more where there are just so many', of_report(lambda found, runs: found._replace(more=len(found.leaves) == runs))),
        ('more where some run is cut', of_report(lambda found, runs: found._replace(
            more=found.more or any(leaf.outcome == CUT for leaf in found.leaves)))),
        ('leaves in reverse order', of_report(lambda found, runs: found._replace(leaves=found.leaves[::-1]))),
        ('the last leaves in place of the first', last_leaves),
        ('one leaf more', lambda piece, runs: SOUND.part(piece, runs + 1)),
        ('one leaf less', of_report(lambda found, runs: found._replace(leaves=found.leaves[:max(1, runs - 1)]))),
    )
    witnesses = (
        ('a witness without its last step', lambda found: {'steps': found.steps[:-1]}),
        ('a witness without its first step', lambda found: {'steps': found.steps[1:]}),
        ('a witness without its matches', lambda found: {'steps': tuple(step for step in found.steps if step.kind != 'match')}),
        ('a witness from its last match on', lambda found: {'steps': found.steps[max(
            [place for place, step in enumerate(found.steps) if step.kind == 'match'], default=0):]}),
        ('a witness from its end to its start', lambda found: {'steps': found.steps[::-1]}),
    )
    lines = (
        ('leaves numbered from one', lambda number, leaf, witnesses: SOUND.leaf_lines(number + 1, leaf, witnesses)),
        ('no witness is written', lambda number, leaf, witnesses: SOUND.leaf_lines(number, leaf, False)),
        ('a witness is written though it is not asked for', lambda number, leaf, witnesses: SOUND.leaf_lines(number, leaf, True)),
        ('a witness before its leaf', lambda number, leaf, witnesses: reversed(list(SOUND.leaf_lines(number, leaf, witnesses)))),
        ('a witness of each leaf', lines_of_all), ('choices with commas', lines_with_commas),
    )
    bad = (
        ('status 0 for a trap', ('deadlock',)), ('status 0 for a deadlock', ('trap',)),
        ('status 1 for leftovers', ('deadlock', 'trap', 'leftovers')), ('status 1 for a run that is cut', ('deadlock', 'trap', CUT)))
    asked_for = (
        ('a witness of a trap though it is not asked for', lambda asked: asked.witnesses),
        ('no witness of a trap though it is asked for', lambda asked: asked.witnesses and explorer.OF_DEADLOCKS))
    return ([Breakage(name, explorer, 'part', replacement) for name, replacement in parts]
            + [Breakage(name, explorer, 'witnesses_of', replacement) for name, replacement in asked_for]
            + [Breakage(name, explorer, 'witness', of_witness(change)) for name, change in witnesses]
            + [Breakage(name, explorer, 'leaf_lines', replacement) for name, replacement in lines]
            + [Breakage(name, explorer, 'is_bad', bad_by(*kinds)) for name, kinds in bad]
            + [Breakage('no witness of a trap', explorer, 'witness', lambda leaf: None if leaf.outcome.startswith('trap') else SOUND.witness(leaf)),
               Breakage('a count of leaves that are not listed', explorer, 'report_text', counted_on),
               Breakage('the status of the first leaf', explorer, 'status', lambda found, complete: int(explorer.is_bad(found.leaves[0]))),
               Breakage('the status of the last leaf', explorer, 'status', lambda found, complete: int(explorer.is_bad(found.leaves[-1]))),
               Breakage('the status of leaves that are not listed', explorer, 'check', status_of_more)])


def place_faults():
    """Those that no check shows, since it begins at the start and says nothing of what was not asked for."""
    explored = (
        ('fuel counted from the start of the trail', from_start), ('a witness from where it was explored', steps_from_here),
        ('undone steps in a witness', undone_too), ('a debugger left at the last leaf', left_elsewhere),
        ('undone steps that are dropped', undone_dropped), ('more is explored than is asked for', looking_ahead))
    return ([Breakage(name, explorer, 'explored', replacement) for name, replacement in explored]
            + [Breakage('other calls in a witness', explorer, 'witness', of_witness(lambda found: {'blocked': found.blocked[:-1]}))])


def verify_faults():
    """Those of what is said of a witness."""
    told = (
        ('a step that is not enabled is not told', ended_at_wrong_step),
        ('a step that is not enabled is passed over', wrong_steps_passed_over),
        ('steps behind the end are not looked at', steps_behind_end), ('the end is not looked at', ends_not_looked_at),
        ('a trap is a deadlock', traps_are_stuck), ('the calls before the end', calls_first),
        ('always not-stuck', lambda *said: Refusal(NOT_STUCK)), ('always accepted', lambda *said: None),
        ('not-stuck for other calls', lambda refused, *asked: Refusal(NOT_STUCK) if refused == Refusal(WRONG_BLOCKED) else refused),
        ('other calls for an end that is none', lambda refused, *asked: (
            Refusal(WRONG_BLOCKED) if refused == Refusal(NOT_STUCK) else refused)),
        ('the place counted from one', placed(lambda place, steps: place + 1)), ('no place', placed(lambda place, steps: None)),
        ('the first place', placed(lambda place, steps: 0)), ('the last place', placed(lambda place, steps: len(steps) - 1)),
        ('the place from the end', placed(lambda place, steps: len(steps) - 1 - place)),
    )
    return ([Breakage(name, explorer, 'verify', told_otherwise(change)) for name, change in told]
            + [Breakage(f'accepted for a run that ends in {kind}', explorer, 'verify', accepting(kind))
               for kind in ('done', 'leftovers', 'trap')]
            + [Breakage(name, explorer, 'verify', compared_traps(alike)) for name, alike in (
                ('the ranks that trap are not compared', lambda said, there: True), ('another trap of the same rank', parts_alike(0)),
                ('another rank with the same trap', parts_alike(1)))]
            + [Breakage('the calls are not compared', explorer, 'verify', compared(lambda said, there: True)),
               Breakage('the calls are compared in any order', explorer, 'verify', compared(
                   lambda said, there: sorted(said) == sorted(there))),
               Breakage('the calls are compared as a set', explorer, 'verify', compared(lambda said, there: set(said) == set(there))),
               Breakage('some of the calls are enough', explorer, 'verify', compared(lambda said, there: set(said) <= set(there))),
               Breakage('more calls are none too many', explorer, 'verify', compared(lambda said, there: said[:len(there)] == there)),
               Breakage('the ranks of the calls alone are compared', explorer, 'verify', compared(
                   lambda said, there: [call.rank for call in said] == [call.rank for call in there]))])


def check_faults():
    """Those that a check shows."""
    return [*walk_faults(), *report_faults()]


def breakages():
    """All of them."""
    return [*check_faults(), *place_faults(), *verify_faults()]


def looking(change):
    """What looks at other lines than stand there."""
    return lambda text: change(*LINES_OF(text))


def any_line_ends(text):
    return LINES_OF(text.replace(b'\r', b'\n'))


def pattern(number, *changes):
    """The pattern of a line with other texts in it, each in place of one that stands there."""
    text = LINES[number].pattern
    for old, new in changes:
        assert old in text, (old, text)
        text = text.replace(old, new)
    return re.compile(text)


def told_otherwise_than(change):
    """What `verify` answers otherwise, by what is rightly answered, the script, the text and the mode."""
    return lambda script, text, mode=RENDEZVOUS: change(TELL(script, text, mode), script, text, mode)


def numbers_alike(text):
    """What wants the numbers of both lines to be one."""
    numbers = re.match(rb'leaf ([0-9]+) .*\nwitness ([0-9]+):', text)
    if numbers and numbers[1] != numbers[2]:
        raise BadWitness(2)
    return READ(text)


def line_told(change):
    """What tells another line that a text is no witness by."""
    def read(text):
        try:
            return READ(text)
        except BadWitness as told:
            raise BadWitness(change(told.line)) from None
    return read


def of_refused(change):
    """What tells a refusal in another way."""
    return lambda refused: TOLD(refused) if refused is None else change(TOLD(refused), refused)


def told_faults():
    """Those of the text of a witness, and of what `verify` tells."""
    lines = (
        ('a carriage return counts', lambda text: (*(text + b'\n\n').split(b'\n', 2)[:2], LINES_OF(text)[2])),
        ('more than one carriage return counts for nothing', looking(lambda first, second, rest: (first.rstrip(b'\r'), second.rstrip(b'\r'), rest))),
        ('a carriage return alone is the end of a line', any_line_ends),
        ('blanks at the end of the first line', looking(lambda first, second, rest: (first.rstrip(b' '), second, rest))),
        ('the last line wants a line feed', lambda text: LINES_OF(text if text.endswith(b'\n') else text + b'x')),
        ('a carriage return at the end counts', lambda text: LINES_OF(text + b'\r' if text.endswith(b'\r') else text)),
        ('empty lines in front', lambda text: LINES_OF(text.lstrip(b'\n'))),
        ('empty lines between', lambda text: LINES_OF(re.sub(b'\n+', b'\n', text, count=1))),
    )
    return ([Breakage(name, witness, 'lines_of', replacement) for name, replacement in lines] + pattern_faults()
            + [Breakage(name, witness, 'read_witness', replacement) for name, replacement in (
                ('numbers of both lines must be one', numbers_alike), ('always the first line', line_told(lambda line: 1)),
                ('always the second line', line_told(lambda line: 2)), ('lines counted from 0', line_told(lambda line: line - 1)))]
            + [Breakage(name, witness, 'told', of_refused(change)) for name, change in (
                ('no place is told', lambda said, refused: said._replace(output=said.output.split(b' at ')[0].rstrip() + b'\n')),
                ('no number is told', lambda said, refused: said._replace(output=re.sub(rb' [0-9]+', b'', said.output, count=1))),
                ('no name is told', lambda said, refused: said._replace(output=re.sub(rb' [a-z]+-[a-z-]+', b'', said.output))),
                ('status 0 for a refused witness', lambda said, refused: said._replace(status=0)),
                ('status 2 for a refused witness', lambda said, refused: said._replace(status=2)))]
            + order_faults())


def pattern_faults():
    """Those of what may stand in a line."""
    first = (
        ('no blocked call', (b')+)', b')*)')), ('nothing may stand in front', (b'[^ ]* )*', b'[^ ]* ){0}')),
        ('numbers of a leaf are wanted in front', (b'(?:(?!deadlock )[^ ]* )*', rb'leaf [0-9]+ \[[0-9 ]*\] ')),
        ('nothing else than a leaf in front', (b'(?:(?!deadlock )[^ ]* )*', rb'(?:leaf [0-9]+ \[[0-9 ]*\] )?')),
        ('no empty word in front', (b'[^ ]* )*', b'[^ ]+ )*')), ('the word may begin in another', (b'[^ ]* )*', b'[^ ]* )*[^ ]*')),
        ('the last such word', (b'(?:(?!deadlock )', b'(?:')), ('another outcome', (b')*deadlock', b')*(?:deadlock|done|trap|leftovers)')),
        ('one blocked call', (b')+)', b'){1})')), ('two blocked calls at most', (b')+)', b'){1,2})')),
        ('more spaces before calls', (b'((?: ', b'((?: +')), ('tabs before calls', (b'((?: ', b'((?:[ \t]')),
        ('commas behind calls', (b')+)', b',?)+)')), ('ten digits', (b'{1,9}', b'{1,10}')), ('eight digits', (b'{1,9}', b'{1,8}')),
        ('large letters', (b')*deadlock', b')*(?i:deadlock)')))
    second = (
        ('no steps', (b'(?:[^:]*:)?(', b'(?:[^:]*:)?(|')), ('a name is wanted', (b':)?', b':)')), ('no name', (b':)?', b':){0}')),
        ('no other name than of a witness', (b'(?:[^:]*:)', b'(?:witness [0-9]+:)')), ('up to the last colon', (b'(?:[^:]*:)', b'(?:.*:)')),
        ('a comma with one space', (b'(?:,', b'(?:, ')), ('no comma', (b'(?:,', b'(?:,? ')), ('a comma at the end', (b')*)', b')*[, ]*)')),
        ('more commas than one', (b'(?:,', b'(?:[, ]*,')), ('one blank in a step', (b')[ \\t]+', b')[ \\t]')), ('no tabs', (b'[ \\t]', b'[ ]')),
        ('no blanks at the ends of a step', (b'[ \\t]*', b' ?')), ('ten digits', (b'{1,9}', b'{1,10}')), ('eight digits', (b'{1,9}', b'{1,8}')),
        ('large letters', (b'(?:local', b'(?:[Ll]ocal')), ('any blank', (b'[ \\t]', b'[ \\t\\r\\x0b\\x0c]')))
    rest = (('line feeds alone', b'\\n*'), ('nothing', b''), ('one empty line', b'(?:\\r?\\n)?'))
    passed = (('anything', lambda line: True), ('blanks', lambda line: not line.strip() or PASSED(line)))
    return ([Breakage(f'{name}, first line', witness, 'FIRST_LINE', pattern(0, *changes)) for name, *changes in first]
            + [Breakage(f'{name}, second line', witness, 'SECOND_LINE', pattern(1, *changes)) for name, *changes in second]
            + [Breakage(f'{name} behind the second line', witness, 'REST', re.compile(text)) for name, text in rest]
            + [Breakage(f'{name} behind the second line', witness, 'is_passed_over', replacement) for name, replacement in passed])


def order_faults():
    """Those of what `verify` tests first, and of the mode."""
    def text_first(said, script, text, mode):
        return TELL(b'mpd 1; ranks 1;', text, mode) if said.status == 2 and b'script' in said.errors else said

    def file_first(said, script, text, mode):
        return BAD_FILE if None in (script, text) else said

    def mode_last(said, script, text, mode):
        return TELL(script, text, RENDEZVOUS) if said == BAD_MODE and TELL(script, text, RENDEZVOUS).errors else said

    return [Breakage(name, witness, 'verify', told_otherwise_than(change)) for name, change in (
        ('the witness before the script', text_first), ('files before the mode and the script', file_first), ('the mode last', mode_last),
        ('the mode is not looked at', lambda said, script, text, mode: TELL(script, text, RENDEZVOUS) if is_mode(mode) else said),
        ('always buffered', lambda said, script, text, mode: TELL(script, text, BUFFERED) if is_mode(mode) else said),
        ('a file that is not there is empty', lambda said, script, text, mode: TELL(script or b'', text or b'', mode)),
        ('status 1 for a bad text', lambda said, script, text, mode: said._replace(status=1) if b'witness' in said.errors else said),
        ('a bad text on standard output', lambda said, script, text, mode: (
            said._replace(output=said.errors, errors=b'') if b'witness' in said.errors else said)))]
