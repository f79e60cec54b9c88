"""Faults that are put into `words`, and into how `verify` reads whole reports, of the model on purpose: reread.py must notice each."""

import re

from faults.policy_faults import Breakage
from model import run_words, wide, witness
from model.debugger import BUFFERED, RENDEZVOUS
from model.explorer import USUAL
from model.run_words import BadChoices, follower
from model.walks import Leaf, ending, listed, taken
from model.witness import FIRST_LINE, LAST_LINE, LEAF_LINE, PASSED_LINE, WITNESS_LINE, BadWitness

SOUND = {name: getattr(run_words, name) for name in ('run_by', 'answer')} | {name: getattr(witness, name) for name in (
    'is_passed_over', 'witnesses_in', 'verify')}


# ---- words

def other_run(change):
    """What tells other steps of a run."""
    def run_by(begun, choices, ends=False):
        leaf = SOUND['run_by'](begun, choices, ends)
        return leaf._replace(steps=tuple(change(leaf.steps)))
    return run_by


def up_to_last_choice(begun, choices, ends=False):
    """What ends right behind the last choice."""
    leaf = SOUND['run_by'](begun, choices, ends)
    run, followed = begun, follower(ends)
    for choice in choices:
        run, decided = followed(run)
        run = taken(run, decided.steps[choice], choice)
    return leaf._replace(steps=listed(run.steps) if choices else leaf.steps)


def from_last_choice(begun, choices, ends=False):
    """What begins at the last choice."""
    leaf = SOUND['run_by'](begun, choices, ends)
    return leaf._replace(steps=leaf.steps[max(0, len(up_to_last_choice(begun, choices, ends).steps) - 1):]) if choices else leaf


def other_place(change):
    """What tells another place, by the right one, the choices, and where the run begins."""
    def run_by(begun, choices, ends=False):
        try:
            return SOUND['run_by'](begun, choices, ends)
        except BadChoices as bad:
            raise BadChoices(change(bad.place, choices)) from None
    return run_by


def lenient(number_at, is_refused=lambda place, choices, ended: False):
    """What takes other numbers where a choice is none: by the number that is given, or None, and how many candidates there are."""
    def run_by(begun, choices, ends=False):
        run, followed = begun, follower(ends)
        while True:
            run, decided = followed(run)
            place, ended = len(run.choices), ending(decided, run.fuel)
            if ended is not None:
                if is_refused(place, choices, ended):
                    raise BadChoices(place)
                return SOUND['run_by'](begun, run.choices, ends)
            given = choices[place] if place < len(choices) else None
            number = number_at(given, len(decided.steps))
            if number is None:
                raise BadChoices(place)
            run = taken(run, decided.steps[number], number)
    return run_by


def there(given, count):
    """The number that is given, where there is such a candidate."""
    return given if given is not None and given < count else None


def or_first(given, count):
    """The same, and the first candidate where none is given."""
    return 0 if given is None else there(given, count)


def too_many(place, choices, ended):
    return place < len(choices)


def by_fuel(change):
    """What has other fuel."""
    return lambda begun, choices, ends=False: SOUND['run_by'](begun._replace(fuel=max(0, change(begun.fuel))), choices, ends)


def no_cut(place, choices, ended):
    return place < len(choices) or ended == 'cut'


def of_one_candidate(begun, choices, ends=False):
    """What counts no choice of one candidate."""
    run, given, followed = begun, list(choices), follower(ends)
    while True:
        run, decided = followed(run)
        if ending(decided, run.fuel) is not None:
            return SOUND['run_by'](begun, run.choices, ends)
        if len(decided.steps) > 1 and not given:
            raise BadChoices(len(choices))
        number = 0 if len(decided.steps) == 1 else given.pop(0)
        if number >= len(decided.steps):
            raise BadChoices(len(choices) - len(given) - 1)
        run = taken(run, decided.steps[number], number)


def along_where_bad(begun, choices, ends=False):
    """What takes choices for those along the wide walk where they are none along decisions."""
    try:
        return SOUND['run_by'](begun, choices, ends)
    except BadChoices:
        return SOUND['run_by'](begun, choices, True)


def by_awake(begun, choices, ends=False):
    """What takes numbers for those among the candidates that are awake, along the wide walk."""
    if not ends:
        return SOUND['run_by'](begun, choices)
    run = begun
    while True:
        run, decided = wide.followed(run)
        place, ended = len(run.choices), ending(decided, run.fuel)
        if ended is not None and place == len(choices):
            return Leaf(run.choices, listed(run.steps), ended)
        chosen = [] if ended is not None else list(wide.awake(run, decided.steps))
        if place == len(choices) or choices[place] >= len(chosen):
            raise BadChoices(place)
        run = chosen[choices[place]]


def other_answer(change):
    """What answers otherwise, by the right result."""
    return lambda *asked: change(SOUND['answer'](*asked), *asked)


def steps_before(said, text, choices, *more):
    """What writes the steps up to the place that is bad."""
    for count in reversed(range(len(choices) + 1 if b'bad choices' in said.errors else 0)):
        found = SOUND['answer'](text, choices[:count], *more)
        if found.status == 0:
            return said._replace(output=found.output)
    return said


def bad(change):
    """What says otherwise that choices are bad."""
    return lambda said, *asked: change(said) if b'bad choices' in said.errors else said


def words_faults():
    """Those of the runs that choices tell."""
    runs = (
        ('one step early', other_run(lambda steps: steps[:-1])), ('one step late', other_run(lambda steps: (*steps, steps[-1]) if steps else steps)),
        ('without the first step', other_run(lambda steps: steps[1:])), ('up to the last choice', up_to_last_choice),
        ('from the last choice on', from_last_choice),
        ('matches alone', other_run(lambda steps: [step for step in steps if step.kind == 'match'])),
        ('no wake at the end', other_run(lambda steps: steps[:-1] if steps and steps[-1].kind == 'wake' else steps)),
        ('the place counted from one', other_place(lambda place, choices: place + 1)),
        ('always the first place', other_place(lambda place, choices: 0)),
        ('the place of the last choice', other_place(lambda place, choices: max(0, len(choices) - 1))),
        ('how many choices', other_place(lambda place, choices: len(choices))),
        ('the place before, where more is wanted', other_place(lambda place, choices: max(0, place - 1) if place == len(choices) else place)),
        ('the first candidates where more is wanted', lenient(or_first, too_many)), ('choices that are too many are passed over', lenient(there)),
        ('a number that is too large counts round', lenient(lambda given, count: None if given is None else given % count, too_many)),
        ('the last candidate for a number that is too large',
         lenient(lambda given, count: None if given is None else min(given, count - 1), too_many)),
        ('the run is cut one step early', by_fuel(lambda fuel: fuel - 1)), ('the run is cut one step late', by_fuel(lambda fuel: fuel + 1)),
        ('fuel is not looked at', by_fuel(lambda fuel: USUAL.fuel)), ('no run that is cut', lenient(there, no_cut)),
        ('a choice of one candidate is none', of_one_candidate), ('candidates counted from one', lambda begun, choices, ends=False: SOUND['run_by'](
            begun, tuple(choice - 1 for choice in choices if choice), ends)),
        ('--ends is not looked at', lambda begun, choices, ends=False: SOUND['run_by'](begun, choices)),
        ('always along the wide walk', lambda begun, choices, ends=False: SOUND['run_by'](begun, choices, True)),
        ('along the wide walk without --ends', lambda begun, choices, ends=False: SOUND['run_by'](begun, choices, not ends)),
        ('along the wide walk where no run along decisions has the choices', along_where_bad),
        ('numbered among those that are awake', by_awake))
    answers = (
        ('steps before what is bad', steps_before), ('status 1', bad(lambda said: said._replace(status=1))),
        ('status 0', bad(lambda said: said._replace(status=0))),
        ('bad choices on standard output', bad(lambda said: said._replace(output=said.errors, errors=b''))),
        ('no place', bad(lambda said: said._replace(errors=b'mpdbg: bad choices\n'))),
        ('steps on one line', lambda said, *asked: said._replace(output=said.output.replace(b'\n', b', ', max(0, said.output.count(b'\n') - 1)))),
        ('no last line feed', lambda said, *asked: said._replace(output=said.output.removesuffix(b'\n'))),
        ('how it ends, behind the steps', lambda said, *asked: said._replace(output=said.output + b'done\n') if said.status == 0 else said),
        ('always rendezvous', lambda said, text, choices, mode, *more: SOUND['answer'](text, choices, RENDEZVOUS, *more)),
        ('always buffered', lambda said, text, choices, mode, *more: SOUND['answer'](text, choices, BUFFERED, *more)),
        ('choices before the script',
         lambda said, *asked: said._replace(errors=b'mpdbg: bad choices at 0\n') if b'script' in said.errors else said))
    texts = (('ten digits', ' *(?:[0-9]{1,10}(?: +[0-9]{1,10})* *)?'), ('any blanks', ' *(?:[0-9]{1,9}(?:[ \\t]+[0-9]{1,9})* *)?'),
             ('commas', ' *(?:[0-9]{1,9}(?:[ ,]+[0-9]{1,9})* *)?'),
             ('no space in front or behind', '(?:[0-9]{1,9}(?: +[0-9]{1,9})*)?'),
             ('one space alone', ' *(?:[0-9]{1,9}(?: [0-9]{1,9})* *)?'), ('no leading zeros', ' *(?:(?:0|[1-9][0-9]{0,8})(?: +(?:0|[1-9][0-9]{0,8}))* *)?'),
             ('at least one choice', ' *[0-9]{1,9}(?: +[0-9]{1,9})* *'), ('eight digits', ' *(?:[0-9]{1,8}(?: +[0-9]{1,8})* *)?'))
    return ([Breakage(f'words: {name}', run_words, 'run_by', replacement) for name, replacement in runs]
            + [Breakage(f'words: {name}', run_words, 'answer', other_answer(change)) for name, change in answers]
            + [Breakage(f'words: {name}', run_words, 'CHOICES', re.compile(pattern)) for name, pattern in texts])


# ---- verify

def choosing(change):
    """What takes another witness, by all that there are in order, and the leaf; None where there is none."""
    def chosen_witness(witnesses, leaf):
        if (found := change(witnesses, leaf)) is None:
            raise BadWitness(None)
        return found
    return chosen_witness


def nth(items, number):
    items = list(items)
    return items[number] if number < len(items) else None


def only(witnesses, leaf):
    """The witness that there is alone, or that of the leaf."""
    return next(iter(witnesses.values())) if leaf is None and len(witnesses) == 1 else witnesses.get(leaf)


def by_digits(witnesses, leaf):
    """What looks for a leaf whose number begins with these digits."""
    return only(witnesses, leaf) or next((text for number, text in witnesses.items() if leaf is not None and str(number).startswith(str(leaf))), None)


def at_least(witnesses, leaf):
    """What takes the next witness where a leaf has none."""
    return only(witnesses, leaf) or next((text for number, text in sorted(witnesses.items()) if leaf is not None and number >= leaf), None)


def not_right_behind(lines):
    """What takes a witness that stands anywhere behind its leaf."""
    leaves = {found[1]: line for line in lines if (found := LEAF_LINE.fullmatch(line)) and FIRST_LINE.fullmatch(line)}
    return {int(found[1]): (leaves[found[1]], line) for line in lines if (found := WITNESS_LINE.fullmatch(line)) and found[1] in leaves}


def calls_of_first(lines):
    """What takes the calls of the first deadlock for those of each."""
    found = SOUND['witnesses_in'](lines)
    return {number: (next(iter(found.values()))[0], steps) for number, (_, steps) in found.items()}


def whatever_number(lines):
    """What doesn't look at the number of a witness."""
    return SOUND['witnesses_in']([re.sub(rb'^witness [0-9]+', rb'witness %s' % leaf[1], line) if (leaf := LEAF_LINE.fullmatch(before)) else line
                                  for before, line in zip([b'', *lines], lines)])


def verify_otherwise(change):
    """What answers otherwise where a leaf is named, or a report is read."""
    def verify(script, text, mode=RENDEZVOUS, leaf=None):
        return change(SOUND['verify'](script, text, mode, leaf), script, text, mode, leaf)
    return verify


def verify_faults():
    """Those of how a witness is found in a report."""
    chosen = (
        ('the witness of that number', lambda witnesses, leaf: only(witnesses, leaf) if leaf is None else nth(witnesses.values(), leaf)),
        ('the first witness', lambda witnesses, leaf: nth(witnesses.values(), 0)),
        ('the last witness', lambda witnesses, leaf: nth([*witnesses.values()][::-1], 0)),
        ('the first of several', lambda witnesses, leaf: nth(witnesses.values(), 0) if leaf is None else witnesses.get(leaf)),
        ('leaves counted from one', lambda witnesses, leaf: only(witnesses, leaf) if leaf is None else witnesses.get(leaf - 1)),
        ('a leaf whose number begins so', by_digits), ('the next witness', at_least),
        ('the one that there is, whatever leaf is named',
         lambda witnesses, leaf: only(witnesses, None) if len(witnesses) == 1 else witnesses.get(leaf)),
        ('a leaf must be named', lambda witnesses, leaf: witnesses.get(leaf)))
    found = (('not right behind its leaf', not_right_behind), ('calls of the first deadlock', calls_of_first), ('whatever number', whatever_number))
    lines = (
        ('no line of an explanation', lambda line: not line or LAST_LINE.fullmatch(line)), ('no last line', lambda line: not line or PASSED_LINE.fullmatch(line)),
        ('a line of a witness is passed over', lambda line: SOUND['is_passed_over'](line) or WITNESS_LINE.fullmatch(line)))
    said = (
        ('status 1 where there is none',
         lambda said, *asked: said._replace(status=1) if b'bad witness' in said.errors and asked[3] is not None else said),
        ('accepted where there is none', lambda said, *asked: witness.ACCEPTED if b'bad witness' in said.errors and asked[3] is not None else said),
        ('accepted by a leaf', lambda said, *asked: witness.ACCEPTED if said.status == 1 and asked[3] is not None else said),
        ('other calls by a leaf', lambda said, *asked: witness.ACCEPTED if b'refused 34' in said.output and asked[3] is not None else said),
        ('no place by a leaf', lambda said, *asked: said._replace(output=re.sub(rb' at [0-9]+', b'', said.output)) if asked[3] is not None else said),
        ('always rendezvous by a leaf',
         lambda said, script, text, mode, leaf: said if leaf is None else SOUND['verify'](script, text, RENDEZVOUS, leaf)),
        ('the report before the script',
         lambda said, *asked: said._replace(errors=b'mpdbg: bad witness\n') if b'script' in said.errors and asked[3] is not None else said))
    ends = ('carriage returns stay', lambda text: text.split(b'\n'))
    leaf = rb'leaf (?=[0-9]{1,9} \[[0-9 ]*\] )'
    named = (
        ('the number of an end', rb'(?:%b|end (?=[0-9]{1,9} leaves [0-9]{1,9} first [0-9]{1,9} ))([0-9]{1,9}) .+' % leaf),
        ('how many leaves end so', rb'(?:%b|end [0-9]{1,9} leaves (?=[0-9]{1,9} first [0-9]{1,9} ))([0-9]{1,9}) .+' % leaf),
        ('no line of an end', rb'(?:%b)([0-9]{1,9}) .+' % leaf), ('an end has no number', rb'(?:%b|end leaves [0-9]{1,9} first )([0-9]{1,9}) .+' % leaf),
        ('any words before the first', rb'(?:%b|end .*first )([0-9]{1,9}) .+' % leaf))
    return ([Breakage(f'verify: {name}', witness, 'chosen_witness', choosing(change)) for name, change in chosen]
            + [Breakage(f'verify: {name}', witness, 'witnesses_in', replacement) for name, replacement in found]
            + [Breakage(f'verify: {name}', witness, 'is_passed_over', replacement) for name, replacement in lines]
            + [Breakage(f'verify: {ends[0]}', witness, 'report_lines', ends[1])]
            + [Breakage(f'verify: {name}', witness, 'LEAF_LINE', re.compile(pattern)) for name, pattern in named]
            + [Breakage(f'verify: {name}', witness, 'verify', verify_otherwise(change)) for name, change in said])


def breakages():
    """All of them."""
    return [*words_faults(), *verify_faults()]
