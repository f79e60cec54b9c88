"""Compares what `--json` of `check` and `diagnose` of a program writes with the model.

    python3 compare/runs/as_json.py PROGRAM                 the scripts of explained.py, outcomes.py and diagnosed.py, 200 of each, the same
                                                            ones for a seed
    python3 compare/runs/as_json.py PROGRAM --count 1000    more of them
    python3 compare/runs/as_json.py PROGRAM --broken        each value of some objects is changed, one at a time; each must be noticed

Of a check the objects are told as text again (json_reports.py), which must be the text that the model writes without `--json`, byte for byte:
so the verdict, the counts, choices, witnesses, groups, waits, whom ranks wait for, cycles, what is left over, traps with what they read, and the
step that decided are those of the model. Of a diagnosis each fact is compared with what the model finds: how many runs there are of each kind, the
groups with their lines, their runs, the run that is shown, and what explains it. What is refused is refused in the same words, and nothing is
written. The status is that of the text. It is 0 where objects were compared, none differed, and all was met that must be.
"""

import copy
import json
import os
import sys
from collections import Counter

sys.path.insert(0, os.path.dirname(os.path.dirname(os.path.abspath(__file__))))

from cases import diagnosed_cases, explained_cases, outcomes_cases
from model.debugger import Result
from model.json_reports import checked_again, read_objects, test_diagnosis
from model.remembered import steps_remembered
from model.report_lines import NoReport, must_be
from runs import driving
from runs.driving import first_different
from runs.outcomes import states_remembered

# So many scripts of each kind meet all that must be met.
MANY = 100
# An option that has no JSON.
NO_JSON = ('--piece', '--pieces')
MUST_MEET = (
    'leaves', 'groups', 'outcomes', 'mode', 'least', 'diagnosis', 'refused', 'status 0', 'status 1', 'status 2', 'status 4', 'done', 'leftovers', 'deadlock',
    'trap', 'cut', 'a witness', 'a near miss', 'a call that is taken', 'a request', 'an absence', 'a rank that has ended', 'a cycle', 'a call that is left over',
    'what a trap read', 'decided at', 'decided from_start', 'more', 'a part without JSON')


def said(chosen, words_in):
    """What the program says to words, as JSON; and these words."""
    words = []

    def asked(folder):
        words[:] = [*words_in(folder), '--json']
        return tuple(words)

    return driving.said_by_program(chosen, 'as-json-', asked), words


# ---- what was met

def met_of_end(end):
    """What is met of how a run has ended."""
    for wait in end.get('waits', ()):
        for call in (wait, *wait['requests']):
            yield from ['a near miss'] * (call['nearest_miss'] is not None) + ['a call that is taken'] * (call['taken'] is not None)
        yield from ['a request'] * len(wait['requests']) + ['an absence'] * len(wait['absent'])
        yield from ['a rank that has ended'] * any(at['has_ended'] for at in wait['awaited'])
    yield from ['a cycle'] * len(end.get('cycles', ())) + ['a call that is left over'] * len(end.get('left', ()))
    yield from ['what a trap read'] * sum(len(trap.get('reads', ())) for trap in end.get('traps', ()))


def met_in(told):
    """What is met in an object, and in those inside it."""
    if isinstance(told, list):
        for one in told:
            yield from met_in(one)
    if not isinstance(told, dict):
        return
    yield from [told[key] for key in ('report', 'ends') if key in told]
    yield from ['a witness'] * (told.get('witness') is not None) + ['more'] * (told.get('more') is True)
    yield from [f'decided {told.get("decided")}'] * isinstance(told.get('decided'), str) + ['runs that are drawn'] * (told.get('drawn') is not None)
    yield from met_of_end(told)
    for one in told.values():
        yield from met_in(one)


# ---- comparing

def wrong_check(case, result, wanted, is_wide):
    """What is wrong with the objects of a check, whose text the model writes; None where nothing is."""
    again = Result(checked_again(case.script, case.asked if hasattr(case, 'asked') else case, result, is_wide).encode(), b'', result.status)
    return None if again == wanted else first_different(again, wanted)


def wrong_of(chosen, case, tests, met):
    """What is wrong with what is said to a case, by what tests it; None where nothing is."""
    wanted = case.wanted()
    result, words = said(chosen, case.words)
    met.update(['compared', f'status {result.status}'])
    if any(word in NO_JSON for word in words):
        met['a part without JSON'] += 1
        refused = (result.status, result.output) == (2, b'') and (wanted.status == 2 or b"can't stand together" in result.errors)
        return None if refused else f'a part: {result.status} {result.errors[:80]!r}'
    if wanted.errors and not wanted.output:
        met['refused'] += 1
        return None if result == wanted else first_different(result, wanted)
    try:
        must_be((result.status, result.errors) == (wanted.status, wanted.errors), f'status {result.status}, {result.errors[:80]!r}')
        how = tests(case, result, wanted)
        met.update(one for told in read_objects(result.output) for one in met_in(told))
        return how
    except (NoReport, KeyError, ValueError, IndexError, TypeError) as why:
        return f'{type(why).__name__}: {why}'


def of_leaves(case, result, wanted):
    """What is wrong with a check by leaves."""
    return wrong_check(case, result, wanted, is_wide=case.asked.ends or hasattr(case, 'runs'))


def of_outcomes(case, result, wanted):
    """What is wrong with a check by outcomes."""
    return wrong_check(case, result, wanted, is_wide=True)


def of_diagnosis(asked, result, _):
    """What is wrong with a diagnosis."""
    test_diagnosis(asked, result)


def all_cases(seed, number):
    """The cases of a number, each with what tests it."""
    yield from ((case, of_leaves) for case in explained_cases.cases(seed, number))
    yield from ((case, of_outcomes) for case, _ in outcomes_cases.cases(seed, number))
    yield diagnosed_cases.drawn(seed, number), of_diagnosis


def compare_chunk(chosen, numbers):
    """What is wrong with the objects of some scripts, and what was met."""
    found, met = [], Counter()
    for number in numbers:
        with steps_remembered(), states_remembered():
            for case, tests in all_cases(chosen.seed, number):
                how = wrong_of(chosen, case, tests, met)
                if how is not None:
                    found.append((case, how))
    return found, met


def compare(chosen, pool):
    """Compares so many scripts of each kind; gives how much differed, or was not met that must be."""
    differing, met, files = 0, Counter(), driving.Kept('as-json-')
    for found, there in driving.by_chunks(pool, compare_chunk, chosen):
        met += there
        for case, how in found:
            differing += 1
            print(f'{files.case(case)}: {how}', flush=True)
    missed = driving.unmet(MUST_MEET, met, chosen.count >= MANY)
    print(f'{met["compared"]} checks and diagnoses of {chosen.count} scripts of each kind, {differing} different')
    return differing + missed + (not met['compared'])


# ---- values that are changed

# So many scripts have each value of their objects changed.
BROKEN = 12
# What nothing of the text tells, and isn't there twice: how many states a check visits, the choices of a group, and the lines where a run ends that isn't
# explained.
UNTOLD = (('outcomes', 'states'), ('groups', 'leaves', 'choices'),
          *((*report, 'ending', ends, 'line') for report in (('leaves', 'leaves'), ('groups', 'leaves'), ('outcomes', 'outcomes')) for ends in ('calls', 'traps')))


def values_in(told, path=()):
    """The way to each value of an object that is a number, a text, or yes or no."""
    if isinstance(told, (dict, list)):
        for key, one in told.items() if isinstance(told, dict) else enumerate(told):
            yield from values_in(one, (*path, key))
    elif told is not None:
        yield path


def with_changed(told, path):
    """The object with another value at the end of a way."""
    told = copy.deepcopy(told)
    *way, last = path
    at = told
    for key in way:
        at = at[key]
    at[last] = not at[last] if isinstance(at[last], bool) else at[last] + (1 if isinstance(at[last], int) else 'x')
    return told


def is_noticed(case, tests, result, wanted):
    """Whether tests find something wrong with objects."""
    try:
        return tests(case, result, wanted) is not None
    except (NoReport, KeyError, ValueError, IndexError, TypeError):
        return True


def not_noticed(case, tests, result, wanted):
    """The keys of values of a case that can be changed, and nobody notices."""
    objects = read_objects(result.output)
    for place, told in enumerate(objects):
        for path in values_in(told):
            changed = [*objects[:place], with_changed(told, path), *objects[place + 1:]]
            output = ''.join(f'{json.dumps(one)}\n' for one in changed).encode()
            keys = told['report'], *(key for key in path if isinstance(key, str))
            if keys not in UNTOLD and not is_noticed(case, tests, result._replace(output=output), wanted):
                yield '.'.join(keys)


def broken_chunk(chosen, numbers):
    """What of some scripts nobody notices, and how many values were changed."""
    found, changed = [], 0
    for number in numbers:
        with steps_remembered(), states_remembered():
            for case, tests in all_cases(chosen.seed, number):
                wanted = case.wanted()
                result, words = said(chosen, case.words)
                if not any(word in NO_JSON for word in words) and wanted.output:
                    found += not_noticed(case, tests, result, wanted)
                    changed += sum(1 for told in read_objects(result.output) for _ in values_in(told))
    return found, changed


def compare_broken(chosen, pool):
    """How many values can be changed unnoticed."""
    told = Counter()
    changed = 0
    for found, count in pool.map(broken_chunk, [chosen] * BROKEN, [[number] for number in range(BROKEN)]):
        told.update(found)
        changed += count
    for keys, count in told.items():
        print(f'{count} changes of {keys} were not noticed')
    print(f'{changed} values changed, {sum(told.values())} not noticed')
    return sum(told.values()) + (not changed)


def main():
    parser = driving.parser_of(__doc__, 'scripts of each kind', 200)
    chosen = driving.chosen_by(parser)
    if not chosen.program:
        parser.error('PROGRAM is wanted')
    sys.exit(driving.driven(chosen, compare, compare_broken))


if __name__ == '__main__':
    main()
