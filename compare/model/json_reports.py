"""What `--json` of `check` and `diagnose` writes, told as text again.

Objects are read by their keys (docs/FORMATS.md, "JSON of reports"), and each of their facts goes into a line that the text has. So where the lines that are
told of an object are those that the model writes, the object has the facts of these. What the text has no word for, as the place beside a line, is
tested by itself.
"""

import json
import re

from model import explorer, marks
from model.debugger import RENDEZVOUS
from model.explorer import has_choice_of_wakes, read_script
from model.modes import slots_of
from model.report_lines import must_be

# Up to how many runs are counted, and how many cells of an array are told.
MOST_COUNTED, SHOWN = 18446744073709551615, 16
VERDICTS = {0: 'good', 1: 'bad', 4: 'not_whole'}
WAYS = 'done', 'leftovers', 'deadlock', 'trap', 'cut'
STILL_WELL = 'it need not hang or trap'
OTHERWISE_DECIDED = {
    'from_start': 'decided from the start: every run hangs or traps',
    'open': 'not decided: not every run hangs or traps',
    'unknown': 'not known: not all runs from there were counted'}


# ---- calls

def call_text(call):
    """A call, with its line and its name."""
    return f'line {call["line"]}, {call["call"]} {call["kind"]}'


def wish(call):
    """What a call waits for, by what it is."""
    words = call['kind'].split()
    if words[0].endswith('send'):
        return f'for a receive of rank {words[2]} from rank {call["rank"]} with tag {words[4]}'
    if words[0].endswith('recv'):
        source, tag = (f'{name} {word}' if word != 'any' else f'any {name}' for name, word in (('rank', words[2]), ('tag', words[4])))
        return f'for a send of {source} with {tag}'
    if words[0] == 'wait':
        return 'for no request' if words[1] == 'none' else f'for request {call["rank"]}.{words[1]}'
    return {'waitany': 'for one of these requests', 'barrier': 'for all ranks at a barrier'}[words[0]]


def helps(call):
    """The lines of what nearly fits a call, and of what would have."""
    miss, taken = call['nearest_miss'], call['taken']
    if miss is not None:
        yield f'    nearest miss: {call_text(miss)}: another {miss["misses"]}'
    if taken is not None:
        yield f'    the last that fits is taken: {call_text(taken)}, by {call_text(taken["by"])}'


def absence(at):
    """The line of a rank that is at no barrier."""
    where = {'ended': 'it has ended', 'at': f'it is at line {at.get("line")}', 'trapped': f'it is at line {at.get("line")}'}
    stands = where.get(at['stands']) or f'it waits at {call_text(at["call"])}'
    return f'    rank {at["rank"]} is not there: {stands}'


# ---- ends

def wait_lines(wait):
    """The lines of a call that a rank waits in."""
    yield f'  rank {wait["rank"]} waits at {call_text(wait)}: {wish(wait)}'
    yield from map(absence, wait['absent'])
    yield from helps(wait)
    for request in wait['requests']:
        yield f'    {call_text(request)}: {wish(request)}'
        yield from helps(request)


def whom_line(wait):
    """The line of whom a rank waits for."""
    ranks = [f'rank {at["rank"]}{" (ended)" * at["has_ended"]}' for at in wait['awaited']]
    several = f'{"all" if wait["kind"] == "barrier" else "any"} of ' * (len(ranks) > 1)
    return f'  rank {wait["rank"]} waits for {several}{", ".join(ranks) or "nobody"}'


def cycle_line(cycle):
    return f'  a cycle, where each waits for the next: {", ".join(f"rank {rank}" for rank in [*cycle, cycle[0]])}'


def held_text(declared, cells):
    """What a rank holds in a declaration."""
    texts = ['-' if cell is None else str(cell) for cell in cells]
    return texts[0] if declared.size is None else f'[{", ".join(texts[:SHOWN] + [".."] * (len(texts) > SHOWN))}]'


def trap_line(script, trap):
    """The line of a rank that is trapped, with what it holds in what it read, as that was declared."""
    read = [f'{name} = {held_text(declared, trap["reads"][name])}' for name, declared in script.names.items() if name in trap['reads']]
    must_be(len(read) == len(trap['reads']), f'names of {trap}')
    return f'  rank {trap["rank"]}, line {trap["line"]}: trap {trap["trap"]}{", with " * bool(read)}{", ".join(read)}'


def end_lines(script, end):
    """The lines of how a run has ended."""
    if end['ends'] == 'deadlock':
        for wait in end['waits']:
            yield from wait_lines(wait)
        yield from map(whom_line, end['waits'])
        yield from map(cycle_line, end['cycles'])
    yield from [trap_line(script, trap) for trap in end.get('traps', ())]
    yield from [f'  left over: {call_text(call)}' for call in end.get('left', ())]


# ---- the step that decided

def issuer(call):
    return f'rank {call["rank"]}, line {call["line"]}'


def message(send):
    """A message, by its send."""
    words = send['kind'].split()
    return f'rank {send["rank"]} (line {send["line"]}, value {words[6]}, tag {words[4]})'


def deed(step):
    """What a step does."""
    word = step['step'].split()[0]
    if word == 'match':
        return f'{issuer(step["receive"])}, takes the message of {message(step["send"])}'
    if word == 'release':
        return 'all ranks leave the barrier'
    by = step.get('by')
    return f'{issuer(step)}, goes on{"" if by is None else f" by {call_text(by)}"}'


def decided_line(decided):
    """The line of where it was decided how a run ends."""
    if decided['decided'] == 'or_earlier':
        return f'  decided at depth {decided["depth"]} or earlier: not all runs from there were counted'
    if decided['decided'] != 'at':
        return f'  {OTHERWISE_DECIDED[decided["decided"]]}'
    taken, other = decided['taken'], decided['other']
    receives = {json.dumps(step.get('receive'), sort_keys=True) for step in (taken, other)}
    is_same = 'receive' in taken and len(receives) == 1
    instead = f'with that of {message(other["send"])}' if is_same else f'if {deed(other)} instead,'
    return f'  decided at depth {decided["depth"]}: {deed(taken)}; {instead} {STILL_WELL}'


def explained(script, told):
    """The lines that explain a leaf or an outcome, where it is explained."""
    lines = [] if told['end'] is None else list(end_lines(script, told['end']))
    return lines if told.get('decided') is None else [*lines, decided_line(told['decided'])]


# ---- what is tested by itself

def step_word(step):
    """The trace word of a step, by its calls or its rank; that of `wakeany` but for the number behind it."""
    word = step['step'].split()[0]
    if word == 'match':
        return f'match {step["send"]["call"]} {step["receive"]["call"]}'
    if word == 'wakeany':
        must_be(re.fullmatch('wakeany [0-9]+ [0-9]+', step['step']), f'a step {step}')
        return f'wakeany {step["rank"]} {step["step"].split()[-1]}'
    return word if word == 'release' else f'{word} {step["rank"]}'


def test_one(places, told):
    """Tests that what an object has twice is the same, and that a line has the place of its mark beside it."""
    if 'line' in told:
        must_be(told['place'] == places.get(told['line']), f'the place of {told}')
    if isinstance(told.get('call'), str):
        must_be(told['call'].split('.')[0] == str(told['rank']), f'the rank of {told}')
    if isinstance(told.get('call'), dict):
        must_be(told['line'] == told['call']['line'] and told['rank'] == told['call']['rank'], f'the call of {told}')
    if 'step' in told:
        must_be(step_word(told) == told['step'], f'a step {told}')
    if 'exact' in told:
        must_be(told['exact'] is True or told['exact'] is False and told['count'] == MOST_COUNTED, f'a count {told}')
    if 'stands' in told:
        must_be(('call' in told) == (told['stands'] in ('waits', 'can_go_on')) and (told['stands'] != 'ended') == ('line' in told), f'where {told} stands')
    if told.get('decided') == 'from_start':
        must_be(told['depth'] == 0, f'a depth of {told}')
    if 'end' in told and told['end'] is not None:
        must_be(told.get('ends', told.get('ending', {}).get('ends')) == told['end']['ends'], f'an end of {told}')


def test_alike(text, told, of='runs'):
    """Tests so an object, and all inside it, in which runs are counted, or what else is."""
    places = marks.places_of(text)
    for one in told.values() if isinstance(told, dict) else told:
        if isinstance(one, (dict, list)):
            test_alike(text, one, of)
    if isinstance(told, dict):
        test_one(places, told)
        must_be(told.get('of', of) == of, f'a count {told}')


def test_ending(leaf):
    """Tests that the calls and traps that end a run are those that its end tells of, at the same lines."""
    ending, end = leaf['ending'], leaf['end']
    if end is None:
        return
    must_be(ending['ends'] == end['ends'], f'{ending} beside {end}')
    told = end.get('waits', end.get('left', ())) if ending['ends'] in ('deadlock', 'leftovers') else end.get('traps', ())
    keys = ('rank', 'trap', 'line') if ending['ends'] == 'trap' else ('rank', 'call', 'line')
    ends = ending.get('calls', ending.get('traps', ()))
    must_be([[one[key] for key in keys] for one in ends] == [[one[key] for key in keys] for one in told], f'{ending} beside {end}')


# ---- reports

def count_text(count):
    must_be(count['exact'] or count['count'] == MOST_COUNTED, f'a count {count}')
    return str(count['count']) if count['exact'] else f'at least {count["count"]}'


def ending_text(ending):
    """How a run ends, as a leaf has it."""
    calls = [call['call'] for call in ending.get('calls', ())]
    traps = [f'{trap["rank"]} {trap["trap"]}' for trap in ending.get('traps', ())]
    return ' '.join([ending['ends'], *calls, *traps])


def choices_text(told):
    return f'[{" ".join(map(str, told["choices"]))}]'


def behind(script, number, told):
    """The lines behind that of a leaf or an outcome."""
    test_ending(told)
    return [f'witness {number}: {told["witness"]}'] * (told['witness'] is not None) + explained(script, told)


def leaf_lines(script, report):
    """The lines of the leaves, or the groups, of a report."""
    for place, leaf in enumerate(report['leaves']):
        ending, number = ending_text(leaf['ending']), leaf['leaf']
        if report['report'] == 'groups':
            yield f'end {place} leaves {count_text(leaf["runs"])} first {number} {ending}'
        else:
            must_be((place, 1) == (number, leaf['runs']['count']), f'leaf {leaf}')
            yield f'leaf {number} {choices_text(leaf)} {ending}'
        yield from behind(script, number, leaf)
    yield f'leaves {count_text(report["counts"]["total"])} more {"yes" if report["more"] else "no"}'


def outcome_lines(script, report):
    """The lines of the outcomes of a report."""
    for place, told in enumerate(report['outcomes']):
        must_be(told['outcome'] == place, f'outcome {told}')
        yield f'outcome {place} runs {count_text(told["runs"])} first {choices_text(told)} {ending_text(told["ending"])}'
        yield from behind(script, place, told)
    total = count_text(report['counts']['total'])
    yield f'outcomes {len(report["outcomes"])} runs {total} more {"yes" if report["more"] else "no"}'


def mode_line(report):
    """The line of a mode that is tried in turn."""
    counts = report['counts']
    of = counts['total']['of']
    must_be(of in ('runs', 'outcomes'), f'a count of {of}')
    listed = [f'{name} {count_text(counts[way])}' for name, way in (('deadlocks', 'deadlock'), ('traps', 'trap'), ('leftovers', 'leftovers'), ('cut', 'cut'))]
    what = 'leaves' if of == 'runs' else of
    return f'{report["mode"]} {what} {count_text(counts["total"])} {" ".join(listed)} more {"yes" if report["more"] else "no"}'


def report_lines(script, report):
    """The lines of one object."""
    if report['report'] == 'mode':
        return [mode_line(report)]
    if report['report'] == 'least':
        return [f'least {report["mode"] or "none"}']
    return list((outcome_lines if report['report'] == 'outcomes' else leaf_lines)(script, report))


def read_objects(output):
    """The objects of some output, one on each line."""
    must_be(output.endswith(b'\n') and output.isascii(), f'output {output[:80]!r}')
    return [json.loads(line) for line in output.decode().splitlines()]


def mode_of(word):
    """A mode, whose number has no leading zeros."""
    slots = slots_of(word or RENDEZVOUS)
    return word or RENDEZVOUS if slots is None else f'slots:{slots}'


def test_counts(counts):
    """Tests that what is counted in each way comes to what is counted in all."""
    if all(counts[way]['exact'] for way in ('total', *WAYS)):
        must_be(sum(counts[way]['count'] for way in WAYS) == counts['total']['count'], f'counts {counts}')


def test_report(script, report, asked, status, is_wide):
    """Tests what a report begins with, and whether it says that it is whole."""
    must_be(report['status'] == status and report['verdict'] == VERDICTS[status], f'status {report["status"]}, {report["verdict"]}')
    if report['report'] == 'least':
        return
    must_be(report['mode'] == mode_of(asked.mode) and report['ranks'] == script.ranks, f'mode {report["mode"]}, ranks {report["ranks"]}')
    test_counts(report['counts'])
    cut = report['counts']['cut']
    is_listed = not report['more'] and cut['exact'] and not cut['count']
    is_whole = is_listed and (is_wide or not has_choice_of_wakes(script.body) and slots_of(asked.mode or RENDEZVOUS) is None)
    must_be(report['whole'] == is_whole, f'whole {report["whole"]}')


def checked_again(text, asked, result, is_wide):
    """The text of a check by its objects, the last of which has the status."""
    script, objects = read_script(text), read_objects(result.output)
    test_report(script, objects[-1], asked, result.status, is_wide)
    of = 'outcomes' if is_wide and not hasattr(asked, 'ends') and asked.modes is not None else 'runs'
    wanted = 'groups' if getattr(asked, 'group', False) else 'leaves' if hasattr(asked, 'ends') else 'outcomes'
    for told in objects:
        test_alike(text, told, of)
        must_be(told['report'] == wanted or asked.modes is not None and told['report'] in ('mode', 'least'), f'a report {told["report"]}')
        if told['report'] == 'mode':
            must_be(told['ranks'] == script.ranks, f'ranks {told["ranks"]}')
            test_counts(told['counts'])
    lines = [line for told in objects for line in report_lines(script, told)]
    return ''.join(f'{line}\n' for line in marks.all_marked(text, lines))


# ---- diagnoses

def test_runs(asked, told, found, states):
    """Tests what is told of runs by what was found of them, and gives the lines that explain each group of ends."""
    from model import diagnosed, outcomes  # pylint: disable=import-outside-toplevel
    test_counts(told['counts'])
    runs = {'total': outcomes.total(found), **{way: diagnosed.runs_of(found, way) for way in WAYS}}
    counts = {way: told['counts'][way]['count'] if told['counts'][way]['exact'] else MOST_COUNTED + 1 for way in runs}
    must_be(counts == {way: min(count, MOST_COUNTED + 1) for way, count in runs.items()}, f'counts {told["counts"]} for {runs}')
    must_be(told['more'] == found.more and told['states'] == states, f'more {told["more"]}, states {told["states"]} for {states}')
    bugs = diagnosed.bugs_of(diagnosed.ends_of(asked, found))
    must_be(len(bugs) == len(told['groups']), f'{len(told["groups"])} groups for {len(bugs)}')
    script = explorer.read_script(asked.script)
    for ends, group in zip(bugs, told['groups']):
        leaf = diagnosed.explained_of(ends).leaf
        wanted = ends[0].kind, list(ends[0].lines), str(min(sum(end.runs for end in ends), MOST_COUNTED)), list(leaf.choices), len(leaf.steps)
        has = group['ends'], group['lines'], str(group['runs']['count']), group['choices'], group['steps']
        must_be(has == wanted, f'a group {has} for {wanted}')
        must_be(explained(script, group) == list(outcomes.explained(asked, leaf)), f'what explains {has}: {explained(script, group)}')


def test_diagnosis(asked, result):
    """Tests the one object of a diagnosis by what the model finds."""
    from model import diagnosed  # pylint: disable=import-outside-toplevel
    objects = read_objects(result.output)
    must_be(len(objects) == 1 and objects[0]['report'] == 'diagnosis', f'{len(objects)} objects')
    told = objects[0]
    must_be(told['ranks'] == (asked.ranks or read_script(asked.script).ranks), f'ranks {told["ranks"]}')
    test_alike(asked.script, told)
    must_be(told['status'] == result.status and told['verdict'] == VERDICTS[result.status], f'status {told["status"]}')
    must_be(told['mode'] == diagnosed.mode_of(asked), f'mode {told["mode"]}')
    search, found = asked.searched()
    test_runs(asked, told['found'], found, search.counted)
    drawn = diagnosed.drawn_of(asked, found)
    must_be((drawn is None) == (told['drawn'] is None), 'what is drawn')
    if drawn is not None:
        test_runs(asked, told['drawn'], drawn, 0)
