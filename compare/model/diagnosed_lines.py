"""What `diagnose` says of a script, read from its text: what becomes of the runs, and of those that were drawn if some were, and each bug with its
lines, its explanation, and the run that its commands have. What can be told of the text without its script must be so. It knows nothing of
diagnosed.py, and folds nothing."""

import re
import shlex
from typing import NamedTuple, Optional

from model.outcomes import MOST_COUNTED
from model.report_lines import choices_of, must_be

COMMAND, GOES_ON, WIDTH = '  ./mpdbg ', ' ' * 8, 80
COUNT = '([0-9]+)'
# What is told in the place of a number of runs that can't be counted; such a number is read as one run more than are counted.
MANY_RUNS, MANY = 'more runs than can be counted', 'more than can be counted'
# What tells that the runs which were come to aren't all.
OF_FIRST = re.compile(r' (?:of|found in) the first [0-9]+ runs?\b')
TELLS_RUNS = re.compile(r' (?:of|found in) (?:the first )?[0-9]+ runs?\b')
# A run that is too long has no picture.
TOO_LONG, PICTURED = re.compile('  a run of ([0-9]+) steps is too long for a picture'), 1000
RUNS = f'{COUNT} (runs?)'
RENDEZVOUS = 'rendezvous'
# What becomes of the runs in a mode, in the order of the lines.
VERDICT = (
    ('both', f'it always fails in MODE: it hangs in {COUNT} of {RUNS} and traps in {COUNT}'), ('hang', f'it can hang in MODE: {COUNT} of {RUNS}'), ('always hangs', rf'it always hangs in MODE \({RUNS}\)'),
    ('trap', f'it can trap in MODE: {COUNT} of {RUNS}'), ('always traps', rf'it always traps in MODE \({RUNS}\)'),
    ('never', rf'it never hangs or traps in MODE, whatever is taken first \({RUNS}, ([0-9]+) (states?)\)'),
    ('none found', f'no hang and no trap was found in {RUNS} in MODE'), ('left', f'it can end with calls left over: {COUNT} of {RUNS}'),
    ('cut', f'not everything was tried: {COUNT} of {RUNS} (?:was|were) cut after 100000 steps'),
    ('more', 'not everything was tried: there are more runs than these'))
ALWAYS = {'always hangs': 'hang', 'always traps': 'trap'}
# What becomes of runs that are drawn, in the order of the lines.
AT_RANDOM = 'drawn at random: '
DRAWN = tuple((name, re.compile(f'{AT_RANDOM}{line}')) for name, line in (
    ('hang', f'{COUNT} of {RUNS} hang'), ('trap', f'{COUNT} of {RUNS} trap'), ('none drawn', f'none of {RUNS} hangs or traps'),
    ('left', f'{COUNT} of {RUNS} end with calls left over')))
# A line, and the place of its mark if it has one (docs/FROM_A_RUN.md, "Marks").
PLACED = r'[0-9]+(?: \([!-~]{1,80}\))?'
HEADING = re.compile(f'(deadlock at|trap at|left over from|cut at) (lines?) ({PLACED}(?:, {PLACED})*): {COUNT} of {RUNS}(, one of them:)?')
KINDS = {'deadlock at': 'hang', 'trap at': 'trap', 'left over from': 'left', 'cut at': 'cut'}
WERE_CUT = re.compile('.*: ([0-9]+) of .* (was|were) cut after [0-9]+ steps')
# What tells the step that decided, and what must follow it.
DECIDED_AT, HINT = re.compile('  decided at depth [0-9]+: .'), '  at the prompt of `debug`, `blame` goes to this step and `redo all` to the end'
CHOICES = re.compile('(?:[0-9]+(?: [0-9]+)*)?')
# Where the script stands, in the lines of an explanation.
PLACES = {'hang': re.compile(f'  rank [0-9]+ waits at line ({PLACED}), '), 'trap': re.compile(f'  rank [0-9]+, line ({PLACED}): trap '),
          'left': re.compile(f'  left over: line ({PLACED}), ')}


class Named(NamedTuple):
    """A script as its commands must name it: the name of its file, the words for it, which may have more behind the file, and its mode."""
    file: str
    script: str
    mode: str = RENDEZVOUS

    def words(self):
        """The words for it in its mode."""
        return self.script if self.mode == RENDEZVOUS else f'{self.script} --mode {self.mode}'


class Bug(NamedTuple):
    """Ends that are told together: their kind and lines, how many runs end so, the lines that explain one of them, that which tells what decided
    (None where none does), the choices of the run that is shown, and whether its picture is named."""
    kind: str
    lines: tuple
    runs: int
    explained: tuple
    decided: Optional[str]
    choices: tuple
    pictured: bool


class Drawn(NamedTuple):
    """How many runs that were drawn become what, by kind; how many there are, and their bugs."""
    counts: dict
    runs: int
    bugs: tuple


class Told(NamedTuple):
    """How many runs become what, by kind; how many there are, how many states were come to where that is told, whether there are more, the bugs, and
    what was drawn (None where nothing was)."""
    counts: dict
    runs: int
    states: Optional[int]
    more: bool
    bugs: tuple
    drawn: Optional[Drawn]


def count_of(text):
    """A count."""
    return int(text)


def with_numbers(line):
    """A line with a number in the place of each that can't be counted."""
    number = MOST_COUNTED + 1
    line = line.replace(f' of {MANY_RUNS}', f' of {number} runs')
    line = re.sub(rf'(found in |\(){MANY_RUNS}', rf'\g<1>{number} runs', line)
    return line.replace(MANY_RUNS, f'{number} of {number} runs').replace(MANY, str(number))


def with_all_runs(lines, more):
    """Lines with numbers, without what tells that these are the first runs, which is told where there are more, unless it is one or they can't be counted."""
    found = [with_numbers(line) for line in lines]
    for line in found:
        if not line.startswith(' ') and (told := TELLS_RUNS.search(line)) is not None:
            is_first = more and str(MOST_COUNTED + 1) not in told[0] and not re.search(r' [01] run', told[0])
            must_be((OF_FIRST.search(line) is not None) == is_first, f'{line!r}, where there are {"" if more else "no "}more')
    return [line if line.startswith(' ') else line.replace(' the first ', ' ') for line in found]


def runs_in(count, word):
    """How many runs are told by a count and a word."""
    must_be((count == '1') == (word == 'run'), f'{count} {word}')
    return count_of(count)


# ---- long lines

def unfolded(lines):
    """The lines as they were before they were folded; each part has as many words as there is room for."""
    found = []
    for before, line in zip(['', *lines], lines):
        if not line.startswith(GOES_ON):
            found.append(line)
            continue
        word = line.removeprefix(GOES_ON).split(' ')[0]
        must_be(bool(before.strip()) and not before.startswith(COMMAND), f'what goes on behind {before[:60]!r}')
        must_be(bool(word) and len(before) + 1 + len(word) > WIDTH, f'{word!r} has room behind {before!r}')
        found[-1] += f' {line.removeprefix(GOES_ON)}'
    must_be(all(len(line) <= WIDTH for line in lines if not line.startswith(COMMAND)), f'a line is longer than {WIDTH} bytes')
    return found


def blocks(text):
    """The parts of a text that empty lines divide, each with its lines."""
    must_be(text.endswith('\n'), 'the last line has no end')
    found = [[]]
    for line in unfolded(text[:-1].split('\n')):
        if line:
            found[-1].append(line)
        else:
            found.append([])
    must_be(all(found), 'an empty line too many')
    return found


# ---- what becomes of the runs

def verdict_of(lines, patterns):
    """What is told by each line of a verdict, by its name; they stand in the order of their patterns, and one of what always is so alone."""
    found, names = {}, iter(patterns)
    for line in lines:
        name, told = next(((name, told) for name, pattern in names if (told := pattern.fullmatch(line))), (None, None))
        must_be(name is not None, f'a line that is none, or stands too late: {line!r}')
        found[name] = told.groups()
        cut = WERE_CUT.fullmatch(line)
        must_be(cut is None or (cut[1] == '1') == (cut[2] == 'was'), line)
    if 'both' in found:
        must_be(not {'hang', 'trap'} & set(found), f'{sorted(found)} is told of what always is so')
        hang, runs, word, trap = found['both']
        must_be(count_of(hang) + count_of(trap) == count_of(runs) or count_of(runs) > MOST_COUNTED, f'{hang} and {trap} of {runs} runs')
        found['hang'], found['trap'] = (hang, runs, word), (trap, runs, word)
    return found


def counts_in(verdict):
    """How many runs become what, and how many there are."""
    counts = {name: count_of(verdict[name][0]) if name in verdict else 0 for name in ('hang', 'trap', 'left', 'cut')}
    must_be(all(counts[name] for name in counts if name in verdict), 'a line of no run')
    told = [runs_in(*verdict[name][-2:]) for name in counts if name in verdict]
    told += [runs_in(*verdict[name][:2]) for name in ('never', 'none found', *ALWAYS) if name in verdict]
    must_be(len(set(told)) == 1, f'there are {told} runs')
    counts.update({kind: told[0] for name, kind in ALWAYS.items() if name in verdict})
    must_be(sum(counts.values()) <= told[0] or told[0] > MOST_COUNTED, f'{counts} of {told[0]} runs')
    must_be(not set(ALWAYS) & set(verdict) or set(verdict) < set(ALWAYS), f'{sorted(verdict)} is told of what always is so')
    can = [kind for kind in ('hang', 'trap') if kind in verdict and counts[kind] == told[0] <= MOST_COUNTED]
    must_be(not can or 'more' in verdict, f'{can} is told of every run')
    is_both = counts['hang'] and counts['trap'] and not {'left', 'cut', 'more'} & set(verdict) and counts['hang'] + counts['trap'] == told[0]
    must_be(('both' in verdict) == bool(is_both) or told[0] > MOST_COUNTED, f'{sorted(verdict)} is told of {counts} of {told[0]} runs')
    is_bad, is_part = counts['hang'] or counts['trap'], counts['cut'] or 'more' in verdict
    wanted = set() if is_bad else {'none found' if is_part else 'never'}
    must_be({'never', 'none found'} & set(verdict) == wanted, f'{sorted(verdict)} is told')
    return counts, told[0]


def counts_drawn(verdict):
    """How many runs that were drawn become what, and how many there are."""
    counts = {name: count_of(verdict[name][0]) if name in verdict else 0 for name in ('hang', 'trap', 'left')}
    must_be(all(counts[name] for name in counts if name in verdict), 'a line of no run that was drawn')
    told = [runs_in(*found[-2:]) for found in verdict.values()]
    must_be(len(set(told)) == 1 and sum(counts.values()) <= told[0], f'{counts} of {told} runs that were drawn')
    must_be(('none drawn' in verdict) != bool(counts['hang'] or counts['trap']), f'{sorted(verdict)} is told of what was drawn')
    return counts, told[0]


# ---- commands, and bugs

def names_file(line, file):
    """Whether a shell reads the third word of a command as the name of a file, which is no option."""
    try:
        words = shlex.split(line)
    except ValueError:
        return False
    return len(words) > 2 and words[2] == (f'./{file}' if file.startswith('-') else file)


def choices_in(line, named, front, behind):
    """The choices that a command has, of which this stands in front and behind."""
    must_be(names_file(line, named.file), f'{line!r} is not of the file {named.file!r}')
    must_be(line.startswith(front) and line.endswith(behind), f'{line!r} is not {front}..{behind}')
    told = line.removeprefix(front).removesuffix(behind)
    must_be(CHOICES.fullmatch(told) is not None, f'{told!r} are no choices')
    return choices_of(told)


def number_of(placed):
    """The number of a line, without the place of its mark."""
    return int(placed.partition(' ')[0])


def bug_in(lines, named, runs, picture):
    """A bug, by its lines, and the file of its picture."""
    told = HEADING.fullmatch(lines[0])
    must_be(told is not None and len(lines) > 1 + (told[1] != 'cut at'), f'ends are told by {lines[:4]}')
    must_be((told[4] == '1') == (told[7] is None), f'{told[0]!r} of one run or several')
    kind, places = KINDS[told[1]], tuple(map(number_of, told[3].split(', ')))
    must_be(places == tuple(sorted(set(places))) and (told[2] == 'line') == (len(places) == 1), f'{told[2]} {places}')
    must_be(runs_in(told[5], told[6]) == runs, f'{told[0]} of {runs} runs')
    first = next((place for place, line in enumerate(lines) if line.startswith(COMMAND)), len(lines))
    too_long = TOO_LONG.fullmatch(lines[-1])
    must_be(too_long is None or int(too_long[1]) > PICTURED, lines[-1])
    must_be(len(lines) - first == 2, f'{lines[first:]} are no commands')
    must_be((first > 1) == (told[1] != 'cut at'), f'{lines[1:first]} explain {told[0]!r}')
    choices = [choices_in(line, named, f"{COMMAND}{word} {named.words()} --ends --choices '", behind)
               for line, word, behind in zip(lines[first:len(lines) - (too_long is not None)], ('debug', 'picture'), ("'", f"' > {picture}"))]
    must_be(choices[0] == choices[-1], f'commands of two runs, {choices}')
    explained, decided = lines[1:first], None
    must_be((HINT in explained) == any(map(DECIDED_AT.match, explained)), f'what to type is told by {explained}')
    if HINT in explained:
        *explained, hint = explained
        must_be(hint == HINT, f'{hint!r} stands behind what to type')
    if kind == 'cut':
        must_be(not explained, f'{explained} explains a run that is cut')
        return Bug(kind, places, count_of(told[4]), (), None, choices[0], len(choices) == 2)
    if kind != 'left':
        *explained, decided = explained
        must_be(decided.startswith('  decided '), f'what decided is {decided!r}')
    stands = {number_of(place[1]) for line in explained if (place := PLACES[kind].match(line))}
    must_be(stands == set(places), f'it stands at {sorted(stands)}, and not {places}')
    return Bug(kind, places, count_of(told[4]), tuple(explained), decided, choices[0], len(choices) == 2)


def bugs_in(blocks_of_bugs, named, counts, runs, picture):
    """The bugs of some blocks, each another, which add up to how many runs become what; those that hang or trap come first, and each has a picture."""
    numbers = [''] if len(blocks_of_bugs) == 1 else [f'-{place}' for place in range(1, len(blocks_of_bugs) + 1)]
    bugs = tuple(bug_in(lines, named, runs, f'{picture}{number}.svg') for lines, number in zip(blocks_of_bugs, numbers))
    left = [bug.kind in ('left', 'cut') for bug in bugs]
    wide = [any(other.kind == bug.kind and set(other.lines) < set(bug.lines) for other in bugs) for bug in bugs]
    must_be(list(zip(left, wide)) == sorted(zip(left, wide)), 'what is left over comes before what hangs or traps, or two bugs before one of them')
    must_be(len({(bug.kind, bug.lines) for bug in bugs}) == len(bugs), 'a bug twice')
    for kind in counts:
        there = sum(bug.runs for bug in bugs if bug.kind == kind)
        must_be(there == counts[kind] or there > MOST_COUNTED < counts[kind], f'{there} runs of {kind}, and not {counts[kind]}')
    return bugs


def told_and_next(lines, patterns, named):
    """What is told by the lines of a verdict, and the command that is tried next, which stands behind them: None, `others` or `modes`."""
    known = {f'{COMMAND}check {named.words()} --sample 65536 --group --explain': 'others',
             f'{COMMAND}diagnose {named.script} --modes 4': 'modes'}
    command = known.get(lines[-1])
    must_be(command is None or names_file(lines[-1], named.file), f'{lines[-1]!r} is not of the file {named.file!r}')
    return verdict_of(lines[:-1] if command else lines, patterns), command


def drawn_in(verdict, others, named):
    """What is told of runs that were drawn, by the lines of their verdict, and the blocks behind it."""
    told, command = told_and_next(verdict, DRAWN, named)
    counts, runs = counts_drawn(told)
    must_be(command == ('others' if 'none drawn' in told else None), f'the command {command}, behind what was drawn')
    return Drawn(counts, runs, bugs_in(others, named, counts, runs, 'drawn'))


def read_diagnosis(text, named):
    """What is told of a script that is named so; raises why it is none."""
    verdict, *others = blocks(text.decode())
    place = next((place for place, lines in enumerate(others) if lines[0].startswith(AT_RANDOM)), len(others))
    more = any(line.endswith('there are more runs than these') for line in verdict)
    verdict, *others = (with_all_runs(lines, more and number <= place) for number, lines in enumerate([verdict, *others]))
    patterns = tuple((name, re.compile(line.replace('MODE', named.mode))) for name, line in VERDICT)
    told, command = told_and_next(verdict, patterns, named)
    counts, runs = counts_in(told)
    is_drawn = 'more' in told and not counts['hang'] and not counts['trap']
    must_be((place < len(others)) == is_drawn, f'{"nothing" if is_drawn else "something"} is told of runs that were drawn')
    are_all_bad = runs <= MOST_COUNTED and counts['hang'] + counts['trap'] == runs and 'more' not in told
    wanted = 'modes' if 'never' in told or are_all_bad or set(ALWAYS) & set(told) else 'others' if 'more' in told and not is_drawn else None
    must_be(command == wanted, f'the command {command}, and not {wanted}')
    bugs = bugs_in(others[:place], named, counts, runs, 'run')
    if 'never' in told:
        must_be((told['never'][2] == '1') == (told['never'][3] == 'state'), 'states')
    drawn = drawn_in(others[place], others[place + 1:], named) if is_drawn else None
    return Told(counts, runs, int(told['never'][2]) if 'never' in told else None, 'more' in told, bugs, drawn)


def status_of(told, strict):
    """The status by what is told."""
    for counts in (told.counts, *([told.drawn.counts] if told.drawn is not None else [])):
        if counts['hang'] or counts['trap'] or strict and counts['left']:
            return 1
    return 4 if told.more or told.counts['cut'] else 0
