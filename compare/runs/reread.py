"""Compares what `words` and `verify` of a program say of its own reports with the model.

    python3 compare/runs/reread.py PROGRAM                 worked rows (worked_ends.py), and the reports of 300 random scripts, the same ones for the
                                                           same seed and count
    python3 compare/runs/reread.py PROGRAM --count 3000    more of them
    python3 compare/runs/reread.py --broken                faults of the model (reread_faults.py), each of which must be noticed; with PROGRAM,
                                                           beside it

Of a report's leaves `words` must write the steps, or say where no run has such choices; the choices of a report with `--ends` are given with
that, and without it, too. What it writes of a leaf must be the steps of its witness, where that is a deadlock, and `trace` must take all of
them and come to the outcome of the leaf. `verify` must accept each witness of the whole report by the number of its leaf, also where the
report is grouped, and say what is wrong with changed ones. Where a text has no such witness, only how the line on standard error begins is
compared. The status is 0 where reports were read, none differed, and all was met that must be.
"""

import os
import shlex
import sys
from collections import Counter
from itertools import chain

sys.path.insert(0, os.path.dirname(os.path.dirname(os.path.abspath(__file__))))

from cases.piece_cases import script_of as read_script_of
from cases.reread_cases import OF_LEAF, questions, report_asked
from faults import reread_faults
from model import debugger
from model.debugger import BUFFERED, RENDEZVOUS, Result, step_text
from model.explorer import CUT
from model.files import held
from model.remembered import steps_remembered
from model.report_lines import NoReport, read_report
from model.run_words import WRONG_WORDS, Words
from model.witness import agrees
from rows.worked_ends import LEAVES, LONG_LEAVES, LONG_WORDS, MISTAKES, MISTAKES_OF_VERIFY, WORDS
from runs import driving
from runs.driving import first_different

# So many scripts meet all that must be met.
MANY = 200
MUST_MEET = (
    'reports', 'words of a run', 'words of a deadlock', 'words of a trap', 'words of a run that is cut', 'words, buffered', 'words, slots',
    'words of a wake by a handle', 'bad choices at 0', 'bad choices behind some', 'bad choices, all taken', 'bad choices, more wanted',
    'no choices', 'bad mode of words', 'words of a bad script', 'words of no script', 'accepted by a leaf', 'accepted, one alone',
    'accepted, explained', 'accepted, CR LF', 'accepted, grouped', 'bad witness, grouped', 'refused 32', 'refused 33', 'refused 34',
    'bad witness, a leaf', 'bad witness, no leaf', 'traces', 'words along the wide walk', 'words of a leaf that no choices along decisions tell')


def run(chosen, words_in, data=b''):
    """What the program gives, by what has its words in a folder."""
    return driving.said_by_program(chosen, 'reread-', words_in, data)


def said(chosen, question):
    """What the program says to a question, or else the model."""
    return run(chosen, question.words) if chosen.program else question.wanted()


def traced(chosen, words, data):
    """What `trace` answers to the lines that `words` has written, and to `show` behind them."""
    if chosen.program is None:
        return debugger.answer_file(words.script, data, words.mode or RENDEZVOUS)
    options = () if words.mode is None else ('--mode', words.mode)
    return run(chosen, lambda folder: ('trace', held(folder, 'script.mpd', words.script), *options), data)


# ---- what must be said

def is_told(result, wanted):
    """Whether a question is answered as it must be."""
    if wanted == WRONG_WORDS:
        return (result.output, result.status) == (b'', 2) and bool(result.errors) and b'bad choices at' not in result.errors
    return agrees(result, wanted)


def how_different(result, wanted):
    return f'{result}' if wanted == WRONG_WORDS else first_different(result, wanted)


def leaf_of(told, words):
    """The leaf of a report of whose choices a run is asked, in its mode and with its fuel; None where it is no leaf of it."""
    return next((leaf for leaf in told.leaves if ' '.join(map(str, leaf.choices)) == words.choices), None)


def trace_wrong(chosen, words, leaf, lines):
    """What is wrong with the lines of a run, by the leaf and by what `trace` answers to them; None where nothing is."""
    if leaf.steps is not None and lines != [step_text(step).encode() for step in leaf.steps]:
        return 'the words are not the steps of the witness'
    result = traced(chosen, words, b''.join(line + b'\n' for line in [*lines, b'show']))
    *answers, _ = answered = result.output.splitlines()[:len(lines) + 1]
    if result.status or answers != [b'ok %d' % number for number in range(1, len(lines) + 1)]:
        return f'`trace` answers {answers[-1:]} to the words'
    ended = [line.removeprefix(b'outcome ').decode() for line in result.output.splitlines()[len(answered):] if line.startswith(b'outcome ')]
    return None if ended == ([] if leaf.outcome == CUT else [leaf.outcome]) else f'`trace` comes to {ended}, and not to {leaf.outcome}'


# ---- what is met

def met_by_words(asked, wanted, leaf):
    """What a program may say wrongly to `words`."""
    if wanted == WRONG_WORDS:
        yield 'no choices'
        return
    told = wanted.errors.decode()
    if 'bad choices' in told:
        place, count = int(told.split()[-1]), len(asked.choices.split())
        yield 'bad choices at 0' if place == 0 else 'bad choices behind some'
        yield from ['bad choices, more wanted'] * (place == count) + ['bad choices, all taken'] * (0 < place < count)
    elif wanted.status:
        yield {'bad mode': 'bad mode of words', 'device': 'words of no script'}.get(told.removeprefix('mpdbg: ').strip(), 'words of a bad script')
    elif leaf is not None:
        yield 'words of a run' if wanted.output else 'words of no step'
        word = leaf.outcome.split()[0]
        yield f'words of a {"run that is cut" if word == CUT else word}'
        yield from ['words, buffered'] * (asked.mode == BUFFERED) + ['words, slots'] * (asked.mode or '').startswith('slots')
        yield from ['words of a wake by a handle'] * (b'wakeany' in wanted.output)
        yield from met_along(asked, wanted) if asked.ends else ()


def met_along(asked, wanted):
    """The same of choices along the wide walk."""
    yield 'words along the wide walk'
    yield from ['words of a leaf that no choices along decisions tell'] * (asked._replace(ends=False).wanted() != wanted)


def is_grouped(asked):
    """Whether the report that `verify` is asked of has a line of those that end in one way."""
    return b'end 0 leaves ' in (asked.text or b'')


def met_by_verify(asked, wanted):
    """The same of `verify`."""
    if b'bad witness' in wanted.errors:
        yield 'bad witness, no leaf' if asked.leaf is None else 'bad witness, a leaf'
        yield from ['bad witness, grouped'] * is_grouped(asked)
    elif wanted.status == 0:
        yield 'accepted, one alone' if asked.leaf is None else 'accepted by a leaf'
        yield from ['accepted, explained'] * (b'\n  ' in asked.text) + ['accepted, CR LF'] * (b'\r\n' in asked.text)
        yield from ['accepted, grouped'] * is_grouped(asked)
    elif wanted.status == 1:
        yield ' '.join(wanted.output.decode().split()[:2])


# ---- comparing

class Asked:
    """The report of a script, and what is asked of it."""

    def __init__(self, chosen, number):
        self.case = report_asked(chosen.seed, number)
        self.script = None if self.case is None else read_script_of(self.case)
        self.report = said(chosen, self.case) if self.script is not None else Result(b'', b'', 2)
        self.is_report = self.report.status in (0, 1)

    def questions(self, chosen, number):
        return questions(chosen.seed, number, self.case, self.script, self.report.output) if self.is_report else []


def compare_question(chosen, question, told, met):
    """How a question is answered otherwise than it must be; None where it isn't."""
    result, wanted = said(chosen, question), question.wanted()
    leaf = leaf_of(told, question) if isinstance(question, Words) else None
    met.update(met_by_words(question, wanted, leaf) if isinstance(question, Words) else met_by_verify(question, wanted))
    if not is_told(result, wanted):
        return how_different(result, wanted)
    if leaf is not None and result.status == 0 and question.name == OF_LEAF:
        met['traces'] += 1
        return trace_wrong(chosen, question, leaf, result.output.splitlines())
    return None


def compare_script(chosen, number):
    """What differs of what is said of a script's report, how much was asked, and what was met."""
    found, met, count = [], Counter(), 0
    with steps_remembered():
        asked = Asked(chosen, number)
        try:
            told = read_report(asked.report.output) if asked.is_report else None
        except NoReport as why:
            return [(asked.case, str(why))], met, 1
        met['reports'] += asked.is_report
        for question in asked.questions(chosen, number):
            count += 1
            how = compare_question(chosen, question, told, met)
            found += [] if how is None else [(question, how)]
    return found, met, count


def row_wrong(chosen, row):
    """What a program answers otherwise than a worked row wants; None where nothing is."""
    question = row.case()
    result, wanted = said(chosen, question), row.wanted()
    return None if is_told(result, wanted) else f'{str(row)[:300]}: {how_different(result, wanted)}'


def mistake_wrong(chosen, words):
    """What a program answers to words that are wrong, where it isn't a text on standard error; the mode is wrong too."""
    result = run(chosen, lambda folder: ('words', held(folder, 'script.mpd', b'mpd 1; ranks 1;'), '--mode', 'fast', *words))
    return None if is_told(result, WRONG_WORDS) else f'words {words}: {result}'


def verify_mistake_wrong(chosen, words):
    """The same of `verify`."""
    def asked(folder):
        files = held(folder, 'script.mpd', b'mpd 1; ranks 1;'), held(folder, 'report.txt', b'leaves 0 more no\n')
        return ('verify', *files, '--mode', 'fast', *words.split())

    result = run(chosen, asked)
    return None if is_told(result, WRONG_WORDS) and b'bad mode' not in result.errors else f'verify {words}: {result}'


def compare_rows(chosen, pool):
    """How many of the worked rows, and of the words that are wrong, are answered otherwise than they must be."""
    rows = WORDS + LEAVES + (LONG_WORDS + LONG_LEAVES if chosen.program else ())
    problems = list(pool.map(row_wrong, [chosen] * len(rows), rows))
    if chosen.program:
        problems += pool.map(mistake_wrong, [chosen] * len(MISTAKES), MISTAKES)
        problems += pool.map(verify_mistake_wrong, [chosen] * len(MISTAKES_OF_VERIFY), MISTAKES_OF_VERIFY)
    wrong = [problem for problem in problems if problem is not None]
    for problem in wrong:
        print(problem, flush=True)
    print(f'{len(problems)} rows, {len(wrong)} wrong')
    return len(wrong)


def compare_chunk(chosen, numbers):
    """The same of some scripts."""
    parts = [compare_script(chosen, number) for number in numbers]
    return sum((found for found, _, _ in parts), []), sum((met for _, met, _ in parts), Counter()), sum(count for _, _, count in parts)


def compare(chosen, pool):
    """Compares what is said of so many reports; gives how much differed, or was not met that must be."""
    differing, met, asked, files = 0, Counter(), 0, driving.Kept('reread-')
    for found, met_there, count in driving.by_chunks(pool, compare_chunk, chosen):
        for question, how in found:
            differing += 1
            print(f'{shlex.join(question.words(files.folder(differing)))}: {how}', flush=True)
        met += met_there
        asked += count
    missed = driving.unmet(MUST_MEET, met, chosen.count >= MANY)
    print(f'{asked} questions to {met["reports"]} reports, {differing} different')
    return differing + missed + (not asked)


def shows(fault, question, answer):
    """Whether the model with a fault says otherwise to a question than the program, or else the sound model."""
    with driving.broken(fault):
        return not is_told(answer, question.wanted())


def not_noticed(chosen):
    """The faults that no answer shows."""
    left = reread_faults.breakages()
    asked = (question for number in range(chosen.count) if left for question in Asked(chosen, number).questions(chosen, number))
    for question in chain((row.case() for row in WORDS + LEAVES), asked):
        answer = said(chosen, question)
        left = [fault for fault in left if not shows(fault, question, answer)]
    return [fault.name for fault in left]


def compare_broken(chosen, pool):
    """How many faults of the model are not noticed."""
    return driving.count_left(pool.submit(not_noticed, chosen).result(), len(reread_faults.breakages()))


def compare_all(chosen, pool):
    return compare_rows(chosen, pool) + compare(chosen, pool)


def main():
    chosen = driving.chosen_by(driving.parser_of(__doc__, 'scripts (300)', 300, 'answer'))
    return driving.driven(chosen, compare_all, compare_broken)


if __name__ == '__main__':
    sys.exit(main())
