"""Compares what a program answers in two modes that must not differ: `slots:0` and `rendezvous`, `slots:65536` and `buffered`.

    python3 compare/runs/slots.py PROGRAM            5,000 random scripts, the same ones for the same seed and count
    python3 compare/runs/slots.py                    500 of them, with the model in the place of a program
    python3 compare/runs/slots.py --broken           and faults of the model (slots_faults.py), each of which must be noticed

Of each script a report is asked for and a walk is traced, with what is shown behind its steps; every fifth one is a session too. No script
has so many sends that 65,536 slots are taken. So all that is answered must be the same but for the mode's name, which the look `script` of
a session tells; but for the mark `buffered`, which `slots:65536` alone has, behind the value of each standard send; and but for the status
of a report without `--ends` that tells every way to end, where `--complete` asks for that: in a mode of slots none does. With `--ends` such
a report does so in each mode, and in `slots:0` all is the same; in `slots:65536` a match that gives a slot back is a choice, so that
choices, pieces and limits are others: there the ends must be the same, and the status, where both reports are whole. The status is 0 where
scripts were compared, none differed, and all was met that must be.
"""

import os
import re
import sys
from collections import Counter
from random import Random
from typing import NamedTuple

sys.path.insert(0, os.path.dirname(os.path.dirname(os.path.abspath(__file__))))

from cases import session_cases, walks
from cases.explore_cases import FUELS, KINDS, KINDS_OF_2, KINDS_OF_SLOTS, RUNS, kind_of, script_of
from cases.piece_cases import has_few_leaves
from faults import slots_faults
from model import debugger, explorer, session
from model.debugger import Result
from model.explorer import Asked, NOT_WHOLE, Report, is_whole, option_words
from model.files import held
from model.language import Fault, read_script
from model.modes import BUFFERED, RENDEZVOUS
from model.report_lines import NoReport, read_report
from runs import driving
from runs.driving import first_different

OF_MODEL, OF_PROGRAM = 500, 5000
# So many scripts meet all that must be met.
MANY = 300
# One script of so many is a session too, of one of so many ends are asked for, and one of so many is of version 2.
SESSION_EVERY, ENDS_EVERY, VERSION_2_EVERY = 5, 2, 6
# Of each piece so many runs are listed, where there may be several; a script of more ranks, whose steps take the model long, is one piece.
FEW_RUNS, MANY_RANKS, MOST_FUEL = (1, 2, 3, 5), 8, 200
# A number that a request of a session may not have: what ends soon in the mode that it was drawn in may not do so in another one.
LARGE = re.compile(rb'[0-9]{3}')
# A standard send, as `show` and a session tell it, up to its value.
STANDARD = re.compile(rb'^(call \d+\.\d+ i?send to \d+ tag \d+ value -?\d+)|("i?send to \d+ tag \d+ value -?\d+)', re.MULTILINE)
# The mode of a script, as a session tells it.
NAMED = b'"mode":"%b"'
MUST_MEET = ('check', 'trace', 'run', 'a deadlock', 'a trap', 'leftovers', 'all done', 'a run that is cut', 'a witness', 'a whole report', 'status 4',
             'ends', 'whole reports of ends', 'whole reports of ends with other choices', 'a whole report of ends and a wait for any',
             'refused', 'a step back', 'a step forward', 'a buffered send that is free', 'a buffered send that is matched', 'a synchronous send',
             'a send that is not buffered', 'calls of a session', 'a mode by its name', 'a wait for any')
# What was met, by a text in an answer.
TOLD_BY = (
    ('a deadlock', b'] deadlock '), ('a trap', b'] trap '), ('leftovers', b'] leftovers '), ('all done', b'] done'),
    ('a run that is cut', b'] cut\n'), ('a witness', b'witness '), ('a wait for any', b' waitany '), ('a synchronous send', b'ssend to '),
    ('a buffered send that is free', b' buffered free'), ('a buffered send that is matched', b' buffered with '))


class Pair(NamedTuple):
    """A mode of slots, the mode that it must be like, and whether standard sends are shown as buffered in it."""
    slots: str
    plain: str
    buffers: bool


PAIRS = (Pair('slots:0', RENDEZVOUS, False), Pair('slots:65536', BUFFERED, True))


class Question(NamedTuple):
    """What is asked of a script, in any mode: a command, the options of a check, and the input of a trace or a session."""
    command: str
    script: bytes
    options: Asked
    data: bytes

    def words(self, folder, mode):
        """The words that ask a program, with its file in a folder."""
        options = option_words(self.options._replace(mode=mode))
        return (self.command, held(folder, 'script.mpd', self.script), *options, *('--wide',) * (self.command == 'run'))

    def said_by_model(self, mode):
        """What the model answers."""
        if self.command == 'check':
            return explorer.answer(self.script, self.options._replace(mode=mode))
        if self.command == 'trace':
            return debugger.answer_file(self.script, self.data, mode)
        return session.serve(self.script, self.data, mode, True)


def said(chosen, question, mode):
    """What the program answers, or else the model."""
    if chosen.program is None:
        return question.said_by_model(mode)
    return driving.said_by_program(chosen, 'slots-', lambda folder: question.words(folder, mode), question.data)


def wanted(question, pair, plain):
    """What must be answered in the mode of slots by what is answered in the other one."""
    output = STANDARD.sub(rb'\g<0> buffered', plain.output) if pair.buffers else plain.output
    output = output.replace(NAMED % pair.plain.encode(), NAMED % pair.slots.encode())
    tells_all = question.command == 'check' and question.options.complete and not question.options.ends and plain.status == 0
    return Result(output, plain.errors, NOT_WHOLE if tells_all else plain.status)


def has_other_choices(question, pair):
    """Whether what is asked may be told by other choices in the mode of slots."""
    return question.options.ends and pair.buffers


def whole_ends(result):
    """The ends of a whole report; None where it isn't whole, or is none."""
    try:
        told = read_report(result.output)
    except NoReport:
        return None
    return {leaf.outcome for leaf in told.leaves} if is_whole(Report(told.leaves, told.more)) else None


def different(question, pair, result, plain):
    """How an answer in the mode of slots differs from what it must be by the one in the other mode; None where it doesn't."""
    if not has_other_choices(question, pair):
        due = wanted(question, pair, plain)
        return None if result == due else first_different(result, due)
    ends, due = whole_ends(result), whole_ends(plain)
    is_other = None not in (ends, due) and (ends, result.status) != (due, plain.status)
    return f'ends {ends}, wanted {due} (status {result.status}, wanted {plain.status})' if is_other else None


# ---- scripts, and what is asked of them


def report_asked(random, kind, script):
    """A report with limits, and options that any report may have."""
    split, workers = 0 if max(kind.ranks) > MANY_RANKS else random.choice([None, 0, 1, 2]), random.choice([None, 1, 2, 4])
    runs, fuel = random.choice(RUNS if split == 0 else FEW_RUNS), min(random.choice(FUELS), MOST_FUEL)
    asked = Asked(None, runs, fuel, random.random() < 0.6, random.random() < 0.5, split, workers, random.random() < 0.1,
                  pieces=random.random() < 0.03)
    return Question('check', script, asked, b'')


def ends_asked(question):
    """The same report, of ends, where a script has few of them in either mode."""
    asked = question.options._replace(ends=True)
    try:
        script = read_script(question.script)
    except Fault:
        return []
    is_small = script.ranks <= MANY_RANKS and has_few_leaves(script, asked._replace(mode=PAIRS[1].slots))
    return [question._replace(options=asked)] * is_small


def walk_asked(random, script, mode):
    """A walk that is drawn in a mode, in which all is shown now and then, and at its end."""
    habits = random.choice([walks.USUAL, walks.SHOWING, walks.ALONG, walks.RACING])
    lines = walks.trace_lines(random, script, random.choice([10, 20, 40, 80]), habits, mode)
    return Question('trace', script, Asked(), ''.join(f'{line}\n' for line in lines).encode('latin-1'))


def session_asked(random, script, mode):
    """Requests that are drawn in a mode; what all calls are is asked at the end."""
    habits = random.choice([session_cases.USUAL, session_cases.FORWARD, session_cases.ASKING])
    try:
        talk = session_cases.Talk(random, script, mode, habits)
        lines = list(talk.lines(random.choice([5, 10, 20])))
    except Fault:
        lines = []
    lines += [f'{{"cmd":"calls","rank":{rank}}}\n'.encode() for rank in range(4)]
    return Question('run', script, Asked(), b''.join(line.rstrip(b'\r\n') + b'\n' for line in lines if not LARGE.search(line)))


def questions(seed, number):
    """What is asked of the script of a number, the same each time."""
    random = Random(f'slots/{seed}/{number}')
    kinds = KINDS_OF_2 if number % VERSION_2_EVERY == 0 else KINDS | KINDS_OF_SLOTS
    kind = kinds[kind_of(random, kinds)]
    script, mode = script_of(random, kind), random.choice([mode for pair in PAIRS for mode in (pair.slots, pair.plain)])
    asked = [report_asked(random, kind, script), walk_asked(random, script, mode)]
    asked += ends_asked(asked[0]) if number % ENDS_EVERY == 0 else []
    return asked + [session_asked(random, script, mode)] * (number % SESSION_EVERY == 0)


# ---- comparing


def met_of_ends(result, plain):
    """What is met of ends that are told by other choices."""
    if whole_ends(result) is not None and whole_ends(plain) is not None:
        yield 'whole reports of ends'
        yield from ['whole reports of ends with other choices'] * (result.output != plain.output)


def met_in(question, pair, result):
    """What a program may answer wrongly, by what is answered in the mode of slots."""
    yield question.command
    yield from ['ends'] * question.options.ends
    is_whole_of_any = question.options.ends and question.options.complete and result.status == 0 and b'waitany' in question.script
    yield from ['a whole report of ends and a wait for any'] * is_whole_of_any
    if result.status == 2:
        yield 'refused'
        return
    yield from [name for name, text in TOLD_BY if text in result.output]
    if question.command == 'check':
        yield from ['a whole report'] * result.output.endswith(b'more no\n') + ['status 4'] * (result.status == NOT_WHOLE)
    elif question.command == 'trace':
        words = question.data.split(b'\n')
        yield from ['a step back'] * (b'back' in words) + ['a step forward'] * (b'redo' in words)
    yield from ['a send that is not buffered'] * (not pair.buffers and bool(STANDARD.search(result.output)))
    yield from ['calls of a session'] * (b'{"calls":["' in result.output)
    yield from ['a mode by its name'] * (NAMED % pair.slots.encode() in result.output)


class Differing(NamedTuple):
    """A question that is answered otherwise in a mode of slots than in the one that it must be like, and how."""
    question: Question
    pair: Pair
    how: str


def compared(chosen, number):
    """What differs of a script, and what was met."""
    found, met = [], Counter()
    for question in questions(chosen.seed, number):
        for pair in PAIRS:
            result, plain = said(chosen, question, pair.slots), said(chosen, question, pair.plain)
            met.update(met_in(question, pair, result))
            met.update(met_of_ends(result, plain) if has_other_choices(question, pair) else ())
            if (how := different(question, pair, result, plain)) is not None:
                found.append(Differing(question, pair, how))
    return found, met


def compare_chunk(chosen, numbers):
    """The same of some scripts."""
    parts = [compared(chosen, number) for number in numbers]
    return sum((found for found, _ in parts), []), sum((met for _, met in parts), Counter())


def kept(path, differing):
    """Keeps a script and an input in a folder; says what to ask a program, in either mode."""
    data = held(path, 'input', differing.question.data)
    return f'{" ".join(differing.question.words(path, differing.pair.slots))} < {data}, beside {differing.pair.plain}: {differing.how}'


def compare(chosen, pool):
    """Compares so many scripts; gives how much differed, or was not met that must be."""
    differing, met, files = 0, Counter(), driving.Kept('slots-')
    for found, met_there in driving.by_chunks(pool, compare_chunk, chosen):
        for one in found:
            differing += 1
            print(kept(files.folder(differing), one), flush=True)
        met += met_there
    missed = driving.unmet(MUST_MEET, met, chosen.count >= MANY)
    asked = sum(met[name] for name in ('check', 'trace', 'run'))
    print(f'{asked} answers in modes of slots, of {chosen.count} scripts, {differing} different')
    return differing + missed + (not asked)


def is_noticed(chosen, place):
    """Whether the model with a fault says otherwise in one of two modes that must not differ."""
    fault = slots_faults.pair_faults(session)[place]
    for number in range(chosen.count):
        asked = questions(chosen.seed, number)
        with driving.broken(fault):
            if any(different(question, pair, question.said_by_model(pair.slots), question.said_by_model(pair.plain)) is not None
                   for question in asked for pair in PAIRS):
                return True
    return False


def compare_broken(chosen, pool):
    """How many faults of the model are not noticed."""
    faults = slots_faults.pair_faults(session)
    noticed = list(pool.map(is_noticed, [chosen] * len(faults), range(len(faults))))
    for fault, is_seen in zip(faults, noticed):
        print(f'{fault.name}: {"noticed" if is_seen else "NOT NOTICED"}', flush=True)
    print(f'{len(faults)} broken models, {sum(noticed)} noticed')
    return noticed.count(False) + (not faults)


def main():
    told = f'scripts ({OF_PROGRAM}, or {OF_MODEL} where the model stands for a program)'
    chosen = driving.chosen_by(driving.parser_of(__doc__, told, None, 'answer', *driving.CORES))
    if chosen.count is None:
        chosen.count = OF_PROGRAM if chosen.program else OF_MODEL
    return driving.driven(chosen, compare, compare_broken)


if __name__ == '__main__':
    sys.exit(main())
