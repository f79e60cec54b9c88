"""Compares what a program answers with `--ranks N` with what it answers of the text that has N in the place of its number of ranks.

    python3 compare/runs/ranked.py PROGRAM                 worked rows (worked_ranks.py), and 300 random scripts of both versions, some of which are
                                                           refused, with each command; the same ones for the same seed and count
    python3 compare/runs/ranked.py PROGRAM --count 3000    more of them
    python3 compare/runs/ranked.py --broken                faults of the model (ranks_faults.py), each of which rows must show; with PROGRAM, beside it

Standard output, standard error and the status must be the same, to the byte, but for the commands that `diagnose` names, which have ` --ranks N`
where it was given. Of a script that is refused the answer must be that of the script as it stands. `diagnose --ranks N-M` must say of each number
what `diagnose` says first of that text, and `diagnose --modes N` of each mode what `diagnose --mode M` says first. The files have the same name. `serve` answers a client of a few scripts. The status is 0 where nothing
differed, and all was met that must be.
"""

import os
import re
import shlex
import sys
import tempfile
from collections import Counter

sys.path.insert(0, os.path.dirname(os.path.dirname(os.path.abspath(__file__))))

from cases import diagnosed_cases, ranks_cases
from faults import ranks_faults
from model import ranks
from model.debugger import Result
from model.diagnosed import Diagnosis
from model.files import held
from model.language import Fault, read_script
from rows import worked_ranks
from runs import driving
from runs.driving import first_different
from served.served_program import Tried
from started.programs import run_at_once

# So many scripts meet all that must be met.
MANY = 200
COMMANDS = ('trace', 'debug', 'run', 'check', 'words', 'verify', 'c', 'picture', 'diagnose')
MUST_MEET = (*COMMANDS, 'several numbers', 'several modes', 'a mode that is bad', 'a mode that is good', 'serve', 'refused', 'more ranks', 'fewer ranks', 'the same number', 'another answer', 'a hang', 'a trap', 'status 1')
# One script of so many is diagnosed for several numbers, and one of so many is served.
SEVERAL_EVERY, SERVE_EVERY = 4, 30
SERVED = b'{"cmd":"run","max":9}\n{"cmd":"state"}\n'
# What the model alone is asked.
MODEL_ROWS = worked_ranks.TEXTS + worked_ranks.WORDS + worked_ranks.SEVERAL + worked_ranks.MODES + worked_ranks.HEADINGS
# The commands that a diagnosis names.
NAMED = re.compile(rb'^(  \./mpdbg .*?) --ranks \d+', re.MULTILINE)


def words_in(folder, words):
    """Words with the files' names in their places."""
    names = {'FILE': os.path.join(folder, 'script.mpd'), 'WITNESS': os.path.join(folder, 'witness.txt')}
    return [names.get(word, word) for word in words]


def said(chosen, folder, script, question, more=()):
    """What the program answers of a script, whose file has always the same name."""
    held(folder, 'script.mpd', script)
    held(folder, 'witness.txt', question.witness)
    return run_at_once(chosen.program, question.data, chosen.seconds, words=[*words_in(folder, question.words), *more])


def without_ranks(result):
    """A diagnosis whose commands don't name how many ranks there are."""
    return result._replace(output=NAMED.sub(rb'\1', result.output))


def all_named(result, case):
    """Whether each command of a diagnosis names how many ranks there are, once."""
    commands = [line for line in result.output.split(b'\n') if line.startswith(b'  ./mpdbg ')]
    return all(re.findall(rb' --ranks (\d+)', line) == [b'%d' % case.ranks] for line in commands)


def served(chosen, script, more):
    """What a client of `serve` hears, and what `serve` says in the end but for its port."""
    class Ranked(Tried):
        """A program that is given more words."""
        def words_for(self, *given):
            return [*super().words_for(*given), *more]

    with Ranked((chosen.program,), seconds=chosen.seconds).serve(script, 1) as server:
        client = server.client()
        client.send(SERVED)
        client.shut()
        heard = client.rest()
        result = server.result_of_all()
    return heard, result._replace(output=result.output.partition(b'\n')[2])


def several_wrong(chosen, folder, case, met):
    """How several numbers of ranks are told otherwise than each by itself, or None."""
    first, last = sorted((case.ranks % 4 + 1, case.ranks % 3 + 1))
    word = f'{first}-{last}'
    numbers = ranks.numbers_in(word)
    if first == last or not all(diagnosed_cases.comes_to_few(Diagnosis('few', ranks.with_ranks(case.script, number))) for number in range(first, last + 1)):
        return None
    met['several numbers'] += 1
    question = ranks_cases.Question(('diagnose', 'FILE'))
    result = said(chosen, folder, case.script, question, ('--ranks', word))
    if result.status == 2:
        wanted = said(chosen, folder, case.script, question)
    else:
        every = range(numbers[0], numbers[1] + 1) if numbers else ()
        answers = [said(chosen, folder, ranks.with_ranks(case.script, number), question) for number in every]
        file = words_in(folder, ['FILE'])[0]
        wanted = Result(b'', b'', 0) if not answers else Result(*ranks.several(every, answers, lambda number: f'./mpdbg diagnose {file} --ranks {number}'), None)
        wanted = Result(wanted.output, b'', wanted.errors if answers else 0)
    return None if result == wanted else f'diagnose --ranks {word}: {first_different(result, wanted)}'


def modes_wrong(chosen, folder, case, met):
    """How several modes are told otherwise than each by itself, for another number of ranks or none, with `--strict` or without it, or None."""
    number = int(case.name.rpartition('-')[2])
    most, more = number % 3, ('--strict',) * (number % 2)
    ranked = ('--ranks', str(case.ranks)) if number % 5 else ()
    text = case.other if ranked else case.script
    modes = ranks.modes_up_to(most)
    if not is_refused(text) and not all(diagnosed_cases.comes_to_few(Diagnosis('few', text, mode)) for mode in modes):
        return None
    met['several modes'] += 1
    question = ranks_cases.Question(('diagnose', 'FILE'))
    result = said(chosen, folder, case.script, question, ('--modes', str(most), *ranked, *more))
    if is_refused(case.script):
        wanted = said(chosen, folder, case.script, question)
    else:
        answers = [said(chosen, folder, case.script, question, ('--mode', mode, *ranked, *more)) for mode in modes]
        told = ' '.join(['./mpdbg', 'diagnose', words_in(folder, ['FILE'])[0], *ranked])
        strict = ' --strict' * bool(more)
        output, status = ranks.in_modes(modes, answers, lambda mode: f'{told}{"" if mode == "rendezvous" else f" --mode {mode}"}{strict}')
        met.update(name for name, of_answers in (('a mode that is bad', 1), ('a mode that is good', 0)) if of_answers in {answer.status for answer in answers})
        wanted = Result(output, b'', status)
    return None if result == wanted else f'diagnose --modes {most} {ranked} {more}: {first_different(result, wanted)}'


def met_in(case, question, result, own):
    """What of a case a program may answer wrongly."""
    yield question.command
    try:
        number = read_script(case.script).ranks
    except Fault:
        yield 'refused'
        return
    yield 'more ranks' if case.ranks > number else 'fewer ranks' if case.ranks < number else 'the same number'
    if result != own:
        yield 'another answer'
    if result.status == 1:
        yield 'status 1'
    yield from (name for name, text in (('a hang', b'deadlock'), ('a trap', b' trap')) if text in result.output)


def case_wrong(chosen, case, met):
    """What is answered of a case otherwise than it must be, each with its question."""
    with tempfile.TemporaryDirectory(prefix='ranked-') as folder:
        other = case.other
        for question in case.questions:
            result, wanted = said(chosen, folder, case.script, question, ('--ranks', str(case.ranks))), said(chosen, folder, other, question)
            met.update(met_in(case, question, result, said(chosen, folder, case.script, question) if question.command == 'check' else wanted))
            if question.command == 'diagnose':
                if not all_named(result, case):
                    yield f'{shlex.join(question.words)} --ranks {case.ranks}: a command has another number of ranks, or none'
                result = without_ranks(result)
            if result != wanted:
                yield f'{shlex.join(question.words)} --ranks {case.ranks}: {first_different(result, wanted)}'
        number = int(case.name.rpartition('-')[2])
        if number % SEVERAL_EVERY == 0:
            yield from (problem for problem in (several_wrong(chosen, folder, case, met), modes_wrong(chosen, folder, case, met)) if problem is not None)
    if number % SERVE_EVERY == 0 and not is_refused(case.script):
        met['serve'] += 1
        result, wanted = (served(chosen, script, more) for script, more in ((case.script, ('--ranks', str(case.ranks))), (other, ())))
        if result != wanted:
            yield f'serve --ranks {case.ranks}: {result!r}, wanted {wanted!r}'


def is_refused(script):
    try:
        read_script(script)
    except Fault:
        return True
    return False


def compare_chunk(chosen, numbers):
    """What differs of some random scripts, and what was met."""
    found, met = [], Counter()
    for number in numbers:
        case = ranks_cases.random_case(chosen.seed, number)
        found += [(case, problem) for problem in case_wrong(chosen, case, met)]
    return found, met


def row_wrong(chosen, row):
    """What is answered of a row otherwise than was worked out, or None."""
    command, *more = [word or '' for word in row.words.split(' ')]
    with tempfile.TemporaryDirectory(prefix='ranked-') as folder:
        held(folder, 'script.mpd', row.script.format(row.own).encode())
        file = words_in(folder, ['FILE'])[0]
        result = run_at_once(chosen.program, row.data.encode(), chosen.seconds, words=[command, file, *more])
    wanted = Result(row.output.replace('FILE', file).encode(), row.errors.encode(), row.status)
    return None if result == wanted else f'{row.script.format(row.own)!r} {row.words}: {first_different(result, wanted)}'


def texts_wrong():
    """What the model makes otherwise than was worked out: texts, words of several numbers, and what is said of these."""
    for text, number, wanted in worked_ranks.TEXTS:
        made = ranks.with_ranks(text.encode(), number).decode()
        if made != wanted:
            yield f'{text!r} for {number} ranks is {made!r}, wanted {wanted!r}'
    for word, wanted in worked_ranks.WORDS:
        if ranks.numbers_in(word) != wanted:
            yield f'{word!r} names {ranks.numbers_in(word)}, wanted {wanted}'
    for told, *wanted in worked_ranks.SEVERAL:
        answers = [Result(output, b'', status) for _, output, status in told]
        said_of_all = ranks.several([number for number, _, _ in told], answers, lambda number: f'see {number}')
        if list(said_of_all) != wanted:
            yield f'{told} is told as {said_of_all}, wanted {wanted}'
    for told, *wanted in worked_ranks.MODES:
        answers = [Result(output, b'', status) for _, output, status in told]
        said_of_all = ranks.in_modes([mode for mode, _, _ in told], answers, lambda mode: f'see {mode}')
        if list(said_of_all) != wanted:
            yield f'{told} is told as {said_of_all}, wanted {wanted}'
    for most, wanted in worked_ranks.UP_TO:
        if ranks.modes_up_to(most) != wanted:
            yield f'up to {most} slots are {ranks.modes_up_to(most)}, wanted {wanted}'
    for number, wanted in worked_ranks.HEADINGS:
        if ranks.heading(number) != wanted:
            yield f'{number} is headed {ranks.heading(number)!r}, wanted {wanted!r}'


def compare(chosen, pool):
    """Compares the rows and so many scripts; gives how much differed, or was not met that must be."""
    wrong = list(texts_wrong())
    if chosen.program:
        wrong += [problem for problem in (row_wrong(chosen, row) for row in worked_ranks.ROWS) if problem is not None]
    driving.tell(wrong)
    print(f'{len(MODEL_ROWS) + len(worked_ranks.ROWS) * bool(chosen.program)} rows, {len(wrong)} wrong')
    if not chosen.program:
        return len(wrong)
    found, met = [], Counter()
    for problems, there in driving.by_chunks(pool, compare_chunk, chosen):
        found += problems
        met += there
    kept = driving.Kept('ranked-')
    for case, problem in found:
        print(f'{held(kept.folder(case.name), "script.mpd", case.script)}: {problem}')
    missed = driving.unmet(MUST_MEET, met, chosen.count >= MANY)
    print(f'{sum(met[command] for command in COMMANDS)} answers, {len(found)} different')
    return len(wrong) + len(found) + missed


def is_noticed(fault):
    """Whether a row is wrong with a fault of the model."""
    with driving.broken(fault):
        return any(texts_wrong())


def compare_broken(*_):
    """How many faults no row shows."""
    left = [fault.name for fault in ranks_faults.FAULTS if not is_noticed(fault)]
    return driving.count_left(left, len(ranks_faults.FAULTS))


def main():
    chosen = driving.chosen_by(driving.parser_of(__doc__, 'scripts', 300, answer='answer', jobs=1), 'broken')
    return driven(chosen)


def driven(chosen):
    return driving.driven(chosen, compare, compare_broken)


if __name__ == '__main__':
    sys.exit(main())
