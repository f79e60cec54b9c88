"""Worked rows: what the model must answer, worked out by hand from the rules.

    python3 compare/runs/worked.py

Rows of states behind some steps stand in compare/rows/worked_states.py. Traces whose every byte was worked out stand in
compare/rows/worked_traces.py, texts that print, trap or are refused in compare/rows/worked_texts.py; compare/runs/statuses.py has the built
program answer all these too. Decisions, breakpoints and runs stand in compare/rows/worked_runs.py, reports and witnesses in
compare/rows/worked_explorer.py, reports by pieces in compare/rows/worked_pieces.py, those that list ends or group them, or runs that are drawn,
and runs by their choices, in compare/rows/worked_ends.py, those that tell how the runs of a script end in
compare/rows/worked_outcomes.py and compare/rows/worked_decided.py, those that say whether one can hang, and how, in
compare/rows/worked_diagnosed.py, explanations in compare/rows/worked_explained.py, dialogues of a session in
compare/rows/worked_sessions.py, rows of all these kinds for version 2 in compare/rows/worked_waitany.py, and for the modes `slots:K` in
compare/rows/worked_slots.py, and wide walks in compare/rows/worked_wide.py. Dialogues of the console stand in compare/rows/console_worked.py,
marks in compare/rows/worked_marks.py. Rows of version 3, which the program doesn't read yet, stand in compare/rows/worked_version3.py and
compare/rows/worked_version3_calls.py: for them the model reads it. The lessons of docs/COURSE.md ("More scripts") are rows too,
with their answers in files. The status is 0 where the model answers all of them so.
"""

import os
import sys
from unittest import mock

sys.path.insert(0, os.path.dirname(os.path.dirname(os.path.abspath(__file__))))

from model import console, debugger, explorer
from model.debugger import Result, answer, answer_file
from model.language import read_script, reading_up_to
from model.policy_words import Driven
from rows import (console_worked, worked_decided, worked_diagnosed, worked_ends, worked_explained, worked_explorer, worked_marks, worked_outcomes,
                  worked_pieces, worked_sessions, worked_slots, worked_version3, worked_version3_calls, worked_waitany, worked_wide)
from rows.examples import checks, consoles, lessons, open_example
from rows.worked_runs import RUNS
from rows.worked_states import ALL, REFUSED, asked_words, row_problem
from rows.worked_texts import all_inputs, wanted_result
from rows.worked_traces import TRACES


def model_problem(row):
    """What the model answers otherwise than a row wants; None where nothing is."""
    return row_problem(row, answer_file(row.script.encode(), asked_words(row), row.mode))


def trace_problem(row):
    """What the model answers otherwise than a trace says; None where nothing is."""
    said = answer(row.input) if row.mode is None else answer_file(row.file, row.asked, row.mode)
    return None if said == Result(row.wanted, b'', 0) else f'{said}'


def input_problem(row):
    """What the model gives otherwise than a row of texts says; None where nothing is."""
    said = answer(row.text.encode())
    return None if said == wanted_result(row) else f'{said}'


def run_problem(row):
    """What is answered otherwise than a row of runs wants; None where nothing is."""
    limit = debugger.MOST_STEPS if row.limit is None else row.limit
    with mock.patch.object(debugger, 'MOST_STEPS', limit):
        driven = Driven(read_script(row.script.encode()), row.mode)
        for word, wanted in (part.split(': ') for part in row.words.split('; ')):
            if (said := driven.answer(word.encode())) != wanted:
                return f'{word} was answered {said}, and not {wanted}'
    return None


def refusal_problem(statement, fault, place):
    head = b'mpd 1; ranks 1; var x; req r;\n'
    result = answer_file(head + statement.encode(), b'')
    wanted = f'mpdbg: script refused {fault} '
    said = result.errors.decode()
    if result.status == 2 and said.startswith(wanted) and f' at {len(head) + place} ' in said:
        return None
    return said


def lesson_problem(lesson):
    result = answer_file(open_example(f'{lesson.name}.mpd'), open_example(f'{lesson.name}.words'), lesson.mode)
    return None if (result.output, result.status) == (open_example(lesson.answers), 0) else f'{result}'


def typed_problem(typed):
    result = console.debug(open_example(f'{typed.name}.mpd'), typed.data, typed.mode)
    return None if result == typed.wanted() else f'{result}'


def check_problem(checked):
    _, asked = explorer.asked_by([checked.script, *checked.options])
    result = explorer.answer(open_example(f'{checked.name}.mpd'), asked)
    return None if result == checked.wanted else f'{result}'


def main():
    problems = [(f'{row.script} ({row.mode})', model_problem(row)) for row in ALL + worked_waitany.ROWS + worked_slots.ROWS]
    problems += [(row.what, trace_problem(row)) for row in TRACES + worked_slots.TRACES]
    problems += [(row.what, input_problem(row)) for row in [*all_inputs(), *worked_waitany.all_inputs()]]
    problems += [(f'{row.script} ({row.mode}): {row.words}', run_problem(row)) for row in RUNS + worked_waitany.RUNS + worked_slots.RUNS]
    problems += worked_explorer.problems()
    for rows in (worked_waitany, worked_slots):
        problems += worked_explorer.problems(rows)
        problems += rows.problems()
        problems += worked_sessions.dialogue_problems(rows.DIALOGUES)
    problems += worked_pieces.problems()
    problems += worked_ends.problems()
    problems += worked_outcomes.problems()
    problems += worked_decided.problems()
    problems += worked_diagnosed.problems()
    problems += worked_wide.problems()
    problems += list(worked_explained.problems())
    problems += list(worked_marks.problems())
    problems += worked_sessions.problems()
    problems += console_worked.problems()
    with reading_up_to(3):
        problems += worked_version3.problems(worked_version3.ALL + worked_version3_calls.ALL)
    problems += [(statement, refusal_problem(statement, fault, place)) for statement, fault, place in REFUSED]
    problems += [(f'{lesson.name} ({lesson.mode})', lesson_problem(lesson)) for lesson in lessons()]
    problems += [(f'{typed.beginning}, console', typed_problem(typed)) for typed in consoles()]
    problems += [(f'{checked.name}, check {" ".join(checked.options)}', check_problem(checked)) for checked in checks()]
    wrong = [(name, problem) for name, problem in problems if problem]
    for name, problem in wrong:
        print(f'{name}: {problem}')
    print(f'{len(problems)} rows, {len(wrong)} wrong')
    return 1 if wrong or not problems else 0


if __name__ == '__main__':
    sys.exit(main())
