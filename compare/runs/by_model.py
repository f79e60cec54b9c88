"""Answers as the program does, by the model of its rules: to look at one case.

    python3 compare/runs/by_model.py < INPUT                                 an input, as the program has it without words
    python3 compare/runs/by_model.py trace FILE --mode M < WORDS             trace words, as `trace` does
    python3 compare/runs/by_model.py check FILE [--runs N] ..                a report, with all options of `check` but `--sample` (sampled.py)
    python3 compare/runs/by_model.py verify FILE REPORT [--leaf N]           whether a witness is accepted
    python3 compare/runs/by_model.py words FILE --choices "0 1 0" [--ends]   the run with some choices
    python3 compare/runs/by_model.py run FILE --mode M < REQUESTS            a session
    python3 compare/runs/by_model.py debug FILE [--witness WITNESS]          the console, at a terminal and without one
    python3 compare/runs/by_model.py picture FILE [--choices C] [--text]     the picture of a run as SVG, or as text; with `--ends` too

`--mode M` may stand behind each of these words, and `--fuel N` behind `check`, `words` and `picture`. With `--version 3` before all words the
model reads scripts of version 3 too, which the program doesn't read yet.
"""

import argparse
import os
import sys

sys.path.insert(0, os.path.dirname(os.path.dirname(os.path.abspath(__file__))))

from model import console, explorer, outcomes, picture_model, session, witness
from model.debugger import BAD_FILE, BAD_MODE, RENDEZVOUS, Result, answer, answer_file, file_content
from model.explorer import MOST_FUEL, USUAL, number_between
from model.language import read_script, read_up_to
from model.modes import is_mode
from model.run_words import WRONG_WORDS, Words


def parser_of(mode=RENDEZVOUS):
    """What reads words behind a command: a file, and a mode."""
    parser = argparse.ArgumentParser(description=__doc__, formatter_class=argparse.RawDescriptionHelpFormatter)
    parser.add_argument('file', metavar='FILE')
    parser.add_argument('--mode', default=mode, metavar='M')
    return parser


def trace(words):
    """What `trace` gives."""
    chosen = parser_of().parse_args(words)
    if not is_mode(chosen.mode):
        return BAD_MODE
    script = file_content(chosen.file)
    return BAD_FILE if script is None else answer_file(script, sys.stdin.buffer.read(), chosen.mode)


def check(words):
    """What `check` gives."""
    if '--outcomes' in words:
        file, asked = outcomes.asked_by(words)
        return asked._replace(script=file_content(file)).wanted()
    file, asked = explorer.asked_by(words)
    return explorer.answer(file_content(file), asked)


def verify(words):
    """What `verify` gives."""
    file, report, mode, leaf = witness.asked_by(words)
    return witness.Verification(file_content(file), file_content(report), mode, leaf=leaf).wanted()


def words_of(words):
    """What `words` gives."""
    parser = parser_of(None)
    parser.add_argument('--choices', required=True)
    parser.add_argument('--ends', action='store_true')
    parser.add_argument('--fuel', type=number_between(1, MOST_FUEL), metavar='N')
    chosen = parser.parse_args(words)
    result = Words(file_content(chosen.file), chosen.choices, chosen.mode, chosen.fuel, ends=chosen.ends).wanted()
    if result == WRONG_WORDS:
        parser.error(f'{chosen.choices!r} are no choices')
    return result


def run(words):
    """What `run` gives."""
    parser = parser_of()
    parser.add_argument('--wide', action='store_true')
    chosen = parser.parse_args(words)
    return session.serve(file_content(chosen.file), sys.stdin.buffer.read(), chosen.mode, chosen.wide)


def debug(words):
    """What `debug` gives; at a terminal it has been said by then."""
    parser = parser_of()
    parser.add_argument('--choices')
    parser.add_argument('--ends', action='store_true')
    parser.add_argument('--witness', metavar='WITNESS')
    chosen = parser.parse_args(words)
    run = None if chosen.choices is None else console.NamedRun(chosen.choices, chosen.ends)
    found = console.begun(file_content(chosen.file), chosen.mode, console.witness_text(chosen.witness), run)
    if not isinstance(found, console.Console):
        return found
    if sys.stdin.isatty():
        console.talk(found)
        return Result(b'', b'', 0)
    return console.answered(found, sys.stdin.buffer.read())


def picture(words):
    """What `picture` draws of a run, or its text."""
    parser = parser_of()
    parser.add_argument('--choices')
    parser.add_argument('--ends', action='store_true')
    parser.add_argument('--fuel', type=int, default=USUAL.fuel)
    parser.add_argument('--text', action='store_true')
    chosen = parser.parse_args(words)
    choices = None if chosen.choices is None else tuple(map(int, chosen.choices.split()))
    script = read_script(file_content(chosen.file))
    walked = picture_model.walk(script, chosen.mode, picture_model.steps_of(script, chosen.mode, choices, chosen.fuel, chosen.ends))
    drawn = picture_model.text_of(walked) if chosen.text else picture_model.svg_of(walked)
    return Result(drawn.encode(), b'', 0)


COMMANDS = {'trace': trace, 'check': check, 'verify': verify, 'words': words_of, 'run': run, 'debug': debug, 'picture': picture}


def main():
    given = sys.argv[1:]
    if given[:1] == ['--version']:
        read_up_to(int(given[1]))
        given = given[2:]
    command, *words = given or [None]
    if command is not None and command not in COMMANDS:
        sys.exit(__doc__)
    result = answer(sys.stdin.buffer.read()) if command is None else COMMANDS[command](words)
    sys.stdout.buffer.write(result.output)
    sys.stdout.buffer.flush()
    sys.stderr.buffer.write(result.errors)
    return result.status


if __name__ == '__main__':
    sys.exit(main())
