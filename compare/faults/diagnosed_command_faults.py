"""Faults that are put on purpose into the commands that the model of `diagnose` names, which are some of those of diagnosed_faults.py.

Commands of another run, or without what they need; names of files that a shell reads otherwise, and quotes where none are wanted; pictures that are
written to one file.
"""

import re

from faults.policy_faults import Breakage
from model import diagnosed
from model.debugger import RENDEZVOUS
from model.diagnosed import explained_of

SOUND = {name: getattr(diagnosed, name) for name in ('commands', 'file_of', 'script_of', 'word_for', 'pictures', 'bug_lines')}


def named(part, owner, attribute, replacements):
    """Faults of one part of what is told."""
    return [Breakage(f'{part}: {name}', owner, attribute, replacement) for name, replacement in replacements]


def commanded(change):
    """What writes each command otherwise."""
    return lambda asked, leaf, picture: [change(line) for line in SOUND['commands'](asked, leaf, picture)]


def with_commas(line):
    """A command with commas between its choices."""
    begins, between, choices = line.partition(" --choices '")
    choices, quote, ends = choices.partition("'")
    return f"{begins}{between}{choices.replace(' ', ',')}{quote}{ends}"


def of_two_runs(asked, leaf, picture):
    """The commands, of which the second has another run."""
    return [*SOUND['commands'](asked, leaf, picture)[:1], *SOUND['commands'](asked, leaf._replace(choices=(*leaf.choices, 0)), picture)[1:]]


def mode_first(asked):
    """What has the mode in front of the file."""
    there = SOUND['script_of'](asked)
    return ' '.join([*SOUND['file_of'](asked).removeprefix(there).split(), there])


def ranks_last(asked):
    """What has how many ranks there are behind the mode."""
    words = SOUND['file_of'](asked._replace(ranks=None))
    return words if asked.ranks is None else f'{words} --ranks {asked.ranks}'


def of_first(asked, ends, found, picture):
    """What is written with the commands of the first end, in the place of that which is explained."""
    shown = SOUND['commands'](asked, explained_of(ends).leaf, picture)
    return [*SOUND['bug_lines'](asked, ends, found, picture)[:-len(shown)], *SOUND['commands'](asked, ends[0].leaf, picture)]


def word_by(plain, quoted=lambda path: f"'{path}'"):
    """What writes a name as it stands where a pattern fits it, and else in quotes in some way."""
    def word_for(name):
        path = f'./{name}' if name.startswith('-') else name
        return path if re.fullmatch(plain, name, re.ASCII) else quoted(path)
    return word_for


def escaped(path, quote):
    """What stands in quotes, each quote in it in another way."""
    return "'" + path.replace("'", quote) + "'"


def as_it_stands(byte):
    """What takes a byte for one that needs no quotes."""
    return lambda name: name if diagnosed.PLAIN.fullmatch(name.replace(byte, '')) else SOUND['word_for'](name)


def in_quotes(byte):
    """What takes a byte for one that needs quotes."""
    return lambda name: f"'{name}'" if byte in name and SOUND['word_for'](name) == name else SOUND['word_for'](name)


def word_faults():
    """Those of the word for a file."""
    plain, here = diagnosed.PLAIN.pattern, SOUND['word_for']
    words = [
        ('as it was given', lambda name: name), ('in quotes always', lambda name: here(f'{name} ').replace(" '", "'")),
        ('no ./ in front of -', lambda name: here(f'x{name}').replace('x', '', 1)),
        ('./ in front always', lambda name: here(name if name.startswith('-') else f'./{name}')),
        ('./ in front of the quotes', lambda name: f'./{here(f"x{name}").replace("x", "", 1)}' if name.startswith('-') else here(name)),
        ('quotes as they are', word_by(plain, lambda path: escaped(path, "'"))),
        ('quotes are left out', word_by(plain, lambda path: escaped(path, ''))),
        ('two quotes for one', word_by(plain, lambda path: escaped(path, "''"))),
        ('backslashes before quotes', word_by(plain, lambda path: escaped(path, "\\'"))),
        ('the first quote alone', word_by(plain, lambda path: "'" + path.replace("'", "'\\''", 1) + "'")),
        ('in other quotes', lambda name: here(name) if re.fullmatch(plain, name) else f'"{name}"'),
        ('by the first byte', lambda name: here(name) if re.match('[A-Za-z0-9_./+,:@%-]', name) is None else name)]
    others = [(f'as it stands with {byte!r}', as_it_stands(byte)) for byte in " ';$~=("]
    lacking = [(f'in quotes with {byte!r}', in_quotes(byte)) for byte in 'a._/+,:@%-09AZz']
    return named('word', diagnosed, 'word_for', [*words, *others, *lacking])


def picture_faults():
    """Those of the files of pictures."""
    files = (
        ('no numbers', lambda kind, count: [f'{kind}.svg'] * count),
        ('always a number', lambda kind, count: [f'{kind}-{place + 1}.svg' for place in range(count)]),
        ('from 0', lambda kind, count: [name.replace(f'-{place + 1}', f'-{place}') for place, name in enumerate(SOUND['pictures'](kind, count))]),
        ('none for the first', lambda kind, count: [f'{kind}.svg', *SOUND['pictures'](kind, count)][:1] + SOUND['pictures'](kind, count)[1:]),
        ('run though it was drawn', lambda kind, count: SOUND['pictures']('run', count)),
        ('from the last to the first', lambda kind, count: SOUND['pictures'](kind, count)[::-1]))
    return named('pictures', diagnosed, 'pictures', files)


def in_mode(asked, mode):
    """The file, with a mode where there is one."""
    return SOUND['script_of'](asked) if mode is None else f'{SOUND["script_of"](asked)} --mode {mode}'


def command_faults():
    """Those of commands."""
    lines = (
        ('without --ends', lambda line: line.replace(' --ends', '')), ('no choices', lambda line: line.partition(' --choices')[0]),
        ('choices without quotes', lambda line: re.sub("--choices '([0-9 ]*)'", r'--choices \1', line)), ('choices with commas', with_commas),
        ('no picture is kept', lambda line: line.partition(' > ')[0]), ('no blanks in front', str.strip),
        ('no ./ in front', lambda line: line.replace('./', '')))
    both = (
        ('the picture first', lambda *told: SOUND['commands'](*told)[::-1]),
        ('no picture', lambda *told: SOUND['commands'](*told)[:1]),
        ('not that a run is too long', lambda *told: [line for line in SOUND['commands'](*told) if ' too long ' not in line]),
        ('that a run is too long without its steps', lambda *told: [re.sub('run of [0-9]+ steps', 'run', line) for line in SOUND['commands'](*told)]),
        ('the picture of another run', of_two_runs),
        ('of all choices but the last', lambda asked, leaf, picture: SOUND['commands'](asked, leaf._replace(choices=leaf.choices[:-1]), picture)))
    files = (
        ('without a mode', SOUND['script_of']), ('with a mode that is usual', lambda asked: in_mode(asked, asked.mode or RENDEZVOUS)),
        ('with a mode that is usual, where it is given', lambda asked: in_mode(asked, asked.mode)),
        ('the mode as it was given', lambda asked: in_mode(asked, None if asked.mode == RENDEZVOUS else asked.mode)),
        ('the mode first', mode_first), ('how many ranks there are comes last', ranks_last),
        ('another file', lambda asked: SOUND['file_of'](asked._replace(file='FILE'))))
    scripts = (
        ('without its ranks', lambda asked: SOUND['script_of'](asked._replace(ranks=None))),
        ('with a rank more', lambda asked: SOUND['script_of'](asked._replace(ranks=asked.ranks and asked.ranks + 1))),
        ('with ranks though none are asked for', lambda asked: SOUND['script_of'](asked._replace(ranks=asked.ranks or 2))))
    pictured = (('a picture of each run', lambda leaf: True), ('none of a run of 1,000 steps', lambda leaf: len(leaf.steps) < 1000),
                ('one of a run of 1,001 steps', lambda leaf: len(leaf.steps) <= 1001))
    return [*named('commands', diagnosed, 'is_pictured', pictured), *named('commands', diagnosed, 'commands', [(name, commanded(change)) for name, change in lines]),
            *named('commands', diagnosed, 'commands', both), *named('commands', diagnosed, 'file_of', files),
            *named('commands', diagnosed, 'script_of', scripts), *word_faults(), *picture_faults(),
            Breakage('commands: of another end', diagnosed, 'bug_lines', of_first)]
