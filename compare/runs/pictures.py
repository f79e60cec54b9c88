"""Compares the pictures of a program with the model, and reads each as XML.

    python3 compare/runs/pictures.py PROGRAM                 worked rows (picture_rows.py), and runs of 300 random scripts of both versions
    python3 compare/runs/pictures.py PROGRAM --count 1000    more of them
    python3 compare/runs/pictures.py PROGRAM --console       by the word `picture` of the console too, as text
    python3 compare/runs/pictures.py --broken                faults of the model (picture_faults.py), each of which must be noticed

Of each script the run of the first candidates is drawn, one by its choices, by its trace words, and by a witness where it is a deadlock;
the first candidates and the choices are those along the wide walk, too, with `--ends`, which the words and the witness may have beside them; and
choices and words that are wrong are refused. Without a PROGRAM the model is asked. The examples of docs/COURSE.md ("More scripts") are drawn too, and
are the files that stand in examples/; `--write` writes these by the model. The status is 0 where nothing differs, all drawings are well
formed, and all was met that must be.
"""

import os
import sys
import tempfile
import xml.etree.ElementTree as tree
from collections import Counter
from pathlib import Path
from random import Random
from typing import NamedTuple, Optional

sys.path.insert(0, os.path.dirname(os.path.dirname(os.path.abspath(__file__))))

from cases.piece_cases import script_of
from cases.reread_cases import report_asked
from faults import picture_faults
from model import picture_model
from model.debugger import RENDEZVOUS, Result, enabled_steps, first_world, next_world, outcome, step_text
from model.files import held
from model.language import read_script
from model.picture_model import svg_of, text_of, walk
from model.remembered import steps_remembered
from model.run_words import BadChoices, follower
from model.walks import Run, ending, listed, taken
from places import EXAMPLES
from rows.picture_rows import ROWS
from runs import driving
from started.programs import run_at_once

SVG = '{http://www.w3.org/2000/svg}'
ELEMENTS = {SVG + name for name in ('svg', 'title', 'style', 'defs', 'marker', 'path', 'rect', 'text', 'line', 'g')}
# The scripts of docs/COURSE.md ("More scripts") whose pictures stand in examples/, each with its mode and the choices of the run, or None for the first.
DRAWN = (('race', RENDEZVOUS, None), ('first_message', RENDEZVOUS, None), ('head_to_head', RENDEZVOUS, None), ('kept_order', RENDEZVOUS, None),
         ('skipped_barrier', RENDEZVOUS, None), ('lost_request', RENDEZVOUS, None), ('swapped_tags', RENDEZVOUS, None),
         ('stolen_message', RENDEZVOUS, None), ('overtaking', RENDEZVOUS, None), ('trap', RENDEZVOUS, None), ('waitany', RENDEZVOUS, None),
         ('loop', RENDEZVOUS, None), ('missing_sender', RENDEZVOUS, None),
         ('one_in_seven', RENDEZVOUS, None), ('two_receives', RENDEZVOUS, None), ('waited_twice', RENDEZVOUS, None), ('wrong_handle', RENDEZVOUS, None))
CHUNK, MOST_FUEL, MANY = 10, 400, 200
MUST_MEET = ('first candidates', 'choices', 'words', 'witness', 'done', 'deadlock', 'trap', 'leftovers', 'cut', 'buffered', 'slots', 'a release',
             'to oneself', 'to the left', 'a free send', 'a free receive', 'a waitany', 'no such choices', 'no such words', 'no step', 'bad words',
             'first candidates along the wide walk', 'choices along the wide walk', 'words beside --ends', 'a witness beside --ends',
             'other first candidates than along decisions', 'choices of the wide walk alone', 'a plain drawing', 'a large drawing', 'a print', 'a trap at its row')


class Asked(NamedTuple):
    """A picture that is asked for: a script, a mode, how the run is told (its kind and text), fuel, and the steps of that run, or what is said;
    and whether `--ends` stands there, so that choices and first candidates are those along the wide walk."""
    script: bytes
    mode: str
    kind: str
    told: Optional[bytes]
    fuel: int
    steps: Optional[tuple]
    refusal: bytes = b''
    ends: bool = False
    look: str = ''

    def words(self, folder):
        """The words that ask a program, with files in a folder."""
        yield from ('picture', held(folder, 'script.mpd', self.script), '--mode', self.mode, '--fuel', str(self.fuel), *['--ends'] * self.ends, *[f'--{self.look}'] * bool(self.look))
        if self.kind == 'choices':
            yield from ('--choices', self.told.decode())
        elif self.kind in ('words', 'witness'):
            yield from (f'--{self.kind}', held(folder, self.kind, self.told))

    def walked(self):
        return walk(read_script(self.script), self.mode, self.steps)

    def wanted(self):
        """What must be answered."""
        if self.steps is None:
            return Result(b'', b'mpdbg: ' + self.refusal + b'\n', 2)
        return Result(svg_of(self.walked(), self.look).encode(), b'', 0)


# ---- what is asked

def a_run(random, script, mode, fuel, ends):
    """A random run: its choices, its steps, and how it ends."""
    run, followed = Run(first_world(script, mode), fuel), follower(ends)
    while True:
        run, decided = followed(run)
        ended = ending(decided, run.fuel)
        if ended is not None:
            return run.choices, listed(run.steps), ended
        place = random.randrange(len(decided.steps))
        run = taken(run, decided.steps[place], place)


def a_walk(random, script, mode, most):
    """Steps that are enabled one after another, in any order."""
    world, steps = first_world(script, mode), []
    while len(steps) < most and (enabled := enabled_steps(world)):
        steps.append(random.choice(enabled))
        world = next_world(world, steps[-1])
    return tuple(steps)


def lines(steps):
    return ''.join(f'{step_text(step)}\n' for step in steps).encode()


def witness_text(steps, ended):
    """A deadlock as a witness of a report."""
    return f'leaf 0 [] {ended}\nwitness 0: {", ".join(map(step_text, steps))}\n'.encode()


def questions(seed, number):
    """What is asked of a script."""
    case = report_asked(seed, number)
    script = None if case is None else script_of(case)
    if script is None:
        return
    random, mode = Random(f'{seed} {number} picture'), case.asked.mode or RENDEZVOUS
    fuel = random.choice([MOST_FUEL, MOST_FUEL, random.randrange(1, 40)])
    for ends in (False, True):
        yield Asked(case.script, mode, 'first candidates', None, fuel, tuple(picture_model.first_run(script, mode, fuel, ends)), ends=ends)
        choices, steps, _ = a_run(random, script, mode, fuel, ends)
        told = ' '.join(map(str, choices)).encode()
        yield Asked(case.script, mode, 'choices', told, fuel, tuple(steps), ends=ends)
        yield Asked(case.script, mode, 'choices', (told + b' 7').strip(), fuel, None, b'bad choices at %d' % len(choices), ends)
    walked = a_walk(random, script, mode, random.randrange(60))
    yield Asked(case.script, mode, 'words', lines(walked), fuel, walked, ends=random.random() < 0.3, look=random.choice(('', '', 'plain', 'large')))
    yield Asked(case.script, mode, 'words', lines(walked) + random.choice([b'next\n', b'\n', b'local\n', b'back\n']), fuel, None,
                b'words refused at line %d' % (len(walked) + 1))
    wrong = lines(walked) + b'match 15.9 15.9\n'
    yield Asked(case.script, mode, 'words', wrong, fuel, None, b'words refused at line %d' % (len(walked) + 1))
    yield Asked(case.script, mode, 'words', wrong + b'x\n', fuel, None, b'words refused at line %d' % (len(walked) + 2))


# ---- what is said

def said(chosen, asked):
    """What the program says, or else the model."""
    if chosen.program is None:
        return asked.wanted()
    with tempfile.TemporaryDirectory(prefix='pictures-') as folder:
        return run_at_once(chosen.program, b'', chosen.seconds, words=tuple(asked.words(folder)))


def said_by_console(chosen, asked):
    """What the console says to `picture` behind the steps of a run; the model says it where there is no program."""
    if chosen.program is None:
        return text_of(asked.walked()).encode()
    with tempfile.TemporaryDirectory(prefix='pictures-') as folder:
        words = ('debug', held(folder, 'script.mpd', asked.script), '--mode', asked.mode)
        return run_at_once(chosen.program, lines(asked.steps) + b'picture\n', chosen.seconds, words=words).output


def wrong_form(text):
    """What is wrong with a drawing as XML; None where nothing is."""
    try:
        root = tree.fromstring(text)
    except tree.ParseError as why:
        return f'no XML: {why}'
    for element in root.iter():
        if element.tag not in ELEMENTS:
            return f'an element {element.tag}'
        if any('href' in name or name.startswith('on') for name in element.attrib):
            return f'a reference or a script: {element.attrib}'
        if element.tag == SVG + 'g' and 'transform' not in element.attrib and (element[0].tag != SVG + 'title' or not element[0].text):
            return 'a group without a title'
    return None if root[0].tag == SVG + 'title' else 'no title'


def wide(text):
    """A line of a picture as text that is too wide; None where none is."""
    return next((line for line in text.decode().split('\n') if len(line) > 80), None)


def met(asked, world, glyphs):
    """What a program may draw wrongly."""
    yield asked.kind
    yield from [f'a {asked.look} drawing'] * bool(asked.look)
    yield from met_along(asked) if asked.ends else ()
    how = 'cut' if enabled_steps(world) else outcome(world).split()[0]
    yield how
    yield from ['buffered'] * (asked.mode == 'buffered') + ['slots'] * asked.mode.startswith('slots')
    pairs = [glyph for glyph in glyphs if glyph.kind == picture_model.PAIRED]
    yield from ['to oneself'] * any(glyph.call.rank == glyph.other.rank for glyph in pairs)
    yield from ['to the left'] * any(glyph.call.rank > glyph.other.rank for glyph in pairs)
    notes = [glyph.note for glyph in glyphs if glyph.kind == picture_model.NOTED]
    yield from ['a print'] * any(note.trap is None for note in notes)
    yield from ['a trap at its row'] * any(note.trap is not None for note in notes)
    yield from ['a release'] * any(glyph.kind == picture_model.RELEASED for glyph in glyphs)
    for rank in world.ranks:
        yield from ['a free send'] * any(rank.calls[number].kind == 'send' for number in rank.free)
        yield from ['a free receive'] * any(rank.calls[number].kind == 'recv' for number in rank.free)
        yield from ['a waitany'] * any(call.kind == 'waitany' for call in rank.calls)


def met_along(asked):
    """The same of the wide walk."""
    if asked.kind in ('words', 'witness'):
        yield f'{"a " * (asked.kind == "witness")}{asked.kind} beside --ends'
        return
    yield f'{asked.kind} along the wide walk'
    script = read_script(asked.script)
    if asked.kind == 'first candidates':
        yield from ['other first candidates than along decisions'] * (picture_model.first_run(script, asked.mode, asked.fuel) != asked.steps)
        return
    try:
        picture_model.steps_of(script, asked.mode, tuple(map(int, asked.told.split())), asked.fuel)
    except BadChoices:
        yield 'choices of the wide walk alone'


def refusal_met(asked):
    yield {'choices': 'no such choices', 'words': 'no such words'}[asked.kind]
    if asked.kind == 'words':
        yield 'no step' if asked.told.endswith(b'15.9\n') else 'bad words'


def with_witness(asked):
    """A deadlock is asked for by its witness too."""
    world = asked.walked().world
    if asked.kind != 'choices' or enabled_steps(world) or not outcome(world).startswith('deadlock'):
        return ()
    return (asked._replace(kind='witness', told=witness_text(asked.steps, outcome(world))),)


def compare_one(chosen, asked, seen):
    """What a program draws otherwise than it must; None where it doesn't."""
    result, wanted = said(chosen, asked), asked.wanted()
    if asked.steps is None:
        seen.update(refusal_met(asked))
    else:
        walked = asked.walked()
        seen.update(met(asked, walked.world, picture_model.glyphs_of(walked)))
    if (result.output, result.status) != (wanted.output, wanted.status) or result.errors.splitlines()[:1] != wanted.errors.splitlines()[:1]:
        return f'{result.errors or result.output[:200]} in place of {wanted.errors or wanted.output[:200]}'
    if asked.steps is None:
        return None
    text = text_of(asked.walked()).encode()
    if chosen.console and not said_by_console(chosen, asked).endswith(text):
        return 'the text is another'
    return wrong_form(result.output) or wide(text)


def compare_chunk(chosen, numbers):
    """What differs of the pictures of some scripts, how many were asked for, and what was met."""
    found, seen, count = [], Counter(), 0
    for number in numbers:
        with steps_remembered():
            for first in questions(chosen.seed, number):
                for asked in (first, *(with_witness(first) if first.steps is not None else ())):
                    count += 1
                    how = compare_one(chosen, asked, seen)
                    found += [] if how is None else [(number, asked, how)]
    return found, seen, count


def compare(chosen, pool):
    """How many pictures of random scripts are wrong, or how much was not met."""
    differing, seen, count = 0, Counter(), 0
    for found, seen_there, count_there in driving.by_chunks(pool, compare_chunk, chosen, CHUNK):
        for number, asked, how in found:
            differing += 1
            print(f'script {number}, {asked.kind}, {asked.mode}: {how}', flush=True)
        seen += seen_there
        count += count_there
    missed = driving.unmet(MUST_MEET, seen, chosen.count >= MANY)
    print(f'{count} pictures, {differing} wrong')
    return differing + missed + (not count)


# ---- rows and examples

def row_of(row):
    """A worked row as a picture that is asked for."""
    choices = None if row.choices is None else tuple(map(int, row.choices.split()))
    steps = picture_model.steps_of(read_script(row.script), row.mode, choices, row.fuel, row.ends)
    told = None if choices is None else row.choices.encode()
    return Asked(row.script, row.mode, 'first candidates' if choices is None else 'choices', told, row.fuel, tuple(steps), ends=row.ends, look=row.look)


def compare_rows(chosen):
    """How many worked rows are drawn otherwise."""
    wrong = 0
    for row in ROWS:
        asked = row_of(row)
        drawn = said(chosen, asked).output.decode().split('\n')
        missing = [line for line in row.lines if line not in drawn]
        missing += [f'nothing of {words}' for words in row.without if any(words in line for line in drawn)]
        if row.text is not None and text_of(asked.walked()) != row.text:
            missing.append('the text')
        wrong += bool(missing)
        for line in missing:
            print(f'not drawn: {line}')
    print(f'{len(ROWS)} rows, {wrong} wrong')
    return wrong


def example(name, mode, choices):
    """An example as a picture that is asked for."""
    script = Path(EXAMPLES, f'{name}.mpd').read_bytes()
    steps = picture_model.steps_of(read_script(script), mode, choices, MOST_FUEL)
    kind = 'first candidates' if choices is None else 'choices'
    return Asked(script, mode, kind, None if choices is None else ' '.join(map(str, choices)).encode(), MOST_FUEL, tuple(steps))


def compare_examples(chosen):
    """How many of the drawings in examples/ are not what is drawn."""
    wrong = 0
    for name, mode, choices in DRAWN:
        asked, path = example(name, mode, choices), Path(EXAMPLES, f'{name}.svg')
        if chosen.write:
            path.write_bytes(asked.wanted().output)
        if not path.exists() or path.read_bytes() != said(chosen, asked).output:
            wrong += 1
            print(f'{path} is another drawing')
    print(f'{len(DRAWN)} examples, {wrong} wrong')
    return wrong


# ---- faults

def shows(fault, asked_again, drawn, text):
    """Whether the model with a fault draws otherwise, or takes another run."""
    with driving.broken(fault):
        try:
            asked = asked_again()
            return asked.wanted().output != drawn or text_of(asked.walked()).encode() != text
        except (KeyError, StopIteration, AttributeError, IndexError, BadChoices):
            return True


def compare_broken(chosen):
    """How many faults of the model are not noticed."""
    left = picture_faults.breakages()
    count = len(left)
    for asked_again in [lambda row=row: row_of(row) for row in ROWS] + [lambda drawn=drawn: example(*drawn) for drawn in DRAWN]:
        asked = asked_again()
        drawn, text = said(chosen, asked).output, text_of(asked.walked()).encode()
        left = [fault for fault in left if not shows(fault, asked_again, drawn, text)]
    return driving.count_left([fault.name for fault in left], count)


def main():
    flags = (('--console', 'compare the text that the console writes too'), ('--write', 'write the drawings of examples/ by the model'))
    chosen = driving.chosen_by(driving.parser_of(__doc__, 'scripts (300)', 300, 'answer', flags=flags))
    return driving.driven(chosen, lambda chosen, pool: compare_rows(chosen) + compare_examples(chosen) + compare(chosen, pool),
                          lambda chosen, _: compare_broken(chosen))


if __name__ == '__main__':
    sys.exit(main())
