"""Parts of a check, each in a file, and what examples/join_parts.sh makes of them; what a terminal is told of pieces; and workers on a
small stack.

compare/runs/statuses.py runs these. What is joined from parts that were written by hand was worked out by hand too. The parts that the program
writes, joined, must be what it writes of the whole.
"""

import os
import resource
import tempfile

from model.debugger import Result
from model.files import held
from model.language import MOST_OPEN_BLOCKS, MOST_OPERATORS
from rows.examples import EXAMPLES
from rows.worked_pieces import ONE_MORE
from started.devices import Files, at_terminal, soft_limit

JOIN = os.path.join(EXAMPLES, 'join_parts.sh')
PARTS = ('leaf 0 [0] done\nleaves 1 more no\n',
         'leaf 0 [1] deadlock 0.0\nwitness 0: local 0\nleaf 1 [2 10] cut\nleaves 2 more yes\n',
         'leaf 0 [3] trap 0 assert\nleaves 1 more no\n')
WHOLE = ('leaf 0 [0] done\nleaf 1 [1] deadlock 0.0\nwitness 1: local 0\nleaf 2 [2 10] cut\nleaf 3 [3] trap 0 assert\nleaves 4 more yes\n')
# Scripts of examples/, options, and how many pieces there are.
CHECKED = (('race', '', 2), ('race', '--split 0 --witness', 1), ('race', '--split 8 --witness --mode buffered', 2), ('head_to_head', '--witness', 1),
           ('one_in_seven', '--fuel 63', 7), ('two_each', '--witness', 4), ('two_each', '--split 2 --witness', 16), ('two_each', '--split 2 --runs 3', 16),
           ('two_each', '--split 3 --fuel 30 --witness', 52))


def joined(parts, count):
    """What the script gives for parts, and for this count of them; a part that is None is missing."""
    with tempfile.TemporaryDirectory() as folder:
        for number, text in enumerate(parts):
            if text is not None:
                with open(os.path.join(folder, str(number)), 'wb') as file:
                    file.write(text)
        return Files(None).run('sh', JOIN, folder, str(count))


def join_rows(_):
    """Parts that can be joined, and parts that can't be: nothing is written then."""
    def refused(line):
        return Result(b'', f'{line}\n'.encode(), 2)

    one, two, three = (part.encode() for part in PARTS)
    yield 'three parts', joined([one, two, three], 3), Result(WHOLE.encode(), b'', 0)
    yield 'one part', joined([one], 1), Result(one, b'', 0)
    yield 'two parts, none with more', joined([one, three], 2), Result(b'leaf 0 [0] done\nleaf 1 [3] trap 0 assert\nleaves 2 more no\n', b'', 0)
    eleven = ''.join(f'leaf {number} [0] done\n' for number in range(11)) + 'leaves 11 more no\n'
    yield 'eleven parts', joined([one] * 11, 11), Result(eleven.encode(), b'', 0)
    yield 'a part less', joined([one, two, three], 4), refused('part 3 of 4 is missing')
    yield 'a part that is missing', joined([one, None, three], 3), refused('part 1 of 3 is missing')
    yield 'a part more', joined([one, two, three], 2), refused('part 2 of 2 is one too many')
    yield 'a part that is empty', joined([one, b'', three], 3), refused('part 1 of 3 has no last line')
    yield 'a part without its last line', joined([one, two[:two.index(b'leaves')], three], 3), refused('part 1 of 3 has no last line')
    yield 'a part cut off in its last line', joined([one, two, three[:-2]], 3), refused('part 2 of 3 has no last line')
    yield 'a part cut off in front', joined([one, two[two.index(b'leaf 1'):], three], 3), refused('part 1 of 3 lacks leaves')
    for words in ((), ('a',), ('a', 'two'), ('a', ''), ('a', '1', '2')):
        said = Files(None).run('sh', JOIN, *words)
        yield f'words {words}', (said.output, said.errors[:3], said.status), (b'', b'sh ', 2)


def part_rows(program):
    """The parts of all pieces, joined, are the whole report; there are as many as are told, and no more."""
    for name, options, count in CHECKED:
        words = ('check', os.path.join(EXAMPLES, f'{name}.mpd'), *options.split())
        yield f'{name} {options}, pieces', Files(None).run(program, *words, '--pieces'), Result(f'pieces {count}\n'.encode(), b'', 0)
        whole = Files(None).run(program, *words)
        parts = [Files(None).run(program, *words, '--piece', str(number)) for number in range(count)]
        yield f'{name} {options}, joined', joined([part.output for part in parts], count), whole._replace(status=0)
        yield f'{name} {options}, statuses', max(part.status for part in parts), whole.status
        behind = Files(None).run(program, *words, '--piece', str(count))
        yield f'{name} {options}, one piece more', behind, Result(b'', f'mpdbg: no piece {count} of {count}\n'.encode(), 2)


def told_rows(program):
    """At a terminal, and there alone, a check that is refused is told what there may be; of one piece a line says what wasn't tried,
    and none that it is all."""
    with tempfile.TemporaryDirectory() as folder:
        race, many = os.path.join(EXAMPLES, 'race.mpd'), held(folder, 'many.mpd', ONE_MORE.encode())
        for words, line, more in (
                ((race, '--workers', '17'), b'refused 35 bad-workers', b'  1 to 16 workers can be had (--workers)\n'),
                ((many, '--split', '5'), b'refused 31 too-many-pieces', b'  there can be 1,024; fewer choices make fewer (--split)\n'),
                ((race, '--piece', '2'), b'no piece 2 of 2', b'')):
            yield f'a terminal, {line}', at_terminal(program, 'check', *words), Result(b'', b'mpdbg: %b\n%b' % (line, more), 2)
            yield f'no terminal, {line}', Files(None).run(program, 'check', *words), Result(b'', b'mpdbg: %b\n' % line, 2)
        for words, output, told, status in (
                (('--piece', '1'), b'leaf 0 [1] done\nleaves 1 more no\n', b'', 0), (('--pieces',), b'pieces 2\n', b'', 0),
                (('--split', '0', '--piece', '0', '--runs', '1'), b'leaf 0 [0] deadlock 0.1 2.0\nleaves 1 more yes\n',
                 b'not everything was tried: 1 run was listed, and there are more (--ends, --runs)\n', 1),
                (('--split', '0', '--piece', '0', '--runs', '1', '--ends'), b'leaf 0 [0] deadlock 0.1 2.0\nleaves 1 more yes\n',
                 b'not everything was tried: 1 run was listed, and there are more (--runs, --sample)\n', 1)):
            yield f'a terminal, {words}', at_terminal(program, 'check', race, *words), Result(output, told, status)


# What workers run with, which have the deepest expressions in the deepest blocks (docs/LANGUAGE.md, "Limits"), by their forms.
STACK_KIB = 512
FORMS = (('(', ')', 1), ('-', '', 1), ('a[', ']', 1), ('(1 + ', ')', 2), ('(-a[', '])', 3))


def deepest(opening, closing, cost):
    """A race whose winner runs the deepest blocks with the deepest expression."""
    value = opening * (MOST_OPERATORS // cost) + '0' + closing * (MOST_OPERATORS // cost)
    inside = f'{"if 1 { " * (MOST_OPEN_BLOCKS - 1)}print {value};{" }" * (MOST_OPEN_BLOCKS - 1)}'
    receives = 'recv x from any tag any; ' * 2
    return f'mpd 1; ranks 3; var x; var a[1];\nif rank == 0 {{ {receives}{inside} }} else {{ send 1 to 0 tag 0; }}'.encode()


def stack_rows(program):
    """Two workers with the deepest scripts, on a stack of so many KiB."""
    with tempfile.TemporaryDirectory() as folder:
        for opening, closing, cost in FORMS:
            script = held(folder, 'deep.mpd', deepest(opening, closing, cost))
            with soft_limit(resource.RLIMIT_STACK, STACK_KIB << 10):
                result = Files(None).run(program, 'check', script, '--workers', '2')
            wanted = Result(b'leaf 0 [0 0] done\nleaf 1 [1 0] done\nleaves 2 more no\n', b'', 0)
            yield f'workers, {opening} on {STACK_KIB} KiB', result, wanted


ROWS = (join_rows, part_rows, told_rows, stack_rows)
