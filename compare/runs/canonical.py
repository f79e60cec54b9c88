"""What must hold of the canonical text of a script, in the model: what `print` of the crates gives, for which there is no trace word.

    python3 compare/runs/canonical.py               2,000 scripts of version 1, and 500 of version 2
    python3 compare/runs/canonical.py --print FILE  the canonical text of one

Of each script that is read it is checked that its canonical text is read as that script again, in all but the lines, that the
canonical text of that is the same text, and that no pair of parentheses in it could be left out. The status is 0 where all of that holds.
"""

import argparse
import os
import sys
from random import Random

sys.path.insert(0, os.path.dirname(os.path.dirname(os.path.abspath(__file__))))

from cases.kinds import BESIDE, KINDS
from model.canonical import canonical
from model.debugger import divided
from model.language import Fault, read_script


def without_lines(part):
    """A script, or a part of it, with 0 in place of each line."""
    if isinstance(part, list):
        return [without_lines(one) for one in part]
    blocks = {field: without_lines(getattr(part, field)) for field in ('then', 'otherwise', 'body') if hasattr(part, field)}
    return part._replace(line=0, **blocks)


def same(script, other):
    return (script._replace(body=None) == other._replace(body=None)
            and without_lines(script.body) == without_lines(other.body))


def needless(text, script):
    """The places of parentheses that could be left out of a canonical text."""
    opened = []
    for place, byte in enumerate(text):
        if byte == ord('('):
            opened.append(place)
        elif byte == ord(')'):
            first = opened.pop()
            shorter = text[:first] + b' ' + text[first + 1:place] + b' ' + text[place + 1:]
            try:
                if same(script, read_script(shorter)):
                    yield first
            except Fault:
                pass


def problem(data):
    """What is wrong with the canonical text of a script; None where nothing is, or where that text is too long."""
    script = read_script(data)
    text = canonical(script)
    if len(text) > 65536:
        return None
    again = read_script(text)
    if not same(script, again):
        return 'read as another script'
    if canonical(again) != text:
        return 'another text of the same script'
    if next(needless(text, script), None) is not None:
        return 'parentheses that could be left out'
    return None


def drawn(seed, count):
    """Scripts of the kinds of version 1, and a share of them of version 2 beside, each with its name."""
    kinds_of_1 = ('script', 'wildcards', 'requests', 'states', 'traps', 'barriers', 'exchanges')
    for kinds, how_many in ((kinds_of_1, count), (('waitany',), count // BESIDE)):
        for number in range(how_many):
            kind = kinds[number % len(kinds)]
            yield f'{kind} {number}', divided(KINDS[kind].draw(Random(f'canonical/{kind}/{seed}/{number}')))[0]


def main():
    parser = argparse.ArgumentParser(description=__doc__, formatter_class=argparse.RawDescriptionHelpFormatter)
    parser.add_argument('--count', type=int, default=2000, help='how many scripts of version 1 (2,000), and a quarter of these of version 2')
    parser.add_argument('--seed', type=int, default=1)
    parser.add_argument('--print', metavar='FILE', help='print the canonical text of a script')
    chosen = parser.parse_args()
    if chosen.print:
        with open(chosen.print, 'rb') as file:
            sys.stdout.buffer.write(canonical(read_script(divided(file.read())[0])))
        return 0
    read, wrong = 0, 0
    for name, script in drawn(chosen.seed, chosen.count):
        try:
            found = problem(script)
        except Fault:
            continue
        read += 1
        if found:
            wrong += 1
            print(f'{name}: {found}')
    print(f'{read} scripts read, {wrong} wrong')
    return 0 if read and not wrong else 1


if __name__ == '__main__':
    sys.exit(main())
