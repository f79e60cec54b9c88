#!/usr/bin/env python3
"""The template of pages as constants of the proved program: `crates/mpd_page/src/template.rt`, made of `page/page.html`.

    page/template.py            says whether the file is what the template makes; the status is 1 if it isn't
    page/template.py --write    makes it

docs/PAGES.md ("The file") says what the two texts are: what stands before the data, and what stands after it. Each is cut into pieces of
whole lines, since a proof takes longer for a long constant.
"""

import os
import sys

TOP = os.path.dirname(os.path.dirname(os.path.abspath(__file__)))
TEMPLATE = os.path.join(TOP, 'page', 'page.html')
MADE = os.path.join(TOP, 'crates', 'mpd_page', 'src', 'template.rt')
OPENING = '<script type="application/json" id="run">'
# How many bytes a piece has at most.
MOST = 4096

FIRST = '''//! The template of a page, cut at its data (docs/PAGES.md, "The file"). `page/template.py --write` makes this file of `page/page.html`.

'''


def parts():
    """What stands before the data, and what stands after it."""
    with open(TEMPLATE, encoding='ascii') as file:
        head, tail = file.read().split(OPENING + 'null')
    return head + OPENING, tail


def pieces(text):
    """A text as pieces of whole lines."""
    found = ['']
    for line in text.splitlines(keepends=True):
        if len(found[-1]) + len(line) > MOST:
            found.append('')
        found[-1] += line
    return found


def literal(text):
    """A text as a literal, a line of it on each line."""
    lines = [line.replace('\\', '\\\\').replace('"', '\\"').replace('\n', '\\n') for line in text.splitlines(keepends=True)]
    # What begins a line would be left out after the end of the one before it.
    lines = ['\\x20' + line[1:] if line.startswith(' ') else line for line in lines]
    return '"\\\n' + '\\\n'.join(lines) + '"'


def constants(name, told, text):
    cut = pieces(text)
    for number, piece in enumerate(cut):
        yield f'/// What stands {told} the data: part {number + 1} of {len(cut)}.\npub const {name}_{number}: &str = {literal(piece)};\n'


def made():
    """The file that the template makes."""
    head, tail = parts()
    return FIRST + '\n'.join([*constants('HEAD', 'before', head), *constants('TAIL', 'after', tail)])


def main():
    if sys.argv[1:] == ['--write']:
        with open(MADE, 'w', encoding='ascii') as file:
            file.write(made())
        return 0
    with open(MADE, encoding='ascii') as file:
        if file.read() == made():
            return 0
    print('crates/mpd_page/src/template.rt is not what page/page.html makes: page/template.py --write')
    return 1


if __name__ == '__main__':
    sys.exit(main())
