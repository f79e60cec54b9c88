"""Marks of a script, in the model: comments that name places in a program, and told lines with these places beside the lines of the script.

It was written from docs/FROM_A_RUN.md ("Marks") and docs/CONSOLE.md ("Answers"). compare/rows/worked_marks.py has rows of it.
"""

import re

from model.debugger import lines_of

# What stands after the `#` of a comment that is a mark: its place, the name of a call, and perhaps a note.
MARK = re.compile(rb'@ ([!-~]{1,80}) [A-Za-z0-9_]+(?: \[.*\])?', re.DOTALL)
# A line of the script, or several, where a told line names them: no word begins before `line`.
NAMED = re.compile('(?<![A-Za-z0-9_])(?:line ([0-9]+)|lines ([0-9 ,]+))')
# A number of several that are listed: the first one, or one after a comma and a space.
LISTED = re.compile('(?:^|(?<=, ))[0-9]+')
# A line of the script as it is shown.
SOURCE = re.compile('.{4}[0-9]  ', re.DOTALL)
MOST_DIGITS = 9


def places_of(text):
    """The place of the mark of each line of a script that has one, by the line's number."""
    marks = ((number, MARK.fullmatch(line.partition(b'#')[2])) for number, line in enumerate(lines_of(text), 1) if b'#' in line)
    return {number: mark[1].decode() for number, mark in marks if mark}


def named_lines(line):
    """The number of each line of the script that a told line names, and where in it that number ends."""
    for found in NAMED.finditer(line):
        if found[1] is not None:
            yield found.end(1), found[1]
        else:
            for number in LISTED.finditer(found[2]):
                yield found.start(2) + number.end(), number[0]


def depth_of(text):
    """How many parentheses are open after a text."""
    depth = 0
    for sign in re.findall('[()]', text):
        depth = depth + 1 if sign == '(' else max(depth - 1, 0)
    return depth


def marked(places, line):
    """A told line with the places of marks after the numbers of lines that have one; a line of the script stays as it is."""
    if SOURCE.match(line):
        return line
    told, begin = '', 0
    for end, digits in named_lines(line):
        place = places.get(int(digits)) if len(digits) <= MOST_DIGITS else None
        if place is not None:
            told += line[begin:end] + (f', {place}' if depth_of(line[:end]) else f' ({place})')
            begin = end
    return told + line[begin:]


def all_marked(text, lines):
    """Told lines of a script, each with its places."""
    places = places_of(text)
    return [marked(places, line) for line in lines]
