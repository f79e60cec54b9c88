"""How transcripts are written: compare/words/*.txt, each of which shows runs of the program as a person reads them.

A file is text for its reader, then files that all of its cases have, and then cases. A case has these lines, in this order:

    == NAME                 what it is called, in its file
    $ mpdbg WORDS           the words of the command line, as a shell takes them
    terminal: errors        standard error is a terminal; `terminal: all` if all three are one
    file NAME:              a file in the folder where the program runs; one that all cases have stands above the first case
    file NAME, read again:  what the same file has when it is opened once more
    file NAME, gone:        it isn't there any more when it is opened once more
    input:                  standard input, which is empty if this is left out
    input frames:           the bodies of frames of the debug adapter, one a line
    output:                 standard output; `output frames:` if it is such frames and no more
    page data:              of standard output, if that is a page for a browser, what stands in it between HEAD and TAIL, and no more
    screen:                 all that one terminal is told
    errors:                 standard error
    status: N

The folder has `examples` too. What is empty is left out. Of a text each line stands behind `| `, and an empty one is `|` alone. A line that
has a control character, no UTF-8, or a blank at its end, stands behind `! `, with `\\\\`, `\\t`, `\\r` and `\\xNN` in it for such bytes, so
that each byte can be seen. `\\ no line feed` behind the last line of a text says that it has none at its end. What a check says meanwhile
at a terminal goes by the clock, and is left out.
"""

import re
import shlex
from typing import NamedTuple, Optional

from model.frames import WHOLE, frame_of, frames_of

HEAD, TAIL = b'<script type="application/json" id="run">', b'</script>'
NO_FEED = '\\ no line feed'
NAMED = re.compile(r'file (.+?)(, read again|, gone)?:')
KINDS = ('errors', 'all')
# The sections that a run gives.
GIVEN = ('output:', 'output frames:', 'page data:', 'screen:', 'errors:', 'status:')
ESCAPES = {'\\': '\\\\', '\t': '\\t', '\r': '\\r'}
BYTE = re.compile(rb'\\(\\|t|r|x[0-9a-f]{2})')


class Unread(Exception):
    """A line of a file can't be read: its number, from 1, and what is wrong."""


class Case(NamedTuple):
    """A run: its lines, as they stand, up to what it gives, and those that show that; its words; its files, each with its name and what it
    has when it is opened, in turn, None where it is gone; its input; and what of it is a terminal."""
    name: str
    asked: list
    shown: list
    words: list
    files: dict
    data: bytes
    terminal: Optional[str]


class Page(NamedTuple):
    """A file of transcripts: the lines above its first case, and its cases."""
    lines: list
    cases: list

    def text(self, shown):
        """The text of the file with what these runs have given, in the place of what stands there."""
        parts = ['\n'.join([*case.asked, *lines]) for case, lines in zip(self.cases, shown)]
        return '\n\n'.join(['\n'.join(self.lines), *parts]) + '\n'


# ---- what is shown of bytes

def escaped(letter):
    """A letter as it stands behind `! `; what is no UTF-8 came as a surrogate."""
    if '\udc80' <= letter <= '\udcff':
        return f'\\x{ord(letter) - 0xdc00:02x}'
    return ESCAPES.get(letter) or (letter if letter.isprintable() else ''.join(f'\\x{byte:02x}' for byte in letter.encode()))


def line_shown(line):
    """A line of a text, without its line feed."""
    text = line.decode('utf-8', 'surrogateescape')
    if text.isprintable() and not text.endswith(' '):
        return f'| {text}' if text else '|'
    end = '\\x20' if text.endswith(' ') else ''
    return '! ' + ''.join(map(escaped, text[:-1] if end else text)) + end


def lines_shown(data):
    """The lines that show a text."""
    *lines, rest = data.split(b'\n')
    return [line_shown(line) for line in lines] + ([line_shown(rest), NO_FEED] if rest else [])


def section(title, data):
    """A section, which is left out if it is empty."""
    return [title, *lines_shown(data)] if data else []


def output_shown(output):
    """The section of what stood on standard output."""
    bodies, end = frames_of(output)
    if bodies and end == WHOLE and b''.join(map(frame_of, bodies)) == output and not any(b'\n' in body for body in bodies):
        return section('output frames:', b''.join(body + b'\n' for body in bodies))
    if HEAD in output:
        return section('page data:', output.partition(HEAD)[2].partition(TAIL)[0])
    return section('output:', output)


def result_shown(result, terminal):
    """The lines that show what a run has given."""
    output = section('screen:', result.output) if terminal == 'all' else output_shown(result.output)
    return [*output, *section('errors:', result.errors), f'status: {result.status}']


# ---- files of transcripts, read

def byte_of(found):
    """The byte that an escape stands for."""
    word = found[1]
    return {b'\\': b'\\', b't': b'\t', b'r': b'\r'}.get(word) or bytes([int(word[1:], 16)])


def line_read(line):
    """The bytes of a line that shows one, without its line feed; None where it shows none."""
    if line == '|':
        return b''
    if line.startswith('| '):
        return line[2:].encode()
    return BYTE.sub(byte_of, line[2:].encode()) if line.startswith('! ') else None


def without_empty(lines):
    """Lines without the empty ones at their end."""
    return lines if not lines or lines[-1] else without_empty(lines[:-1])


class Reader:
    """The lines of a file, of which each is taken in its turn."""

    def __init__(self, text):
        self.lines, self.place = text.split('\n')[:-1], 0

    @property
    def line(self):
        """The line that is next; None at the end."""
        return self.lines[self.place] if self.place < len(self.lines) else None

    def take(self):
        self.place += 1
        return self.lines[self.place - 1]

    def expect(self, holds, what):
        if not holds:
            raise Unread(self.place + 1, what)

    def text(self):
        """The text of a section, whose title was taken."""
        lines = []
        while self.line is not None and (read := line_read(self.line)) is not None:
            lines.append(read)
            self.take()
        if self.line == NO_FEED:
            self.expect(lines, 'a line stands before this')
            self.take()
            return b'\n'.join(lines)
        return b''.join(line + b'\n' for line in lines)

    def skip_empty(self):
        while self.line == '':
            self.take()

    def files(self, known):
        """The files that stand here, beside those that are known."""
        found = {}
        while self.line is not None and (named := NAMED.fullmatch(self.line)):
            self.expect((named[2] is None) == (named[1] not in found), 'a file is there once, and then read again, or gone')
            self.take()
            found.setdefault(named[1], []).append(None if named[2] == ', gone' else self.text())
            self.skip_empty()
        return {**known, **found}

    def data(self):
        """What stands on standard input."""
        if self.line == 'input frames:':
            self.take()
            return b''.join(map(frame_of, self.text().split(b'\n')[:-1]))
        if self.line == 'input:':
            self.take()
            return self.text()
        return b''

    def shown(self):
        """The lines of what a run has given, up to the next case."""
        begun = self.place
        while self.line is not None and not self.line.startswith('== '):
            self.take()
        return without_empty(self.lines[begun:self.place])

    def case(self, known):
        """The next case."""
        begun = self.place
        name = self.take()[3:]
        self.expect(self.line is not None and self.line.startswith('$ mpdbg'), 'a command stands here, `$ mpdbg ..`')
        words = shlex.split(self.take()[2:])[1:]
        terminal = self.take()[10:] if self.line is not None and self.line.startswith('terminal: ') else None
        self.expect(terminal is None or terminal in KINDS, f'what is a terminal is one of {KINDS}')
        files, data = self.files(known), self.data()
        asked = without_empty(self.lines[begun:self.place])
        self.skip_empty()
        self.expect(self.line is None or self.line.startswith(('== ', *GIVEN)), 'no section that stands here is called so')
        return Case(name, asked, self.shown(), words, files, data, terminal)


def read_page(text):
    """A file of transcripts."""
    reader, cases = Reader(text), []
    while reader.line is not None and not reader.line.startswith('== ') and not NAMED.fullmatch(reader.line):
        reader.take()
    files = reader.files({})
    lines = without_empty(reader.lines[:reader.place])
    while reader.line is not None:
        reader.expect(reader.line.startswith('== '), 'a case begins here, `== NAME`')
        cases.append(reader.case(files))
        names = [case.name for case in cases]
        reader.expect(len(set(names)) == len(names), f'two cases are called {names[-1]}')
    reader.expect(cases, 'no case stands here')
    return Page(lines, cases)
