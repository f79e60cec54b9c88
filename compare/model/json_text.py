"""A strict reader of one JSON text in bytes, written from the grammar of RFC 8259 and what the documentation of `serde_json` adds.

`read_json` gives None, booleans, texts, lists, dicts, and numbers: a whole one that fits 64 bits (from 0 as an unsigned one, below as a
signed one) is an int, and any other is a float: `1.0`, `1e2`, `-0`, and what is larger. Python's own `json` takes more: NaN, numbers
of any size, half of a pair of surrogates, and any depth. Of a key that stands twice the last value counts.
"""

import re

# 128 open arrays and objects are too deep.
DEEPEST = 127
LARGEST_UNSIGNED, LOWEST_SIGNED = 2 ** 64 - 1, -2 ** 63

BLANKS = re.compile(r'[ \t\n\r]*')
NUMBER = re.compile(r'(-?(?:0|[1-9][0-9]*))((?:\.[0-9]+)?(?:[eE][+-]?[0-9]+)?)')
PLAIN = re.compile(r'[^"\\\x00-\x1f]*')
UNIT = re.compile(r'\\u([0-9a-fA-F]{4})')
ESCAPED = {'"': '"', '\\': '\\', '/': '/', 'b': '\b', 'f': '\f', 'n': '\n', 'r': '\r', 't': '\t'}
WORDS = {'null': None, 'true': True, 'false': False}


class NoJson(Exception):
    """What was read is no JSON text."""


class Reader:
    """A text, and the place that it is read up to."""

    def __init__(self, text):
        self.text, self.place = text, 0

    def take(self, pattern):
        """Reads what a pattern finds here; None where it finds nothing."""
        found = pattern.match(self.text, self.place)
        self.place = found.end() if found else self.place
        return found

    def is_next(self, sign):
        """Whether a sign comes next, behind blanks; then it is read."""
        self.take(BLANKS)
        found = self.text.startswith(sign, self.place)
        self.place += len(sign) if found else 0
        return found

    def must(self, sign):
        if not self.is_next(sign):
            raise NoJson

    def value(self, depth):
        """Reads a value that stands in so many arrays and objects."""
        if self.is_next('{'):
            return self.entries(depth + 1)
        if self.is_next('['):
            return self.items(depth + 1)
        if self.is_next('"'):
            return self.string()
        for word, value in WORDS.items():
            if self.is_next(word):
                return value
        return self.number()

    def items(self, depth):
        """Reads an array behind its bracket."""
        if depth > DEEPEST:
            raise NoJson
        found = []
        if self.is_next(']'):
            return found
        while True:
            found.append(self.value(depth))
            if self.is_next(']'):
                return found
            self.must(',')

    def entries(self, depth):
        """Reads an object behind its brace."""
        if depth > DEEPEST:
            raise NoJson
        found = {}
        if self.is_next('}'):
            return found
        while True:
            self.must('"')
            key = self.string()
            self.must(':')
            found[key] = self.value(depth)
            if self.is_next('}'):
                return found
            self.must(',')

    def string(self):
        """Reads a text behind its first quote."""
        parts = []
        while True:
            parts.append(self.take(PLAIN)[0])
            sign = self.text[self.place:self.place + 1]
            if sign == '"':
                self.place += 1
                return ''.join(parts)
            if sign != '\\':
                raise NoJson
            parts.append(self.escape())

    def escape(self):
        """Reads a backslash and what it stands for."""
        sign = self.text[self.place + 1:self.place + 2]
        if sign == 'u':
            return self.character()
        if sign not in ESCAPED or not sign:
            raise NoJson
        self.place += 2
        return ESCAPED[sign]

    def unit(self):
        """Reads `\\u` and its four digits."""
        found = self.take(UNIT)
        if not found:
            raise NoJson
        return int(found[1], 16)

    def character(self):
        """Reads a character that is written by its number, or by a pair of surrogates, the high one first."""
        first = self.unit()
        if 0xdc00 <= first <= 0xdfff:
            raise NoJson
        if not 0xd800 <= first <= 0xdbff:
            return chr(first)
        second = self.unit()
        if not 0xdc00 <= second <= 0xdfff:
            raise NoJson
        return chr(0x10000 + (first - 0xd800) * 0x400 + second - 0xdc00)

    def number(self):
        found = self.take(NUMBER)
        if not found:
            raise NoJson
        whole = int(found[1])
        if not found[2] and found[1] != '-0' and LOWEST_SIGNED <= whole <= LARGEST_UNSIGNED:
            return whole
        value = float(found[0])
        if value in (float('inf'), float('-inf')):
            raise NoJson
        return value


def read_json(data):
    """The value of a JSON text; raises NoJson where the bytes are none, or no UTF-8."""
    try:
        reader = Reader(data.decode('utf-8'))
    except UnicodeDecodeError:
        raise NoJson from None
    value = reader.value(0)
    reader.take(BLANKS)
    if reader.place != len(reader.text):
        raise NoJson
    return value
