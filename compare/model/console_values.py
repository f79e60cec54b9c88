"""Expressions behind `print`, in the model of the console: how they are read, and what is told of them (docs/CONSOLE.md, "Looks")."""

from typing import NamedTuple, Optional

from model.canonical import expression_text
from model.console_words import NotAsked, full_name, given_by, words_of
from model.language import EXPECTED, NUMBER, OTHER_THAN_TEXT, SIGN, TOO_DEEP, UNKNOWN_NAME, WORD, Fault, Reader, Trap, View, evaluate

OPERAND = 'an operand'
TEXT_END = 'the end of the text'
OR_END = f'an operator or {TEXT_END}'
DEEP = 'refused: an expression has 64 brackets and operators at most'
# So many bytes of a token are shown at most.
MOST_SHOWN = 72


class AskedValue(NamedTuple):
    """An expression, and the number of a rank behind it, or None."""
    expression: object
    rank: Optional[int]


class ValueReader(Reader):
    """Reads an expression in which names stand for what a script declares. `wanted` is what it can go on with where it stops."""

    def __init__(self, text, names):
        super().__init__(text)
        self.names = names
        self.wanted = OPERAND

    def at(self, value):
        if value == '[':
            self.wanted = "'['"
        return super().at(value)

    def atom(self):
        self.wanted = OPERAND
        return super().atom()

    def expect(self, value):
        self.wanted = f"an operator or '{value}'"
        super().expect(value)

    def whole(self):
        """The expression, a number or none, and no more."""
        expression = self.expression()
        self.wanted, number = OR_END, None
        if self.tokens.current.kind == 'number':
            self.wanted, number = TEXT_END, self.tokens.current.value
            self.tokens.advance()
        self.expect_kind('end')
        return AskedValue(expression, number)


def expression_in(line, is_named):
    """What stands behind `print`, if it is neither a name, by this test, nor one with a number; else None."""
    first, *behind = words_of(line)
    if full_name(first.decode('latin-1')) != 'print' or not behind:
        return None
    if given_by('print', behind) and is_named(behind[0]):
        return None
    return line.lstrip(b' \t')[len(first):]


def token_at(text):
    """The token at the front of a text, as it is told."""
    if not text:
        return TEXT_END
    found = NUMBER.match(text) or WORD.match(text) or SIGN.match(text)
    token = found.group() if found else text[0]
    return f"'{token[:MOST_SHOWN]}{'...' * (len(token) > MOST_SHOWN)}'"


def told_of(text, names, number, place, wanted):
    """What is told of a text that is no expression, by its leftmost fault."""
    rest = text[place:]
    if number == EXPECTED:
        return f'refused: {wanted} is expected at {token_at(rest)}'
    if number == UNKNOWN_NAME:
        name = WORD.match(rest).group()
        return f"refused: '{name}' is a request, and no variable" if name in names else f"no variable or request is called '{name}'"
    return DEEP if number == TOO_DEEP else f'refused: no expression has {token_at(rest)}'


def value_asked(data, names):
    """The expression that some bytes spell by the names of a script, and the rank behind it."""
    text = ''.join(chr(byte) if byte < 127 else '?' for byte in data)
    if OTHER_THAN_TEXT.search(data):
        raise NotAsked("refused: no expression has '?'")
    reader = None
    try:
        reader = ValueReader(text, names)
        return reader.whole()
    except Fault as fault:
        raise NotAsked(told_of(text, names, fault.number, fault.place, reader.wanted if reader else OPERAND)) from fault


def value_line(world, number, expression):
    """The value of an expression for a rank of a world, or the trap that it ends in."""
    view = View(world.ranks[number].cells, number, len(world.ranks))
    text = expression_text(expression)
    try:
        return f'rank {number}: {text} = {evaluate(expression, view)}'
    except Trap as trap:
        return f'rank {number}: {text} traps: {trap.name}'
