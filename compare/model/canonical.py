"""The canonical text of a script, in the model: what `print` of the crates gives, for which there is no trace word.

Cases of compare/runs/run.py are written so now and then: the program then reads canonical texts, and shows their lines. What must hold of
such a text is checked by compare/runs/canonical.py.
"""

from model.language import (COMPARISONS, LEVELS, Assert, Assign, Barrier, Branch, Collective, Fault, Number, OwnRank, Place, Print, Probe, RankCount, Receive,
                            Send, Unary, Wait, WaitAny, While, Whole, read_script)

OPERAND = len(LEVELS)


def expression_text(expression, least=0):
    """The text of an expression where operators of lower levels than `least` want parentheses round them."""
    if isinstance(expression, Number):
        return str(expression.value)
    if isinstance(expression, (OwnRank, RankCount)):
        return 'rank' if isinstance(expression, OwnRank) else 'size'
    if isinstance(expression, Place):
        return place_text(expression)
    if isinstance(expression, Unary):
        return expression.sign + expression_text(expression.operand, OPERAND)
    level = next(level for level, signs in enumerate(LEVELS) if expression.sign in signs)
    left = expression_text(expression.left, level + (expression.sign in COMPARISONS))
    text = f'{left} {expression.sign} {expression_text(expression.right, level + 1)}'
    return f'({text})' if level < least else text


def place_text(place):
    return place.name if place.size is None else f'{place.name}[{expression_text(place.index)}]'


def or_any(expression):
    return 'any' if expression is None else expression_text(expression)


def handle_text(word, handle):
    """The word of a call, with `i` before it and its handle behind it where it has one."""
    return word if handle is None else f'i{word} {place_text(handle)}'


def status_text(status):
    return '' if status is None else ' status ' + ' '.join(map(place_text, status))


def cells_text(cells):
    """The text of an array that stands for all its cells, of a place, or of an expression."""
    if isinstance(cells, Whole):
        return cells.name
    return place_text(cells) if isinstance(cells, Place) else expression_text(cells)


def collective_text(statement):
    """The text of a collective: what it gives, its operation, its root, and where it puts what it gets."""
    if statement.kind == 'bcast':
        return f'bcast {place_text(statement.into)} from {expression_text(statement.root)}'
    parts = [statement.kind, cells_text(statement.given)] + [f'with {statement.operation}'] * (statement.operation is not None)
    if statement.root is not None:
        parts.append(f'{"from" if statement.kind == "scatter" else "to"} {expression_text(statement.root)}')
    return ' '.join([*parts, 'into', cells_text(statement.into)])


def simple_text(statement):
    """The text of a statement that holds no other, without its `;`."""
    if isinstance(statement, Assign):
        return f'{place_text(statement.place)} = {expression_text(statement.value)}'
    if isinstance(statement, Print):
        return f'print {expression_text(statement.value)}'
    if isinstance(statement, Assert):
        return f'assert {expression_text(statement.condition)}'
    if isinstance(statement, Wait):
        return f'wait {place_text(statement.handle)}'
    if isinstance(statement, WaitAny):
        return f'waitany {statement.name} to {place_text(statement.place)}'
    if isinstance(statement, Barrier):
        return 'barrier'
    if isinstance(statement, Send):
        word = 'ssend' if statement.synchronous else 'send'
        return (f'{handle_text(word, statement.handle)} {expression_text(statement.value)} to {expression_text(statement.to)} '
                f'tag {expression_text(statement.tag)}')
    if isinstance(statement, Collective):
        return collective_text(statement)
    behind = f'from {or_any(statement.source)} tag {or_any(statement.tag)}{status_text(statement.status)}'
    if isinstance(statement, Probe):
        return f'probe {behind}'
    assert isinstance(statement, Receive)
    return f'{handle_text("recv", statement.handle)} {place_text(statement.place)} {behind}'


def lines_of(statements, indentation=''):
    """The lines of statements, one within the other."""
    for statement in statements:
        if isinstance(statement, (Branch, While)):
            word = 'if' if isinstance(statement, Branch) else 'while'
            yield f'{indentation}{word} {expression_text(statement.condition)} {{'
            yield from lines_of(statement.then if word == 'if' else statement.body, indentation + '  ')
            if word == 'if' and statement.otherwise:
                yield f'{indentation}}} else {{'
                yield from lines_of(statement.otherwise, indentation + '  ')
            yield f'{indentation}}}'
        else:
            yield f'{indentation}{simple_text(statement)};'


def canonical(script):
    """The canonical text of a script, in bytes."""
    lines = [f'mpd {script.version};', f'ranks {script.ranks};']
    for name, declared in script.names.items():
        lines.append(f'{declared.kind} {name};' if declared.size is None else f'{declared.kind} {name}[{declared.size}];')
    return ''.join(f'{line}\n' for line in [*lines, *lines_of(script.body)]).encode('ascii')


def now_and_then_canonical(random, data):
    """The script, or in a tenth of all draws its canonical text, where it is read."""
    if random.random() >= 0.1:
        return data
    try:
        return canonical(read_script(data))
    except Fault:
        return data
