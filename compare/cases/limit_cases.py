"""Scripts at the limits of the reader, and just past them. Each has the handles `rr[2]`."""

from cases.scripts import PIECES, WORD_CHARACTERS, Writer, declaration, header, rendered
from cases.walks import assembled, trace_lines
from model.debugger import RENDEZVOUS


def nested_expression(random, arrays, operators):
    """An expression with that many operators and brackets, each inside the one before."""
    forms = [(['('], [')']), (['-'], []), (['!'], []), *[([name, '['], [']']) for name in arrays]]
    if random.random() < 0.7:
        forms = [random.choice(forms)]
    chosen = [random.choice(forms) for _ in range(operators)]
    opening = [token for tokens, _ in chosen for token in tokens]
    return opening + ['0'] + [token for _, tokens in reversed(chosen) for token in tokens]


def deep_expression(random, variables, operators):
    """An expression with about that many operators and brackets."""
    arrays = [name for name, size in variables if size]
    if random.random() < 0.4:
        return nested_expression(random, arrays, operators)
    tokens = []
    closing = []
    for _ in range(operators):
        draw = random.random()
        if draw < 0.2:
            tokens.append('(')
            closing.append(')')
        elif draw < 0.4 and arrays:
            tokens += [random.choice(arrays), '[']
            closing.append(']')
        elif draw < 0.65:
            tokens.append(random.choice('-!'))
        else:
            tokens += [random.choice(['1', 'rank', '0']), random.choice(['+', '-', '*', '&&', '||'])]
            if random.random() < 0.2 and closing:
                tokens.insert(-1, closing.pop())
    return tokens + [random.choice(['0', '1'])] + closing[::-1]


def operator_limit(random, variables):
    """Statements with an expression of about as many operators as allowed."""
    expression = deep_expression(random, variables, random.choice([62, 63, 64, 64, 65, 65, 66, 70]))
    kind = random.choice(['print', 'assign', 'index', 'send', 'condition', 'receive', 'twice', 'handle'])
    name, size = random.choice(variables) if variables else ('x', None)
    target = [name] if size is None else [name, '[', *(expression if kind == 'index' else ['0']), ']']
    if kind == 'print':
        tokens = ['print', *expression, ';']
    elif kind == 'twice':
        second = deep_expression(random, variables, random.choice([60, 64, 65]))
        tokens = ['print', *expression, ';', 'print', *second, ';']
    elif kind in ('assign', 'index'):
        tokens = [*target, '=', *expression, ';']
    elif kind == 'send':
        parts = [['0'], ['0'], ['0']]
        parts[random.randrange(3)] = expression
        tokens = ['send', *parts[0], 'to', *parts[1], 'tag', *parts[2], ';']
    elif kind == 'handle':
        tokens = [*random.choice([['wait'], ['isend'], ['irecv']]), 'rr', '[', *expression, ']', *random.choice([
            [';'], [*target, 'from', '0', 'tag', '0', ';'], [*expression, 'to', '0', 'tag', '0', ';']])]
    elif kind == 'receive':
        tokens = ['recv', *target, 'from', *expression, 'tag', '0', ';']
    else:
        tokens = [random.choice(['if', 'while']), *expression, '{', '}']
    if random.random() < 0.3:
        place = random.randrange(len(tokens))
        tokens[place:place + random.randint(0, 1)] = [random.choice(PIECES)]
    return tokens


def block_limit(random):
    """About as many open blocks as allowed."""
    depth = random.choice([62, 63, 64, 64, 65, 66])
    tokens = []
    for _ in range(depth):
        tokens += random.choice([['if', '1', '{'], ['while', '0', '{'], ['if', '0', '{', '}', 'else', '{']])
        if random.random() < 0.1:
            tokens += ['print', '1', ';']
    tokens += random.choice([[], ['print', '7', ';']])
    tokens += ['}'] * (depth + random.choice([0, 0, 0, -1, 1]))
    if random.random() < 0.4:
        tokens += ['if', '1', '{', 'if', '1', '{', '}', '}']
    return tokens


def declared_limit(random, kind, left):
    """Declarations of a kind of about as many cells or handles as are left."""
    tokens = []
    number = 0
    while left > 0 and number < 8:
        size = random.choice([1, random.randint(0, left), left, left - 1])
        scalar = size == 1 and random.random() < 0.5
        tokens += declaration(f'{kind}{number}', None if scalar else size, kind)
        left -= size
        number += 1
    for _ in range(random.randint(1, 3)):
        number += 1
        name = random.choice([f'w{number}', f'{kind}0', 'var0', f'w{number}'])
        size = random.choice(['2', '256', '257', '1024', '9223372036854775807', '9223372036854775808'])
        tokens += [kind, name, *random.choice([
            [';'], ['[', '0', ']', ';'], ['[', '1', ']', ';'], ['[', size, ']', ';'], ['$'], ['['], ['[', ']'], ['x'],
            [], ['='], ['#\x01'], ['[', '$'], ['[', '0', ';']])]
    return tokens


def cell_limit(random, variables):
    """Declarations of about as many cells, or as many handles, as allowed; one kind takes nothing from the other."""
    cells = 1024 - sum(1 if size is None else size for _, size in variables)
    parts = [declared_limit(random, 'var', cells), declared_limit(random, 'req', 256 - 2)]
    random.shuffle(parts)
    return sum(parts[:random.choice([1, 1, 2])], []) + ['print', '1', ';']


def statement_limit(random):
    """About as many statements as allowed, and something behind them."""
    count = 4096 + random.choice([-1, 0, 0, 0, 1])
    open_blocks = random.choice([0, 0, 3])
    statement = random.choice([['print', '1', ';'], ['if', '0', '{', '}'], ['assert', '1', ';']])
    last = random.choice([
        [], [';'], ['nope'], ['waitany'], ['}'], ['$'], ['print', '1', ';'], ['isend'], ['wait', 'rr', '[', '0', ']', ';'], ['rr'], ['zz'], ['else'], ['barrier'],
        ['x', '='], ['}', 'print']])
    return ['if', '1', '{'] * open_blocks + statement * (count - open_blocks) + last + ['}'] * open_blocks


def name_limit(random):
    name = random.choice(['A' * 63, 'A' * 64, 'A' * 65, '_' * 64, '_' * 65, 'a1' * 32, 'a1' * 33, 'Z' * 300])
    return ['var', name, ';', 'print', random.choice([name, name[:-1], name + 'x']), ';']


def byte_limit(random, tokens):
    """An input whose script has about as many bytes as allowed."""
    length = random.choice([65534, 65535, 65536, 65536, 65536, 65537, 65538, 65600, 70000, 140000])
    last = random.choice([['print', '1', ';'], ['print'], ['print', '1'], ['$']])
    text = rendered(random, tokens + last)
    if not text.endswith(b'\n') and random.random() < 0.8:
        text += b'\n'
    unit = random.choice([b' ', b'\n', b'#', b'\r', b'# \n', b'-', b'\t', b'---', b'\n--', b'\n ---'])
    if b'-' in unit and random.random() < 0.5:
        text += b'#'
    filling = unit * (length // len(unit) + 1)
    if random.random() < 0.6:
        script = (text + filling)[:length]
    else:
        script = filling[:max(0, length - len(text))] + text
    if random.random() < 0.1:
        script = script[:-1] + bytes([random.choice([0, 255, 128, 10, 13, 45])])
    return script + random.choice([
        b'', b'', b'\n---', b'\n---\n', b'---\n', b'---', b'\n---\nlocal 0\nshow\n', b'\r\n---\r\nlocal 0\nshow', b'--',
        b'-', b'\n--', b'\n---\r', b'\n--- \n', b'\n----\n'])


def limits_case(random, mode=RENDEZVOUS):
    """A script at one of the limits of the reader, or just past it."""
    writer = Writer(random, random.randint(1, 2))
    variables = writer.variables
    if random.random() < 0.7 and not any(size for _, size in variables):
        variables.append(('zz', 3))
    tokens = header(writer.ranks)
    for name, size in variables:
        tokens += declaration(name, size)
    tokens += declaration('rr', 2, 'req')
    kind = random.choice(['operators', 'operators', 'operators', 'blocks', 'cells', 'cells', 'statements', 'names',
                          'bytes', 'branches'])
    if kind == 'bytes':
        return byte_limit(random, tokens)
    if kind == 'operators':
        tokens += operator_limit(random, variables)
    elif kind == 'blocks':
        tokens += block_limit(random)
    elif kind == 'cells':
        tokens += cell_limit(random, variables)
    elif kind == 'statements':
        tokens += statement_limit(random)
        dense = ''.join(token + ' ' if token[-1] in WORD_CHARACTERS else token for token in tokens)
        if len(dense) < 65000:
            return assembled(random, dense.encode('latin-1'), ['local 0', 'show'])
    elif kind == 'names':
        tokens += name_limit(random)
    else:
        tokens += ['if', '1', '{', '}', 'else', 'if', '1', '{', '}']
    script = rendered(random, tokens)
    return assembled(random, script, trace_lines(random, script, 8, mode=mode))
