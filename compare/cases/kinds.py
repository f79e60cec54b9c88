"""The kinds of cases: inputs of a script and trace words, random or the same each time."""

from random import Random
from typing import Callable, NamedTuple, Optional

from cases.barrier_cases import barriers_case
from cases.exchange_cases import exchanges_case
from cases.limit_cases import limits_case
from cases.request_cases import requests_case
from cases.scripts import Writer, mutated_bytes, mutated_tokens, rendered
from cases.slots_cases import slots_case
from cases.state_cases import arrays_case, deep_case, messages_case, names_case, states_case, traps_case
from cases.trail_cases import trails_case
from cases.waitany_cases import waitany_case, waitany_texts_case
from cases.walks import ODD, assembled, trace_lines
from cases.wildcard_cases import wildcards_case
from model.canonical import now_and_then_canonical
from model.debugger import BUFFERED, RENDEZVOUS, parted
from model.language import HIGHEST, LEVELS, LOWEST
from model.modes import KNOWN, by_turns

DIVIDERS = (b'\n---\n',) * 20 + (
    b'\n---\r\n', b'\r\n---\r\n', b'\n ---\n', b'\n--- \n', b'\n----\n', b'\n--\n', b'---\n', b'\n', b'\n---',
    b'\n---\r', b'\n\n---\n', b'\n---\n---\n', b'\n\r---\n', b'\n---\t\n', b'\n---\r\r\n', b'\n-\n---\n')
DIVIDERS_WITHOUT_SCRIPT = (b'---\n', b'', b'\n---\n', b'---', b'---\r\n', b'\r', b'--', b'\r\n---\n')
LAST_LINES = (
    b'\r', b' ', b'show\r', b'show \r', b'\t\r\n', b'a' * 4096, b'a' * 4097, b' ' * 4096 + b'\r', b' ' * 4095 + b'\r',
    b' ' * 4096, b' ' * 4097, b' ' * 4096 + b'\r\n', b' ' * 4096 + b'\r\r\n')
LINE_LENGTHS = (4094, 4095, 4096, 4097, 4098, 5000, 8191, 8192, 8193, 12288, 20000)

EXTREMES = (LOWEST, LOWEST + 1, LOWEST // 2, -3037000500, -4294967296, -2, -1, 0, 1, 2, 3, 3037000500, 4294967296,
            HIGHEST - 1, HIGHEST)


def script_case(random, mode=RENDEZVOUS):
    """A script without a fault and a walk through it."""
    ranks = random.choice([1, 2, 2, 3, 3, 4, random.randint(1, 16)])
    script = now_and_then_canonical(random, rendered(random, Writer(random, ranks).script()))
    return assembled(random, script, trace_lines(random, script, random.choice([5, 20, 40, 80]), mode=mode))


def cut_case(random):
    """An input that ends anywhere in its script, behind a comment that is not ended, or in its words."""
    script = script_case(random)
    place = script.find(b'---') if random.random() < 0.8 else len(script)
    return script[:random.randint(0, max(place, 0))] + random.choice([b'', b'', b'', b'#', b'# end', b' ', b'-', b'\n--'])


def mutated_case(random, mode=RENDEZVOUS):
    """A script changed in a few tokens or bytes."""
    ranks = random.choice([1, 2, 3])
    if random.random() < 0.12:
        return limits_case(random, mode)
    writer = Writer(random, ranks)
    tokens = writer.script()
    if len(tokens) > 400 and random.random() < 0.2:
        tokens = tokens[:400]
    in_tokens = random.random() < 0.75
    if in_tokens:
        tokens = mutated_tokens(random, tokens, writer.variables + writer.handles)
        if random.random() < 0.2 and len(tokens) > 5:
            tokens = mutated_tokens(random, tokens, writer.variables + writer.handles)
    script = rendered(random, tokens)
    if not in_tokens:
        script = mutated_bytes(random, script)
    return assembled(random, script, trace_lines(random, script, 6, mode=mode))


def long_line(random, line):
    """The line made about as long as allowed, or replaced by one that long."""
    length = random.choice(LINE_LENGTHS)
    character = random.choice([' ', '\t', 'a', '0', ' ', '\r'])
    draw = random.random()
    if draw < 0.3:
        return character * length
    if draw < 0.6:
        return (line + ' ' * length)[:length]
    if draw < 0.8:
        return ' ' * max(0, length - len(line)) + line
    return 'local ' + '0' * (length - 6)


def changed_line(random, line):
    draw = random.random()
    if draw < 0.05:
        line = long_line(random, line)
    elif draw < 0.08:
        line = mutated_bytes(random, line.encode('latin-1')).decode('latin-1')
    elif draw < 0.1:
        line += '\r' * random.randint(1, 2)
    return line + random.choice(['\n', '\n', '\n', '\r\n', '\n\n', '\r\r\n'])


def words_case(random):
    """Odd words, long lines, odd line ends and dividing lines."""
    writer = Writer(random, random.choice([1, 2, 2, 3]))
    script = rendered(random, writer.script())
    lines = trace_lines(random, script, random.choice([5, 15, 30]), ODD)
    body = ''.join(changed_line(random, line) for line in lines).encode('latin-1')
    divider = random.choice(DIVIDERS)
    if random.random() < 0.03:
        script, divider = b'', random.choice(DIVIDERS_WITHOUT_SCRIPT)
    draw = random.random()
    if draw < 0.3:
        body = body[:random.randint(0, len(body))]
    elif draw < 0.4:
        body = body.rstrip(b'\r\n')
    elif draw < 0.45:
        body += random.choice(LAST_LINES)
    return script + divider + body


class Case(NamedTuple):
    """An input; `packets` is None where it is given at once.

    Where there is a `mode`, the program traces a file in it: `script` is that file, and the input has the words alone.
    """
    name: str
    data: bytes
    packets: Optional[list]
    mode: Optional[str] = None
    script: bytes = b''


def cut(random, data):
    """The input cut into packets, of one byte or of thousands."""
    longest = random.choice([1, 2, 3, 7, 100, 4096] if len(data) < 2000 else [100, 1000, 4095, 4096])
    packets = []
    start = 0
    while start < len(data):
        packets.append(data[start:start + random.randint(1, longest)])
        start += len(packets[-1])
    return packets


def number_text(number):
    """An expression for a number; the lowest one can't be written as a minus before its magnitude."""
    if number == LOWEST:
        return f'-{HIGHEST} - 1'
    return str(number)


def arithmetic_input(left, right):
    """All operators on two numbers, each in a rank of its own, since a trap ends a rank."""
    expressions = [f'a {sign} b' for level in LEVELS for sign in level] + ['-a', '!a']
    lines = ['mpd 1;', f'ranks {len(expressions)};', 'var a;', 'var b;']
    lines += [f'a = {number_text(left)};', f'b = {number_text(right)};']
    for rank, expression in enumerate(expressions):
        lines.append(f'if rank == {rank} {{ print {expression}; }}')
    lines.append('---')
    steps = 2 + len(expressions) + 1
    for rank in range(len(expressions)):
        lines += [f'local {rank}'] * steps
    return '\n'.join(lines + ['show', '']).encode()


def arithmetic_case(number):
    """The extremes in pairs, one pair for each number, and from the first again."""
    count = len(EXTREMES)
    return arithmetic_input(EXTREMES[number // count % count], EXTREMES[number % count])


# Each place of an expression in a statement.
PLACES = ('print {};', 'x = {};', 'a[{}] = 1;', 'if {} {{ }}', 'while {} {{ }}', 'assert {};', 'send {} to 0 tag 0;',
          'send 1 to {} tag 0;', 'send 1 to 0 tag {};', 'recv a[{}] from 0 tag 0;', 'recv x from {} tag 0;',
          'recv x from 0 tag {};', 'print 0 + a[{}];', 'isend r[{}] 1 to 0 tag 0;', 'irecv r[{}] x from 0 tag 0;',
          'wait r[{}];', 'irecv r[0] x from any tag any status a[{}] x;', 'recv x from any tag 0 status x a[{}];',
          'ssend 1 to {} tag 0;', 'issend r[{}] 1 to 0 tag 0;')
NESTS = (('(', ')'), ('-', ''), ('a[', ']'), ('!(', ')'), ('0 + (', ')'))


def operators_case(number):
    """As many operators as allowed, one more and one less, one inside the other or in a row, in each place."""
    number, place = divmod(number, len(PLACES))
    number, change = divmod(number, 3)
    count = 64 + (0, 1, -1)[change]
    form = number % (len(NESTS) + 1)
    if form == len(NESTS):
        expression = '0' + ' + 0' * count
    else:
        opening, closing = NESTS[form]
        times = count // len(opening.replace('a', '').replace('0', '').replace(' ', ''))
        expression = opening * times + '0' + closing * times
    words = 'local 0\n' * 3 + 'show\n'
    return f'mpd 1; ranks 1; var x; var a[2]; req r[2];\n{PLACES[place].format(expression)}\n---\n{words}'.encode()


# What may stand where a statement begins.
STATEMENTS = ('print 1;', 'x = 1;', 'if 1 { }', 'while 0 { }', 'assert 1;', 'send 1 to 0 tag 0;', 'recv x from 0 tag 0;',
              'isend r 1 to 0 tag 0;', 'irecv r x from 0 tag 0;', 'wait r;', 'r = 1;', 'y = 1;', 'waitany', 'barrier;',
              'recv x from any tag any status x x;', 'any', 'status', 'ssend 1 to 0 tag 0;', 'issend r 1 to 0 tag 0;')


def statements_case(number):
    """A statement of each kind as the last one allowed, and as the first one too many."""
    number, last = divmod(number, len(STATEMENTS))
    return f'mpd 1; ranks 1; var x; req r;\n{"x=1;" * (4095 + number % 2)}{STATEMENTS[last]}\n---\nlocal 0\n'.encode()


class Kind(NamedTuple):
    """What draws inputs of a kind, its share of the inputs of a run, in hundredths, and the last version that it is of.

    One input after the other is given in each of the `ways`: None is a script with its words on standard input, a mode is a script in
    a file.
    """
    draw: Callable
    share: int
    ways: tuple = (None,)
    version: int = 1


SOMETIMES, MOSTLY = (None, None, RENDEZVOUS, BUFFERED), (None, RENDEZVOUS, BUFFERED, BUFFERED)

# Of scripts of version 1, and of texts that are refused. 2,000 inputs of all these kinds have all of those that are counted out.
KINDS_OF_1 = {
    'script': Kind(script_case, 7, SOMETIMES), 'mutated': Kind(mutated_case, 5, SOMETIMES),
    'limits': Kind(limits_case, 5, SOMETIMES), 'words': Kind(words_case, 5), 'cut': Kind(cut_case, 2),
    'names': Kind(names_case, 3), 'arrays': Kind(arrays_case, 3), 'messages': Kind(messages_case, 2, SOMETIMES),
    'requests': Kind(requests_case, 4, SOMETIMES), 'wildcards': Kind(wildcards_case, 5, SOMETIMES),
    'states': Kind(states_case, 3, SOMETIMES), 'traps': Kind(traps_case, 4), 'deep': Kind(deep_case, 2),
    'barriers': Kind(barriers_case, 6, SOMETIMES), 'exchanges': Kind(exchanges_case, 5, MOSTLY),
    'trails': Kind(trails_case, 7, SOMETIMES), 'statements': Kind(None, 2), 'arithmetic': Kind(None, 12),
    'operators': Kind(None, 18)}
# Of scripts of version 2, and of texts with faults round what only that has.
KINDS_OF_2 = {'waitany': Kind(waitany_case, 75, SOMETIMES, 2), 'waitany-texts': Kind(waitany_texts_case, 25, SOMETIMES, 2)}
# Of scripts with many sends, mostly in a mode of slots.
KINDS_OF_SLOTS = {'slots': Kind(slots_case, 100, ('slots:1', 'slots:2', BUFFERED, 'slots:1', 'slots:3', 'slots:0', RENDEZVOUS, 'slots:2'))}
KINDS = KINDS_OF_1 | KINDS_OF_2 | KINDS_OF_SLOTS
# One input of these stands beside so many of the others.
BESIDE = 4
# Kinds whose inputs are counted out, and not drawn.
NUMBERED = {'arithmetic': arithmetic_case, 'operators': operators_case, 'statements': statements_case}


def mode_of(kind, number):
    """The mode in which an input is traced with its script in a file; None where the script comes before its words."""
    ways = KINDS[kind].ways
    way = ways[number % len(ways)]
    return way and by_turns(way, number // len(ways))


def random_case(kind, seed, number, in_packets):
    """One input of a kind, the same each time; every third one is cut into reads, or all of them."""
    random = Random(f'{kind}/{seed}/{number}')
    mode, script = mode_of(kind, number), b''
    if kind in NUMBERED:
        data = NUMBERED[kind](number)
    elif mode is None:
        data = KINDS[kind].draw(random)
    else:
        script, data = parted(KINDS[kind].draw(random, mode))
    packets = cut(random, data) if in_packets or number % 3 == 0 else None
    return Case(f'{kind}-{seed}-{number}', data, packets, mode, script)


def counts_up_to(version, count):
    """How many inputs of each kind make so many of version 1, and a share of them beside for version 2, and for modes of slots."""
    beside = (KINDS_OF_2 if version > 1 else {}, KINDS_OF_SLOTS if KNOWN else {})
    return shares(count, KINDS_OF_1) | {kind: part for kinds in beside for kind, part in shares(count // BESIDE, kinds).items()}


def shares(count, kinds):
    """How many inputs of each kind make so many in all."""
    whole = sum(KINDS[kind].share for kind in kinds)
    parts = {}
    left = count
    for kind in kinds:
        parts[kind] = left * KINDS[kind].share // whole
        left -= parts[kind]
        whole -= KINDS[kind].share
    return parts
