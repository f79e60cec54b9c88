"""Scripts that reach many states: many names, arrays at their limits, many messages, traps, deep nesting."""

from cases.scripts import NUMBERS, Writer, declaration, header, made_up_names, rendered, synchronous
from cases.walks import LONG, SHOWING, USUAL, assembled, trace_lines
from model.debugger import RENDEZVOUS

# Numbers of names round those where a table of names grows.
NAME_COUNTS = (6, 7, 8, 14, 15, 16, 17, 28, 29, 31, 32, 33, 56, 57, 63, 64, 65, 100, 112, 113, 127, 128, 129, 199, 200)

# Sizes of arrays that fill 1,024 cells, or have one too many; None is a scalar.
SIZES = ((0,), (1,), (0, 0, 1), (1024,), (1023, 1), (1, 1023), (1023, None), (None, 1023), (512, 512), (0, 1024, 0),
         (1024, 0, 0), (341, 341, 342), (256, 256, 256, 255, 1), (1024, None), (1025,), (1023, None, None), (1024, 1),
         (1023, 2), (2, 3, 4), (64,) * 16, (None,) * 8 + (1016,), (1024, 1024), (9223372036854775807,))

# Expressions and statements that trap, with those that nearly do; `v` is a scalar, `w` an array of 3, `h` a handle, `g` three.
TRAPPING = (
    'print 9223372036854775807 + {};', 'print -9223372036854775807 - {};', 'print v / {};', 'print 7 % {};',
    'print (-9223372036854775807 - 1) / -{};', 'print (-9223372036854775807 - 1) % -{};',
    'print -(-9223372036854775807 - {});', 'print 4611686018427387904 * {};', 'print -4611686018427387904 * {};',
    'w[{}] = 1;', 'w[{} - 1] = 1;', 'w[-{}] = 1 / 0;', 'print w[{}];', 'print w[{} + 1];', 'v = w[-{}];',
    'send 1 to {} tag 0;', 'send 1 to -{} tag 1 / 0;', 'send 1 to 0 tag 32767 + {};', 'send 1 to 0 tag -{};',
    'recv v from size - {} tag 0;', 'recv v from {} - 1 tag 0;', 'recv w[{} + 1] from 99 tag 0;',
    'recv w[1] from 99 - {} tag 0;', 'recv v from 0 tag {} + 32766;', 'recv v from 0 tag -{};', 'assert {};',
    'assert !{};', 'if 1 / {} {{ print 1; }}', 'while 1 % {} {{ v = v + 1; w[v] = 5; }}', 'if w[{}] {{ }} else {{ v = 2; }}',
    'while w[{}] == 0 {{ w[{}] = 1; }}', 'send v / {} to 0 tag 0;', 'print 1 && 1 / {};', 'print 0 || w[{}];',
    'print 0 && 1 / {};', 'print 1 || w[9 * {}];', 'isend g[{}] 1 to 0 tag 0;', 'isend g[{} + 1] 1 / 0 to 9 tag -1;',
    'isend h v / {} to 99 tag 0;', 'isend g[-{}] 1 to 0 tag 0;', 'isend h 1 to {} tag 32766 + {};', 'isend h 1 to -{} tag 0;',
    'irecv g[{}] v from 0 tag 0;', 'irecv g[{} + 1] w[{} + 1] from 99 tag -1;', 'irecv h w[{}] from {} tag 0;',
    'recv v from any tag any status w[{}] w[{} + 1];', 'recv v from {} - 1 tag any status w[{}] v;',
    'recv w[{}] from any tag 32766 + {} status w[{}] w[1 / {}];', 'irecv h w[{} + 1] from any tag -{} status w[9] v;',
    'irecv g[{}] v from size - {} tag any status v w[{} + 1];', 'recv v from any tag any status w[1 / {}] w[{} + 2];',
    'isend h 5 to rank tag 1; recv w[{}] from any tag any status w[{}] w[{}];',
    'irecv h v from {} - 1 tag 32766 + {};', 'wait g[{}];', 'wait g[{} - 1];', 'wait h;', 'wait g[1 / {}];')

# The same of synchronous sends.
TRAPPING_SYNCHRONOUSLY = (
    'ssend 1 to {} tag 0;', 'ssend v / {} to -{} tag 1 / 0;', 'ssend 1 to 0 tag 32766 + {};', 'ssend w[{}] to 0 tag -{};',
    'issend g[{}] 1 to 0 tag 0;', 'issend g[{} + 1] 1 / 0 to 9 tag -1;', 'issend h v / {} to 99 tag 0;', 'issend h 1 to -{} tag 0;')

# Sizes of handle arrays that fill 256 handles, or have one too many; None is a single handle.
HANDLE_SIZES = ((), (), (1,), (2, 0, 1), (256,), (255, None), (None, 255), (128, 128), (256, 0), (1, 255, 0), (257,), (256, None),
                (255, 2), (9223372036854775807,))


def names_case(random):
    """A script with many names, each of which is used."""
    count = random.choice(NAME_COUNTS) if random.random() < 0.85 else random.randint(1, 1024)
    names = made_up_names(random, count + 1)
    extra = names.pop()
    tokens = header(random.randint(1, 2))
    arrays = {name: random.randint(0, 3) for name in names if random.random() < 0.1}
    share = random.choice([0, 0.2, 0.2, 1])
    handles = {name for name in names if random.random() < share}
    if count > 500:
        arrays = {}
    if count > 85:
        handles = set(list(names)[:random.choice([0, 3, 60])])
    for name in names:
        tokens += declaration(name, arrays.get(name), 'req' if name in handles else 'var')
    if random.random() < 0.1:
        again = random.choice([names[0], names[-1], random.choice(names)])
        tokens += declaration(again, random.choice([None, 2]), random.choice(['var', 'req']))
    for number, name in enumerate(random.sample(names, min(len(names), random.choice([3, 10, 30, 200])))):
        if name in handles:
            place = [name, '[', '0', ']'] if name in arrays else [name]
            tokens += [random.choice(['isend', 'isend', 'isend', 'irecv']), *place, str(number), 'to', '0', 'tag', '0', ';']
        elif name not in arrays:
            tokens += random.choice([[name, '=', str(number + 1), ';'], ['print', name, ';']])
        elif arrays[name]:
            tokens += [name, '[', str(arrays[name] - 1), ']', '=', name, '[', '0', ']', '+', str(number), ';']
    if random.random() < 0.2:
        tokens += ['print', random.choice([extra, names[0] + '_', names[-1][:-1] or '_']), ';']
    script = rendered(random, tokens)
    return assembled(random, script, trace_lines(random, script, random.choice([3, 10, 40]), USUAL))


def array_uses(random, name, size):
    """Statements that read and write an array near its ends, and past them."""
    if size is None:
        return [name, '=', str(random.choice(NUMBERS)), ';', 'print', name, ';']
    index = random.choice([0, size - 1, size - 1, size, size // 2, random.choice([1, 255, 256, 1023, 1024])])
    index = ['-', '1'] if index < 0 else [str(index)]
    value = [str(random.randint(1, 99))]
    if random.random() < 0.5:
        return [name, '[', *index, ']', '=', *value, ';', 'print', name, '[', *index, ']', ';']
    return ['if', 'rank', '{', 'send', *value, 'to', '0', 'tag', '3', ';', '}', 'else', '{', 'recv', name, '[', *index,
            ']', 'from', 'size', '-', '1', 'tag', '3', ';', '}']


def handle_uses(random, name, size):
    """Statements on handles near the ends of an array, and past them."""
    place = name
    if size is not None:
        place += f'[{random.choice([0, size - 1, size - 1, size, size // 2, -1, 255, 256])}]'
    forms = [f'isend {place} rank to 0 tag 1 ;', f'isend {place} 1 to rank tag 2 ; wait {place} ;', f'wait {place} ;']
    return random.choice(forms).replace('[', ' [ ').replace(']', ' ] ').split()


def arrays_case(random):
    """A script with arrays that fill the cells there are, nearly or a little more."""
    sizes = random.choice(SIZES)
    if random.random() < 0.3:
        cuts = sorted(random.randint(0, 1024) for _ in range(random.randint(1, 12)))
        sizes = [high - low for low, high in zip([0, *cuts], [*cuts, 1024 + random.choice([0, 0, 0, 1, -1])])]
    names = made_up_names(random, len(sizes))
    variables = list(zip(names, sizes))
    tokens = header(random.choice([1, 2, 2, 3]))
    for name, size in variables:
        tokens += declaration(name, size)
    handles = list(zip(('rr', 'rs', 'rt', 'ru'), random.choice(HANDLE_SIZES)))
    for name, size in handles:
        tokens += declaration(name, size, 'req')
    uses = [array_uses(random, *random.choice(variables)) for _ in range(random.randint(1, 6))]
    uses += [handle_uses(random, *random.choice(handles)) for _ in range(random.randint(0, 3) if handles else 0)]
    random.shuffle(uses)
    script = rendered(random, sum(uses, tokens))
    return assembled(random, script, trace_lines(random, script, random.choice([8, 25])))


def exchange(random, ranks):
    """What a loop of all ranks runs: each sends and receives as often as it must, or nearly."""
    right, left = '(rank + 1) % size', '(rank + size - 1) % size'
    tag = random.choice(['0', '7', 'i % 3', 'i % 32768', '32767'])
    send, receive = f'{synchronous(random, 0.1)}send i * 10 + rank to {{}} tag {tag};', f'recv {{}} from {{}} tag {tag};'
    target = random.choice(['x', 'a[i % 4]', 'a[rank % 4]'])
    forms = [
        f'if rank % 2 == 0 {{ {send.format(right)} {receive.format(target, left)} }} '
        f'else {{ {receive.format(target, left)} {send.format(right)} }}',
        f'if rank == 0 {{ x = 1; while x < size {{ {receive.format("a[x % 4]", "x")} x = x + 1; }} }} '
        f'else {{ {send.format("0")} }}',
        f'if rank == size - 1 {{ x = 0; while x < size - 1 {{ {send.format("x")} x = x + 1; }} }} '
        f'else {{ {receive.format(target, "size - 1")} }}']
    if ranks == 2:
        forms += [
            f'if rank {{ {send.format("0")} {receive.format(target, "0")} print {target}; }} '
            f'else {{ {receive.format(target, "1")} {send.format("1")} }}']
    return random.choice(forms)


def messages_case(random, mode=RENDEZVOUS):
    """Hundreds of matches and thousands of steps, taken back and taken again by hundreds."""
    ranks = random.choice([2, 2, 3, 4, 8, 16])
    rounds = random.choice([5, 20, 60, 150])
    ending = random.choice(['', 'send 1 to rank tag 0;', 'recv x from rank tag 1;', 'assert rank;', 'print 1 / rank;',
                            'if rank { recv x from 0 tag 2; } else { send 9 to 1 tag 2; }'])
    script = (f'mpd 1;\nranks {ranks};\nvar i;\nvar x;\nvar a[4];\nwhile i < {rounds} {{\n'
              f'  {exchange(random, ranks)}\n{random.choice(["", "  print x;", "  print a[i % 4] + i;"])}\n  i = i + 1;\n}}\n'
              f'{ending}\n').encode()
    return assembled(random, script, trace_lines(random, script, random.choice([250, 500, 1000]), LONG, mode))


def states_case(random, mode=RENDEZVOUS):
    """The state shown behind each step of many ranks."""
    ranks = random.choice([2, 4, 5, 8, 11, 16, 16])
    writer = Writer(random, ranks)
    tokens = header(ranks)
    if not writer.variables:
        writer.variables = [('x', None)]
    tokens += writer.declarations() + writer.protocol()
    for _ in range(random.choice([0, 1, 2])):
        tokens += random.choice([writer.statement(2), writer.receive(), writer.send()])
    if random.random() < 0.4:
        tokens += random.choice([
            ['send', 'rank', 'to', 'rank', 'tag', '0', ';'],
            ['send', 'rank', 'to', '0', 'tag', 'rank', ';'],
            ['if', 'rank', '%', '2', '{', *writer.send(), '}', 'else', '{', *writer.receive(), '}']])
    script = rendered(random, tokens)
    return assembled(random, script, trace_lines(random, script, random.choice([10, 30, 60]), SHOWING, mode))


def traps_case(random):
    """A statement that traps, or nearly does, in each rank, some of them in blocks and behind messages."""
    ranks = random.choice([1, 2, 3])
    text = f'mpd 1; ranks {ranks}; var v; req h; var w[3]; req g[3];\n'
    for _ in range(random.randint(1, 4)):
        statement = random.choice(TRAPPING + TRAPPING_SYNCHRONOUSLY)
        numbers = [random.choice([0, 1, 1, 2, 3, ranks, 'rank', 'size', 'v']) for _ in range(statement.count('{}'))]
        statement = statement.format(*numbers)
        text += random.choice(['{}', 'if rank {{ {} }}', 'if rank == 0 {{ print v; }} else {{ {} }}',
                               'while v < 2 {{ v = v + 1; {} }}', 'v = v + 1; {}', '{} print v;',
                               'if 1 {{ while 1 {{ {} v = v + 1; }} }}']).format(statement) + '\n'
    script = text.encode()
    return assembled(random, script, trace_lines(random, script, random.choice([5, 15, 40])))


def deep_operand(random, depth, variable):
    """An expression with that many brackets and operators, one inside the other, that mostly doesn't trap."""
    text = random.choice(['1', 'rank', variable, '0'])
    while depth:
        form, cost = random.choice([
            ('({})', 1), ('!{}', 1), ('-{}', 1), ('a[{} && 0]', 2), ('1 + ({})', 2), ('({}) * 2 % 7', 3), ('({}) < 3', 2),
            ('0 || ({})', 2), ('(1 && {})', 2), ('size - ({})', 2), ('a[({}) == 9]', 3), ('!({})', 2)])
        if cost <= depth:
            text = form.format(text)
            depth -= cost
    return text


def deep_case(random):
    """Blocks as deep as allowed, entered to the innermost statement, with expressions as deep as allowed."""
    depth = random.choice([60, 63, 64, 64, 64, 65])
    operand_depth = random.choice([0, 8, 62, 63, 64, 64])
    lines = ['mpd 1;', f'ranks {random.choice([1, 2])};', 'var x;', 'var a[2];']
    for level in range(depth):
        test = deep_operand(random, operand_depth, 'x') if random.random() < 0.1 else '1'
        lines.append(random.choice([
            f'if {test} {{', 'if 0 { print 1; } else {', f'while x < {level + 1} {{ x = x + 1;', 'if 1 {', 'print x; if 1 {']))
    lines.append(f'print {deep_operand(random, operand_depth, "x")};')
    lines.append(f'a[{deep_operand(random, operand_depth, "rank")}] = {deep_operand(random, operand_depth, "x")};')
    lines += ['}'] * depth + ['print x;']
    script = '\n'.join(lines).encode()
    return assembled(random, script, trace_lines(random, script, random.choice([90, 220]), LONG))
