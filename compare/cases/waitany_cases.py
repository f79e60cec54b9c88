"""Scripts of version 2, in which ranks wait for any of some requests: of a declaration with a size, without one, or of size 0.

Handles hold nothing, what is complete and what isn't, are waited for twice and lost; loops wait until nothing is left, or once more; what
goes on hangs on which one it was; values, sources, tags and places go to one cell, or to four. `compare/runs/run.py` traces them
(waitany_case), and texts with faults round `waitany` in both versions (waitany_texts_case); explore_cases.py and session_cases.py have the
same scripts explored and talked about.
"""

from cases.scripts import PIECES, Writer, header, mutated_bytes, mutated_tokens, rendered, synchronous
from cases.walks import ALONG, RACING, SHOWING, USUAL, Habits, assembled, trace_lines
from model.canonical import canonical
from model.debugger import RENDEZVOUS
from model.language import Fault, read_script

DECLARED = 'var x; var y; var i; var n; var a[4]; var s; var t; req p[2]; req h; req r[4]; req e[0]; req w[8];'
# The declarations of handles: a place among them by its number, and how many there are.
SIZES = {'p': 2, 'h': 1, 'r': 4, 'w': 8}
# Mostly forward, with what is enabled told again and again, and wakes by one handle taken back for another.
FORWARD = Habits(show=(0.05, 0.3), back=(0.0, 0.03), any_step=(0.05, 0.2), odd=(0.0, 0.05), listed=(0.1, 0.5), other=(0.0, 0.3))
BACK_AND_FORTH = Habits(show=(0.1, 0.4), back=(0.1, 0.3), any_step=(0.02, 0.2), odd=(0.0,), backs=(0, 1, 2, 4, 9, 30), listed=(0.1,),
                        orders=('any', 'late', 'last'), other=(0.0, 0.3))
# Matches before wakes by a handle, so that there are many of these.
MATCHES_FIRST = Habits(show=(0.05, 0.2), back=(0.02, 0.1), any_step=(0.0, 0.05), odd=(0.0,), listed=(0.2, 0.5), orders=('last', 'last', 'late'),
                       other=(0.0, 0.4))
WORDS = Habits(show=(0.05,), back=(0.0, 0.05), any_step=(0.1, 0.3), odd=(0.3, 0.5), listed=(0.1,))

# Places for which one it was: mostly there, some of them the value's own, or one by what the last one was, which may be none.
TARGETS = ('i', 'i', 'i', 'i', 'x', 'y', 'a[0]', 'a[rank % 4]', 'a[n % 4]', 's', 't', 'n')
ODD_TARGETS = ('a[4]', 'a[-1]', 'a[i]', 'a[i + 1]', 'a[1 / n]', 'a[x]', 'a[size]', 'a[9223372036854775807 + rank]')
CELLS = ('x', 'x', 'y', 'i', 'a[0]', 'a[1]', 'a[rank % 4]', 'a[3]')
# What stands behind a wait for any, in a loop or not.
BEHIND = ('', '', 'print i;', 'print x;', 'x = x + i;', 'a[(i + 4) % 4] = x;', 'if i == 0 { print 7; } else { print 8; }', 'assert i >= 0;',
          'assert i == 0;', 'assert x;', 'if i < 0 { n = 9; }', 'a[i] = 1;', 'print 1 / (i + 1);', 'if i == 1 { recv y from rank tag 9; }',
          'if i == 0 { barrier; }', 'if i { isend h 5 to rank tag 7; }', 'wait r[i];', 'wait r[0];', 'if i >= 0 { irecv r[i] y from any tag any; }',
          'waitany r to y;', 'waitany h to y;', 'waitany e to y;')


def target(random):
    return random.choice(ODD_TARGETS if random.random() < 0.04 else TARGETS)


def wait_for_any(random, name):
    return f'waitany {name} to {target(random)};'


def handle(random, name, number):
    """One of the handles of a declaration."""
    return name if name == 'h' else f'{name}[{number % SIZES[name]}]'


def told(random):
    """A status, or none."""
    draw = random.random()
    if draw < 0.6:
        return ''
    return ' status s t' if draw < 0.75 else f' status {random.choice(CELLS)} {random.choice(CELLS)}'


def sending(random, value, to, tag, place=None):
    word = synchronous(random) + 'send'
    return f'{word} {value} to {to} tag {tag};' if place is None else f'i{word} {place} {value} to {to} tag {tag};'


def posting(random, place, source, tag):
    """A receive that has a handle: from its source or any, with its tag or any."""
    source, tag = (part if random.random() < 0.6 else 'any' for part in (source, tag))
    return f'irecv {place} {random.choice(CELLS)} from {source} tag {tag}{told(random)};'


def in_branches(parts):
    """A text in which each rank does its part."""
    return ''.join(f'if rank == {rank} {{ {" ".join(part)} }}\n' for rank, part in enumerate(parts))


def until_none(random, name, count):
    """A loop that waits for any of so many requests, mostly as often as there are, or until nothing is left."""
    behind = random.choice(BEHIND)
    if random.random() < 0.25:
        return f'i = 0; while i >= 0 {{ waitany {name} to i; {behind if random.random() < 0.4 else ""} }}'
    turns = max(0, count + random.choice([0, 0, 0, 1, 1, -1]))
    if turns < 3 and random.random() < 0.6:
        return ' '.join(f'{wait_for_any(random, name)} {random.choice(BEHIND)}' for _ in range(turns))
    return f'while n < {turns} {{ {wait_for_any(random, name)} {behind} n = n + 1; }}'


def collected(random, ranks):
    """A rank that posts receives, and sends too now and then, and waits for any of them again and again; the others send to it."""
    name, receiver = random.choice('prrrwh'), random.randrange(ranks)
    parts, count = [[] for _ in range(ranks)], random.randint(1, min(4, SIZES[name]))
    for number in range(count):
        other, tag, place = random.randrange(ranks), random.choice([0, 0, 1, 2]), handle(random, name, number)
        if random.random() < 0.75:
            parts[receiver].append(posting(random, place, other, tag))
            parts[other].append(sending(random, f'{number + 10}', receiver, tag, None if other != receiver and random.random() < 0.6 else 'w[7]'))
        else:
            parts[receiver].append(sending(random, f'{number + 10}', other, tag, place))
            parts[other].append('irecv w[6] y from any tag any; wait w[6];' if other == receiver else f'recv y from any tag {tag};')
    random.shuffle(parts[receiver])
    parts[receiver].append(until_none(random, name, count))
    return in_branches(parts) + random.choice(['', '', 'print x;', 'barrier;', 'waitany r to y;'])


def mixed(random, ranks):
    """For each rank the ends of some messages, on handles of all declarations, with waits for one and for any among them."""
    parts = [[] for _ in range(ranks)]
    for number in range(random.randint(1, 7)):
        source, destination, tag = random.randrange(ranks), random.randrange(ranks), random.choice([0, 0, 0, 1])
        ends = [handle(random, random.choice('pprrrhw'), random.randrange(4)) for _ in range(2)]
        if random.random() < 0.95:
            parts[source].append(sending(random, random.choice([number + 10, 'rank', 'x', 'i']), destination, tag, random.choice([ends[0]] * 4 + [None])))
        if random.random() < 0.95:
            blocking = f'recv {random.choice(CELLS)} from {random.choice([source, "any"])} tag {tag};'
            parts[destination].append(random.choice([posting(random, ends[1], source, tag)] * 4 + [blocking]))
    for part in parts:
        for _ in range(random.choice([0, 1, 1, 2, 3])):
            wait = random.choice([wait_for_any(random, random.choice('pprrrrhwe')), wait_for_any(random, random.choice('pr')),
                                  f'wait {handle(random, random.choice("prh"), random.randrange(4))};'])
            part.insert(len(part) if random.random() < 0.7 else random.randint(0, len(part)), f'{wait} {random.choice(BEHIND)}')
    return in_branches(parts) + random.choice(['', '', 'print x;', 'print i;', 'waitany w to i;', 'waitany r to i; print i;'])


def alone(random, ranks):
    """A rank that sends to itself, and writes values, sources, tags and places into one cell, into four, or into some twice."""
    first = random.choice(['', 'i = 9;', 'x = 5; y = 6; s = 7; t = 8;', 'a[0] = 3; a[1] = 4; i = 2;'])
    statements, count = [first], random.randint(1, 3)
    for number in range(count):
        four = random.choice([['i'] * 4, ['x', 's', 't', 'i'], ['x', 'x', 'i', 'i'], ['a[0]', 'a[1]', 'a[2]', 'a[3]'],
                              [random.choice(CELLS) for _ in range(4)]])
        receive = f'irecv r[{number}] {four[0]} from {random.choice(["any", "rank", "0"])} tag any status {four[1]} {four[2]};'
        send = sending(random, random.choice(['7', 'rank + 4', '-1', '9223372036854775807']), random.choice(['rank', 'rank', '0']),
                       random.choice(['0', '3', '32767']), random.choice([f'r[{number + 1}]', f'p[{number % 2}]', 'h', None]))
        statements += random.sample([receive, send], 2)
        if random.random() < 0.7:
            statements += [f'waitany r to {four[3]};', random.choice(BEHIND)]
    return '\n'.join([*statements, random.choice(['', 'waitany r to i;', 'wait r[0];', 'waitany p to i;', until_none(random, 'r', count)])]) + '\n'


def for_nothing(random, ranks):
    """Waits for any of handles that hold nothing, or nothing that ever is complete, on some ranks, with what others do beside them."""
    waits = [f'waitany {random.choice("pphrrew")} to {target(random)};' for _ in range(random.choice([1, 1, 2]))]
    before = random.choice(['', '', 'irecv r[1] x from rank tag 9;', 'irecv p[0] x from any tag 9;', 'isend h 1 to rank tag 9;',
                            'issend r[3] 1 to rank tag 9;', 'irecv h x from 0 tag 0; isend h 1 to 0 tag 0; wait h;',
                            'isend p[1] 4 to rank tag 0; recv x from any tag any; wait p[1];'])
    beside = random.choice(['', 'barrier;', 'print 1;', 'recv y from any tag 8;', 'send 1 to 0 tag 8;', 'assert 0;', 'wait h;'])
    return (f'{before}\nif rank == {random.randrange(ranks)} {{ {" ".join(waits)} {random.choice(BEHIND)} }} else {{ {beside} }}\n'
            + random.choice(['', '', 'barrier;', 'print i;', 'waitany r to i;', 'irecv w[0] x from any tag any; waitany w to i;']))


def twice(random, ranks):
    """Handles that are waited for one by one and for any, before and behind, or are lost in between."""
    to, back = random.choice([('rank', 'rank'), ('(rank + 1) % size', '(rank + size - 1) % size'), ('size - 1 - rank', 'size - 1 - rank')])
    calls = [sending(random, 'rank * 10', to, 0, 'p[0]'), posting(random, 'p[1]', back, 0)]
    random.shuffle(calls)
    waits = ['waitany p to i;', 'waitany p to i;', random.choice(['wait p[0];', 'wait p[1];', 'waitany p to i;', 'wait p[i];']),
             random.choice(['', 'irecv p[0] y from any tag any;', sending(random, '3', to, 1, 'p[1]'), 'waitany h to s;', 'wait p[1 - i];'])]
    random.shuffle(waits)
    return ' '.join([*calls, *waits, random.choice(BEHIND), random.choice(['', 'waitany p to x;'])]) + '\n'


def everyone(random, ranks):
    """All ranks send to one another, or to themselves, and each of them waits for any, mostly until nothing is left."""
    routes = [('rank', 'rank'), ('(rank + 1) % size', '(rank + size - 1) % size'), ('size - 1 - rank', 'size - 1 - rank'), ('0', 'any')]
    calls = []
    for place in range(random.choice([1, 1, 2])):
        to, back = random.choice(routes)
        calls += random.sample([sending(random, f'rank * 10 + {place}', to, place, f'r[{2 * place}]'), posting(random, f'r[{2 * place + 1}]', back, place)], 2)
    return '\n'.join([*calls, until_none(random, 'r', len(calls)), random.choice(['', 'print i;', 'barrier;', 'print x;'])]) + '\n'


def served(random, ranks):
    """A rank that posts a receive for each other one, answers whoever came, and posts that receive again."""
    rounds = random.choice([1, 1, 2])
    count = (ranks - 1) * rounds + random.choice([0, 0, 0, 1, -1])
    post = f'irecv r[i] a[i] from {random.choice(["i + 1", "i + 1", "any"])} tag any;'
    again = random.choice([f'if n < {(ranks - 1) * (rounds - 1)} {{ {post} }}', '', post])
    answer = random.choice(['send a[i] to i + 1 tag 0;', 'isend w[i] a[i] to i + 1 tag 0;', 'send x to i + 1 tag 0; assert n || i == 0;'])
    return (f'if rank == 0 {{ while i < size - 1 {{ {post} i = i + 1; }} while n < {count} {{ waitany r to i; {answer} {again} n = n + 1; }} }} '
            f'else {{ while i < {rounds} {{ {sending(random, "rank * 10 + i", 0, 0)} recv y from 0 tag any; i = i + 1; }} }}\n'
            + random.choice(['', '', 'barrier;']))


def raced(random, ranks):
    """Two or three receives, of any source or of named ones, and a wait for any of them, where what came decides what comes behind."""
    parts, count = [[] for _ in range(ranks)], random.choice([2, 2, 3])
    for number in range(count):
        other, tag = random.randrange(1, ranks) if ranks > 1 else 0, random.choice([0, number])
        parts[0].append(f'irecv r[{number}] {random.choice(["x", "y", "a[0]"])} from {random.choice(["any", other])} tag {random.choice([tag, tag, "any"])};')
        parts[other].append(sending(random, f'rank + {number}', 0, tag, random.choice([None, f'w[{number}]'])))
    behind = random.choice(['assert i == 0;', 'assert i;', 'if i == 1 { recv y from any tag 9; }', 'waitany r to y;', 'assert x < y;', 'wait r[0];', 'print i;'])
    parts[0] += ['waitany r to i;', behind, random.choice(['', '', 'waitany r to n;', 'wait r[1];', 'wait r[0]; wait r[1];'])]
    return in_branches(parts)


def any_script(random, ranks):
    """A script of any statements."""
    return rendered(random, Writer(random, ranks, version=2).script()).decode('latin-1')


# What writes the statements of a script, how many ranks it has, and how often.
FORMS = {collected: ((2, 2, 3, 4), 4), mixed: ((1, 2, 2, 3, 4), 5), alone: ((1, 1, 2), 3), for_nothing: ((1, 2, 2, 3), 2), twice: ((1, 2, 2, 3), 2),
         everyone: ((2, 2, 2, 3, 4), 4),
         served: ((2, 3, 4), 2), raced: ((2, 2, 3), 3), any_script: ((1, 2, 2, 3), 3)}


def whole(random, form, ranks):
    """The script of a form, in bytes."""
    text = form(random, ranks)
    return (text if form is any_script else f'{" ".join(header(ranks, 2))}\n{DECLARED}\n{text}').encode('latin-1')


def on_lines(random, script):
    """The script, half of the time in its canonical text, where each statement has a line of its own."""
    try:
        return canonical(read_script(script)) if random.random() < 0.5 else script
    except Fault:
        return script


def waitany_case(random, mode=RENDEZVOUS):
    """A script with waits for any and a walk through it, forward and back."""
    form = random.choices(list(FORMS), [share for _, share in FORMS.values()])[0]
    script = on_lines(random, whole(random, form, random.choice(FORMS[form][0])))
    habits = random.choice([FORWARD, BACK_AND_FORTH, MATCHES_FIRST, MATCHES_FIRST, RACING, USUAL, SHOWING, ALONG, ALONG, WORDS])
    return assembled(random, script, trace_lines(random, script, random.choice([20, 40, 80, 150]), habits, mode))


# Statements that are written otherwise than the grammar says, or nearly so. The names of `DECLARED` are declared.
WRITTEN = (
    'waitany', 'waitany;', 'waitany r', 'waitany r;', 'waitany r;', 'waitany h;', 'waitany r to', 'waitany r to;', 'waitany r to i', 'waitany r to i }', 'waitany to i;',
    'waitany r i;', 'waitany r from i;', 'waitany r tag i;', 'waitany r = i;', 'waitany r, to i;', 'waitany r to i j;', 'waitany r to i i;',
    'waitany r[0] to i;', 'waitany r[] to i;', 'waitany r [ to i;', 'waitany h[0] to i;', 'waitany e[0] to i;', 'waitany (r) to i;',
    'waitany x to i;', 'waitany a to i;', 'waitany a[0] to i;', 'waitany nope to i;', 'waitany nope[0] to i;', 'waitany 1 to i;',
    'waitany any to i;', 'waitany rank to i;', 'waitany status to i;', 'waitany waitany to i;', 'waitany to to i;', 'waitany $ to i;',
    'waitany r $ to i;', 'waitany r & i;', 'waitany r to $;', 'waitany r to i $;', 'waitany r to 1;', 'waitany r to (i);', 'waitany r to -i;',
    'waitany r to any;', 'waitany r to rank;', 'waitany r to size;', 'waitany r to r;', 'waitany r to h;', 'waitany r to r[0];',
    'waitany r to nope;', 'waitany r to nope[0];', 'waitany r to i[0];', 'waitany r to a;', 'waitany r to a[;', 'waitany r to a[];',
    'waitany r to a[0;', 'waitany r to a[0] status x y;', 'waitany r to a[h];', 'waitany r to a[any];', 'waitany r to a[0][1];', 'waitany r to i status s t;',
    'waitany r p to i;', 'waitany r to i to i;', 'waitany r; to i;', 'Waitany r to i;', 'WAITANY r to i;', 'waitanys r to i;', 'waitany_ r to i;',
    'waitany1 r to i;', 'wait any r to i;', 'waitall r;', 'waitsome r to i;', 'wait r to i;', 'wait r[0] to i;', 'wait waitany;', 'waitany = 1;',
    'x = waitany;', 'print waitany;', 'print waitany r to i;', 'if waitany { }', 'if waitany r to i { }', 'while waitany { waitany r to i; }',
    'var waitany;', 'req waitany;', 'irecv waitany x from 0 tag 0;', 'recv waitany from 0 tag 0;', 'send 1 to waitany tag 0;', 'waitany r to i;;',
    'waitany r to i else { }', 'wakeany r to i;', 'iwaitany r to i;', 'waitany r to i; to', 'else waitany r to i;', 'waitany r to i # ;',
    # these are well written
    'waitany r to i;', 'waitany h to i;', 'waitany e to i;', 'waitany p to x;', 'waitany r to a[0];', 'waitany r to a[a[0] + i];', 'waitany r to a[-(1 - 2)];',
    'waitany#\nr#\nto#\ni#\n;', 'waitany\tr\rto\na [ 0 ] ;', 'if 1{waitany r to i;}else{waitany h to i;}', 'while n<2{waitany r to n;n=n+1;}',
    'waitany r to i;waitany r to i;', 'waitany w to a[rank];print i;')

# What a version is written as; half of all are right.
VERSIONS = ('2',) * 12 + ('1',) * 8 + (
    '02', '002', '01', '0', '3', '3', '10', '12', '22', '20', '2 2', '', 'x', 'two', '-2', '$', '2.0', '2;', '1 2', 'waitany', '99999999999999999999')
OPENINGS = ('', '', '', 'print 1;\n', 'if 1 { ', 'while 0 { ', 'if 0 { } else { ', 'irecv r[0] x from any tag any;\n', 'waitany p to y;\n')


def written(random):
    """A statement with a wait for any, mostly otherwise than allowed, or one with about as many operators in its place as allowed."""
    if random.random() < 0.85:
        return random.choice(WRITTEN)
    count = random.choice([63, 64, 64, 65])
    index = random.choice(['-' * count + '0', '(' * count + '0' + ')' * count, '0' + ' + 0' * count, '-' * (count - 1) + 'a[0]'])
    return f'waitany r to a[{index}];'


def as_last(random, version):
    """As many statements as allowed, and a wait for any as the last of them or the first one more."""
    count = random.choice([4094, 4095, 4095, 4096, 4096, 4097])
    last = random.choice(['waitany r to i;', 'waitany r to i;', 'waitany', 'waitany x to i;', 'if 1 { waitany r to i; }', 'wait r[0];', 'waitanys r to i;', '$'])
    return f'mpd {version};ranks 1;var i;var x;req r[1];{"x=1;" * count}{last}\n'


def waitany_texts_case(random, mode=RENDEZVOUS):
    """A text of one version or another with a wait for any, which is refused mostly, and a few words."""
    version, draw = random.choice(VERSIONS), random.random()
    if draw < 0.06:
        script = as_last(random, version).encode('latin-1')
    elif draw < 0.75:
        opening = random.choice(OPENINGS)
        closing = ' }' if opening.endswith('{ ') and random.random() < 0.85 else ''
        behind = random.choice(['', '', ' print 2;', '\n}', ' waitany r to i;', ' waitany'])
        script = f'mpd {version}; ranks {random.choice([1, 2])};\n{DECLARED}\n{opening}{written(random)}{behind}{closing}\n'.encode('latin-1')
    else:
        writer = Writer(random, random.choice([1, 2]), version=2)
        tokens = mutated_tokens(random, writer.script(), writer.variables + writer.handles)
        if random.random() < 0.3:
            place = random.randint(0, len(tokens))
            tokens[place:place] = random.choice([['waitany'], ['to'], ['waitany', 'r', 'to', 'x', ';'], [random.choice(PIECES)]])
        script = rendered(random, tokens)
        script = mutated_bytes(random, script) if random.random() < 0.2 else script
    return assembled(random, script, trace_lines(random, script, 8, mode=mode))
