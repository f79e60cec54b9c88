"""Scripts with receives of any source and any tag, and with statuses: races, cells that are written, texts that are refused."""

from cases.scripts import synchronous
from cases.walks import RACING, SHOWING, USUAL, assembled, trace_lines
from model.canonical import now_and_then_canonical
from model.debugger import RENDEZVOUS

DECLARED = 'var x; var y; var a[4]; var s; var t; req h; req r[8];'
CELLS = ('x', 'y', 'a[0]', 'a[1]', 'a[rank % 4]', 'a[3]')
ANY = ('any', 'any', 'any')

# Places of a status that aren't there, or are there on some ranks or after some steps alone.
BAD_CELLS = ('a[4]', 'a[-1]', 'a[9]', 'a[rank]', 'a[x]', 'a[1 / x]', 'a[1 / 0]', 'a[s]', 'a[t - 1]', 'a[y + 3]', 'a[size]',
             'a[9223372036854775807 + rank]')
# Sources and tags that are out of range, with those that aren't.
BAD_RANKS = ('any', 'rank', '0', 'size', '-1', 'x - 1', '1 / 0', 'size - 1', 'a[4]')
BAD_TAGS = ('any', '0', '3', '32767', '32768', '-1', '1 / 0', 'a[x - 1]', 'a[0]')

# Statements that are written otherwise than the grammar says, or nearly so. `x`, `y`, `a[4]`, `h` and `r[8]` are declared.
REFUSED = (
    'send any to 0 tag 0;', 'send 1 to any tag 0;', 'send 1 to 0 tag any;', 'isend h any to 0 tag 0;',
    'isend any 1 to 0 tag 0;', 'isend h 1 to any tag 0;', 'isend h 1 to 0 tag any;', 'print any;', 'assert any;',
    'x = any;', 'any = 1;', 'any;', 'wait any;', 'if any { }', 'while any { }', 'recv any from 0 tag 0;',
    'recv a[any] from 0 tag 0;', 'irecv any x from 0 tag 0;', 'irecv r[any] x from 0 tag 0;', 'recv x from any + 1 tag 0;',
    'recv x from (any) tag 0;', 'recv x from -any tag 0;', 'recv x from any any tag 0;', 'recv x from 0 any tag 0;',
    'recv x from any 0 tag 0;', 'recv x from 0 tag any any;', 'recv x from 0 tag any 0;', 'recv x from 0 tag 0 any;',
    'recv x from 1 + any tag 0;', 'recv x from any tag any + 1;', 'recv x any tag any;', 'recv x from any any;',
    'recv x tag any from any;', 'recv x from any;', 'recv from any tag any;', 'recv x from tag any;',
    'recv x from any tag;', 'recv x from any tag ;', 'var any;', 'var status;', 'req any;', 'recv x from Any tag 0;',
    'recv x from any tag ANY;', 'recv x from anyone tag 0;', 'recv x from any tag any', 'recv x from any tag any status',
    'recv x from any tag any status x', 'recv x from any tag any status x y', 'recv x from any tag any status x y }',
    'recv x from any tag any status x;', 'recv x from any tag any status;', 'recv x from any tag any status x y t;',
    'recv x from any tag any status x, y;', 'recv x from any tag any status (x) y;',
    'recv x from any tag any status x (y);', 'recv x from any tag any status 1 y;', 'recv x from any tag any status x 1;',
    'recv x from any tag any status any any;', 'recv x from any tag any status rank size;',
    'recv x from any tag any status status x y;', 'recv x from any tag any status x status y;',
    'recv x from any tag any status x y status x y;', 'recv x status x y from any tag any;',
    'recv x from any status x y tag any;', 'recv x from any tag any stat x y;', 'recv x from any tag any Status x y;',
    'recv x from any tag any statuses x y;', 'recv x from any tag any STATUS x y;', 'recv x from any tag any state x y;',
    'recv x from any tag 0 x y;', 'recv x from any tag any x y;', 'recv x from any tag any status h h;',
    'recv h from any tag any status x y;', 'recv x from any tag any status nope y;',
    'recv x from any tag any status x nope;', 'recv x from any tag any status x[0] y;',
    'recv x from any tag any status x y[0];', 'recv x from any tag any status a[0 y;',
    'recv x from any tag any status a[] y;', 'recv x from any tag any status a[h] y;',
    'recv x from any tag any status a[0][1] y;', 'send 1 to 0 tag 0 status x y;', 'isend h 1 to 0 tag 0 status x y;',
    'wait h status x y;', 'print x status x y;', 'status x y;', 'status = 1;', 'irecv x h from any tag any;',
    'irecv h from any tag any;', 'irecv h h from any tag any;', 'irecv h x from any tag any status h x;',
    'irecv r x from any tag any;', 'recv x from any tag any status x $;', 'recv x from any tag any status $ x;',
    'recv x from any tag $;', 'recv x from $ tag any;', 'recv x from any tag any & ;', 'recv x from any tag any $',
    # these are well written
    'recv x from any tag any;', 'recv x from any tag any status x y;', 'recv x from any tag any status x x;',
    'irecv h x from any tag any status a[0] a[1];', 'recv x from any tag any status a[a[0]] a[-(1 - 2)];',
    'recv x from rank tag any status s t;', 'recv a[any_] from any tag any;',
    'recv x from any tag any # status\nstatus # x\nx y;')

# Statements with a handle, or an array without an index, where a cell belongs.
WRONG_KIND = (
    'recv x from any tag any status h y;', 'recv x from any tag any status x h;', 'recv x from any tag any status r[0] y;',
    'recv x from any tag 0 status y r[1];', 'irecv h x from 0 tag any status h x;', 'irecv h x from any tag any status x h;',
    'recv x from any tag any status a y;', 'recv x from any tag any status y a;', 'irecv r[0] x from 0 tag 0 status s h;')

# Expressions and statements round one at the limits, which are counted for each index alone.
AT_LIMITS = ('recv x from {} tag any status x y;', 'recv x from any tag {} status x y;', 'recv x from any tag any status a[{}] y;',
             'recv x from any tag any status x a[{}];', 'recv a[{}] from any tag any status a[{}] a[{}];',
             'irecv r[{}] a[{}] from {} tag {} status a[{}] a[{}];')


def status(random, bad=0.0):
    """A status, or none: two cells, often the same one, now and then one that isn't there."""
    if random.random() < 0.35:
        return ''
    draw = random.random()
    if draw < 0.4:
        cells = ['s', 't']
    elif draw < 0.6:
        cells = [random.choice(CELLS)] * 2
    else:
        cells = [random.choice(CELLS) for _ in range(2)]
    if random.random() < bad:
        cells[random.randrange(2)] = random.choice(BAD_CELLS)
    return f' status {cells[0]} {cells[1]}'


def receive(random, source, tag, handle=None, bad=0.0):
    """A receive: into a cell, from a source, with a tag, and a status, which may be into that cell too."""
    word = f'irecv {handle}' if handle else 'recv'
    cell = random.choice(CELLS)
    told = status(random, bad)
    if told and random.random() < 0.25:
        told = f' status {cell} {random.choice([cell, "t"])}' if random.random() < 0.6 else f' status s {cell}'
    return f'{word} {cell} from {source} tag {tag}{told};'


def in_branches(parts):
    """A text in which each rank does its part, found by halves, so that it takes few steps to come to it."""
    def chosen(first, last):
        if first == last:
            return ' '.join(parts[first])
        middle = (first + last) // 2
        return f'if rank <= {middle} {{ {chosen(first, middle)} }} else {{ {chosen(middle + 1, last)} }}\n'

    return chosen(0, len(parts) - 1)


def receiver(random, ranks, count):
    """What one rank does that receives so many messages, most of them of any source."""
    part, waits = [], []
    tags = random.choice([ANY, ('any', '0'), ('any', '0', '1'), ('0',)])
    for number in range(count):
        source = 'any' if random.random() < 0.7 else str(random.randrange(ranks))
        handle = f'r[{number}]' if number < 8 and random.random() < 0.6 else None
        part.append(receive(random, source, random.choice(tags), handle))
        if handle:
            waits.append(f'wait {handle};')
        if random.random() < 0.2:
            part.append(random.choice(['print x;', 'print s * 1000 + t;', 'x = x + 1;', 'a[1] = a[0] + t;']))
    if random.random() < 0.5:
        random.shuffle(waits)
    return part + [wait for wait in waits if random.random() < 0.9]


def sender(random, rank, receivers, count):
    """What one rank does that sends so many messages."""
    part = []
    for number in range(count):
        to, tag = random.choice(receivers), random.choice([0, 0, 0, 1, 2, 32767])
        send = synchronous(random) + 'send'
        word = f'i{send} r[{number % 8}]' if random.random() < 0.6 else send
        part.append(f'{word} {rank * 100 + number} to {to} tag {tag};')
    return part


def race(random, ranks):
    """Senders, and one or more ranks that receive what comes first."""
    receivers = random.sample(range(ranks), random.choice([1, 1, 1, min(2, ranks)]))
    counts = {rank: random.choice([0, 1, 1, 1, 2, 2, 3]) for rank in range(ranks)}
    sent = sum(counts[rank] for rank in range(ranks) if rank not in receivers or random.random() < 0.2)
    parts = []
    for rank in range(ranks):
        part = sender(random, rank, receivers, counts[rank]) if rank not in receivers or random.random() < 0.3 else []
        if rank in receivers:
            part += receiver(random, ranks, random.choice([sent, sent, sent + 1, max(0, sent - 1), 1, 2]))
        parts.append(part)
    return in_branches(parts) + random.choice(['', 'print x;', 'print s; print t;', 'print a[0] + a[1] * 7;'])


def gather(random, ranks):
    """Many messages of each rank in the queue of one, which takes them in a loop."""
    count = random.randint(1, 6)
    target = random.choice(['x', 'a[i % 4]', 's', 'a[s % 4]'])
    told = random.choice(['', ' status s t', ' status x x', ' status a[i % 4] a[t % 4]', ' status i i'])
    tag, own = random.choice([('any', 'i'), ('any', '0'), ('0', '0'), ('i % 2', 'i % 2'), ('any', 'rank')])
    other = random.choice(['0', '0', 'rank / 2', '(rank + 1) % size', 'size - 1'])
    send = random.choice([f'isend r[i % 8] i * 100 + rank to {other} tag {own};', f'send i to {other} tag {own};'])
    take = f'recv {target} from {random.choice(ANY + ("(rank + size - 1) % size",))} tag {tag}{told};'
    both = f'{send} {take}' if random.random() < 0.3 else f'if rank == {random.choice([0, ranks - 1])} {{ {take} }} else {{ {send} }}'
    return f'var i;\nwhile i < {count} {{ {both} i = i + 1; }}\n' + random.choice(['', 'print x + s;', take])


def overtaking(random, ranks):
    """Receives that stand behind others which take the same messages, or more, or fewer; sends to oneself among them."""
    parts = [[] for _ in range(ranks)]
    waits = [[] for _ in range(ranks)]
    for number in range(random.randint(2, 8)):
        rank, other = random.randrange(ranks), random.randrange(ranks)
        parts[other].append(f'isend r[{number}] {number + 10} to {rank} tag {random.choice([0, 0, 1])};')
        source, tag = random.choice(['any', str(other), str(other)]), random.choice(['any', '0', '1'])
        parts[rank].append(receive(random, source, tag, f'r[{number}]' if rank != other else 'h'))
        waits[rank].append(f'wait r[{number}];' if rank != other else 'wait h;')
    for part, waited in zip(parts, waits):
        random.shuffle(part)
        part += waited if random.random() < 0.7 else []
    return in_branches(parts) + random.choice(['', 'print x; print s; print t;'])


def written(random, ranks):
    """A rank that sends to itself, and receives with a status into cells that may be one, or not be there."""
    statements = ['x = rank;', random.choice(['', 'y = 2;', 's = 9; t = 8;', 'a[0] = 5;'])]
    for _ in range(random.randint(1, 3)):
        value = random.choice(['7', 'rank', '-1', '9223372036854775807', 'x + 40'])
        tag = random.choice(['0', '3', '32767', 'rank'])
        statements.append(f'isend r[rank % 8] {value} to {random.choice(["rank", "rank", "0"])} tag {tag};')
        often = random.choice([(), ('any',) * 20, ('any',) * 20])
        source, wanted = random.choice(often + BAD_RANKS), random.choice(often + BAD_TAGS)
        handle = random.choice([None, 'h', 'h', 'r[0]', 'r[8]' if random.random() < 0.1 else 'r[1]'])
        statements.append(receive(random, source, wanted, handle, 0.2 if often else 0.8))
        if handle:
            statements.append(f'wait {handle};')
        statements.append(random.choice(['', 'print x;', 'print s; print t;', 'print a[0]; print a[1]; print a[3];']))
    return '\n'.join(statements) + '\n'


def refused(random, ranks):
    """A text that the grammar doesn't allow, mostly, at the place of a source, a tag or a status; or one at the limits."""
    draw = random.random()
    if draw < 0.8:
        statement = random.choice(WRONG_KIND if draw < 0.4 else REFUSED)
    else:
        form = random.choice(AT_LIMITS)
        counts = [random.choice([0, 1, 63, 64, 64, 64, 65 if random.random() < 0.3 else 64]) for _ in range(form.count('{}'))]
        operands = ['-' * (count // 2 * 2) + ('(0)' if count % 2 else '0') for count in counts]
        statement = form.format(*operands)
    before = random.choice(['', '', 'print 1;\n', 'if 1 { ', 'recv y from any tag any status s t;\n'])
    behind = random.choice(['', '', ' print 2;', '\n}', ' recv x from any tag any status s t;'])
    closing = ' }' if before == 'if 1 { ' and random.random() < 0.8 else ''
    return f'{before}{statement}{behind}{closing}\n'


def wildcards_case(random, mode=RENDEZVOUS):
    """A script with wildcards or statuses, and a walk through it, forward and back, among all matches that are enabled."""
    form = random.choice([race] * 3 + [gather, gather, overtaking, overtaking, written, written, refused, refused])
    ranks = random.choice([1, 1, 2, 3]) if form in (written, refused) else random.choice([2, 3, 3, 4, 5, 8, 16 if form is gather else 6])
    script = now_and_then_canonical(random, f'mpd 1; ranks {ranks};\n{DECLARED}\n{form(random, ranks)}'.encode())
    habits = random.choice([RACING, RACING, RACING, USUAL, SHOWING])
    return assembled(random, script, trace_lines(random, script, random.choice([30, 60, 120, 250]), habits, mode))
