"""Small random scripts of version 3: collectives that are alike or not, with barriers between them, arrays, probes, and what stands for several
statements.

compare/runs/version3.py tries all interleavings of them. Their kinds are as those of explore_cases.py, so that a program that reads version 3 can be
compared on them.
"""

import re

from cases.explore_cases import Kind
from cases.wildcard_cases import in_branches
from model.language import OPERATIONS

DECLARED = 'const N = 2; var x; var y; var i; var s; var t; var a[size]; var b[3]; req h; req r[N];'

VALUES = ('rank', 'rank + 1', 'x', 'x + rank', 'y', '3 - rank', 'a[0]', '9223372036854775807', 'rank % 2')
# What hangs on values that a rank has got.
ASKED = ('assert x < 3;', 'assert y != 2;', 'assert a[0] + x < 4;', 'if x == 1 { y = 4; } else if x == 2 { y = 5; } else { y = x; }', 'print x + y;',
         'if y { x = 1; }', 'assert b[0] == 0 || x;', 'x = a[size - 1];', 'print x;', 'print y;')
# What a rank does that forgets what it gave.
FORGETTING = ('x = 0;', 'x = 9;', 'y = 7;', 'a[0] = 8;', 'a[size - 1] = x;', 'x = y;')


def root_of(random, ranks):
    return str(random.randrange(ranks)) if random.random() < 0.9 else random.choice(['size - 1', 'N - 2', 'size', '-1'])


def collective(random, ranks):
    """A collective of any kind."""
    value, root, operation = random.choice(VALUES), root_of(random, ranks), random.choice(OPERATIONS)
    # (one cell is too few where there are several ranks)
    into = 'y' if random.random() < 0.03 else random.choice(['a', 'a', 'b'])
    place = random.choice(['x', 'x', 'y', 'a[0]', 'a[rank]'])
    return random.choice([
        f'bcast {place} from {root};', f'bcast x from {root};', f'reduce {value} with {operation} to {root} into {place};',
        f'allreduce {value} with {operation} into {place};', f'scan {value} with {operation} into {place};', f'gather {value} to {root} into {into};',
        f'scatter a from {root} into {place};', f'allgather {value} into {into};', f'alltoall a into {into};'])


def meeting(random, ranks):
    """A collective, or now and then a barrier."""
    return 'barrier;' if random.random() < 0.2 else collective(random, ranks)


def nearly(random, ranks, statement):
    """The same call with another root, or another operation, where it has one."""
    parts = [(found, str((int(found[0]) + 1) % ranks)) for found in re.finditer(r'(?<=from )\d|(?<=to )\d', statement)]
    parts += [(found, random.choice(OPERATIONS)) for found in re.finditer(r'(?<=with )\w+', statement)]
    if not parts:
        return meeting(random, ranks)
    found, other = random.choice(parts)
    return statement[:found.start()] + other + statement[found.end():]


def other_than(random, ranks, statement):
    """What a rank does in the place of a call that all others make: another one, one that is nearly alike, one more, or none."""
    other = meeting(random, ranks)
    return random.choice([*[nearly(random, ranks, statement)] * 3, other, f'{statement} {other}', f'{other} {statement}', ''])


def begun(random, ranks):
    """What ranks hold before all else."""
    return [random.choice(['', 'x = rank;', 'a[rank] = rank + 1;', 'y = 2;', 'a[0] = rank; a[size - 1] = 5;']) for _ in range(ranks)]


def with_others(random, parts, count=1):
    """The parts of ranks with messages between them, each of which is received, mostly, at any place of theirs."""
    for number in range(count):
        source, destination = random.sample(range(len(parts)), 2)
        send = random.choice(['send', 'send', 'isend h', 'ssend', 'isend r[0]'])
        put_in(random, parts[source], f'{send} {number + 4} to {destination} tag {random.choice([0, 0, 1])};')
        if random.random() < 0.9:
            place = random.choice(['recv x', 'recv y', 'irecv h y', 'irecv r[1] x'])
            put_in(random, parts[destination], f'{place} from {random.choice(["any", source])} tag {random.choice(["any", 0])};')
    return parts


def put_in(random, part, statement):
    part.insert(random.randint(0, len(part)), statement)


def rounds(random, ranks):
    """All ranks come to some rounds, mostly to the same, with something between them."""
    calls = [meeting(random, ranks) for _ in range(random.choice([1, 2, 2, 3]))]
    parts = [[begin] for begin in begun(random, ranks)]
    for call in calls:
        odd = random.randrange(ranks) if random.random() < 0.3 else None
        for number, part in enumerate(parts):
            part.append(other_than(random, ranks, call) if number == odd else call)
            part.append(random.choice(ASKED) if random.random() < 0.4 else '')
    if random.random() < 0.5:
        parts = with_others(random, parts, random.choice([1, 1, 2]))
    return in_branches(parts) + '\n'


def unlike(random, ranks):
    """A round to which one rank comes with a call that is nearly alike, behind one that is or that nobody has."""
    call = collective(random, ranks)
    parts = [[begin, before] for begin, before in zip(begun(random, ranks), [random.choice(['', '', 'barrier;', collective(random, ranks)])] * ranks)]
    odd = random.randrange(ranks)
    for number, part in enumerate(parts):
        part += [nearly(random, ranks, call) if number == odd else call, random.choice(ASKED) if random.random() < 0.3 else '']
    return in_branches(parts) + '\n'


def forget(random, ranks):
    """A root gives a value that hangs on which message came first, and holds it no longer when the others get it."""
    root, other = random.sample(range(ranks), 2)
    given = random.choice([f'bcast x from {root};', f'bcast x from {root};', f'scatter a from {root} into y;', 'scan x with sum into y;',
                           f'reduce x with max to {other} into y;', 'allreduce x with sum into y;', f'gather x to {other} into a;'])
    senders = [number for number in range(ranks) if number != root and random.random() < 0.9]
    parts = [[f'{random.choice(["send", "isend h"])} {number + 1} to {root} tag {random.choice([0, 0, number % 2])};'] if number in senders else []
             for number in range(ranks)]
    parts[root] = taking_turns(random, len(senders) + random.choice([0, 0, 0, -1]))
    for number, part in enumerate(parts):
        is_asked = number != root and random.random() < 0.7
        part += [given, random.choice(ASKED) if is_asked else '', forgetting(random)]
        part.append(random.choice(['', '', 'barrier;', f'bcast x from {root};', random.choice(ASKED)]) if random.random() < 0.4 else '')
    return in_branches(parts) + '\n'


def turned(random, ranks):
    """A rank comes to a round with a root, or an operation, that hangs on which message came first, and goes on where it gets nothing there."""
    operation, other = random.sample(OPERATIONS, 2)
    by_root, alike = random.choice([(f'reduce 1 with {operation} to x % size into t;', f'reduce 1 with {operation} to 1 into t;'),
                                    ('gather 5 to x % size into b;', 'gather 5 to 1 into b;'), ('bcast t from x % size;', 'bcast t from 0;')])
    by_branch = (f'if x == 1 {{ reduce 1 with {operation} to 1 into t; }} else {{ reduce 1 with {other} to 1 into t; }}',
                 f'reduce 1 with {operation} to 1 into t;')
    call, of_others = random.choice([(by_root, alike), by_branch])
    parts = [[f'{random.choice(["send", "isend h"])} {number} to 0 tag 0;', of_others] for number in range(ranks)]
    parts[0] = [*taking_turns(random, ranks - 1), call, forgetting(random)]
    return in_branches(parts) + '\n'


def taking_turns(random, count):
    """Receives of any source, the first of which has what is given."""
    places = ['x', *(['y', 's', 't'] if random.random() < 0.8 else ['x'] * 3)]
    return [f'recv {place} from any tag any;' for place in places[:count]] + [random.choice(['', 'a[0] = x;', 'a[rank] = x;', 'a[size - 1] = x;'])]


def forgetting(random):
    """What a rank does to hold no more of what it gave or got, or to hold something else."""
    return 'x = 0; y = 0; s = 0; t = 0; a[0] = 0; a[size - 1] = 0; a[rank] = 0;' if random.random() < 0.7 else random.choice(FORGETTING)


def raced(random, ranks):
    """Messages before and behind a collective, which may come in another order where not all wait for all."""
    call = collective(random, ranks)
    receiver = random.randrange(ranks)
    parts = [[call] for _ in range(ranks)]
    for number in range(ranks):
        if number != receiver:
            put_in(random, parts[number], f'{random.choice(["send", "send", "isend h"])} {number + 1} to {receiver} tag 0;')
    for _ in range(ranks - 1 + random.choice([0, 0, 0, -1])):
        put_in(random, parts[receiver], f'recv {random.choice("xy")} from {random.choice(["any", "any", (receiver + 1) % ranks])} tag 0;')
    parts[receiver].append(random.choice(['', *ASKED]))
    return in_branches(parts) + '\n'


def probe(random, ranks):
    source = random.choice(['any', 'any', str(random.randrange(ranks))])
    told = random.choice([' status s t', ' status s t', ' status s s', ' status t b[1]', ''])
    return f'probe from {source} tag {random.choice(["any", "any", 0, 1])}{told};'


def behind_probe(random):
    """What a rank does behind a probe: it receives what that told, or something else."""
    return random.choice(['recv x from s tag t;', 'recv x from s tag t;', 'recv x from s tag any;', 'recv x from any tag any;',
                          'recv y from any tag t;', 'assert s < 2;', 'if t { recv x from any tag 1; }', ''])


def probed(random, ranks):
    """A rank asks what has come, beside receives that are posted, of one or two senders with a message or two."""
    parts = [[] for _ in range(ranks)]
    for number in range(1, ranks):
        tags = random.choice([[0], [0], [0, 1], [1, 0], [0, 0]])
        parts[number] = [f'{"send" if random.random() < 0.3 else f"isend r[{place}]"} {10 * number + place} to 0 tag {tag};'
                         for place, tag in enumerate(tags)]
    parts[0] = [random.choice(['', '', 'irecv h y from any tag 0;', 'irecv r[0] x from 1 tag any;', 'recv y from any tag any;'])]
    for _ in range(random.choice([1, 1, 2])):
        parts[0] += [probe(random, ranks), behind_probe(random)]
    if random.random() < 0.3:
        for part in parts:
            part.append(collective(random, ranks))
    if random.random() < 0.2:
        put_in(random, parts[-1], random.choice(['probe from 0 tag 0;', 'send 1 to 0 tag 1;', 'barrier;']))
    return in_branches(parts) + '\n'


def any_of(random, ranks):
    """A wait for any, or for all, beside collectives and probes."""
    parts = [[] for _ in range(ranks)]
    for number in range(1, ranks):
        parts[number] = [f'isend h {number} to 0 tag {random.choice([0, number])};', random.choice(['', 'wait h;', 'waitall h;'])]
    source, tag = random.choice(['any', '1']), random.choice(['any', '0'])
    parts[0] = [f'irecv r[0] x from {source} tag {tag};', random.choice(['irecv r[1] y from any tag any;', 'isend r[1] 5 to 1 tag 3;', '']),
                random.choice(['waitany r to i;', 'waitany r to i;', 'waitall r;'])]
    parts[1].append(random.choice(['', '', 'recv y from 0 tag 3;', 'probe from any tag any status s t;']))
    call = meeting(random, ranks)
    for part in parts:
        put_in(random, part, call)
    return in_branches(parts) + '\n'


def looped(random, ranks):
    """A loop of a few turns."""
    first, last = random.choice(['0', 'rank', 'N - 1']), random.choice(['N', '2', 'size', 'rank + 1'])
    body = random.choice(['x = x + i;', 'print i;', 'i = i + 1;', collective(random, ranks)])
    return f'for i in {first} .. {last} {{ {body} }}'


def exchanged(random):
    """An exchange with neighbours, or with one that may be another."""
    neighbours = ('(rank + 1) % size', '(rank + size - 1) % size')
    to, source = random.choice([neighbours, neighbours, ('1 - rank % 2', '1 - rank % 2'), ('0', 'any'), ('rank', 'any')])
    told = random.choice(['', '', ' status s t'])
    return f'sendrecv x + rank to {to} tag {random.choice(["0", "rank"])} recv {random.choice("xy")} from {source} tag any{told};'


def shortened(random, ranks):
    """What stands for several statements: loops, exchanges, waits for all, and branches in a row."""
    return ' '.join(random.choice([
        looped(random, ranks), looped(random, ranks), exchanged(random), exchanged(random), collective(random, ranks), random.choice(ASKED),
        f'for i in 0 .. N {{ isend r[i] i to (rank + 1) % size tag i; }} irecv h x from any tag any; {random.choice(["waitall r;", "waitall h;"])}',
        f'if rank == 0 {{ x = 1; }} else if rank == {ranks - 1} {{ x = 2; }} else {{ {collective(random, ranks)} }}',
        'if x { } else if y { x = 3; } else if rank { y = 1; }']) for _ in range(random.choice([1, 2, 2, 3]))) + '\n'


FORMS = {rounds: ((2, 2, 3), 7), unlike: ((2, 2, 3), 5), forget: ((2, 2, 3), 7), raced: ((2, 3, 3), 5), probed: ((2, 2, 3), 8),
         turned: ((3,), 4), any_of: ((2, 2, 3), 4), shortened: ((1, 2, 2, 3), 7)}
KINDS_OF_3 = {form.__name__: Kind(form, share, ranks, DECLARED, version=3) for form, (ranks, share) in FORMS.items()}
