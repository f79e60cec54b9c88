"""Scripts that show the mode: ranks that send to each other before they receive, to themselves, to nobody, or in order."""

from cases.scripts import synchronous
from cases.walks import RACING, SHOWING, USUAL, Habits, assembled, trace_lines
from model.canonical import now_and_then_canonical
from model.debugger import RENDEZVOUS

DECLARED = 'var x; var y; var i; var a[4]; req h; req r[8];'
# Mostly forward, to the end, since that is where the modes differ.
FORWARD = Habits(show=(0.05, 0.3), back=(0.0, 0.03), any_step=(0.0, 0.1), odd=(0.0,), listed=(0.05, 0.4))
BACK_AND_FORTH = Habits(show=(0.1, 0.4), back=(0.1, 0.3), any_step=(0.02, 0.2), odd=(0.0,), backs=(0, 1, 2, 4, 9), listed=(0.1,))

# Whom each rank sends to, and whom it receives from.
ROUTES = (('(rank + 1) % size', '(rank + size - 1) % size'), ('size - 1 - rank', 'size - 1 - rank'), ('rank', 'rank'),
          ('0', 'any'), ('(rank + 1) % size', 'any'), ('size - 1', '0'))


def word(random):
    return synchronous(random, 0.35) + 'send'


def sending(random, value, to, tag, waits):
    """A send of any kind; what waits for it, where it doesn't block, mostly comes to `waits`."""
    if random.random() < 0.6:
        return f'{word(random)} {value} to {to} tag {tag};'
    handle = random.choice(['h', 'r[i % 8]', 'r[0]', 'r[1]'])
    if random.random() < 0.8:
        waits.append(f'wait {handle};')
    return f'i{word(random)} {handle} {value} to {to} tag {tag};'


def receiving(random, source, tag):
    told = random.choice(['', '', ' status a[2] a[3]'])
    return f'recv {random.choice(["x", "y", "a[i % 4]"])} from {source} tag {random.choice([tag, tag, "any"])}{told};'


def head_to_head(random, ranks):
    """All ranks send first and receive then, once or in a loop; now and then one of them turns it round."""
    to, source = random.choice(ROUTES)
    tag, waits = random.choice(['0', '5', 'i']), []
    send = sending(random, 'rank * 10 + i', to, tag, waits)
    if random.random() < 0.3:
        send = f'if rank == {random.randrange(ranks)} {{ {sending(random, "7", to, tag, waits)} }} else {{ {send} }}'
    receive = receiving(random, source, tag)
    both = [send, *waits, receive] if random.random() < 0.4 else [send, receive, *waits]
    if random.random() < 0.25:
        both = [f'if rank % 2 == 0 {{ {" ".join(both)} }} else {{ {" ".join([receive, send, *waits])} }}']
    text = ' '.join([*both, *random.choice([[], [], ['barrier;'], ['print x;']])])
    count = random.choice([1, 1, 1, 2, 3])
    text = text if count == 1 else f'while i < {count} {{ {text} i = i + 1; }}'
    return text + random.choice(['', '', '\nprint x + y;', '\nbarrier;']) + '\n'


def unreceived(random, ranks):
    """Sends of which some are received by nobody, or late."""
    statements = []
    for number in range(random.randint(1, 6)):
        to, waits = random.choice(['0', 'rank', '(rank + 1) % size', 'size - 1']), []
        send = sending(random, str(number), to, random.choice([0, 0, 1]), waits)
        statements.append(random.choice(['{}', '{}', 'if rank == 0 {{ {} }}', 'if rank {{ {} }}']).format(send))
        statements += waits if random.random() < 0.5 else []
        if random.random() < 0.3:
            statements.append(receiving(random, random.choice(['any', 'rank', '0']), random.choice(['0', '1', 'any'])))
    return '\n'.join(statements) + random.choice(['', '\nbarrier;', '\nprint x;', '\nassert x;']) + '\n'


def in_order(random, ranks):
    """Many messages of one sender, of all kinds of sends, to one receiver that takes them by tag, in order, or any first."""
    count = random.randint(2, 6)
    receiver = random.randrange(ranks)
    waits = []
    sends = [sending(random, str(10 + number), receiver, random.choice([0, 0, 1, 2]), waits) for number in range(count)]
    sources, tags = ('any', 'any', str(random.randrange(ranks))), ('0', '0', '1', 'any')
    receives = [receiving(random, random.choice(sources), random.choice(tags))
                for _ in range(random.choice([count, count, count * (ranks - 1), count - 1]))]
    if random.random() < 0.3:
        sends.insert(random.randint(0, count), 'barrier;')
        receives.insert(random.randint(0, len(receives)), 'barrier;')
    return (f'if rank == {receiver} {{ {" ".join(receives)} }} else {{ {" ".join([*sends, *waits])} }}\n'
            + random.choice(['', 'print x; print y;', 'print a[0];']))


def exchanges_case(random, mode=RENDEZVOUS):
    """A script that goes otherwise in the one mode than in the other, mostly, and a walk through it."""
    form = random.choice([head_to_head, head_to_head, unreceived, in_order])
    ranks = random.choice([1, 2, 2, 2, 3, 4, 6]) if form is not in_order else random.choice([2, 2, 3])
    script = now_and_then_canonical(random, f'mpd 1; ranks {ranks};\n{DECLARED}\n{form(random, ranks)}'.encode())
    habits = random.choice([FORWARD, FORWARD, BACK_AND_FORTH, USUAL, SHOWING, RACING])
    return assembled(random, script, trace_lines(random, script, random.choice([20, 40, 80, 150]), habits, mode))
