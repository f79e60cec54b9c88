"""Scripts that show how many sends of a rank are buffered at once: many sends, some of which are matched before the next are issued.

`compare/runs/run.py` traces them (slots_case), with matches that are taken back, and other steps in their place; explore_cases.py, session_cases.py
and slots.py have the same scripts explored and talked about.
"""

from cases.scripts import synchronous
from cases.walks import ALONG, RACING, SHOWING, USUAL, Habits, assembled, trace_lines
from cases.wildcard_cases import in_branches
from model.canonical import now_and_then_canonical
from model.modes import RENDEZVOUS

DECLARED = 'var x; var y; var i; var s; var t; var a[4]; req h; req r[8];'
# Mostly forward, and all that there is to see.
FORWARD = Habits(show=(0.1, 0.4), back=(0.0, 0.05), any_step=(0.0, 0.1), odd=(0.0,), listed=(0.1, 0.4))
# Matches as soon as they are enabled, taken back and taken again, between sends that are issued.
TO_AND_FRO = Habits(show=(0.2, 0.5), back=(0.1, 0.25), any_step=(0.02, 0.15), odd=(0.0,), backs=(0, 0, 1, 2, 3, 6, 12), listed=(0.1, 0.4),
                    other=(0.0, 0.3), along=(0.0, 0.1), redos=(0, 1, 2, 4))
# Matches that are taken back at once, and other steps in their place.
TAKEN_BACK = Habits(show=(0.2, 0.5), back=(0.0, 0.05), any_step=(0.0, 0.02), odd=(0.0,), again=(0.05, 0.2), backs=(0, 0, 1, 2), listed=(0.05, 0.2),
                    orders=('any',), other=(0.5, 0.8), along=(0.0, 0.1, 0.2), redos=(0, 0, 1))
# How much of the sends block their rank: rarely, half of them, all.
BLOCKING = (0.15, 0.5, 0.5, 1.0)


def sending(random, number, to, tag, blocking):
    """A send of any kind, synchronous now and then."""
    word = synchronous(random, 0.15) + 'send'
    if random.random() < blocking:
        return f'{word} {10 + number} to {to} tag {tag};'
    return f'i{word} r[{number % 8}] {10 + number} to {to} tag {tag};'


def receiving(random, number, source, tag):
    """A receive, which its rank waits for or not."""
    told = random.choice(['', '', '', ' status s t'])
    source, tag = random.choice([source, source, 'any']), random.choice([tag, tag, tag, 'any'])
    if random.random() < 0.6:
        return f'recv {random.choice(["x", "y", "a[1]"])} from {source} tag {tag}{told};'
    return f'irecv {random.choice(["h", f"r[{7 - number % 8}]"])} x from {source} tag {tag}{told};'


def to_another(random, ranks):
    """One rank sends to the others, who receive it all, or nearly, in order or in another one."""
    blocking, count = random.choice(BLOCKING), random.randint(2, 6)
    messages = [(random.randrange(1, ranks), random.choice([0, 0, number])) for number in range(count)]
    sends = [sending(random, number, to, tag, blocking) for number, (to, tag) in enumerate(messages)]
    sends += [f'wait r[{number}];' for number in range(count) if random.random() < 0.4]
    parts = [sends]
    for rank in range(1, ranks):
        receives = [receiving(random, number, 0, tag) for number, (to, tag) in enumerate(messages) if to == rank]
        if random.random() < 0.4:
            random.shuffle(receives)
        parts.append(receives[:-1] if random.random() < 0.15 else receives)
    return in_branches(parts) + random.choice(['', '', '\nbarrier;'])


def to_itself(random, ranks):
    """Each rank sends to itself, and receives in between."""
    parts = []
    for _ in range(ranks):
        statements = []
        for number in range(random.randint(3, 9)):
            draw = random.random()
            if draw < 0.5:
                statements.append(sending(random, number, 'rank', random.choice([0, 0, 1]), 0.1))
            elif draw < 0.85:
                statements.append(receiving(random, number, 'rank', random.choice([0, 0, 1])))
            else:
                statements.append(f'wait r[{random.randrange(number + 1) % 8}];')
        parts.append(statements)
    return in_branches(parts) if ranks > 1 else ' '.join(parts[0])


def both_ways(random, ranks):
    """All ranks send to each other, some at once, before they receive; in a loop, now and then."""
    blocking, count = random.choice(BLOCKING), random.randint(1, 3)
    to, source = random.choice([('(rank + 1) % size', '(rank + size - 1) % size'), ('size - 1 - rank', 'size - 1 - rank'), ('0', 'any')])
    sends = [sending(random, number, to, number, blocking) for number in range(count)]
    receives = [receiving(random, number, source, number) for number in range(count)]
    waits = [f'wait r[{number}];' for number in range(count) if random.random() < 0.5]
    statements = sends + (waits + receives if random.random() < 0.5 else receives + waits)
    if random.random() < 0.25:
        random.shuffle(statements)
    text, times = ' '.join(statements), random.choice([1, 1, 2, 3])
    return text if times == 1 else f'while i < {times} {{ {text} i = i + 1; }}'


def to_one(random, ranks):
    """Some ranks send to one, each more than once, and that takes them of any source or of each in turn."""
    blocking, times = random.choice(BLOCKING), random.randint(1, 3)
    parts, receives = [], []
    for rank in range(1, ranks):
        parts.append([sending(random, number, 0, random.choice([0, number]), blocking) for number in range(times)])
        receives += [receiving(random, number, rank, 'any') for number in range(times)]
    if random.random() < 0.5:
        random.shuffle(receives)
    return in_branches([receives, *parts])


FORMS = {to_another: (2, 2, 2, 3, 4), to_itself: (1, 1, 1, 2), both_ways: (2, 2, 3, 4), to_one: (2, 3, 3)}


def script_of(random):
    """A script of any form."""
    form = random.choice([to_another, to_another, to_itself, to_itself, both_ways, to_one])
    ranks = random.choice(FORMS[form])
    return now_and_then_canonical(random, f'mpd 1; ranks {ranks};\n{DECLARED}\n{form(random, ranks)}\n'.encode())


def slots_case(random, mode=RENDEZVOUS):
    """A script with many sends, and a walk through it."""
    script = script_of(random)
    habits = random.choice([FORWARD, TO_AND_FRO, TO_AND_FRO, TAKEN_BACK, TAKEN_BACK, TAKEN_BACK, ALONG, USUAL, SHOWING, RACING])
    return assembled(random, script, trace_lines(random, script, random.choice([20, 40, 80, 120]), habits, mode))
