"""Scripts with many requests at once: waited for early, late, twice or never, and lost."""

from cases.scripts import synchronous
from cases.walks import SHOWING, USUAL, Habits, assembled, trace_lines
from model.debugger import RENDEZVOUS

# Steps taken back again and again, with the state shown.
BACK_AND_FORTH = Habits(show=(0.1, 0.4), back=(0.1, 0.3), any_step=(0.02, 0.2), odd=(0.0,), backs=(0, 1, 2, 4, 9, 30))
# Mostly forward, to the end.
FORWARD = Habits(show=(0.05, 0.2), back=(0.0, 0.02), any_step=(0.0, 0.05), odd=(0.0,))
DECLARED = 'var x; var a[3]; req h; var i; req r[{}];'


def handle(random, count):
    """A handle, by a number or by the rank."""
    number = random.randrange(count)
    return random.choice([f'r[{number}]', f'r[{number}]', 'h', f'r[(rank + {number}) % {count}]'])


def end_of_message(random, form, count, waits):
    """A call that blocks or doesn't; what waits for it stands behind it, or comes to `waits`, or isn't there."""
    if random.random() < 0.25:
        return [form.format('')]
    place = handle(random, count)
    statements = [form.format('i').replace('@', f' {place}')]
    draw = random.random()
    if draw < 0.15:
        statements.append(f'wait {place};')
    elif draw < 0.7:
        waits.append(f'wait {place};')
    elif draw < 0.8:
        waits += [f'wait {place};'] * 2
    return statements


def in_branches(parts):
    """A text in which each rank does its part."""
    return ''.join(f'if rank == {rank} {{ {" ".join(part)} }}\n' for rank, part in enumerate(parts))


def careful(random, ranks):
    """Messages that all have a handle of their own at each end, most of them waited for once."""
    parts, waits = [[] for _ in range(ranks)], [[] for _ in range(ranks)]
    share = random.choice([1, 1, 0.8, 0.3, 0])
    for number in range(random.randint(1, 8)):
        source, destination, tag = random.randrange(ranks), random.randrange(ranks), random.choice([0, 0, 1])
        parts[source].append(f'i{synchronous(random)}send r[{2 * number}] {number + 10} to {destination} tag {tag};')
        cell = random.choice(['x', 'a[0]', 'a[1]', 'a[rank % 3]'])
        parts[destination].append(f'irecv r[{2 * number + 1}] {cell} from {source} tag {tag};')
        for rank, place in ((source, 2 * number), (destination, 2 * number + 1)):
            if random.random() < share:
                waits[rank].append(f'wait r[{place}];')
    for part, waited in zip(parts, waits):
        if random.random() < 0.1:
            del part[random.randrange(len(part) + 1):]
        random.shuffle(waited)
        part += waited
    return DECLARED.format(16) + '\n' + in_branches(parts) + random.choice(['', 'print x;', 'print a[0] + a[1];', 'wait r[rank];'])


def storm(random, ranks):
    """For each rank the ends of some messages, and waits."""
    count = random.randint(1, 5)
    parts, waits = [[] for _ in range(ranks)], [[] for _ in range(ranks)]
    for number in range(random.randint(1, 12)):
        source, destination = random.randrange(ranks), random.randrange(ranks)
        tag = random.choice([0, 0, 0, 1, 2])
        value = random.choice([str(number + 10), f'rank * 100 + {number}', 'x', f'a[{number % 3}] + 1'])
        cell = random.choice(['x', 'x', 'i', 'a[0]', 'a[1]', 'a[rank % 3]', 'a[(i + 1) % 3]'])
        send = f'{{}}{synchronous(random)}send@ {value} to {destination} tag {tag};'
        receive = f'{{}}recv@ {cell} from {source} tag {tag if random.random() < 0.9 else 1};'
        if random.random() < 0.95:
            parts[source] += end_of_message(random, send, count, waits[source])
        if random.random() < 0.95:
            parts[destination] += end_of_message(random, receive, count, waits[destination])
    text = DECLARED.format(count) + '\n'
    for part, waited in zip(parts, waits):
        random.shuffle(waited)
        for wait in waited:
            part.insert(len(part) if random.random() < 0.8 else random.randint(0, len(part)), wait)
        if random.random() < 0.3:
            part.insert(random.randint(0, len(part)), random.choice(['print x;', 'x = x + 1;', 'i = i + 1;', 'wait h;']))
    return text + in_branches(parts).replace('@', '') + random.choice(['', 'print x + i;', 'wait h;', 'print a[0];'])


def in_a_row(random, ranks):
    """What all ranks do: they send and receive a few messages in a loop, and wait for them in another."""
    count = random.randint(1, 6)
    other = random.choice(['(rank + 1) % size', 'rank', 'size - 1 - rank'])
    back = {'(rank + 1) % size': '(rank + size - 1) % size'}.get(other, other)
    tag = random.choice(['0', 'i', 'i % 2'])
    index = random.choice(['i', 'i', '0', f'{count - 1} - i', 'i / 2'])
    calls = [f'i{synchronous(random)}send r[{index}] i * 10 + rank to {other} tag {tag};',
             f'irecv {random.choice([f"r[{count} + {index}]", f"r[{index}]", "h"])} a[i % 3] from {back} tag {tag};']
    random.shuffle(calls)
    wait = random.choice(['wait r[i];', f'wait r[{count} + i];', f'wait r[{count} + i]; wait r[i];', 'wait h; wait r[i];'])
    return (DECLARED.format(2 * count) + f'\nwhile i < {count} {{ {" ".join(calls)} i = i + 1; }}\n'
            + random.choice([f'while i > 0 {{ i = i - 1; {wait} }}', f'i = 0; while i < {count} {{ {wait} i = i + 1; }}', ''])
            + '\nprint a[0]; x = a[1] + a[2];\n')


def lost(random, ranks):
    """One handle for everything, so that most requests are lost."""
    waits = ['wait h;', 'if rank { wait h; }'] if random.random() < 0.4 else []
    statements = []
    for number in range(random.randint(1, 9)):
        other, tag = random.randrange(ranks), random.choice([0, 0, 1])
        statements.append(random.choice([
            f'i{synchronous(random)}send h {number} to {other} tag {tag};', f'irecv h a[{number % 3}] from {other} tag {tag};',
            'if rank == 0 { isend h 9 to size - 1 tag 0; } else { irecv h x from 0 tag 0; }', *waits]))
    last = random.choice(['', '', 'wait h;', 'wait h; wait h; print x;', 'isend r[rank] 1 to 0 tag 0;', 'wait r[rank - 1];'])
    return DECLARED.format(1) + '\n' + '\n'.join([*statements, last]) + '\n'


def requests_case(random, mode=RENDEZVOUS):
    """A script with many requests and a walk through it, forward and back."""
    ranks = random.choice([1, 2, 2, 3, 4, 6])
    form = random.choice([storm, storm, careful, careful, in_a_row, lost])
    script = (f'mpd 1; ranks {ranks};\n' + form(random, ranks)).encode()
    habits = random.choice([BACK_AND_FORTH, BACK_AND_FORTH, USUAL, SHOWING, FORWARD])
    return assembled(random, script, trace_lines(random, script, random.choice([20, 50, 100, 200]), habits, mode))
