"""Scripts whose steps are taken back and again, one by one or many at once, and dropped by others in their place."""

from cases import barrier_cases, exchange_cases, wildcard_cases
from cases.walks import ALONG, assembled, trace_lines
from model.canonical import now_and_then_canonical
from model.debugger import RENDEZVOUS

DECLARED = 'var x; var i; var a[4]; req r[4];'


def alone(random, _):
    """Ranks that do nothing with one another, so that a step of each is another step of the same kind."""
    count = random.choice([1, 2, 3, 10])
    body = random.choice(['a[i % 4] = i * 10 + rank;', 'print i;', 'if i % 2 == rank { x = i; } else { print x; }', 'x = x + rank;'])
    ending = random.choice(['', 'print 1 / rank;', 'assert rank != 1;', 'print x; print a[3];', 'if rank { while 1 { x = x + 1; } }'])
    return f'while i < {count} {{ {body} i = i + 1; }}\n{ending}\n'


def handles(random, _):
    """Requests that are issued, lost and waited for: what a handle holds is there again behind a step back and a redo."""
    to = random.choice(['rank', '0', '(rank + 1) % size'])
    calls = [f'isend r[{random.randrange(4)}] {number} to {to} tag {random.choice([0, 0, 1])};' for number in range(3)]
    calls += [f'irecv r[{random.randrange(4)}] a[{number}] from {random.choice(["any", "rank"])} tag any;' for number in range(3)]
    random.shuffle(calls)
    waits = [f'wait r[{random.randrange(4)}];' for _ in range(random.randint(0, 5))]
    return '\n'.join([*calls, *waits, random.choice(['', 'print a[0];', 'recv x from any tag any;'])]) + '\n'


# What writes the statements, with the declarations of its names.
FORMS = (
    (DECLARED, alone), (DECLARED, handles), (wildcard_cases.DECLARED, wildcard_cases.race),
    (wildcard_cases.DECLARED, wildcard_cases.overtaking), (barrier_cases.DECLARED, barrier_cases.rounds),
    (barrier_cases.DECLARED, barrier_cases.behind), (exchange_cases.DECLARED, exchange_cases.head_to_head),
    (exchange_cases.DECLARED, exchange_cases.in_order))


def trails_case(random, mode=RENDEZVOUS):
    """A script and a walk through it, back and forth along the steps that are there, which others drop now and then."""
    declared, form = random.choice(FORMS)
    ranks = random.choice([2, 2, 3, 4])
    script = now_and_then_canonical(random, f'mpd 1; ranks {ranks};\n{declared}\n{form(random, ranks)}'.encode())
    return assembled(random, script, trace_lines(random, script, random.choice([20, 50, 100, 200]), ALONG, mode))
