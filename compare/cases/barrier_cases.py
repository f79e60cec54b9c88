"""Scripts with barriers: in loops, behind messages, skipped by one rank, behind a trap, or written otherwise than allowed."""

from cases.scripts import synchronous
from cases.walks import RACING, SHOWING, USUAL, Habits, assembled, trace_lines
from model.canonical import now_and_then_canonical
from model.debugger import RENDEZVOUS

DECLARED = 'var x; var i; var a[3]; req h; req r[8];'
# To the release and past it, and back over it again.
OVER_RELEASES = Habits(show=(0.05, 0.3), back=(0.02, 0.08), any_step=(0.02, 0.15), odd=(0.0,), again=(0.3, 0.8),
                       backs=(0, 0, 1, 2, 3, 8), listed=(0.1, 0.5), orders=('any', 'first', 'late', 'last'))
FORWARD = Habits(show=(0.05, 0.2), back=(0.0, 0.02), any_step=(0.0, 0.1), odd=(0.0,), listed=(0.05, 0.3))

# Statements that are written otherwise than the grammar says, or nearly so. `x`, `i`, `a[3]`, `h` and `r[8]` are declared.
REFUSED = (
    'barrier', 'barrier }', 'barrier barrier;', 'barrier 1;', 'barrier x;', 'barrier i;', 'barrier h;', 'barrier nope;',
    'barrier r[0];', 'barrier();', 'barrier {}', 'barrier = 1;', 'x = barrier;', 'print barrier;', 'print barrier + 1;',
    'if barrier { }', 'while barrier { }', 'assert barrier;', 'barrier to 0;', 'barrier tag 0;', 'barrier from any;',
    'barrier any;', 'barrier status x x;', 'barriers;', 'Barrier;', 'BARRIER;', 'barrier1;', 'barrier_;',
    'recv barrier from 0 tag 0;', 'send barrier to 0 tag 0;', 'wait barrier;', 'isend barrier 1 to 0 tag 0;', 'barrier$',
    'barrier $;', 'barrier;;', '; barrier;', 'barrier else { }', 'release;', 'var barrier;', 'req barrier;', 'ssend;',
    'ssend 1;', 'ssend 1 to 0;', 'ssend 1 tag 0;', 'ssend 1 to 0 tag 0', 'ssend to 0 tag 0;', 'ssend h 1 to 0 tag 0;',
    'ssend r[0] 1 to 0 tag 0;', 'ssend x 1 to 0 tag 0;', 'ssend any to 0 tag 0;', 'ssend 1 to any tag 0;',
    'ssend 1 to 0 tag any;', 'ssend 1 from 0 tag 0;', 'ssend 1 to 0 tag 0 status x x;', 'ssend 1 to h tag 0;',
    'sssend 1 to 0 tag 0;', 's send 1 to 0 tag 0;', 'ssend 1 to 0 tag 0, ;', 'ssend 1 to $ tag 0;', 'ssend = 1;',
    'print ssend;', 'var ssend;', 'Ssend 1 to 0 tag 0;', 'issend;', 'issend h;', 'issend 1 to 0 tag 0;',
    'issend x 1 to 0 tag 0;', 'issend r 1 to 0 tag 0;', 'issend h[0] 1 to 0 tag 0;', 'issend h to 0 tag 0;', 'issend h 1 to 0;',
    'issend h 1 to 0 tag 0', 'issend h 1 to any tag 0;', 'issend any 1 to 0 tag 0;', 'issend h 1 to 0 tag 0 status x x;',
    'issend h h 1 to 0 tag 0;', 'issend r[] 1 to 0 tag 0;', 'issend r[0 1 to 0 tag 0;', 'issend nope 1 to 0 tag 0;',
    'sisend h 1 to 0 tag 0;', 'isssend h 1 to 0 tag 0;', 'issend = 1;', 'wait issend;', 'irssend h x from 0 tag 0;',
    'srecv x from 0 tag 0;', 'waitany r to x;',
    # these are well written
    'barrier;', 'barrier ;', 'barrier#\n;', 'barrier;barrier;', 'if 1{barrier;}else{barrier;}', 'while 0{barrier;}',
    'ssend 1 to 0 tag 0;', 'ssend(1)to(0)tag(0);', 'ssend rank to rank tag rank;', 'ssend-1to 0tag 1;',
    'issend h 1 to 0 tag 0;', 'issend r[0]1 to 0 tag 0;', 'issend r[x + i]-1 to rank tag size;',
    'issend h(1)to 0 tag 0; wait h;')

# Who comes to a barrier: all, or not the rank that stands in the braces.
COMING = (
    'barrier;', 'if rank != {0} {{ barrier; }}', 'if rank == {0} {{ }} else {{ barrier; }}', 'assert rank != {0}; barrier;',
    'print 1 / (rank - {0}); barrier;', 'if rank == {0} {{ recv x from rank tag 9; }} barrier;',
    'if rank == {0} {{ wait h; }} barrier;', 'if rank == {0} {{ irecv h x from rank tag 9; wait h; }} barrier;',
    'if rank == {0} {{ ssend 1 to rank tag 9; }} barrier;', 'if rank == {0} {{ isend h 1 to rank tag 9; }} barrier;',
    'i = 0; while i < 2 + (rank == {0}) {{ barrier; i = i + 1; }}', 'i = 0; while i < 2 - (rank == {0}) {{ barrier; i = i + 1; }}',
    'if rank == {0} {{ while 1 {{ }} }} barrier;', 'if rank == {0} {{ barrier; }} else {{ barrier; barrier; }}',
    'barrier; if rank != {0} {{ barrier; }}', 'if rank == {0} {{ barrier; assert 0; }} barrier;')


def coming(random, ranks):
    """Barriers that all ranks come to, or all but one."""
    forms = [random.choice(COMING).format(random.randrange(ranks)) for _ in range(random.choice([1, 1, 2, 3]))]
    forms += ['barrier;'] * random.choice([0, 0, 1])
    random.shuffle(forms)
    between = random.choice(['', 'print rank;', 'x = x + 1;', 'print i;'])
    return f'\n{between}\n'.join(forms) + random.choice(['', '\nprint x;', '\nprint 1 / rank;', '\nbarrier;']) + '\n'


def exchange(random, ranks):
    """What all ranks do between two barriers, mostly so that all of them come to the next one."""
    right, left = '(rank + 1) % size', '(rank + size - 1) % size'
    tag = random.choice(['0', 'i', '0'])
    word = synchronous(random) + 'send'
    forms = [
        '', '', 'print i;', 'a[i % 3] = rank;',
        f'isend r[0] i to {right} tag {tag}; irecv r[1] x from {left} tag {tag}; wait r[0]; wait r[1];',
        f'i{word} r[i % 8] i to {right} tag {tag}; recv x from {left} tag {tag};',
        f'irecv h a[i % 3] from any tag any; {word} rank to {right} tag {tag}; wait h;',
        f'if rank % 2 == 0 {{ {word} i to {right} tag {tag}; }} else {{ recv x from {left} tag {tag}; }}',
        f'if rank == 0 {{ recv x from any tag any status a[0] a[1]; }} else {{ i{word} h rank to 0 tag {tag}; }}',
        f'if rank == {random.randrange(ranks)} {{ {word} i to rank tag 0; }}']
    return random.choice(forms)


def rounds(random, ranks):
    """A loop of all ranks with a barrier or more in it; now and then one rank turns fewer times."""
    count = str(random.randint(1, 4))
    if random.random() < 0.2:
        count += random.choice([' - (rank == {})', ' + (rank == {})', ' + (rank > {})']).format(random.randrange(ranks))
    body = [exchange(random, ranks), 'barrier;']
    if random.random() < 0.3:
        body += [exchange(random, ranks), random.choice(['barrier;', 'if i % 2 == 0 { barrier; }', ''])]
    if random.random() < 0.5:
        random.shuffle(body)
    return f'while i < {count} {{ {" ".join(body)} i = i + 1; }}\n' + random.choice(['', 'print x;', 'barrier;', 'wait r[0];'])


def behind(random, ranks):
    """Messages whose ends stand on either side of barriers, with waits in front and behind."""
    parts = [[] for _ in range(ranks)]
    for number in range(random.randint(1, 6)):
        source, destination, tag = random.randrange(ranks), random.randrange(ranks), random.choice([0, 0, 1])
        send = f'i{synchronous(random)}send r[{number}] {number + 10} to {destination} tag {tag};'
        handle = 'h' if random.random() < 0.2 else f'r[{number}]'
        receive = f'irecv {handle} x from {random.choice([source, "any"])} tag {tag};'
        for rank, statement in ((source, send), (destination, receive)):
            place = random.randint(0, len(parts[rank]))
            parts[rank].insert(place, statement)
            if random.random() < 0.5:
                parts[rank].insert(random.randint(place + 1, len(parts[rank])), f'wait r[{number}];')
    for _ in range(random.choice([1, 1, 2, 3])):
        absent = random.randrange(ranks) if random.random() < 0.1 else None
        for rank, part in enumerate(parts):
            if rank != absent:
                part.insert(random.randint(0, len(part)), 'barrier;')
    text = ''.join(f'if rank == {rank} {{ {" ".join(part)} }}\n' for rank, part in enumerate(parts))
    return text + random.choice(['', 'print x;', 'barrier;'])


def refused(random, _):
    """A text that the grammar doesn't allow, mostly."""
    before = random.choice(['', '', 'barrier;\n', 'if 1 { ', 'issend h 1 to 0 tag 0;\n'])
    behind_it = random.choice(['', '', ' print 2;', ' barrier;', '\n}'])
    closing = ' }' if before == 'if 1 { ' and random.random() < 0.8 else ''
    return f'{before}{random.choice(REFUSED)}{behind_it}{closing}\n'


def barriers_case(random, mode=RENDEZVOUS):
    """A script with barriers and a walk through it, over releases and back."""
    form = random.choice([coming, coming, rounds, rounds, behind, behind, refused])
    ranks = random.choice([1, 2, 3]) if form is refused else random.choice([1, 2, 2, 3, 4, random.randint(5, 16)])
    script = now_and_then_canonical(random, f'mpd 1; ranks {ranks};\n{DECLARED}\n{form(random, ranks)}'.encode())
    habits = random.choice([OVER_RELEASES, OVER_RELEASES, FORWARD, USUAL, SHOWING, RACING])
    return assembled(random, script, trace_lines(random, script, random.choice([20, 50, 100, 200]), habits, mode))
