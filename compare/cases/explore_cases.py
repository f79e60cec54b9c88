"""Scripts that are made to be explored, and the options of a check of each.

Few ranks mostly, with receives of any source, several senders, rounds, answers that go back, and what goes on by what was received:
deadlocks, leftovers, traps, loops without an end. Limits are drawn at random, or next to where a leaf or the last of them stands.
"""

from random import Random
from typing import Callable, NamedTuple, Optional

from cases import barrier_cases, exchange_cases, slots_cases, waitany_cases, wildcard_cases
from cases.scripts import Writer, header, mutated_bytes, mutated_tokens, rendered, synchronous
from cases.wildcard_cases import in_branches
from model.canonical import now_and_then_canonical
from model.debugger import RENDEZVOUS
from model.explorer import Asked, answer, option_words, report
from model.files import held
from model.language import Fault, read_script
from model.modes import MODES, SLOTS_EVERY, by_turns, is_turn_of_slots

DECLARED = 'var x; var y; var i; var s; var t; var a[4]; req h; req r[8];'

# What a rank does that has received something: it traps, is stuck, goes on for ever, receives more, or leaves something over.
TRAPS = ('assert 0;', 'assert x < y;', 'a[x + 3] = 1;', 'y = 1 / (x - s);', 'send 1 to size tag 0;', 'send x to 0 tag 32768;',
         'y = 9223372036854775807 + x;', 'recv y from -1 tag 0;')
STUCK = ('recv y from 0 tag 9;', 'recv y from any tag 9;', 'barrier;', 'ssend 1 to rank tag 9;', 'irecv h y from any tag 9; wait h;')
ON_AND_ON = ('while 1 { }', 'while 1 { y = 1 - y; }', 'while 1 { isend h 1 to rank tag 8; recv y from any tag 8; }')
MORE = ('recv y from any tag any;', 'recv y from 1 tag 0;', 'recv y from any tag 0; assert y < x;', 'recv y from any tag any; x = y;',
        'while i < 2 { recv y from any tag any; i = i + 1; }')
OVER = ('isend h 1 to rank tag 7;', 'irecv h y from any tag 7;', 'isend h x to 0 tag 7; isend h y to 1 % size tag 7;')
MILD = ('', '', 'print x;', 'a[x % 4] = x;', 'i = i + 1;')


def sending(random, value, to, tag):
    """A send of any kind, which its rank waits for or not."""
    word = synchronous(random) + 'send'
    if random.random() < 0.5:
        return f'{word} {value} to {to} tag {tag};'
    return f'i{word} r[{random.randrange(8)}] {value} to {to} tag {tag};'


def going_on(random, ranks, kinds=(MILD, TRAPS, TRAPS, STUCK, MORE, MORE, OVER)):
    """A statement that hangs on what was received, or two of them."""
    test = random.choice(['x == {}', 'x == {}', 'x > {}', 'x % 2 == {} % 2', 'x < y + {}', 's == {}'])
    one, two = (random.choice(random.choice(kinds)) for _ in range(2))
    behind = f' else {{ {two} }}' if random.random() < 0.25 else ''
    return f'if {test.format(random.randint(1, max(1, ranks - 1)))} {{ {one} }}{behind}'


def going_on_or_never_ending(random, ranks):
    """The same, which may also go on for ever."""
    return going_on(random, ranks, (MILD, TRAPS, TRAPS, STUCK, MORE, MORE, OVER, ON_AND_ON))


def receiving(random, source, tag):
    """A receive, whose status is kept or not."""
    told = random.choice(['', '', ' status s t'])
    return f'recv {random.choice(["x", "x", "y"])} from {source} tag {tag}{told};'


def once_or_more(random, messages):
    """The messages that are received: all of them, or one less where there are more, or one twice."""
    draw = random.random()
    if draw < 0.1 and len(messages) > 1:
        return random.sample(messages, len(messages) - 1)
    return messages + [random.choice(messages)] if draw < 0.2 else messages


class Message(NamedTuple):
    """A message to the first rank: who sends it, and with which tag."""
    rank: int
    tag: int


def messages_of(random, ranks):
    """A message of each other rank to the first one, or two."""
    return [Message(rank, random.choice([0, 0, 1])) for rank in range(1, ranks) for _ in range(random.choice([1, 1, 1, 2]))]


def gathered(random, ranks, receives, messages, value='rank'):
    """A text in which the first rank receives, and the others send these messages."""
    parts = [[sending(random, value, 0, message.tag) for message in messages if message.rank == rank] for rank in range(1, ranks)]
    return in_branches([receives, *parts]) + '\n'


def named_behind_any(random, ranks):
    """A rank that receives what others send to it, each message of any source or of the right one, with any tag or the right one."""
    messages, share = messages_of(random, ranks), random.choice([0.5, 0.7, 0.9])
    wanted = once_or_more(random, messages)
    receives = [receiving(random, *('any' if random.random() < share else part for part in message)) for message in wanted]
    return gathered(random, ranks, random.sample(receives, len(receives)), messages)


def by_value(random, ranks):
    """The same, all of any source, where what was received decides what comes behind it."""
    messages = messages_of(random, ranks)
    receives = ['recv x from any tag any' + random.choice([';', ' status s t;']) for _ in once_or_more(random, messages)]
    for _ in range(random.choice([1, 1, 2])):
        receives.insert(random.randint(1, len(receives)), going_on_or_never_ending(random, ranks))
    value = random.choice(['rank', 'rank', 'rank', 'rank % 2', '3 - rank'])
    return gathered(random, ranks, receives, messages, value) + random.choice(['', '', '', 'barrier;\n', 'assert x < 3;\n'])


def served(random, ranks):
    """Ranks that ask one of them, in rounds, and wait for its answer, which mostly goes to whom the question came from."""
    rounds = random.choice([1, 1, 2])
    count = (ranks - 1) * rounds + random.choice([0, 0, 0, 0, -1, 1])
    answer = random.choice([
        'send x to s tag t;', 'isend h x to s tag t;', 'ssend x to s tag t;', 'send x to s tag t; assert i || s < 3;', 'send x to 1 tag t;',
        'if x != y { send x to s tag t; } y = x + 10;', 'if i == 0 && s == 2 { assert 0; } send x to s tag t;'])
    question = sending(random, 'rank * 10 + i', 0, random.choice(['i', '0', 'rank']))
    return (f'if rank == 0 {{ while i < {count} {{ recv x from any tag any status s t; {answer} i = i + 1; }} }} '
            f'else {{ while i < {rounds} {{ {question} recv y from 0 tag any; i = i + 1; }} }}\n' + random.choice(['', '', 'barrier;']))


def around(random, ranks):
    """All ranks send to one or two others, and receive of any as much, or nearly so."""
    to = random.sample(['(rank + 1) % size', '(rank + size - 1) % size', '0', 'size - 1', 'rank'], random.choice([1, 2, 2]))
    sends = [sending(random, 'rank', place, random.choice(['0', 'rank'])) for place in to]
    count = len(to) + random.choice([0, 0, 0, -1, 1])
    receives = [receiving(random, random.choice(['any', 'any', '(rank + 1) % size']), random.choice(['any', '0'])) for _ in range(count)]
    parts = sends + receives
    if random.random() < 0.3:
        random.shuffle(parts)
    return ' '.join(parts + [random.choice(['', '', going_on(random, ranks)])]) + '\n'


def posted(random, ranks):
    """Many receives of one rank at once, which are waited for in another order, twice, or not at all."""
    messages = messages_of(random, ranks)
    wanted, receives = once_or_more(random, messages)[:8], []
    for number, (rank, tag) in enumerate(random.sample(wanted, len(wanted))):
        source, wanted_tag = random.choice(['any', 'any', 'any', rank]), random.choice(['any', 'any', tag])
        receives.append(f'irecv r[{number}] a[{number % 4}] from {source} tag {wanted_tag};')
    waits = [f'wait r[{number}];' for number in range(len(wanted)) if random.random() < 0.9]
    random.shuffle(waits)
    if random.random() < 0.3:
        receives.insert(random.randint(1, len(receives)), waits.pop() if waits else 'wait r[0];')
    last = random.choice(['', '', 'recv x from any tag any;', 'assert a[0] < a[1];', 'x = a[0]; ' + going_on(random, ranks)])
    return gathered(random, ranks, [*receives, *waits, last], messages)


def in_rounds(random, ranks):
    """Rounds of messages to one rank, with a barrier between them or none."""
    senders = random.randint(2, ranks - 1)
    receives = ' '.join(['recv x from any tag any;'] * max(1, senders + random.choice([0, 0, 0, -1, 1])))
    send = sending(random, 'rank * 10 + i', 0, random.choice(['0', 'i']))
    meet = random.choice(['barrier;', 'barrier;', '', 'if x < 25 { barrier; }', 'if rank { barrier; }'])
    return (f'while i < {random.choice([2, 2, 3])} {{ if rank == 0 {{ {receives} }} else {{ if rank <= {senders} {{ {send} }} }} '
            f'{meet} i = i + 1; }}\n')


def on_and_on(random, ranks):
    """Loops that never end, with choices in them or none, beside ranks that end."""
    loop = random.choice([
        '', 'x = x + 1;', 'isend h i to rank tag 0; recv x from any tag 0;', 'i = i + 1; if i % 3 == 0 { barrier; }',
        'isend h rank to (rank + 1) % size tag 0; recv x from any tag any;', 'irecv h x from any tag any;',
        f'isend h i to 0 tag 0; {going_on_or_never_ending(random, ranks)}',
        'if rank == 0 { recv x from any tag any; } else { send i to 0 tag 0; }'])
    where = random.choice(['1', '1', 'rank == 0', 'rank'])
    before = random.choice(['', '', 'if rank == 0 { recv x from any tag any; } else { send rank to 0 tag 0; }\n'])
    return f'{before}if {where} {{ while {random.choice(["1", "1", "x < 50"])} {{ {loop} }} }}\n'


def wide(random, ranks):
    """As many senders as make numbers of two digits, and a rank or two that receive of any source."""
    receives = ' '.join([receiving(random, 'any', random.choice(['any', '0']))] * random.choice([1, 1, 2, 3]))
    receiver, tag = random.choice([0, ranks - 1, ranks // 2]), random.choice(['0', '0', 'rank % 2'])
    if random.random() < 0.3:
        return f'if rank < 2 {{ {receives} }} else {{ isend r[0] rank to rank % 2 tag {tag}; isend r[1] rank to 0 tag {tag}; }}\n'
    behind = going_on_or_never_ending(random, ranks)
    return f'if rank == {receiver} {{ {receives} {behind} }} else {{ {sending(random, "rank", receiver, tag)} }}\n'


def apart(random, ranks):
    """Each rank does something of its own: messages to and fro, in any order."""
    parts = [[] for _ in range(ranks)]
    for number in range(random.randint(2, 6)):
        one, other, tag = random.randrange(ranks), random.randrange(ranks), random.choice([0, 0, 1])
        parts[one].append(sending(random, number, other, tag))
        parts[other].append(receiving(random, random.choice(['any', 'any', one]), random.choice(['any', tag])))
    for part in parts:
        if random.random() < 0.4:
            random.shuffle(part)
        part += [random.choice(['', '', '', 'barrier;', going_on(random, ranks)])]
    return in_branches(parts)


def any_script(random, ranks):
    """A script of any statements."""
    return ' '.join(Writer(random, ranks).script())


def refused(random, ranks):
    """A text that is refused, mostly."""
    draw = random.random()
    if draw < 0.1:
        return random.choice(['', ' ', '#', 'mpd 2;', 'mpd 1; ranks 0;', ' ' * 65536, ' ' * 65537, 'mpd 1; ranks 1;\x00'])
    if draw < 0.4:
        return f'mpd 1; ranks {ranks};\n{wildcard_cases.DECLARED}\n{wildcard_cases.refused(random, ranks)}'
    writer = Writer(random, ranks)
    tokens = mutated_tokens(random, writer.script(), writer.variables + writer.handles)
    text = rendered(random, tokens)
    return (mutated_bytes(random, text) if draw < 0.6 else text).decode('latin-1')


class Beside(NamedTuple):
    """A seed of scripts of version 2, which stand beside those of version 1 of the same seed."""
    seed: int

    def __str__(self):
        return f'{self.seed}-waitany'


class Kind(NamedTuple):
    """What writes a script of a kind, its share of all, how many ranks it has, what it declares (None: it is a whole script), its version.

    A script that `ends` does so within few steps, whatever is received, so that all of its runs can be followed to their ends; one
    whose steps take the model long gets less fuel at most.
    """
    write: Callable
    share: int
    ranks: tuple
    declared: Optional[str] = DECLARED
    ends: bool = True
    fuel: int = 2000
    version: int = 1


KINDS = {
    'named': Kind(named_behind_any, 12, (2, 3, 3, 4, 4, 5)), 'value': Kind(by_value, 14, (2, 3, 3, 4, 4, 5), ends=False),
    'served': Kind(served, 8, (2, 3, 3, 4)), 'around': Kind(around, 8, (2, 3, 3, 4)), 'posted': Kind(posted, 10, (2, 3, 3, 4, 5)),
    'rounds': Kind(in_rounds, 8, (3, 3, 4)), 'lasting': Kind(on_and_on, 7, (1, 2, 3, 3), ends=False),
    'wide': Kind(wide, 7, (12, 12, 13, 16), ends=False, fuel=200), 'apart': Kind(apart, 8, (3, 3, 4)),
    'race': Kind(wildcard_cases.race, 5, (3, 3, 4), wildcard_cases.DECLARED),
    'overtaking': Kind(wildcard_cases.overtaking, 4, (1, 2, 3), wildcard_cases.DECLARED),
    'behind': Kind(barrier_cases.behind, 3, (2, 3), barrier_cases.DECLARED),
    'exchange': Kind(exchange_cases.head_to_head, 3, (2, 3, 4), exchange_cases.DECLARED),
    'unreceived': Kind(exchange_cases.unreceived, 2, (1, 2, 3), exchange_cases.DECLARED),
    'order': Kind(exchange_cases.in_order, 3, (2, 3, 3), exchange_cases.DECLARED),
    'any': Kind(any_script, 2, (1, 2, 3), None, ends=False), 'refused': Kind(refused, 3, (1, 2, 3), None, ends=False)}

# Those of version 2.
KINDS_OF_2 = {form.__name__: Kind(form, share, ranks, None if form is waitany_cases.any_script else waitany_cases.DECLARED,
                                  form is not waitany_cases.any_script, version=2)
              for form, (ranks, share) in waitany_cases.FORMS.items()}
# Those that stand beside the others where a case is in a mode of slots.
KINDS_OF_SLOTS = {form.__name__: Kind(form, 20, ranks, slots_cases.DECLARED) for form, ranks in slots_cases.FORMS.items()}


def kinds_by(seed, number):
    """The kinds of scripts of which that of a number is drawn by a seed."""
    kinds = KINDS_OF_2 if isinstance(seed, Beside) else KINDS
    return kinds | KINDS_OF_SLOTS if is_turn_of_slots(number) else kinds


# Modes of slots that are written in an odd way, and words that are nearly one, in turn: one of so many cases in a mode of slots.
ODD_EVERY = 3
ODD_SLOTS = ('slots:65536', 'slots:', 'slots:00001', 'slots:65537', 'slots:00000', 'slots:000001', 'slots:00002', 'slots:-1', 'slots:01',
             'slots:+1', 'slots:99999', 'slots:1 ', 'slots:10000', 'slots: 1', 'slots', 'slots1', 'Slots:1', 'SLOTS:0', 'slots:1x', 'slots:x',
             'slots::1', 'slots:1:', ' slots:1', 'slots:1.0', 'slots:\u0661', 'slots:1\n', 'slot:1', 'slots=1', 'slots 1', 'slots:0x1')
RUNS = (1, 2, 3, 5, 8, 13, 20, 30, 40, 40)
FUELS = (1, 3, 8, 20, 30, 40, 60, 80, 100, 150, 200, 200, 500, 500, 2000, 2000)
# How far a script is followed before a limit is drawn next to where a leaf stands.
SEEN_RUNS, SEEN_FUEL = 40, 200


def script_of(random, kind):
    """A script of a kind, in bytes."""
    ranks = random.choice(kind.ranks)
    text = kind.write(random, ranks)
    if kind.declared is not None:
        text = f'{" ".join(header(ranks, kind.version))}\n{kind.declared}\n{text}'
    return now_and_then_canonical(random, text.encode('latin-1'))


def next_to(random, number):
    """The number, or one more or less; 1 at least."""
    return max(1, number + random.choice([-1, 0, 0, 1]))


def limits(random, kind, script, mode):
    """How many runs, and how much fuel: often as many steps as a leaf has, or as many runs as there are leaves, or one more or less."""
    runs, fuel = random.choice(RUNS), min(random.choice(FUELS), kind.fuel)
    draw = random.random()
    if draw < 0.3:
        seen = report(script, mode, SEEN_RUNS, SEEN_FUEL)
        fuel = next_to(random, len(random.choice(seen.leaves).steps))
    if 0.2 < draw < 0.5:
        runs = min(40, next_to(random, len(report(script, mode, SEEN_RUNS, min(fuel, SEEN_FUEL)).leaves)))
    return runs, fuel


def asked(random, kind, script, number):
    """The options of a check of this number; now and then some are left out, or the mode is none."""
    mode = by_turns(random.choice(MODES), number)
    try:
        runs, fuel = limits(random, kind, read_script(script), mode)
    except Fault:
        runs, fuel = random.choice(RUNS), random.choice(FUELS)
    if mode == RENDEZVOUS and random.random() < 0.3:
        mode = None
    if random.random() < 0.015:
        mode = random.choice(['fast', '', 'Buffered', 'buffered ', 'rendezvous,buffered'])
    turn = number // SLOTS_EVERY
    if is_turn_of_slots(number) and turn % ODD_EVERY == ODD_EVERY - 1:
        mode = ODD_SLOTS[turn // ODD_EVERY % len(ODD_SLOTS)]
    if kind.ends and random.random() < 0.1:
        runs, fuel = random.choice([None, runs, runs]), None
    witnesses = random.random() < 0.6
    return Asked(mode, runs, fuel, witnesses, random.random() < 0.3, traps=witnesses and random.random() < 0.5)


class Case(NamedTuple):
    """A script (None: there is no such file), and the options of its check."""
    name: str
    script: Optional[bytes]
    asked: Asked

    def words(self, folder):
        """The words that have a program check it, with its file in a folder."""
        return ('check', held(folder, 'script.mpd', self.script), *option_words(self.asked))

    def wanted(self):
        """What must be answered."""
        return answer(self.script, self.asked)


def kind_of(random, kinds=KINDS):
    """The name of a kind, by their shares."""
    return random.choices(list(kinds), [kind.share for kind in kinds.values()])[0]


def random_case(seed, number):
    """One case, the same each time."""
    random, kinds = Random(f'explore/{seed}/{number}'), kinds_by(seed, number)
    name = kind_of(random, kinds)
    script = script_of(random, kinds[name])
    case = Case(f'{name}-{seed}-{number}', script, asked(random, kinds[name], script, number))
    return case._replace(script=None) if random.random() < 0.01 else case
