"""Compares decisions, breakpoints, runs forward and back, and what else a trail can do, as the crates answer them, with the model.

    python3 compare/runs/policy_probe.py                 300 random scripts, in all modes, and 150 of version 2
    python3 compare/runs/policy_probe.py --two-modes     crates that have no modes `slots:K`
    python3 compare/runs/policy_probe.py --version 1     crates that know version 1 alone, and two modes
    python3 compare/runs/policy_probe.py --planted       each wrong body of compare/probe/broken-policy/ too, in a copy of its own

No trace word tells what these do. So a copy of the program is made that takes words for them (compare/model/policy_words.py): compare/probe/
has what is changed in it, and the crates are called as they are. On random walks through random scripts decisions are asked for, and
runs, breakpoints, redos, jumps back and copies come among the steps; whatever is answered, and what `show` shows behind it, must be,
byte for byte, what the model says (compare/model/policy.py). A crash, a hang or too much output is a difference.

Each run shows that it can fail: the model is broken on purpose (policy_faults.py), the program gets an input on which the broken
model says otherwise, and what that one says must be found different. The status is 0 where there were scripts, all that can be said
was said, nothing differed, and each broken model did.
"""

import os
import sys
import time
from collections import Counter
from concurrent.futures import ProcessPoolExecutor
from random import Random

sys.path.insert(0, os.path.dirname(os.path.dirname(os.path.abspath(__file__))))

from cases import walks
from cases.explore_cases import Beside
from cases.kinds import KINDS
from faults import policy_faults, waitany_faults
from model import language
from model.debugger import divided, rank_state
from model.language import Fault, read_script, read_up_to
from model.modes import MODES, by_turns, has_slots, know_modes
from model.policy_words import Driven
from probe.probing import DIVIDER, PROBES, TOP, Probe, Trial, Walked, all_walked, compare, compare_planted, noticing, parser_of

POLICY = Probe('policy.edit', 'policy.rattle', 'driven.rt', 'policy-main.rattle', ('mpd_policy',))
CHOSEN = ('wildcards', 'wildcards', 'trails', 'barriers', 'exchanges', 'requests', 'script', 'messages')
CHOSEN_OF_2 = ('waitany',)
FORWARD = walks.Habits(show=(0.0,), back=(0.0, 0.05), any_step=(0.0, 0.1), odd=(0.0,), backs=(0, 1, 2, 5), along=(0.0, 0.1),
                       redos=(0, 1, 2, 5))
SLOTS = 'slots:'
# Behind so many steps nothing is asked any more: what a script does for ever would make it long.
MOST_DEPTH = 150
# What must have been answered, or the run compared too little: the first words of an answer, or those of a line.
MUST_MEET = (
    'forced local', 'forced match', 'forced wake', 'forced release', 'choice match', 'leaf done', 'leaf leftovers', 'leaf deadlock',
    'leaf trap', 'stop leaf', 'stop choice', 'stop max', 'stop break', 'stop start', 'break line', 'break match', 'break change',
    'removed', 'refused no-such-break', 'refused breaks-full', 'breaks', 'redo', 'goto', 'copy', 'forget')
MUST_MEET_OF_2 = ('choice wakeany', 'wakeany')


class Walk:
    """A walk through a script, as the copy gets it: its lines, with words among them that drive it."""

    def __init__(self, random, script, mode):
        self.random = random
        read = read_script(script)
        self.driven = Driven(read, mode)
        # what comes between these words is drawn as for run.py, with this debugger at hand
        self.between = walks.Walk(random, read, random.choice([FORWARD, FORWARD, walks.RACING, walks.ALONG]), mode)
        self.between.debugger = self.driven
        self.lines, self.met = [], Counter()

    def take(self, line):
        answer = self.driven.answer(line.removesuffix('\r').encode('latin-1')) or ''
        self.lines.append(line)
        words = [' '.join(text.split()[:2]) for text in (answer, line)]
        self.met.update(words + [line.split()[0] for line in (answer, line) if line.split()])
        return answer

    def line_there(self):
        """A line that some rank is at, or was at, or one beside these."""
        states = [rank_state(rank).split() for world in self.driven.worlds[-20:] for rank in world.ranks]
        lines = sorted({int(state[1]) for state in states if state[0] == 'at'} or {1})
        return self.random.choice(lines) + self.random.choice([0, 0, 0, 0, 1, 2])

    def breakpoint(self):
        """A word for a breakpoint."""
        draw, ranks = self.random.random(), self.driven.world.ranks
        if draw < 0.15:
            return f'unbreak {self.random.choice([0, 0, 1, 2, 3, 63, 64, 999999999])}'
        if draw < 0.2:
            return 'breaks'
        if draw < 0.45:
            rank, cell = self.random.randint(0, len(ranks)), self.random.randint(0, min(5, len(ranks[0].cells)))
            return f'break change {rank} {cell}'
        return f'break {self.random.choice(["line", "match"])} {self.line_there()}'

    def drive(self):
        """What stands among the steps of a walk."""
        draw = self.random.random()
        if draw < 0.3:
            self.take('decide')
        elif draw < 0.5:
            self.take(self.breakpoint())
        elif draw < 0.7:
            self.take(f'run {self.random.choice([0, 1, 1, 2, 3, 5, 10, 40])}')
        elif draw < 0.85:
            self.take('run-back')
        elif draw < 0.9:
            self.take(f'goto {self.random.randint(0, self.driven.depth + 1)}')
        elif draw < 0.93:
            self.take(self.random.choice(['forget', 'copy']))
        else:
            self.choose()
        if self.random.random() < 0.3:
            self.take('show')

    def choose(self):
        """Follows decisions, and takes any candidate of a choice, for some steps."""
        for _ in range(self.random.choice([1, 3, 10])):
            answer = self.take('decide')
            kind, _, steps = answer.partition(' ')
            if kind == 'leaf':
                return
            self.take(self.random.choice(steps.split(', ')))

    def fill(self):
        """Takes all places for breakpoints, and one more."""
        for number in range(66):
            self.take(f'break line {900 + number}')
        self.take('breaks')


def walked(seed, number):
    """The walk of this number; None where its script can't be read, or there is nothing to ask."""
    kinds = CHOSEN_OF_2 if isinstance(seed, Beside) else CHOSEN
    kind, turn = kinds[number % len(kinds)], number // len(kinds)
    mode = by_turns(MODES[turn % 2], turn)
    random = Random(f'policy/{kind}/{seed}/{number}')
    script = divided(KINDS[kind].draw(random, mode))[0]
    try:
        walk = Walk(random, script, mode)
    except Fault:
        return None
    rate = random.choice([0.1, 0.3, 0.6])
    for _ in range(random.choice([30, 60, 120])):
        line = walk.between.line()
        if DIVIDER.decode() not in line:
            walk.take(line)
        if random.random() < rate and walk.driven.depth < MOST_DEPTH:
            walk.drive()
    if random.random() < 0.05:
        walk.fill()
    walk.take('show')
    data = letter_of(mode) + script + b'\1' + ''.join(f'{line}\n' for line in walk.lines).encode('latin-1')
    return Walked(f'{seed}-{number}-{mode}', data, expected(data), walk.met)


def letter_of(mode):
    """The byte that names a mode: its first letter, or how many slots it has."""
    return (mode[:1] if mode in MODES else mode.removeprefix(SLOTS)).encode()


def mode_by(letter):
    """The mode that a byte names."""
    return next((mode for mode in MODES if letter_of(mode) == letter), SLOTS + letter.decode())


def expected(data):
    """What the copy writes for an input."""
    script, _, words = data[1:].partition(b'\1')
    driven = Driven(read_script(script), mode_by(data[:1]))
    lines = [line.removesuffix(b'\r') for line in words.split(b'\n')[:-1]]
    answers = [driven.answer(line) for line in lines]
    return ''.join(f'{text}\n' for text in answers if text is not None).encode() + b'ended' + DIVIDER


def faults():
    """The faults that a walk can show: no walk comes to the last depth."""
    found = [breakage for breakage in policy_faults.breakages() if 'last depth' not in breakage.name and 'full' not in breakage.name]
    return found + faults_of_2() if 2 in language.VERSIONS else found


def faults_of_2():
    """Those of waits for any."""
    return [*waitany_faults.decision_faults(), *waitany_faults.hit_faults()]


TRIAL = Trial(POLICY, walked, expected, faults, f'{PROBES}/broken-policy')


def arguments():
    parser = parser_of(__doc__)
    parser.add_argument('--two-modes', action='store_true', help='the crates have no modes `slots:K`')
    parser.add_argument('--model', action='store_true', help='make no copy: only see that the walks meet all, and notice each fault')
    return parser.parse_args()


def unnoticed_in_model(pool, walks):
    """How many broken models say the same as the sound one on all walks."""
    sought = [pool.submit(noticing, TRIAL, place, walks) for place in range(len(faults()))]
    names = [fault.name for fault, it in zip(faults(), sought) if it.result() is None]
    for name in names:
        print(f'not noticed in the model: {name}')
    print(f'{len(sought)} broken models, {len(sought) - len(names)} noticed')
    return len(names)


def know(chosen):
    """Has the model know what the crates do."""
    read_up_to(chosen.version)
    know_modes(has_slots(chosen))


def main():
    chosen = arguments()
    os.chdir(TOP)
    began = time.monotonic()
    know(chosen)
    with ProcessPoolExecutor(chosen.jobs, initializer=know, initargs=(chosen,)) as pool:
        walks = all_walked(pool, walked, chosen)
        met = sum((walk.met for walk in walks), Counter())
        must_meet = MUST_MEET + MUST_MEET_OF_2 * (chosen.version > 1)
        print(', '.join(f'{name} {met[name]}' for name in must_meet), flush=True)
        wrong = [f'{name} was not met' for name in must_meet if not met[name]]
        print('\n'.join(wrong), end='\n' if wrong else '')
        is_wrong = (unnoticed_in_model(pool, walks) if chosen.model else compare(TRIAL, pool, chosen, walks)) if walks else True
    if chosen.planted:
        is_wrong = compare_planted(TRIAL, chosen, walks) or is_wrong
    print(f'{len(walks)} scripts compared, {time.monotonic() - began:.1f} seconds')
    return 1 if wrong or is_wrong else 0


if __name__ == '__main__':
    sys.exit(main())
