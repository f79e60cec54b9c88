"""Words for what no trace word tells: decisions, breakpoints, runs forward and back, and what else a trail can do.

compare/runs/worked.py has its rows in these words, and in the copy of the program that compare/runs/policy_probe.py makes they are answered by
the crates. All other words are trace words.

| Line | Answer |
|---|---|
| `decide` | `forced STEP`, `choice STEP, ..` or `leaf OUTCOME` |
| `run N` | `stop CAUSE steps K depth D`; where it is a breakpoint, the cause has its number: `stop break 0 steps 4 depth 4` |
| `run-on N`, `run-back` | the same |
| `break line L`, `break match L`, `break change P C`, `break handle P H` | `break N`, or `refused breaks-full` |
| `unbreak N` | `removed` or `refused no-such-break` |
| `breaks` | `breaks`, and each breakpoint with its number: `breaks 0 line 3, 2 change 1 0` |
| `forget` | forgets the undone steps: `ok D` |
| `copy` | goes on with a copy: `ok D` |

The copy of the program has words for `run-on` and for handles, too, but no walk draws them: these are compared by sessions (compare/runs/sessions.py).
"""

from model import debugger, policy
from model.debugger import REFUSED_BAD_WORD, Debugger, number_of, step_text
from model.policy import BREAK, Breaks, ChangeBreak, Choice, Forced, HandleBreak, LineBreak, MatchBreak

KINDS_OF_BREAKS = {b'line': LineBreak, b'match': MatchBreak, b'change': ChangeBreak, b'handle': HandleBreak}


def decision_text(decided):
    if isinstance(decided, Forced):
        return f'forced {step_text(decided.step)}'
    if isinstance(decided, Choice):
        return 'choice ' + ', '.join(map(step_text, decided.steps))
    return f'leaf {decided.outcome}'


def stop_text(stop, depth):
    cause = f'{BREAK} {stop.number}' if stop.cause == BREAK else stop.cause
    return f'stop {cause} steps {stop.steps} depth {depth}'


def break_of(words):
    """The breakpoint that words name, or None."""
    kind = KINDS_OF_BREAKS.get(words[0]) if words else None
    numbers = [number_of(word) for word in words[1:]]
    needed = [field for field in kind._fields if field not in kind._field_defaults] if kind else []
    return kind(*numbers) if kind and len(numbers) == len(needed) and None not in numbers else None


def break_text(stop):
    word = next(word.decode() for word, kind in KINDS_OF_BREAKS.items() if isinstance(stop, kind))
    return ' '.join([word, *(str(number) for number in stop if number is not None)])


def breaks_text(breaks):
    there = [f'{number} {break_text(stop)}' for number, stop in enumerate(breaks.places) if stop is not None]
    return 'breaks ' + ', '.join(there) if there else 'breaks'


class Driven(Debugger):
    """A debugger that also takes these words."""

    def __init__(self, *beginning):
        super().__init__(*beginning)
        self.breaks = Breaks()

    def answer(self, line):
        words = [word for word in line.replace(b'\t', b' ').split(b' ') if word]
        if len(line) > debugger.LONGEST_LINE or not words:
            return super().answer(line)
        if words[0] in (b'break', b'unbreak', b'breaks'):
            return self.answer_breaks(words)
        return super().answer(line) if (text := self.drive(words)) is None else text

    def answer_breaks(self, words):
        if words == [b'breaks']:
            return breaks_text(self.breaks)
        if words[0] == b'break' and (stop := break_of(words[1:])) is not None:
            number = self.breaks.add(stop)
            return 'refused breaks-full' if number is None else f'break {number}'
        number = number_of(words[1]) if len(words) == 2 and words[0] == b'unbreak' else None
        if number is None:
            return REFUSED_BAD_WORD
        return 'removed' if self.breaks.remove(number) else 'refused no-such-break'

    def drive(self, words):
        """The answer to what goes along the steps by itself; None where the words are none of it."""
        most = number_of(words[1]) if len(words) == 2 and words[0] in (b'run', b'run-on') else None
        if most is not None:
            stop = (policy.run if words[0] == b'run' else policy.run_on)(self, self.breaks, most)
            return stop_text(stop, self.depth)
        if words == [b'run-back']:
            stop = policy.run_back(self, self.breaks)
            return stop_text(stop, self.depth)
        if words == [b'decide']:
            return decision_text(policy.decision(self.world))
        if words in ([b'forget'], [b'copy']):
            del self.steps[self.depth:]
            return f'ok {self.depth}'
        return None
