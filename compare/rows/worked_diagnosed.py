"""Worked rows of `diagnose`: scripts that never hang, hang, trap and leave messages over, with the whole text.

Each was worked out by hand from docs/FORMATS.md ("Diagnosis", "Explanations", "The step that decides") and docs/CONSOLE.md ("Long lines").
compare/runs/worked.py has the model answer them, and compare/runs/diagnosed.py a program those of ROWS and LONG_ROWS. Those of LIMITED have smaller
limits than a program has, so they are of the model alone. Which numbers the seed 0 draws is told by the model of `check --sample` (sampler.py), which
compare/runs/sampled.py compares with a program; what becomes of the runs with these choices was worked out by hand.
"""

import re
from typing import NamedTuple, Optional

from model.debugger import BUFFERED, RENDEZVOUS, Result
from model.diagnosed import Diagnosis, Limits
from rows.examples import open_example
from rows.worked_both_stuck import BOTH_STUCK, MORE_LINES, OF_BOTH_STUCK, OF_MORE_LINES, OF_TWO_KINDS, TWO_KINDS
from rows.worked_ends import FREED_SLOT, THREE_SENDERS, TWO_REQUESTS
from rows.worked_explorer import LOW_WANTED, gathering
from rows.worked_marks import MARKED, MARKED_DIAGNOSIS
from rows.worked_outcomes import BAD_SCRIPT, HIGH_WANTED, LAST_OF_ALL, SWAPPED_TAGS, TRAPS, TWO_ASSERTS, taken
from rows.worked_runs import EMPTY, ON_AND_ON, THREE, UNRECEIVED


class DiagnosedRow(NamedTuple):
    """A script (None: no file), what is asked of it, the text that is written, the status, and what stands on standard error."""
    script: Optional[str]
    asked: Diagnosis
    text: str
    status: int
    errors: str = ''

    def case(self):
        return self.asked._replace(script=None if self.script is None else self.script.encode())

    def wanted(self):
        return Result(self.text.encode(), self.errors.encode(), self.status)


def asked(**options):
    """What is asked of a script."""
    return Diagnosis('row', None, **options)


def row(script, status, *lines, **options):
    """A row of a script that is one, by its lines, some of which may be one text. What it can do in rendezvous is told of the row's mode."""
    told = ''.join(f'{line}\n' for line in lines)
    if options.get('mode') is not None:
        told = re.sub(r'(it can (?:hang|trap)) in rendezvous: ', rf'\1 in {options["mode"]}: ', told)
    return DiagnosedRow(script, asked(**options), told, status)


def refused(script, errors, status, **options):
    """A row of what is refused."""
    return DiagnosedRow(script, asked(**options), '', status, f'mpdbg: {errors}\n')


def runs_of(choices, file='script.mpd', picture='run'):
    """The commands of the run with some choices, and what its picture is called."""
    return f"  ./mpdbg debug {file} --ends --choices '{choices}'\n  ./mpdbg picture {file} --ends --choices '{choices}' > {picture}.svg"


SLOTTED, WITH_BUFFERS = 'script.mpd --mode slots:1', 'script.mpd --mode buffered'
FROM_START = '  decided from the start: every run hangs or traps'
# (It has 79 bytes.)
HINT = '  at the prompt of `debug`, `blame` goes to this step and `redo all` to the end'
MORE = 'not everything was tried: there are more runs than these'


def others(file='script.mpd'):
    """The command that tries other runs."""
    return f'  ./mpdbg check {file} --sample 65536 --group --explain'


def in_turn(file='script.mpd'):
    """The command that diagnoses the modes in turn."""
    return f'  ./mpdbg diagnose {file} --modes 4'


def first_of(runs):
    """So many runs, where there are more."""
    return runs if runs in ('0 runs', '1 run') else f'the first {runs}'


def several(count):
    """How many of how many runs, as a heading has them: of several one is told."""
    return count if count.startswith('1 of ') else f'{count}, one of them:'


def always(does, runs, mode=RENDEZVOUS, file='script.mpd'):
    """What is told where every run hangs or traps, and an empty line."""
    return f'it always {does} in {mode} ({runs})', f'{in_turn(file)}\n'


# ---- never

def never(counts, mode=RENDEZVOUS):
    """What is told of a script that never hangs, by how many runs and states it has."""
    return f'it never hangs or traps in {mode}, whatever is taken first ({counts})'


# 79 bytes: 37 up to the mode rendezvous, 27 that follow, and 15
ONE_RUN = never('1 run, 1 state')
# Three messages in any order. Of which ones are left nothing else tells states apart: one choice of three, three of two, three of one, and each
# candidate comes to a state, 3 + 3 * 2 + 3 * 1; with the first it is 13.
# (64 bytes stand before the counts, and 18 are left: two too many; in the mode buffered they are 80.)
SIX_RUNS, SIX_BUFFERED = never('6 runs, 13\n        states'), never('6 runs, 13 states', BUFFERED)
# Of each race both messages are left, one or the other, or none, which have 2, 1, 1 and 0 candidates: 4 in all, beside 4 * 4 * 4 states of the
# others, four times, and the first state.
# (80 bytes stand before the last blank.)
RACES = never('40320 runs, 1025\n        states')
# Of each of 64 rounds one of two requests is taken, and nothing tells which any more as the next is begun: 64 choices of two, and the first state.
# 80 bytes stand before the last blank at which it can be cut
MANY_RUNS = never('more runs than can\n        be counted, 129 states', BUFFERED)
WELL = (
    row(EMPTY, 0, ONE_RUN, in_turn()), row(EMPTY, 0, ONE_RUN, in_turn(), mode=RENDEZVOUS, strict=True),
    row(EMPTY, 0, never('1 run, 1 state', 'slots:1'), in_turn(), mode='slots:1'),
    row(THREE_SENDERS, 0, SIX_RUNS, in_turn()), row(THREE_SENDERS, 0, SIX_BUFFERED, in_turn(), mode=BUFFERED, strict=True))

# ---- deadlocks

# One of two runs. The first line of the explanation has just 80 bytes.
OF_STOLEN = '''\
  rank 0 waits at line 9, 0.1 recv from 1 tag 7: for a send of rank 1 with tag 7
    the last that fits is taken: line 13, 1.0 send to 0 tag 7 value 42, by line
        8, 0.0 irecv from any tag any
  rank 2 waits at line 13, 2.0 send to 0 tag 1 value 5: for a receive of rank 0
        from rank 2 with tag 1
    the last that fits is taken: line 8, 0.0 irecv from any tag any, by line 13,
        1.0 send to 0 tag 7 value 42
  rank 0 waits for rank 1 (ended)
  rank 2 waits for rank 0'''
STOLEN = open_example('stolen_message.mpd').decode()
BY_MESSAGE = f'''\
  decided at depth 9: rank 0, line 8, takes the message of rank 1 (line 13,
        value 42, tag 7); with that of rank 2 (line 13, value 5, tag 1) it need
        not hang or trap
{HINT}'''
# Always, in one run.
OF_SWAPPED = '''\
it always hangs in rendezvous (1 run)
  ./mpdbg diagnose script.mpd --modes 4

deadlock at lines 7, 10: 1 of 1 run
  rank 0 waits at line 7, 0.0 send to 1 tag 1 value 640: for a receive of rank 1
        from rank 0 with tag 1
    nearest miss: line 10, 1.0 recv from 0 tag 2: another tag
  rank 1 waits at line 10, 1.0 recv from 0 tag 2: for a send of rank 0 with tag
        2
    nearest miss: line 7, 0.0 send to 1 tag 1 value 640: another tag
  rank 0 waits for rank 1
  rank 1 waits for rank 0
  a cycle, where each waits for the next: rank 0, rank 1, rank 0'''
# Four ends of one bug: two messages of one rank come first. Three candidates are left of the others then, and each of these waits.
OF_TWO_EACH = '''\
it can hang in rendezvous: 4 of 2164 runs

deadlock at lines 11, 15: 4 of 2164 runs, one of them:
  rank 0 waits at line 11, 0.2 recv from 1 tag 0: for a send of rank 1 with tag
        0
    nearest miss: line 15, 2.0 send to 0 tag 0 value 2: another source
    the last that fits is taken: line 16, 1.1 send to 0 tag 0 value 1, by line
        10, 0.1 recv from any tag 0
  rank 2 waits at line 15, 2.0 send to 0 tag 0 value 2: for a receive of rank 0
        from rank 2 with tag 0
    nearest miss: line 11, 0.2 recv from 1 tag 0: another source
    the last that fits is taken: line 10, 0.1 recv from any tag 0, by line 16,
        1.1 send to 0 tag 0 value 1
  rank 3 waits at line 15, 3.0 send to 0 tag 0 value 3: for a receive of rank 0
        from rank 3 with tag 0
    nearest miss: line 11, 0.2 recv from 1 tag 0: another source
    the last that fits is taken: line 10, 0.1 recv from any tag 0, by line 16,
        1.1 send to 0 tag 0 value 1
  rank 4 waits at line 15, 4.0 send to 0 tag 0 value 4: for a receive of rank 0
        from rank 4 with tag 0
    nearest miss: line 11, 0.2 recv from 1 tag 0: another source
    the last that fits is taken: line 10, 0.1 recv from any tag 0, by line 16,
        1.1 send to 0 tag 0 value 1
  rank 0 waits for rank 1 (ended)
  rank 2 waits for rank 0
  rank 3 waits for rank 0
  rank 4 waits for rank 0
  decided at depth 15: rank 0, line 10, takes the message of rank 1 (line 16,
        value 1, tag 0); with that of rank 2 (line 15, value 2, tag 0) it need
        not hang or trap
  at the prompt of `debug`, `blame` goes to this step and `redo all` to the end'''
TWO_EACH = open_example('two_each.mpd').decode()
# Two bugs: rank 0 is stuck where rank 1 comes first, and else behind the message of rank 1.
TWO_HANGS = '''mpd 1; ranks 3; var x; req r;
if rank == 0 {
  recv x from any tag 0;
  if x == 1 { recv x from 0 tag 9; }
  recv x from any tag 0;
  recv x from 0 tag 8;
} else { isend r rank to 0 tag 0; }'''
TO_ITSELF = '  rank 0 waits for rank 0\n  a cycle, where each waits for the next: rank 0, rank 0'


def waits_for_itself(line, call, tag):
    """What is told of rank 0, which waits for a message of itself."""
    return f'  rank 0 waits at line {line}, {call} recv from 0 tag {tag}: for a send of rank 0 with tag {tag}'


def still_sent(line, *ranks):
    """What is told of messages to rank 0 that are left over, by the line that sends them and the ranks."""
    return '\n'.join(f'  left over: line {line}, {rank}.0 isend to 0 tag 0 value {rank}' for rank in ranks)


# An end at the lines of the first one comes behind another bug: of the senders two are left, and rank 0 is stuck at line 5 by rank 2, else at line 6.
FIRST_AND_LAST = '''mpd 1; ranks 4; var x;
if rank == 0 {
  recv x from any tag 0;
  if x == 2 {
    recv x from 0 tag 9;
  } else { recv x from 0 tag 8; }
} else { send rank to 0 tag 0; }'''


def left_waiting(rank, line, other, other_line=None, receive=3):
    """What is told of a sender whose message isn't received, since that of another rank is, by the line of both, or of each, and that of the
    receive."""
    return (f'  rank {rank} waits at line {line}, {rank}.0 send to 0 tag 0 value {rank}: for a receive of rank 0\n'
            f'        from rank {rank} with tag 0\n'
            f'    the last that fits is taken: line {receive}, 0.0 recv from any tag 0, by line {other_line or line}, {other}.0\n'
            f'        send to 0 tag 0 value {other}')


def left_waiting_of(one, other, taken_by):
    """The same of two senders, and whom all wait for."""
    return (f'{left_waiting(one, 7, taken_by)}\n{left_waiting(other, 7, taken_by)}\n  rank 0 waits for rank 0\n  rank {one} waits for rank 0\n'
            f'  rank {other} waits for rank 0\n  a cycle, where each waits for the next: rank 0, rank 0\n{FROM_START}')


# Six steps are before the choice, of each rank two. Where rank 1 comes first, seven follow: a match, two wakes, the `if`, two prints, and the
# receive; where rank 2 does, five. Without the prints both have five.
LONGER_FIRST = '''mpd 1; ranks 3; var x;
if rank == 0 {
  recv x from any tag 0;
  if x == 1 { print x; print x; }
  recv x from 0 tag 9;
} else { send rank to 0 tag 0; }'''
LONGER_LAST, AS_LONG = LONGER_FIRST.replace('x == 1', 'x == 2'), LONGER_FIRST.replace('print x; print x; ', '')


def of_longer(rank, taken_by):
    """What is told of both, by the one in which a sender is left."""
    return (*always('hangs', '2 runs'), 'deadlock at lines 5, 6: 2 of 2 runs, one of them:', waits_for_itself(5, '0.1', 9), left_waiting(rank, 6, taken_by),
            f'  rank 0 waits for rank 0\n  rank {rank} waits for rank 0\n  a cycle, where each waits for the next: rank 0, rank 0', FROM_START,
            runs_of(taken_by - 1))


# Two bugs with a line in common: rank 0 is stuck, and one sender or the other is left.
ONE_SENDER_LEFT = '''mpd 1; ranks 3; var x;
if rank == 0 { recv x from any tag 0; recv x from 0 tag 9; }
if rank == 1 { send 1 to 0 tag 0; }
if rank == 2 { send 2 to 0 tag 0; }'''


def one_left(rank, line, other, other_line):
    """What is told of that, by the sender that is left and its line, and the other one."""
    return (f'deadlock at lines 2, {line}: 1 of 2 runs', waits_for_itself(2, '0.1', 9), left_waiting(rank, line, other, other_line, 2),
            f'  rank 0 waits for rank 0\n  rank {rank} waits for rank 0\n  a cycle, where each waits for the next: rank 0, rank 0', FROM_START,
            runs_of(other - 1, picture=f'run-{other}'))


# Rank 0 waits at a later line than rank 1.
LATER_LINE_FIRST = '''mpd 1; ranks 2; var x;
if rank == 1 {
  recv x from 1 tag 0;
} else { recv x from 0 tag 0; }'''
OF_LATER_LINE = '''\
it always hangs in rendezvous (1 run)
  ./mpdbg diagnose script.mpd --modes 4

deadlock at lines 3, 4: 1 of 1 run
  rank 0 waits at line 4, 0.0 recv from 0 tag 0: for a send of rank 0 with tag 0
  rank 1 waits at line 3, 1.0 recv from 1 tag 0: for a send of rank 1 with tag 0
  rank 0 waits for rank 0
  rank 1 waits for rank 1
  a cycle, where each waits for the next: rank 0, rank 0
  a cycle, where each waits for the next: rank 1, rank 1'''
# The same call is blocked at line 5 by rank 1, and at line 6 by rank 2: `check` tells both outcomes alike, and they are two bugs.
SAME_CALL = '''mpd 1; ranks 3; var x; req r;
if rank == 0 {
  recv x from any tag 0;
  if x == 1 {
    recv x from 0 tag 9;
  } else { recv x from 0 tag 9; }
} else { isend r rank to 0 tag 0; }'''
# Twelve ranks, of which each waits for itself at a line of its own, from 101 on. Lines of ranks 0 to 9 are too long by two bytes, those of others by
# six.
ALONE = ('mpd 1; ranks 12; var x;' + '\n' * 100
         + ''.join(f'if rank == {rank} {{ recv x from rank tag 0; }}\n' for rank in range(12)))
OF_ALONE = (
    *always('hangs', '1 run'), 'deadlock at lines 101, 102, 103, 104, 105, 106, 107, 108, 109, 110, 111, 112: 1\n        of 1 run',
    *(f'  rank {rank} waits at line {101 + rank}, {rank}.0 recv from {rank} tag 0: for a send of rank {rank} with{last}'
      for ranks, last in ((range(10), ' tag\n        0'), ((10, 11), '\n        tag 0')) for rank in ranks),
    *(f'  rank {rank} waits for rank {rank}' for rank in range(12)),
    *(f'  a cycle, where each waits for the next: rank {rank}, rank {rank}' for rank in range(12)), FROM_START, runs_of(''))
LONG_NAME = 'a name of a file by which each command is longer than eighty bytes, by itself.mpd'
# Names that a shell reads otherwise, or a command, and the words for them.
WORDS = (('a b.mpd', "'a b.mpd'"), ("it's.mpd", r"'it'\''s.mpd'"), ('$(x);', "'$(x);'"), ('-x.mpd', './-x.mpd'), ('-x y', "'./-x y'"),
         ("'", r"''\'''"), ("'a'b'", r"''\''a'\''b'\'''"), ('-', './-'), ('~/x', "'~/x'"), ('a=b', "'a=b'"), ('é.mpd', "'é.mpd'"),
         ('A-Z_az.09/+,:@%', 'A-Z_az.09/+,:@%'))
STUCK_ONCE = 'it can hang in rendezvous: 1 of 2 runs\n', 'deadlock at lines 9, 13: 1 of 2 runs', OF_STOLEN, BY_MESSAGE
HANGS = (
    row(STOLEN, 1, *STUCK_ONCE, runs_of(0)), row(STOLEN, 1, *STUCK_ONCE, runs_of(0), mode=RENDEZVOUS, strict=True),
    row(STOLEN, 1, *STUCK_ONCE, runs_of(0, f"'{LONG_NAME}'"), file=LONG_NAME),
    *(row(STOLEN, 1, *STUCK_ONCE, runs_of(0, word), file=name) for name, word in WORDS if '/' not in name),
    row(THREE_SENDERS, 0, SIX_BUFFERED, in_turn(r"'it'\''s.mpd'"), mode=BUFFERED, file="it's.mpd"),
    row(SWAPPED_TAGS, 1, OF_SWAPPED, FROM_START, runs_of('')),
    row(TWO_HANGS, 1, *always('hangs', '2 runs'), 'deadlock at line 4: 1 of 2 runs', waits_for_itself(4, '0.1', 9), TO_ITSELF, still_sent(7, 2), FROM_START,
        runs_of(0, picture='run-1'),
        '\ndeadlock at line 6: 1 of 2 runs', waits_for_itself(6, '0.2', 8), TO_ITSELF, FROM_START, runs_of('1 0', picture='run-2')),
    row(FIRST_AND_LAST, 1, *always('hangs', '3 runs'), 'deadlock at lines 6, 7: 2 of 3 runs, one of them:', waits_for_itself(6, '0.1', 8),
        left_waiting_of(2, 3, 1), runs_of(0, picture='run-1'),
        '\ndeadlock at lines 5, 7: 1 of 3 runs', waits_for_itself(5, '0.1', 9), left_waiting_of(1, 3, 2), runs_of(1, picture='run-2')),
    # the second bug has more runs
    row(FIRST_AND_LAST.replace('x == 2', 'x == 1'), 1, *always('hangs', '3 runs'), 'deadlock at lines 5, 7: 1 of 3 runs',
        waits_for_itself(5, '0.1', 9),
        left_waiting_of(2, 3, 1), runs_of(0, picture='run-1'),
        '\ndeadlock at lines 6, 7: 2 of 3 runs, one of them:', waits_for_itself(6, '0.1', 8), left_waiting_of(1, 3, 2), runs_of(1, picture='run-2')),
    row(ONE_SENDER_LEFT, 1, *always('hangs', '2 runs'), *one_left(2, 4, 1, 3), '', *one_left(1, 3, 2, 4)),
    row(BOTH_STUCK, 1, OF_BOTH_STUCK[:-1]), row(MORE_LINES, 1, OF_MORE_LINES[:-1]), row(TWO_KINDS, 1, OF_TWO_KINDS[:-1]),
    row(LATER_LINE_FIRST, 1, OF_LATER_LINE, FROM_START, runs_of('')),
    row(LONGER_FIRST, 1, *of_longer(1, 2)), row(LONGER_LAST, 1, *of_longer(2, 1)), row(AS_LONG, 1, *of_longer(2, 1)),
    row(SAME_CALL, 1, *always('hangs', '2 runs'), 'deadlock at line 5: 1 of 2 runs', waits_for_itself(5, '0.1', 9), TO_ITSELF, still_sent(7, 2), FROM_START,
        runs_of(0, picture='run-1'),
        '\ndeadlock at line 6: 1 of 2 runs', waits_for_itself(6, '0.1', 9), TO_ITSELF, still_sent(7, 1), FROM_START, runs_of(1, picture='run-2')))

# ---- traps

# By the other request than that which is named in the end, twelve steps are before it.
BY_REQUEST = '''\
  decided at depth 12: rank 0, line 10, goes on by line 9, 0.1 irecv from 2 tag
        0; if rank 0, line 10, goes on by line 8, 0.0 irecv from 1 tag 0
        instead, it need not hang or trap
  at the prompt of `debug`, `blame` goes to this step and `redo all` to the end'''
WAITED_TWICE = open_example('waited_twice.mpd').decode()
# Ranks trap at two lines, two of them at one.
THREE_TRAPS = 'mpd 1; ranks 3;\nif rank == 0 { assert 0; }\nassert 0;'
OF_THREE_TRAPS = 'trap at lines 2, 3: 1 of 1 run', '  rank 0, line 2: trap assert', '  rank 1, line 3: trap assert', '  rank 2, line 3: trap assert'
# A deadlock where rank 1 comes first, and a trap where rank 2 does.
OF_LOW_WANTED = '''\
it always fails in rendezvous: it hangs in 1 of 2 runs and traps in 1
  ./mpdbg diagnose script.mpd --modes 4

deadlock at line 2: 1 of 2 runs
  rank 2 waits at line 2, 2.0 send to 0 tag 0 value 2: for a receive of rank 0
        from rank 2 with tag 0
    the last that fits is taken: line 2, 0.0 recv from any tag any, by line 2,
        1.0 send to 0 tag 0 value 1
  rank 2 waits for rank 0 (ended)'''
# A trap where rank 1 comes first, and a deadlock where rank 2 does.
OF_HIGH_WANTED = '''\
it always fails in rendezvous: it hangs in 1 of 2 runs and traps in 1
  ./mpdbg diagnose script.mpd --modes 4

trap at line 2: 1 of 2 runs
  rank 0, line 2: trap assert, with x = 1
  decided from the start: every run hangs or traps
  ./mpdbg debug script.mpd --ends --choices '0'
  ./mpdbg picture script.mpd --ends --choices '0' > run-1.svg

deadlock at line 2: 1 of 2 runs
  rank 1 waits at line 2, 1.0 send to 0 tag 0 value 1: for a receive of rank 0
        from rank 1 with tag 0
    the last that fits is taken: line 2, 0.0 recv from any tag any, by line 2,
        2.0 send to 0 tag 0 value 2
  rank 1 waits for rank 0 (ended)'''
# It traps where the last of 64 rounds takes the second request. A step is before the rounds; a round has the test, two sends, the wait, the step by
# which it goes on, for each of two receives a call, a match and a wake, and then four: 15. So 1 + 63 * 15 + 4 are before the last choice. Each
# round has five calls: those of the last are from 0.315 on.
BY_LAST = '''\
  decided at depth 950: rank 0, line 3, goes on by line 3, 0.316 isend to 0 tag
        0 value 1; if rank 0, line 3, goes on by line 3, 0.315 isend to 0 tag 0
        value 1 instead, it need not hang or trap
  at the prompt of `debug`, `blame` goes to this step and `redo all` to the end'''
APART = 'mpd 1; ranks 3; var x;\nif rank == 0 { recv x from any tag 0; if x == 1 {\nassert x == 3; } else {\nassert x == 4; } } else { send rank to 0 tag 0; }'
TRAPPED = (
    *(row(WAITED_TWICE, 1, 'it can trap in rendezvous: 1 of 2 runs\n', 'trap at line 12: 1 of 2 runs', '  rank 0, line 12: trap assert, with answers = [0, 20]', BY_REQUEST,
          runs_of(1, file),
          mode=mode) for mode, file in ((None, 'script.mpd'), (BUFFERED, WITH_BUFFERS))),
    row(THREE_TRAPS, 1, *always('traps', '1 run'), *OF_THREE_TRAPS, FROM_START, runs_of('')),
    # by two traps of other names, at one line
    row(TRAPS, 1, *always('traps', '2 runs', BUFFERED), 'trap at line 3: 2 of 2 runs, one of them:', '  rank 0, line 3: trap bad-tag, with i = 0', FROM_START, runs_of(0, WITH_BUFFERS),
        mode=BUFFERED),
    row(LOW_WANTED, 1, OF_LOW_WANTED, FROM_START, runs_of(0, picture='run-1'),
        '\ntrap at line 2: 1 of 2 runs', '  rank 0, line 2: trap assert, with x = 2', FROM_START, runs_of(1, picture='run-2')),
    row(HIGH_WANTED, 1, OF_HIGH_WANTED, FROM_START, runs_of(1, picture='run-2')),
    # two statements of one line are one bug, and of two lines they are two
    row(TWO_ASSERTS, 1, *always('traps', '2 runs'), 'trap at line 2: 2 of 2 runs, one of them:', '  rank 0, line 2: trap assert', FROM_START, runs_of(0)),
    row(APART, 1, *always('traps', '2 runs'), 'trap at line 3: 1 of 2 runs', '  rank 0, line 3: trap assert, with x = 1', FROM_START,
        runs_of(0, picture='run-1'), '\ntrap at line 4: 1 of 2 runs', '  rank 0, line 4: trap assert, with x = 2', FROM_START,
        runs_of(1, picture='run-2')))

# ---- leftovers

LEAVES = 'it can end with calls left over:'
ONE_LEFT = (never('1 run, 1 state', BUFFERED), f'{LEAVES} 1 of 1 run', f'{in_turn()}\n', 'left over from line 2: 1 of 1 run',
            '  left over: line 2, 0.0 send to 0 tag 0 value 1',
            runs_of('', WITH_BUFFERS))
THREE_LEFT = 'mpd 1; ranks 1; var x; req r[2];\nirecv r[1] x from 0 tag 5;\nisend r[0] 7 to 0 tag 1; isend r[0] 8 to 0 tag 2;'
OF_THREE_LEFT = (ONE_RUN, f'{LEAVES} 1 of 1 run', f'{in_turn()}\n', 'left over from lines 2, 3: 1 of 1 run',
                 '  left over: line 2, 0.0 irecv from 0 tag 5',
                 '  left over: line 3, 0.1 isend to 0 tag 1 value 7', '  left over: line 3, 0.2 isend to 0 tag 2 value 8', runs_of(''))
# One of three messages is received, and each end leaves two of them over, which one line sends: one choice of three, and their ends.
ONE_OF_THREE = gathering(4, 1)
TWO_LEFT = ('  left over: line 2, 2.0 isend to 0 tag 0 value 2', '  left over: line 2, 3.0 isend to 0 tag 0 value 3', runs_of(0))
# (The line is 81 bytes long.)
OF_GATHERING = (never('3 runs, 4\n        states'), f'{LEAVES} 3 of 3 runs', f'{in_turn()}\n', 'left over from line 2: 3 of 3 runs, one of them:',
                *TWO_LEFT)
# The messages are sent by lines 3 and 4, and the one that comes second is left.
TWO_LINES = '''mpd 1; ranks 3; var x; req r;
if rank == 0 { recv x from any tag 0; }
if rank == 1 { isend r 1 to 0 tag 0; }
if rank == 2 { isend r 2 to 0 tag 0; }'''
OF_TWO_LINES = (never('2 runs, 3\n        states'), f'{LEAVES} 2 of 2 runs', f'{in_turn()}\n', 'left over from line 4: 1 of 2 runs',
                '  left over: line 4, 2.0 isend to 0 tag 0 value 2', runs_of(0, picture='run-1'), '\nleft over from line 3: 1 of 2 runs',
                '  left over: line 3, 1.0 isend to 0 tag 0 value 1', runs_of(1, picture='run-2'))
# One end of both runs: a choice of two, and by each a choice of one, and its end.
BOTH_LEFT = '  left over: line 2, 0.0 isend to 0 tag 0 value 1', '  left over: line 2, 0.1 isend to 0 tag 0 value 2'
OF_TWO_REQUESTS = (never('2 runs, 5 states', BUFFERED), f'{LEAVES} 2 of 2 runs', f'{in_turn()}\n', 'left over from line 2: 2 of 2 runs, one of them:', *BOTH_LEFT,
                   runs_of('0 0', WITH_BUFFERS))
# The same call is left over from line 6 where rank 1 comes first, and else from line 5: a choice of two, by each a choice of one, and its end.
SAME_LEFT = '''mpd 1; ranks 3; var x; req r;
if rank == 0 {
  recv x from any tag 0; recv x from any tag 0;
  if x == 1 {
    isend r 7 to 1 tag 9;
  } else { isend r 7 to 1 tag 9; }
} else { isend r rank to 0 tag 0; }'''
OF_SAME_LEFT = (never('2 runs, 5\n        states'), f'{LEAVES} 2 of 2 runs', f'{in_turn()}\n', 'left over from line 6: 1 of 2 runs',
                '  left over: line 6, 0.2 isend to 1 tag 9 value 7', runs_of('0 0', picture='run-1'), '\nleft over from line 5: 1 of 2 runs',
                '  left over: line 5, 0.2 isend to 1 tag 9 value 7', runs_of('1 0', picture='run-2'))
# In slots:1 it hangs where the second send comes before the match that frees the slot, and else a message is left over.
OF_FREED_SLOT = '''\
it can hang in rendezvous: 1 of 2 runs
it can end with calls left over: 1 of 2 runs

deadlock at line 9: 1 of 2 runs
  rank 0 waits at line 9, 0.2 wait 1: for request 0.1
    line 8, 0.1 isend to 1 tag 1 value 2: for a receive of rank 1 from rank 0
        with tag 1
  rank 0 waits for rank 1 (ended)
  decided at depth 4: rank 0, line 8, goes on; if rank 1, line 11, takes the
        message of rank 0 (line 7, value 1, tag 0) instead, it need not hang or
        trap
  at the prompt of `debug`, `blame` goes to this step and `redo all` to the end'''
SECOND_LEFT = '  left over: line 8, 0.1 isend to 1 tag 1 value 2'
LEFT = (
    *(row(UNRECEIVED, int(strict), *ONE_LEFT, mode=BUFFERED, strict=strict) for strict in (False, True)),
    *(row(THREE_LEFT, int(strict), *OF_THREE_LEFT, strict=strict) for strict in (False, True)),
    *(row(FREED_SLOT, 1, OF_FREED_SLOT, runs_of('0 0', SLOTTED, 'run-1'), '\nleft over from line 8: 1 of 2 runs', SECOND_LEFT,
          runs_of(1, SLOTTED, 'run-2'),
          mode='slots:1',
          strict=strict) for strict in (False, True)),
    row(TWO_LINES, 0, *OF_TWO_LINES), row(SAME_LEFT, 0, *OF_SAME_LEFT), row(TWO_REQUESTS, 0, *OF_TWO_REQUESTS, mode=BUFFERED), row(ONE_OF_THREE, 0, *OF_GATHERING),
    row(ONE_OF_THREE, 1, *OF_GATHERING, strict=True),
    # a number of slots has no leading zeros in commands; in a mode of slots the match is a choice of one
    row(FREED_SLOT, 0, never('1 run, 2 states', 'slots:2'), f'{LEAVES} 1 of 1 run', f'{in_turn()}\n',
        'left over from line 8: 1 of 1 run', SECOND_LEFT,
        runs_of(0, 'script.mpd --mode slots:2'), mode='slots:00002'))

# ---- what is refused, and runs that are cut

REFUSED = (
    refused(EMPTY, 'bad mode', 2, mode='fast'), refused(None, 'bad mode', 2, mode='slots:65537'),
    refused(BAD_SCRIPT, 'bad mode', 2, mode='', strict=True),
    refused(None, 'device', 3), refused(None, 'device', 3, mode=BUFFERED, strict=True),
    refused(BAD_SCRIPT, 'script refused 4 expected at 19 line 1', 2))
CUT_ONCE = 'no hang and no trap was found in 1 run in rendezvous', 'not everything was tried: 1 of 1 run was cut after 100000 steps'


def too_long(steps):
    """What is told in the place of the command that draws a run of so many steps."""
    return f'  a run of {steps} steps is too long for a picture'


CUT = (row(ON_AND_ON, 4, *CUT_ONCE, '\ncut at line 1: 1 of 1 run', "  ./mpdbg debug script.mpd --ends --choices ''", too_long(100000)),)

# Those of many states, or of many lines: they take the model longer than all others.
LARGE = (
    row(taken(2, 'i < 64'), 0, MANY_RUNS, in_turn(), mode=BUFFERED),
    row(taken(2, 'i < 64', LAST_OF_ALL), 1, f'it can trap in rendezvous: {2 ** 63} of more runs than can be counted\n', f'trap at line 3: {2 ** 63} of more runs than can be counted, one of\n        them:',
        '  rank 0, line 3: trap assert, with x = 1', BY_LAST, runs_of(' '.join('0' * 63 + '1'), WITH_BUFFERS), mode=BUFFERED),
    row(ALONE, 1, *OF_ALONE), row(TWO_EACH, 1, OF_TWO_EACH, runs_of('0 0', 'two_each.mpd'), file='two_each.mpd'),
    row(open_example('four_races.mpd').decode(), 0, RACES, in_turn()))

# Places of marks stand beside lines.
WITH_MARKS = (row(MARKED, 1, MARKED_DIAGNOSIS, runs_of('1')),)

ROWS = WELL + HANGS + TRAPPED + LEFT + REFUSED + LARGE + CUT + WITH_MARKS

# ---- a search that stops

# In each round one of two requests is taken, and w tells apart all that was: the states are a tree of two candidates at each choice, so many high
# as there are rounds, and one of H has 2^(H+1) - 1. By 4,000,000 states, each before those behind it, all is come to of trees that are 20, 19, 18,
# 17, 15, 10, 6, 5, 4, 3, 1 and 0 high, one inside the other, and of the 22 choices above them: so many runs are (told by a program in some 15
# seconds)
# 2^20 + 2^19 + 2^18 + 2^17 + 2^15 + 2^10 + 2^6 + 2^5 + 2^4 + 2^3 + 2 + 1. A run that is drawn takes as many numbers below 2 as there are rounds: of
# 4,096 times 22 such numbers 4,094 are different.
TREE = ('mpd 2; ranks 1; var i; var w; var x; req r[2];\n'
        'while i < ROUNDS { isend r[0] 1 to 0 tag 0; isend r[1] 1 to 0 tag 0; waitany r to x; w = w * 2 + x; i = i + 1;\n'
        'recv x from 0 tag 0; recv x from 0 tag 0; }\nprint w;')


def none_found(runs, mode=RENDEZVOUS):
    """What is told of so many runs in a mode, where there are more."""
    return f'no hang and no trap was found in {first_of(runs)} in {mode}', MORE


def none_drawn(runs, file='script.mpd'):
    """What is told of so many runs that were drawn, of which none hangs or traps."""
    return f'\ndrawn at random: none of {runs} hangs or traps', others(file)


LONG_ROWS = (row(TREE.replace('ROUNDS', '22'), 4, *none_found('1999995 runs', BUFFERED), *none_drawn('4094 runs', WITH_BUFFERS), mode=BUFFERED),)

# ---- smaller limits, of the model alone

def few(drawn=8, **limits):
    """Limits by which few runs are drawn."""
    return Limits(drawn=drawn, **limits)


# The run that is done has 13 steps, and the one that hangs 10, of which the seventh is chosen.
CUT_AND_HANG = '''\
it can hang in rendezvous: 1 of 2 runs
not everything was tried: 1 of 2 runs was cut after 12 steps

deadlock at line 2: 1 of 2 runs
  rank 0 waits at line 2, 0.1 recv from 2 tag any: for a send of rank 2 with any
        tag
    nearest miss: line 2, 1.0 send to 0 tag 0 value 1: another source
    the last that fits is taken: line 2, 2.0 send to 0 tag 0 value 2, by line 2,
        0.0 recv from any tag any
  rank 1 waits at line 2, 1.0 send to 0 tag 0 value 1: for a receive of rank 0
        from rank 1 with tag 0
    nearest miss: line 2, 0.1 recv from 2 tag any: another source
    the last that fits is taken: line 2, 0.0 recv from any tag any, by line 2,
        2.0 send to 0 tag 0 value 2
  rank 0 waits for rank 2 (ended)
  rank 1 waits for rank 0
  decided at depth 6 or earlier: not all runs from there were counted'''
OR_EARLIER = '  decided at depth {} or earlier: not all runs from there were counted'
# Of STOLEN the choice and both ends are come to. The first run has 11 steps: from its end one state is come to, from the state before it the end
# again, and from the state of the choice three: five in all.
OF_THE_FIRST = 'it can hang in rendezvous: 1 of 1 run', MORE, others(), '\ndeadlock at lines 9, 13: 1 of 1 run', OF_STOLEN, BY_MESSAGE, runs_of(0)
# Of THREE_SENDERS, in the order of the walk: all three, 2 3, 3, none, 2, none; 1 3, 3 again, 1, none; 1 2, 2 again, 1 again. At the 4th, 6th, 8th,
# 10th, 12th and 13th state a run ends. Drawn are 2 0 0, 2 1 0, 1 1 0, 0 0 0, 0 0 0, 0 1 0, 0 0 0 and 1 0 0, numbers below 3, 2 and 1 in turn.
SENDERS_FOUND = ((3, '0 runs', 1, '1 run'), (4, '1 run', 2, '2 runs'), (5, '1 run', 4, '4 runs'), (7, '2 runs', 5, '4 runs'),
                 (8, '3 runs', 6, '5 runs'), (11, '4 runs', 7, '5 runs'), (12, '5 runs', 8, '6 runs'))
# Rank 0 is blocked in its receive, rank 1 has ended, and rank 2 goes on and on.
BLOCKED_AND_ON = 'mpd 1; ranks 3; var x;\nif rank == 0 {\nrecv x from 2 tag 0; }\nif rank == 2 {\nwhile 1 {\n} }'


def cut_after(steps):
    """What is told of one run that is cut after so many steps."""
    return 'no hang and no trap was found in 1 run in rendezvous', f'not everything was tried: 1 of 1 run was cut after {steps} steps'


# Rank 0 waits for itself, traps, or prints, by who comes first; eight steps are before the choice. The run that hangs has 12 steps, the one that traps
# 13, and the last 16.
THREE_WAYS = '''mpd 1; ranks 4; var x; req r;
if rank == 0 {
  recv x from any tag 0;
  if x == 1 { recv x from 0 tag 9; }
  if x == 2 { assert 0; }
  if x == 3 { print x; print x; print x; }
} else { isend r rank to 0 tag 0; }'''


def by_third(rank):
    """What decided a run of it by the message of a rank, where that of the third can still be taken."""
    return (f'  decided at depth 8: rank 0, line 3, takes the message of rank {rank} (line 7, value\n        {rank}, tag 0); with that of rank 3 (line 7, '
            f'value 3, tag 0) it need not hang\n        or trap\n{HINT}')


def hang_and_trap(runs, decided):
    """What is told of its first two runs, of so many, by what decided each."""
    return (f'\ndeadlock at line 4: 1 of {runs}', waits_for_itself(4, '0.1', 9), TO_ITSELF, still_sent(7, 2, 3), decided[0], runs_of(0, picture='run-1'),
            f'\ntrap at line 5: 1 of {runs}', '  rank 0, line 5: trap assert', decided[1], runs_of(1, picture='run-2'))


LIMITED = (
    # some runs hang and the others that were come to trap, and there are more, or one is cut
    row(THREE_WAYS, 1, 'it can hang in rendezvous: 1 of the first 2 runs\nit can trap in rendezvous: 1 of the first 2 runs', MORE, others(), *hang_and_trap('the first 2 runs', [by_third(1), by_third(2)]), limits=few(come_to=3)),
    row(THREE_WAYS, 1, 'it can hang in rendezvous: 1 of 3 runs\nit can trap in rendezvous: 1 of 3 runs', 'not everything was tried: 1 of 3 runs was cut after 13 steps',
        *hang_and_trap('3 runs', [OR_EARLIER.format(8)] * 2), '\ncut at line 6: 1 of 3 runs', runs_of(2, picture='run-3'), limits=few(fuel=13)),
    *(row(ON_AND_ON, 4, 'no hang and no trap was found in 1 run in rendezvous', f'not everything was tried: 1 of 1 run was cut after {fuel} steps',
          '\ncut at line 1: 1 of 1 run', runs_of(''), limits=few(fuel=fuel), strict=strict) for fuel in (1, 5) for strict in (False, True)),
    # of 1,000 steps there is a picture, of one more none
    row(ON_AND_ON, 4, *cut_after(1000), '\ncut at line 1: 1 of 1 run', runs_of(''), limits=few(fuel=1000)),
    row(ON_AND_ON, 4, *cut_after(1001), '\ncut at line 1: 1 of 1 run', "  ./mpdbg debug script.mpd --ends --choices ''", too_long(1001), limits=few(fuel=1001)),
    row(BLOCKED_AND_ON, 4, *cut_after(20), '\ncut at lines 3, 5: 1 of 1 run', runs_of(''), limits=few(fuel=20)),
    row(THREE, 1, CUT_AND_HANG, runs_of(1, picture='run-1'), '\ncut at line 2: 1 of 2 runs', runs_of(0, picture='run-2'), limits=few(fuel=12)),
    row(THREE, 4, 'no hang and no trap was found in 2 runs in rendezvous',
        'not everything was tried: 2 of 2 runs were cut after 9 steps', '\ncut at line 2: 2 of 2 runs, one of them:', runs_of(0), limits=few(fuel=9)),
    row(UNRECEIVED, 0, *ONE_LEFT, mode=BUFFERED, limits=few(fuel=2)),
    # states that are come to; where a hang was found nothing is drawn
    row(STOLEN, 1, *OF_THE_FIRST, limits=few(come_to=2)), row(STOLEN, 1, *STUCK_ONCE, runs_of(0), limits=few(come_to=3)),
    *(row(THREE_SENDERS, 4, *none_found(runs), *none_drawn(there), limits=Limits(come_to=come_to, drawn=drawn))
      for come_to, runs, drawn, there in SENDERS_FOUND),
    row(THREE_SENDERS, 4, *none_found('5 runs', BUFFERED), *none_drawn('6 runs', WITH_BUFFERS), mode=BUFFERED, strict=True, limits=few(come_to=12)),
    row(THREE_SENDERS, 0, SIX_RUNS, in_turn(), limits=few(come_to=13)),
    # of a tree that is 4 high, one of 3 and one of 0 are come to by 20 states, beside the choices above; drawn are 1001 twice, 0001, 0010, 1000, 1101,
    # 1111 and 1010
    *(row(TREE.replace('ROUNDS', '4'), 4, *none_found('9 runs', BUFFERED), *none_drawn(there, WITH_BUFFERS), mode=BUFFERED,
          limits=Limits(come_to=20, drawn=drawn)) for drawn, there in ((2, '1 run'), (8, '7 runs'))),
    # where one state is kept, it is the last that was: 3, none, 2, none and so on, so that 3, 2 and 1 are looked at each time: three more, at the end
    row(THREE_SENDERS, 0, never('6 runs, 16\n        states'), in_turn(), limits=few(kept=1)),
    # states that the search for the step that decides comes to
    *(row(STOLEN, 1, *STUCK_ONCE[:-1], OR_EARLIER.format(depth), runs_of(0), limits=Limits(deciding=most))
      for most, depth in ((1, 10), (2, 9), (3, 9), (4, 9))),
    row(STOLEN, 1, *STUCK_ONCE, runs_of(0), limits=Limits(deciding=5)))

# ---- runs that are drawn, of the model alone

# Numbers below 2: 1, 0, 0, 1 and so on. Of STOLEN the first hangs.
STOLEN_DRAWN = ('\ndrawn at random: 1 of 2 runs hang', '\ndeadlock at lines 9, 13: 1 of 2 runs', OF_STOLEN)
# The first run ends well, and the second hangs or traps.
CUT_THEN_HANG = CUT_AND_HANG.partition('\n\n')[2]
SECOND_TRAPS = ('\ndrawn at random: 1 of 2 runs trap', '\ntrap at line 12: 1 of 2 runs', '  rank 0, line 12: trap assert, with answers = [0, 20]', BY_REQUEST,
                runs_of(1, picture='drawn'))
# Numbers below 3: 2, 0, 0, 2, 2, 0, 1. Each run of ONE_OF_THREE leaves the two others over, which are one bug by three ends.
FIRST_LEFT = (f'{LEAVES} 1 of 1 run', MORE, '\nleft over from line 2: 1 of 1 run', *TWO_LEFT)


def left_of_drawn(runs, others_left, choices):
    """What is told of runs that were drawn of ONE_OF_THREE, by how many there are, whose messages the first one leaves over, and its choices."""
    return (*none_drawn(runs)[:1], f'drawn at random: {runs.split()[0]} of {runs} end with calls left over', others(),
            f'\nleft over from line 2: {runs.split()[0]} of {runs}{"" if runs == "1 run" else ", one of them:"}',
            *(f'  left over: line 2, {rank}.0 isend to 0 tag 0 value {rank}' for rank in others_left), runs_of(choices, picture='drawn'))


# Rank 0 goes on in one of four ways, by who comes first: well, into a deadlock, into a trap, and well. Numbers below 4: 3, 0, 0, 2, 3, 0, 1. Ten steps
# are before the choice, two of each rank.
FOUR_WAYS = '''mpd 1; ranks 5; var x; req r;
if rank == 0 {
  recv x from any tag 0;
  if x == 2 { recv x from 0 tag 9; }
  if x == 3 { assert 0; }
} else { isend r rank to 0 tag 0; }'''


def left_of_four(choice, runs, picture='drawn'):
    """What is told of the messages that a run leaves over where it takes one of the four, by that choice, how many of how many runs leave some, and
    its picture."""
    there = [f'  left over: line 6, {rank}.0 isend to 0 tag 0 value {rank}' for rank in range(1, 5) if rank != choice + 1]
    return f'\nleft over from line 6: {several(runs)}', *there, runs_of(choice, picture=picture)


FOUR_FOUND = (none_found('1 run')[0], f'{LEAVES} 1 of 1 run', MORE, *left_of_four(0, '1 of 1 run', 'run'))


BY_MESSAGE_OF = '''\
  decided at depth 10: rank 0, line 3, takes the message of rank {0} (line 6,
        value {0}, tag 0); with that of rank 1 (line 6, value 1, tag 0) it need
        not hang or trap
  at the prompt of `debug`, `blame` goes to this step and `redo all` to the end'''
FOUR_HANG = ('\ndeadlock at line 4: 1 of 4 runs', waits_for_itself(4, '0.1', 9), TO_ITSELF, still_sent(6, 1, 3, 4), BY_MESSAGE_OF.format(2), runs_of(1, picture='drawn-1'))


def four_trap(runs, picture):
    """The trap of FOUR_WAYS, in one of so many runs, and its picture."""
    return f'\ntrap at line 5: 1 of {runs}', '  rank 0, line 5: trap assert', BY_MESSAGE_OF.format(3), runs_of(2, picture=picture)


# The same call hangs at two lines: two ends of what is drawn.
AT_TWO_LINES = '''mpd 1; ranks 4; var x; req r;
if rank == 0 {
  recv x from any tag 0;
  if x == 2 { recv x from 0 tag 9; }
  if x == 3 { recv x from 0 tag 9; }
} else { isend r rank to 0 tag 0; }'''
AT_A_LINE = '''\
  decided at depth 8: rank 0, line 3, takes the message of rank {0} (line 6, value
        {0}, tag 0); with that of rank 1 (line 6, value 1, tag 0) it need not hang
        or trap
  at the prompt of `debug`, `blame` goes to this step and `redo all` to the end'''


def left_at_six(count, picture='drawn-2'):
    """What is told of the messages of ranks 2 and 3, which the first run leaves over, how many of how many do, and its picture."""
    return (f'\nleft over from line 6: {several(count)}', '  left over: line 6, 2.0 isend to 0 tag 0 value 2',
            '  left over: line 6, 3.0 isend to 0 tag 0 value 3', runs_of(0, picture=picture))


def at_a_line(line, rank, count, picture='drawn-1'):
    """The end at one of the two lines, by whose message is taken, how many of how many runs come to it, and its picture."""
    return (f'\ndeadlock at line {line}: {several(count)}', waits_for_itself(line, '0.1', 9), TO_ITSELF,
            still_sent(6, *(other for other in (1, 2, 3) if other != rank)), AT_A_LINE.format(rank), runs_of(rank - 1, picture=picture))


TWO_LINES_FOUND = (none_found('1 run')[0], f'{LEAVES} 1 of 1 run', MORE, *left_at_six('1 of 1 run', 'run'))
# Nothing is left over where rank 1 comes first, and a message of rank 0 to itself where rank 2 does.
LEFT_BY_SECOND = '''mpd 1; ranks 3; var x; req r;
if rank == 0 {
  recv x from any tag 0;
  if x == 2 { isend r 7 to 0 tag 5; }
  recv x from any tag 0;
} else { send rank to 0 tag 0; }'''
DRAWN_LEFT = ('\ndrawn at random: none of 2 runs hangs or traps', 'drawn at random: 1 of 2 runs end with calls left over', others(),
              '\nleft over from line 4: 1 of 2 runs', '  left over: line 4, 0.1 isend to 0 tag 5 value 7', runs_of('1 0', picture='drawn'))

DRAWN = (
    # nothing is found, and a hang, or none, is drawn
    row(STOLEN, 4, *none_found('0 runs'), *none_drawn('1 run'), limits=Limits(come_to=1, drawn=1)),
    *(row(STOLEN, 1, *none_found('0 runs'), *STOLEN_DRAWN, BY_MESSAGE, runs_of(0, picture='drawn'),
          limits=Limits(come_to=1, drawn=drawn)) for drawn in (2, 3)),
    row(STOLEN, 1, *none_found('0 runs'), *STOLEN_DRAWN, BY_MESSAGE, runs_of(0, f"'{LONG_NAME}'", 'drawn'), file=LONG_NAME, limits=few(come_to=1)),
    # how many ranks there are stands behind the file, and before the mode
    *(row(STOLEN, 1, *STUCK_ONCE, runs_of(0, f'{word} --ranks 3'), file=name, ranks=3) for name, word in WORDS),
    row(THREE_SENDERS, 0, SIX_BUFFERED, in_turn('./-x --ranks 4'), mode=BUFFERED, file='-x', ranks=4),
    row(TRAPS, 1, *always('traps', '2 runs', BUFFERED, 'script.mpd --ranks 12'), 'trap at line 3: 2 of 2 runs, one of them:', '  rank 0, line 3: trap bad-tag, with i = 0', FROM_START,
        runs_of(0, 'script.mpd --ranks 12 --mode buffered'), mode=BUFFERED, ranks=12),
    row(STOLEN, 4, *none_found('0 runs'), *none_drawn('1 run', 'script.mpd --ranks 3'), limits=Limits(come_to=1, drawn=1), ranks=3),
    row(STOLEN, 1, *none_found('0 runs'), *STOLEN_DRAWN, OR_EARLIER.format(9), runs_of(0, picture='drawn'),
        limits=few(come_to=1, deciding=4)),
    # the first run is well, and the other traps
    row(WAITED_TWICE, 1, *none_found('1 run'), *SECOND_TRAPS, limits=few(come_to=2)),
    row(WAITED_TWICE, 1, *none_found('1 run'), *SECOND_TRAPS, limits=few(come_to=2), strict=True),
    row(WAITED_TWICE, 1, *none_found('1 run', BUFFERED), '\ndrawn at random: 1 of 1 run trap',
        '\ntrap at line 12: 1 of 1 run', '  rank 0, line 12: trap assert, with answers = [0, 20]',
        BY_REQUEST, runs_of(1, WITH_BUFFERS, 'drawn'), mode=BUFFERED, limits=few(1, come_to=2)),
    # a trap is found, and nothing is drawn
    row(TRAPS, 1, 'it can trap in rendezvous: 1 of 1 run', MORE, others(WITH_BUFFERS), '\ntrap at line 3: 1 of 1 run', '  rank 0, line 3: trap bad-tag, with i = 0',
        FROM_START, runs_of(0, WITH_BUFFERS), mode=BUFFERED, limits=few(come_to=2)),
    row(HIGH_WANTED, 1, 'it can trap in rendezvous: 1 of 1 run', MORE, others(), '\ntrap at line 2: 1 of 1 run', '  rank 0, line 2: trap assert, with x = 1',
        FROM_START, runs_of(0), limits=few(come_to=2)),
    # by 10 to 12 steps the first run is cut, and the other hangs; by 9 steps both are cut
    *(row(THREE, 1, none_found('1 run')[0], f'not everything was tried: 1 of 1 run was cut after {fuel} steps', MORE,
          '\ncut at line 2: 1 of 1 run', runs_of(0), '\ndrawn at random: 1 of 2 runs hang\n', CUT_THEN_HANG, runs_of(1, picture='drawn-1'),
          '\ncut at line 2: 1 of 2 runs', runs_of(0, picture='drawn-2'), limits=few(come_to=2, fuel=fuel)) for fuel in (10, 12)),
    row(THREE, 4, none_found('1 run')[0], 'not everything was tried: 1 of 1 run was cut after 9 steps', MORE, '\ncut at line 2: 1 of 1 run', runs_of(0),
        *none_drawn('2 runs'), '\ncut at line 2: 2 of 2 runs, one of them:', runs_of(0, picture='drawn'), limits=few(come_to=2, fuel=9)),
    # messages that are left over, by what was found and what was drawn
    *(row(ONE_OF_THREE, status, none_found('1 run')[0], *FIRST_LEFT, *left_of_drawn(runs, others_left, choice), strict=strict,
          limits=Limits(come_to=2, drawn=drawn))
      for drawn, runs, others_left, choice in ((1, '1 run', (1, 2), 2), (2, '2 runs', (2, 3), 0), (6, '2 runs', (2, 3), 0), (7, '3 runs', (2, 3), 0))
      for strict, status in ((False, 4), (True, 1))),
    *(row(LEFT_BY_SECOND, status, *none_found('1 run'), *DRAWN_LEFT, strict=strict, limits=few(come_to=3))
      for strict, status in ((False, 4), (True, 1))),
    # they are left over by the first run that was found, and not by that which was drawn
    row(LEFT_BY_SECOND.replace('x == 2', 'x == 1'), 1, none_found('1 run')[0], f'{LEAVES} 1 of 1 run', MORE,
        '\nleft over from line 4: 1 of 1 run', '  left over: line 4, 0.1 isend to 0 tag 5 value 7', runs_of('0 0'), *none_drawn('1 run'), strict=True,
        limits=few(1, come_to=3)),
    # both runs end alike: one is found, and the other drawn
    row(TWO_REQUESTS, 4, none_found('1 run', BUFFERED)[0], f'{LEAVES} 1 of 1 run', MORE, '\nleft over from line 2: 1 of 1 run', *BOTH_LEFT,
        runs_of('0 0', WITH_BUFFERS), *none_drawn('1 run')[:1], 'drawn at random: 1 of 1 run end with calls left over', others(WITH_BUFFERS),
        '\nleft over from line 2: 1 of 1 run', *BOTH_LEFT, runs_of('1 0', WITH_BUFFERS, 'drawn'), mode=BUFFERED, limits=few(1, come_to=3)),
    # beside a trap, and beside a deadlock and a trap
    *(row(FOUR_WAYS, status, *FOUR_FOUND, *none_drawn('1 run')[:1], 'drawn at random: 1 of 1 run end with calls left over', others(),
          *left_of_four(3, '1 of 1 run'), strict=strict, limits=few(1, come_to=2)) for strict, status in ((False, 4), (True, 1))),
    row(FOUR_WAYS, 1, *FOUR_FOUND, '\ndrawn at random: 1 of 3 runs trap\ndrawn at random: 2 of 3 runs end with calls left over',
        *four_trap('3 runs', 'drawn-1'), *left_of_four(0, '2 of 3 runs', 'drawn-2'), limits=few(4, come_to=2)),
    row(FOUR_WAYS, 1, *FOUR_FOUND, '\ndrawn at random: 1 of 4 runs hang\ndrawn at random: 1 of 4 runs trap',
        'drawn at random: 2 of 4 runs end with calls left over', *FOUR_HANG, *four_trap('4 runs', 'drawn-2'),
        *left_of_four(0, '2 of 4 runs', 'drawn-3'), limits=few(come_to=2)),
    # one of both ends, and both
    row(AT_TWO_LINES, 1, *TWO_LINES_FOUND, '\ndrawn at random: 1 of 1 run hang', *at_a_line(5, 3, '1 of 1 run', 'drawn'), limits=few(1, come_to=2)),
    row(AT_TWO_LINES, 1, *TWO_LINES_FOUND, '\ndrawn at random: 1 of 2 runs hang\ndrawn at random: 1 of 2 runs end with calls left over',
        *at_a_line(5, 3, '1 of 2 runs'), *left_at_six('1 of 2 runs'), limits=few(2, come_to=2)),
    row(AT_TWO_LINES, 1, *TWO_LINES_FOUND, '\ndrawn at random: 2 of 3 runs hang\ndrawn at random: 1 of 3 runs end with calls left over',
        *at_a_line(4, 2, '1 of 3 runs'), *at_a_line(5, 3, '1 of 3 runs', 'drawn-2'), *left_at_six('1 of 3 runs', 'drawn-3'), limits=few(7, come_to=2)))
LIMITED += DRAWN


def problem(row_of):
    """What is answered otherwise than a row wants; None where nothing is."""
    said = row_of.case().wanted()
    return None if said == row_of.wanted() else f'{said}'


def problems():
    """The name of each row, with what is wrong in it, or None."""
    return [(f'diagnose {row_of.script} {row_of.asked}', problem(row_of)) for row_of in ROWS + LIMITED]
