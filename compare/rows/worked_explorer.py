"""Worked rows of the explorer: reports of scripts, of places along their steps, and witnesses; compare/runs/worked.py compares them.

Each was worked out by hand from the rules (docs/DEFINITIONS.md, docs/FORMATS.md). compare/runs/explore.py has a program answer those of
CHECKS and TOLD too.
"""

import sys
from itertools import islice, permutations
from typing import NamedTuple, Optional

from model.debugger import BUFFERED, RENDEZVOUS, Debugger, Result, call_id_of, step_of
from model.explorer import Asked, answer, explored, report_text, verify
from model.language import read_script
from model.witness import LONGEST, Verification
from rows.worked_runs import EMPTY, HEAD_TO_HEAD, NAMED_AND_ANY, ON_AND_ON, ONE_TRAPPED, THREE, TWO_RECEIVERS, UNRECEIVED


class CheckRow(NamedTuple):
    """A script (None: no file), the options of a check of it, the lines that it writes, its status, and the line on standard error."""
    script: Optional[str]
    asked: Asked
    lines: str
    status: int
    errors: str = ''


ONE_ENDED = 'mpd 1; ranks 2;\nif rank == 1 { barrier; }'
TWICE = 'mpd 1; ranks 2;\nbarrier;\nif rank == 0 { barrier; }'
BY_TAG = ('mpd 1; ranks 2; var x; var y; req r[2];\n'
          'if rank == 0 { isend r[0] 1 to 1 tag 1; isend r[1] 2 to 1 tag 2; } else { recv x from 0 tag 2; recv y from 0 tag 1; }')
BOTH_ANY = ('mpd 1; ranks 3; var x;\n'
            'if rank == 0 { recv x from any tag any; recv x from any tag any; } else { send rank to 0 tag 0; }')
BY_VALUE = ('mpd 1; ranks 3; var x; req r;\n'
            'if rank == 0 { recv x from any tag any; STATEMENT } else { isend r rank to 0 tag 0; }')
LOW_WANTED = ('mpd 1; ranks 3; var x;\n'
              'if rank == 0 { recv x from any tag any; assert x == 1; } else { send rank to 0 tag 0; }')
LOST = 'mpd 1; ranks 1; var x; req r;\nirecv r x from any tag any; irecv r x from any tag any; send 1 to 0 tag 0;'
TO_ITSELF = 'mpd 1; ranks 1; var x; req r;\nwhile 1 { isend r 1 to 0 tag 0; recv x from any tag 0; }'
COUNTING = 'mpd 1; ranks 1; var i;\nwhile i < TIMES { i = i + 1; } STATEMENTS'

SIX = 'local 0, local 0, local 1, local 1, local 2, local 2'
STUCK = f'{SIX}, match 2.0 0.0, wake 0, local 0, wake 2'
OF_THREE = 'leaf 0 [0] done; leaf 1 [1] deadlock 0.1 1.0; leaves 2 more no'
WITNESSED = f'leaf 0 [0] done; leaf 1 [1] deadlock 0.1 1.0; witness 1: {STUCK}; leaves 2 more no'


def gathering(ranks, receives):
    """A script in which all others send one message each to the first rank, and go on; it receives so many, of any source."""
    return (f'mpd 1; ranks {ranks}; var x; req r;\n'
            f'if rank == 0 {{ {"recv x from any tag 0;" * receives} }} else {{ isend r rank to 0 tag 0; }}')


def gathered(ranks, receives, runs, more):
    """The lines for so many runs of that."""
    return gathered_by(ranks, islice(permutations(range(1, ranks), receives), runs), more)


def gathered_by(ranks, runs, more):
    """The lines for these runs of that, each told by its senders: a choice has the number of a sender among those that are left."""
    lines = []
    for number, senders in enumerate(runs):
        choices = [sender - 1 - sum(other < sender for other in senders[:place]) for place, sender in enumerate(senders)]
        left = [f'{rank}.0' for rank in range(1, ranks) if rank not in senders]
        lines.append(f'leaf {number} [{" ".join(map(str, choices))}] leftovers {" ".join(left)}')
    return '; '.join([*lines, f'leaves {len(lines)} more {more}'])


CHECKS = (
    # two ranks that send before they receive: in the one mode neither send is received, in the other both are
    CheckRow(HEAD_TO_HEAD, Asked(), 'leaf 0 [] deadlock 0.0 1.0; leaves 1 more no', 1),
    CheckRow(HEAD_TO_HEAD, Asked(BUFFERED), 'leaf 0 [] done; leaves 1 more no', 0),
    CheckRow(HEAD_TO_HEAD, Asked(BUFFERED, witnesses=True), 'leaf 0 [] done; leaves 1 more no', 0),
    # a receive of any source and then one of rank 2: whether it comes to an end hangs on which send is taken first
    CheckRow(THREE, Asked(), OF_THREE, 1),
    CheckRow(THREE, Asked(RENDEZVOUS, witnesses=True), WITNESSED, 1),
    # receives by tag, in the other order than the sends
    CheckRow(BY_TAG, Asked(), 'leaf 0 [] done; leaves 1 more no', 0),
    # a barrier that one rank comes to alone
    CheckRow(ONE_ENDED, Asked(), 'leaf 0 [] deadlock 1.0; leaves 1 more no', 1),
    # a message that nobody receives
    CheckRow(UNRECEIVED, Asked(), 'leaf 0 [] deadlock 0.0; leaves 1 more no', 1),
    CheckRow(UNRECEIVED, Asked(BUFFERED), 'leaf 0 [] leftovers 0.0; leaves 1 more no', 0),
    # no statement
    CheckRow(EMPTY, Asked(), 'leaf 0 [] done; leaves 1 more no', 0),
    # the status is of the leaves that are listed, and so are witnesses
    CheckRow(THREE, Asked(runs=1, split=0), 'leaf 0 [0] done; leaves 1 more yes', 0),
    CheckRow(THREE, Asked(runs=1, split=0, witnesses=True), 'leaf 0 [0] done; leaves 1 more yes', 0),
    # a run without an end
    CheckRow(ON_AND_ON, Asked(fuel=5), 'leaf 0 [] cut; leaves 1 more no', 0),
    CheckRow(ON_AND_ON, Asked(fuel=5, complete=True), 'leaf 0 [] cut; leaves 1 more no', 4),
    CheckRow(THREE, Asked(runs=1, split=0, complete=True), 'leaf 0 [0] done; leaves 1 more yes', 4),
    CheckRow(THREE, Asked(complete=True), OF_THREE, 1),
    CheckRow(EMPTY, Asked(complete=True), 'leaf 0 [] done; leaves 1 more no', 0),
    CheckRow(ON_AND_ON, Asked(fuel=5, witnesses=True), 'leaf 0 [] cut; leaves 1 more no', 0),
    # as many runs, and as much fuel, as can be asked for
    CheckRow(THREE, Asked(runs=65536), OF_THREE, 1),
    CheckRow(THREE, Asked(fuel=1000000), OF_THREE, 1),
    # the mode is tested before the file, and the file before the script
    CheckRow(EMPTY, Asked('fast'), '', 2, 'mpdbg: bad mode'),
    CheckRow(None, Asked('fast'), '', 2, 'mpdbg: bad mode'),
    CheckRow('mpd 1;ranks 1;print', Asked('fast'), '', 2, 'mpdbg: bad mode'),
    CheckRow(None, Asked(), '', 3, 'mpdbg: device'),
    CheckRow('mpd 1;ranks 1;print', Asked(), '', 2, 'mpdbg: script refused 4 expected at 19 line 1'),
    CheckRow('mpd 1;\nranks 1;\nx = 1;\n', Asked(BUFFERED, 1, 1, True), '', 2, 'mpdbg: script refused 5 unknown-name at 16 line 3'),

    # the runs of THREE have 13 and 10 steps, the seventh of which is chosen: each is cut where a step is left and no fuel
    CheckRow(THREE, Asked(fuel=13), OF_THREE, 1),
    *(CheckRow(THREE, Asked(fuel=fuel), 'leaf 0 [0] cut; leaf 1 [1] deadlock 0.1 1.0; leaves 2 more no', 1) for fuel in (12, 10)),
    *(CheckRow(THREE, Asked(fuel=fuel, witnesses=True), 'leaf 0 [0] cut; leaf 1 [1] cut; leaves 2 more no', 0) for fuel in (9, 7)),
    *(CheckRow(THREE, Asked(fuel=fuel), 'leaf 0 [] cut; leaves 1 more no', 0) for fuel in (6, 5, 1)),
    CheckRow(THREE, Asked(runs=1, split=0, fuel=6), 'leaf 0 [] cut; leaves 1 more no', 0),
    # a run that is at its end has its outcome, also where no fuel is left
    CheckRow(EMPTY, Asked(fuel=1), 'leaf 0 [] done; leaves 1 more no', 0),
    CheckRow(UNRECEIVED, Asked(fuel=1), 'leaf 0 [] deadlock 0.0; leaves 1 more no', 1),
    CheckRow(UNRECEIVED, Asked(BUFFERED, fuel=1), 'leaf 0 [] cut; leaves 1 more no', 0),
    CheckRow(UNRECEIVED, Asked(BUFFERED, fuel=2), 'leaf 0 [] leftovers 0.0; leaves 1 more no', 0),
    CheckRow(UNRECEIVED.replace('send', 'ssend'), Asked(BUFFERED), 'leaf 0 [] deadlock 0.0; leaves 1 more no', 1),
    # each round takes three local steps, a match and a wake; where the fuel ends before the match, that isn't chosen
    CheckRow(TO_ITSELF, Asked(fuel=14), 'leaf 0 [0 0 0] cut; leaves 1 more no', 0),
    CheckRow(TO_ITSELF, Asked(fuel=13), 'leaf 0 [0 0] cut; leaves 1 more no', 0),
    # there are no more where there are just so many
    CheckRow(THREE, Asked(runs=2, split=0), OF_THREE, 1),
    # one candidate is a choice too
    CheckRow(BOTH_ANY, Asked(), 'leaf 0 [0 0] done; leaf 1 [1 0] done; leaves 2 more no', 0),
    CheckRow(LOST, Asked(witnesses=True), 'leaf 0 [0] leftovers 0.1; leaves 1 more no', 0),
    # candidates of two receivers, of which each leaves the other; and a receive that names its source, which is no choice
    CheckRow(TWO_RECEIVERS, Asked(), 'leaf 0 [0 0] done; leaf 1 [1 0] done; leaves 2 more no', 0),
    CheckRow(NAMED_AND_ANY, Asked(), 'leaf 0 [0] done; leaves 1 more no', 0),
    # what was received decides how it goes on: with one more choice or none, for ever or not
    CheckRow(BY_VALUE.replace('STATEMENT', 'if x == 1 { recv x from any tag any; }'), Asked(),
             'leaf 0 [0 0] done; leaf 1 [1] leftovers 1.0; leaves 2 more no', 0),
    CheckRow(BY_VALUE.replace('STATEMENT', 'if x == 2 { while 1 { } }'), Asked(fuel=50),
             'leaf 0 [0] leftovers 2.0; leaf 1 [1] cut; leaves 2 more no', 0),
    # a trap is found too, and has a witness where that is asked for; of what isn't listed nothing is said
    CheckRow(LOW_WANTED, Asked(witnesses=True), f'leaf 0 [0] deadlock 2.0; witness 0: {SIX}, match 1.0 0.0, wake 0, local 0, wake 1; '
             'leaf 1 [1] trap 0 assert; leaves 2 more no', 1),
    CheckRow(LOW_WANTED, Asked(BUFFERED, witnesses=True), 'leaf 0 [0] leftovers 2.0; leaf 1 [1] trap 0 assert; leaves 2 more no', 1),
    CheckRow(ONE_TRAPPED, Asked(witnesses=True), 'leaf 0 [] trap 0 assert; leaves 1 more no', 1),
    CheckRow(ONE_TRAPPED, Asked(witnesses=True, complete=True, split=3, workers=1, runs=1), 'leaf 0 [] trap 0 assert; leaves 1 more no', 1),
    *(CheckRow(ONE_TRAPPED, asked._replace(witnesses=True), 'leaf 0 [] trap 0 assert; witness 0: local 0, local 1, local 1; leaves 1 more no', 1)
      for asked in (Asked(until=True), Asked(ends=True))),
    CheckRow(ONE_TRAPPED, Asked(witnesses=True, group=True), 'end 0 leaves 1 first 0 trap 0 assert; witness 0: local 0, local 1, local 1; leaves 1 more no', 1),
    # traps are asked for beside witnesses alone, which is told before all else
    *(CheckRow(script, asked._replace(traps=True), '', 2, 'mpdbg: --traps wants --witness')
      for script in (ONE_TRAPPED, None) for asked in (Asked(), Asked('fast'), Asked(ends=True, group=True), Asked(piece=0, complete=True))),
    CheckRow(LOW_WANTED, Asked(witnesses=True, traps=True), f'leaf 0 [0] deadlock 2.0; witness 0: {SIX}, match 1.0 0.0, wake 0, local 0, wake 1; '
             f'leaf 1 [1] trap 0 assert; witness 1: {SIX}, match 2.0 0.0, wake 0, local 0, wake 2; leaves 2 more no', 1),
    CheckRow(LOW_WANTED, Asked(BUFFERED, witnesses=True, traps=True), 'leaf 0 [0] leftovers 2.0; leaf 1 [1] trap 0 assert; '
             f'witness 1: {SIX}, wake 1, wake 2, match 2.0 0.0, wake 0, local 0; leaves 2 more no', 1),
    CheckRow(LOW_WANTED, Asked(BUFFERED, runs=1, split=0, witnesses=True), 'leaf 0 [0] leftovers 2.0; leaves 1 more yes', 0),
    CheckRow(ONE_TRAPPED, Asked(witnesses=True, traps=True), 'leaf 0 [] trap 0 assert; witness 0: local 0, local 1, local 1; leaves 1 more no', 1),
    # witnesses of barriers
    CheckRow(ONE_ENDED, Asked(witnesses=True), 'leaf 0 [] deadlock 1.0; witness 0: local 0, local 1, local 1; leaves 1 more no', 1),
    CheckRow(TWICE, Asked(BUFFERED, witnesses=True), 'leaf 0 [] deadlock 0.1; witness 0: local 0, local 1, release, local 0, local 0, '
             'local 1; leaves 1 more no', 1),
    # eleven candidates, and then ten: by number, not by digits
    CheckRow(gathering(12, 1), Asked(), gathered(12, 1, 11, 'no'), 0),
    CheckRow(gathering(12, 1), Asked(runs=10, split=0), gathered(12, 1, 10, 'yes'), 0),
    CheckRow(gathering(12, 2), Asked(), gathered(12, 2, 110, 'no'), 0),
    CheckRow(gathering(12, 2), Asked(runs=109, split=0), gathered(12, 2, 109, 'yes'), 0),
    # 1,000 runs, where no other number is asked for
    CheckRow(gathering(13, 3), Asked(split=0), gathered(13, 3, 1000, 'yes'), 0),
    CheckRow(gathering(13, 3), Asked(runs=1320, split=0), gathered(13, 3, 1320, 'no'), 0))


def counting(times, statements):
    """A script of twice as many steps, one more, and those of the statements."""
    return COUNTING.replace('TIMES', str(times)).replace('STATEMENTS', statements)


# What takes the model long, and is asked of programs alone.
LONG_CHECKS = (
    # fuel for 100,000 steps, where no other number is asked for
    CheckRow(counting(49999, 'recv i from 0 tag 0;'), Asked(witnesses=True),
             f'leaf 0 [] deadlock 0.0; witness 0: {", ".join(["local 0"] * 100000)}; leaves 1 more no', 1),
    CheckRow(counting(49999, 'print 1; recv i from 0 tag 0;'), Asked(witnesses=True), 'leaf 0 [] cut; leaves 1 more no', 0),
    # as much fuel as there may be steps
    CheckRow(ON_AND_ON, Asked(fuel=1000000), 'leaf 0 [] cut; leaves 1 more no', 0),
    CheckRow(counting(499999, 'print 1;'), Asked(fuel=1000000), 'leaf 0 [] done; leaves 1 more no', 0),
    CheckRow(counting(499999, 'print 1;'), Asked(fuel=999999), 'leaf 0 [] cut; leaves 1 more no', 0),
    CheckRow(counting(499999, 'print 1; print 1;'), Asked(fuel=1000000), 'leaf 0 [] cut; leaves 1 more no', 0))

# Words of the command line that are wrong; they are tested before the mode, which is wrong too.
MISTAKES = ('--runs 0', '--runs 65537', '--runs', '--runs -1', '--fuel 0', '--fuel 1000001', '--fuel', '--fuel 1.5', '--fuel x',
            '--port 5', '--no-such-option', '--witness 1', '--split 9', '--split', '--split -1', '--split one', '--split 1 --split 1',
            '--workers 1001', '--workers', '--workers -1', '--workers 2.0', '--piece 1024', '--piece', '--piece -1', '--piece 0 --piece 0',
            '--pieces 1', '--pieces=yes', '--pieces --pieces', '--until', '--until trap', '--until cut', '--until=', '--until Deadlock',
            '--until deadlock --until deadlock', '--ends 1', '--ends=1', '--ends --ends', '--explain 1', '--explain=yes', '--explain --explain',
            '--group 1', '--group=yes', '--group --group', '--sample 0', '--sample 65537', '--sample', '--sample -1', '--sample ten',
            '--sample 1 --sample 1', '--seed', '--seed -1', '--seed 18446744073709551616', '--seed x', '--seed 1 --seed 1', '--leaf 1', '--choices 1')


class PlaceRow(NamedTuple):
    """A script, words to where it is explored, how many runs and how much fuel, and the lines of the report with witnesses."""
    script: str
    words: str
    runs: int
    fuel: int
    lines: str


PLACES = (
    # from the choice on: its numbers are those of what is chosen from there on, and a witness has the steps before too
    PlaceRow(THREE, SIX, 10, 100, WITNESSED),
    PlaceRow(THREE, SIX, 1, 100, 'leaf 0 [0] done; leaves 1 more yes'),
    # fuel is for the steps from there: seven to the one end, four to the other
    PlaceRow(THREE, SIX, 10, 7, WITNESSED),
    *(PlaceRow(THREE, SIX, 10, fuel, WITNESSED.replace('done', 'cut')) for fuel in (6, 4)),
    PlaceRow(THREE, SIX, 10, 3, 'leaf 0 [0] cut; leaf 1 [1] cut; leaves 2 more no'),
    PlaceRow(THREE, SIX, 10, 0, 'leaf 0 [] cut; leaves 1 more no'),
    # undone steps have no part in it
    PlaceRow(THREE, f'{SIX}, match 1.0 0.0, back', 10, 7, WITNESSED),
    PlaceRow(THREE, f'{SIX}, match 1.0 0.0, wake 0, goto 2', 10, 11, WITNESSED),
    # behind the choice, and at the end
    PlaceRow(THREE, f'{SIX}, match 2.0 0.0', 10, 3, f'leaf 0 [] deadlock 0.1 1.0; witness 0: {STUCK}; leaves 1 more no'),
    PlaceRow(THREE, STUCK, 10, 0, f'leaf 0 [] deadlock 0.1 1.0; witness 0: {STUCK}; leaves 1 more no'),
    # no fuel
    PlaceRow(EMPTY, '', 1, 0, 'leaf 0 [] done; leaves 1 more no'),
    PlaceRow(ON_AND_ON, '', 1, 0, 'leaf 0 [] cut; leaves 1 more no'),
    PlaceRow(UNRECEIVED, 'local 0', 1, 0, 'leaf 0 [] deadlock 0.0; witness 0: local 0; leaves 1 more no'))


class WitnessRow(NamedTuple):
    """A script in a mode, steps and blocked calls, and why they are no witness: nothing, a number, or a number at a place."""
    script: str
    mode: str
    steps: str
    blocked: str
    wanted: str


WITNESSES = (
    WitnessRow(THREE, RENDEZVOUS, STUCK, '0.1 1.0', ''),
    WitnessRow(THREE, RENDEZVOUS, STUCK.removesuffix(', wake 2'), '0.1 1.0', '33'),
    WitnessRow(THREE, RENDEZVOUS, f'wake 0, {STUCK}', '0.1 1.0', '32 at 0'),
    WitnessRow(THREE, RENDEZVOUS, STUCK.replace('local 0', 'wake 0', 1), '0.1 1.0', '32 at 0'),
    WitnessRow(THREE, RENDEZVOUS, STUCK, '0.1', '34'),

    # the steps needn't be those that are decided
    WitnessRow(THREE, RENDEZVOUS, 'local 2, local 2, local 1, local 1, local 0, local 0, match 2.0 0.0, wake 2, wake 0, local 0',
               '0.1 1.0', ''),
    WitnessRow(HEAD_TO_HEAD, RENDEZVOUS, 'local 1, local 0', '0.0 1.0', ''),
    WitnessRow(TWICE, RENDEZVOUS, 'local 1, local 0, release, local 1, local 0, local 0', '0.1', ''),
    # the first step that isn't enabled counts, one behind the end too, whatever stands behind it and whatever is said of the calls
    WitnessRow(THREE, RENDEZVOUS, f'{STUCK}, wake 2', '0.1 1.0', '32 at 10'),
    WitnessRow(THREE, RENDEZVOUS, f'{SIX}, match 2.0 0.0, match 2.0 0.0, wake 9', '', '32 at 7'),
    WitnessRow(TWICE, RENDEZVOUS, 'local 0, local 1, release, release, local 0, local 0, local 1', '0.1', '32 at 3'),
    WitnessRow(UNRECEIVED, RENDEZVOUS, 'local 0, wake 0', '0.0', '32 at 1'),
    WitnessRow(UNRECEIVED, RENDEZVOUS, 'local 0, release', '0.0', '32 at 1'),
    *(WitnessRow(THREE, RENDEZVOUS, f'local 0, {step}', '9.9', '32 at 1') for step in (
        'local 3', 'local 999999999', 'wake 3', 'match 9.0 0.0', 'match 1.0 0.9', 'match 0.0 0.0')),
    # an end that is no deadlock comes before other calls
    WitnessRow(THREE, RENDEZVOUS, STUCK.removesuffix(', wake 2'), '0.1', '33'),
    WitnessRow(THREE, RENDEZVOUS, '', '', '33'),
    WitnessRow(THREE, RENDEZVOUS, f'{SIX}, match 1.0 0.0, wake 0, local 0, wake 1, match 2.0 0.1, wake 0, wake 2', '', '33'),
    WitnessRow(EMPTY, RENDEZVOUS, '', '', '33'),
    WitnessRow(HEAD_TO_HEAD, BUFFERED, 'local 0, local 1', '0.0 1.0', '33'),
    WitnessRow(UNRECEIVED, BUFFERED, 'local 0, wake 0', '0.0', '33'),
    WitnessRow(ONE_TRAPPED, RENDEZVOUS, 'local 0, local 1, local 1', '1.0', '33'),
    # the calls are those that are blocked, each once, by rank
    *(WitnessRow(THREE, RENDEZVOUS, STUCK, blocked, '34') for blocked in (
        '', '1.0', '1.0 0.1', '0.1 1.0 2.0', '0.1 0.1 1.0', '0.1 1.0 1.0', '0.0 1.0', '0.1 1.1', '0.1 2.0')))


class ToldRow(NamedTuple):
    """A script and the text of a witness (None: no file), the mode or None, what `verify` writes, its status, and what it says on
    standard error."""
    script: Optional[str]
    text: Optional[str]
    mode: Optional[str]
    output: str
    status: int
    errors: str = ''

    def case(self):
        script, text = (None if data is None else data.encode('latin-1') for data in (self.script, self.text))
        return Verification(script, text, self.mode)

    def wanted(self):
        return Result(*(f'{line}\n'.encode() if line else b'' for line in (self.output, self.errors)), self.status)


def told(text, output, script=THREE, mode=None):
    """A row of a text that is read."""
    return ToldRow(script, text, mode, output, 0 if output == 'accepted' else 1)


def bad(text, line):
    """A row of a text that is no witness by this line."""
    return ToldRow(THREE, text, None, '', 2, f'mpdbg: bad witness line {line}')


LEAF = 'leaf 1 [1] deadlock 0.1 1.0'
STEPS = f'witness 1: {STUCK}'
BAD_SCRIPT = 'mpd 1;ranks 1;print'
SCRIPT_REFUSED = 'mpdbg: script refused 4 expected at 19 line 1'
TOLD = (
    # as `check` writes it, and with what may be left out
    told(f'{LEAF}\n{STEPS}\n', 'accepted'), told(f'{LEAF}\n{STEPS}', 'accepted'), told(f'{LEAF}\r\n{STEPS}\r\n', 'accepted'),
    told(f'{LEAF}\n{STEPS}\n\n\n', 'accepted'), told(f'deadlock 0.1 1.0\n{STUCK}\n', 'accepted'),
    told(f'{LEAF}\n{STUCK}\n', 'accepted'), told(f'deadlock 0.1 1.0\n{STEPS}\n', 'accepted'),
    # numbers as in trace words
    told(f'leaf 1 [1] deadlock 00.01 000000001.0\n{STEPS.replace("local 0", "local 00")}\n', 'accepted'),
    # other steps that lead there, other calls, one step less or more
    told('deadlock 0.1 1.0\nlocal 2, local 2, local 1, local 1, local 0, local 0, match 2.0 0.0, wake 2, wake 0, local 0\n', 'accepted'),
    told(f'{LEAF}\n{STEPS.removesuffix(", wake 2")}\n', 'refused 33 not-stuck'),
    told(f'{LEAF}\nwake 0, {STUCK}\n', 'refused 32 no-such-step at 0'),
    told(f'{LEAF}\n{STEPS}, wake 2\n', 'refused 32 no-such-step at 10'),
    told(f'{LEAF}\n{STEPS.replace("match", "release, match")}\n', 'refused 32 no-such-step at 6'),
    told(f'{LEAF}\nlocal 999999999\n', 'refused 32 no-such-step at 0'),
    *(told(f'leaf 1 [1] deadlock {calls}\n{STEPS}\n', 'refused 34 wrong-blocked') for calls in (
        '0.1', '1.0', '1.0 0.1', '0.1 1.0 2.0', '0.1 1.0 1.0', '0.0 1.0', '999999999.999999999')),
    # one blocked call, in a mode or the other
    told('deadlock 0.0\nlocal 0\n', 'accepted', UNRECEIVED), told('deadlock 0.0\nlocal 0\n', 'accepted', UNRECEIVED, RENDEZVOUS),
    told('deadlock 0.0\nlocal 0\n', 'refused 33 not-stuck', UNRECEIVED, BUFFERED),
    told('deadlock 0.0\nlocal 0, wake 0\n', 'refused 33 not-stuck', UNRECEIVED, BUFFERED),
    told('deadlock 0.0\nlocal 0, wake 0\n', 'refused 32 no-such-step at 1', UNRECEIVED, RENDEZVOUS),
    told('deadlock 0.0\nlocal 0\n', 'accepted', UNRECEIVED.replace('send', 'ssend'), BUFFERED),
    told('deadlock 0.0 1.0\nlocal 1, local 0\n', 'accepted', HEAD_TO_HEAD),
    told('deadlock 0.1\nlocal 0, local 1, release, local 0, local 0, local 1\n', 'accepted', TWICE, BUFFERED),
    # a trap is no deadlock, though a rank is blocked
    told('deadlock 1.0\nlocal 0, local 1, local 1\n', 'refused 33 not-stuck', ONE_TRAPPED),
    # a trap: in any order of steps, of these ranks with these traps, and no deadlock; a rank that traps takes no step more
    *(told(f'{front}trap 0 assert\n{name}{steps}\n', 'accepted', ONE_TRAPPED) for front in ('', 'leaf 7 [0 1] ', 'traps trapped ') for name, steps in (
        ('', 'local 0, local 1, local 1'), ('witness 7: ', 'local 1, local 0, local 1'), (':', 'local 1,local 1, local 0'))),
    *(told(f'trap {ranks}\nlocal 0, local 1, local 1\n', 'refused 34 wrong-blocked', ONE_TRAPPED) for ranks in (
        '1 assert', '0 overflow', '0 assert 1 assert', '0 assert 0 assert')),
    told('trap 0 assert\nlocal 0, local 1\n', 'refused 33 not-stuck', ONE_TRAPPED),
    told('trap 0 assert\nlocal 0, local 0, local 1\n', 'refused 32 no-such-step at 1', ONE_TRAPPED),
    told(f'trap 0 assert\n{STUCK}\n', 'refused 33 not-stuck'), told(f'trap 0 assert deadlock 0.1 1.0\n{STUCK}\n', 'accepted'),
    told('trap 0 assert deadlock 1.0\nlocal 0, local 1, local 1\n', 'refused 33 not-stuck', ONE_TRAPPED),
    *(ToldRow(ONE_TRAPPED, f'{end}\nlocal 0, local 1, local 1\n', None, '', 2, 'mpdbg: bad witness line 1') for end in (
        'trap', 'trap 0', 'trap assert', 'trap assert 0', 'trap 0 asserts', 'trap 0 Assert', 'trap  0 assert', 'trap 0 assert ', 'trap 0 assert 1',
        'trap 0.0 assert', 'trap 0000000000 assert', 'traps 0 assert', 'trap 0 assert deadlock')),
    # what stands in front of the word and in front of a colon isn't looked at
    *(told(f'{front}deadlock 0.1 1.0\n{name}{STUCK}\n', 'accepted') for front, name in (
        ('outcome ', ''), (' ', ' '), ('a  b ', 'x:'), ('0.0 ', ':'), ('leaf 99 [a, b: c] ', 'leaf 0 [] done:'), ('deadlocks dead\tlock ', '\t\t:'),
        ('\xff\x00 ', '\xff\x00:'), ('witness 1: ', 'local 0, :'))),
    # blanks of steps as in trace words, a comma between two
    *(told(f'{LEAF}\n{STEPS.replace(", ", between)}\n', 'accepted') for between in (',', ' ,', '  ,  ', '\t,\t')),
    told(f'{LEAF}\n{STEPS.replace("local ", "local  ").replace("0.0", chr(9) + "0.0")} \t\r\n', 'accepted'),
    # one carriage return before a line feed, or at the end; empty lines behind
    *(told(f'{LEAF}{end}{STEPS}{rest}', 'accepted') for end, rest in (
        ('\r\n', ''), ('\n', '\r'), ('\n', '\r\n\r\n'), ('\r\n', '\n\r'), ('\n', '\n\n\r\n\n'))),
    # a report that has one witness
    told(f'{WITNESSED}\n'.replace('; ', '\n'), 'accepted'), told(f'{LEAF}\n{STEPS}\nleaves 2 more no\n', 'accepted'),
    # texts that are no witness by their first line
    *(bad(f'{line}\n{STEPS}\n', 1) for line in (
        '', 'deadlock', 'deadlock ', 'leaf 1 [1]', 'leaf 1 [1] deadlock', 'leaf 1 [1] done', 'leaf 1 [1] leftovers 0.1 1.0', 'leaf 1 [1] cut',
        'Deadlock 0.1 1.0', 'deadlocks 0.1 1.0', 'deadlock 0.1  1.0', 'deadlock  0.1 1.0', 'deadlock 0.1 1.0 ', 'deadlock 0.1, 1.0',
        'deadlock 0.1\t1.0', 'deadlock\t0.1 1.0', '\tdeadlock 0.1 1.0', 'leaf 1 [1]deadlock 0.1 1.0', 'deadlock deadlock 0.1 1.0',
        'deadlock 0 1', 'deadlock 0.1 1', 'deadlock 0.1 1.0.0', 'deadlock 0.1 -1.0', 'deadlock 0.1 1.0000000000', 'deadlock 0.1 1.x',
        'deadlock .1 1.0', 'deadlock 0. 1.0', 'deadlock 0.1 1.0\r\r', 'deadlock 0.1 1.0 more no', 'outcome 0.1 1.0')),
    bad('', 1), bad('\n', 1), bad('\n\n', 1), bad(f'\n{LEAF}\n{STEPS}\n', 1), bad(f'{STEPS}\n{LEAF}\n', 1), bad('leaves 1 more no\n', 1),
    # or by their second
    *(bad(f'{LEAF}\n{line}\n', 2) for line in (
        '', ' ', 'witness 1:', 'witness 1: ', 'local', 'local 0,', 'local 0,, local 1', ', local 0', 'local 0; local 1', 'local 0 local 1',
        'local 0, ', 'local 0 0', 'local 0.0', 'local x', 'local -1', 'local 1000000000', 'match 0.0', 'match 0 0', 'match 0.0 1.0 2.0',
        'match 0.0, 1.0', 'wake', 'release 0', 'releases', 'back', 'redo', 'goto 0', 'show', 'enabled', 'Local 0', 'local 0.', 'local0',
        'witness 1 local 0', 'witness 1: 2: local 0', 'local 0: local', 'local 0\r\r', 'local 0\x00', 'local 0\x0b', 'local 0, fly', LEAF)),
    bad(LEAF, 2), bad(f'{LEAF}\n', 2), bad(f'{LEAF}\n\n{STEPS}\n', 2),
    # or by a line behind these, so that it is no report either
    *(ToldRow(THREE, f'{LEAF}\n{STEPS}\n{rest}', None, '', 2, 'mpdbg: bad witness') for rest in (' ', 'local 0\n', '\r\r\n', '\n\nx')),
    # the mode before the script's file, this before the script, the script before the witness's file, this before the witness
    ToldRow(None, None, 'fast', '', 2, 'mpdbg: bad mode'), ToldRow(THREE, 'x', 'Buffered', '', 2, 'mpdbg: bad mode'),
    ToldRow(BAD_SCRIPT, None, '', '', 2, 'mpdbg: bad mode'), ToldRow(None, 'x', None, '', 3, 'mpdbg: device'),
    ToldRow(None, None, BUFFERED, '', 3, 'mpdbg: device'), ToldRow(BAD_SCRIPT, None, None, '', 2, SCRIPT_REFUSED),
    ToldRow(BAD_SCRIPT, 'x', BUFFERED, '', 2, SCRIPT_REFUSED), ToldRow(THREE, None, None, '', 3, 'mpdbg: device'),
    ToldRow(THREE, None, BUFFERED, '', 3, 'mpdbg: device'), ToldRow(THREE, 'x', BUFFERED, '', 2, 'mpdbg: bad witness line 1'))

# What takes a file of many bytes.
AT_ITS_LIMIT = f'{LEAF}\n{STEPS}\n'.ljust(LONGEST, '\n')
LONG_TOLD = (
    told(AT_ITS_LIMIT, 'accepted'), bad(f'{AT_ITS_LIMIT}\n', 2), bad('x' * (LONGEST + 1), 2), bad('x' * LONGEST, 1),
    # a witness of 100,000 steps
    told(f'deadlock 0.0\n{", ".join(["local 0"] * 100000)}', 'accepted', counting(49999, 'recv i from 0 tag 0;')),
    told(f'deadlock 0.0\n{", ".join(["local 0"] * 100001)}', 'refused 32 no-such-step at 100000', counting(49999, 'recv i from 0 tag 0;')))

# Words of `verify` that are wrong, tested before the mode, which is wrong too; FILE and WITNESS are there.
MISTAKES_OF_VERIFY = ('', '{FILE}', '{FILE} {WITNESS} {FILE}', '{FILE} {WITNESS} --witness', '{FILE} {WITNESS} --runs 1', '{FILE} {WITNESS} --fuel 1',
                      '{FILE} {WITNESS} --mode', '{FILE} {WITNESS} --mode buffered', '{FILE} {WITNESS} --no-such-option', '{FILE} --witness {WITNESS}',
                      '{FILE} --leaf 1', '{FILE} {WITNESS} --leaf', '{FILE} {WITNESS} --leaf 67108864', '{FILE} {WITNESS} --leaf -1',
                      '{FILE} {WITNESS} --leaf one', '{FILE} {WITNESS} --leaf 1 --leaf 1', '{FILE} {WITNESS} --ends')


def check_problem(row):
    """What a check answers otherwise than a row wants; None where nothing is."""
    said = answer(None if row.script is None else row.script.encode(), row.asked)
    return None if said == wanted_result(row) else f'{said}'


def wanted_result(row):
    """What a check must write by a row, and its status."""
    lines, errors = (text.replace('; ', '\n').encode() + b'\n' if text else b'' for text in (row.lines, row.errors))
    return Result(lines, errors, row.status)


def place_problem(row):
    """What the report of a place along the steps says otherwise than a row wants; None where nothing is."""
    walked = Debugger(read_script(row.script.encode()))
    refused = [word for word in row.words.split(', ') if word and not walked.answer(word.encode()).startswith('ok')]
    said = report_text(explored(walked, row.runs, row.fuel), True).removesuffix('\n').replace('\n', '; ')
    return None if not refused and said == row.lines else f'refused {refused}, reported {said}'


def steps_of(text):
    return tuple(step_of(step.encode().split()) for step in text.split(', ') if step)


def witness_problem(row):
    """What a witness is answered otherwise than a row wants; None where nothing is."""
    steps, blocked = steps_of(row.steps), tuple(call_id_of(call.encode()) for call in row.blocked.split())
    refused = verify(read_script(row.script.encode()), row.mode, steps, blocked)
    said = ' at '.join(str(part) for part in refused or () if part is not None)
    return None if said == row.wanted else f'answered {said or "accepted"}'


def told_problem(row):
    """What `verify` answers otherwise than a row wants; None where nothing is."""
    said = row.case().wanted()
    return None if said == row.wanted() else f'{said}'


def problems(rows=sys.modules[__name__]):
    """The name of each row of a module, with what is wrong in it, or None."""
    return ([(f'check {row.script} {row.asked}', check_problem(row)) for row in rows.CHECKS]
            + [(f'explored {row.script} behind {row.words}, fuel {row.fuel}', place_problem(row)) for row in rows.PLACES]
            + [(f'witness of {row.script} ({row.mode}): {row.steps}: {row.blocked}', witness_problem(row)) for row in rows.WITNESSES]
            + [(f'verify {row.script} ({row.mode}): {str(row.text)[:500]!r}', told_problem(row)) for row in rows.TOLD])
