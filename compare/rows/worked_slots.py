"""Worked rows of the modes `slots:K`: which sends are buffered, what that does, and what is shown of it; worked out by hand from the rules.

compare/runs/worked.py compares them with the model; compare/runs/statuses.py, compare/runs/explore.py and compare/runs/sessions.py have a program answer them.
They are of each kind of rows that the other modes have: traces of which every byte is told, words and what `show` prints behind them,
runs, reports, witnesses and dialogues; and of the words that name a mode.
"""

from model.debugger import BUFFERED, RENDEZVOUS
from model.explorer import Asked
from model.modes import is_mode, slots_of
from rows.worked_explorer import CheckRow, ToldRow, WitnessRow
from rows.worked_runs import EMPTY, HEAD_TO_HEAD, ON_AND_ON, RunRow, UNRECEIVED
from rows.worked_sessions import ENABLED, RUN, STATE, Dialogue, deep, no, ran, step
from rows.worked_traces import Row, Trace

# One rank sends three messages, which the other one receives in another order.
THREE_SENDS = ('mpd 1; ranks 2; var x;\n'
               'if rank == 0 { send 1 to 1 tag 0; send 2 to 1 tag 1; send 3 to 1 tag 2; } '
               'else { recv x from 0 tag 2; recv x from 0 tag 0; recv x from 0 tag 1; }')
# A rank that sends to itself, receives that or not, and sends once more.
SENT_TWICE = ('mpd 1; ranks 1; var x; req r[3];\nisend r[0] 1 to 0 tag 0;\nirecv r[1] x from 0 tag 0;\nisend r[2] 2 to 0 tag 0;\nwait r[2];\n')
IN_ORDER = ('mpd 1; ranks 2; var x; var y;\nif rank == 0 { send 1 to 1 tag 0;\nsend 2 to 1 tag 0; } '
            'else { recv x from 0 tag 0;\nrecv y from 0 tag 0; }\n')
OF_EACH = 'mpd 1; ranks 2; req r[2];\nisend r[0] 1 to 0 tag 0;\nisend r[1] 2 to 1 tag 0;\n'
MIXED = ('mpd 1; ranks 1; req r[4];\nissend r[0] 1 to 0 tag 0;\nisend r[1] 2 to 0 tag 0;\nissend r[2] 3 to 0 tag 0;\n'
         'isend r[3] 4 to 0 tag 0;\n')
TWO_WAITS = 'mpd 1; ranks 1; req r[2];\nisend r[0] 1 to 0 tag 0;\nisend r[1] 2 to 0 tag 0;\nwait r[0];\nwait r[1];'
TO_ITSELF = 'mpd 1; ranks 1; var x;\nsend 7 to 0 tag 5;\nrecv x from 0 tag 5;\nsend 8 to 0 tag 5;\nrecv x from any tag any;'
# Three sends, of which that with the tag TAG is received, and then two more.
RECEIVED = ('mpd 1; ranks 1; var x; req r[6];\nisend r[0] 1 to 0 tag 1;\nisend r[1] 2 to 0 tag 2;\nisend r[2] 3 to 0 tag 3;\n'
            'irecv r[3] x from 0 tag TAG;\nisend r[4] 4 to 0 tag 4;\nisend r[5] 5 to 0 tag 5;')
WAITED_FOR = 'mpd 2; ranks 1; var i; req r[2];\nisend r[0] 1 to 0 tag 0;\nisend r[1] 2 to 0 tag 0;\nwaitany r to i;'
SYNCHRONOUS_FIRST = 'mpd 1; ranks 1; req r;\nissend r 1 to 0 tag 0;\nsend 2 to 0 tag 0;'
# A rank that sends to itself and never receives.
FIVE = 'mpd 1; ranks 1; var i;\nwhile i < 5 { send i to 0 tag 0; i = i + 1; }'
# Without buffers rank 1 comes to its second send behind the first receive of rank 0, which so has one candidate; with them there are two.
CHOICE_IF_BUFFERED = ('mpd 1; ranks 3; var x;\nif rank == 0 { recv x from any tag any; recv x from any tag any; }\n'
                      'if rank == 1 { send 1 to 2 tag 0; send 1 to 0 tag 0; }\nif rank == 2 { send 2 to 0 tag 0; recv x from 1 tag 0; }')
# What ends otherwise where the first message is received before the second is sent.
EARLY_OR_LATE = 'mpd 1; ranks 2; var x; req r;\nif rank == 0 { isend r 1 to 1 tag 0; send 2 to 1 tag 1; } else { recv x from 0 tag 0; }'
# The same, where a report lists no run that traps.
NOT_LISTED = ('mpd 1; ranks 3; var x; req r;\n'
              'if rank == 0 { isend r 1 to 1 tag 0; send 2 to 1 tag 1; send 3 to 2 tag 0; }\n'
              'if rank == 1 { recv x from 0 tag 0; send 9 to 2 tag 0; recv x from 2 tag 7; recv x from 0 tag 1; }\n'
              'if rank == 2 { recv x from any tag 0; assert x == 9; send 7 to 1 tag 7; recv x from 0 tag 0; }')

TRACES = (
    Trace('a match frees a slot, and its undo takes it again',
          SENT_TWICE, 'slots:1',
          'local 0; local 0; match 0.0 0.1; local 0; local 0; wake 0; show; back; back; back; back; local 0; local 0; wake 0; show; '
          'match 0.0 0.1; wake 0; enabled; show',
          'ok 1; ok 2; ok 3; ok 4; ok 5; ok 6; depth 6 of 6; rank 0 ended; vars 0; handles 0 1 -; out; '
          'call 0.0 isend to 0 tag 0 value 1 buffered with 0.1; call 0.1 irecv from 0 tag 0 with 0.0 value 1; '
          'call 0.2 isend to 0 tag 0 value 2 buffered free; call 0.3 wait 2; pending 0 to 0: 2; set pair 0.0 0.1; set woke 0.3; '
          'outcome leftovers 0.2; end; ok 5; ok 4; ok 3; ok 2; ok 3; ok 4; refused not-enabled; depth 4 of 4; rank 0 blocked 3; vars 0; '
          'handles 0 1 2; out; call 0.0 isend to 0 tag 0 value 1 buffered free; call 0.1 irecv from 0 tag 0 free; '
          'call 0.2 isend to 0 tag 0 value 2 free; call 0.3 wait 2; pending 0 to 0: 0 2; posted 0: 1; end; ok 5; refused not-enabled; enabled; '
          'depth 5 of 5; rank 0 blocked 3; vars 0; handles 0 1 2; out; call 0.0 isend to 0 tag 0 value 1 buffered with 0.1; '
          'call 0.1 irecv from 0 tag 0 with 0.0 value 1; call 0.2 isend to 0 tag 0 value 2 free; call 0.3 wait 2; pending 0 to 0: 2; '
          'set pair 0.0 0.1; outcome deadlock 0.3; end'),
    Trace('a second send that waits, and goes on waiting where the first is received',
          IN_ORDER, 'slots:1',
          'local 0; local 0; wake 0; local 0; wake 0; show; local 1; local 1; match 0.0 1.0; wake 0; wake 1; local 1; match 0.1 1.1; wake 0; '
          'wake 1; show',
          'ok 1; ok 2; ok 3; ok 4; refused not-enabled; depth 4 of 4; rank 0 blocked 1; vars 0 0; handles; out; '
          'call 0.0 send to 1 tag 0 value 1 buffered free; call 0.1 send to 1 tag 0 value 2 free; rank 1 at 2; vars 0 0; handles; out; '
          'pending 0 to 1: 0 1; set woke 0.0; end; ok 5; ok 6; ok 7; refused not-enabled; ok 8; ok 9; ok 10; ok 11; ok 12; depth 12 of 12; '
          'rank 0 ended; vars 0 0; handles; out; call 0.0 send to 1 tag 0 value 1 buffered with 1.0; '
          'call 0.1 send to 1 tag 0 value 2 with 1.1; rank 1 ended; vars 1 2; handles; out; call 1.0 recv from 0 tag 0 with 0.0 value 1; '
          'call 1.1 recv from 0 tag 0 with 0.1 value 2; set woke 0.0; set pair 0.0 1.0; set woke 1.0; set pair 0.1 1.1; set woke 0.1; '
          'set woke 1.1; outcome done; end'),
    Trace('each rank has slots of its own, by who sends',
          OF_EACH, 'slots:1',
          'local 0; local 1; local 0; local 1; show',
          'ok 1; ok 2; ok 3; ok 4; depth 4 of 4; rank 0 ended; vars; handles 0 1; out; call 0.0 isend to 0 tag 0 value 1 buffered free; '
          'call 0.1 isend to 1 tag 0 value 2 free; rank 1 ended; vars; handles 0 1; out; call 1.0 isend to 0 tag 0 value 1 buffered free; '
          'call 1.1 isend to 1 tag 0 value 2 free; pending 0 to 0: 0; pending 0 to 1: 1; pending 1 to 0: 0; pending 1 to 1: 1; '
          'outcome leftovers 0.0 0.1 1.0 1.1; end'),
    Trace('a synchronous send takes no slot',
          MIXED, 'slots:1',
          'local 0; local 0; local 0; local 0; show',
          'ok 1; ok 2; ok 3; ok 4; depth 4 of 4; rank 0 ended; vars; handles 0 1 2 3; out; call 0.0 issend to 0 tag 0 value 1 free; '
          'call 0.1 isend to 0 tag 0 value 2 buffered free; call 0.2 issend to 0 tag 0 value 3 free; call 0.3 isend to 0 tag 0 value 4 free; '
          'pending 0 to 0: 0 1 2 3; outcome leftovers 0.0 0.1 0.2 0.3; end'),
    Trace('an issue that is taken back gives its slot up',
          OF_EACH, 'slots:1',
          'local 0; back; local 0; back; redo; local 0; goto 0; redo; redo; show',
          'ok 1; ok 0; ok 1; ok 0; ok 1; ok 2; ok 0; ok 1; ok 2; depth 2 of 2; rank 0 ended; vars; handles 0 1; out; '
          'call 0.0 isend to 0 tag 0 value 1 buffered free; call 0.1 isend to 1 tag 0 value 2 free; rank 1 at 2; vars; handles - -; out; '
          'pending 0 to 0: 0; pending 0 to 1: 1; end'))

UP_TO_MATCH = 'local 0: ok 1; local 0: ok 2; local 0: ok 3; local 0: ok 4'
ROWS = (
    # no slot: a send is treated as in rendezvous, and none is buffered
    Row(TO_ITSELF, 'slots:0', 'local 0: ok 1; wake 0: refused not-enabled; enabled: enabled',
        'call 0.0 send to 0 tag 5 value 7 free; outcome deadlock 0.0; end', 'buffered'),
    Row(TO_ITSELF, 'slots:1', 'local 0: ok 1; enabled: enabled wake 0; wake 0: ok 2; local 0: ok 3; match 0.0 0.1: ok 4; wake 0: ok 5; '
        'local 0: ok 6; wake 0: ok 7; local 0: ok 8; match 0.2 0.3: ok 9; wake 0: ok 10',
        'vars 8; call 0.0 send to 0 tag 5 value 7 buffered with 0.1; call 0.1 recv from 0 tag 5 with 0.0 value 7; '
        'call 0.2 send to 0 tag 5 value 8 buffered with 0.3; call 0.3 recv from any tag any with 0.2 value 8; outcome done; end'),
    # in the other modes the same sends are shown without a mark
    Row(TO_ITSELF, BUFFERED, 'local 0: ok 1; wake 0: ok 2', 'call 0.0 send to 0 tag 5 value 7 free; end', 'buffered'),
    Row(OF_EACH, BUFFERED, 'local 0: ok 1; local 0: ok 2',
        'call 0.0 isend to 0 tag 0 value 1 free; call 0.1 isend to 1 tag 0 value 2 free; end', 'buffered'),
    Row(OF_EACH, RENDEZVOUS, 'local 0: ok 1; local 0: ok 2',
        'call 0.0 isend to 0 tag 0 value 1 free; call 0.1 isend to 1 tag 0 value 2 free; end', 'buffered'),
    # waits: for the send that was buffered, and for the one that wasn't
    Row(TWO_WAITS, 'slots:1', 'local 0: ok 1; local 0: ok 2; local 0: ok 3; enabled: enabled wake 0; wake 0: ok 4; local 0: ok 5; '
        'enabled: enabled; wake 0: refused not-enabled',
        'rank 0 blocked 3; handles - 1; call 0.0 isend to 0 tag 0 value 1 buffered free; call 0.1 isend to 0 tag 0 value 2 free; '
        'pending 0 to 0: 0 1; set woke 0.2; outcome deadlock 0.3; end'),
    Row(TWO_WAITS, 'slots:2', 'local 0: ok 1; local 0: ok 2; local 0: ok 3; wake 0: ok 4; local 0: ok 5; wake 0: ok 6',
        'handles - -; call 0.0 isend to 0 tag 0 value 1 buffered free; call 0.1 isend to 0 tag 0 value 2 buffered free; '
        'outcome leftovers 0.0 0.1; end'),
    Row(WAITED_FOR, 'slots:1', 'local 0: ok 1; local 0: ok 2; local 0: ok 3; enabled: enabled wakeany 0 0; wakeany 0 1: refused not-enabled; '
        'wakeany 0 0: ok 4', 'vars 0; handles - 1; end'),
    Row(WAITED_FOR, 'slots:2', 'local 0: ok 1; local 0: ok 2; local 0: ok 3; enabled: enabled wakeany 0 0, wakeany 0 1; wakeany 0 1: ok 4',
        'vars 1; handles 0 -; end'),
    # more slots than one, and synchronous sends between those that take them
    Row(MIXED, 'slots:2', 'local 0: ok 1; local 0: ok 2; local 0: ok 3; local 0: ok 4',
        'call 0.0 issend to 0 tag 0 value 1 free; call 0.1 isend to 0 tag 0 value 2 buffered free; call 0.2 issend to 0 tag 0 value 3 free; '
        'call 0.3 isend to 0 tag 0 value 4 buffered free; end'),
    Row(UNRECEIVED.replace('send', 'ssend'), 'slots:65536', 'local 0: ok 1; wake 0: refused not-enabled',
        'call 0.0 ssend to 0 tag 0 value 1 free; outcome deadlock 0.0; end', 'buffered'),
    # two slots: the second of the two that are taken falls free, and one send more is buffered
    Row(RECEIVED.replace('TAG', '2'), 'slots:2', f'{UP_TO_MATCH}; match 0.1 0.3: ok 5; local 0: ok 6; local 0: ok 7',
        'call 0.0 isend to 0 tag 1 value 1 buffered free; call 0.1 isend to 0 tag 2 value 2 buffered with 0.3; '
        'call 0.2 isend to 0 tag 3 value 3 free; call 0.4 isend to 0 tag 4 value 4 buffered free; call 0.5 isend to 0 tag 5 value 5 free; end'),
    # a match of a send that wasn't buffered frees no slot
    Row(RECEIVED.replace('TAG', '3'), 'slots:2', f'{UP_TO_MATCH}; match 0.2 0.3: ok 5; local 0: ok 6; local 0: ok 7',
        'call 0.2 isend to 0 tag 3 value 3 with 0.3; call 0.4 isend to 0 tag 4 value 4 free; call 0.5 isend to 0 tag 5 value 5 free; end'),
    # the match taken back and taken again, and only then the next sends
    Row(RECEIVED.replace('TAG', '1'), 'slots:2', f'{UP_TO_MATCH}; match 0.0 0.3: ok 5; back: ok 4; redo: ok 5; back: ok 4; match 0.0 0.3: ok 5; '
        'local 0: ok 6; local 0: ok 7; goto 5: ok 5; local 0: ok 6; local 0: ok 7',
        'depth 7 of 7; call 0.0 isend to 0 tag 1 value 1 buffered with 0.3; call 0.4 isend to 0 tag 4 value 4 buffered free; '
        'call 0.5 isend to 0 tag 5 value 5 free; end'),
    # the match taken back, and the next send without it; the match behind that comes too late for it, but not for the last
    Row(RECEIVED.replace('TAG', '1'), 'slots:2', f'{UP_TO_MATCH}; match 0.0 0.3: ok 5; local 0: ok 6; goto 4: ok 4; local 0: ok 5; '
        'match 0.0 0.3: ok 6; local 0: ok 7',
        'depth 7 of 7; call 0.0 isend to 0 tag 1 value 1 buffered with 0.3; call 0.1 isend to 0 tag 2 value 2 buffered free; '
        'call 0.4 isend to 0 tag 4 value 4 free; call 0.5 isend to 0 tag 5 value 5 buffered free; end'),
    # a rank that goes on behind a buffered send keeps the slot until that is received
    Row(FIVE, 'slots:1', 'local 0: ok 1; local 0: ok 2; wake 0: ok 3; local 0: ok 4; local 0: ok 5; local 0: ok 6; wake 0: refused not-enabled',
        'rank 0 blocked 1; vars 1; call 0.0 send to 0 tag 0 value 0 buffered free; call 0.1 send to 0 tag 0 value 1 free; '
        'outcome deadlock 0.1; end'),
    # both ends of one script
    Row(EARLY_OR_LATE, 'slots:1', 'local 0: ok 1; local 0: ok 2; local 0: ok 3; local 1: ok 4; local 1: ok 5; match 0.0 1.0: ok 6; wake 1: ok 7; '
        'enabled: enabled', 'call 0.1 send to 1 tag 1 value 2 free; rank 1 ended; outcome deadlock 0.1; end'),
    Row(EARLY_OR_LATE, 'slots:1', 'local 0: ok 1; local 0: ok 2; local 1: ok 3; local 1: ok 4; match 0.0 1.0: ok 5; local 0: ok 6; wake 0: ok 7; '
        'wake 1: ok 8', 'rank 0 ended; call 0.1 send to 1 tag 1 value 2 buffered free; outcome leftovers 0.1; end'),
    Row(NOT_LISTED, 'slots:1', 'local 0: ok 1; local 0: ok 2; local 1: ok 3; local 1: ok 4; local 1: ok 5; match 0.0 1.0: ok 6; local 0: ok 7; '
        'wake 0: ok 8; local 0: ok 9; local 2: ok 10; local 2: ok 11; local 2: ok 12; local 2: ok 13; match 0.2 2.0: ok 14; wake 2: ok 15; '
        'local 2: ok 16', 'call 0.1 send to 1 tag 1 value 2 buffered free; call 0.2 send to 2 tag 0 value 3 with 2.0; rank 2 trapped assert; '
        'vars 3; end'))

STUCK = 'local 0, local 0, local 1, local 1, wake 0, local 0'
RUNS = (
    RunRow(HEAD_TO_HEAD, 'slots:0', 'run 100: stop leaf steps 2 depth 2; decide: leaf deadlock 0.0 1.0'),
    RunRow(HEAD_TO_HEAD, 'slots:1', 'run 100: stop leaf steps 10 depth 10; decide: leaf done'),
    RunRow(THREE_SENDS, 'slots:1', 'run 4: stop max steps 4 depth 4; decide: forced wake 0; run 100: stop leaf steps 2 depth 6; '
           'decide: leaf deadlock 0.1 1.0'),
    RunRow(EARLY_OR_LATE, 'slots:1', 'run 100: stop leaf steps 7 depth 7; run-back: stop start steps 7 depth 0; local 0: ok 1; local 0: ok 2; '
           'local 1: ok 3; local 1: ok 4; match 0.0 1.0: ok 5; run 100: stop leaf steps 3 depth 8; decide: leaf leftovers 0.1'))

def told_of(*modes, least):
    """What is told of modes that were tried one after another, each with its one leaf, by whether that is a deadlock, and whether messages are left."""
    lines = [f'{mode} leaves 1 deadlocks {deadlocks} traps 0 leftovers {sum(left)} cut 0 more no' for mode, deadlocks, *left in modes]
    return '; '.join([*lines, f'least {least}'])


# Words, and how many slots there are in the mode that each names; None where it names none of slots.
NAMED = (
    ('slots:0', 0), ('slots:1', 1), ('slots:9', 9), ('slots:00003', 3), ('slots:00000', 0), ('slots:010', 10), ('slots:12345', 12345),
    ('slots:65535', 65535), ('slots:65536', 65536), (RENDEZVOUS, None), (BUFFERED, None))
# Words that name no mode.
NONE = (
    'slots:', 'slots:65537', 'slots:65600', 'slots:70000', 'slots:99999', 'slots:000001', 'slots:000000', 'slots:065536', 'slots:100000', 'slots:-1',
    'slots:-0', 'slots:+1', 'slots:1 ', ' slots:1', 'slots: 1', 'slots :1', 'slots:\t1', 'slots:1\n', 'slots:1\r', 'Slots:1', 'SLOTS:1', 'slots:1x',
    'slots:x', 'slots:x1', 'slots', 'slots1', 'slots 1', 'slot:1', 'slots=1', 'slots;1', 'slots::1', 'slots:1:', 'slots:1:1', 'slots:1.0',
    'slots:1e1', 'slots:0x1', 'slots:1_0', 'slots:\u0661', 'slots:\uff11', 'slots:\u00b2', 'slots:any', 'rendezvous:1', 'buffered:1', 'buffered:',
    'slots:buffered', ':1', '1', 'Rendezvous', 'BUFFERED', 'buffer', '')

FIVE_LEFT = 'leaf 0 [] leftovers 0.0 0.1 0.2 0.3 0.4; leaves 1 more no'
ENDED = 'leaf 0 [] done; leaves 1 more no'
CHECKS = (
    # how many slots let the third message come to where it is received first
    CheckRow(THREE_SENDS, Asked('slots:0'), 'leaf 0 [] deadlock 0.0 1.0; leaves 1 more no', 1),
    CheckRow(THREE_SENDS, Asked('slots:1'), 'leaf 0 [] deadlock 0.1 1.0; leaves 1 more no', 1),
    CheckRow(THREE_SENDS, Asked('slots:2'), ENDED, 0), CheckRow(THREE_SENDS, Asked('slots:3'), ENDED, 0),
    CheckRow(THREE_SENDS, Asked('slots:0', witnesses=True),
             'leaf 0 [] deadlock 0.0 1.0; witness 0: local 0, local 0, local 1, local 1; leaves 1 more no', 1),
    CheckRow(THREE_SENDS, Asked('slots:1', witnesses=True), f'leaf 0 [] deadlock 0.1 1.0; witness 0: {STUCK}; leaves 1 more no', 1),
    CheckRow(HEAD_TO_HEAD, Asked('slots:0'), 'leaf 0 [] deadlock 0.0 1.0; leaves 1 more no', 1), CheckRow(HEAD_TO_HEAD, Asked('slots:1'), ENDED, 0),
    CheckRow(HEAD_TO_HEAD, Asked('slots:65536'), ENDED, 0),
    # one mode after another: what ends in the first, with one slot, with two, with none of those that are tried, and in none at all
    CheckRow(EMPTY, Asked(modes=0), told_of((RENDEZVOUS, 0), (BUFFERED, 0), least=RENDEZVOUS), 0),
    CheckRow(HEAD_TO_HEAD, Asked(modes=0), told_of((RENDEZVOUS, 1), (BUFFERED, 0), least=BUFFERED), 1),
    CheckRow(HEAD_TO_HEAD, Asked(modes=2), told_of((RENDEZVOUS, 1), ('slots:1', 0), ('slots:2', 0), (BUFFERED, 0), least='slots:1'), 1),
    CheckRow(THREE_SENDS, Asked(BUFFERED, modes=3, pieces=True, piece=9, witnesses=True),
             told_of((RENDEZVOUS, 1), ('slots:1', 1), ('slots:2', 0), ('slots:3', 0), (BUFFERED, 0), least='slots:2'), 1),
    CheckRow(FIVE, Asked(modes=1), told_of((RENDEZVOUS, 1), ('slots:1', 1), (BUFFERED, 0, 1), least=BUFFERED), 1),
    CheckRow(UNRECEIVED.replace('send', 'ssend'), Asked(modes=1), told_of((RENDEZVOUS, 1), ('slots:1', 1), (BUFFERED, 1), least='none'), 1),
    CheckRow(HEAD_TO_HEAD, Asked('fast', modes=2), '', 2, 'mpdbg: bad mode'),
    # where all must be told the report of each mode must be whole, and no more; something bad in one of them comes first
    CheckRow(EMPTY, Asked(modes=2, complete=True), told_of((RENDEZVOUS, 0), ('slots:1', 0), ('slots:2', 0), (BUFFERED, 0), least=RENDEZVOUS), 0),
    CheckRow(HEAD_TO_HEAD, Asked(modes=0, complete=True), told_of((RENDEZVOUS, 1), (BUFFERED, 0), least=BUFFERED), 1),
    *(CheckRow(ON_AND_ON, Asked(modes=0, fuel=5, complete=complete), 'rendezvous leaves 1 deadlocks 0 traps 0 leftovers 0 cut 1 more no; '
               'buffered leaves 1 deadlocks 0 traps 0 leftovers 0 cut 1 more no; least rendezvous', status) for complete, status in ((False, 0), (True, 4))),
    *(CheckRow(CHOICE_IF_BUFFERED, Asked(modes=0, runs=1, split=0, complete=complete), 'rendezvous leaves 1 deadlocks 0 traps 0 leftovers 0 cut 0 more no; '
               'buffered leaves 1 deadlocks 0 traps 0 leftovers 0 cut 0 more yes; least rendezvous', status) for complete, status in ((False, 0), (True, 4))),
    CheckRow(CHOICE_IF_BUFFERED, Asked(modes=0, runs=2, split=0, complete=True), 'rendezvous leaves 1 deadlocks 0 traps 0 leftovers 0 cut 0 more no; '
             'buffered leaves 2 deadlocks 0 traps 0 leftovers 0 cut 0 more no; least rendezvous', 0),
    CheckRow(UNRECEIVED, Asked(modes=0, fuel=1, complete=True), 'rendezvous leaves 1 deadlocks 1 traps 0 leftovers 0 cut 0 more no; '
             'buffered leaves 1 deadlocks 0 traps 0 leftovers 0 cut 1 more no; least buffered', 1),
    # a synchronous send in front takes no slot
    CheckRow(SYNCHRONOUS_FIRST, Asked('slots:1'), 'leaf 0 [] leftovers 0.0 0.1; leaves 1 more no', 0),
    CheckRow(SYNCHRONOUS_FIRST, Asked('slots:0'), 'leaf 0 [] deadlock 0.1; leaves 1 more no', 1),
    # the words of a mode, by which of five sends is the first that isn't buffered
    CheckRow(FIVE, Asked('slots:0'), 'leaf 0 [] deadlock 0.0; leaves 1 more no', 1),
    *(CheckRow(FIVE, Asked(word), 'leaf 0 [] deadlock 0.3; leaves 1 more no', 1) for word in ('slots:3', 'slots:03', 'slots:00003')),
    CheckRow(FIVE, Asked('slots:4'), 'leaf 0 [] deadlock 0.4; leaves 1 more no', 1),
    *(CheckRow(FIVE, Asked(word), FIVE_LEFT, 0) for word in (
        'slots:5', 'slots:10', 'slots:00010', 'slots:30000', 'slots:65535', 'slots:65536', BUFFERED)),
    # no report along decisions tells every way to end, whatever the number of slots, and whatever is listed but what is bad
    *(CheckRow(EMPTY, Asked(word, complete=True), ENDED, 4) for word in ('slots:0', 'slots:1', 'slots:65536')),
    *(CheckRow(EMPTY, Asked(word, complete=True), ENDED, 0) for word in (RENDEZVOUS, BUFFERED)), CheckRow(EMPTY, Asked('slots:1'), ENDED, 0),
    CheckRow(FIVE, Asked('slots:5', complete=True), FIVE_LEFT, 4),
    CheckRow(UNRECEIVED, Asked('slots:1', complete=True), 'leaf 0 [] leftovers 0.0; leaves 1 more no', 4),
    CheckRow(UNRECEIVED, Asked('slots:0', complete=True), 'leaf 0 [] deadlock 0.0; leaves 1 more no', 1),
    CheckRow(UNRECEIVED, Asked('slots:1', fuel=1, complete=True), 'leaf 0 [] cut; leaves 1 more no', 4),
    CheckRow(UNRECEIVED, Asked('slots:1', fuel=1), 'leaf 0 [] cut; leaves 1 more no', 0),
    CheckRow(UNRECEIVED, Asked('slots:1', pieces=True), 'pieces 1', 0),
    CheckRow(UNRECEIVED, Asked('slots:1', piece=0), 'leaf 0 [] leftovers 0.0; leaves 1 more no', 0),
    # an end that is not listed, where something bad is, and where nothing is
    CheckRow(EARLY_OR_LATE, Asked('slots:1', complete=True), 'leaf 0 [] deadlock 0.1; leaves 1 more no', 1),
    CheckRow(NOT_LISTED, Asked('slots:1', complete=True), 'leaf 0 [0] done; leaves 1 more no', 4),
    CheckRow(NOT_LISTED, Asked('slots:1'), 'leaf 0 [0] done; leaves 1 more no', 0),
    CheckRow(NOT_LISTED, Asked('slots:0', complete=True), 'leaf 0 [0] done; leaves 1 more no', 4),
    CheckRow(NOT_LISTED, Asked(complete=True), 'leaf 0 [0] done; leaves 1 more no', 0),
    *(CheckRow(NOT_LISTED, Asked(word, complete=True), 'leaf 0 [0] trap 2 assert; leaf 1 [1] done; leaves 2 more no', 1)
      for word in ('slots:2', BUFFERED)),
    # words that name no mode, before the file and the script
    *(CheckRow(EMPTY, Asked(word), '', 2, 'mpdbg: bad mode') for word in NONE),
    *(CheckRow(script, Asked('slots:65537'), '', 2, 'mpdbg: bad mode') for script in (None, 'mpd 3;')),
    CheckRow(None, Asked('slots:1'), '', 3, 'mpdbg: device'))

PLACES = ()

WITNESSES = (
    WitnessRow(THREE_SENDS, 'slots:1', STUCK, '0.1 1.0', ''), WitnessRow(THREE_SENDS, 'slots:1', STUCK, '0.1', '34'),
    WitnessRow(THREE_SENDS, 'slots:1', STUCK.removesuffix(', local 0'), '0.1 1.0', '33'),
    *(WitnessRow(THREE_SENDS, mode, STUCK, '0.1 1.0', '32 at 4') for mode in (RENDEZVOUS, 'slots:0')),
    *(WitnessRow(THREE_SENDS, mode, STUCK, '0.1 1.0', '33') for mode in (BUFFERED, 'slots:2')),
    WitnessRow(EARLY_OR_LATE, 'slots:1', 'local 0, local 0, local 0, local 1, local 1, match 0.0 1.0, wake 1', '0.1', ''),
    WitnessRow(EARLY_OR_LATE, 'slots:1', 'local 0, local 0, local 1, local 1, match 0.0 1.0, local 0, wake 1', '0.1', '33'))

LEAF = f'leaf 0 [] deadlock 0.1 1.0\nwitness 0: {STUCK}\n'
TOLD = (
    *(ToldRow(THREE_SENDS, LEAF, word, 'accepted', 0) for word in ('slots:1', 'slots:01', 'slots:00001')),
    ToldRow(THREE_SENDS, LEAF, 'slots:0', 'refused 32 no-such-step at 4', 1), ToldRow(THREE_SENDS, LEAF, 'slots:2', 'refused 33 not-stuck', 1),
    ToldRow(THREE_SENDS, LEAF, None, 'refused 32 no-such-step at 4', 1), ToldRow(THREE_SENDS, LEAF, BUFFERED, 'refused 33 not-stuck', 1),
    *(ToldRow(THREE_SENDS, LEAF, word, '', 2, 'mpdbg: bad mode') for word in ('slots:', 'slots:000001', 'slots:-1', 'Slots:1')),
    ToldRow(THREE_SENDS, None, 'slots:1', '', 3, 'mpdbg: device'))


def calls(*texts, version, rank=0):
    """A request for the calls of a rank, with its reply."""
    listed = ','.join(f'"{text}"' for text in texts)
    return f'{{"cmd":"calls","rank":{rank}}}', f'{{"calls":[{listed}],"ok":true,"version":{version}}}'


DIALOGUES = (
    Dialogue('two sends and one slot', IN_ORDER, (
        (RUN, ran(12, 12, 'leaf', 1)), calls('send to 1 tag 0 value 1 buffered with 1.0', 'send to 1 tag 0 value 2 with 1.1', version=1),
        calls('recv from 0 tag 0 with 0.0 value 1', 'recv from 0 tag 0 with 0.1 value 2', version=1, rank=1),
        ('{"cmd":"goto","depth":6}', deep(6, 2)), calls('send to 1 tag 0 value 1 buffered free', 'send to 1 tag 0 value 2 free', version=2),
        (STATE, '{"depth":6,"ok":true,"ranks":["blocked 1","blocked 0"],"sets":["woke 0.0"],"undone":6,"version":2}'),
        (ENABLED, '{"ok":true,"steps":["match 0.0 1.0"],"version":2}'), (step('wake 0'), no('not-enabled')),
        ('{"call":1,"cmd":"why","rank":0}', '{"ok":true,"partners":["1.0 held by 0.0"],"version":2}'),
        ('{"cmd":"explore","fuel":100,"runs":10}', '{"leaves":["[] done"],"more":false,"ok":true,"version":2}'),
        ('{"cmd":"redo","count":1}', deep(7, 3)), (step('wake 0'), no('not-enabled')),
        calls('send to 1 tag 0 value 1 buffered with 1.0', 'send to 1 tag 0 value 2 free', version=3)), 'slots:1'),
    Dialogue('two sends and two slots', IN_ORDER, (
        ('{"cmd":"run","max":6}', ran(6, 6, 'max', 1)),
        calls('send to 1 tag 0 value 1 buffered free', 'send to 1 tag 0 value 2 buffered free', version=1),
        (ENABLED, '{"ok":true,"steps":["wake 0","match 0.0 1.0"],"version":1}')), 'slots:2'),
    Dialogue('a match that is taken back takes its slot again', SENT_TWICE, (
        (step('local 0'), deep(1, 1)), (step('local 0'), deep(2, 2)), (step('match 0.0 0.1'), deep(3, 3)), (step('local 0'), deep(4, 4)),
        calls('isend to 0 tag 0 value 1 buffered with 0.1', 'irecv from 0 tag 0 with 0.0 value 1',
              'isend to 0 tag 0 value 2 buffered free', version=4),
        ('{"cmd":"back","count":2}', deep(2, 5)), (step('local 0'), deep(3, 6)),
        calls('isend to 0 tag 0 value 1 buffered free', 'irecv from 0 tag 0 free', 'isend to 0 tag 0 value 2 free', version=6)), 'slots:1'),
    Dialogue('an issue that is taken back gives its slot up', OF_EACH, (
        (step('local 1'), deep(1, 1)), ('{"cmd":"goto","depth":0}', deep(0, 2)), (step('local 1'), deep(1, 3)), (step('local 1'), deep(2, 4)),
        calls('isend to 0 tag 0 value 1 buffered free', 'isend to 1 tag 0 value 2 free', version=4, rank=1)), 'slots:1'),
    Dialogue('a synchronous send takes no slot', MIXED, (
        (RUN, ran(4, 4, 'leaf', 1)),
        calls('issend to 0 tag 0 value 1 free', 'isend to 0 tag 0 value 2 buffered free', 'issend to 0 tag 0 value 3 free',
              'isend to 0 tag 0 value 4 free', version=1)), 'slots:1'),
    *(Dialogue(f'no mark in the mode {mode}', OF_EACH, (
        (step('local 1'), deep(1, 1)), calls('isend to 0 tag 0 value 1 free', version=1, rank=1)), mode)
      for mode in (RENDEZVOUS, BUFFERED, 'slots:0')))

def named_problem(word, slots):
    """What a word is taken for otherwise than a mode with so many slots; None where nothing is."""
    said = slots_of(word)
    return None if is_mode(word) and said == slots else f'has {said} slots'


def none_problem(word):
    """What a word is taken for that names no mode; None where nothing is."""
    return f'has {slots_of(word)} slots' if is_mode(word) or slots_of(word) is not None else None


def problems():
    """The name of each row of words, with what is wrong in it, or None."""
    yield from ((f'the mode {word!r}', named_problem(word, slots)) for word, slots in NAMED)
    yield from ((f'no mode {word!r}', none_problem(word)) for word in NONE)
