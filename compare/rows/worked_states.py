"""Worked rows of states: a script, a mode, and words with what each is answered; behind the words stands what `show` prints, in part.

They are of barriers, of synchronous sends, of both modes, of the words that go along the steps that are there, and of states behind
some steps. compare/runs/worked.py compares them with the model, compare/runs/statuses.py with the built program.
"""

from model.debugger import BUFFERED, RENDEZVOUS
from rows.worked_traces import Row

MEETING = 'mpd 1; ranks 2;\nbarrier;'
ONE_ENDED = 'mpd 1; ranks 2;\nif rank == 1 { barrier; }'
ONE_TRAPPED = 'mpd 1; ranks 2;\nassert rank;\nbarrier;'
TWICE = 'mpd 1; ranks 2;\nbarrier;\nif rank == 0 { barrier; }'
HEAD_TO_HEAD = 'mpd 1; ranks 2; var x;\nsend rank to 1 - rank tag 5;\nrecv x from 1 - rank tag 5;'
UNRECEIVED = 'mpd 1; ranks 1;\nsend 1 to 0 tag 0;'
ACROSS = 'mpd 1; ranks 1; var x; req r;\nisend r 7 to 0 tag 0;\nbarrier;\nwait r;\nrecv x from 0 tag 0;'
PROMISED = ('mpd 1; ranks 2; var x; req r;\n'
            'if rank == 0 { issend r 7 to 1 tag 0; wait r; } else { recv x from 0 tag 0; }')
MATCHED_LATE = 'mpd 1; ranks 2; var x; req r;\nif rank == 0 { isend r 7 to 1 tag 0; wait r; } else { recv x from 0 tag 0; }'
IN_ORDER = ('mpd 1; ranks 2; var x; req r;\n'
            'if rank == 0 { isend r 1 to 1 tag 0; ssend 2 to 1 tag 0; } else { recv x from any tag any; }')
IN_FRONT = 'mpd 1; ranks 2; var x; req r;\nif rank == 0 { isend r 1 to 1 tag 0; } else { irecv r x from 0 tag 0; }\nbarrier;'


ROWS = (
    # neither rank goes on before the other is at its barrier, and both do at once; a step back and they are there again
    Row(MEETING, RENDEZVOUS, 'local 0: ok 1; release: refused not-enabled; wake 0: refused not-enabled; local 1: ok 2; '
        'enabled: enabled release; release: ok 3',
        'depth 3 of 3; rank 0 ended; call 0.0 barrier; rank 1 ended; call 1.0 barrier; set barrier; outcome done; end', 'woke'),
    Row(MEETING, RENDEZVOUS, 'local 0: ok 1; local 1: ok 2; release: ok 3; back: ok 2',
        'depth 2 of 3; rank 0 blocked 0; rank 1 blocked 0; end', 'set'),
    Row(MEETING, BUFFERED, 'local 1: ok 1; local 0: ok 2; wake 1: refused not-enabled; release: ok 3',
        'set barrier; outcome done; end'),
    # a rank that has ended, one that is trapped, one that has left all its barriers: the other stays where it is
    Row(ONE_ENDED, RENDEZVOUS, 'local 0: ok 1; local 1: ok 2; local 1: ok 3; release: refused not-enabled; enabled: enabled',
        'rank 0 ended; rank 1 blocked 0; call 1.0 barrier; outcome deadlock 1.0; end', 'set'),
    Row(ONE_TRAPPED, RENDEZVOUS, 'local 0: ok 1; local 1: ok 2; local 1: ok 3; release: refused not-enabled',
        'rank 0 trapped assert; rank 1 blocked 0; outcome trap 0 assert; end', 'set'),
    Row(TWICE, RENDEZVOUS, 'local 0: ok 1; local 1: ok 2; release: ok 3; local 0: ok 4; local 0: ok 5; local 1: ok 6; '
        'release: refused not-enabled',
        'rank 0 blocked 1; call 0.0 barrier; call 0.1 barrier; rank 1 ended; call 1.0 barrier; set barrier; '
        'outcome deadlock 0.1; end'),
    # a barrier completes no other call: the send behind it is still to be matched
    Row(ACROSS, RENDEZVOUS, 'local 0: ok 1; local 0: ok 2; match 0.0 0.1: refused not-enabled; release: ok 3; local 0: ok 4; '
        'wake 0: refused not-enabled',
        'rank 0 blocked 2; handles 0; call 0.0 isend to 0 tag 0 value 7 free; call 0.1 barrier; call 0.2 wait 0; '
        'pending 0 to 0: 0; set barrier; outcome deadlock 0.2; end'),
    Row(ACROSS, BUFFERED, 'local 0: ok 1; local 0: ok 2; release: ok 3; local 0: ok 4; wake 0: ok 5; local 0: ok 6; '
        'match 0.0 0.3: ok 7; wake 0: ok 8',
        'rank 0 ended; vars 7; handles -; call 0.0 isend to 0 tag 0 value 7 with 0.3; call 0.3 recv from 0 tag 0 with 0.0 value 7; '
        'set barrier; set woke 0.2; set pair 0.0 0.3; set woke 0.3; outcome done; end'),
    # two ranks that send before they receive
    Row(HEAD_TO_HEAD, RENDEZVOUS, 'local 0: ok 1; local 1: ok 2; wake 0: refused not-enabled; enabled: enabled',
        'rank 0 blocked 0; rank 1 blocked 0; pending 0 to 1: 0; pending 1 to 0: 0; outcome deadlock 0.0 1.0; end', 'set'),
    Row(HEAD_TO_HEAD, BUFFERED, 'local 0: ok 1; local 0: refused not-enabled; local 1: ok 2; enabled: enabled wake 0, wake 1; '
        'wake 0: ok 3; wake 1: ok 4; local 0: ok 5; local 1: ok 6; match 0.0 1.1: ok 7; match 1.0 0.1: ok 8; wake 0: ok 9; '
        'wake 1: ok 10',
        'rank 0 ended; vars 1; call 0.0 send to 1 tag 5 value 0 with 1.1; rank 1 ended; vars 0; set woke 0.0; set woke 1.0; '
        'set pair 0.0 1.1; set pair 1.0 0.1; set woke 0.1; set woke 1.1; outcome done; end'),
    Row(HEAD_TO_HEAD.replace('send', 'ssend'), BUFFERED,
        'local 0: ok 1; local 1: ok 2; wake 0: refused not-enabled; enabled: enabled',
        'call 0.0 ssend to 1 tag 5 value 0 free; call 1.0 ssend to 0 tag 5 value 1 free; outcome deadlock 0.0 1.0; end'),
    # a message that nobody receives
    Row(UNRECEIVED, RENDEZVOUS, 'local 0: ok 1; wake 0: refused not-enabled',
        'rank 0 blocked 0; call 0.0 send to 0 tag 0 value 1 free; pending 0 to 0: 0; outcome deadlock 0.0; end'),
    Row(UNRECEIVED, BUFFERED, 'local 0: ok 1; wake 0: ok 2',
        'rank 0 ended; call 0.0 send to 0 tag 0 value 1 free; pending 0 to 0: 0; set woke 0.0; outcome leftovers 0.0; end'),
    Row(UNRECEIVED.replace('send', 'ssend'), BUFFERED, 'local 0: ok 1; wake 0: refused not-enabled',
        'rank 0 blocked 0; call 0.0 ssend to 0 tag 0 value 1 free; pending 0 to 0: 0; outcome deadlock 0.0; end'),
    # a synchronous send with a handle is waited for until it is matched, in either mode; a standard one isn't
    *(Row(PROMISED, mode, 'local 0: ok 1; local 0: ok 2; local 0: ok 3; wake 0: refused not-enabled; local 1: ok 4; local 1: ok 5; '
          'match 0.0 1.0: ok 6; wake 0: ok 7; wake 1: ok 8',
          'handles -; call 0.0 issend to 1 tag 0 value 7 with 1.0; call 0.1 wait 0; vars 7; set pair 0.0 1.0; set woke 0.1; '
          'set woke 1.0; outcome done; end') for mode in (RENDEZVOUS, BUFFERED)),
    Row(MATCHED_LATE, BUFFERED, 'local 0: ok 1; local 0: ok 2; local 0: ok 3; wake 0: ok 4; local 1: ok 5; local 1: ok 6; '
        'match 0.0 1.0: ok 7; wake 1: ok 8', 'handles -; set woke 0.1; set pair 0.0 1.0; set woke 1.0; outcome done; end'),
    # sends of all kinds are of one order
    *(Row(IN_ORDER, mode, 'local 0: ok 1; local 0: ok 2; local 0: ok 3; local 1: ok 4; local 1: ok 5; '
          'match 0.1 1.0: refused not-enabled; enabled: enabled match 0.0 1.0', 'pending 0 to 1: 0 1; posted 1: 0; end', 'set')
      for mode in (RENDEZVOUS, BUFFERED)),
    # the release stands in front of the matches
    Row(IN_FRONT, RENDEZVOUS, 'local 0: ok 1; local 0: ok 2; local 0: ok 3; local 1: ok 4; local 1: ok 5; local 1: ok 6; '
        'enabled: enabled release, match 0.0 1.0', 'pending 0 to 1: 0; posted 1: 0; end', 'set'))

FIRST = 'mpd 1; ranks 2; var x;\nif rank == 0 { send 7 to 1 tag 0; } else { recv x from 0 tag 0; print x; }'
ON_ONE_HANDLE = ('mpd 1; ranks 2; var x; var y; req r;\nif rank == 0 { isend r 1 to 1 tag 0; isend r 2 to 1 tag 0; wait r; } '
                 'else { recv x from 0 tag 0; recv y from 0 tag 0; }')
ALONG = (
    # what a handle held is there again behind a step back, and the next request behind a redo
    Row(ON_ONE_HANDLE, RENDEZVOUS, 'local 0: ok 1; local 0: ok 2; local 0: ok 3; back: ok 2', 'depth 2 of 3; handles 0; end'),
    Row(ON_ONE_HANDLE, RENDEZVOUS, 'local 0: ok 1; local 0: ok 2; local 0: ok 3; back: ok 2; redo: ok 3; local 0: ok 4; local 1: ok 5; '
        'local 1: ok 6; match 0.0 1.0: ok 7; wake 1: ok 8; local 1: ok 9; match 0.1 1.1: ok 10; wake 0: ok 11; wake 1: ok 12',
        'depth 12 of 12; rank 0 ended; handles -; vars 1 2; outcome done; end'),
    # an undone step that is taken as a step keeps what is behind it; another drops that, and then nothing can be taken again
    Row(FIRST, RENDEZVOUS, 'local 0: ok 1; local 0: ok 2; back: ok 1; back: ok 0; local 1: ok 1; redo: refused no-redo',
        'depth 1 of 1; rank 0 at 2; end'),
    Row(FIRST, RENDEZVOUS, 'local 0: ok 1; local 0: ok 2; back: ok 1; back: ok 0; local 0: ok 1; redo: ok 2; goto 3: refused not-before; '
        'goto 0: ok 0', 'depth 0 of 2; rank 0 at 2; rank 1 at 2; end', 'call'),
    # a refusal drops nothing
    Row(FIRST, RENDEZVOUS, 'local 0: ok 1; local 0: ok 2; goto 1: ok 1; wake 0: refused not-enabled; match 0.0 1.0: refused not-enabled; '
        'goto 2: refused not-before; redo 1: refused bad-word; redo: ok 2; redo: refused no-redo', 'depth 2 of 2; rank 0 blocked 0; end'),
    # the present depth is before itself; at the start there is nothing to take again, and 0 to go to
    Row(FIRST, RENDEZVOUS, 'redo: refused no-redo; goto 0: ok 0; goto 1: refused not-before; back: refused at-start; local 1: ok 1; '
        'goto 1: ok 1', 'depth 1 of 1; end'),
    # nine digits are a number, whatever zeros are among them
    Row(FIRST, RENDEZVOUS, 'local 0: ok 1; goto 000000001: ok 1; goto 0000000001: refused bad-word; goto 999999999: refused not-before; '
        'goto: refused bad-word; goto -1: refused bad-word; goto 0 0: refused bad-word; goto 0.0: refused bad-word; '
        'Goto 0: refused bad-word; goto 000000000: ok 0', 'depth 0 of 1; end'),
    # a release and its match set, there and back
    Row(MEETING, RENDEZVOUS, 'local 0: ok 1; local 1: ok 2; release: ok 3; goto 1: ok 1; redo: ok 2; release: ok 3; goto 2: ok 2; '
        'redo: ok 3', 'depth 3 of 3; rank 0 ended; rank 1 ended; set barrier; outcome done; end'),
    # another match in the place of the one that was taken back
    Row('mpd 1; ranks 3; var x;\nif rank == 0 { recv x from any tag any; } else { send rank to 0 tag 0; }', RENDEZVOUS,
        'local 0: ok 1; local 0: ok 2; local 1: ok 3; local 1: ok 4; local 2: ok 5; local 2: ok 6; match 1.0 0.0: ok 7; wake 0: ok 8; '
        'goto 6: ok 6; match 2.0 0.0: ok 7; redo: refused no-redo; wake 1: refused not-enabled; wake 0: ok 8; wake 2: ok 9',
        'depth 9 of 9; rank 0 ended; vars 2; set pair 2.0 0.0; set woke 0.0; set woke 2.0; outcome deadlock 1.0; end', 'set pair 1.0'))

# States behind steps: which steps are enabled there, and which are not.
PRINTING = 'mpd 1; ranks 2; print 1;'
ON_FOUR_LINES = 'mpd 1;\nranks 2;\nvar x;\nif rank == 0 { send 7 to 1 tag 0; } else { recv x from 0 tag 0; print x; }'
THREE_SENDS = ('mpd 1; ranks 2; var x;\nif rank == 0 { send 1 to 1 tag 0; send 2 to 1 tag 0; send 3 to 1 tag 1; } '
               'else { recv x from 0 tag 0; }')
ALL_SENT = ('local 0: ok 1; local 0: ok 2; wake 0: ok 3; local 0: ok 4; wake 0: ok 5; local 0: ok 6; wake 0: ok 7; local 1: ok 8; '
            'local 1: ok 9')
EITHER = 'mpd 1; ranks 3; var x;\nif rank == 0 { recv x from any tag any; } else { send 5 to 0 tag rank; }'
NESTED = ('mpd 1; ranks 3; var x; var a[4];\nwhile x < 2 {\n  if x { } else { a[x] = 7; }\n  x = x + 1;\n}\nprint a[0];')
ALONE = 'mpd 1; ranks 1; var x; x = 5; print x; send x to 0 tag 1;'
STATUS = ('mpd 1; ranks 2; var x; var a[2];\nif rank == 0 { x = 9; a[1] = 5; recv x from any tag any status a[0] a[1]; } '
          'else { send 7 to 0 tag 3; }')
RECEIVED = ('local 0: ok 1; local 0: ok 2; local 0: ok 3; local 0: ok 4; local 1: ok 5; local 1: ok 6; match 1.0 0.0: ok 7; '
            'wake 0: ok 8')
ONE_CELL_TWICE = ('mpd 1; ranks 6; var x; var y; req r;\n'
                  'if rank == 0 { x = 1; y = 2; irecv r x from any tag any status y x; wait r; }\n'
                  'if rank == 5 { send 4 to 0 tag 6; }')
WAITED = ('local 0: ok 1; local 0: ok 2; local 0: ok 3; local 0: ok 4; local 0: ok 5; local 5: ok 6; local 5: ok 7; local 5: ok 8; '
          'match 5.0 0.0: ok 9; wake 0: ok 10')
TWO_MESSAGES = ('mpd 1; ranks 2; var x; req r[2];\n'
                'if rank == 0 { isend r[0] 40 to 1 tag 7; isend r[1] 41 to 1 tag 7; } else { recv x from 0 tag 7; }')
TWO_SENT = 'local 0: ok 1; local 0: ok 2; local 0: ok 3; local 1: ok 4; local 1: ok 5'
TWO_FREE = ('call 0.0 isend to 1 tag 7 value 40 free; call 0.1 isend to 1 tag 7 value 41 free; call 1.0 recv from 0 tag 7 free; '
            'pending 0 to 1: 0 1; posted 1: 0; end')
WAITING = 'mpd 1; ranks 2; var x; req r[2];\nif rank == 0 { isend r[0] 40 to 1 tag 7; } else { irecv r[0] x from 0 tag 7; wait r[0]; }'
TWO_SENDERS = ('mpd 1; ranks 3; var x; req r[2];\nif rank == 2 { irecv r[0] x from 0 tag 7; irecv r[1] x from any tag any; } '
               'else { isend r[0] 40 to 2 tag 7; }')
AT_BARRIERS = ('mpd 1; ranks 2; var x; req r;\nif rank == 0 { issend r 40 to 1 tag 7; } else { irecv r x from 0 tag 7; }\nbarrier;')
ALL_AT = 'local 0: ok 1; local 0: ok 2; local 0: ok 3; local 1: ok 4; local 1: ok 5; local 1: ok 6'
SENDS_AND_WAITS = ('mpd 1; ranks 2; var x; req r[2];\n'
                   'if rank == 0 { isend r[0] 40 to 1 tag 7; wait r[0]; issend r[1] 40 to 1 tag 7; wait r[1]; } '
                   'else { irecv r[0] x from 0 tag 7; irecv r[1] x from 0 tag 7; }')
STATES = (
    # the first of two messages is paired, and that is taken back; then the receiver goes on, and that is taken back
    Row(TWO_MESSAGES, RENDEZVOUS, f'{TWO_SENT}; match 0.1 1.0: refused not-enabled; match 1.0 0.0: refused not-enabled; '
        'match 0.0 0.1: refused not-enabled; enabled: enabled match 0.0 1.0', TWO_FREE, 'set'),
    Row(TWO_MESSAGES, RENDEZVOUS, f'{TWO_SENT}; match 0.0 1.0: ok 6; match 0.0 1.0: refused not-enabled; enabled: enabled wake 1',
        'call 0.0 isend to 1 tag 7 value 40 with 1.0; call 0.1 isend to 1 tag 7 value 41 free; '
        'call 1.0 recv from 0 tag 7 with 0.0 value 40; pending 0 to 1: 1; set pair 0.0 1.0; end', 'posted'),
    Row(TWO_MESSAGES, RENDEZVOUS, f'{TWO_SENT}; match 0.0 1.0: ok 6; back: ok 5; enabled: enabled match 0.0 1.0', TWO_FREE, 'set'),
    Row(TWO_MESSAGES, RENDEZVOUS, f'{TWO_SENT}; match 0.0 1.0: ok 6; wake 1: ok 7',
        'rank 1 ended; set pair 0.0 1.0; set woke 1.0; outcome leftovers 0.1; end'),
    Row(TWO_MESSAGES, RENDEZVOUS, f'{TWO_SENT}; match 0.0 1.0: ok 6; wake 1: ok 7; back: ok 6',
        'rank 1 blocked 0; set pair 0.0 1.0; end', 'woke'),
    # a wait is issued, and that is taken back
    Row(WAITING, RENDEZVOUS, 'local 1: ok 1; local 1: ok 2; local 1: ok 3; wake 1: refused not-enabled',
        'rank 1 blocked 1; call 1.0 irecv from 0 tag 7 free; call 1.1 wait 0; posted 1: 0; end'),
    Row(WAITING, RENDEZVOUS, 'local 1: ok 1; local 1: ok 2; local 1: ok 3; back: ok 2',
        'rank 1 at 2; call 1.0 irecv from 0 tag 7 free; posted 1: 0; end', 'wait'),
    # of two senders each is matched with a receive that takes no other first
    Row(TWO_SENDERS, RENDEZVOUS, 'local 0: ok 1; local 0: ok 2; local 1: ok 3; local 1: ok 4; local 2: ok 5; local 2: ok 6; local 2: ok 7; '
        'enabled: enabled match 0.0 2.0, match 1.0 2.1; match 0.0 2.1: refused not-enabled; match 1.0 2.0: refused not-enabled',
        'pending 0 to 2: 0; pending 1 to 2: 0; posted 2: 0 1; end', 'set'),
    # all leave a barrier, and a message stays; that is taken back, and so is the barrier
    Row(AT_BARRIERS, RENDEZVOUS, f'{ALL_AT}; wake 0: refused not-enabled; enabled: enabled release, match 0.0 1.0',
        'call 0.0 issend to 1 tag 7 value 40 free; call 0.1 barrier; pending 0 to 1: 0; posted 1: 0; end', 'set'),
    Row(AT_BARRIERS, RENDEZVOUS, f'{ALL_AT}; release: ok 7; enabled: enabled match 0.0 1.0',
        'rank 0 ended; call 0.1 barrier; rank 1 ended; pending 0 to 1: 0; posted 1: 0; set barrier; end'),
    Row(AT_BARRIERS, RENDEZVOUS, f'{ALL_AT}; release: ok 7; back: ok 6; enabled: enabled release, match 0.0 1.0',
        'rank 0 blocked 1; pending 0 to 1: 0; posted 1: 0; end', 'set'),
    Row(AT_BARRIERS, BUFFERED, f'{ALL_AT}; match 0.0 1.0: ok 7; release: ok 8',
        'call 0.0 issend to 1 tag 7 value 40 with 1.0; call 1.0 irecv from 0 tag 7 with 0.0 value 40; set pair 0.0 1.0; set barrier; end'),
    Row(AT_BARRIERS, BUFFERED, 'local 0: ok 1; local 0: ok 2; local 0: ok 3; back: ok 2', 'rank 0 at 3; pending 0 to 1: 0; end', 'barrier'),
    # sends and waits for them, in both modes: a standard send is complete as it is issued where it is buffered, and no other
    Row(SENDS_AND_WAITS, RENDEZVOUS, 'local 0: ok 1; local 0: ok 2; local 0: ok 3; local 1: ok 4; local 1: ok 5; local 1: ok 6; '
        'wake 0: refused not-enabled; enabled: enabled match 0.0 1.0', 'rank 0 blocked 1; call 0.1 wait 0; end', 'set'),
    Row(SENDS_AND_WAITS, BUFFERED, 'local 0: ok 1; local 0: ok 2; local 0: ok 3; wake 0: ok 4; local 0: ok 5; local 0: ok 6; '
        'wake 0: refused not-enabled; local 1: ok 7; local 1: ok 8; local 1: ok 9; enabled: enabled match 0.0 1.0; match 0.0 1.0: ok 10; '
        'wake 0: refused not-enabled; enabled: enabled match 0.2 1.1',
        'rank 0 blocked 3; call 0.3 wait 2; set woke 0.1; set pair 0.0 1.0; end'),
    # each outcome, and none
    Row(PRINTING, RENDEZVOUS, 'local 1: ok 1; enabled: enabled local 0', 'rank 0 at 1; rank 1 ended; end', 'outcome'),
    Row(PRINTING, RENDEZVOUS, 'local 1: ok 1; local 0: ok 2; enabled: enabled', 'rank 0 ended; rank 1 ended; outcome done; end'),
    Row('mpd 1; ranks 3; send 7 to 2 - rank tag 0;', RENDEZVOUS, 'local 2: ok 1; local 0: ok 2; local 1: ok 3; enabled: enabled',
        'rank 0 blocked 0; rank 1 blocked 0; rank 2 blocked 0; outcome deadlock 0.0 1.0 2.0; end'),
    Row('mpd 1; ranks 3; print 1 / (rank - 1); send 1 to rank tag 0;', RENDEZVOUS,
        'local 0: ok 1; local 1: ok 2; local 2: ok 3; local 2: ok 4; local 0: ok 5; enabled: enabled',
        'rank 1 trapped zero-divisor; outcome trap 1 zero-divisor; end'),
    Row('mpd 1; ranks 2; send 1 to 2 tag 0;', RENDEZVOUS, 'local 1: ok 1; local 0: ok 2; enabled: enabled',
        'rank 0 trapped bad-rank; rank 1 trapped bad-rank; outcome trap 0 bad-rank 1 bad-rank; end'),
    Row('mpd 1; ranks 2; if rank { } else { send 7 to 1 tag 0; }', BUFFERED,
        'local 1: ok 1; local 0: ok 2; local 0: ok 3; wake 0: ok 4; enabled: enabled', 'rank 1 ended; outcome leftovers 0.0; end'),
    Row('mpd 1; ranks 1; var x; send 7 to 0 tag 5; recv x from 0 tag 5;', BUFFERED,
        'local 0: ok 1; wake 0: ok 2; local 0: ok 3; match 0.0 0.1: ok 4; wake 0: ok 5; enabled: enabled',
        'rank 0 ended; outcome done; end'),
    Row('mpd 1; ranks 1; ssend 7 to 0 tag 5;', BUFFERED, 'local 0: ok 1; enabled: enabled; wake 0: refused not-enabled',
        'call 0.0 ssend to 0 tag 5 value 7 free; outcome deadlock 0.0; end'),
    # a rank that is blocked behind a pair
    Row(ON_FOUR_LINES, RENDEZVOUS, 'local 0: ok 1; local 0: ok 2; local 1: ok 3; local 1: ok 4; match 0.0 1.0: ok 5; wake 1: ok 6; '
        'enabled: enabled local 1, wake 0',
        'rank 0 blocked 0; call 0.0 send to 1 tag 0 value 7 with 1.0; rank 1 at 4; call 1.0 recv from 0 tag 0 with 0.0 value 7; '
        'set pair 0.0 1.0; set woke 1.0; end', 'outcome'),
    # sends in order, of which an earlier one of the same tag is matched first
    Row(THREE_SENDS, BUFFERED, f'{ALL_SENT}; enabled: enabled match 0.0 1.0; match 0.1 1.0: refused not-enabled; '
        'match 0.2 1.0: refused not-enabled',
        'rank 0 ended; call 0.1 send to 1 tag 0 value 2 free; rank 1 blocked 0; call 1.0 recv from 0 tag 0 free; end', 'outcome'),
    Row(THREE_SENDS, BUFFERED, f'{ALL_SENT}; match 0.0 1.0: ok 10; wake 1: ok 11; enabled: enabled', 'outcome leftovers 0.1 0.2; end'),
    # two sends that one receive may take
    Row(EITHER, RENDEZVOUS, 'local 0: ok 1; local 0: ok 2; local 1: ok 3; local 1: ok 4; local 2: ok 5; local 2: ok 6; '
        'enabled: enabled match 1.0 0.0, match 2.0 0.0; match 0.0 1.0: refused not-enabled',
        'call 0.0 recv from any tag any free; rank 2 blocked 0; end', 'outcome'),
    # a barrier, before the release and behind it
    Row(MEETING, RENDEZVOUS, 'local 0: ok 1; enabled: enabled local 1; release: refused not-enabled; wake 0: refused not-enabled',
        'rank 0 blocked 0; rank 1 at 2; end', 'outcome'),
    Row(MEETING, BUFFERED, 'local 0: ok 1; local 1: ok 2; enabled: enabled release; wake 0: refused not-enabled; '
        'local 0: refused not-enabled', 'rank 0 blocked 0; call 0.0 barrier; end', 'outcome'),
    Row(MEETING, RENDEZVOUS, 'local 0: ok 1; local 1: ok 2; release: ok 3; enabled: enabled; release: refused not-enabled',
        'rank 0 ended; set barrier; outcome done; end'),
    # a statement is shown by its line, wherever it stands
    Row(NESTED, RENDEZVOUS, 'local 0: ok 1', 'rank 0 at 3; vars 0 0 0 0 0; handles; rank 1 at 2; rank 2 at 2; end'),
    Row(NESTED, RENDEZVOUS, 'local 0: ok 1; local 0: ok 2', 'rank 0 at 3; vars 0 0 0 0 0; end'),
    Row(NESTED, RENDEZVOUS, 'local 0: ok 1; local 0: ok 2; local 0: ok 3', 'rank 0 at 4; vars 0 7 0 0 0; end'),
    Row(NESTED, RENDEZVOUS, 'local 0: ok 1; local 0: ok 2; local 0: ok 3; local 0: ok 4', 'rank 0 at 2; vars 1 7 0 0 0; end'),
    Row(NESTED, RENDEZVOUS, 'local 0: ok 1; local 0: ok 2; local 0: ok 3; local 0: ok 4; local 0: ok 5; local 0: ok 6; local 0: ok 7; '
        'local 0: ok 8', 'rank 0 at 6; vars 2 7 0 0 0; end'),
    # rank 2 of 5
    Row('mpd 1; ranks 5;\nprint rank + size;\nprint (rank + size) / 0;', RENDEZVOUS, 'local 2: ok 1; local 2: ok 2',
        'rank 2 trapped zero-divisor; out 7; end'),
    # one rank, there and back
    Row(ALONE, BUFFERED, 'local 0: ok 1', 'rank 0 at 1; vars 5; out; end'),
    Row(ALONE, BUFFERED, 'local 0: ok 1; local 0: ok 2; local 0: ok 3', 'rank 0 blocked 0; vars 5; handles; out 5; end'),
    Row(ALONE, BUFFERED, 'local 0: ok 1; local 0: ok 2; local 0: ok 3; wake 0: ok 4', 'rank 0 ended; set woke 0.0; end'),
    Row(ALONE, BUFFERED, 'local 0: ok 1; local 0: ok 2; local 0: ok 3; wake 0: ok 4; back: ok 3', 'rank 0 blocked 0; end', 'set'),
    Row(ALONE, BUFFERED, 'local 0: ok 1; local 0: ok 2; local 0: ok 3; wake 0: ok 4; goto 2: ok 2', 'rank 0 at 1; vars 5; out 5; end',
        'call'),
    Row(ALONE, BUFFERED, 'local 0: ok 1; local 0: ok 2; local 0: ok 3; wake 0: ok 4; goto 0: ok 0', 'rank 0 at 1; vars 0; out; end'),
    # a wake writes three cells, and a step back what was there before; then two of the three are one cell
    Row(STATUS, RENDEZVOUS, RECEIVED, 'vars 7 1 3; set woke 0.0; end'),
    Row(STATUS, RENDEZVOUS, f'{RECEIVED}; back: ok 7', 'vars 9 0 5; end', 'woke'),
    Row(ONE_CELL_TWICE, RENDEZVOUS, WAITED, 'rank 0 at 3; vars 6 5; handles -; end'),
    Row(ONE_CELL_TWICE, RENDEZVOUS, f'{WAITED}; back: ok 9', 'rank 0 blocked 1; vars 1 2; handles 0; end'))

# Lines of words: which are steps, and which aren't.
READ = 'mpd 1; ranks 16;\nprint 1;'
WORDS = (
    Row(READ, RENDEZVOUS, 'local 15: ok 1;  match\t0.0  1.2 : refused not-enabled; wake 000000001: refused not-enabled; '
        'release: refused not-enabled; local: refused bad-word; local 1 2: refused bad-word; match 0.0: refused bad-word; '
        'match 0 1: refused bad-word; wake 0000000001: refused bad-word; release 1: refused bad-word; Local 0: refused bad-word; '
        'enabled: enabled ' + ', '.join(f'local {rank}' for rank in range(15)), 'rank 0 at 2; rank 15 ended; end'),)

ALL = ROWS + ALONG + STATES + WORDS

# Texts that are refused: the number of the fault, and its byte in the statement.
REFUSED = (('barrier', 4, 7), ('barrier 1;', 4, 8), ('barrier r;', 4, 8), ('x = barrier;', 4, 4), ('barriers;', 5, 0),
           ('ssend 1 to 0;', 4, 12), ('ssend r 1 to 0 tag 0;', 5, 6), ('ssend 1 to any tag 0;', 4, 11),
           ('issend 1 to 0 tag 0;', 4, 7), ('issend x 1 to 0 tag 0;', 5, 7), ('issend r[0] 1 to 0 tag 0;', 4, 8),
           ('waitany r to x;', 10, 0))


def in_turn(wanted, lines):
    """Whether all of the wanted lines are there, in their order."""
    lines = iter(lines)
    return all(line in lines for line in wanted)


def pairs(row):
    """The words of a row, each with its answer."""
    return [part.split(': ') for part in row.words.split('; ')]


def asked_words(row):
    """The words of a row, and `show` behind them, as they are read."""
    return ''.join(f'{word}\n' for word, _ in pairs(row)).encode() + b'show\n'


def row_problem(row, result):
    """What a result has otherwise than the row wants; None where nothing is."""
    asked = pairs(row)
    lines = result.output.decode().splitlines()
    answers, shown = lines[:len(asked)], lines[len(asked):]
    if answers != [answer for _, answer in asked]:
        return f'answered {answers}'
    if not in_turn(row.shown.split('; '), shown) or any(row.lacks in line for line in shown):
        return f'shown {shown}'
    return None if (result.errors, result.status) == (b'', 0) else f'{result}'
