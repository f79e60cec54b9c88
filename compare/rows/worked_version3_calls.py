"""Worked rows of version 3 of the script language: collectives, probes, and what is told of them; worked out by hand from the rules.

compare/rows/worked_version3.py has the kinds of these rows, and tells how they are compared.
"""

from model.debugger import BUFFERED, RENDEZVOUS
from rows.worked_sessions import Dialogue
from rows.worked_version3 import Report, Walk, ok, said, shown

# Collectives.
COLLECTIVES = (
    # in rendezvous the root waits for the other rank; both write, the root what it had
    Walk('C1',
         'mpd 3; ranks 2; var x;\nif rank == 0 { x = 7; }\nbcast x from 0;',
         (ok('local 0, local 0, local 0'), said('wake 0', 'refused not-enabled'), ok('local 1, local 1', 4),
          said('enabled', 'enabled wake 0, wake 1'), ok('wake 1, wake 0', 6),
          shown('depth 7 of 7; rank 0 ended; vars 7; handles; out; call 0.0 bcast from 0 value 7 round 0; rank 1 ended; vars 7; handles; '
                'out; call 1.0 bcast from 0 round 0; set woke 1.0; set woke 0.0; outcome done; end', is_all=True))),
    # in buffered it doesn't; a step back brings what was there
    Walk('C2',
         'mpd 3; ranks 2; var x;\nif rank == 0 { x = 7; }\nbcast x from 0;',
         (ok('local 0, local 0, local 0, wake 0, local 1, local 1, wake 1'), ok('back', 6),
          shown('rank 1 blocked 0; vars 0; set woke 0.0', lacks='set woke 1.0')), BUFFERED),
    # joined values, at the root, at all, and up to the own rank
    Report('C3',
           'mpd 3; ranks 3; var x; var y;\nreduce rank + 1 with prod to 2 into x; allreduce rank with max into y;\n'
           'assert x == (rank == 2) * 6; assert y == 2; scan rank + 1 with sum into y; assert 2 * y == (rank + 1) * (rank + 2);',
           'leaf 0 [] done; leaves 1 more no', 0),
    # an array with more cells than ranks, whose others stay; there and back and there again
    Walk('C4',
         'mpd 3; ranks 2; var a[3]; var b;\na[0] = 4; a[1] = 5; b = 6; gather rank + 8 to 1 into a;',
         (ok('local 0, local 0, local 0, local 0, local 1, local 1, local 1, local 1, wake 1'),
          shown('rank 1 ended; vars 8 9 0 6; call 1.0 gather to 1 value 9 round 0'), ok('back', 8), shown('rank 1 blocked 0; vars 4 5 0 6'),
          ok('redo, wake 0', 9), shown('vars 4 5 0 6; vars 8 9 0 6; outcome done'))),
    # what was given is what stood there as it was issued
    Report('C5',
           'mpd 3; ranks 3; var a[size]; var b[size]; var x;\na[0] = 10 * rank; a[1] = 10 * rank + 1; a[2] = 10 * rank + 2;\n'
           'alltoall a into b; assert b[0] == rank && b[1] == 10 + rank && b[2] == 20 + rank;\n'
           'scatter a from 1 into x; assert x == 10 + rank; a[0] = 99;\nallgather x into b; assert b[0] == 10 && b[1] == 11 && b[2] == 12;',
           'leaf 0 [] done; leaves 1 more no', 0),
    # an array with fewer cells than ranks, and a root that there isn't
    Walk('C6',
         'mpd 3; ranks 2; var x;\nscatter x from 0 into x;',
         (ok('local 0'), shown('rank 0 trapped bad-index', lacks='call'))),
    Walk('C7',
         'mpd 3; ranks 2; var x; var y;\nbcast x from 2 * rank;',
         (ok('local 0, local 1'), shown('rank 0 blocked 0; rank 1 trapped bad-rank; outcome trap 1 bad-rank'))),
    # an expression traps beyond 64 bits, and a reduction doesn't; logical operations are of truth values, and give 0 or 1
    Report('C8',
           'mpd 3; ranks 2; var x;\nallreduce 9223372036854775807 with sum into x; assert x == -2;\n'
           'allreduce 4611686018427387904 * (rank + 1) / (rank + 1) with prod into x; assert x == 0;', 'leaf 0 [] trap 1 overflow; leaves 1 more no',
           1),
    Report('C9',
           'mpd 3; ranks 2; var x;\nallreduce 9223372036854775807 with sum into x; assert x == -2;\n'
           'allreduce 4611686018427387904 with prod into x; assert x == 0;\n'
           'allreduce 5 * rank with or into x; assert x == 1; scan 5 with and into x; assert x == 1;', 'leaf 0 [] done; leaves 1 more no', 0),
    # calls in another order: a deadlock in each mode, where the root of the first has gone on in buffered
    Report('C10 rendezvous',
           'mpd 3; ranks 2; var x;\nif rank == 0 { bcast x from 0; reduce 1 with sum to 0 into x; }\n'
           'else { reduce 1 with sum to 0 into x; bcast x from 0; }', 'leaf 0 [] deadlock 0.0 1.0; leaves 1 more no', 1),
    Report('C10 buffered',
           'mpd 3; ranks 2; var x;\nif rank == 0 { bcast x from 0; reduce 1 with sum to 0 into x; }\n'
           'else { reduce 1 with sum to 0 into x; bcast x from 0; }', 'leaf 0 [] deadlock 0.1 1.1; leaves 1 more no', 1, BUFFERED),
    # another root: a deadlock, but in buffered, where each waits for itself
    Walk('C11',
         'mpd 3; ranks 2; var x;\nbcast x from rank;',
         (ok('local 0, local 1'), said('wake 0', 'refused not-enabled'), said('wake 1', 'refused not-enabled'),
          shown('call 0.0 bcast from 0 value 0 round 0; call 1.0 bcast from 1 value 0 round 0; outcome deadlock 0.0 1.0'))),
    Report('C12 buffered',
           'mpd 3; ranks 2; var x;\nbcast x from rank;', 'leaf 0 [] done; leaves 1 more no', 0, BUFFERED),
    # another operation
    Report('C13 rendezvous',
           'mpd 3; ranks 2; var x;\nif rank == 0 { allreduce 1 with min into x; } else { allreduce 1 with max into x; }',
           'leaf 0 [] deadlock 0.0 1.0; leaves 1 more no', 1),
    Report('C13 buffered',
           'mpd 3; ranks 2; var x;\nif rank == 0 { allreduce 1 with min into x; } else { allreduce 1 with max into x; }',
           'leaf 0 [] deadlock 0.0 1.0; leaves 1 more no', 1, BUFFERED),
    # an order that differs by a barrier, which is counted among the rounds
    Report('C14 rendezvous',
           'mpd 3; ranks 2; var x;\nif rank == 0 { barrier; bcast x from 1; } else { bcast x from 1; barrier; }',
           'leaf 0 [] deadlock 0.0 1.0; leaves 1 more no', 1),
    Walk('C14 buffered',
         'mpd 3; ranks 2; var x;\nif rank == 0 { barrier; bcast x from 1; } else { bcast x from 1; barrier; }',
         (ok('local 0, local 0, local 1, local 1, wake 1, local 1, release, local 0'), said('wake 0', 'refused not-enabled'),
          shown('call 0.1 bcast from 1 round 1; call 1.0 bcast from 1 value 0 round 0; set barrier; outcome deadlock 0.1')), BUFFERED),
    # a rank that isn't there
    Report('C15',
           'mpd 3; ranks 3; var x;\nif rank < 2 { allreduce 1 with sum into x; }', 'leaf 0 [] deadlock 0.0 1.0; leaves 1 more no', 1),
    # a root that sends behind its bcast: it depends on the library whether that ends well
    Report('C16 rendezvous',
           'mpd 3; ranks 2; var x; var y;\nif rank == 0 { bcast x from 0; send 1 to 1 tag 0; }\nelse { recv y from 0 tag 0; bcast x from 0; }',
           'leaf 0 [] deadlock 0.0 1.0; leaves 1 more no', 1),
    Report('C16 slots',
           'mpd 3; ranks 2; var x; var y;\nif rank == 0 { bcast x from 0; send 1 to 1 tag 0; }\nelse { recv y from 0 tag 0; bcast x from 0; }',
           'leaf 0 [] deadlock 0.0 1.0; leaves 1 more no', 1, 'slots:65536'),
    Report('C16 buffered',
           'mpd 3; ranks 2; var x; var y;\nif rank == 0 { bcast x from 0; send 1 to 1 tag 0; }\nelse { recv y from 0 tag 0; bcast x from 0; }',
           'leaf 0 [] done; leaves 1 more no', 0, BUFFERED),
    # with less waiting a later send of the root may come first
    Report('C17 rendezvous',
           'mpd 3; ranks 3; var x; var y;\nif rank == 0 { bcast x from 0; send 10 to 1 tag 0; }\n'
           'else if rank == 1 { recv y from any tag 0; bcast x from 0; recv y from any tag 0; }\nelse { send 12 to 1 tag 0; bcast x from 0; }',
           'leaf 0 [0 0] done; leaves 1 more no', 0, witnesses=True),
    Report('C17 buffered',
           'mpd 3; ranks 3; var x; var y;\nif rank == 0 { bcast x from 0; send 10 to 1 tag 0; }\n'
           'else if rank == 1 { recv y from any tag 0; bcast x from 0; recv y from any tag 0; }\nelse { send 12 to 1 tag 0; bcast x from 0; }',
           'leaf 0 [0 0] done; leaf 1 [1 0] done; leaves 2 more no', 0, BUFFERED),
    # and then it may end badly
    Report('C18 rendezvous',
           'mpd 3; ranks 3; var x; var y;\nif rank == 0 { bcast x from 0; send 10 to 1 tag 0; }\n'
           'else if rank == 1 { recv y from any tag 0; bcast x from 0; recv y from 0 tag 0; }\nelse { send 12 to 1 tag 0; bcast x from 0; }',
           'leaf 0 [0] done; leaves 1 more no', 0),
    Report('C18 buffered',
           'mpd 3; ranks 3; var x; var y;\nif rank == 0 { bcast x from 0; send 10 to 1 tag 0; }\n'
           'else if rank == 1 { recv y from any tag 0; bcast x from 0; recv y from 0 tag 0; }\nelse { send 12 to 1 tag 0; bcast x from 0; }',
           'leaf 0 [0] deadlock 1.2; leaf 1 [1] done; leaves 2 more no', 1, BUFFERED),
    # in buffered each waits for those that it gets from, and for no other
    Walk('C19 bcast 0',
         'mpd 3; ranks 2; var x; var a[2];\nbcast x from 1;',
         (ok('local 0'), said('wake 0', 'refused not-enabled')), BUFFERED),
    Walk('C19 bcast 1',
         'mpd 3; ranks 2; var x; var a[2];\nbcast x from 1;',
         (ok('local 1'), ok('wake 1', 2)), BUFFERED),
    Walk('C19 scatter 0',
         'mpd 3; ranks 2; var x; var a[2];\nscatter a from 1 into x;',
         (ok('local 0'), said('wake 0', 'refused not-enabled')), BUFFERED),
    Walk('C19 scatter 1',
         'mpd 3; ranks 2; var x; var a[2];\nscatter a from 1 into x;',
         (ok('local 1'), ok('wake 1', 2)), BUFFERED),
    Walk('C19 reduce 0',
         'mpd 3; ranks 2; var x; var a[2];\nreduce x with sum to 1 into x;',
         (ok('local 0'), ok('wake 0', 2)), BUFFERED),
    Walk('C19 reduce 1',
         'mpd 3; ranks 2; var x; var a[2];\nreduce x with sum to 1 into x;',
         (ok('local 1'), said('wake 1', 'refused not-enabled')), BUFFERED),
    Walk('C19 gather 0',
         'mpd 3; ranks 2; var x; var a[2];\ngather x to 1 into a;',
         (ok('local 0'), ok('wake 0', 2)), BUFFERED),
    Walk('C19 gather 1',
         'mpd 3; ranks 2; var x; var a[2];\ngather x to 1 into a;',
         (ok('local 1'), said('wake 1', 'refused not-enabled')), BUFFERED),
    Walk('C19 scan 0',
         'mpd 3; ranks 2; var x; var a[2];\nscan x with sum into x;',
         (ok('local 0'), ok('wake 0', 2)), BUFFERED),
    Walk('C19 scan 1',
         'mpd 3; ranks 2; var x; var a[2];\nscan x with sum into x;',
         (ok('local 1'), said('wake 1', 'refused not-enabled')), BUFFERED),
    Walk('C19 allreduce',
         'mpd 3; ranks 2; var x; var a[2];\nallreduce x with sum into x;',
         (ok('local 0'), said('wake 0', 'refused not-enabled'), ok('local 1, wake 0, wake 1', 2)), BUFFERED),
    Walk('C19 allgather',
         'mpd 3; ranks 2; var x; var a[2];\nallgather x into a;',
         (ok('local 0'), said('wake 0', 'refused not-enabled'), ok('local 1, wake 0, wake 1', 2)), BUFFERED),
    Walk('C19 alltoall',
         'mpd 3; ranks 2; var x; var a[2];\nalltoall a into a;',
         (ok('local 0'), said('wake 0', 'refused not-enabled'), ok('local 1, wake 0, wake 1', 2)), BUFFERED),
    # a session runs along them, shows them, and says of none why
    Dialogue('C20',
             'mpd 3; ranks 2; var x; var a[2];\nreduce rank with sum to 1 into x; scan 3 with or into x; alltoall a into a;',
             (('{"cmd":"run","max":100}', '{"depth":12,"ok":true,"steps":12,"stop":"leaf","version":1}'),
              ('{"cmd":"calls","rank":1}',
               '{"calls":["reduce sum to 1 value 1 round 0","scan or value 3 round 1","alltoall value 0 0 round 2"],"ok":true,"version":1}'),
              ('{"call":0,"cmd":"why","rank":1}', '{"ok":true,"partners":[],"version":1}'),
              ('{"cmd":"run-back"}', '{"depth":0,"ok":true,"steps":12,"stop":"start","version":2}'))),
    # parts are evaluated in text order
    Walk('C21',
         'mpd 3; ranks 1; var x; var a[1];\nreduce 1 / 0 with sum to 9 into a[7];',
         (ok('local 0'), shown('rank 0 trapped zero-divisor', lacks='call'))),
    Walk('C22',
         'mpd 3; ranks 1; var x; var a[1];\nreduce 1 with sum to 9 into a[7];',
         (ok('local 0'), shown('rank 0 trapped bad-rank', lacks='call'))),
    Walk('C23',
         'mpd 3; ranks 1; var x; var a[1];\nbcast a[7] from 9;',
         (ok('local 0'), shown('rank 0 trapped bad-index', lacks='call'))),
    # a cell of an array changes by a wake, which is taken back
    Dialogue('C24',
             'mpd 3; ranks 2; var a[2];\nallgather 4 - rank into a;',
             (('{"cell":1,"cmd":"break","kind":"change","rank":0}', '{"break":0,"ok":true,"version":1}'),
              ('{"cmd":"run","max":100}', '{"break":0,"depth":3,"ok":true,"steps":3,"stop":"break","version":2}'),
              ('{"cmd":"vars","rank":0}', '{"handles":[],"ok":true,"out":[],"vars":[4,3],"version":2}'),
              ('{"cmd":"back","count":1}', '{"depth":2,"ok":true,"version":3}'),
              ('{"cmd":"vars","rank":0}', '{"handles":[],"ok":true,"out":[],"vars":[0,0],"version":3}'))),
    # another kind, of one root
    Report('C25 rendezvous',
           'mpd 3; ranks 2; var x; var a[2];\nif rank == 0 { gather x to 0 into a; } else { scatter a from 0 into x; }',
           'leaf 0 [] deadlock 0.0 1.0; leaves 1 more no', 1),
    Report('C25 buffered',
           'mpd 3; ranks 2; var x; var a[2];\nif rank == 0 { gather x to 0 into a; } else { scatter a from 0 into x; }',
           'leaf 0 [] deadlock 0.0 1.0; leaves 1 more no', 1, BUFFERED),
)

# Probes.
PROBES = (
    # a probe of any source is a choice, by the rank of the send
    Report('D1',
           'mpd 3; ranks 3; var s; var t; var x;\n'
           'if rank == 0 { probe from any tag any status s t; recv x from s tag t; recv x from any tag any; } else { send 10 * rank to 0 tag '
           'rank; }', 'leaf 0 [0 0] done; leaf 1 [1 0] done; leaves 2 more no', 0),
    Walk('D2',
         'mpd 3; ranks 3; var s; var t; var x;\n'
         'if rank == 0 { probe from any tag any status s t; recv x from s tag t; recv x from any tag any; } else { send 10 * rank to 0 tag rank; '
         '}',
         (ok('local 0, local 0'), said('wakeany 0 2', 'refused not-enabled'), ok('local 2, local 2', 3),
          said('enabled', 'enabled local 1, wakeany 0 2'), said('wakeany 0 1', 'refused not-enabled'), said('wake 0', 'refused not-enabled'),
          ok('wakeany 0 2', 5), shown('vars 2 2 0; call 0.0 probe from any tag any; call 2.0 send to 0 tag 2 value 20 free; set woke 0.0'))),
    # one that names its source is forced; source and tag go to one cell in turn
    Walk('D3',
         'mpd 3; ranks 2; var s; var t;\nif rank == 0 { probe from 1 tag any status s s; } else { send 5 to 0 tag 3; }',
         (ok('local 0, local 0'), said('wakeany 0 1', 'refused not-enabled'), said('wake 0', 'refused not-enabled'), ok('local 1, local 1', 3),
          said('wakeany 0 1', 'refused not-enabled'), ok('wake 0', 5), shown('vars 3 0; pending 1 to 0: 0; outcome deadlock 1.0'), ok('back', 4),
          shown('rank 0 blocked 0; vars 0 0'))),
    # a receive that was posted takes the message before it
    Report('D4',
           'mpd 3; ranks 2; var x; req r;\nif rank == 0 { irecv r x from any tag any; probe from 1 tag 0; } else { send 5 to 0 tag 0; }',
           'leaf 0 [0] deadlock 0.1; leaves 1 more no', 1),
    # what a probe was told of stays
    Report('D5',
           'mpd 3; ranks 2; var s; var t; req r[2];\n'
           'if rank == 0 { probe from 1 tag any status s t; assert t == 4; probe from any tag 6 status s t; assert s == 1; } else { isend r[0] 1 '
           'to 0 tag 4; isend r[1] 2 to 0 tag 6; }', 'leaf 0 [0] leftovers 1.0 1.1; leaves 1 more no', 0),
    # a session comes to the choice
    Dialogue('D6',
             'mpd 3; ranks 3; var s; var t; var x;\n'
             'if rank == 0 { probe from any tag any status s t; recv x from s tag t; recv x from any tag any; } else { send 10 * rank to 0 tag '
             'rank; }',
             (('{"cmd":"run","max":100}', '{"depth":6,"ok":true,"steps":6,"stop":"choice","version":1}'),
              ('{"cmd":"next"}', '{"count":2,"error":"needs-choice","ok":false}'),
              ('{"choice":1,"cmd":"next"}', '{"depth":7,"ok":true,"step":"wakeany 0 2","version":2}'),
              ('{"cmd":"vars","rank":0}', '{"handles":[],"ok":true,"out":[],"vars":[2,2,0],"version":2}'),
              ('{"cmd":"enabled"}', '{"ok":true,"steps":["local 0"],"version":2}'))),
    # a later message is there as soon as the one before it is taken by the receive that was posted
    Walk('D7',
         'mpd 3; ranks 2; var x; var t; req r[2];\n'
         'if rank == 0 { irecv r[0] x from 1 tag 4; probe from 1 tag any status t t; } else { isend r[0] 1 to 0 tag 4; isend r[1] 2 to 0 tag 6; }',
         (ok('local 0, local 0, local 0, local 1, local 1, local 1'), said('wake 0', 'refused not-enabled'), ok('match 1.0 0.0, wake 0', 7),
          shown('vars 0 6; handles 0 -; pending 1 to 0: 1'))),
)

# Heat on a ring: parts 0, 10, 20 become 7, 10, 13, then 9, 10, 11, then 9, 10, 10.
HEAT = '''mpd 3; ranks 3; const STEPS = 3;
var part; var left; var right; var moved; var all; var step;
part = 10;
bcast part from 0;
part = part * rank;
for step in 0 .. STEPS {
  sendrecv part to (rank + 1) % size tag 1 recv left from (rank + size - 1) % size tag 1;
  sendrecv part to (rank + size - 1) % size tag 2 recv right from (rank + 1) % size tag 2;
  moved = (left + right) / 2 - part;
  part = part + moved / 2;
  allreduce moved with max into all;
  if all <= 0 { step = STEPS; }
}
reduce part with sum to 0 into all;
if rank == 0 { assert all == 29; } else { assert all == 1 && left + right == 19 + (rank == 1); }
'''
# Numbers 4, 5, 6 are dealt out; their squares come back, and how much these are in all up to each.
DEALT = '''mpd 3; ranks 3; const N = 3;
var numbers[N]; var squares[N]; var times[N]; var x; var below; var i;
req r[N]; req own;
for i in 0 .. N { numbers[i] = i + 4; }
scatter numbers from 0 into x;
if rank == 0 { for i in 0 .. N { irecv r[i] times[i] from i tag 5; } }
x = x * x;
gather x to 0 into squares;
scan x with sum into below;
if rank > 0 { send below to 0 tag 5; } else {
  isend own below to 0 tag 5;
  waitall r;
  wait own;
  assert squares[0] == 16 && squares[1] == 25 && squares[2] == 36;
  assert times[0] == 16 && times[1] == 41 && times[2] == 77;
}
'''
# What a rank gets, and when, beside these.
MORE = (
    # two whole programs, which end in one way in each mode
    *(Report(f'{name}, {mode}', script, 'leaf 0 [] done; leaves 1 more no', 0, mode)
      for name, script in (('heat', HEAT), ('dealt', DEALT)) for mode in (RENDEZVOUS, BUFFERED, 'slots:1')),
    # a receive in the place of the probe would be paired with the first that fits: of one that is behind another nothing is told
    Walk('the first that fits', 'mpd 3; ranks 2; var s; var t; req r[2];\nif rank == 0 { probe from any tag any status s t; } else { isend '
         'r[0] 1 to 0 tag 4; '
         'isend r[1] 2 to 0 tag 6; }',
         (ok('local 0, local 0, local 1, local 1, local 1, wakeany 0 1'), shown('vars 1 4; outcome leftovers 1.0 1.1'))),
    # nothing is told of what a rank has sent to another one, or with another tag; nor by the number of a rank that there isn't
    Walk('nothing there', 'mpd 3; ranks 3; var s; var t; req r[2];\nif rank == 0 { probe from any tag 5; } else { isend r[0] 1 to 2 tag 5; '
         'isend r[1] 2 to 0 tag 6; }',
         (ok('local 0, local 0, local 1, local 1, local 1'), said('enabled', 'enabled local 2'), said('wakeany 0 1', 'refused not-enabled'),
          said('wakeany 0 3', 'refused not-enabled'), said('wakeany 3 1', 'refused not-enabled'), said('wakeany 1 0', 'refused not-enabled'))),
    # a probe of any source is never complete by itself, also where one send alone is there
    Report('a probe of any source, whole', 'mpd 3; ranks 2;\nif rank == 0 { probe from any tag 5; } else { send 1 to 0 tag 5; }',
           'leaf 0 [0] deadlock 1.0; leaves 1 more no', 1),
    # the extremes of each operation, of one rank
    Report('one rank', 'mpd 3; ranks 1; var x; var a[1];\nallreduce -9223372036854775807 - 1 with max into x; assert x == -9223372036854775807 - 1;\n'
           'scan 9223372036854775807 with min into x; assert x == 9223372036854775807; reduce -3 with prod to 0 into x; assert x == -3;\n'
           'gather 4 to 0 into a; allreduce 0 with or into x; assert a[0] + x == 4; alltoall a into x; assert x == 4;',
           'leaf 0 [] done; leaves 1 more no', 0),
    # a rank gives to each other its own value
    Report('each its own', 'mpd 3; ranks 3; var a[3]; var x;\na[0] = 5; a[1] = 6; a[2] = 7; scatter a from 2 into x; assert x == 5 + rank;',
           'leaf 0 [] done; leaves 1 more no', 0, BUFFERED),
    # and the root alone gives
    Walk('what a scatter gives', 'mpd 3; ranks 2; var a[2]; var x;\na[0] = 4; a[1] = 5; scatter a from 1 into x;',
         (ok('local 0, local 0, local 0, local 1, local 1, local 1, wake 0, wake 1'),
          shown('vars 4 5 4; call 0.0 scatter from 1 round 0; vars 4 5 5; call 1.0 scatter from 1 value 4 5 round 0; outcome done'))),
    # which is its rank's first, whatever barriers and collectives there were: the second of one rank is the second of each
    Walk('the second round', 'mpd 3; ranks 2; var x;\nbarrier; bcast x from 1; if rank == 1 { x = 9; } bcast x from 1;',
         (ok('local 0, local 1, release, local 1, wake 1, local 1, local 1, local 1, wake 1, local 0'), said('wake 0', 'ok 11'),
         ok('local 0, local 0, wake 0', 12),
          shown('vars 9; call 0.1 bcast from 1 round 1; call 0.2 bcast from 1 round 2; vars 9; call 1.2 bcast from 1 value 9 round 2; '
          'outcome done')), BUFFERED),
    # the root is over before the others get what it gave
    Walk('given before', 'mpd 3; ranks 2; var x;\nx = rank + 4; bcast x from 0; x = 1;',
         (ok('local 0, local 0, wake 0, local 0, local 1, local 1'), said('wake 1', 'ok 7'), shown('rank 0 ended; vars 1; rank 1 at 2; vars 4')),
         BUFFERED))

OF_TWO_ORDERS = ('mpd 3; ranks 2; var x;\nif rank == 0 { bcast x from 0; reduce 1 with sum to 0 into x; }\n'
                 'else { reduce 1 with sum to 0 into x; bcast x from 0; }')
BY_A_BARRIER = 'mpd 3; ranks 2; var x;\nif rank == 0 { barrier; bcast x from 1; } else { bcast x from 1; barrier; }'
# What is told of deadlocks and traps.
EXPLAINED = (
    Report('of two orders', OF_TWO_ORDERS,
           'leaf 0 [] deadlock 0.0 1.0; '
           '  rank 0 waits at line 2, 0.0 bcast from 0 value 0 round 0: for all ranks in round 0; '
           '    rank 1 is at another there: line 3, 1.0 reduce sum to 0 value 1 round 0; '
           '  rank 1 waits at line 3, 1.0 reduce sum to 0 value 1 round 0: for all ranks in round 0; '
           '    rank 0 is at another there: line 2, 0.0 bcast from 0 value 0 round 0; '
           '  rank 0 waits for rank 1; '
           '  rank 1 waits for rank 0; '
           '  a cycle, where each waits for the next: rank 0, rank 1, rank 0; '
           'leaves 1 more no', 1, explain=True),
    # in buffered each waits for one other rank
    Report('of two orders, buffered', OF_TWO_ORDERS,
           'leaf 0 [] deadlock 0.1 1.1; '
           '  rank 0 waits at line 2, 0.1 reduce sum to 0 value 1 round 1: for rank 1 in round 1; '
           '    rank 1 is at another there: line 3, 1.1 bcast from 0 round 1; '
           '  rank 1 waits at line 3, 1.1 bcast from 0 round 1: for rank 0 in round 1; '
           '    rank 0 is at another there: line 2, 0.1 reduce sum to 0 value 1 round 1; '
           '  rank 0 waits for rank 1; '
           '  rank 1 waits for rank 0; '
           '  a cycle, where each waits for the next: rank 0, rank 1, rank 0; '
           'leaves 1 more no', 1, BUFFERED, explain=True),
    Report('by a barrier', BY_A_BARRIER,
           'leaf 0 [] deadlock 0.0 1.0; '
           '  rank 0 waits at line 2, 0.0 barrier: for all ranks at a barrier; '
           '    rank 1 is not there: it waits at line 2, 1.0 bcast from 1 value 0 round 0; '
           '  rank 1 waits at line 2, 1.0 bcast from 1 value 0 round 0: for all ranks in round 0; '
           '    rank 0 is at another there: line 2, 0.0 barrier; '
           '  rank 0 waits for rank 1; '
           '  rank 1 waits for rank 0; '
           '  a cycle, where each waits for the next: rank 0, rank 1, rank 0; '
           'leaves 1 more no', 1, explain=True),
    # a rank is at another there though it has left it
    Report('by a barrier, buffered', BY_A_BARRIER,
           'leaf 0 [] deadlock 0.1; '
           '  rank 0 waits at line 2, 0.1 bcast from 1 round 1: for rank 1 in round 1; '
           '    rank 1 is at another there: line 2, 1.1 barrier; '
           '  rank 0 waits for rank 1 (ended); '
           'leaves 1 more no', 1, BUFFERED, explain=True),
    Report('two that are not there', 'mpd 3; ranks 3; var x;\nif rank == 1 { allreduce 5 with max into x; }\nif rank == 2 { recv x from 0 tag 1; }',
           'leaf 0 [] deadlock 1.0 2.0; '
           '  rank 1 waits at line 2, 1.0 allreduce max value 5 round 0: for all ranks in round 0; '
           '    rank 0 is not there: it has ended; '
           '    rank 2 is not there: it waits at line 3, 2.0 recv from 0 tag 1; '
           '  rank 2 waits at line 3, 2.0 recv from 0 tag 1: for a send of rank 0 with tag 1; '
           '  rank 1 waits for all of rank 0 (ended), rank 2; '
           '  rank 2 waits for rank 0 (ended); '
           'leaves 1 more no', 1, explain=True),
    # one that waits for several others waits for all, by these words
    Report('a scan, buffered', 'mpd 3; ranks 4; var x;\nif rank == 0 || rank == 2 { scan 1 with sum into x; }',
           'leaf 0 [] deadlock 2.0; '
           '  rank 2 waits at line 2, 2.0 scan sum value 1 round 0: for all ranks in round 0; '
           '    rank 1 is not there: it has ended; '
           '  rank 2 waits for rank 1 (ended); '
           'leaves 1 more no', 1, BUFFERED, explain=True),
    Report('a probe and another tag', 'mpd 3; ranks 2;\nif rank == 0 { probe from any tag 3; } else { send 5 to 0 tag 4; }',
           'leaf 0 [] deadlock 0.0 1.0; '
           '  rank 0 waits at line 2, 0.0 probe from any tag 3: for a send of any rank with tag 3; '
           '    nearest miss: line 2, 1.0 send to 0 tag 4 value 5: another tag; '
           '  rank 1 waits at line 2, 1.0 send to 0 tag 4 value 5: for a receive of rank 0 from rank 1 with tag 4; '
           '  rank 0 waits for rank 1; '
           '  rank 1 waits for rank 0; '
           '  a cycle, where each waits for the next: rank 0, rank 1, rank 0; '
           'leaves 1 more no', 1, explain=True),
    Report('a probe of what was taken', 'mpd 3; ranks 2; var x; req r;\nif rank == 0 { irecv r x from any tag any; probe from 1 tag 0; } '
           'else { send 5 to 0 tag 0; }',
           'leaf 0 [0] deadlock 0.1; '
           '  rank 0 waits at line 2, 0.1 probe from 1 tag 0: for a send of rank 1 with tag 0; '
           '    the last that fits is taken: line 2, 1.0 send to 0 tag 0 value 5, by line 2, 0.0 irecv from any tag any; '
           '  rank 0 waits for rank 1 (ended); '
           'leaves 1 more no', 1, explain=True),
    # what a trapped rank read: values, roots and indexes, and no array that stands for all its cells
    Report('a trap', 'mpd 3; ranks 1; var x; var i; var a[1];\nx = 9;\nreduce x with sum to i + x into a[i];',
           'leaf 0 [] trap 0 bad-rank; '
           '  rank 0, line 3: trap bad-rank, with x = 9, i = 0; '
           'leaves 1 more no', 1, explain=True),
    Report('a trap of an array', 'mpd 3; ranks 2; var i; var a[1];\nscatter a from i into a[i];',
           'leaf 0 [] trap 0 bad-index 1 bad-index; '
           '  rank 0, line 2: trap bad-index, with i = 0; '
           '  rank 1, line 2: trap bad-index, with i = 0; '
           'leaves 1 more no', 1, explain=True))

ALL = COLLECTIVES + PROBES + MORE + EXPLAINED
