"""Worked dialogues of the debug adapter about choices, ends, and steps that lie ahead (worked_adapter.py)."""

from model.console import NamedRun
from rows.adapter_talks import dialogue

LAUNCHED = '''
> launch {"program": "s"}
< ok {}
< event initialized {}
'''
# What is told of examples/stolen_message.mpd: line 13, the choice, and the deadlock.
SENDS = '   13    if rank == 1 { send 42 to 0 tag 7; } else { send 5 to 0 tag 1; }'
CHOICE = '''| stopped at a choice of rank 0, line 8; next N takes one:
|     8    irecv r note from any tag any;
|   1: rank 1 sends 42, tag 7 (line 13); match 1.0 0.0
|   2: rank 2 sends 5, tag 1 (line 13); match 2.0 0.0'''
WHY = ('  rank 0 waits at line 9, 0.1 recv from 1 tag 7: for a send of rank 1 with tag 7',
       '    the last that fits is taken: line 13, 1.0 send to 0 tag 7 value 42, by line 8, 0.0 irecv from any tag any',
       '  rank 2 waits at line 13, 2.0 send to 0 tag 1 value 5: for a receive of rank 0 from rank 2 with tag 1',
       '    the last that fits is taken: line 8, 0.0 irecv from any tag any, by line 13, 1.0 send to 0 tag 7 value 42',
       '  rank 0 waits for rank 1 (ended)', '  rank 2 waits for rank 0')
TARGETS = ('{"id":1,"label":"rank 1 sends 42, tag 7 (line 13), to rank 0 (line 8); match 1.0 0.0"}',
           '{"id":2,"label":"rank 2 sends 5, tag 1 (line 13), to rank 0 (line 8); match 2.0 0.0"}')
LEFT = 'mpd 1;\nranks 2;\nreq r;\nif rank == 0 { isend r 1 to 1 tag 0; }\n'
ODD = 'mpd 1;\nranks 1;\n# a\rb\tc\nprint 1;\r\n'
MEETS = 'mpd 1;\nranks 2;\nvar x;\nbarrier;\nx = rank - 2;\n'
# Two receives of any source at once: so the candidates are of both.
BOTH = '''mpd 1; ranks 4; var x; req r[2];
if rank < 2 { recv x from any tag 0; }
if rank == 2 { isend r[0] rank to 0 tag 0; isend r[1] rank to 1 tag 0; }
'''


def lines(texts):
    return '\n'.join(f'| {text}' for text in texts)


# Declarations that are one cell, many, and none.
WIDE = 'mpd 1;\nranks 2;\nvar a[17];\nvar b[16];\nvar c[1];\nvar none[0];\nreq q[1];\na[16] = rank;\n'

RUNS = (
    dialogue('values of arrays', WIDE, f'''{LAUNCHED}
> evaluate {{"expression": "a", "frameId": 1}}
< result
| [0, 0, 0, 0, 0, 0, 0, 0, 0, 0, 0, 0, 0, 0, 0, 0, ..]
> evaluate {{"expression": "b", "frameId": 2}}
< result
| [0, 0, 0, 0, 0, 0, 0, 0, 0, 0, 0, 0, 0, 0, 0, 0]
> evaluate {{"expression": "c", "frameId": 2}}
< result
| 0
> evaluate {{"expression": "none", "frameId": 1}}
< result
| []
> evaluate {{"expression": "q"}}
< result
| rank 0: none
| rank 1: none
> evaluate {{"expression": "a b", "frameId": 1}}
< no no-value
'''),
    dialogue('a choice, and both of its ends', 'stolen_message.mpd', f'''{LAUNCHED}
> evaluate {{"expression": "deadlock", "context": "repl"}}
< result
| deadlock is 11 steps ahead: rank 0 at line 9, rank 2 at line 13
| 11 ahead: local 0: line 7
|     7  if rank == 0 {{
< stopped entry/start/1
> evaluate {{"expression": "trap", "context": "repl"}}
< result
| no trap from here: 2 runs, and no more (1 done, 1 deadlock)
> evaluate {{"expression": "follow 2", "context": "repl"}}
< result
| run 2, done, is 17 steps ahead
| 17 ahead: local 0: line 7
|     7  if rank == 0 {{
< stopped entry/start/1
> evaluate {{"expression": "local 0", "context": "repl"}}
< result
| 1 local 0: line 7
| 16 ahead: local 0: line 8
|     8    irecv r note from any tag any;
< stopped goto/depth 1/1
> evaluate {{"expression": "local 1", "context": "repl"}}
< result
| 2 local 1: line 7
| the 16 steps that lay ahead are gone
| next: local 0: line 8
|     8    irecv r note from any tag any;
< stopped goto/depth 2/1
> restart {{"arguments": {{}}}}
< ok {{}}
< output
| depth 0
| 2 ahead: local 0: line 7
|     7  if rank == 0 {{
< stopped entry/start/1
> evaluate {{"expression": "local 1", "context": "repl"}}
< result
| 1 local 1: line 7
| the 2 steps that lay ahead are gone
| next: local 0: line 7
|     7  if rank == 0 {{
< stopped goto/depth 1/1
> evaluate {{"expression": "undo-choice", "context": "repl"}}
< result
| refused: no choice was made before
> reverseContinue {{"threadId": 1}}
< ok {{}}
< output
| depth 0
| 1 ahead: local 1: line 7
|     7  if rank == 0 {{
< stopped entry/start/1
> stepIn {{"threadId": 1}}
< ok {{}}
< output
| 1 local 1: line 7
| next: local 0: line 7
|     7  if rank == 0 {{
< stopped step/depth 1/1
> stepBack {{"threadId": 2}}
< ok {{}}
< output
| depth 0
| 1 ahead: local 1: line 7
|     7  if rank == 0 {{
< stopped entry/start/1
> evaluate {{"expression": "local 0", "context": "repl"}}
< result
| 1 local 0: line 7
| the step that lay ahead is gone
| next: local 0: line 8
|     8    irecv r note from any tag any;
< stopped goto/depth 1/1
> continue {{"threadId": 3}}
< ok {{"allThreadsContinued":true}}
< output
| 8 steps, depth 9
{CHOICE}
< stopped choice/choice/1
> stackTrace {{"threadId": 1, "levels": 1}}
< ok {{"stackFrames":[{{"column":1,"id":1,"line":9,"name":"rank 0 waits at line 9, 0.1 recv from 1 tag 7","source":{{"path":"s"}}}}],"totalFrames":1}}
> threads
< ok {{"threads":[{{"id":1,"name":"rank 0 waits at line 9, 0.1 recv from 1 tag 7"}},{{"id":2,"name":"rank 1 waits at line 13, 1.0 send to 0 tag 7 value 42"}},{{"id":3,"name":"rank 2 waits at line 13, 2.0 send to 0 tag 1 value 5"}}]}}
> variables {{"variablesReference": 1}}
< ok {{"variables":[{{"name":"note","value":"0","variablesReference":0}},{{"name":"result","value":"0","variablesReference":0}}]}}
> variables {{"variablesReference": 2}}
< ok {{"variables":[{{"name":"r","value":"0.0","variablesReference":0}}]}}
> variables {{"variablesReference": 3}}
< ok {{"variables":[{{"name":"0.0","value":"irecv from any tag any free","variablesReference":0}},{{"name":"0.1","value":"recv from 1 tag 7 free","variablesReference":0}}]}}
> variables {{"variablesReference": 6}}
< ok {{"variables":[{{"name":"r","value":"none","variablesReference":0}}]}}
> variables {{"variablesReference": 12}}
< ok {{"variables":[]}}
> variables {{"variablesReference": 13}}
< no bad-number
> variables {{"variablesReference": 0}}
< no bad-number
> stepInTargets {{"frameId": 1}}
< ok {{"targets":[{','.join(TARGETS)}]}}
> stepInTargets {{"frameId": 2}}
< ok {{"targets":[{TARGETS[0]}]}}
> stepInTargets {{"frameId": 3}}
< ok {{"targets":[{TARGETS[1]}]}}
> stepIn {{"threadId": 1}}
< ok {{}}
< output
{CHOICE}
< stopped choice/choice/1
> stepIn {{"threadId": 3, "targetId": 3}}
< ok {{}}
< output
| refused: there is no such candidate
{CHOICE}
< stopped choice/choice/1
> next {{"threadId": 3}}
< ok {{}}
< output
| 0 steps, depth 9
{CHOICE}
< stopped choice/choice/1
> stepIn {{"threadId": 2}}
< ok {{}}
< output
| 10 match 1.0 0.0: rank 1, line 13, to rank 0, line 8
| next: wake 1: line 13
| {SENDS}
< stopped step/depth 10/2
> stepInTargets {{"frameId": 1}}
< ok {{"targets":[]}}
> continue {{"threadId": 2}}
< ok {{"allThreadsContinued":true}}
< output
| 1 step, depth 11
| ended: deadlock: rank 0 at line 9, rank 2 at line 13
{lines(WHY)}
< stopped exception/deadlock/1
> exceptionInfo {{"threadId": 2}}
< ok {{"breakMode":"always","description":"{''.join(f'{line}' + chr(92) + 'n' for line in WHY)}","exceptionId":"deadlock"}}
> pause {{"threadId": 1}}
< ok {{}}
> reverseContinue {{"threadId": 2}}
< ok {{}}
< output
| depth 9
| 2 ahead: match 1.0 0.0: rank 1, line 13, to rank 0, line 8
| {SENDS}
|     8    irecv r note from any tag any;
{CHOICE}
< stopped breakpoint/depth 9/3
> stepInTargets {{"frameId": 3}}
< ok {{"targets":[{TARGETS[1]}]}}
> stepIn {{"threadId": 1}}
< ok {{}}
< output
| 10 match 1.0 0.0: rank 1, line 13, to rank 0, line 8
| 1 ahead: wake 1: line 13
| {SENDS}
< stopped step/depth 10/1
> reverseContinue {{"threadId": 2}}
< ok {{}}
< output
| depth 9
| 2 ahead: match 1.0 0.0: rank 1, line 13, to rank 0, line 8
| {SENDS}
|     8    irecv r note from any tag any;
{CHOICE}
< stopped breakpoint/depth 9/3
> stepIn {{"threadId": 1, "targetId": 2}}
< ok {{}}
< output
| 10 match 2.0 0.0: rank 2, line 13, to rank 0, line 8
| the 2 steps that lay ahead are gone
| next: wake 2: line 13
| {SENDS}
< stopped step/depth 10/1
> next {{"threadId": 1}}
< ok {{}}
< output
| 3 steps, depth 13
| stopped: rank 0 has gone on
| next: local 0: line 10
|    10    wait r;
< stopped step/depth 13/1
> setBreakpoints {{"source": {{"path": "s"}}, "breakpoints": [{{"line": 10}}]}}
< ok {{"breakpoints":[{{"id":1,"line":10,"verified":true}}]}}
> continue {{"threadId": 3}}
< ok {{"allThreadsContinued":true}}
< output
| 4 steps, depth 17
| rank 0 prints 42
| ended: done
< stopped end/done/1
> reverseContinue {{"threadId": 3}}
< ok {{}}
< output
| depth 13
| 4 ahead: local 0: line 10
|    10    wait r;
< stopped breakpoint/depth 13/1
> stepBack {{"threadId": 3}}
< ok {{}}
< output
| depth 8
| 9 ahead: local 2: line 13
| {SENDS}
< stopped step/depth 8/3
> next {{"threadId": 1}}
< ok {{}}
< output
| 5 steps, depth 13
| breakpoint 0: line 10
| 4 ahead: local 0: line 10
|    10    wait r;
< stopped step/depth 13/1
> evaluate {{"expression": "undo-choice", "context": "repl"}}
< result
| depth 9
| 8 ahead: match 2.0 0.0: rank 2, line 13, to rank 0, line 8
| {SENDS}
|     8    irecv r note from any tag any;
{CHOICE}
< stopped goto/depth 9/1
> evaluate {{"expression": "next 2", "context": "repl"}}
< result
| 10 match 2.0 0.0: rank 2, line 13, to rank 0, line 8
| 7 ahead: wake 2: line 13
| {SENDS}
< stopped goto/depth 10/1
> configurationDone
< ok {{}}
< event thread {{"reason":"started","threadId":1}}
< event thread {{"reason":"started","threadId":2}}
< event thread {{"reason":"started","threadId":3}}
< stopped goto/depth 10/1
'''),
    dialogue('a trap', 'trap.mpd', f'''{LAUNCHED}
> continue {{"threadId": 1}}
< ok {{"allThreadsContinued":true}}
< output
| 9 steps, depth 9
| rank 0 prints 5
| ended: trap: rank 1 at line 10 (zero-divisor)
|   rank 1, line 10: trap zero-divisor, with x = 0
< stopped exception/trap/2
> exceptionInfo {{"threadId": 1}}
< ok {{"breakMode":"always","description":"  rank 1, line 10: trap zero-divisor, with x = 0\\n","exceptionId":"trap"}}
> stackTrace {{"threadId": 2}}
< ok {{"stackFrames":[{{"column":1,"id":2,"line":10,"name":"rank 1 is trapped at line 10: zero-divisor","source":{{"path":"s"}}}}],"totalFrames":1}}
> evaluate {{"expression": "blame", "context": "repl"}}
< result
| decided from the start: every run hangs or traps
'''),
    dialogue('what is left over', LEFT, f'''{LAUNCHED}
> continue {{"threadId": 2}}
< ok {{"allThreadsContinued":true}}
< output
| 3 steps, depth 3
| ended: leftovers: rank 0 at line 4
|   left over: line 4, 0.0 isend to 1 tag 0 value 1
< stopped end/leftovers/1
> exceptionInfo {{"threadId": 1}}
< ok {{"breakMode":"always","description":"  left over: line 4, 0.0 isend to 1 tag 0 value 1\\n","exceptionId":"leftovers"}}
'''),
    dialogue('bytes of a script that are shown', ODD, f'''{LAUNCHED}
> evaluate {{"expression": "list", "context": "repl"}}
< result
|     1  mpd 1;
|     2  ranks 1;
|     3  # a?b	c
|     4  print 1;  <- rank 0
> evaluate {{"expression": "café \\u0001\\n", "context": "repl"}}
< result
| unknown word 'caf??': perhaps calls
'''),
    dialogue('sends that are buffered', 'head_to_head.mpd', f'''{LAUNCHED}
> next {{"threadId": 1}}
< ok {{}}
< output
| 3 steps, depth 3
| stopped: rank 0 has gone on
| next: local 0: line 6
|     6  recv x from 1 - rank tag 5;
< stopped step/depth 3/1
> stackTrace {{"threadId": 2}}
< ok {{"stackFrames":[{{"column":1,"id":2,"line":5,"name":"rank 1 can go on from line 5, 1.0 send to 0 tag 5 value 11","source":{{"path":"s"}}}}],"totalFrames":1}}
> variables {{"variablesReference": 3}}
< ok {{"variables":[{{"name":"0.0","value":"send to 1 tag 5 value 10 free","variablesReference":0}}]}}
> continue {{"threadId": 1}}
< ok {{"allThreadsContinued":true}}
< output
| 9 steps, depth 12
| rank 0 prints 11
| rank 1 prints 10
| ended: done
< stopped end/done/1
''', 'buffered'),
    dialogue('a script without a statement', 'mpd 1;\nranks 2;\n', f'''{LAUNCHED}
> setBreakpoints {{"source": {{"path": "s"}}, "breakpoints": [{{"line": 1}}]}}
< ok {{"breakpoints":[{{"line":1,"message":"no statement begins there or below","verified":false}}]}}
> configurationDone
< ok {{}}
< event thread {{"reason":"started","threadId":1}}
< event thread {{"reason":"started","threadId":2}}
< stopped end/done/1
> stackTrace {{"threadId": 2}}
< ok {{"stackFrames":[{{"column":1,"id":2,"line":0,"name":"rank 1 has ended","presentationHint":"label"}}],"totalFrames":1}}
> continue {{"threadId": 2}}
< ok {{"allThreadsContinued":true}}
< output
| 0 steps, depth 0
| ended: done
< stopped end/done/1
> reverseContinue {{"threadId": 2}}
< ok {{}}
< output
| depth 0
| ended: done
< stopped end/done/1
'''),
    dialogue('a release, which is of no rank', MEETS, f'''{LAUNCHED}
> setBreakpoints {{"source": {{"path": "s"}}, "breakpoints": [{{"line": 5, "condition": "rank 0"}}]}}
< ok {{"breakpoints":[{{"id":1,"line":5,"verified":true}}]}}
> continue {{"threadId": 2}}
< ok {{"allThreadsContinued":true}}
< output
| 3 steps, depth 3
| breakpoint 0: line 5 rank 0
| next: local 0: line 5
|     5  x = rank - 2;
< stopped breakpoint/depth 3/2
> continue {{"threadId": 1}}
< ok {{"allThreadsContinued":true}}
< output
| 2 steps, depth 5
| ended: done
< stopped end/done/1
> variables {{"variablesReference": 1}}
< ok {{"variables":[{{"name":"x","value":"-2","variablesReference":0}}]}}
> reverseContinue {{"threadId": 1}}
< ok {{}}
< output
| depth 3
| 2 ahead: local 0: line 5
|     5  x = rank - 2;
< stopped breakpoint/depth 3/1
> stepBack {{"threadId": 2}}
< ok {{}}
< output
| depth 1
| 4 ahead: local 1: line 4
|     4  barrier;
< stopped step/depth 1/2
> next {{"threadId": 2}}
< ok {{}}
< output
| 2 steps, depth 3
| breakpoint 0: line 5 rank 0
| 2 ahead: local 0: line 5
|     5  x = rank - 2;
< stopped step/depth 3/2
'''),
    dialogue('a choice of a waitany', 'waitany.mpd', f'''{LAUNCHED}
> setBreakpoints {{"source": {{"path": "s"}}, "breakpoints": [{{"line": 15}}, {{"line": 18}}]}}
< ok {{"breakpoints":[{{"id":1,"line":17,"verified":true}},{{"line":18,"message":"no statement begins there or below","verified":false}}]}}
> setBreakpoints {{"source": {{"path": "s"}}, "breakpoints": []}}
< ok {{"breakpoints":[]}}
> continue {{"threadId": 2}}
< ok {{"allThreadsContinued":true}}
< output
| 13 steps, depth 13
| stopped at a choice of rank 0, line 12; next N takes one:
|    12      waitany r to which;
|   1: request r[0], the receive of line 9 (value 10); wakeany 0 0
|   2: request r[1], the receive of line 10 (value 20); wakeany 0 1
< stopped choice/choice/1
> stepInTargets {{"frameId": 1}}
< ok {{"targets":[{{"id":1,"label":"request r[0], the receive of line 9 (value 10), for rank 0; wakeany 0 0"}},{{"id":2,"label":"request r[1], the receive of line 10 (value 20), for rank 0; wakeany 0 1"}}]}}
> stepInTargets {{"frameId": 2}}
< ok {{"targets":[]}}
> stepIn {{"threadId": 1, "targetId": 2}}
< ok {{}}
< output
| 14 wakeany 0 1: line 12, by line 10, 0.1 irecv from 2 tag 0
| next: local 0: line 13
|    13      print answers[which];
< stopped step/depth 14/1
> variables {{"variablesReference": 1}}
< ok {{"variables":[{{"name":"answers[0]","value":"0","variablesReference":0}},{{"name":"answers[1]","value":"20","variablesReference":0}},{{"name":"which","value":"1","variablesReference":0}},{{"name":"taken","value":"0","variablesReference":0}}]}}
> variables {{"variablesReference": 2}}
< ok {{"variables":[{{"name":"r[0]","value":"0.0","variablesReference":0}},{{"name":"r[1]","value":"none","variablesReference":0}}]}}
> evaluate {{"expression": "answers", "context": "watch", "frameId": 1}}
< result
| [0, 20]
> evaluate {{"expression": "answers[1]", "context": "hover", "frameId": 1}}
< result
| 20
> evaluate {{"expression": "answers[which] + 1", "context": "hover", "frameId": 1}}
< result
| 21
> evaluate {{"expression": "answers[2]", "context": "hover", "frameId": 1}}
< result
| traps: bad-index
> evaluate {{"expression": "r", "context": "hover", "frameId": 1}}
< result
| [0.0, none]
> evaluate {{"expression": "r[0]", "context": "hover", "frameId": 1}}
< result
| 0.0
> evaluate {{"expression": "r", "context": "hover", "frameId": 2}}
< result
| [none, none]
> evaluate {{"expression": "r + 1", "context": "hover", "frameId": 1}}
< no no-value
> evaluate {{"expression": "answers + 1", "context": "hover", "frameId": 1}}
< no no-value
'''),
    dialogue('a choice of several calls', BOTH, f'''{LAUNCHED}
> continue {{"threadId": 4}}
< ok {{"allThreadsContinued":true}}
< output
| 10 steps, depth 10
| stopped at a choice; next N takes one:
|   1: rank 2 sends 2, tag 0 (line 3), to rank 0 (line 2); match 2.0 0.0
|   2: rank 2 sends 2, tag 0 (line 3), to rank 1 (line 2); match 2.1 1.0
< stopped choice/choice/1
> stepInTargets {{"frameId": 2}}
< ok {{"targets":[{{"id":2,"label":"rank 2 sends 2, tag 0 (line 3), to rank 1 (line 2); match 2.1 1.0"}}]}}
> stepInTargets {{"frameId": 4}}
< ok {{"targets":[]}}
> stepIn {{"threadId": 3}}
< ok {{}}
< output
| stopped at a choice; next N takes one:
|   1: rank 2 sends 2, tag 0 (line 3), to rank 0 (line 2); match 2.0 0.0
|   2: rank 2 sends 2, tag 0 (line 3), to rank 1 (line 2); match 2.1 1.0
< stopped choice/choice/1
> stepIn {{"threadId": 4}}
< ok {{}}
< output
| stopped at a choice; next N takes one:
|   1: rank 2 sends 2, tag 0 (line 3), to rank 0 (line 2); match 2.0 0.0
|   2: rank 2 sends 2, tag 0 (line 3), to rank 1 (line 2); match 2.1 1.0
< stopped choice/choice/1
> stepIn {{"threadId": 2}}
< ok {{}}
< output
| 11 match 2.1 1.0: rank 2, line 3, to rank 1, line 2
| next: wake 1: line 2
|     2  if rank < 2 {{ recv x from any tag 0; }}
< stopped step/depth 11/2
'''),
    dialogue('a run that lies ahead', 'stolen_message.mpd', f'''{LAUNCHED}
> configurationDone
< ok {{}}
< event thread {{"reason":"started","threadId":1}}
< event thread {{"reason":"started","threadId":2}}
< event thread {{"reason":"started","threadId":3}}
< stopped entry/start/1
> continue {{"threadId": 1}}
< ok {{"allThreadsContinued":true}}
< output
| 9 steps, depth 9
| 8 ahead: match 2.0 0.0: rank 2, line 13, to rank 0, line 8
| {SENDS}
|     8    irecv r note from any tag any;
{CHOICE}
< stopped breakpoint/depth 9/3
> next {{"threadId": 1}}
< ok {{}}
< output
| 4 steps, depth 13
| stopped: rank 0 has gone on
| 4 ahead: local 0: line 10
|    10    wait r;
< stopped step/depth 13/1
> setBreakpoints {{"source": {{"path": "s"}}, "breakpoints": [{{"line": 11}}]}}
< ok {{"breakpoints":[{{"id":1,"line":11,"verified":true}}]}}
> stepOut {{"threadId": 2}}
< ok {{}}
< output
| 2 steps, depth 15
| breakpoint 0: line 11
| 2 ahead: local 0: line 11
|    11    print result;
< stopped step/depth 15/2
> stepOut {{"threadId": 2}}
< ok {{}}
< output
| 2 steps, depth 17
| rank 0 prints 42
| ended: done
< stopped end/done/1
> restart
< ok {{}}
< output
| depth 0
| 17 ahead: local 0: line 7
|     7  if rank == 0 {{
< stopped entry/start/1
> evaluate {{"expression": "local 1", "context": "repl"}}
< result
| 1 local 1: line 7
| the 17 steps that lay ahead are gone
| next: local 0: line 7
|     7  if rank == 0 {{
< stopped goto/depth 1/1
> stepBack {{"threadId": 2}}
< ok {{}}
< output
| depth 0
| 1 ahead: local 1: line 7
|     7  if rank == 0 {{
< stopped entry/start/1
> continue {{"threadId": 1}}
< ok {{"allThreadsContinued":true}}
< output
| 1 step, depth 1
| stopped: the steps ahead end here
| next: local 0: line 7
|     7  if rank == 0 {{
< stopped breakpoint/depth 1/2
''', run=NamedRun('1')),
)
