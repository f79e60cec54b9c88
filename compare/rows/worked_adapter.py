"""Worked dialogues of the debug adapter; compare/runs/adapters.py compares the model's answers, and those of a program.

Each was worked out by hand from docs/ADAPTER.md; what the console answers there was worked out from docs/CONSOLE.md. adapter_talks.py says how they
are written. The first message and those of breakpoints stand here, other scripts and choices in worked_adapter_runs.py, and what is no message, and
no frame, in worked_adapter_bytes.py.
"""

from rows.adapter_talks import dialogue
from rows.worked_adapter_bytes import BYTES
from rows.worked_adapter_runs import RUNS

BEGUN = '''
> initialize {"clientID": "x", "linesStartAt1": true, "columnsStartAt1": true}
< ok {"supportsConditionalBreakpoints":true,"supportsConfigurationDoneRequest":true,"supportsEvaluateForHovers":true,"supportsExceptionInfoRequest":true,"supportsStepBack":true,"supportsStepInTargetsRequest":true,"supportsTerminateRequest":true}
> launch {"program": "/home/a b/first.mpd", "noDebug": false}
< ok {}
< event initialized {}
'''
# Lines 6 and 8 of examples/first_message.mpd.
SENDS, RECEIVES = '    6    send 7 to 1 tag 0;', '    8    recv x from 0 tag 0;'

FIRST = (
    dialogue('the first message, each byte as it is written', 'first_message.mpd', '''
>> {"seq": 1, "type": "request", "command": "initialize", "arguments": {"linesStartAt1": true}}
<< {"body":{"supportsConditionalBreakpoints":true,"supportsConfigurationDoneRequest":true,"supportsEvaluateForHovers":true,"supportsExceptionInfoRequest":true,"supportsStepBack":true,"supportsStepInTargetsRequest":true,"supportsTerminateRequest":true},"command":"initialize","request_seq":1,"seq":1,"success":true,"type":"response"}
>> {"seq": 2, "type": "request", "command": "launch", "arguments": {"program": "/first.mpd"}}
<< {"body":{},"command":"launch","request_seq":2,"seq":2,"success":true,"type":"response"}
<< {"body":{},"event":"initialized","seq":3,"type":"event"}
>> {"seq": 3, "type": "request", "command": "setBreakpoints", "arguments": {"source": {"path": "/first.mpd"}, "breakpoints": [{"line": 7}]}}
<< {"body":{"breakpoints":[{"id":1,"line":8,"verified":true}]},"command":"setBreakpoints","request_seq":3,"seq":4,"success":true,"type":"response"}
>> {"seq": 4, "type": "request", "command": "configurationDone"}
<< {"body":{},"command":"configurationDone","request_seq":4,"seq":5,"success":true,"type":"response"}
<< {"body":{"reason":"started","threadId":1},"event":"thread","seq":6,"type":"event"}
<< {"body":{"reason":"started","threadId":2},"event":"thread","seq":7,"type":"event"}
<< {"body":{"allThreadsStopped":true,"description":"start","reason":"entry","threadId":1},"event":"stopped","seq":8,"type":"event"}
>> {"seq": 5, "type": "request", "command": "threads"}
<< {"body":{"threads":[{"id":1,"name":"rank 0 is at line 5"},{"id":2,"name":"rank 1 is at line 5"}]},"command":"threads","request_seq":5,"seq":9,"success":true,"type":"response"}
>> {"seq": 6, "type": "request", "command": "continue", "arguments": {"threadId": 1}}
<< {"body":{"allThreadsContinued":true},"command":"continue","request_seq":6,"seq":10,"success":true,"type":"response"}
<< {"body":{"category":"stdout","output":"3 steps, depth 3\\nbreakpoint 0: line 8\\nnext: local 1: line 8\\n    8    recv x from 0 tag 0;\\n"},"event":"output","seq":11,"type":"event"}
<< {"body":{"allThreadsStopped":true,"description":"depth 3","reason":"breakpoint","threadId":2},"event":"stopped","seq":12,"type":"event"}
>> {"seq": 7, "type": "request", "command": "stackTrace", "arguments": {"threadId": 1, "startFrame": 0, "levels": 20}}
<< {"body":{"stackFrames":[{"column":1,"id":1,"line":6,"name":"rank 0 waits at line 6, 0.0 send to 1 tag 0 value 7","source":{"path":"/first.mpd"}}],"totalFrames":1},"command":"stackTrace","request_seq":7,"seq":13,"success":true,"type":"response"}
>> {"seq": 8, "type": "request", "command": "scopes", "arguments": {"frameId": 2}}
<< {"body":{"scopes":[{"expensive":false,"name":"Variables","variablesReference":5},{"expensive":false,"name":"Requests","variablesReference":6},{"expensive":false,"name":"Calls","variablesReference":7},{"expensive":false,"name":"Printed","variablesReference":8}]},"command":"scopes","request_seq":8,"seq":14,"success":true,"type":"response"}
>> {"seq": 9, "type": "request", "command": "variables", "arguments": {"variablesReference": 3}}
<< {"body":{"variables":[{"name":"0.0","value":"send to 1 tag 0 value 7 free","variablesReference":0}]},"command":"variables","request_seq":9,"seq":15,"success":true,"type":"response"}
>> {"seq": 10, "type": "request", "command": "reverseContinue", "arguments": {"threadId": 2}}
<< {"body":{},"command":"reverseContinue","request_seq":10,"seq":16,"success":true,"type":"response"}
<< {"body":{"category":"stdout","output":"depth 0\\n3 ahead: local 0: line 5\\n    5  if rank == 0 {\\n"},"event":"output","seq":17,"type":"event"}
<< {"body":{"allThreadsStopped":true,"description":"start","reason":"entry","threadId":1},"event":"stopped","seq":18,"type":"event"}
>> {"seq": 11, "type": "request", "command": "fly", "arguments": {}}
<< {"command":"fly","message":"unknown-command","request_seq":11,"seq":19,"success":false,"type":"response"}
>> {"seq": 12, "type": "request", "command": "disconnect", "arguments": {"restart": false}}
<< {"body":{},"command":"disconnect","request_seq":12,"seq":20,"success":true,"type":"response"}
<< {"body":{},"event":"terminated","seq":21,"type":"event"}
'''),
    dialogue('steps of the first message, forward and back', 'first_message.mpd', f'''{BEGUN}
> next {{"threadId": 2}}
< ok {{}}
< output
| 3 steps, depth 3
| stopped: rank 1 has gone on
| next: local 1: line 8
| {RECEIVES}
< stopped step/depth 3/2
> next {{"threadId": 2}}
< ok {{}}
< output
| 4 steps, depth 7
| stopped: rank 1 has gone on
| next: local 1: line 9
|     9    print x;
< stopped step/depth 7/2
> stackTrace {{"threadId": 1}}
< ok {{"stackFrames":[{{"column":1,"id":1,"line":0,"name":"rank 0 has ended","presentationHint":"label"}}],"totalFrames":1}}
> variables {{"variablesReference": 5}}
< ok {{"variables":[{{"name":"x","value":"7","variablesReference":0}}]}}
> variables {{"variablesReference": 6}}
< ok {{"variables":[]}}
> variables {{"variablesReference": 7}}
< ok {{"variables":[{{"name":"1.0","value":"recv from 0 tag 0 with 0.0 value 7","variablesReference":0}}]}}
> variables {{"variablesReference": 8}}
< ok {{"variables":[]}}
> stepIn {{"threadId": 1}}
< ok {{}}
< output
| 8 local 1: line 9
| rank 1 prints 7
| ended: done
< stopped end/done/1
> exceptionInfo {{"threadId": 2}}
< ok {{"breakMode":"always","description":"","exceptionId":"done"}}
> variables {{"variablesReference": 8}}
< ok {{"variables":[{{"name":"[0]","value":"7","variablesReference":0}}]}}
> next {{"threadId": 1}}
< ok {{}}
< output
| 0 steps, depth 8
| ended: done
< stopped end/done/1
> stepIn {{"threadId": 1}}
< ok {{}}
< output
| ended: done
< stopped end/done/1
> stepBack {{"threadId": 1}}
< ok {{}}
< output
| depth 1
| 7 ahead: local 0: line 6
| {SENDS}
< stopped step/depth 1/1
> stepBack {{"threadId": 1}}
< ok {{}}
< output
| depth 0
| 8 ahead: local 0: line 5
|     5  if rank == 0 {{
< stopped entry/start/1
> stepBack {{"threadId": 2}}
< ok {{}}
< output
| depth 0
| 8 ahead: local 0: line 5
|     5  if rank == 0 {{
< stopped entry/start/1
> stepOut {{"threadId": 1}}
< ok {{}}
< output
| rank 0 waits for no call
< stopped entry/start/1
> next {{"threadId": 1}}
< ok {{}}
< output
| 1 step, depth 1
| stopped: rank 0 has gone on
| 7 ahead: local 0: line 6
| {SENDS}
< stopped step/depth 1/1
> stepIn {{"threadId": 2}}
< ok {{}}
< output
| 2 local 0: line 6
| 6 ahead: local 1: line 5
|     5  if rank == 0 {{
< stopped step/depth 2/2
> stepOut {{"threadId": 1}}
< ok {{}}
< output
| 4 steps, depth 6
| stopped: that call is over
| 2 ahead: wake 1: line 8
| {RECEIVES}
< stopped step/depth 6/1
> exceptionInfo {{"threadId": 1}}
< no not-ended
> exceptionInfo {{"threadId": 3}}
< no bad-number
> restart
< ok {{}}
< output
| depth 0
| 8 ahead: local 0: line 5
|     5  if rank == 0 {{
< stopped entry/start/1
> stepIn {{"threadId": 1, "targetId": 3}}
< ok {{}}
< output
| 3 steps, depth 3
| stopped: as many steps as were asked for
| 5 ahead: local 1: line 8
| {RECEIVES}
< stopped step/depth 3/1
> stepIn {{"threadId": 1, "targetId": 0}}
< ok {{}}
< output
| refused: 1 to 1000000 steps can be asked for
< stopped step/depth 3/1
> configurationDone
< ok {{}}
< event thread {{"reason":"started","threadId":1}}
< event thread {{"reason":"started","threadId":2}}
< stopped goto/depth 3/1
> terminate
< ok {{}}
< event terminated {{}}
'''),
    dialogue('breakpoints of the first message', 'first_message.mpd', f'''{BEGUN}
> setBreakpoints {{"source": {{"path": "/home/a b/first.mpd"}}, "breakpoints": [{{"line": 1}}, {{"line": 9, "condition": "rank 1"}}, {{"line": 9, "condition": "x == 7"}}, {{"line": 10}}, {{"line": 9, "condition": "rank 2"}}, {{"line": 9, "condition": "y == 7"}}, {{"line": 99, "condition": "y"}}, {{"line": 9, "condition": "rank 1 x == 7"}}, {{"line": 9, "condition": "rank 1 if x==7"}}, {{"line": 9, "condition": "if x > 6"}}, {{"line": 9, "condition": ""}}, {{"line": 7, "condition": "y"}}]}}
< ok {{"breakpoints":[{{"id":1,"line":5,"verified":true}},{{"id":2,"line":9,"verified":true}},{{"id":3,"line":9,"verified":true}},{{"line":10,"message":"no statement begins there or below","verified":false}},{{"line":9,"message":"bad condition","verified":false}},{{"line":9,"message":"bad condition","verified":false}},{{"line":99,"message":"no statement begins there or below","verified":false}},{{"line":9,"message":"bad condition","verified":false}},{{"id":4,"line":9,"verified":true}},{{"id":5,"line":9,"verified":true}},{{"id":6,"line":9,"verified":true}},{{"line":7,"message":"bad condition","verified":false}}]}}
> evaluate {{"expression": "breaks", "context": "repl", "frameId": 1}}
< result
| breakpoint 0: line 5
| breakpoint 1: line 9 rank 1
| breakpoint 2: line 9 if x == 7
| breakpoint 3: line 9 rank 1 if x == 7
| breakpoint 4: line 9 if x > 6
| breakpoint 5: line 9
> evaluate {{"expression": "break match 8", "context": "repl"}}
< result
| breakpoint 6: match 8
< stopped entry/start/1
> evaluate {{"expression": "break rank 0", "context": "repl"}}
< result
| breakpoint 7: rank 0
< stopped entry/start/1
> evaluate {{"expression": "break 8", "context": "repl"}}
< result
| breakpoint 8: line 8
< stopped entry/start/1
> setBreakpoints {{"source": {{"path": "/home/a b/first"}}, "breakpoints": [{{"line": 5}}, {{"line": 0, "condition": "y"}}]}}
< ok {{"breakpoints":[{{"line":5,"message":"another script","verified":false}},{{"line":0,"message":"another script","verified":false}}]}}
> evaluate {{"expression": "breaks", "context": "repl"}}
< result
| breakpoint 0: line 5
| breakpoint 1: line 9 rank 1
| breakpoint 2: line 9 if x == 7
| breakpoint 3: line 9 rank 1 if x == 7
| breakpoint 4: line 9 if x > 6
| breakpoint 5: line 9
| breakpoint 6: match 8
| breakpoint 7: rank 0
| breakpoint 8: line 8
> setBreakpoints {{"source": {{"path": "/home/a b/first.mpd"}}, "breakpoints": [{{"line": 0}}]}}
< ok {{"breakpoints":[{{"id":1,"line":5,"verified":true}}]}}
> evaluate {{"expression": "breaks", "context": "repl"}}
< result
| breakpoint 0: line 5
| breakpoint 6: match 8
| breakpoint 7: rank 0
> setBreakpoints {{"source": {{"path": "/home/a b/first.mpd", "name": "first"}}}}
< ok {{"breakpoints":[]}}
> evaluate {{"expression": "breaks", "context": "repl"}}
< result
| breakpoint 6: match 8
| breakpoint 7: rank 0
> evaluate {{"expression": "delete 7", "context": "repl"}}
< result
| deleted 7
< stopped entry/start/1
> continue {{"threadId": 2}}
< ok {{"allThreadsContinued":true}}
< output
| 5 steps, depth 5
| breakpoint 6: match 8
| next: wake 0: line 6
| {SENDS}
< stopped breakpoint/depth 5/2
> stepIn {{"threadId": 2}}
< ok {{}}
< output
| 6 wake 0: line 6
| next: wake 1: line 8
| {RECEIVES}
< stopped step/depth 6/2
> reverseContinue {{"threadId": 1}}
< ok {{}}
< output
| depth 5
| 1 ahead: wake 0: line 6
| {SENDS}
< stopped breakpoint/depth 5/2
> reverseContinue {{"threadId": 1}}
< ok {{}}
< output
| depth 0
| 6 ahead: local 0: line 5
|     5  if rank == 0 {{
< stopped entry/start/1
> disconnect
< ok {{}}
< event terminated {{}}
'''),
    dialogue('64 breakpoints', 'first_message.mpd', f'''{BEGUN}
> setBreakpoints {{"source": {{"path": "/home/a b/first.mpd"}}, "breakpoints": [{', '.join(['{"line": 9}'] * 65)}, {{"line": 10}}, {{"line": 9, "condition": "z"}}]}}
< ok {{"breakpoints":[{','.join(f'{{"id":{number},"line":9,"verified":true}}' for number in range(1, 65))},{{"line":9,"message":"64 breakpoints are set","verified":false}},{{"line":10,"message":"no statement begins there or below","verified":false}},{{"line":9,"message":"bad condition","verified":false}}]}}
> evaluate {{"expression": "break 5", "context": "repl"}}
< result
| refused: 64 breakpoints are set
'''),
    dialogue('lines of the console, and values', 'first_message.mpd', f'''{BEGUN}
> evaluate {{"expression": "x", "context": "hover", "frameId": 2}}
< result
| 0
> evaluate {{"expression": "x + rank", "context": "watch"}}
< result
| rank 0: 0
| rank 1: 1
> evaluate {{"expression": "x + rank", "context": "watch", "frameId": 2}}
< result
| 1
> evaluate {{"expression": " x ", "frameId": 1}}
< result
| 0
> evaluate {{"expression": "x"}}
< result
| rank 0: 0
| rank 1: 0
> evaluate {{"expression": "x - 3", "context": "clipboard", "frameId": 1}}
< result
| -3
> evaluate {{"expression": "x + 5 1", "context": "variables"}}
< result
| rank 1: 5
> evaluate {{"expression": "x + 5 1", "context": "watch", "frameId": 2}}
< result
| 5
> evaluate {{"expression": "x + 5 1", "context": "watch", "frameId": 1}}
< no no-value
> evaluate {{"expression": "x + 5 2"}}
< no no-value
> evaluate {{"expression": "x / x", "frameId": 1}}
< result
| traps: zero-divisor
> evaluate {{"expression": "x +", "context": "watch", "frameId": 1}}
< no no-value
> evaluate {{"expression": "y", "context": "hover", "frameId": 1}}
< no no-value
> evaluate {{"expression": "send", "context": "hover", "frameId": 1}}
< no no-value
> evaluate {{"expression": "ranks", "context": "hover"}}
< no no-value
> evaluate {{"expression": "", "context": "hover"}}
< no no-value
> evaluate {{"expression": "next", "context": "Repl"}}
< no no-value
> evaluate {{"expression": "{'x' * 4000}"}}
< no no-value
> evaluate {{"expression": "x", "context": "hover", "frameId": 3}}
< no bad-number
> evaluate {{"expression": "x", "context": "hover", "frameId": 0}}
< no bad-number
> evaluate {{"expression": "ranks", "frameId": 3, "context": "repl"}}
< no bad-number
> evaluate {{"expression": "ranks", "context": "repl"}}
< result
| rank 0 is at line 5
| rank 1 is at line 5
> evaluate {{"expression": "", "context": "repl"}}
< result
| rank 0 is at line 5
| rank 1 is at line 5
> continue {{"threadId": 1}}
< ok {{"allThreadsContinued":true}}
< output
| 8 steps, depth 8
| rank 1 prints 7
| ended: done
< stopped end/done/1
> evaluate {{"expression": " ", "context": "repl"}}
< result
| rank 0 has ended
| rank 1 has ended
> evaluate {{"expression": "# of nothing", "context": "repl"}}
< ok {{"result":"","variablesReference":0}}
> evaluate {{"expression": "quit", "context": "repl"}}
< ok {{"result":"","variablesReference":0}}
> evaluate {{"expression": "reload", "context": "repl"}}
< ok {{"result":"","variablesReference":0}}
> evaluate {{"expression": "source no_file", "context": "repl"}}
< ok {{"result":"","variablesReference":0}}
> evaluate {{"expression": "back 3", "context": "repl"}}
< result
| depth 5
| 3 ahead: wake 0: line 6
| {SENDS}
< stopped goto/depth 5/1
> evaluate {{"expression": "back 9", "context": "repl"}}
< result
| refused: fewer steps are taken
> evaluate {{"expression": "goto 5", "context": "repl"}}
< result
| depth 5
| 3 ahead: wake 0: line 6
| {SENDS}
< stopped goto/depth 5/1
> evaluate {{"expression": "why 1", "context": "repl"}}
< result
| line 8, 1.0 recv from 0 tag 0 with 0.0 value 7
|   the call is complete: rank 1 can go on
> evaluate {{"expression": "list 0", "context": "repl"}}
< result
|     2  mpd 1;
|     3  ranks 2;
|     4  var x;
|     5  if rank == 0 {{
|     6    send 7 to 1 tag 0;  <- rank 0 can go on
|     7  }} else {{
|     8    recv x from 0 tag 0;  <- rank 1 can go on
|     9    print x;
|    10  }}
> evaluate {{"expression": "zap", "context": "repl"}}
< result
| unknown word 'zap': help all lists all
> evaluate {{"expression": "check", "context": "repl"}}
< result
| 1 no choice: done
| 1 run, and no more (1 done)
| one run for all orders of independent steps; diagnose counts each order
> evaluate {{"expression": "{'x' * 4000}", "context": "repl"}}
< result
| unknown word
|         '{'x' * 4000}':
|         help all lists all
> evaluate {{"expression": "{'x' * 4001}", "context": "repl"}}
< no bad-field
> evaluate {{"expression": "{chr(233) * 2001}", "context": "hover"}}
< no bad-field
'''),
)
ROWS = FIRST + RUNS + BYTES
