"""Worked dialogues of the debug adapter about what is refused, what is no message, and what is no frame (worked_adapter.py)."""

from rows.adapter_talks import CUT_OFF, NO_FRAME, SMALL, bytes_row, dialogue, frame

FIRST = 'first_message.mpd'
ASKED = '{"command":"threads","seq":1,"type":"request"}'
ANSWERED = '{"command":"threads","message":"not-launched","request_seq":1,"seq":1,"success":false,"type":"response"}'
ENDS = '{"command":"disconnect","seq":2,"type":"request"}'
ENDED = ('{"body":{},"command":"disconnect","request_seq":2,"seq":1,"success":true,"type":"response"}', '{"body":{},"event":"terminated","seq":2,"type":"event"}')


def nested(depth):
    """A message with so many lists inside one another in its one object."""
    return f'{{"command":"threads","seq":1,"type":"request","x":{"[" * depth}{"]" * depth}}}'


def padded(length):
    """A message of so many bytes."""
    return frame(ASKED.ljust(length))


PASSED = ('null', '0', '[]', '"threads"', '{}', '{"seq":1,"type":"request"}', '{"seq":1,"command":"threads"}', '{"type":"request","command":"threads"}',
          '{"seq":1,"type":"event","event":"x"}', '{"seq":1,"type":"response","command":"threads","request_seq":1,"success":true}', '{"seq":1,"type":"Request","command":"threads"}',
          '{"seq":"1","type":"request","command":"threads"}', '{"seq":1.0,"type":"request","command":"threads"}', '{"seq":-1,"type":"request","command":"threads"}',
          '{"seq":18446744073709551616,"type":"request","command":"threads"}', '{"seq":1e0,"type":"request","command":"threads"}', '{"seq":true,"type":"request","command":"threads"}',
          '{"seq":1,"type":"request","command":null}', '{"seq":1,"type":"request","command":["threads"]}', '{"seq":1,"type":"request","command":"threads"',
          '{"seq":1,"type":"request","command":"threads"}}', "{'seq':1,'type':'request','command':'threads'}", '{"seq":1,"type":"request","command":"threads",}', '')
WORDS = '''
> initialize {"linesStartAt1": false}
< no bad-field
> initialize {"linesStartAt1": null}
< ok {"supportsConditionalBreakpoints":true,"supportsConfigurationDoneRequest":true,"supportsEvaluateForHovers":true,"supportsExceptionInfoRequest":true,"supportsStepBack":true,"supportsStepInTargetsRequest":true,"supportsTerminateRequest":true}
> initialize {"linesStartAt1": 1}
< no bad-field
> fly
< no unknown-command
> continue
< no not-launched
> continue {"threadId": "x"}
< no not-launched
> configurationDone
< no not-launched
> setBreakpoints {"source": 1}
< no not-launched
> launch
< no bad-field
> launch {"program": null}
< no bad-field
> launch {"program": 7}
< no bad-field
> launch {"program": ""}
< ok {}
< event initialized {}
> launch {"program": "b"}
< no launched
> launch
< no launched
> Continue {"threadId": 1}
< no unknown-command
> continue
< no bad-field
> continue {"threadId": 1.0}
< no bad-field
> continue {"threadId": -1}
< no bad-field
> continue {"threadId": "1"}
< no bad-field
> continue {"threadId": null}
< no bad-field
> continue {"threadId": 18446744073709551616}
< no bad-field
> continue {"threadId": 18446744073709551615}
< no bad-number
> continue {"threadId": 0}
< no bad-number
> continue {"threadId": 3}
< no bad-number
> next {"threadid": 1}
< no bad-field
> stepIn {"threadId": null, "targetId": 1}
< no bad-field
> stepIn {"threadId": 9, "targetId": null}
< no bad-number
> stepIn {"threadId": 9, "targetId": "1"}
< no bad-field
> stepInTargets {"frameId": 9}
< no bad-number
> stepInTargets {"threadId": 1}
< no bad-field
> variables {"variablesReference": 9}
< no bad-number
> variables {"variablesReference": "1"}
< no bad-field
> exceptionInfo {"threadId": 9}
< no bad-number
> exceptionInfo {"threadId": 1}
< no not-ended
> setBreakpoints
< no bad-field
> setBreakpoints {"source": {}}
< no bad-field
> setBreakpoints {"source": {"path": null}}
< no bad-field
> setBreakpoints {"source": "s"}
< no bad-field
> setBreakpoints {"source": null}
< no bad-field
> setBreakpoints {"source": {"path": ""}, "breakpoints": [{"line": null}]}
< no bad-field
> setBreakpoints {"source": {"path": ""}, "breakpoints": [{"line": 5}, {}]}
< no bad-field
> setBreakpoints {"source": {"path": ""}, "breakpoints": [{"line": 5}, 5]}
< no bad-field
> setBreakpoints {"source": {"path": ""}, "breakpoints": [{"line": 5, "condition": null}]}
< ok {"breakpoints":[{"id":1,"line":5,"verified":true}]}
> setBreakpoints {"source": {"path": ""}, "breakpoints": null}
< ok {"breakpoints":[]}
> setBreakpoints {"source": {"path": "x"}, "breakpoints": [{"line": "5"}]}
< no bad-field
> evaluate {"expression": "breaks", "context": "repl", "frameId": null}
< result
| no breakpoint
> evaluate {"context": "repl"}
< no bad-field
> evaluate {"expression": 1}
< no bad-field
> evaluate {"expression": "x", "context": null, "frameId": null}
< result
| rank 0: 0
| rank 1: 0
> evaluate {"expression": null}
< no bad-field
> evaluate {"expression": "next", "frameId": "1"}
< no bad-field
> evaluate {"expression": "next", "frameId": 9}
< no bad-number
> stackTrace {"threadId": 1}
< ok {"stackFrames":[{"column":1,"id":1,"line":5,"name":"rank 0 is at line 5","source":{"path":""}}],"totalFrames":1}
> setExceptionBreakpoints
< ok {}
> pause
< ok {}
> pause {"threadId": 99}
< ok {}
> initialize
< ok {"supportsConditionalBreakpoints":true,"supportsConfigurationDoneRequest":true,"supportsEvaluateForHovers":true,"supportsExceptionInfoRequest":true,"supportsStepBack":true,"supportsStepInTargetsRequest":true,"supportsTerminateRequest":true}
'''

# A script that is refused, and what the program says of it at its end.
REFUSED, FAULT = 'mpd 1; ranks 1; print', (b'mpdbg: script refused 4 expected at 21 line 1\n', 2)
NOT_READ = '{"body":{"error":{"format":"%s","id":1,"showUser":true}},"command":"launch","message":"not-read","request_seq":2,"seq":%d,"success":false,"type":"response"}'
CAN = '{"body":{"supportsConditionalBreakpoints":true,"supportsConfigurationDoneRequest":true,"supportsEvaluateForHovers":true,"supportsExceptionInfoRequest":true,"supportsStepBack":true,"supportsStepInTargetsRequest":true,"supportsTerminateRequest":true},"command":"initialize","request_seq":1,"seq":1,"success":true,"type":"response"}'
LAUNCH = '{"command":"launch","seq":2,"type":"request","arguments":{"program":"x"}}'
BEGINS = '{"command":"initialize","seq":1,"type":"request","arguments":null}'


def refused(number, command, name, seq):
    return f'{{"command":"{command}","message":"{name}","request_seq":{number},"seq":{seq},"success":false,"type":"response"}}'


BYTES = (
    dialogue('what is refused, by the first test that fails', FIRST, WORDS),
    dialogue('bodies that are passed over', FIRST, '\n'.join(f'>> {body}' for body in PASSED if body) + f'\n>> {ASKED}\n<< {ANSWERED}\n'),
    dialogue('the last of two entries counts', FIRST, '''
>> {"seq":9,"seq":1,"type":"event","type":"request","command":"fly","command":"threads"}
<< {"command":"threads","message":"not-launched","request_seq":1,"seq":1,"success":false,"type":"response"}
>> {"seq":2,"type":"request","command":"launch","arguments":{"program":"a","program":7}}
<< {"command":"launch","message":"bad-field","request_seq":2,"seq":2,"success":false,"type":"response"}
'''),
    dialogue('numbers and texts that come back', SMALL, '''
>> {"seq":18446744073709551615,"type":"request","command":"a\\"b\\\\c\\u0000\\u001f\\u007f\\n\\t\\/\\u00e9\\ud83d\\ude00"}
<< {"command":"a\\"b\\\\c\\u0000\\u001f\x7f\\n\\t/\u00e9\U0001f600","message":"unknown-command","request_seq":18446744073709551615,"seq":1,"success":false,"type":"response"}
>> {"seq":0,"type":"request","command":""}
<< {"command":"","message":"unknown-command","request_seq":0,"seq":2,"success":false,"type":"response"}
>> {"seq":0,"type":"request","command":"launch","arguments":{"program":"C:\\\\a \\u00e9\\u0001.mpd"}}
<< {"body":{},"command":"launch","request_seq":0,"seq":3,"success":true,"type":"response"}
<< {"body":{},"event":"initialized","seq":4,"type":"event"}
>> {"seq":0,"type":"request","command":"stackTrace","arguments":{"threadId":1}}
<< {"body":{"stackFrames":[{"column":1,"id":1,"line":1,"name":"rank 0 is at line 1","source":{"path":"C:\\\\a \u00e9\\u0001.mpd"}}],"totalFrames":1},"command":"stackTrace","request_seq":0,"seq":5,"success":true,"type":"response"}
'''),
    bytes_row('no frame', b'', ()),
    bytes_row('an empty body', frame('') + frame(ASKED), (ANSWERED,)),
    bytes_row('126 lists in an object', frame(nested(126)), (ANSWERED,)),
    bytes_row('127 lists in an object', frame(nested(127)), ()),
    bytes_row('1,000 lists in an object', frame(nested(1000)) + frame(ASKED), (ANSWERED,)),
    bytes_row('bytes that are no UTF-8', b'Content-Length: 1\r\n\r\n\xff' + frame(ASKED), (ANSWERED,)),
    bytes_row('the end, and a frame after it', frame(ENDS) + frame(ASKED), ENDED),
    bytes_row('the end, and what is no frame after it', frame(ENDS) + b'Content-Length: x\r\n\r\n', ENDED),
    bytes_row('the end in the middle of a read', (frame(ENDS) + frame(ASKED)[:9], frame(ASKED)[9:]), ENDED, way='in pieces'),
    bytes_row('no header', ASKED.encode() + b'\n', (), CUT_OFF),
    bytes_row('a header without a length', frame(ASKED) + b'Content-Type: x\r\n\r\n' + ASKED.encode(), (ANSWERED,), NO_FRAME),
    bytes_row('two lengths', b'Content-Length: 2\r\nContent-Length: 2\r\n\r\n{}', (), NO_FRAME),
    bytes_row('a length that is none', b'Content-Length: two\r\n\r\n{}', (), NO_FRAME),
    bytes_row('an empty header', b'\r\n{}', (), NO_FRAME),
    bytes_row('a length that is too short', frame(ASKED) + b'Content-Length: 1\r\n\r\n' + ASKED.encode(), (ANSWERED,), CUT_OFF),
    bytes_row('a length that is too long', b'Content-Length: 47\r\n\r\n' + ASKED.encode(), (), CUT_OFF),
    bytes_row('cut in the middle of a body', frame(ASKED) + frame(ASKED)[:-1], (ANSWERED,), CUT_OFF),
    bytes_row('cut in the middle of a header', frame(ASKED) + b'Content-Len', (ANSWERED,), CUT_OFF),
    bytes_row('a body of 1,048,576 bytes', padded(1048576), (ANSWERED,)),
    bytes_row('a body of one byte more', padded(1048577), (), NO_FRAME),
    bytes_row('100 MB that are announced', frame(ASKED) + b'Content-Length: 104857600\r\n\r\n{', (ANSWERED,), NO_FRAME),
    bytes_row('1 MB that is announced and never comes', frame(ASKED) + b'Content-Length: 1048576\r\n\r\n{', (ANSWERED,), CUT_OFF),
    bytes_row('a header of 4,096 bytes', (b'X: ' + b'y' * 4069 + b'\r\n' + frame(ASKED)), (ANSWERED,)),
    bytes_row('a header of one byte more', (b'X: ' + b'y' * 4070 + b'\r\n' + frame(ASKED)), (), NO_FRAME),
    bytes_row('a header without an end', b'X: y\r\n' * 1000, (), NO_FRAME),
    bytes_row('header lines in any letters, and others beside', b'CONTENT-length:\t46 \r\nContent-Type: x\r\n\r\n' + ASKED.encode(), (ANSWERED,)),
    bytes_row('byte by byte', tuple(bytes([byte]) for byte in frame(ASKED)), (ANSWERED,), way='in pieces'),
    dialogue('arguments of any kind', FIRST, '''
>> {"seq":1,"type":"request","command":"threads","arguments":null}
<< {"command":"threads","message":"not-launched","request_seq":1,"seq":1,"success":false,"type":"response"}
>> {"seq":2,"type":"request","command":"launch","arguments":["program"]}
<< {"command":"launch","message":"bad-field","request_seq":2,"seq":2,"success":false,"type":"response"}
>> {"seq":3,"type":"request","command":"launch","arguments":{"program":"a"}}
<< {"body":{},"command":"launch","request_seq":3,"seq":3,"success":true,"type":"response"}
<< {"body":{},"event":"initialized","seq":4,"type":"event"}
>> {"seq":4,"type":"request","command":"threads","arguments":"x"}
<< {"body":{"threads":[{"id":1,"name":"rank 0 is at line 5"},{"id":2,"name":"rank 1 is at line 5"}]},"command":"threads","request_seq":4,"seq":5,"success":true,"type":"response"}
'''),
    bytes_row('a script that is refused, and no launch', frame(ASKED), (ANSWERED,), FAULT, script=REFUSED),
    bytes_row('a script that is refused', frame(BEGINS) + frame(LAUNCH) + frame(LAUNCH) + frame('{"command":"fly","seq":3,"type":"request"}') + frame('[]') + frame(ENDS) + frame(ASKED),
              (CAN, NOT_READ % ('mpdbg: script refused 4 expected at 21 line 1', 2), NOT_READ % ('mpdbg: script refused 4 expected at 21 line 1', 3),
               refused(3, 'fly', 'unknown-command', 4), '{"body":{},"command":"disconnect","request_seq":2,"seq":5,"success":true,"type":"response"}',
               '{"body":{},"event":"terminated","seq":6,"type":"event"}'), FAULT, script=REFUSED),
    bytes_row('a script that is refused, and fields that are wrong', frame('{"command":"launch","seq":1,"type":"request"}') + frame('{"command":"initialize","seq":2,"type":"request","arguments":{"linesStartAt1":false}}'),
              (refused(1, 'launch', 'bad-field', 1), refused(2, 'initialize', 'bad-field', 2)), FAULT, script=REFUSED),
    bytes_row('a script that is refused, and no frame', frame(LAUNCH) + b'Content-Length: x\r\n\r\n', (NOT_READ % ('mpdbg: script refused 4 expected at 21 line 1', 1),), FAULT, script=REFUSED),
    bytes_row('a script that is not there', frame(LAUNCH) + frame(ENDS), (NOT_READ % ('mpdbg: device: no such file', 1),
              '{"body":{},"command":"disconnect","request_seq":2,"seq":2,"success":true,"type":"response"}', '{"body":{},"event":"terminated","seq":3,"type":"event"}'),
              (b'mpdbg: device\n', 3), script=None),
)
