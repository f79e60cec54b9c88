"""Worked dialogues of the debug adapter as they are written down (worked_adapter.py), and the bytes that they stand for.

A line that begins with `> ` is a message: its command, and its arguments if there are any; it has the next number, from 1. `>> BODY` is a body as
it stands, and takes no number. What stands below are the frames that answer it, in their order, each with the next number:

    < ok BODY           a response to a message that is done, with this body
    < no NAME           one to a message that is refused
    < event NAME BODY   an event with this body
    << FRAME            a frame as it stands
    < output            the event with the text of the lines below that begin with `| `
    < result            the response to `evaluate` with the same text, without its last line feed
    < stopped R/D/T     the event with this reason, this description and this thread

They are written as docs/ADAPTER.md has them ("Frames and messages", "Stops").
"""

import json
from typing import NamedTuple

from cases.adapter_cases import Case
from model.adapter import message_of
from model.debugger import Result
from model.frames import frames_of
from rows.examples import open_example

# A script of one statement.
SMALL = 'mpd 1; ranks 1; print 1;'
# What is said on standard error at the end, and the status: if all was whole, if a frame was cut off, and at what is no frame.
WHOLE, CUT_OFF, NO_FRAME = (b'', 0), (b'mpdbg: cut-off\n', 3), (b'mpdbg: frame\n', 3)


def frame(body):
    return b'Content-Length: %d\r\n\r\n%b' % (len(body.encode()), body.encode())


def quoted(text):
    """A text as it stands in a frame."""
    return json.dumps(text, ensure_ascii=False)


class Row(NamedTuple):
    """A worked dialogue: what it is of, what is sent, and what must be answered."""
    what: str
    case: Case
    wanted: Result


def is_of(row, commands):
    """Whether a row has a message of one of some commands, or tells what the adapter can."""
    sent = [message_of(body) for body in frames_of(row.case.data)[0]]
    return any(message is not None and message.command in {*commands, 'initialize'} for message in sent)


class Talk:
    """What is sent and what is wanted, as it is put together."""

    def __init__(self):
        self.sent, self.wanted, self.counts = [], [], []
        self.asked, self.number, self.text, self.head = 0, 0, None, None

    def add(self, form):
        """Adds a frame, in which the place of its number stands as KEY."""
        self.number += 1
        self.wanted.append(frame(form.replace('KEY', str(self.number))))

    def flush(self):
        """Adds the frame whose text has come whole."""
        if self.text is None:
            return
        text, self.text = ''.join(f'{line}\n' for line in self.text), None
        if self.head == 'output':
            self.add(f'{{"body":{{"category":"stdout","output":{quoted(text)}}},"event":"output","seq":KEY,"type":"event"}}')
        else:
            self.done(f'{{"result":{quoted(text.removesuffix(chr(10)))},"variablesReference":0}}')

    def done(self, body):
        self.add(f'{{"body":{body},"command":{self.command},"request_seq":{self.asked},"seq":KEY,"success":true,"type":"response"}}')

    def send(self, body):
        self.flush()
        self.sent.append(frame(body))
        self.counts.append(0)

    def message(self, words):
        self.flush()
        command, _, arguments = words.partition(' ')
        self.asked += 1
        self.command = quoted(command)
        more = f',"arguments":{arguments}' if arguments else ''
        self.send(f'{{"seq":{self.asked},"type":"request","command":{self.command}{more}}}')

    def told(self, words):
        """A line of what is told."""
        self.flush()
        kind, _, rest = words.partition(' ')
        if kind == 'ok':
            self.done(rest)
        elif kind == 'no':
            self.add(f'{{"command":{self.command},"message":"{rest}","request_seq":{self.asked},"seq":KEY,"success":false,"type":"response"}}')
        elif kind == 'event':
            name, _, body = rest.partition(' ')
            self.add(f'{{"body":{body},"event":"{name}","seq":KEY,"type":"event"}}')
        elif kind == 'stopped':
            reason, description, thread = rest.split('/')
            self.add(f'{{"body":{{"allThreadsStopped":true,"description":"{description}","reason":"{reason}","threadId":{thread}}},'
                     '"event":"stopped","seq":KEY,"type":"event"}')
        else:
            self.text, self.head = [], kind

    def line(self, line):
        if line.startswith('>> '):
            self.send(line[3:])
        elif line.startswith('> '):
            self.message(line[2:])
        elif line.startswith('<< '):
            self.flush()
            self.number += 1
            self.wanted.append(frame(line[3:]))
        elif line.startswith('< '):
            self.told(line[2:])
        elif self.text is not None and line.startswith('|'):
            self.text.append(line[2:])
        else:
            raise ValueError(line)
        if self.counts:
            self.counts[-1] = self.number

    def end(self):
        self.flush()
        if self.counts:
            self.counts[-1] = self.number


def text_of(script):
    """The text of a script, which is an example or stands there; None where there is none."""
    if script is None:
        return None
    return open_example(script) if script.endswith('.mpd') else script.encode()


def dialogue(what, script, spoken, mode=None, run=None):
    """A worked dialogue, by its lines, on a script in some mode, perhaps with a run ahead."""
    talk = Talk()
    for line in spoken.split('\n'):
        if line:
            talk.line(line)
    talk.end()
    case = Case(what, text_of(script), mode, tuple(talk.sent), tuple(talk.counts), 'in turns', run=run)
    return Row(what, case, Result(b''.join(talk.wanted), *WHOLE))


def bytes_row(what, sent, wanted, end=WHOLE, way='at once', script=SMALL):
    """A worked dialogue, by what is sent, the bodies that are told, and what the program says at its end."""
    pieces = sent if isinstance(sent, tuple) else (sent,)
    return Row(what, Case(what, text_of(script), None, pieces, (0,) * len(pieces), way), Result(b''.join(map(frame, wanted)), *end))
