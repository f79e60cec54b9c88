"""Asks `mpdbg dap` as an editor does: goes on to how a run ends, by the first message at each choice, steps back, and shows where ranks stand then.

    python3 examples/adapter_client.py examples/stolen_message.mpd
"""
import json
import os
import subprocess
import sys

MPDBG = os.path.join(os.path.dirname(os.path.abspath(__file__)), '..', 'mpdbg')


class Adapter:
    """A debug adapter on a script: each message is a frame, and so is each answer."""

    def __init__(self, script):
        self.process = subprocess.Popen([MPDBG, 'dap', script], stdin=subprocess.PIPE, stdout=subprocess.PIPE)
        self.asked = 0

    def read(self):
        """The next frame: its header has the length of its body."""
        length = 0
        while (line := self.process.stdout.readline()) != b'\r\n':
            if not line:
                raise EOFError('the adapter has ended')
            name, _, value = line.partition(b':')
            length = int(value) if name.lower() == b'content-length' else length
        return json.loads(self.process.stdout.read(length))

    def ask(self, command, **arguments):
        """The body of the response to a command; an error if it is refused."""
        self.asked += 1
        body = json.dumps({'seq': self.asked, 'type': 'request', 'command': command, 'arguments': arguments}).encode()
        self.process.stdin.write(b'Content-Length: %d\r\n\r\n%b' % (len(body), body))
        self.process.stdin.flush()
        response = self.read()
        if not response['success']:
            raise ValueError(f'{command}: {response["message"]}')
        return response['body']

    def move(self, command, **arguments):
        """Moves, and shows what is told of that; the event that says where it stands then."""
        self.ask(command, **arguments)
        while (event := self.read())['event'] != 'stopped':
            print(event['body'].get('output', ''), end='')
        return event['body']


if len(sys.argv) != 2:
    sys.exit('usage: python3 examples/adapter_client.py FILE')
adapter = Adapter(sys.argv[1])
adapter.ask('initialize', linesStartAt1=True)
adapter.ask('launch', program=sys.argv[1])
print(f'from the event {adapter.read()["event"]} on')
stopped = adapter.move('configurationDone')
while stopped['reason'] not in ('exception', 'end'):
    move = {'command': 'stepIn', 'targetId': 1} if stopped['reason'] == 'choice' else {'command': 'continue'}
    stopped = adapter.move(threadId=stopped['threadId'], **move)
print(f'stopped for {stopped["reason"]}, {stopped["description"]}, at thread {stopped["threadId"]}; a step back:')
stopped = adapter.move('stepBack', threadId=stopped['threadId'])
for thread in adapter.ask('threads')['threads']:
    frame, = adapter.ask('stackTrace', threadId=thread['id'])['stackFrames']
    scope = adapter.ask('scopes', frameId=frame['id'])['scopes'][0]
    found = adapter.ask('variables', variablesReference=scope['variablesReference'])['variables']
    values = ', '.join(f'{it["name"]} = {it["value"]}' for it in found)
    print(f'line {frame["line"]}: {frame["name"]}; {values}')
adapter.ask('disconnect')
