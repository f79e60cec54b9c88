"""Finds the race of a script: runs to its first choice, takes each candidate in turn, and tells where all ranks stand in the end, and why.

    python3 examples/client.py examples/race.mpd
"""
import json
import os
import subprocess
import sys

MPDBG = os.path.join(os.path.dirname(os.path.abspath(__file__)), '..', 'mpdbg')


class Session:
    """A session of `mpdbg run --wide` on a script: each request is a line, and each reply."""

    def __init__(self, script, mode='rendezvous'):
        self.process = subprocess.Popen([MPDBG, 'run', script, '--wide', '--mode', mode], stdin=subprocess.PIPE, stdout=subprocess.PIPE, text=True)

    def ask(self, command, **fields):
        """The reply to a request; an error where it is refused, or where the session has ended."""
        print(json.dumps({'cmd': command, **fields}), file=self.process.stdin, flush=True)
        reply = json.loads(self.process.stdout.readline() or '{"error": "the session has ended", "ok": false}')
        if not reply['ok']:
            raise ValueError(f'{command}: {reply["error"]}')
        return reply


def cells(declared):
    """The name of each cell of what is declared: of `a[2]` `a[0]` and `a[1]`."""
    for name, _, size in (text.partition('[') for text in declared):
        yield from [f'{name}[{place}]' for place in range(int(size[:-1]))] if size else [name]


if len(sys.argv) != 2:
    sys.exit('usage: python3 examples/client.py FILE')
session = Session(sys.argv[1])
names = list(cells(session.ask('script')['vars']))
first = session.ask('run', max=1000000)
print(f'after {first["depth"]} steps: {first["stop"]}')
for number, told in enumerate(session.ask('decision')['told']):
    session.ask('goto', depth=first['depth'])
    session.ask('next', choice=number)
    session.ask('run', max=1000000)
    stands = session.ask('all')
    print(f'{told}: {session.ask("decision").get("outcome", "another choice")}')
    for rank, (line, held) in enumerate(zip(stands['lines'], stands['held'])):
        values = ', '.join(f'{name} = {value}' for name, value in zip(names, held['vars']))
        print(f'  rank {rank} {"has ended" if line is None else f"stands at line {line}"}: {values}')
    for line in session.ask('explain')['told']:
        print(line)
