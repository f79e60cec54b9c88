"""Joins a session that `mpdbg serve` shares: looks, takes the next step unless somebody was faster, tells where all ranks are, leaves.

    ./mpdbg serve examples/two_clients.mpd --port 7007 --clients 1
    python3 examples/socket_client.py 7007
"""
import json
import socket
import sys


class Client:
    """A client of a shared session: each request is a line, and each reply."""

    def __init__(self, port):
        self.lines = socket.create_connection(('127.0.0.1', port)).makefile('rw', encoding='ascii', newline='\n')

    def ask(self, command, **fields):
        """The reply to a request, which may be a refusal: others change the session, too."""
        print(json.dumps({'cmd': command, **fields}), file=self.lines, flush=True)
        return json.loads(self.lines.readline() or '{"error": "the session has ended", "ok": false}')


client = Client(int(sys.argv[1]))
seen = client.ask('state')
moved = client.ask('next', at=seen['version'])
print(f'version {seen["version"]}: {moved.get("step") or moved["error"]}')
for rank, doing in enumerate(client.ask('state')['ranks']):
    print(f'rank {rank}: {doing}')
