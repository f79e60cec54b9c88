"""Starts `serve` of a program on a port that is free, and gives what it says and how it ends; nothing here waits for ever."""

import os
import random
import resource
import select
import socket
import subprocess
import tempfile
import time
from typing import NamedTuple

from model.debugger import Result
from model.files import held
from served.served_clients import HERE, Client, Wrong, must_be
from started.programs import content

# Ports that no connection is given by itself: a client whose own port is the one that it asks for would speak to itself.
PORTS = range(20000, 32000)
DEVICE = b'mpdbg: device\n'
MIB = 1 << 20
# A user who has no other process, so that the threads of a program are all that are counted of it.
ALONE = 54321


def is_free(port):
    with socket.socket() as it:
        it.setsockopt(socket.SOL_SOCKET, socket.SO_REUSEADDR, 1)
        try:
            it.bind((HERE, port))
        except OSError:
            return False
    return True


def free_port():
    """A port that nobody has taken so far."""
    return next(port for port in iter(lambda: random.choice(PORTS), None) if is_free(port))


def few_threads(count):
    """What gives a program a user of its own, who may have so many threads."""
    def begin():
        resource.setrlimit(resource.RLIMIT_NPROC, (count, count))
        os.setresuid(ALONE, ALONE, ALONE)
    return begin


class Serving:
    """A program that serves a script: a context, behind which it has ended."""

    def __init__(self, words, until, errors=None, output=None, threads=None):
        self.until, self.errors = until, os.memfd_create('errors')
        self.process = subprocess.Popen(words, stdin=subprocess.DEVNULL, stdout=subprocess.PIPE if output is None else output,
                                        stderr=self.errors if errors is None else errors,
                                        preexec_fn=threads and few_threads(threads))
        self.said, self.port, self.clients = b'', None, []

    def __enter__(self):
        return self

    def __exit__(self, *_):
        for client in self.clients:
            client.leave()
        if self.process.poll() is None:
            self.process.kill()
        self.process.wait()
        if self.process.stdout:
            self.process.stdout.close()
        os.close(self.errors)

    def read(self, until):
        """Reads on what it says until then; whether there was something, which may be the end."""
        poll = select.poll()
        poll.register(self.process.stdout, select.POLLIN)
        if not poll.poll(max(0, until - time.monotonic()) * 1000):
            return None
        piece = os.read(self.process.stdout.fileno(), MIB)
        self.said += piece
        return piece

    def listen(self, port):
        """Waits for its first line; whether it has come, and not the end."""
        self.port = port
        while b'\n' not in self.said:
            piece = self.read(self.until)
            if piece is None:
                raise Wrong(f'it says nothing of listening, but {self.said!r}')
            if not piece:
                return False
        must_be(self.said, f'listening {port}\n'.encode(), 'its first line')
        return True

    def client(self, **options):
        """A client of it."""
        self.clients.append(Client(self.port, self.until, **options))
        return self.clients[-1]

    def ask_for(self, count):
        """So many clients of it."""
        return [self.client() for _ in range(count)]

    def must_go_on(self, seconds=0.2):
        """It has said no more than that it listens, and says nothing for so long."""
        if self.read(time.monotonic() + seconds) is not None:
            raise Wrong(f'it said {self.said!r} too soon')

    def result(self):
        """What it gives, where it ends in time."""
        while self.process.stdout and (piece := self.read(self.until)) != b'':
            if piece is None:
                raise Wrong(f'it has not ended; it said {self.said!r}')
        try:
            status = self.process.wait(max(0.1, self.until - time.monotonic()))
        except subprocess.TimeoutExpired:
            raise Wrong(f'it has not ended, having said {self.said!r}') from None
        return Result(self.said, content(self.errors), status)

    def served(self, entries):
        """What it must give that has served so many entries."""
        return Result(f'listening {self.port}\nserved {entries}\n'.encode(), b'', 0)

    def result_of_all(self):
        """What it gives when all clients leave."""
        for client in self.clients:
            client.leave()
        return self.result()

    def must_end(self, entries, most=None):
        """All clients leave; then it must tell so many entries, or between so many and so many."""
        result = self.result_of_all()
        told = result.output.rpartition(b' ')[2].strip()
        if most is not None and told.isdigit() and entries <= int(told) <= most:
            entries = int(told)
        must_be(result, self.served(entries), 'the end' if most is None else f'the end, with up to {most} entries')

    def peak(self):
        """How much memory it took at most so far, in MiB."""
        with open(f'/proc/{self.process.pid}/status', encoding='ascii') as file:
            return int(next(line.split()[1] for line in file if line.startswith('VmHWM:'))) // 1024


class Tried(NamedTuple):
    """A program that is tried, by the words that begin it, and how much of it."""
    words: tuple
    seed: int = 1
    sessions: int = 40
    crowd: int = 1200
    entries: int = 65536
    seconds: float = 20

    def until(self):
        """When a scenario ends at the latest that begins now."""
        return time.monotonic() + self.seconds

    def words_for(self, path, port, clients, mode=None, wide=False):
        return [*self.words, 'serve', path, '--port', str(port), '--clients', str(clients), *(() if mode is None else ('--mode', mode)), *('--wide',) * wide]

    def serve(self, script, clients, mode=None, port=None, wide=False, **files):
        """A program that listens: on that port, or on one that is free. The script's file may go once it listens."""
        for _ in range(5):
            with tempfile.TemporaryDirectory(prefix='serving-') as folder:
                os.chmod(folder, 0o711)
                found = port or free_port()
                serving = Serving(self.words_for(held(folder, 'script.mpd', script), found, clients, mode, wide), self.until(), **files)
                try:
                    if serving.listen(found):
                        return serving
                    result = serving.result()
                except Wrong:
                    serving.__exit__()
                    raise
                serving.__exit__()
            if port or result != Result(b'', DEVICE, 3):
                raise Wrong(f'it does not listen: {result}')
        raise Wrong('no port is free')

    def run(self, *words, **files):
        """What it gives for some words, where it doesn't listen."""
        with Serving([*self.words, *map(str, words)], self.until(), **files) as serving:
            return serving.result()
