#!/usr/bin/env python3
"""How many requests `serve` answers over the loopback, of one client and of several, beside `run` over pipes and beside an echo.

    python3 bench/served.py [PROGRAM [RUNS]]   (10 runs of crates/mpdbg/out/mpdbg, where nothing else is named)

It is no part of the gate. Each request is a step, as in bench/requests.py. A client is a process, in Python, and sends without delay. One
that waits sends a line when it has the reply to the one before; one that sends ahead doesn't wait for any. The echo, in C (bench/echo.c,
where there is a compiler) and in Python, sends each line back: what is above it is the program's. It tells the least and the middle of
the runs for each request, and of a client that waits the middle of all its round trips too.
"""
import multiprocessing
import os
import select
import shutil
import socket
import subprocess
import sys
import tempfile
import time

TOP = os.path.dirname(os.path.dirname(os.path.abspath(__file__)))
sys.path.insert(0, f'{TOP}/compare')

from served.served_clients import HERE
from served.served_program import Serving, Tried, free_port

SCRIPT = b'mpd 1; ranks 1; var i; while 1 { i = i + 1; }\n'
LINE = b'{"cmd":"step","step":"local 0"}\n'
# All requests of a run are entries of one history, which has 65,536 at most; 16 clients have equal parts of them.
AHEAD, WAITING = 64_000, 16_000
CLIENTS = (1, 2, 4, 16)
PIECE = 1 << 16
ECHO = '''import socket, sys
listener = socket.create_server(('127.0.0.1', int(sys.argv[1])))
print('listening', sys.argv[1], flush=True)
client, _ = listener.accept()
client.setsockopt(socket.IPPROTO_TCP, socket.TCP_NODELAY, 1)
while data := client.recv(4096):
    client.sendall(data)
'''


def connected(port):
    it = socket.create_connection((HERE, port))
    it.setsockopt(socket.IPPROTO_TCP, socket.TCP_NODELAY, 1)
    return it


def must_come(piece):
    """What came; an error where the other side has ended."""
    if not piece:
        raise ConnectionError('the other side has ended')
    return piece


def wait_for_each(read, write, count):
    """Sends so many lines, each behind the reply to the one before; how long each took, in seconds."""
    times = []
    for _ in range(count):
        began = time.perf_counter()
        write(LINE)
        while not (piece := read(PIECE)).endswith(b'\n'):
            must_come(piece)
        times.append(time.perf_counter() - began)
    return times


def send_ahead(it, count):
    """Sends so many lines while it reads the replies."""
    view, left, poll = memoryview(LINE * count), count, select.poll()
    poll.register(it, select.POLLIN | select.POLLOUT)
    while left:
        (_, ready), = poll.poll()
        if ready & select.POLLIN:
            left -= must_come(it.recv(PIECE)).count(b'\n')
        elif view:
            view = view[it.send(view[:PIECE]):]
            if not view:
                poll.modify(it, select.POLLIN)


def talk_ahead(it, count):
    it.setblocking(False)
    send_ahead(it, count)


def talk_in_turn(it, count):
    wait_for_each(it.recv, it.sendall, count)


def together(port, clients, talk, count):
    """How long so many clients take together, each for so many lines."""
    context = multiprocessing.get_context('fork')
    barrier = context.Barrier(clients + 1)

    def run():
        with connected(port) as it:
            barrier.wait()
            talk(it, count)
            barrier.wait()
    processes = [context.Process(target=run) for _ in range(clients)]
    for process in processes:
        process.start()
    barrier.wait()
    began = time.monotonic()
    barrier.wait()
    took = time.monotonic() - began
    for process in processes:
        process.join()
    return took


def served(tried, clients, talk, count):
    """How long a program takes for so many requests of all clients together."""
    with tried.serve(SCRIPT, clients) as server:
        took = together(server.port, clients, talk, count // clients)
        server.must_end(count)
    return took


def round_trips(words, count, ended=None):
    """How long each line takes of one client that waits."""
    port = free_port()
    with Serving([*words, *(('--port', str(port), '--clients', '1') if ended else (str(port),))], time.monotonic() + 120) as server:
        server.listen(port)
        with connected(port) as it:
            times = wait_for_each(it.recv, it.sendall, count)
        if ended:
            server.must_end(count)
    return times


def piped(program, script, count):
    """How long each line takes of one that waits for `run`."""
    with subprocess.Popen([program, 'run', script], stdin=subprocess.PIPE, stdout=subprocess.PIPE, bufsize=0) as run:
        reading, writing = run.stdout.fileno(), run.stdin.fileno()
        return wait_for_each(lambda size: os.read(reading, size), lambda line: os.write(writing, line), count)


def piped_ahead(program, script, requests):
    """How long `run` takes for a file of requests that comes by a pipe, with replies that go by one."""
    began = time.monotonic()
    given = subprocess.Popen(['cat', requests], stdout=subprocess.PIPE)
    answers = subprocess.Popen([program, 'run', script], stdin=given.stdout, stdout=subprocess.PIPE)
    last = subprocess.run(['tail', '-n', '1'], stdin=answers.stdout, stdout=subprocess.PIPE, check=True)
    took = time.monotonic() - began
    if f'"depth":{AHEAD},' not in last.stdout.decode() or answers.wait() or given.wait():
        sys.exit(f'{program} answered {last.stdout!r} at last')
    return took


def middle(values):
    return sorted(values)[len(values) // 2]


def told(what, times, count):
    """Says the least and the middle of some times, for each of so many requests, and how many that is a second."""
    each = [took / count * 1e6 for took in times]
    best = min(each)
    print(f'{what}: {best:.2f} us at best, {middle(each):.2f} in the middle of {len(each)}; {1e6 / best:,.0f} a second at best', flush=True)


def told_trips(what, runs):
    """The same of round trips."""
    middles = [middle(trips) * 1e6 for trips in runs]
    print(f'{what}: the middle trip {min(middles):.1f} us at best, {middle(middles):.1f} in the middle of {len(runs)}', flush=True)


def echoes(folder):
    """The words of an echo in Python, and of one in C where it can be compiled."""
    yield 'an echo in Python', [sys.executable, '-c', ECHO]
    compiler = shutil.which('cc')
    if compiler is None:
        print('there is no cc: no echo in C')
        return
    subprocess.run([compiler, '-O2', '-o', f'{folder}/echo', f'{TOP}/bench/echo.c'], check=True)
    yield 'an echo in C', [f'{folder}/echo']


def main():
    program = os.path.abspath(sys.argv[1]) if len(sys.argv) > 1 else f'{TOP}/crates/mpdbg/out/mpdbg'
    runs = range(int(sys.argv[2]) if len(sys.argv) > 2 else 10)
    if not os.access(program, os.X_OK):
        print(f'{program} is not built: (cd crates/mpdbg && rt run)')
        sys.exit(2)
    tried = Tried((program,), seconds=120)
    with tempfile.TemporaryDirectory() as folder:
        script, requests = f'{folder}/loop.mpd', f'{folder}/requests'
        for path, data in ((script, SCRIPT), (requests, LINE * AHEAD)):
            with open(path, 'wb') as it:
                it.write(data)
        told_trips('a client that waits', [round_trips([program, 'serve', script], WAITING, True) for _ in runs])
        told_trips('run, over pipes', [piped(program, script, WAITING) for _ in runs])
        for what, words in echoes(folder):
            told_trips(what, [round_trips(words, WAITING) for _ in runs])
        for clients in CLIENTS:
            told(f'{clients} that wait', [served(tried, clients, talk_in_turn, WAITING) for _ in runs], WAITING)
        told('run, a file over a pipe', [piped_ahead(program, script, requests) for _ in runs], AHEAD)
        for clients in CLIENTS:
            told(f'{clients} that send ahead', [served(tried, clients, talk_ahead, AHEAD) for _ in runs], AHEAD)


if __name__ == '__main__':
    main()
