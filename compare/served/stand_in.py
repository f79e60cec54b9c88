"""A server in Python that stands for `mpdbg serve`: a thread for each client, over the session of the model.

compare/runs/serving.py tries it without a fault, and with each of stand_in_faults.py and stand_in_server_faults.py. compare/runs/stand_in.py
is the program of it.
"""

import argparse
import os
import socket
import sys
import threading

from model.debugger import BAD_FILE, BAD_MODE, RENDEZVOUS, file_content, refusal
from model.language import Fault, read_script
from model.modes import is_mode
from model.session import LONGEST_LINE, Refused, Session, parse, reply_bytes

HERE, READ, MOST_ENTRIES = '127.0.0.1', 4096, 65536
HISTORY_FULL = {'error': 'history-full', 'ok': False}


class Desk:
    """The session that all clients share, and how many entries its history has; one request is taken at a time."""

    def __init__(self, session, most):
        self.session, self.most, self.entries, self.lock = session, most, 0, threading.Lock()

    def take(self, request):
        """The reply to a request, which is an entry then, unless the history is full."""
        if self.entries == self.most:
            return HISTORY_FULL
        self.entries += 1
        return self.session.answer(request)

    def ask(self, request):
        """The same, under the lock."""
        with self.lock:
            return self.take(request)

    def answer(self, line):
        """The bytes of the reply to a line that isn't empty."""
        try:
            return reply_bytes(self.ask(parse(line, self.session.wide)))
        except Refused as refused:
            return reply_bytes(refused.reply())


def is_request(line, wide):
    try:
        return parse(line, wide) is not None
    except Refused:
        return False


class Lines:
    """Cuts what comes into lines; of one that is too long no more is kept than shows that it is."""

    def __init__(self):
        self.part = b''

    def ended(self, data):
        """The lines that end in what has come, each without its end."""
        *lines, part = (self.part + data).split(b'\n')
        self.part = part[:LONGEST_LINE + 2]
        return [line.removesuffix(b'\r') for line in lines]

    def last(self):
        """The line that has no end."""
        return [self.part]


class Seat:
    """A client: its connection, and the desk that answers it."""

    def __init__(self, desk, connection, number):
        self.desk, self.connection, self.number, self.lines, self.taken = desk, connection, number, Lines(), 0

    def run(self):
        """Serves the client until it leaves, or its device fails, which ends it alone."""
        try:
            self.serve()
        except OSError:
            self.failed()
        finally:
            self.connection.close()
            self.leave()

    def leave(self):
        """A terminal is told how many requests were taken."""
        if sys.stderr.isatty():
            os.write(2, f'client {self.number} left after {self.taken} request{"" if self.taken == 1 else "s"}\n'.encode())

    def failed(self):
        """A device of this client has failed."""

    def serve(self):
        while data := self.read():
            self.answer(self.lines.ended(data))
        self.answer(self.lines.last())

    def read(self):
        return self.connection.recv(READ)

    def answer(self, lines):
        for line in lines:
            if line:
                reply = self.desk.answer(line)
                self.taken += is_request(line, self.desk.session.wide) and reply != reply_bytes(HISTORY_FULL)
                self.write(reply)

    def write(self, reply):
        self.connection.sendall(reply)


class Server:
    """Serves so many clients, one after another accepted, each on a thread of its own."""

    def __init__(self, listener, desk, clients):
        self.listener, self.desk, self.clients = listener, desk, clients

    def run(self):
        self.tell(f'listening {self.listener.getsockname()[1]}')
        self.wait([self.begun(self.accepted(number)) for number in range(self.clients)])
        self.tell(f'served {self.desk.entries}')

    def tell(self, text):
        print(text, flush=True)

    def accepted(self, number):
        """The seat of the next client, of this number from 0, which a terminal is told."""
        connection, _ = self.listener.accept()
        if sys.stderr.isatty():
            os.write(2, f'client {number} of {self.clients} is here\n'.encode())
        return Seat(self.desk, connection, number)

    def begun(self, seat):
        """The thread that serves a seat."""
        thread = threading.Thread(target=seat.run)
        thread.start()
        return thread

    def wait(self, threads):
        """Waits until the clients have ended."""
        for thread in threads:
            thread.join()


def bound(port):
    """A listener on a port."""
    return socket.create_server((HERE, port))


class Ended(Exception):
    """The program ends with a line on standard error and a status."""

    def __init__(self, result):
        super().__init__()
        self.result = result


def session_of(words):
    """The session that the words ask for: mode, file and script are tested in this order."""
    if not is_mode(words.mode):
        raise Ended(BAD_MODE)
    text = file_content(words.file)
    if text is None:
        raise Ended(BAD_FILE)
    try:
        return Session(read_script(text), words.mode, words.wide)
    except Fault as fault:
        raise Ended(refusal(text, fault)) from None


def serve(words):
    """Serves the clients that the words ask for."""
    session = session_of(words)
    try:
        listener = bound(words.port)
    except OSError:
        raise Ended(BAD_FILE) from None
    Server(listener, Desk(session, words.history), words.clients).run()


def number_below(most):
    """What reads a number from 1 up to another."""
    def read(word):
        number = int(word)
        if not 1 <= number <= most:
            raise ValueError
        return number
    return read


def arguments():
    parser = argparse.ArgumentParser(description=__doc__, formatter_class=argparse.RawDescriptionHelpFormatter)
    parser.add_argument('--fault')
    parser.add_argument('--history', type=int, default=MOST_ENTRIES)
    served = parser.add_subparsers(dest='command', required=True).add_parser('serve')
    served.add_argument('file', metavar='FILE')
    served.add_argument('--mode', default=RENDEZVOUS, metavar='M')
    served.add_argument('--port', type=number_below(65535), required=True, metavar='P')
    served.add_argument('--clients', type=number_below(16), required=True, metavar='N')
    served.add_argument('--wide', action='store_true')
    return parser.parse_args()


def run(words):
    """Serves, and gives the status."""
    try:
        serve(words)
    except Ended as ended:
        sys.stderr.buffer.write(ended.result.errors)
        return ended.result.status
    except OSError:
        sys.stderr.buffer.write(BAD_FILE.errors)
        sys.stderr.flush()
        os._exit(BAD_FILE.status)
    return 0
