"""A client of a session that is served on a port: it asks, reads, is silent, leaves or breaks off, each within a time."""

import select
import socket
import struct
import time

HERE = '127.0.0.1'
MIB = 1 << 20
# A close that sends no end, but breaks the connection off.
BREAK_OFF = struct.pack('ii', 1, 0)


class Wrong(Exception):
    """Something is not as it must be."""


def shortened(value):
    text = value if isinstance(value, str) else repr(value)
    return text if len(text) < 300 else f'{text[:200]} .. {text[-80:]}'


def must_be(said, wanted, what):
    if said != wanted:
        raise Wrong(f'{what}: {shortened(said)}, and not {shortened(wanted)}')


class Client:
    """A connection, what was read of it and not looked at yet, and how many replies came."""

    def __init__(self, port, until, receiving=None):
        self.until, self.came, self.replies, self.is_open = until, b'', 0, True
        self.socket = socket.socket()
        if receiving is not None:
            self.socket.setsockopt(socket.SOL_SOCKET, socket.SO_RCVBUF, receiving)
        self.socket.setsockopt(socket.IPPROTO_TCP, socket.TCP_NODELAY, 1)
        self.wait_until(until)
        self.socket.connect((HERE, port))

    def wait_until(self, until):
        self.socket.settimeout(max(0.001, until - time.monotonic()))

    def send(self, data):
        """Sends bytes, or a text."""
        self.wait_until(self.until)
        try:
            self.socket.sendall(data.encode() if isinstance(data, str) else data)
        except TimeoutError:
            raise Wrong('nothing is taken from a client') from None

    def read(self, until=None):
        """Reads what comes next: nothing where the connection has ended, None where nothing has come until then."""
        self.wait_until(self.until if until is None else until)
        try:
            piece = self.socket.recv(MIB)
        except TimeoutError:
            return None
        self.came += piece
        return piece

    def line(self):
        """The next reply, without its line feed."""
        while b'\n' not in self.came:
            piece = self.read()
            if not piece:
                raise Wrong(f'no reply, but {"silence" if piece is None else "the end"} behind {self.replies} replies and {self.came!r}')
        line, _, self.came = self.came.partition(b'\n')
        self.replies += 1
        return line

    def ask(self, line):
        """The reply to a line, as a text."""
        self.send(f'{line}\n')
        return self.line().decode()

    def must(self, line, reply):
        """A line that must be answered so."""
        must_be(self.ask(line), reply, line)

    def must_be_silent(self, seconds=0.15):
        """No reply comes for so long."""
        if self.came or self.read(time.monotonic() + seconds) is not None:
            raise Wrong(f'a reply to nothing: {self.came!r}')

    def rest(self):
        """All that comes up to the end."""
        while (piece := self.read()) != b'':
            if piece is None:
                raise Wrong(f'a connection does not end behind {self.came!r}')
        rest, self.came = self.came, b''
        self.replies += rest.count(b'\n')
        return rest.decode()

    def exchange(self, data, count):
        """Sends bytes while it reads, until so many replies have come: these, and when each had come."""
        poll, view, replies = select.poll(), memoryview(data), []
        poll.register(self.socket, select.POLLIN | select.POLLOUT)
        while view or len(replies) < count:
            ready = poll.poll(max(0, self.until - time.monotonic()) * 1000)
            if not ready:
                raise Wrong(f'{count - len(replies)} of {count} replies have not come')
            if ready[0][1] & ~select.POLLOUT:
                if not self.read():
                    raise Wrong(f'the end behind {len(replies)} of {count} replies')
                replies += self.cut(time.monotonic())
            elif view:
                view = view[self.socket.send(view[:MIB]):]
            if not view:
                poll.modify(self.socket, select.POLLIN)
        return replies

    def cut(self, now):
        """The replies that have come whole, each with a time."""
        *lines, self.came = self.came.split(b'\n')
        self.replies += len(lines)
        return [(line, now) for line in lines]

    def send_what_is_taken(self, data, seconds=0.5):
        """Sends as many of the bytes as are taken, reading nothing, until none are for so long: how many they were."""
        view = memoryview(data)
        while view:
            self.wait_until(time.monotonic() + seconds)
            try:
                view = view[self.socket.send(view):]
            except TimeoutError:
                break
        return len(data) - len(view)

    def shut(self):
        """Ends what is sent; replies can still be read."""
        self.socket.shutdown(socket.SHUT_WR)

    def leave(self):
        self.socket.close()

    def break_off(self):
        """Leaves so that the other side is told of no end, but of a failure."""
        self.socket.setsockopt(socket.SOL_SOCKET, socket.SO_LINGER, BREAK_OFF)
        self.leave()
