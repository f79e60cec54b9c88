"""The files that a program is run with: in memory, full, closed, broken off, too short, or a terminal."""

import os
import resource
import signal
import socket
import tty
from contextlib import contextmanager

from model.debugger import Result
from started.programs import action, content, file_of, status_of

SECONDS = 60


def refused(fault):
    return Result(b'', b'mpdbg: script refused ' + fault + b'\n', 2)


@contextmanager
def soft_limit(kind, number):
    """Has what is started get a limit, and this process its own again."""
    soft, hard = resource.getrlimit(kind)
    resource.setrlimit(kind, (number, hard))
    try:
        yield
    finally:
        resource.setrlimit(kind, (soft, hard))


class Files:
    """The three files of a run: a number, or None for a closed one; those in memory are read when it has ended."""

    def __init__(self, reading, output='memory', errors='memory'):
        self.numbers = [reading, *(os.memfd_create('written') if file == 'memory' else file for file in (output, errors))]

    def run(self, *words, **variables):
        """Runs a program with its words, and gives what it wrote to each of the two files, where that is in memory."""
        actions = [action(place, number) for place, number in enumerate(self.numbers)]
        process = os.posix_spawnp(words[0], words, {**os.environ, **variables}, file_actions=actions,
                                 setsigdef=(signal.SIGPIPE,))
        handle = os.pidfd_open(process)
        status = status_of(process, handle, SECONDS)
        written = [b'' if number is None or not is_memory(number) else content(number) for number in self.numbers[1:]]
        for number in [handle, *self.numbers]:
            if number is not None:
                os.close(number)
        return Result(*written, status)


def is_memory(number):
    return '/memfd:written' in os.readlink(f'/proc/self/fd/{number}')


def full():
    """A device that takes no byte."""
    return os.open('/dev/full', os.O_WRONLY)


def unread_pipe():
    """The writing end of a pipe that nobody reads any more."""
    reading, writing = os.pipe()
    os.close(reading)
    return writing


def broken_off(data):
    """A connection that brings the bytes and then fails, since its other side left with bytes that it hadn't read."""
    ours, theirs = socket.socketpair()
    theirs.sendall(b'unread')
    ours.sendall(data)
    ours.close()
    return theirs.detach()


def device(output=b''):
    return Result(output, b'mpdbg: device\n', 3)


def file_of_any_size(data):
    """A pipe that brings the bytes, for a process that may write no file."""
    reading, writing = os.pipe()
    os.write(writing, data)
    os.close(writing)
    return reading


def rest_told(terminal):
    """What a terminal is told up to its end; it is closed then."""
    said = b''
    try:
        while piece := os.read(terminal, 1 << 16):
            said += piece
    except OSError:
        pass
    os.close(terminal)
    return said


def at_terminal(program, *words, data=b'', reading=None, output='memory', **variables):
    """A run whose standard error is a terminal, which passes each byte as it is."""
    ours, theirs = os.openpty()
    tty.setraw(theirs)
    reading = file_of(data) if reading is None else reading
    result = Files(reading, output, errors=os.dup(theirs)).run(program, *words, **variables)
    os.close(theirs)
    return result._replace(errors=rest_told(ours))
