"""Runs a program that is asked line by line: the next line is written only when the reply to the one before it has come."""

import os
import select
import signal
import time

from model.debugger import Result
from started.programs import MIB, action, content, status_of


class Silent(Exception):
    """No reply came in time, or the program has ended."""


class Talking:
    """A program that was started, which is written to and read from by pipes."""

    def __init__(self, program, words, environment=None):
        reading, self.writing = os.pipe2(os.O_CLOEXEC)
        self.replies, replying = os.pipe2(os.O_CLOEXEC)
        self.errors = os.memfd_create('errors')
        actions = [action(place, number) for place, number in enumerate((reading, replying, self.errors))]
        self.process = os.posix_spawn(program, [program, *words], os.environ if environment is None else environment, file_actions=actions,
                                      setsigdef=(signal.SIGPIPE, signal.SIGXFSZ))
        self.handle = os.pidfd_open(self.process)
        os.close(reading)
        os.close(replying)
        self.output, self.is_open = b'', True

    def read(self, until):
        """Reads what is there, or waits for it until then; nothing is there where the program has ended."""
        poll = select.poll()
        poll.register(self.replies, select.POLLIN)
        if not poll.poll(max(0, until - time.monotonic()) * 1000):
            raise Silent
        piece = os.read(self.replies, MIB)
        self.output += piece
        return piece

    def ask(self, data, count, until):
        """Writes some bytes, and reads until there are so many replies in all."""
        view = memoryview(data)
        while view:
            view = view[os.write(self.writing, view):]
        while self.output.count(b'\n') < count:
            if not self.read(until):
                raise Silent

    def end(self):
        """Ends the input."""
        if self.is_open:
            os.close(self.writing)
            self.is_open = False

    def result(self, until):
        """What the program gave behind the end of its input."""
        self.end()
        try:
            while self.read(until):
                pass
        except Silent:
            signal.pidfd_send_signal(self.handle, signal.SIGKILL)
        status = status_of(self.process, self.handle, max(0, until - time.monotonic()))
        found = Result(self.output, content(self.errors), status)
        for number in (self.handle, self.replies, self.errors):
            os.close(number)
        return found


def answered(piece):
    """How many lines of a piece are answered before the input ends: those that end in a line feed, and aren't empty."""
    return sum(line not in (b'', b'\r') for line in piece.split(b'\n')[:-1])


def run_in_turns(program, pieces, seconds, words=(), environment=None):
    """The result for an input of which each piece is written when all lines before it are answered."""
    talking, until = Talking(program, words, environment), time.monotonic() + seconds
    count = 0
    try:
        for piece in pieces:
            count += answered(piece)
            talking.ask(piece, count, until)
    except (Silent, BrokenPipeError):
        pass
    return talking.result(until)
