"""Runs a program on an input, within limits of time, memory and output."""

import os
import resource
import select
import signal
import threading

from model.debugger import Result

MIB = 1 << 20


def limit(memory, output):
    """Limits what this process, and what it starts, may take and write, in MiB; nothing dumps its core."""
    resource.setrlimit(resource.RLIMIT_AS, (memory * MIB, resource.getrlimit(resource.RLIMIT_AS)[1]))
    resource.setrlimit(resource.RLIMIT_FSIZE, (output * MIB, resource.getrlimit(resource.RLIMIT_FSIZE)[1]))
    resource.setrlimit(resource.RLIMIT_CORE, (0, resource.getrlimit(resource.RLIMIT_CORE)[1]))


def file_of(data):
    """A file in memory that holds the bytes, to be read from its start."""
    number = os.memfd_create('input')
    view = memoryview(data)
    while view:
        view = view[os.write(number, view):]
    os.lseek(number, 0, os.SEEK_SET)
    return number


def content(number):
    """What a file holds."""
    pieces = []
    place = 0
    while piece := os.pread(number, MIB, place):
        pieces.append(piece)
        place += len(piece)
    return b''.join(pieces)


def action(place, number):
    """What makes a file, or none at all, that of a place in the program that is started."""
    return (os.POSIX_SPAWN_CLOSE, place) if number is None else (os.POSIX_SPAWN_DUP2, number, place)


def status_of(process, handle, seconds):
    """The status of a process when it has ended; where that isn't in time, it is killed."""
    poll = select.poll()
    poll.register(handle, select.POLLIN)
    if not poll.poll(seconds * 1000):
        signal.pidfd_send_signal(handle, signal.SIGKILL)
    return os.waitstatus_to_exitcode(os.waitpid(process, 0)[1])


class Started:
    """A program that was started; its output is a file in memory, so that it never waits for us."""

    def __init__(self, program, reading, environment=None, words=()):
        self.output = os.memfd_create('output')
        self.errors = os.memfd_create('errors')
        actions = [action(place, number) for place, number in enumerate((reading, self.output, self.errors))]
        self.process = os.posix_spawn(program, [program, *words], os.environ if environment is None else environment,
                                      file_actions=actions, setsigdef=(signal.SIGPIPE, signal.SIGXFSZ))
        self.handle = os.pidfd_open(self.process)
        os.close(reading)

    def kill(self):
        signal.pidfd_send_signal(self.handle, signal.SIGKILL)

    def result(self, seconds):
        """What the program gives; where it doesn't end in time it is killed, which its status tells."""
        status = status_of(self.process, self.handle, seconds)
        result = Result(content(self.output), content(self.errors), status)
        for number in (self.handle, self.output, self.errors):
            os.close(number)
        return result


def run_at_once(program, data, seconds, environment=None, words=()):
    """The result for an input that is a file, with the words of the command line."""
    return Started(program, file_of(data), environment, words).result(seconds)


def run_in_packets(program, packets, seconds, words=(), environment=None):
    """The result for an input that is a pipe, with the words of the command line; each packet is one read of the program."""
    reading, writing = os.pipe2(os.O_DIRECT | os.O_CLOEXEC)
    started = Started(program, reading, environment, words)
    watch = threading.Timer(seconds, started.kill)
    watch.start()
    try:
        for packet in packets:
            os.write(writing, packet)
    except BrokenPipeError:
        pass
    finally:
        watch.cancel()
        watch.join()
        os.close(writing)
    return started.result(seconds)
