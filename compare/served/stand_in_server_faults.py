"""Faults of the stand-in of `serve`, as those of stand_in_faults.py: of how lines are cut, and of clients that come and leave, the port, and
what is said.
"""

import os
import socket
import time

from model.session import LONGEST_LINE
from served import stand_in, stand_in_faults
from served.stand_in import HERE, Lines, Seat, Server
from served.stand_in_faults import SOUND, Fault

# ---- lines

def dropped(self):
    """What drops a line that has no end."""
    return []


def one_part(self):
    """Lines that are cut from what all clients send together."""
    self.__dict__ = ALL_LINES


ALL_LINES = {'part': b''}


def gathered(self, data):
    """What keeps a long line as it comes."""
    self.all = getattr(self, 'all', bytearray())
    self.all += data
    if b'\n' not in data:
        return []
    *lines, part = bytes(self.all).split(b'\n')
    self.all = bytearray(part)
    return [line.removesuffix(b'\r') for line in lines]


def long_again(self, data):
    """What takes each part of a long line for a line."""
    lines = SOUND.ended(self, data)
    if len(self.part) > LONGEST_LINE:
        lines, self.part = [*lines, self.part], b''
    return lines


def long_ends(self, lines):
    """What ends a client whose line is too long."""
    if any(len(line) > LONGEST_LINE for line in lines):
        raise ConnectionError
    SOUND.seat_answer(self, lines)


def odd_ends(self, lines):
    """What ends a client whose bytes are no UTF-8."""
    try:
        b'\n'.join(lines).decode()
    except UnicodeDecodeError:
        raise ConnectionError from None
    SOUND.seat_answer(self, lines)


LINES = (
    Fault('a line without an end that is dropped', 'left in mid-line', Lines, 'last', dropped),
    Fault('lines of all clients together', 'a silent client', Lines, '__init__', one_part),
    Fault('a long line that is kept', 'a line without an end', Lines, 'ended', gathered),
    Fault('a long line answered in parts', 'a line without an end', Lines, 'ended', long_again),
    Fault('a client that ends with a long line', 'a line without an end', Seat, 'answer', long_ends),
    Fault('a client that ends with bytes that are no UTF-8', 'no UTF-8', Seat, 'answer', odd_ends))


# ---- the server

def all_end(self):
    """What ends the program where a client breaks off."""
    os.write(2, b'mpdbg: device\n')
    os._exit(3)


def told_of_client(self):
    """What tells on standard error that a client broke off."""
    os.write(2, b'mpdbg: device\n')


def in_turn(self, seat):
    """What serves each client before the next comes."""
    thread = SOUND.begun(self, seat)
    thread.join()
    return thread


def when_all_are_here(self):
    """What serves nobody before all have come."""
    self.tell(f'listening {self.listener.getsockname()[1]}')
    seats = [self.accepted(number) for number in range(self.clients)]
    self.wait([self.begun(seat) for seat in seats])
    self.tell(f'served {self.desk.entries}')


def wait_for(chosen):
    """What waits for one client alone."""
    def wait(self, threads):
        chosen(threads).join()
    return wait


def wait_for_one(self, threads):
    while all(thread.is_alive() for thread in threads):
        time.sleep(0.01)


def one_more(self):
    self.clients += 1
    SOUND.run(self)


def not_flushed(self, text):
    """What writes its first line with the last."""
    self.unwritten = getattr(self, 'unwritten', '') + f'{text}\n'
    if text.startswith('served'):
        print(self.unwritten, end='', flush=True)


def told_behind_the_first(self):
    told, self.tell = self.tell, lambda text: None
    first = self.accepted(0)
    self.tell = told
    self.tell(f'listening {self.listener.getsockname()[1]}')
    self.wait([self.begun(first), *(self.begun(self.accepted(number)) for number in range(1, self.clients))])
    self.tell(f'served {self.desk.entries}')


def told_to_all(self, number):
    """What tells of each client wherever standard error goes."""
    os.write(2, f'client {number} of {self.clients} is here\n'.encode())
    return SOUND.accepted(self, number)


def told_to_nobody(self, number):
    return Seat(self.desk, self.listener.accept()[0])


def on_all_addresses(port):
    return socket.create_server(('', port))


def on_both_loopbacks(port):
    other = socket.create_server(('::1', port), family=socket.AF_INET6)
    LISTENERS.append(other)
    return socket.create_server((HERE, port))


LISTENERS = []


def next_port(port):
    """What takes the next port where one is taken."""
    try:
        return socket.create_server((HERE, port))
    except OSError:
        return next_port(port + 1)


def before_the_script(words):
    """What takes the port before it looks at mode, file and script."""
    try:
        socket.create_server((HERE, words.port)).close()
    except OSError:
        raise stand_in.Ended(stand_in.BAD_FILE) from None
    return SOUND_SERVE(words)


def taken_is_usage(port):
    try:
        return socket.create_server((HERE, port))
    except OSError:
        raise stand_in.Ended(stand_in.BAD_FILE._replace(status=2)) from None


def any_number(most):
    return int


SOUND_SERVE = stand_in.serve
SERVER = (
    Fault('all end where a client breaks off', 'broken off', Seat, 'failed', all_end),
    Fault('a client that breaks off is told', 'broken off', Seat, 'failed', told_of_client),
    Fault('clients served in turn', 'a silent client', Server, 'begun', in_turn),
    Fault('clients served when all are here', 'clients one by one', Server, 'run', when_all_are_here),
    Fault('the end when the first has left', 'when all have left', Server, 'wait', wait_for(lambda threads: threads[0])),
    Fault('the end when the last has left', 'when all have left', Server, 'wait', wait_for(lambda threads: threads[-1])),
    Fault('the end when one has left', 'when all have left', Server, 'wait', wait_for_one),
    Fault('one client more', 'so many clients', Server, 'run', one_more),
    Fault('the first line not flushed', 'a dialogue', Server, 'tell', not_flushed),
    Fault('the first line behind the first client', 'a dialogue', Server, 'run', told_behind_the_first),
    Fault('clients told to no terminal', 'a dialogue', Server, 'accepted', told_to_all),
    Fault('a terminal told nothing', 'a terminal', Server, 'accepted', told_to_nobody),
    Fault('all addresses', 'one address', stand_in, 'bound', on_all_addresses),
    Fault('an address of the other kind', 'one address', stand_in, 'bound', on_both_loopbacks),
    Fault('the next port', 'a port that is taken', stand_in, 'bound', next_port),
    Fault('the port before the script', 'a port that is taken', stand_in, 'serve', before_the_script),
    Fault('a port that is taken as wrong words', 'a port that is taken', stand_in, 'bound', taken_is_usage),
    Fault('any number of clients', 'wrong words', stand_in, 'number_below', any_number))

FAULTS = (*stand_in_faults.FAULTS, *LINES, *SERVER)


def plant(name):
    """Puts a fault into the stand-in."""
    fault = next(fault for fault in FAULTS if fault.name == name)
    setattr(fault.owner, fault.attribute, fault.replacement)
