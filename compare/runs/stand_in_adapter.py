"""A debug adapter in Python that stands for `mpdbg dap`: the model of it (model/adapter.py), which answers each message as it comes.

    python3 compare/runs/stand_in_adapter.py dap FILE [--mode M] [--witness WITNESS | --choices C [--ends]]

So an editor can be tried before there is a program. Before `dap` may stand `--log LOG`: what is read and written is added to that file.
"""

import argparse
import os
import sys

sys.path.insert(0, os.path.dirname(os.path.dirname(os.path.abspath(__file__))))

from model.adapter import Adapter, error_of
from model.console import Console, NamedRun, begun, witness_text
from model.debugger import RENDEZVOUS, file_content
from model.frames import CUT_OFF, WHOLE, body_length, frames_of, header_end

# What can be asked of a file at a time.
PIECE = 65536


def arguments():
    parser = argparse.ArgumentParser(description=__doc__, formatter_class=argparse.RawDescriptionHelpFormatter)
    parser.add_argument('--log')
    parser.add_argument('command', choices=['dap'])
    parser.add_argument('file')
    parser.add_argument('--mode', default=RENDEZVOUS)
    parser.add_argument('--witness')
    parser.add_argument('--choices')
    parser.add_argument('--ends', action='store_true')
    return parser.parse_args()


def logged(path, mark, data):
    """Adds what is read or written to a log, if there is one."""
    if path is not None:
        with open(path, 'ab') as file:
            file.write(mark + data + b'\n')


def first_frame(data):
    """How many bytes the first frame of some has, which is there whole, and its body."""
    begun = header_end(data, 0)
    ended = begun + body_length(data[:begun].split(b'\r\n'))
    return ended, data[begun:ended]


def talk(adapter, log):
    """Answers each frame as it comes; how the input has ended."""
    held = b''
    while not adapter.is_over:
        bodies, end = frames_of(held)
        if bodies:
            length, body = first_frame(held)
            held, told = held[length:], adapter.answer(body)
            logged(log, b'> ', body)
            logged(log, b'< ', told)
            sys.stdout.buffer.write(told)
            sys.stdout.buffer.flush()
            continue
        piece = os.read(0, PIECE) if end in (WHOLE, CUT_OFF) else b''
        if not piece:
            return end
        held += piece
    return WHOLE


def main():
    asked = arguments()
    run = None if asked.choices is None else NamedRun(asked.choices, asked.ends)
    there = begun(file_content(asked.file), asked.mode, witness_text(asked.witness), run)
    if not isinstance(there, Console):
        sys.stderr.buffer.write(there.errors)
        return there.status
    end = talk(Adapter(there), asked.log)
    sys.stderr.buffer.write(error_of(end))
    return 0 if end == WHOLE else 3


if __name__ == '__main__':
    sys.exit(main())
