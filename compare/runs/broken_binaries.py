"""Tries the comparison against broken programs: the built program with one instruction of its own changed.

    python3 compare/runs/broken_binaries.py PROGRAM

Of the functions of this repository (found by their names with objdump) some instructions are drawn: a jump, a set or a move
on a condition gets the opposite condition, a number that is compared, moved, added or tested gets one more or one less. Each
broken program runs on the inputs of compare/runs/run.py until one shows a difference. What is missed is listed with its function,
for somebody to look at: dead code, an equal program, or inputs that are wanting. It is no part of the gate.
"""

import argparse
import os
import random
import re
import subprocess
import sys
import tempfile
from collections import Counter
from concurrent.futures import ProcessPoolExecutor
from typing import NamedTuple

sys.path.insert(0, os.path.dirname(os.path.dirname(os.path.abspath(__file__))))

from cases.kinds import KINDS_OF_1, random_case, shares
from runs.run import expected, run
from started.programs import limit

FUNCTION = re.compile(r'^([0-9a-f]+) <(.*)>:$')
INSTRUCTION = re.compile(r'^\s+([0-9a-f]+):\t((?:[0-9a-f]{2} )+)\s*\t?(\S*)\s*(.*)$')
# Functions whose name has one of these are the repository's own.
OWN = ('mpd_', 'mpdbg::')
NOTICED, UNSEEN, UNREACHED = 'noticed', 'missed', 'never reached'
KINDS_OF_CHANGES = CONDITION, COMPARED, OTHER = 'conditions', 'numbers that are compared', 'other numbers'
# An instruction that kills the program where it comes there.
BREAKPOINT = 0xcc


class Change(NamedTuple):
    """One byte of the program that is changed, at a place of its file, in an instruction that starts at another."""
    address: int
    start: int
    place: int
    before: int
    after: int
    function: str
    instruction: str

    @property
    def kind(self):
        """Which of the kinds of changes this is."""
        if self.before ^ self.after == 1 and '$' not in self.instruction:
            return CONDITION
        return COMPARED if self.instruction.startswith(('cmp', 'test')) else OTHER


def listed(program):
    """Address, bytes, word and operands of each instruction of the repository's own functions, and the function."""
    command = ['objdump', '-d', '-w', '--section=.text', program]
    text = subprocess.run(command, capture_output=True, text=True, check=True).stdout
    function = ''
    for line in text.splitlines():
        if found := FUNCTION.match(line):
            function = found.group(2)
        elif (found := INSTRUCTION.match(line)) and any(own in function for own in OWN):
            address, data, word, operands = found.groups()
            yield int(address, 16), bytes.fromhex(data), word, operands, function


def opcode_place(data):
    """Where the opcode stands, behind prefixes, and whether those say 16 and 64 bits."""
    place = int(data[0] == 0x66)
    has_rex = data[place] >> 4 == 0x4
    return place + has_rex, place == 1, has_rex and data[place] & 8 != 0


def condition_place(data):
    """The byte of an instruction that has its condition in the lowest bit, if there is one."""
    place, _, _ = opcode_place(data)
    if data[place] >> 4 == 0x7:
        return place
    return place + 1 if data[place] == 0x0f and data[place + 1] >> 4 in (0x4, 0x8, 0x9) else None


SHORT = frozenset([0x04, 0x0c, 0x14, 0x1c, 0x24, 0x2c, 0x34, 0x3c, 0x6a, 0x6b, 0x80, 0x83, 0xa8, *range(0xb0, 0xb8), 0xc0, 0xc1,
                   0xc6, 0xf6])
LONG = frozenset([0x05, 0x0d, 0x15, 0x1d, 0x25, 0x2d, 0x35, 0x3d, 0x69, 0x81, 0xa9, *range(0xb8, 0xc0), 0xc7, 0xf7])


def number_place(data, operands):
    """The lowest byte of the number in an instruction, which stands at its end, if there is one."""
    if not operands.startswith('$'):
        return None
    place, is_short, is_long = opcode_place(data)
    if data[place] in SHORT:
        return len(data) - 1
    if data[place] not in LONG:
        return None
    if is_long and 0xb8 <= data[place] <= 0xbf:
        return len(data) - 8
    return len(data) - (2 if is_short else 4)


def changes_of(program, offset):
    """Each change that can be made; `offset` is what to add to an address for a place in the file."""
    for address, data, word, operands, function in listed(program):
        instruction = f'{word} {operands}'.strip()
        place = condition_place(data)
        if place is not None:
            yield Change(address, address + offset, address + offset + place, data[place], data[place] ^ 1, function,
                         instruction)
        place = number_place(data, operands)
        if place is not None:
            for after in (data[place] + 1, data[place] - 1):
                if 0 <= after <= 255:
                    yield Change(address, address + offset, address + offset + place, data[place], after, function,
                                 instruction)


def text_offset(program):
    """The place of .text in the file, less its address."""
    text = subprocess.run(['objdump', '-h', '-w', program], capture_output=True, text=True, check=True).stdout
    fields = re.search(r'\s\.text\s+(.*)', text).group(1).split()
    return int(fields[3], 16) - int(fields[1], 16)


class Trial(NamedTuple):
    """What is run against each broken program: cases with what is wanted."""
    cases: list
    wanted: list
    seconds: float


TRIAL = None


def prepare(chosen):
    global TRIAL
    limit(chosen.memory, chosen.output)
    cases = [random_case(kind, chosen.seed, number, False)
             for kind, count in shares(chosen.count, KINDS_OF_1).items() for number in range(count)]
    random.Random(chosen.seed).shuffle(cases)
    TRIAL = Trial(cases, [expected(case) for case in cases], chosen.seconds)


def differs(program, place, byte):
    """Whether the program with another byte at a place of its file differs on an input."""
    with open(program, 'rb') as file:
        data = bytearray(file.read())
    data[place] = byte
    with tempfile.TemporaryDirectory() as folder:
        path = os.path.join(folder, 'broken')
        with open(path, 'wb') as file:
            file.write(data)
        os.chmod(path, 0o755)
        return any(run(path, case, TRIAL.seconds) != wanted for case, wanted in zip(TRIAL.cases, TRIAL.wanted))


def found(program, change):
    """What becomes of a change: it is noticed, or changes nothing that is seen, or no input comes to its instruction."""
    if differs(program, change.place, change.after):
        return NOTICED
    return UNSEEN if differs(program, change.start, BREAKPOINT) else UNREACHED


def arguments():
    parser = argparse.ArgumentParser(description=__doc__, formatter_class=argparse.RawDescriptionHelpFormatter)
    parser.add_argument('program', metavar='PROGRAM')
    parser.add_argument('--broken', type=int, default=100, help='how many broken programs (100)')
    parser.add_argument('--count', type=int, default=2000, help='inputs for each, as of compare/runs/run.py (2000)')
    parser.add_argument('--seed', type=int, default=1)
    parser.add_argument('--kind', choices=KINDS_OF_CHANGES, help='only changes of this kind')
    parser.add_argument('--function', default='', help='only functions whose name has this')
    parser.add_argument('--jobs', type=int, default=2)
    parser.add_argument('--seconds', type=float, default=3, help='how long one input may take (3)')
    parser.add_argument('--memory', type=int, default=2048, help='in MiB (2048)')
    parser.add_argument('--output', type=int, default=64, help='in MiB (64)')
    chosen = parser.parse_args()
    chosen.program = os.path.abspath(chosen.program)
    return chosen


def main():
    chosen = arguments()
    changes = [change for change in changes_of(chosen.program, text_offset(chosen.program))
               if chosen.function in change.function and chosen.kind in (None, change.kind)]
    drawn = random.Random(chosen.seed).sample(changes, min(chosen.broken, len(changes)))
    counts = {kind: Counter() for kind in KINDS_OF_CHANGES}
    with ProcessPoolExecutor(chosen.jobs, initializer=prepare, initargs=(chosen,)) as pool:
        for change, what in zip(drawn, pool.map(found, [chosen.program] * len(drawn), drawn)):
            counts[change.kind][what] += 1
            if what != NOTICED:
                print(f'{what}: {change.address:x} {change.instruction}: {change.before:02x} -> {change.after:02x} '
                      f'in {change.function}', flush=True)
    print(f'{len(changes)} changes can be made; {len(drawn)} were tried')
    for kind, count in counts.items():
        told = ', '.join(f'{count[what]} {what}' for what in (NOTICED, UNSEEN, UNREACHED))
        print(f'{kind}: {count.total()} tried, {told}')
    return 0


if __name__ == '__main__':
    sys.exit(main())
