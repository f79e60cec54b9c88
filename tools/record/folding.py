"""Repeated blocks of statements become loops, so that a run of many turns has a script of few lines."""

from typing import List, NamedTuple

LONGEST_BLOCK = 64
LEAST_SAVED = 3


class Line(NamedTuple):
    """A line of a script: its statement and its mark."""
    text: str
    mark: str = ''


def turns(lines: List[Line], start: int, length: int) -> int:
    """How often the block of so many lines stands there, one after the other."""
    block, count = lines[start:start + length], 1
    while lines[start + count * length:start + (count + 1) * length] == block:
        count += 1
    return count


def folded(lines: List[Line]) -> List[Line]:
    """The lines of a rank, where a block that repeats is a loop if that saves lines; the longest first."""
    found, start = [], 0
    while start < len(lines):
        lengths = range(1, min(LONGEST_BLOCK, (len(lines) - start) // 2) + 1)
        repeated = ((turns(lines, start, length), length) for length in lengths if lines[start] == lines[start + length])
        count, length = max(repeated, key=lambda pair: (pair[0] > 1) * pair[0] * pair[1], default=(1, 1))
        if (count - 1) * length > LEAST_SAVED:
            block = lines[start:start + length]
            found += [Line('i = 0;'), Line(f'while i < {count} {{'), *block, Line('i = i + 1;'), Line('}')]
            start += count * length
        else:
            found.append(lines[start])
            start += 1
    return found
