"""What calls carry, as records have it: so many values of types that MPI names (signatures.h)."""

import re
from typing import List, NamedTuple, Optional, Tuple

# What fits anything of the same length: bytes that are packed, or have no type.
UNTYPED = ('BYTE', 'PACKED')
LETTERS = ('CHAR', 'SIGNED_CHAR', 'UNSIGNED_CHAR', 'CHARACTER', 'INT8_T', 'UINT8_T')
PAIR = re.compile(r'\w+_INT$|2\w+$')
SORTS = ((re.compile(r'.*COMPLEX'), 'complex'), (re.compile(r'(LONG_)?(FLOAT|DOUBLE)|REAL|DOUBLE_PRECISION'), 'real'),
         (re.compile(r'LOGICAL|.*BOOL'), 'logical'), (re.compile(r'U(INT\d|NSIGNED)'), 'unsigned'))
EACH = '*'
MOST_RUNS = 4096


class Values(NamedTuple):
    """Values of one type, one after another: what sort of type it is, the bytes of each, and how many."""
    sort: str
    size: int
    count: int


def sort_of(name: str) -> str:
    """What a type is of; types of one sort and size fit one another, whatever language names them."""
    name = name.removeprefix('MPI_').removeprefix('CXX_').removeprefix('C_')
    if name in UNTYPED:
        return ''
    if name in LETTERS:
        return 'letter'
    if PAIR.match(name) and not name.startswith(('UNSIGNED', 'LONG_LONG')):
        return name
    return next((sort for pattern, sort in SORTS if pattern.match(name)), 'integer')


class Signature:
    """What a call sends or takes."""

    def __init__(self, text: str):
        count, _, runs = text.partition(':')
        self.count: Optional[int] = None if count == EACH else int(count)
        rows = [run.split('/') for run in runs.split(',')]
        self.named: List[Tuple[str, int]] = [(name, int(times)) for name, _, times in rows]
        self.row = [Values(sort_of(name), int(size), int(times)) for name, size, times in rows]

    def told(self) -> str:
        """What is carried, as pages tell it."""
        if len(self.named) == 1:
            name, times = self.named[0]
            return name if self.count is None else f'{self.count * times} {name}'
        told = ', '.join(f'{times} {name}' for name, times in self.named)
        return f'({told})' if self.count in (None, 1) else f'{self.count} times ({told})'

    @property
    def is_untyped(self) -> bool:
        return any(not values.sort for values in self.row)

    def values(self) -> Optional[List[Values]]:
        """All that is carried, in order; None if that isn't known, or is long."""
        if self.count is None or self.is_untyped:
            return None
        if len(self.row) == 1:
            return [self.row[0]._replace(count=self.row[0].count * self.count)] if self.count else []
        return self.row * self.count if self.count * len(self.row) <= MOST_RUNS else None

    def bytes(self) -> Optional[int]:
        return None if self.count is None else self.count * sum(values.size * values.count for values in self.row)


def fits(sent: List[Values], taken: List[Values]) -> bool:
    """Whether what is sent is what is taken, as far as both go."""
    sent, taken = list(sent), list(taken)
    while sent and taken:
        one, other = sent.pop(), taken.pop()
        if one[:2] != other[:2]:
            return False
        rest = one.count - other.count
        if rest > 0:
            sent.append(one._replace(count=rest))
        elif rest < 0:
            taken.append(other._replace(count=-rest))
    return True


def are_a_message(sent: Signature, taken: Signature) -> bool:
    """Whether a message may be received so: the types must be the same, and less may come than there is room for."""
    values = sent.values(), taken.values()
    return None in values or fits(values[0][::-1], values[1][::-1])


def are_alike(found: List[Signature]) -> bool:
    """Whether all ranks carry the same in one collective; the types alone if some has so many for each rank."""
    has_each = any(signature.count is None for signature in found)
    return all(is_like(found[0], other, has_each) for other in found[1:])


def is_like(one: Signature, other: Signature, has_each: bool) -> bool:
    """Whether two are of the same types, and of the same amounts if these are not of each rank."""
    if one.is_untyped or other.is_untyped:
        return has_each or one.bytes() == other.bytes()
    if has_each:
        return {values[:2] for values in one.row} == {values[:2] for values in other.row}
    values = one.values(), other.values()
    return None in values or one.bytes() == other.bytes() and fits(values[0][::-1], values[1][::-1])
