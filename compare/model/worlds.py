"""What a world is made of: calls, ranks, the records of what was matched and who went on, and the steps that lead from one to the next."""

from typing import NamedTuple, Optional


class CallId(NamedTuple):
    """A call by its rank and its number among the calls of that rank."""
    rank: int
    number: int

    def __str__(self):
        return f'{self.rank}.{self.number}'


class Call(NamedTuple):
    """A send or receive made, which its rank waits for or not; a send has a value, a receive the cell it writes.

    A send is standard or synchronous. Of a receive `other` is None where it takes messages of any source, `tag` where it takes
    them of any tag; `status` has the cells for the source and the tag of what it takes, where it has such cells. `line` is that of
    the statement that made it, as of every call. A send is `buffered` as it is issued or never, in every mode; that stays.
    """
    kind: str
    blocks: bool
    other: Optional[int]
    tag: Optional[int]
    value: Optional[int] = None
    cell: Optional[int] = None
    status: Optional[tuple] = None
    synchronous: bool = False
    line: int = 0
    buffered: bool = False


class WaitCall(NamedTuple):
    """A wait made: the handle that it clears, and the number of the call that this handle had then, or None."""
    handle: int
    target: Optional[int]
    line: int = 0
    kind = 'wait'
    blocks = True


class WaitAnyCall(NamedTuple):
    """A wait for any made: the first of its handles and how many they are, the cell for which one it was, and whether one had a request
    then."""
    first: int
    count: int
    cell: int
    active: bool
    line: int = 0
    kind = 'waitany'
    blocks = True


class BarrierCall(NamedTuple):
    """A barrier, at which its rank is until all ranks are at one."""
    line: int = 0
    kind = 'barrier'
    blocks = True


class CollectiveCall(NamedTuple):
    """A collective, at which its rank is until those that it waits for are there; root and operation are None where its kind has none.

    `values` are what the rank gives, as it was when the call was issued: none, one, or one for each rank. `cell` is the first that takes what it
    gets.
    """
    kind: str
    root: Optional[int]
    operation: Optional[str]
    values: tuple
    cell: int
    line: int = 0
    blocks = True


class ProbeCall(NamedTuple):
    """A probe, at which its rank is until a send is there; source (`other`) and tag are None where they are any, as those of a receive, and
    `status` has the cells for what it is told, where it has such cells."""
    other: Optional[int]
    tag: Optional[int]
    status: Optional[tuple]
    line: int = 0
    kind = 'probe'
    blocks = True


class Rank(NamedTuple):
    """A rank; `rest` is None at the end, else (statement, rest); `mode` is running, blocked or trapped.

    `handles` has for each handle the number of a call, or None. `free` has the numbers of its sends and receives that
    are not matched, in the order of issue, and `slots` those of its buffered sends among them.
    """
    rest: Optional[tuple]
    cells: tuple
    handles: tuple
    calls: tuple
    free: tuple
    printed: tuple
    mode: str
    trap: Optional[str]
    slots: tuple = ()


class Pair(NamedTuple):
    """The record that a send and a receive were matched."""
    send: CallId
    receive: CallId


class Woken(NamedTuple):
    """The record that the rank of a call went on behind it."""
    call: CallId


class Released(NamedTuple):
    """The record that all ranks left the barriers that they were at."""


class World(NamedTuple):
    """The mode, all ranks, the records in the order they were made, and the partner of each call that is matched."""
    mode: str
    ranks: tuple
    records: tuple
    partners: dict

    def with_rank(self, number, rank):
        return self._replace(ranks=self.ranks[:number] + (rank,) + self.ranks[number + 1:])


class Step(NamedTuple):
    """A step: local or wake of a rank (`first`), wake of a rank by one of the handles that it waits for any of, by its place among them
    (`second`), or of one at a probe of any source, by the rank of the send that it is told of; match of a send (`first`) and a receive, or release."""
    kind: str
    first: object = None
    second: object = None
