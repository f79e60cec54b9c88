"""The lines of a page, and words that many of them have."""

from dataclasses import dataclass, field
from typing import List


@dataclass
class Page:
    """What is told of a run, a line each, with the word that it begins by."""
    lines: List[str] = field(default_factory=list)
    is_bad: bool = False

    def tell(self, word: str, text: str, is_bad: bool = False) -> None:
        self.lines.append(f'{word:<9} {text}' if word else f'{"":<9}   {text}')
        self.is_bad = self.is_bad or is_bad

    def has(self, word: str) -> bool:
        """Whether something is told by this word."""
        return any(line.startswith(f'{word} ') for line in self.lines)


def numbers_told(numbers: List[int]) -> str:
    """Numbers as they are told: those that follow one another from the first to the last."""
    rows: List[List[int]] = []
    for number in sorted(set(numbers)):
        if rows and rows[-1][-1] == number - 1:
            rows[-1].append(number)
        else:
            rows.append([number])
    return ', '.join(f'{row[0]} to {row[-1]}' if len(row) > 2 else ', '.join(map(str, row)) for row in rows)


def ranks_of(ranks: List[int]) -> str:
    return ('rank ' if len(set(ranks)) == 1 else 'ranks ') + numbers_told(ranks)


def tags_of(tags: List[int]) -> str:
    return ('tags ' if len(set(tags)) > 1 else 'tag ') + numbers_told(tags)


def times_told(count: int) -> str:
    """How often something is, after it; nothing if it is once."""
    return f', {count} times' if count > 1 else ''
