"""Scripts whose runs are many: races that share nothing, and hangs that few runs come to.

A depth-first walk varies the last choices first. Of a rare hang it is an early choice that decides, behind which stand so many others that
the first thousand runs never come to another one; so a walk of few runs misses it, and runs that choose at random find it soon.
"""

from typing import NamedTuple


class Hang(NamedTuple):
    """A script in which rank 0 takes messages of any source, and then waits for one rank by name, whose message it may have taken before.

    In front of the choice that decides stand others, among two senders each. Leaders are taken of any source one after another, and it hangs
    where the last of these is the rank that is waited for: so do as many runs as one of all ranks but the first, where each candidate is taken
    as often as the others. Behind it each rank sends once more, and these messages are taken in whatever order.
    """
    ranks: int = 8
    before: int = 1
    leaders: int = 1
    named: int = 7
    word: str = 'send'

    def script(self):
        before = ' '.join(['recv x from any tag 2;'] * 2 * self.before)
        leaders = ' '.join(f'recv led[{number}] from any tag 0;' for number in range(self.leaders))
        others = ' && '.join([*(f'i != led[{number}]' for number in range(self.leaders)), f'i != {self.named}'])
        sends = ' '.join([f'{self.word} rank to 0 tag 2;'] * self.before)
        return (f'mpd 1;\nranks {self.ranks};\nvar x;\nvar i;\nvar led[{self.leaders}];\n'
                f'if rank == 0 {{\n  {before}\n  {leaders}\n  i = 1;\n  while i < size {{\n    if {others} {{ recv x from i tag 0; }}\n'
                f'    i = i + 1;\n  }}\n  {self.mistake()}\n  i = 1;\n  while i < size {{ recv x from any tag 1; i = i + 1; }}\n'
                f'}} else {{\n  if rank < 3 {{ {sends} }}\n  {self.word} rank to 0 tag 0;\n  {self.word} rank to 0 tag 1;\n}}\n')

    def mistake(self):
        """What waits for the rank, but where it was taken before the last leader, of which the script has thought."""
        wait = f'recv x from {self.named} tag 0;'
        earlier = ' && '.join(f'led[{number}] != {self.named}' for number in range(self.leaders - 1))
        return f'if {earlier} {{ {wait} }}' if earlier else wait


def hang(random):
    """One of 8 or 12 ranks."""
    ranks = random.choice([8, 12])
    return Hang(ranks, random.choice([1, 2]), random.choice([1, 1, 2, 3]), random.randrange(3, ranks), random.choice(['send', 'ssend']))


class Races(NamedTuple):
    """Races that share no call: each has a receiver of any source, so many senders, and as many messages are received of each race."""
    races: int
    senders: int = 2
    receives: int = 2

    def script(self):
        size = self.senders + 1
        receives = ' '.join(['recv x from any tag 0;'] * self.receives)
        return (f'mpd 1;\nranks {self.races * size};\nvar x;\n'
                f'if rank % {size} == 0 {{ {receives} }} else {{ send rank to rank - rank % {size} tag 0; }}\n')


FEW_RACES = (Races(2), Races(2, 2, 1), Races(3, 2, 1), Races(2, 3, 1), Races(1, 3, 3), Races(1, 3, 2), Races(2, 1, 1), Races(3, 1, 1))


def races(random):
    """Few of them, of few senders, which a model can explore."""
    return random.choice(FEW_RACES)
