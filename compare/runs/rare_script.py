"""Writes a script whose runs are many, and of which few hang, or none (rare_cases.py).

    python3 compare/runs/rare_script.py hang --ranks 8           a script in which one run of seven hangs
    python3 compare/runs/rare_script.py races --races 4          four races of two senders each
"""

import argparse
import os
import sys

sys.path.insert(0, os.path.dirname(os.path.dirname(os.path.abspath(__file__))))

from cases.rare_cases import Hang, Races


def main():
    parser = argparse.ArgumentParser(description=__doc__, formatter_class=argparse.RawDescriptionHelpFormatter)
    parser.add_argument('kind', choices=['hang', 'races'])
    parser.add_argument('--ranks', type=int, default=8, help='how many ranks a hang has (8)')
    parser.add_argument('--before', type=int, default=1, help='how many choices among two senders stand in front of the one that decides (1)')
    parser.add_argument('--races', type=int, default=4, help='how many races (4)')
    parser.add_argument('--senders', type=int, default=2, help='how many senders each race has (2)')
    chosen = parser.parse_args()
    if chosen.kind == 'hang':
        print(Hang(chosen.ranks, chosen.before, named=chosen.ranks - 1).script(), end='')
    else:
        print(Races(chosen.races, chosen.senders, chosen.senders).script(), end='')


if __name__ == '__main__':
    main()
