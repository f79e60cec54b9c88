#!/usr/bin/env python3
"""The processes of this machine, by /proc.

    .ci/processes.py end PROCESS    ends all processes below this one, those that have left its group among them: parents first
"""
import os
import signal
import sys


def listed():
    """The processes that haven't ended: for each its parent and its words."""
    found = {}
    for name in filter(str.isdigit, os.listdir('/proc')):
        try:
            with open(f'/proc/{name}/stat', encoding='utf-8', errors='replace') as it:
                state, parent = it.read().rpartition(')')[2].split()[:2]
            with open(f'/proc/{name}/cmdline', encoding='utf-8', errors='replace') as it:
                words = it.read().split('\0')
        except OSError:
            continue
        if state != 'Z':
            found[int(name)] = int(parent), words
    return found


def below(processes, top):
    """Those below this one, parents first."""
    found = [top]
    for at in found:
        found += [process for process, (parent, _) in processes.items() if parent == at]
    return found[1:]


def checks(processes, top):
    """How many checks at a time those below this one make: one each, or as many as their `--jobs` says. What a check starts is its own."""
    found, left = 0, [top]
    while left:
        at = left.pop()
        for process, (parent, words) in processes.items():
            if parent != at:
                continue
            if not words[0].endswith('/rattle'):
                left.append(process)
                continue
            said = words[words.index('--jobs') + 1] if '--jobs' in words[:-1] else ''
            found += int(said) if said.isdigit() else 1
    return found


def end(processes):
    for process in processes:
        try:
            os.kill(process, signal.SIGKILL)
        except OSError:
            pass


def main(words):
    if len(words) != 2 or words[0] != 'end' or not words[1].isdigit():
        print(__doc__)
        return 2
    found = listed()
    mine = {os.getpid(), *below(found, os.getpid())}
    end(it for it in below(found, int(words[1])) if it not in mine)
    return 0


if __name__ == '__main__':
    sys.exit(main(sys.argv[1:]))
