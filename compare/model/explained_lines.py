"""What must hold of a report with explanations, whatever these say: where they stand, and that all else is as without them.

compare/runs/ends.py asks a program for each of its reports with `--explain` too; FAULTS are what it must notice, tried on explanations that are made up.
"""

import re

TOLD_OF = re.compile(rb'(?:leaf [0-9]+ \[[0-9 ]*\]|end [0-9]+ leaves [0-9]+ first [0-9]+) (?:deadlock|trap|leftovers) ')
# A line of an explanation: two spaces, or more, and a text in printable ASCII.
LINE = re.compile(rb'  +[!-~](?:[ -~]*[!-~])?')


def blocks(output):
    """The lines of a report that are no explanation, each with the lines of one that stand behind it."""
    found = []
    for line in output.splitlines():
        if line.startswith(b'  ') and found:
            found[-1][1].append(line)
        else:
            found.append((line, []))
    return found


def is_explained(line, behind):
    """Whether an explanation must stand behind a line: that of a deadlock, a trap or leftovers, or that of its witness,
    where it has one."""
    return bool(TOLD_OF.match(line)) and not behind.startswith(b'witness ') or line.startswith(b'witness ')


def wrong_of(plain, told):
    """What is wrong with a report with explanations, by the one without; None where nothing is."""
    found = blocks(told.output)
    if (told.errors, told.status) != (plain.errors, plain.status):
        return f'with --explain it ends with status {told.status}, and {told.errors[:80]!r}'
    lines = [line for line, _ in found]
    if b''.join(line + b'\n' for line in lines) != plain.output:
        return 'with --explain it is another report'
    for (line, explained), behind in zip(found, [*lines[1:], b'']):
        if bool(explained) != is_explained(line, behind):
            return f'{line[:60]!r} has {"an" if explained else "no"} explanation'
        if not all(map(LINE.fullmatch, explained)):
            return f'{line[:60]!r} has a line that is none: {explained!r}'
    return None


# ---- explanations that are made up, and faults of them

def with_lines(output, wants):
    """A report with two lines behind each one that wants them, by the line and the one behind it."""
    lines = output.splitlines()
    return b''.join(line + b'\n' + (b'  rank 0 waits\n    for rank 1\n' if wants(line, behind) else b'')
                    for line, behind in zip(lines, [*lines[1:], b'']))


def made_up(plain):
    return plain._replace(output=with_lines(plain.output, is_explained))


FAULTS = (
    ('no explanation of a trap', lambda plain: with_lines(plain.output, lambda line, behind: is_explained(line, behind) and b' trap ' not in line)),
    ('no explanation of a deadlock', lambda plain: with_lines(plain.output, lambda line, behind: is_explained(line, behind) and b' trap ' in line)),
    ('no explanation of leftovers', lambda plain: with_lines(plain.output, lambda line, behind: is_explained(line, behind) and b' leftovers ' not in line)),
    ('an explanation before a witness', lambda plain: with_lines(plain.output, lambda line, behind: bool(TOLD_OF.match(line)))),
    ('an explanation of each leaf', lambda plain: with_lines(plain.output, lambda line, behind: line.startswith((b'leaf ', b'end ')))),
    ('an explanation of the last line', lambda plain: with_lines(plain.output, lambda line, behind: not behind or is_explained(line, behind))),
    ('one space in front', lambda plain: made_up(plain).output.replace(b'\n  ', b'\n ')),
    ('no space in front', lambda plain: made_up(plain).output.replace(b'\n  ', b'\n')),
    ('an empty line', lambda plain: made_up(plain).output.replace(b'\n  rank', b'\n  \n  rank')),
    ('a blank at the end', lambda plain: made_up(plain).output.replace(b'waits\n', b'waits \n')),
    ('no witness', lambda plain: re.sub(rb'witness .*\n', b'', made_up(plain).output)),
    ('other leaves', lambda plain: made_up(plain).output.replace(b'deadlock', b'done')))


def faults_left(left, plain):
    """The faults of some that a report doesn't show."""
    return [(name, change) for name, change in left if wrong_of(plain, plain._replace(output=change(plain))) is None]
