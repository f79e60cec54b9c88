"""What is told of hangs, traps and leftovers of the scripts in call_scripts.py, worked out by hand from docs/FORMATS.md ("Explanations").

A script and an outcome have one explanation here: whatever run of the script ends so, it ends in calls that are paired in the same way.
"""

from probe.call_scripts import ALL_HANG, ALONE, ASTRAY, AT_A_WAIT, BOTH_SEND, BY_THE_FIRST, EARLY_OR_LATE, RACE, SKIPPED, TRAPS, TWO_RACES

# Rank 0 has the message of rank 2 and wants another of it; rank 1 can't get rid of its own.
OF_RACE = '''\
  rank 0 waits at line 2, 0.1 recv from 2 tag any: for a send of rank 2 with any tag
    nearest miss: line 2, 1.0 send to 0 tag 0 value 1: another source
    the last that fits is taken: line 2, 2.0 send to 0 tag 0 value 2, by line 2, 0.0 recv from any tag any
  rank 1 waits at line 2, 1.0 send to 0 tag 0 value 1: for a receive of rank 0 from rank 1 with tag 0
    nearest miss: line 2, 0.1 recv from 2 tag any: another source
    the last that fits is taken: line 2, 0.0 recv from any tag any, by line 2, 2.0 send to 0 tag 0 value 2
  rank 0 waits for rank 2 (ended)
  rank 1 waits for rank 0
'''

# Both send, and neither has come to its receive.
OF_BOTH_SEND = '''\
  rank 0 waits at line 2, 0.0 send to 1 tag 5 value 0: for a receive of rank 1 from rank 0 with tag 5
  rank 1 waits at line 2, 1.0 send to 0 tag 5 value 1: for a receive of rank 0 from rank 1 with tag 5
  rank 0 waits for rank 1
  rank 1 waits for rank 0
  a cycle, where each waits for the next: rank 0, rank 1, rank 0
'''

# Rank 0 waits for two ranks, so it is on no cycle.
OF_ALL_HANG = '''\
  rank 0 waits at line 2, 0.2 waitany 0 2: for one of these requests
    line 2, 0.0 irecv from 1 tag 4: for a send of rank 1 with tag 4
    nearest miss: line 3, 1.0 send to 0 tag 5 value 7: another tag
    line 2, 0.1 irecv from 2 tag any: for a send of rank 2 with any tag
    nearest miss: line 3, 1.0 send to 0 tag 5 value 7: another source
  rank 1 waits at line 3, 1.0 send to 0 tag 5 value 7: for a receive of rank 0 from rank 1 with tag 5
    nearest miss: line 2, 0.0 irecv from 1 tag 4: another tag
  rank 2 waits at line 4, 2.0 barrier: for all ranks at a barrier
    rank 0 is not there: it waits at line 2, 0.2 waitany 0 2
    rank 1 is not there: it waits at line 3, 1.0 send to 0 tag 5 value 7
  rank 0 waits for any of rank 1, rank 2
  rank 1 waits for rank 0
  rank 2 waits for all of rank 0, rank 1
'''

OF_A_WAIT = '''\
  rank 0 waits at line 2, 0.1 wait 0: for request 0.0
    line 2, 0.0 irecv from 1 tag 2: for a send of rank 1 with tag 2
  rank 1 waits at line 3, 1.0 barrier: for all ranks at a barrier
    rank 0 is not there: it waits at line 2, 0.1 wait 0
  rank 0 waits for rank 1
  rank 1 waits for rank 0
  a cycle, where each waits for the next: rank 0, rank 1, rank 0
'''

OF_SKIPPED = '''\
  rank 0 waits at line 2, 0.0 barrier: for all ranks at a barrier
    rank 1 is not there: it has ended
  rank 0 waits for rank 1 (ended)
'''

OF_ASTRAY = '''\
  rank 0 waits at line 2, 0.0 send to 2 tag 0 value 1: for a receive of rank 2 from rank 0 with tag 0
    nearest miss: line 3, 1.0 recv from 0 tag 0: another destination
  rank 1 waits at line 3, 1.0 recv from 0 tag 0: for a send of rank 0 with tag 0
    nearest miss: line 2, 0.0 send to 2 tag 0 value 1: another destination
  rank 0 waits for rank 2 (ended)
  rank 1 waits for rank 0
'''

OF_ALONE = '''\
  rank 0 waits at line 2, 0.0 recv from any tag any: for a send of any rank with any tag
  rank 0 waits for nobody
'''

# Both messages have come, so no call is free, and none of another tag was taken.
OF_BY_THE_FIRST = '''\
  rank 0 waits at line 2, 0.3 recv from 1 tag 9: for a send of rank 1 with tag 9
  rank 0 waits for rank 1 (ended)
'''

OF_EARLY_OR_LATE = '''\
  rank 0 waits at line 2, 0.1 send to 1 tag 1 value 2: for a receive of rank 1 from rank 0 with tag 1
  rank 0 waits for rank 1 (ended)
'''

EXPLANATIONS = {
    (RACE, 'deadlock 0.1 1.0'): OF_RACE,
    (BOTH_SEND, 'deadlock 0.0 1.0'): OF_BOTH_SEND,
    (ALL_HANG, 'deadlock 0.2 1.0 2.0'): OF_ALL_HANG,
    (AT_A_WAIT, 'deadlock 0.1 1.0'): OF_A_WAIT,
    (SKIPPED, 'deadlock 0.0'): OF_SKIPPED,
    (ASTRAY, 'deadlock 0.0 1.0'): OF_ASTRAY,
    (ALONE, 'deadlock 0.0'): OF_ALONE,
    (BY_THE_FIRST, 'deadlock 0.3'): OF_BY_THE_FIRST,
    (EARLY_OR_LATE, 'deadlock 0.1'): OF_EARLY_OR_LATE,
    (EARLY_OR_LATE, 'leftovers 0.1'): '  left over: line 2, 0.1 send to 1 tag 1 value 2\n',
    (TRAPS, 'trap 0 zero-divisor 1 zero-divisor'): '  rank 0, line 2: trap zero-divisor, with x = 0\n  rank 1, line 2: trap zero-divisor, with x = 0\n',
    (TWO_RACES, 'trap 0 assert'): '  rank 0, line 2: trap assert, with x = 4, y = 2\n',
    (TWO_RACES, 'trap 1 assert'): '  rank 1, line 2: trap assert, with x = 5, y = 3\n',
    (TWO_RACES, 'trap 0 assert 1 assert'): '  rank 0, line 2: trap assert, with x = 4, y = 2\n  rank 1, line 2: trap assert, with x = 5, y = 3\n'}


def explanation(script, outcome):
    """What is told of an outcome of a script: nothing where it is done, or cut."""
    return EXPLANATIONS[script, outcome] if outcome.split()[0] in ('deadlock', 'trap', 'leftovers') else ''


def outcome_in(words):
    """The outcome that a line of a report tells, of a leaf or of an end; none where it is the last one."""
    kind, _, behind = words.partition(' ')
    if kind == 'leaf':
        return behind.partition('] ')[2]
    return behind.split(' ', 5)[5] if kind == 'end' else 'none'


def explained_lines(script, text):
    told = ''
    for words in text.splitlines():
        if not words.startswith('witness '):
            yield told
            told = explanation(script, outcome_in(words))
        yield f'{words}\n'


def explained(script, text):
    """The text of a report with the explanation of each hang, each trap and all leftovers, behind the line of the leaf or the end, and of its witness."""
    return ''.join(explained_lines(script, text))
