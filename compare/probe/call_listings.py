"""Rows of compare/runs/refused_calls.py for explanations, reports that have them or are grouped, samples, and what is read back of reports."""

from model.debugger import BUFFERED, RENDEZVOUS
from probe.call_given import Row, no_state
from probe.call_scripts import (ALL_HANG, ALONE, ASTRAY, AT_A_WAIT, BOTH_SEND, BY_THE_FIRST, CHOICE, EARLY_OR_LATE, ENDLESS, MESSAGE, ONE_CAME, RACE, SKIPPED,
                                SLOT_HELD, TO_ITSELF, TRAPS, TWO_LINES, TWO_RACES, WHICHEVER)

HANGS = (BOTH_SEND, ALL_HANG, AT_A_WAIT, SKIPPED, ASTRAY, ALONE)
# So many of the requests are refused of what makes hundreds, or is much like another row.
FEW = 40

# A report of two leaves; one whose two leaves have a witness each, the first with an explanation; and one without a witness.
DONE = 'leaf 0 [0] done\n'
TOTAL = 'leaves 2 more no\n'
REPORT = DONE + TWO_LINES + TOTAL
SEVERAL = ('leaf 0 [] deadlock 0.0\nwitness 0: local 0\n  rank 0 waits for nobody\n' + TWO_LINES + TOTAL).replace('\n', '\r\n')
NO_WITNESS = DONE + 'leaf 1 [1] deadlock 0.1 1.0\n' + TOTAL


def listings():
    yield from explanations()
    yield from reports()
    yield from samples()
    yield from behind_pieces()
    yield from reread()
    yield from words()


def explanations():
    for script in (*HANGS, TRAPS):
        yield Row('explain', script, (), '10 100 0')
    yield Row('explain', RACE, (), '10 100 1')
    yield Row('explain', RACE, CHOICE, '10 100 1')
    for script, fuel in ((RACE, 100), (MESSAGE, 100), (ENDLESS, 9)):
        yield Row('explain', script, (), f'10 {fuel} 0', spares=True)
    for script in (RACE, ALL_HANG, TRAPS, MESSAGE):
        yield Row('explain_all', script, (), '10 100')
    yield Row('explain_all', RACE, CHOICE, '10 100')
    yield Row('explain_all', TWO_RACES, (), '9 200', most=FEW)
    yield Row('explain_all', TWO_RACES, (), '9 200 ends', most=FEW)
    yield Row('explain_all', RACE, (), '0 100', spares=True)
    # runs that the wide walk has alone, or that have other choices there
    for script, lines, mode, leaf in ((BY_THE_FIRST, (), RENDEZVOUS, 1), (BY_THE_FIRST, ONE_CAME, RENDEZVOUS, 1), (EARLY_OR_LATE, (), 'slots:1', 0),
                                      (EARLY_OR_LATE, (), 'slots:1', 1)):
        yield Row('explain', script, lines, f'10 100 {leaf} ends', mode)
        yield Row('explain_all', script, lines, '10 100 ends', mode)


def reports():
    for beside in ('', 'witnesses', 'explain', 'witnesses explain', 'group', 'group witnesses', 'group explain witnesses'):
        yield Row('check_listing', RACE, (), f'2 1 10 100 {beside}'.rstrip(), most=FEW)
    yield Row('check_listing', RACE, (), '2 2 10 100 witnesses explain')
    for beside in ('explain', 'group', 'group explain', 'ends group explain'):
        yield Row('check_listing', TWO_RACES, (), f'2 2 3 200 {beside}', most=FEW)
    for beside in ('explain', 'ends explain', 'ends group witnesses explain'):
        yield Row('check_listing', BY_THE_FIRST, (), f'2 1 10 100 {beside}', most=FEW)
    yield Row('check_listing', EARLY_OR_LATE, (), '2 1 10 100 ends explain', 'slots:1', most=FEW)
    for mode in (RENDEZVOUS, BUFFERED, 'slots:1'):
        yield Row('check_listing', BOTH_SEND, (), '2 0 10 100 explain', mode=mode)
    yield Row('check_listing', TRAPS, (), '1 1 10 100 explain until')
    yield Row('check_listing', TWO_RACES, (), '16 1 9 200 until explain ends', most=FEW)
    for workers in (0, 17):
        yield Row('check_listing', RACE, (), f'{workers} 1 10 100 explain', spares=True)


def samples():
    for beside in ('', 'witnesses', 'group explain', 'witnesses explain'):
        yield Row('check_sample', RACE, (), f'10 100 0 {beside}'.rstrip(), most=FEW)
    yield Row('check_sample', RACE, (), '3 100 1 witnesses explain')
    for limits in ('10 200 1 explain', '100 200 2 group', '5 12 18446744073709551615 group', '20 200 4 until explain'):
        yield Row('check_sample', TWO_RACES, (), limits, most=FEW)
    for mode in (BUFFERED, 'slots:1'):
        yield Row('check_sample', BOTH_SEND, (), '2 100 3 explain', mode=mode)
    yield Row('check_sample', BY_THE_FIRST, (), '9 100 3 explain', most=FEW)
    yield Row('check_sample', EARLY_OR_LATE, (), '9 100 3 explain', 'slots:1', most=FEW)


def behind_pieces():
    for place in (0, 1, 2):
        yield Row('is_left', RACE, (), f'1 10 100 {place}', spares=True)
    yield Row('is_left', RACE, (), '1 10 100 2 ends', spares=True)
    yield Row('is_left', RACE, (), '1 10 100 1 ends')
    yield Row('is_left', RACE, CHOICE, '1 10 100 1 ends')
    # of twelve pieces the first and the fourth have a run that is listed where each end is looked for once
    for place in (0, 1, 4):
        yield Row('is_left', TWO_RACES, (), f'2 10 200 {place} ends', most=FEW)


def reread():
    for call in ('read_report', 'read_report_witness'):
        for text, leaf in ((REPORT, ()), (REPORT, ('1',)), (SEVERAL, ('0',)), (SEVERAL, ('1',)), (TWO_LINES, ()), (TWO_LINES, ('1',))):
            yield Row(call, lines=leaf, argument=text)
        # what is wrong with a report: a line that is none, a witness at another place, and calls or steps that are none
        for text, leaf, told in ((REPORT, ('0',), 'no-deadlock'), (REPORT, ('2',), 'no-such-leaf'), (SEVERAL, (), 'several-witnesses'),
                                 (NO_WITNESS, (), 'no-witness'), (NO_WITNESS, ('1',), 'no-witness'), (DONE + 'x\n' + REPORT, (), 'line 2'),
                                 (DONE + TOTAL + TWO_LINES.partition('\n')[2], (), 'line 3'), (TWO_LINES + 'x', (), 'line 3'),
                                 ('leaf 0 [] done\n', (), 'line 1')):
            yield Row(call, lines=leaf, argument=text, by_hand=no_state(f'{told}\n'), spares=call == 'read_report')
        yield Row(call, argument=REPORT.replace('0.1 1.0', '0.1 x'), by_hand=no_state('line 2\n'))
        yield Row(call, argument=REPORT.replace('wake 2', 'wake'), by_hand=no_state('line 3\n'))


def words():
    for text, told in (('0 1 0', 'choices 0 1 0'), ('  7  12 ', 'choices 7 12'), ('999999999', 'choices 999999999'), ('0 x', 'not-a-number')):
        yield Row('choices_of', argument=text, by_hand=no_state(f'{told}\n'))
    for text, told in (('', 'choices'), (' ', 'choices'), ('-1', 'not-a-number'), ('1234567890', 'not-a-number')):
        yield Row('choices_of', argument=text, by_hand=no_state(f'{told}\n'), spares=True)
    # choices that a run has; one too few, one that is none, and one too many; and fuel that is too little
    for script, asked in ((RACE, ('- 100', '0 100', '1 100', '9 100', '0,0 100', '- 4', '0 4')), (WHICHEVER, ('0 100', '2 100')),
                          (TO_ITSELF, ('- 100', '0 100')), (MESSAGE, ('- 100', '0 100'))):
        for argument in asked:
            yield Row('steps_by_choices', script, (), argument)
            yield Row('write_words', script, (), argument)
    # those of a leaf of the wide walk, also of one that is left out where steps sleep; those of its own along decisions; and none of either
    for script, mode, asked in ((BY_THE_FIRST, RENDEZVOUS, ('0,0 100 ends', '1,0 100 ends', '1,1 100 ends', '0,0 100', '1,0 100', '0,1 100 ends', '1 100 ends',
                                                            '1 9 ends')),
                                (EARLY_OR_LATE, 'slots:1', ('0,0 100 ends', '1 100 ends', '- 100', '- 100 ends', '0 100', '2 100 ends'))):
        for argument in asked:
            yield Row('steps_by_choices', script, (), argument, mode)
            yield Row('write_words', script, (), argument, mode)
    yield Row('steps_by_choices', BY_THE_FIRST, ONE_CAME, '1,0 100 ends')
    yield Row('steps_by_choices', EARLY_OR_LATE, SLOT_HELD, '1 100 ends', 'slots:1')
    yield Row('steps_by_choices', RACE, CHOICE, '1 100')
    yield Row('steps_by_choices', RACE, CHOICE, '1 0')
    yield Row('write_words', BOTH_SEND, (), '- 100', mode=BUFFERED)
