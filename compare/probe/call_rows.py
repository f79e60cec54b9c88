"""The rows of compare/runs/refused_calls.py: public calls of the crates, each with what it is given.

What the model says of them is in call_models.py. What it doesn't say stands here, as it was worked out by hand.
"""

import glob
import re

from model.debugger import BUFFERED, RENDEZVOUS
from places import TOP
from probe.call_consoles import consoles
from probe.call_given import Row, Wanted, no_state
from probe.call_listings import listings
from probe.call_models import core_room
from probe.call_outcomes import asks
from probe.call_pages import pages
from probe.call_pictures import pictures
from probe.call_scripts import (BOTH_CAME, BOTH_SEND, BY_THE_FIRST, CHANGES, CHOICE, EARLY_OR_LATE, ENDED, ENDLESS, FOUR_SETS, HELD, ISSUED, MANY, MATCHED,
                                MEETING, MESSAGE, ONE_CAME, PAIRS, RACE, SENT, SLOT_HELD, STUCK, TRAPS, TWO_LINES, TWO_RACES, WHICHEVER, WHOLE)
from probe.call_sizes import sizes
from probe.call_wide import wides

# Rows of direct calls, which the program of calls asserts by itself.
DIRECT = f'{TOP}/compare/probe/direct'
# Nothing is known of a place whose line begins with `=`, since sections do.
MISSING = 'mpd 1;\nranks 1;\nprint 1\nprint 2;\n'
NO_STEP = TWO_LINES.replace('witness 1: local 0', 'witness 1: wake 0')
NOT_STUCK = TWO_LINES.replace(', wake 2\n', '\n')
OTHER_CALLS = TWO_LINES.replace('0.1 1.0', '0.1')


def direct_names():
    """The names of the rows of direct calls."""
    names = set()
    for path in glob.glob(f'{DIRECT}/*_rows.rattle'):
        with open(path, encoding='utf-8') as file:
            names.update(re.findall(r'(?m)^pub\(crate\) fn (\w+)', file.read()))
    return names


def scripts():
    for script in (MESSAGE, RACE, WHOLE, 'mpd 1; ranks 1;', MISSING, 'mpd 1; ranks 1;\nprint y;', 'mpd 3;', 'mpd 1;ranks 1;var x;var x;'):
        yield Row('mpd_script::read', script)
        yield Row('mpd_trace::read_script', script)
        yield Row('mpd_trace::read_code', script)
    for script in (MESSAGE, RACE, WHOLE, 'mpd 1; ranks 1;'):
        yield Row('mpd_script::print', script)
        yield Row('mpd_c::print_c', script)
        yield Row('write_c', script)
        yield Row('mpd_code::lower', script)
    for script in (MESSAGE, WHOLE):
        yield Row('mpd_code looks', script, spares=True)
    for script, what in ((MESSAGE, 'a message'), (WHOLE, 'all statements')):
        yield Row('mpd_script::read of all beginnings', script, most=0, what=what)
    # fewer bytes than may be, as many, one more, and the first where none may be
    for most in (65_536, len(MESSAGE), len(MESSAGE) - 1, 0):
        yield Row('read_up_to', MESSAGE, argument=str(most))
    yield Row('mpd_trace::excerpt', MISSING, argument='24', by_hand=no_state('  print 2;\n  ^\n\n'))
    yield Row('mpd_trace::allowed', MISSING, argument='24',
              by_hand=no_state("  found 'print'; only ';' or an operator can stand here\n\n"))
    yield Row('mpd_trace::hint', 'mpd 1; ranks 1;\nif 1 {\n', by_hand=no_state("  the block that line 2 opens isn't closed\n\n"))


def expressions():
    """In rank 1 of three, where the first cell has 0 and those of the array 30 to 32; the second handle has call 4."""
    head = 'mpd 1; ranks 3; var x; var a[3]; req r[2];\n'
    # 14 - 3 - 1 + 1 + 31 + 5 + 1 + 3, and 0 of the condition; traps at the divisor, the index, the rank and the tag; five calls
    body = ('print 2 + 3 * 4; print -7 / 2; print -7 % 2; print 1 || 1 / 0; print a[1]; x = 5; assert rank; print size;\n'
            'print 1 / 0; a[3] = 1; send 1 to 3 tag 0; ssend 1 to 0 tag 32768;\n'
            'if x { send 1 to 0 tag 0; } isend r[0] 1 to 2 tag 1; issend r[1] 1 to 2 tag 1; recv x from any tag 1; irecv r[0] x from 1 tag any;\n'
            'wait r[1]; barrier; ssend 2 to 1 tag 2;')
    yield Row('eval', head + body, by_hand=no_state('51 4 8\n'), spares=True)
    # two statements: the first issues a call, since the second handle has one, and the index of the other's place traps
    yield Row('eval', 'mpd 2; ranks 3; var x; var a[3]; req r[2];\nwaitany r to x; waitany r to a[3];', by_hand=no_state('0 1 1\n'), spares=True)
    for how, value in (('unary', '-4'), ('binary', '16'), ('element', 'bad-index')):
        yield Row('Expr::unary, element, binary', head + 'print a[0];', argument=how, by_hand=no_state(f'{value}\n'))
    # memory 6, full 4, at-start 8, no-redo 7, not-before 10, not-stuck 9, too-many-pieces 15, bad-workers 11, read-failed 11, expected 8;
    # 23, 22, 24, 25, 26, 33, 31, 35, 45 and 4
    yield Row('words and lines', by_hand=no_state('4 17 2 3 2 14 true\n'), spares=True)
    yield Row('numbers and names', by_hand=no_state('89 268 true true true true false 2\n'), spares=True)


def lists():
    def tape(*numbers):
        return ' '.join(['tape', *map(str, numbers)]) + '\n'

    yield Row('Tape::filled', argument='4 7', by_hand=no_state(tape(7, 7, 7, 7)))
    yield Row('Tape::keep_room', lines=('7', '8'), argument='1000', by_hand=Wanted(tape(7, 8), 'done\n', tape(7, 8)))
    yield Row('Tape::copy', lines=('7', '8'), by_hand=Wanted(tape(7, 8), tape(7, 8), tape(7, 8)))
    yield Row('Tape changes', lines=('7', '8'), by_hand=Wanted(tape(7, 8), '0 92 8 3 3\n', tape(90, 8, 91)), spares=True)
    three = ('0 0', '0 1', '0 2')
    whole = 'list 0 1 2\nlist\n'
    yield Row('Lists::new', argument='2', by_hand=no_state('list\nlist\n'))
    yield Row('Lists::keep_room', lines=three, argument='1000', by_hand=Wanted(whole, 'done\n', whole))
    yield Row('Lists::copy', lines=three, by_hand=Wanted(whole, whole, whole))
    yield Row('Lists changes', lines=three, by_hand=Wanted(whole, '2 3 1\n', 'list 0 1\nlist 3\n'), spares=True)


def boards():
    yield Row('Board::new', argument='2')
    yield Row('Board::new', argument='16')
    for script, steps in ((HELD, ISSUED), (RACE, CHOICE), (MESSAGE, MATCHED), (MESSAGE, ENDED)):
        yield Row('Board::copy', script, steps)
        yield Row('Board::push_matches', script, steps, 'all', spares=script == MESSAGE)
    yield Row('Board::push_matches', RACE, CHOICE, 'open')
    yield Row('Board::push_matches', RACE, CHOICE, '0')
    yield Row('Board::keep_room', MESSAGE, SENT)
    yield Row('Board::why', HELD, ISSUED, '0.1')
    yield Row('Board::why', HELD, ISSUED, '0.0')
    yield Row('Board::why', MESSAGE, MATCHED, '0.0', spares=True)
    for script, steps, call in ((HELD, ISSUED, '0.0'), (MESSAGE, SENT, '0.0'), (MESSAGE, MATCHED, '0.0'), (MEETING, ('local 0',), '0.0')):
        yield Row('Board looks', script, steps, call, spares=True)
    # a send that holds the one slot of its rank, and one whose slot is free again
    for mode, steps in (('slots:1', SENT), ('slots:1', MATCHED), (BUFFERED, SENT), ('slots:0', SENT)):
        yield Row('Board looks', MESSAGE, steps, '0.0', mode=mode, spares=True)
    # eligible, no named receive, the first candidate, both ways; then paired, no longer free, and with a buffer
    yield Row('Board::pair', RACE, CHOICE, '1.0 0.0', by_hand='true false 0 true true true false true\n', spares=True)
    yield Row('Board::pair', MESSAGE, SENT, '0.0 1.0', by_hand='true true 0 true true true false true\n', spares=True)
    # the second call of its rank, which isn't done and awaits itself; before it stands the first, and nothing is posted
    yield Row('Board::issue', MESSAGE, (*MATCHED, 'wake 0'), '0', by_hand='1 true true 2 false true true false false\n', spares=True)
    yield Row('Board::woke', MESSAGE, MATCHED, '0.0', by_hand='2\n', spares=True)
    yield Row('Board::released', MEETING, ('local 0', 'local 1'), by_hand='1\n', spares=True)
    yield from ranks()


def ranks():
    """A rank alone: where it stands, its variables, its output and its handles."""
    text = 'rank 0 running\nvars 0\nout\nhandles\n'
    one = 'mpd 1; ranks 1; var x;\nprint 5; x = 1;'
    printed = 'rank 0 running\nvars 0\nout 5\nhandles\n'
    yield Row('RankState::start', one, by_hand=no_state(text))
    yield Row('RankState::copy', one, ('local',), by_hand=Wanted(printed, printed, printed))
    yield Row('RankState::keep_room', one, by_hand=Wanted(text, 'done\n', text))
    # it can step, hasn't ended, stands at the first statement, runs, has no handle, none that holds a call, issues no call, and has printed
    # once
    yield Row('RankState::commit', one, by_hand=Wanted(text, 'true false 0 true 0 false false 1\n', text), spares=True)
    receives = 'mpd 1; ranks 1; var x;\nrecv x from 0 tag 0; x = 1;'
    blocked, woken = ('rank 0 blocked\nvars 0\nout\nhandles\n', 'rank 0 running\nvars 1\nout\nhandles\n')
    yield Row('RankState::complete', receives, ('local',), by_hand=Wanted(blocked, '70 true\n', woken), spares=True)
    yield Row('RankState::go_on', 'mpd 1; ranks 1; var x;\nbarrier;', ('local',), by_hand=Wanted(blocked, 'done\n', blocked), spares=True)


def cores():
    for script, mode in ((MESSAGE, 'rendezvous'), (WHOLE, BUFFERED)):
        yield Row('Core::start', script, mode=mode)
    for script, steps in ((MESSAGE, ()), (MESSAGE, ENDED), (RACE, STUCK), (HELD, ISSUED)):
        yield Row('Core::copy', script, steps)
        yield Row('mpd_trace::show', script, steps)
    yield Row('Core::keep_room', MESSAGE)
    yield Row('Core::keep_room', RACE, CHOICE)
    # what a step asks for depends on the room that is there, so all steps of a run are tried, each behind those before it
    for steps, script in ((ENDED, MESSAGE), (STUCK, RACE), (('local 0', 'local 1', 'release'), MEETING), (('local 0',), TRAPS), ((*BOTH_CAME, 'wakeany 0 1'), WHICHEVER)):
        for count, step in enumerate(steps):
            is_local = step.startswith('local')
            yield Row('Core::apply', script, steps[:count], step)
            yield Row('Core::undo', script, steps[:count], step, spares=True)
            if is_local:
                yield Row('Core::step_local', script, steps[:count], step.split()[1])
                yield Row('Core::undo_local', script, steps[:count], step.split()[1], spares=True)
            else:
                yield Row('Core::step_other', script, steps[:count], step)
                yield Row('Core::undo_other', script, steps[:count], step, spares=True)
    yield Row('Core::apply', MESSAGE, SENT, 'wake 0', spares=True)
    yield Row('Core::step_local', MESSAGE, SENT, '0', spares=True)
    yield Row('Core::step_other', MESSAGE, SENT, 'wake 0', spares=True)
    yield Row('Core::step_other', PAIRS, FOUR_SETS, 'wake 2')
    # enabled, not stuck, ranks, calls of rank 0, its next statement, its activity, its number, the nodes
    yield Row('Core looks', MESSAGE, SENT, 'match 0.0 1.0', by_hand=core_looks(MESSAGE, SENT, 'true false 2 1 99 true 0 4\n'), spares=True)
    yield Row('Core looks', MESSAGE, ('local 0',), 'wake 0', by_hand=core_looks(MESSAGE, ('local 0',), 'false false 2 0 1 true 0 4\n'), spares=True)
    yield from core_texts()


def core_looks(script, steps, answer):
    return core_room(Row('Core::keep_room', script, steps))._replace(answer=answer)


def core_texts():
    for call in ('Core::call_text', 'Core::push_call'):
        yield Row(call, MESSAGE, ENDED, '1 0')
        yield Row(call, HELD, ISSUED, '0 1')
    for call in ('Core::rank_text', 'Core::push_rank'):
        yield Row(call, MESSAGE, SENT, '0 0')
        yield Row(call, TRAPS, ('local 0',), '0 0')
    for number in range(3):
        yield Row('Core::set_text', MESSAGE, ENDED, f'{number} 0')
    for script, steps, mode in ((RACE, STUCK, 'rendezvous'), (TRAPS, ('local 0', 'local 1'), 'rendezvous'),
                                ('mpd 1; ranks 1;\nsend 1 to 0 tag 0;', ('local 0', 'wake 0'), BUFFERED)):
        yield Row('Core::outcome', script, steps, mode=mode)
        yield Row('Core::ending', script, steps, mode=mode)
        yield Row('print_outcome', script, steps, mode=mode)
    yield Row('Core::outcome', MESSAGE, ENDED, spares=True)
    yield Row('Core::outcome', MESSAGE, SENT, spares=True)
    yield Row('Core::ending', MESSAGE, ENDED, spares=True)
    yield Row('print_outcome', MESSAGE, ENDED)
    for steps in ((), CHOICE):
        yield Row('Core::enabled', RACE, steps)
        yield Row('mpd_trace::listed', RACE, steps)
    yield Row('Core::enabled', RACE, STUCK, spares=True)
    yield Row('Core::enabled', WHICHEVER, BOTH_CAME)
    yield Row('Core::push_any_wakes_of', WHICHEVER, BOTH_CAME, '0')
    yield Row('Core::push_any_wakes_of', WHICHEVER, BOTH_CAME, '1', spares=True)
    for step in ('local 0', 'match 1.0 0.1', 'wake 15', 'wakeany 15 255', 'release'):
        yield Row('print_step', argument=step)


def trails():
    yield Row('Debugger::start', MESSAGE)
    yield Row('Debugger::start', WHOLE, mode=BUFFERED)
    for lines in ((), ENDED, (*SENT, 'back', 'back')):
        yield Row('Debugger::copy', MESSAGE, lines)
        yield Row('Debugger::keep_room', MESSAGE, lines)
        yield Row('Debugger looks, forget_undone, put_steps', MESSAGE, lines, spares=True)
    for steps, script in ((ENDED, MESSAGE), (STUCK, RACE), (('local 0', 'local 1', 'release'), MEETING)):
        for count, step in enumerate(steps):
            for call in ('Debugger::apply', 'mpd_trail::answer', 'Debugger::forward'):
                yield Row(call, script, steps[:count], step)
            yield Row('Debugger::undo', script, steps[:count], spares=True)
            yield Row('Debugger::undo_to', script, steps[:count], str(count // 2), spares=True)
            yield Row('Debugger::redo', script, (*steps, f'goto {count}'))
    # another step than the undone one drops these, and one that equals it doesn't
    yield Row('Debugger::apply', MESSAGE, (*SENT, 'goto 0'), 'local 1')
    yield Row('Debugger::apply', MESSAGE, (*SENT, 'goto 0'), 'local 0')
    yield Row('Debugger::apply', MESSAGE, SENT, 'wake 0', steady=True)
    yield Row('mpd_trail::answer', MESSAGE, SENT, 'wake 0', steady=True)
    yield Row('Debugger::redo', MESSAGE, SENT, spares=True)
    yield Row('Debugger::undo_to', MESSAGE, SENT, '5', spares=True)
    for call in ('mpd_trail::follow', 'mpd_trail::replay'):
        yield Row(call, MESSAGE, (*ENDED, 'local 0', 'back', 'redo', 'redo', 'goto 9', 'goto 2', 'local 1', 'back', 'goto 0', 'back'))
    yield from runs()


def runs():
    for script, lines in ((MESSAGE, ()), (RACE, CHOICE), (RACE, STUCK), (MESSAGE, SENT)):
        can_be_refused = lines in (CHOICE, STUCK)
        yield Row('decide', script, lines, spares=not can_be_refused)
        yield Row('forced_step', script, lines, spares=True)
    # a choice, with undone steps that the run drops; a breakpoint; as many steps as asked for; an end; none to make
    yield Row('mpd_policy::run', CHANGES, ('local 1', 'local 1', 'back', 'back'), '100')
    yield Row('mpd_policy::run', CHANGES, (), '100 change 1 0')
    yield Row('mpd_policy::run', CHANGES, ('local 1',), '3')
    yield Row('mpd_policy::run', MESSAGE, (), '100')
    yield Row('mpd_policy::run', MESSAGE, ('local 0', 'back'), '100 match 4')
    yield Row('mpd_policy::run', RACE, CHOICE, '100', spares=True)
    yield Row('mpd_policy::run', RACE, (*CHOICE, 'match 1.0 0.0', 'back'), '100')
    yield Row('run_back', MESSAGE, ENDED, '0', spares=True)
    yield Row('run_back', CHANGES, ('local 0', 'local 1', 'local 1'), '0 change 1 0', spares=True)
    # 64 places are filled, the 65th isn't there; the one that is taken out is free again
    yield Row('Breaks', by_hand=no_state('64 true false false true 7\n'), spares=True)


def reports():
    for script, mode in ((RACE, 'rendezvous'), (BOTH_SEND, 'rendezvous'), (BOTH_SEND, BUFFERED), (ENDLESS, 'rendezvous'), (TRAPS, BUFFERED)):
        for limits in ('10 100', '1 5', '10 100 witnesses', '10 100 until'):
            yield Row('explore', script, (), limits, mode)
            yield Row('explore', script, (), f'{limits} ends', mode)
        for limits in ('10 100 0', '1 5 3', '10 100 7 witnesses', '10 100 7 until'):
            yield Row('sample', script, (), limits, mode)
        yield Row('print_report', script, (), '10 100 witnesses', mode)
        yield Row('push_leaves, push_total', script, (), '10 100 witnesses', mode)
        yield Row('mpd_pool::print_report', script, (), '2 10 100 witnesses', mode)
        yield Row('push_leaf_text', script, (), '10 100', mode)
        yield Row('SearchReport looks', script, (), '10 100', mode, spares=True)
    yield Row('explore', RACE, (*CHOICE, 'match 1.0 0.0'), '10 100 witnesses')
    yield Row('explore', RACE, (*CHOICE, 'match 1.0 0.0'), '10 100 witnesses ends')
    # two races of two senders: 8 runs along the choices, of which 4 end in another way than those before
    for limits in ('20 200', '4 200', '3 200', '20 12', '2 200 until', '0 200'):
        yield Row('explore', TWO_RACES, (), f'{limits} ends', most=40)
    # ten draws of the 8 runs, and a hundred, which have all; a seed of 64 bits; where each draw has other choices than those before
    for limits in ('10 200 1', '100 200 2', '5 12 18446744073709551615', '20 200 4 until witnesses', '0 200 0'):
        yield Row('sample', TWO_RACES, (), limits, most=40)
    yield Row('sample', RACE, (*CHOICE, 'match 1.0 0.0'), '10 100 5 witnesses')
    yield Row('sample', MANY, (), '30 1000 6', most=60)
    yield from reports_of_ends()
    yield Row('witness_of', RACE, (), '10 100 1')
    yield Row('witness_of', RACE, CHOICE, '10 100 1')
    yield Row('witness_of', RACE, (), '10 100 0', spares=True)
    for call in ('verify', 'verify_end', 'verify_from', 'judge'):
        for text in (TWO_LINES, NOT_STUCK, OTHER_CALLS):
            yield Row(call, RACE, (), text)
    yield Row('verify', RACE, (), NO_STEP)
    yield Row('verify_end', RACE, (), NO_STEP)
    yield Row('judge', RACE, (), NO_STEP)
    yield Row('verify_from', RACE, (), NO_STEP, spares=True)
    for text in (TWO_LINES, 'leaf 0 [] done\n', TWO_LINES + 'x'):
        yield Row('read_witness', argument=text)
    yield from checks()


# What ends otherwise along the wide walk than along decisions.
WIDER = ((BY_THE_FIRST, RENDEZVOUS), (EARLY_OR_LATE, 'slots:1'))


def reports_of_ends():
    for script, mode in WIDER:
        yield Row('explore', script, (), '10 100 ends witnesses', mode)
        yield Row('sample', script, (), '10 100 3 witnesses', mode)
        yield Row('print_report', script, (), '10 100 ends witnesses', mode)
        yield Row('SearchReport looks', script, (), '10 100 ends', mode, spares=True)
    # of the runs of the wide walk that hang, the first: the second leaf, and the first
    yield Row('witness_of', BY_THE_FIRST, (), '10 100 1 ends')
    yield Row('witness_of', BY_THE_FIRST, ONE_CAME, '10 100 1 ends')
    yield Row('witness_of', EARLY_OR_LATE, (), '10 100 0 ends', 'slots:1')
    yield Row('witness_of', EARLY_OR_LATE, SLOT_HELD, '10 100 0 ends', 'slots:1')
    yield Row('witness_of', BY_THE_FIRST, (), '10 100 0 ends', spares=True)


def checks():
    for choices in (0, 1, 2):
        yield Row('split', RACE, (), f'{choices} 100')
        yield Row('explore_by_pieces', RACE, (), f'{choices} 10 100 witnesses')
    yield Row('split', RACE, CHOICE, '1 100')
    yield Row('split', MANY, (), '3 1000', most=60)
    for choices in ('-', '0', '1'):
        yield Row('explore_at', RACE, (), f'{choices} 10 100 witnesses')
    yield Row('explore_at', RACE, CHOICE, '1 10 100')
    yield Row('explore_by_pieces', RACE, (), '1 10 100 until')
    for workers in (1, 2, 16):
        for split_by in (0, 1):
            yield Row('mpd_pool::check_watched', RACE, (), f'{workers} {split_by} 10 100 witnesses')
        yield Row('mpd_check::check_search', RACE, (), f'{workers} 1 10 100 witnesses')
    yield Row('mpd_pool::check_watched', RACE, CHOICE, '2 1 10 100')
    for workers in (0, 17):
        yield Row('mpd_pool::check_watched', RACE, (), f'{workers} 1 10 100', spares=True)
        yield Row('mpd_check::check_search', RACE, (), f'{workers} 1 10 100', spares=True)
    for piece in (0, 1, 2):
        yield Row('check_piece', RACE, (), f'{piece} 1 10 100 witnesses')
    yield Row('count_pieces', RACE, (), '0 1 10 100')
    yield from checks_of_ends()
    for mode in (RENDEZVOUS, BUFFERED, 'slots:1'):
        yield Row('check_mode', BOTH_SEND, (), '2 1 10 100', mode=mode)
    yield Row('check_mode', RACE, (), '2 1 1 100 until')
    yield Row('check_mode', RACE, (), '0 1 10 100', spares=True)
    # deadlocks that rendezvous, slots:1 and slots:2 list
    for deadlocks, status, least in (('1 0 2', 1, 'slots:1'), ('0', 0, 'rendezvous'), ('1 1', 1, 'none'), ('0 3', 1, 'rendezvous')):
        yield Row('put_least', argument=deadlocks, by_hand=no_state(f'status {status}\n', f'least {least}\n'))


def checks_of_ends():
    for script, mode in WIDER:
        for choices in (0, 1, 2):
            yield Row('split', script, (), f'{choices} 100 ends', mode)
            yield Row('explore_by_pieces', script, (), f'{choices} 10 100 ends witnesses', mode)
        for choices in ('-', '0', '1'):
            yield Row('explore_at', script, (), f'{choices} 10 100 ends witnesses', mode)
        for workers in (1, 2):
            yield Row('mpd_pool::check_watched', script, (), f'{workers} 1 10 100 ends witnesses', mode)
            yield Row('mpd_check::check_search', script, (), f'{workers} 1 10 100 ends witnesses', mode)
        for piece in (0, 1, 2):
            yield Row('check_piece', script, (), f'{piece} 1 10 100 ends witnesses', mode)
        yield Row('count_pieces', script, (), '0 1 10 100 ends', mode)
        yield Row('check_mode', script, (), '2 1 10 100 ends', mode)
        # a report of the runs along decisions, in which there is one piece, doesn't tell all
        yield Row('mpd_check::check_search', script, (), '1 1 10 100', mode)
    # a piece that begins where something is asleep: its last choice is taken after another that shares no call with it was tried
    yield Row('split', TWO_RACES, (), '2 200 ends', most=40)
    for choices in ('0,0', '1,0', '1,1', '2,0', '2,1'):
        yield Row('explore_at', TWO_RACES, (), f'{choices} 10 200 ends', most=40)
    yield Row('explore_by_pieces', TWO_RACES, (), '2 10 200 ends', most=40)
    yield Row('mpd_pool::check_watched', TWO_RACES, (), '2 2 10 200 ends', most=40)


# Requests that lead to places of a session: at the choice of a race, with breakpoints, and with steps undone.
RUN = '{"cmd":"run","max":100}'
TO_CHOICE = (RUN,)
TO_END = (RUN, '{"cmd":"next","choice":0}', RUN)
BREAKS = ('{"cmd":"break","kind":"line","line":2}', '{"cmd":"break","kind":"change","rank":1,"cell":0}')
UNDONE = (RUN, '{"cmd":"goto","depth":2}')
REQUESTS = (
    ((), '{"cmd":"step","step":"local 1"}'), (TO_CHOICE, '{"cmd":"step","step":"match 2.0 0.0"}'), (UNDONE, '{"cmd":"step","step":"local 2"}'),
    ((), '{"cmd":"next"}'), (TO_CHOICE, '{"cmd":"next","choice":1}'), ((), RUN), (UNDONE, RUN), (BREAKS, RUN), (UNDONE, '{"cmd":"redo","count":2}'),
    ((), '{"cmd":"enabled"}'), (TO_CHOICE, '{"cmd":"enabled"}'), (TO_CHOICE, '{"cmd":"state"}'), (TO_CHOICE, '{"cmd":"vars","rank":0}'),
    (TO_CHOICE, '{"cmd":"calls","rank":0}'), (TO_CHOICE, '{"cmd":"why","rank":0,"call":0}'), (BREAKS, '{"cmd":"breaks"}'),
    ((*BREAKS, RUN), '{"cmd":"hit"}'), ((*BREAKS, RUN, RUN, '{"cmd":"back","count":1}'), '{"cmd":"hit"}'),
    ((), '{"cmd":"explore","runs":10,"fuel":100}'), (UNDONE, '{"cmd":"explore","runs":10,"fuel":100}'),
    ((), '{"cmd":"script"}'), (TO_CHOICE, '{"cmd":"where"}'), (TO_CHOICE, '{"cmd":"all"}'), ((), '{"cmd":"decision"}'), (TO_CHOICE, '{"cmd":"decision"}'),
    (TO_END, '{"cmd":"decision"}'), (UNDONE, '{"cmd":"steps","from":1,"count":100}'), (TO_END, '{"cmd":"lines","rank":0}'), (TO_END, '{"cmd":"explain"}'))
# What takes no memory: what goes back, breakpoints, a look at the last step where none of them or no step is there, another version, and
# what is refused.
SPARED = (
    (TO_CHOICE, '{"cmd":"back","count":2}'), (TO_CHOICE, '{"cmd":"goto","depth":0}'), (TO_CHOICE, '{"cmd":"run-back"}'),
    ((), '{"cmd":"break","kind":"match","line":2}'), (BREAKS, '{"cmd":"unbreak","break":0}'), (BREAKS, '{"cmd":"unbreak","break":7}'),
    (TO_CHOICE, '{"cmd":"hit"}'), (BREAKS, '{"cmd":"hit"}'),
    (TO_CHOICE, '{"cmd":"state","at":9}'), ((), '{"cmd":"back","count":1}'), ((), '{"cmd":"run","max":0}'), ((), '{"cmd":"vars","rank":9}'),
    ((), '{"cmd":"redo","count":1}'), ((), '{"cmd":"goto","depth":1}'), ((), '{"cmd":"lines","rank":9}'), ((), '{"cmd":"steps","from":1,"count":1}'))
# Replies that have lists, and some that have none.
WITH_LISTS = ('{"cmd":"enabled"}', '{"cmd":"state"}', '{"cmd":"calls","rank":0}', '{"cmd":"vars","rank":0}', '{"cmd":"why","rank":0,"call":0}',
              '{"cmd":"explore","runs":10,"fuel":100}', '{"cmd":"script"}', '{"cmd":"where"}', '{"cmd":"all"}', '{"cmd":"decision"}',
              '{"cmd":"steps","from":0,"count":100}', '{"cmd":"lines","rank":0}')
WITHOUT = ('{"cmd":"step","step":"match 2.0 0.0"}', '{"cmd":"back","count":1}', '{"cmd":"state","at":9}', '{"cmd":"next","choice":0}',
           '{"cmd":"next"}', '{"cmd":"hit"}')
LINES = ('{"cmd":"state"}', '{"cmd":"where"}', '{"cmd":"break","kind":"rank","rank":0}', '{"cmd":"step","step":"local 0"}', '{"cmd":"explore","runs":3,"fuel":9,"at":0}', 'x', '{"cmd":"fly"}', '{"cmd":"back"}',
         '{"cmd":["a",{"b":"c"}]}')


def sessions():
    yield Row('Session::start', RACE)
    for lines, request in REQUESTS:
        yield Row('Session::answer', RACE, lines, request)
        yield Row('Book::take', RACE, lines, request)
        yield Row('Shared::call', RACE, lines, request)
    yield Row('Session::answer', RACE, (), '{"cmd":"step","step":"wake 0"}', steady=True)
    for lines, request in SPARED:
        yield Row('Session::answer', RACE, lines, request, spares=True)
    for request in LINES:
        yield Row('mpd_wire::parse', RACE, (), request)
        yield Row('mpd_wire::parse_by', RACE, (), request)
    for call in ('mpd_wire::parse', 'mpd_wire::parse_by'):
        yield Row(call, RACE, (), ' ' * 4097, spares=True)
    for request in WITH_LISTS:
        yield Row('Reply::copy', RACE, TO_CHOICE, request)
    for request in WITHOUT:
        yield Row('Reply::copy', RACE, TO_CHOICE, request, spares=True)
    for request in (*WITH_LISTS, *WITHOUT):
        yield Row('mpd_wire::print', RACE, TO_CHOICE, request)
    yield Row('same_request, same_reply', RACE, TO_CHOICE, '{"cmd":"enabled"}', by_hand='true false true\n', spares=True)
    for lines in ((), (*TO_CHOICE, '{"cmd":"state"}', '{"cmd":"next","choice":1}')):
        yield Row('Book::new, len, audit', RACE, lines, spares=True)
    yield Row('Shared::new', RACE)
    # the nodes, the seat of client 1 without a receipt, that of client 0 with two, which aren't there when it is settled
    yield Row('Shared::settle, code, SeatDesk', RACE, (RUN, '{"cmd":"state"}'), by_hand=no_state('4 1 0 2 true\n'), spares=True)


# What `check` is asked by itself.
CHECK_FLAGS = ('ends', 'outcomes', 'explain', 'group', 'until deadlock', 'witness', 'traps', 'complete', 'pieces', 'json')


# Words of a command line, and what they are read as: of `check` the runs, the fuel, the split and the workers, and then what else was given.
READ_OPTIONS = (
    ('check a --runs 7 --workers 3', 'check a rendezvous 7 100000 1 3 runs'), ('trace a --mode b', 'trace a b false'),
    ('diagnose a', 'diagnose a - false -'), ('diagnose --strict a --mode b', 'diagnose a b true -'), ('diagnose --modes 7 a', 'diagnose a - 7 false -'),
    ('diagnose a --ranks 2-5', 'diagnose a - false 2-5'), ('diagnose --json a', 'diagnose a - false - json'), ('diagnose a --ranks=', 'diagnose a - false '),
    ('run a --ranks 16', 'run a rendezvous false\nranks 16'), ('run a --ranks 17', 'usage false 2'), ('c a --ranks 3', 'c a\nranks 3'),
    ('trace a --echo', 'trace a rendezvous true'), ('debug a --echo --width 132', 'debug a rendezvous - - false true 132 false 24'),
    ('debug a', 'debug a rendezvous - - false false 80 false 24'), ('dap a --mode b', 'dap a b - - false'),
    ('dap a --choices 3 --ends', 'dap a rendezvous 3 - true'),
    ('debug a --view --height 10', 'debug a rendezvous - - false false 80 true 10'), ('debug a --mode b --witness c', 'debug a b - c false false 80 false 24'),
    ('debug a --choices 3 --ends', 'debug a rendezvous 3 - true false 80 false 24'),
    ('serve a --port 80 --clients 2', 'serve a rendezvous 80 2 false'), ('serve a --wide --port 80 --clients 2', 'serve a rendezvous 80 2 true'), ('verify a b', 'verify a b rendezvous'),
    ('verify a b --leaf 7', 'verify a b rendezvous 7'), ('words a --choices 3 --fuel 9', 'words a 3 rendezvous 9 false'),
    ('words a --choices 3 --ends', 'words a 3 rendezvous 100000 true'), ('c a', 'c a'),
    ('picture a', 'picture a rendezvous - - - 100000 false false false'), ('picture a --ends', 'picture a rendezvous - - - 100000 true false false'),
    ('picture a --plain', 'picture a rendezvous - - - 100000 false true false'), ('picture a --large', 'picture a rendezvous - - - 100000 false false true'), ('page a --runs 7 --hide', 'page a rendezvous - - - 7 100000 100000 false true'),
    ('picture a --choices 1 --witness 2 --words 3 --fuel 4 --mode 5', 'picture a 5 1 2 3 4 false false false'),
    ('run a', 'run a rendezvous false'), ('run a --wide', 'run a rendezvous true'), *((f'check a --{flag}', f'check a rendezvous 1000 100000 1 4 {flag.split()[0]}') for flag in CHECK_FLAGS),
    ('check a --modes 2 --runs 3 --fuel 4 --split 5 --workers 6', 'check a rendezvous 3 4 5 6 runs split modes 2'),
    ('check a --states 7 --sample 8 --seed 9 --piece 10', 'check a rendezvous 1000 100000 1 4 states 7 sample 8 piece 10 seed 9'),
    ('page a --choices 1 --witness 2 --words 3 --runs 4 --fuel 5 --states 6 --mode 7 --ends', 'page a 7 1 2 3 4 5 6 true false'),
    ('debug a --choices 1 --witness 2 --mode 3 --width 40 --height 50', 'debug a 3 1 2 false false 40 false 50'),
    ('dap a --choices 1 --witness 2', 'dap a rendezvous 1 2 false'), ('verify a b --mode c', 'verify a b c'),
    ('words a --choices 1 --mode 2', 'words a 1 2 100000 false'), ('serve a --port 80 --clients 2 --mode b', 'serve a b 80 2 false'),
    ('check a --runs 0', 'usage false 2'), ('fly', 'usage false 2'), ('--help', 'usage true 0'))


def programs():
    words = '\n'.join((*ENDED, 'show', 'enabled', 'back', 'redo', 'goto 0', 'fly', 'show')) + '\n'
    yield Row('trace', MESSAGE, (), words)
    for call in ('plain', 'plain_keeping'):
        yield Row(call, argument=f'{MESSAGE}\n---\n{words}')
        yield Row(call, argument=f'{MISSING}---\n')
    requests = '\n'.join((RUN, '{"cmd":"state"}', '{"cmd":"next","choice":1}', 'x', '', '{"cmd":"breaks"}', RUN, '{"cmd":"enabled"}', '{"cmd":"where"}')) + '\n'
    for call in ('mpd_server::run', 'run_by', 'serve', 'serve_by'):
        yield Row(call, RACE, (), requests)
    yield Row('TraceDesk::start', MESSAGE, by_hand=no_state('started\n'))
    yield Row('Divider::new', by_hand=no_state('made\n'))
    # the line ends behind byte 8, and three bytes of a script stand before it
    yield Row('Divider looks', argument='ab\n---\nlocal 0\n', by_hand=no_state('7 3\n'), spares=True)
    for words, told in READ_OPTIONS:
        yield Row('read_options', argument=words, by_hand=no_state(told + '\n'))
    for words, told in (('fly', 'false 2 3'), ('--help', 'true 0 3')):
        yield Row('UsageFault looks', argument=words, by_hand=no_state(told + '\n'), spares=True)
    for text, told in (('buffered', 'true false false true'), ('match 0.0 1.0', 'false true true true'), ('goto 3', 'false false true true'),
                       (' ', 'false false false false')):
        yield Row('mode_of, step_of, trace_word_of, has_word', argument=text, by_hand=no_state(told + '\n'), spares=True)


def rows():
    """All of them."""
    for part in (scripts, expressions, lists, boards, cores, trails, wides, reports, listings, asks, pictures, pages, sessions, programs, consoles, sizes):
        yield from part()
