"""Faults of the lines of the console's model: how long ones are cut, steps in words, calls, the script, variables, requests that are lost, and why
a call isn't matched (console_faults.py)."""

import re
from inspect import isfunction

from faults.policy_faults import Breakage
from model import console, console_lines, debugger, explaining, marks
from model.debugger import call_line, find_call, last_call
from model.worlds import CallId

SOUND = {name: value for name, value in vars(console_lines).items() if isfunction(value)}
# The functions that the console has by their names.
ALSO_IN_CONSOLE = ('step_words', 'plural')
# Those that it takes from the explanations.
IN_EXPLANATIONS = ('short_text',)
SOUND |= {name: getattr(explaining, name) for name in IN_EXPLANATIONS}


def named(name, faults):
    """Faults that stand in the place of a function, each by what it is called; of one that the console has by its name, there, and of one that it
    takes from the explanations, in these."""
    owner = console if name in ALSO_IN_CONSOLE else explaining if name in IN_EXPLANATIONS else console_lines
    return [Breakage(f'{name}: {what}', owner, name, replacement) for what, replacement in faults.items()]


def changed(name, change):
    """What gives something else, by what the sound function gives, and what it is given."""
    return lambda *given: change(SOUND[name](*given), *given)


# ---- long lines

def cut_at_first(line, room):
    """What cuts at the first blank that has something before it."""
    place = SOUND['cut'](line, room)
    return place if place is None else line.index(' ', len(line) - len(line.lstrip(' ')))


def cut_anyhow(line, room):
    """What cuts where there is no room, blank or not, where no blank stands before that."""
    place = SOUND['cut'](line, room)
    return room if len(line) > room and (place is None or place > room) else place


def never_behind(line, room):
    """What leaves a line that has no blank in its room."""
    place = SOUND['cut'](line, room)
    return None if place is not None and place > room else place


def cut_at_any(line, room):
    """What cuts at blanks that have nothing but blanks before them, too."""
    place = line.rfind(' ', 0, room + 1) if len(line) > room else -1
    return SOUND['cut'](line, room) if place < 0 else place


def within(more, of_further=None):
    """What has more room, or less, in a first line and in further ones."""
    by_room = {console_lines.WIDTH: more, console_lines.WIDTH - console_lines.INDENT: more if of_further is None else of_further}
    return lambda line, room: SOUND['cut'](line, room + by_room.get(room, 0))


def one_byte_later(line, room):
    """What wants one byte less before a blank."""
    return SOUND['cut'](line, room) if len(line) <= room else SOUND['cut'](line, room - 1)


def folded_once(line, width=console_lines.WIDTH):
    """What cuts a line once."""
    first, *others = SOUND['folded'](line, width)
    return [first] if not others else [first, f'        {line[len(first) + 1:]}']


def with_blanks(change):
    """What writes other blanks before what goes on."""
    return changed('folded', lambda lines, *_: [*lines[:1], *(change(line) for line in lines[1:])])


def fold_faults():
    return [
        *named('cut', {
            'at the first blank': cut_at_first,
            'where no blank is, too': cut_anyhow,
            'at no blank that is behind the room': never_behind,
            'at blanks in front': cut_at_any,
            'one byte more': within(1),
            'one byte less': within(-1),
            'as much room in further lines': within(0, console_lines.INDENT),
            'one byte more in further lines': within(0, 1),
            'one byte less in further lines': within(0, -1),
            'one byte less before a blank': one_byte_later}),
        *named('folded', {
            'not at all': lambda line, width: [line],
            'at 80 at any width': lambda line, width: SOUND['folded'](line),
            'once': folded_once,
            'seven blanks': with_blanks(lambda line: line[1:]),
            'ten blanks': with_blanks(lambda line: f'  {line}'),
            'no blanks': with_blanks(lambda line: line[8:]),
            'no line of blanks alone': changed('folded', lambda lines, *_: [line for line in lines if line.strip(' ') or line == lines[0]])}),
        Breakage('folded: a list, too', console, 'UNFOLDED', console.UNFOLDED - {'list'}),
        Breakage('folded: a state, too', console, 'UNFOLDED', console.UNFOLDED - {'show'}),
        *[Breakage(f'folded: all but {word}', console, 'UNFOLDED', console.UNFOLDED | {word})
          for word in ('help', 'print', 'vars', 'why', 'run', 'next', 'back')]]


# ---- steps

def told_otherwise(kind, change):
    """What tells the steps of a kind otherwise, by the sound words, the world and the step."""
    return lambda at, step: change(SOUND['step_words'](at, step), at, step) if step.kind == kind else SOUND['step_words'](at, step)


def line_behind(text, at, step):
    """A step at the line where its rank goes on."""
    rank = at.world.ranks[step.first]
    return re.sub(r'line \d+', f'line {rank.rest[0].line if rank.rest else 0}', text)


def wake_behind(text, at, step):
    """A wake by a handle at the line where its rank goes on, and its call as it is."""
    head, by, call = text.partition(', by ')
    return line_behind(head, at, step) + by + call


def with_all(text, at, step):
    """A wake by a handle whose call is shown whole."""
    return f'{text.partition(", by ")[0]}, by {SOUND["whole_text"](at, SOUND["request_of"](at.world, step))}'


def call_of_place(world, step):
    """The call of a rank that has the number of the place."""
    return CallId(step.first, step.second)


def handle_of_place(world, step):
    """What the handle of a rank holds that has the number of the place, else what is sought."""
    held = world.ranks[step.first].handles[step.second]
    return SOUND['request_of'](world, step) if held is None else CallId(step.first, held)


def swapped(text, at, step):
    """A match with its lines the other way round."""
    first, second = re.findall(r'line (\d+)', text)
    return text.replace(f'line {first}, to', f'line {second}, to')[:-len(second)] + first


def lines_changed(change):
    """What gives calls other lines."""
    return changed('reached', lambda at, walked: at._replace(lines=change(at.lines, at.world)))


def sends_and_receives_alone(lines, world):
    return {call_id: line for call_id, line in lines.items() if find_call(world, call_id).kind in ('send', 'recv')}


def of_first_call(lines, world):
    return {call_id: lines[CallId(call_id.rank, 0)] for call_id in lines}


def candidates_from_0(lines, *_):
    return [re.sub(r'^  (\d+)', lambda found: f'  {int(found[1]) - 1}', line) for line in lines]


def step_faults():
    return [
        *named('step_words', {
            'a match without lines': told_otherwise('match', lambda text, *_: re.sub(r', line \d+', '', text)),
            'the lines of a match swapped': told_otherwise('match', swapped),
            'the ranks of a match alone': told_otherwise('match', lambda text, *_: text.partition(':')[0]),
            'a wake at the line behind': told_otherwise('wake', line_behind),
            'a wake by a handle at the line behind': told_otherwise('wakeany', wake_behind),
            'a wake by a handle without its call': told_otherwise('wakeany', lambda text, *_: text.partition(', by ')[0]),
            'a wake by a handle and its call with all that is shown': told_otherwise('wakeany', with_all),
            'the line of a wake by a handle left out': told_otherwise('wakeany', lambda text, *_: re.sub(r': line \d+, by', ': by', text)),
            'a release as its word': told_otherwise('release', lambda text, *_: text.partition(':')[0]),
            'a local step without its line': told_otherwise('local', lambda text, *_: text.partition(':')[0])}),
        *named('request_of', {
            'the call of the number of the place': call_of_place,
            'the handle of the number of the place': handle_of_place}),
        *named('reached', {
            'lines of messages alone': lines_changed(sends_and_receives_alone),
            "the line of the rank's first call": lines_changed(of_first_call),
            'one line more': lines_changed(lambda lines, world: {call_id: line + 1 for call_id, line in lines.items()})}),
        *named('plural', {
            'never one': lambda count, word: f'{count} {word}s',
            'none is one': lambda count, word: f'{count} {word}' if count < 2 else f'{count} {word}s'}),
        *named('chosen_for', {
            'the send of a match': lambda at, step: step.first if step.kind == 'match' else SOUND['chosen_for'](at, step)}),
        *named('choice_lines', {
            'candidates from 0': changed('choice_lines', candidates_from_0),
            'no spaces in front': changed('choice_lines', lambda lines, *_: [line.strip() for line in lines]),
            'no rank': changed('choice_lines', lambda lines, *_: [f'stopped at a choice; {console_lines.TAKES_ONE}', *lines[1:]]),
            'no way to take one': changed('choice_lines', lambda lines, *_: [lines[0].replace(f'; {console_lines.TAKES_ONE}', ':'), *lines[1:]]),
            'no way to take one of several calls': changed('choice_lines', lambda lines, *_: [
                lines[0].replace(f'choice; {console_lines.TAKES_ONE}', 'choice:'), *lines[1:]]),
            'always a rank': lambda at, names, text, steps: [*SOUND['choice_lines'](at, names, text, steps[:1])[:1],
                                                            *SOUND['choice_lines'](at, names, text, steps)[1:]],
            'no colon': changed('choice_lines', lambda lines, *_: [lines[0].rstrip(':'), *lines[1:]]),
            'no line of the script': changed('choice_lines', lambda lines, at, names, text, steps: [lines[0], *lines[-len(steps):]]),
            'a line of the script for each of several': lines_of_all}),
        *named('step_told', {
            'the receive of each match': lambda at, names, step, is_one: SOUND['step_told'](at, names, step, is_one and step.kind != 'match'),
            'the rank of each wake': lambda at, names, step, is_one: SOUND['step_told'](at, names, step, is_one and step.kind != 'wakeany'),
            'no receive of any': lambda at, names, step, is_one: SOUND['step_told'](at, names, step, True)}),
        *named('message_told', {
            'no value': changed('message_told', lambda text, *_: re.sub(r' -?\d+, tag', ', tag', text)),
            'no tag': changed('message_told', lambda text, *_: re.sub(r', tag \d+', '', text)),
            'no line': changed('message_told', lambda text, *_: text.partition(' (')[0]),
            'the line of the receive': lambda at, step: f'{SOUND["message_told"](at, step).partition(" (")[0]} {console_lines.in_line(at, step.second)}'}),
        *named('request_told', {
            'no name': changed('request_told', lambda text, *_: re.sub(r'request \S+,', 'request,', text)),
            'no value': changed('request_told', lambda text, *_: text.partition(' (')[0]),
            'the line of the wait': lambda at, names, step: re.sub(
                r'line \d+', f'line {console_lines.line_of(at, debugger.last_call(at.world, step.first))}', SOUND['request_told'](at, names, step)),
            'all receives': changed('request_told', lambda text, *_: text.replace('the send', 'the receive'))}),
        *named('candidate_words', {
            'no trace word': changed('candidate_words', lambda text, *_: text.rpartition('; ')[0]),
            'the trace word first': changed('candidate_words', lambda text, *_: '; '.join(text.rpartition('; ')[::-2]))}),
        *named('end_places', {
            'no places': lambda at, outcome: '',
            'no trap': changed('end_places', lambda text, *_: re.sub(r' \([a-z-]+\)', '', text)),
            'the first alone': changed('end_places', lambda text, *_: text.partition(', ')[0]),
            'calls for lines': lambda at, outcome: ': ' + outcome.partition(' ')[2] if ' ' in outcome else ''}),
        *named('lines_about', {
            'the send of a match alone': changed('lines_about', lambda lines, *_: lines[:1]),
            'the receive of a match alone': changed('lines_about', lambda lines, *_: lines[-1:]),
            'the receive of a match first': changed('lines_about', lambda lines, *_: lines[::-1]),
            'by their numbers': changed('lines_about', lambda lines, *_: sorted(lines)),
            'one line twice': both_lines,
            'the line of the request of a wait for any, too': with_request,
            'a wake where its rank goes on': goes_on_at,
            'all ranks at a barrier': barrier_lines_too}),
        *named('source', {
            'without numbers': changed('source', lambda lines, *_: [line[7:] for line in lines]),
            'by two spaces': changed('source', lambda lines, *_: [f'  {line.lstrip(" ")}' for line in lines]),
            'without blanks in front': changed('source', lambda lines, *_: [f'{line[:7]}{line[7:].lstrip(" ")}' for line in lines]),
            'from line 0': lambda text, numbers: SOUND['source'](text, [number + 1 for number in numbers]),
            'carriage returns': lambda text, numbers: [SOUND['numbered'](number, text.decode().split('\n')[number - 1]) for number in numbers]})]


def lines_of_all(at, names, text, steps):
    """What tells a line of the script for each of several calls."""
    lines = SOUND['choice_lines'](at, names, text, steps)
    calls = dict.fromkeys(console_lines.chosen_for(at, step) for step in steps)
    numbers = dict.fromkeys(console_lines.line_of(at, call_id) for call_id in calls)
    return lines if len(calls) == 1 else [lines[0], *console_lines.source(text, numbers), *lines[1:]]


def both_lines(at, step):
    """What tells both lines of a match where they are one."""
    lines = SOUND['lines_about'](at, step)
    return lines * 2 if step.kind == 'match' and len(lines) == 1 else lines


def with_request(at, step):
    lines = SOUND['lines_about'](at, step)
    return [*lines, console_lines.line_of(at, SOUND['request_of'](at.world, step))] if step.kind == 'wakeany' else lines


def goes_on_at(at, step):
    """What tells the line behind a wake."""
    rank = at.world.ranks[step.first] if step.kind.startswith('wake') else None
    return SOUND['lines_about'](at, step) if rank is None or rank.rest is None else [rank.rest[0].line]


def barrier_lines_too(at, step):
    """What tells the lines of the barriers that a release is of."""
    numbers = [console_lines.line_of(at, last_call(at.world, number)) for number in range(len(at.world.ranks))]
    return list(dict.fromkeys(numbers)) if step.kind == 'release' else SOUND['lines_about'](at, step)


# ---- the script

def next_statement(at, number):
    """What has a blocked rank at its next statement."""
    rank = at.world.ranks[number]
    return SOUND['stands_at'](at, number) if rank.rest is None else rank.rest[0].line


def nowhere(mode):
    """What has a rank nowhere that is of a mode."""
    return lambda at, number: None if at.world.ranks[number].mode == mode else SOUND['stands_at'](at, number)


def about(number):
    """What lists so many lines about a rank's."""
    def list_about(at, text, rank):
        line = SOUND['stands_at'](at, rank)
        return SOUND['list_about'](at, text, rank) if line is None else list(console_lines.listed(at, text, range(line - number, line + number + 1)))
    return list_about


def with_ended(at, text, number):
    """What tells below some lines, too, which ranks have ended."""
    whole = SOUND['whole_list'](at, text)
    return SOUND['list_about'](at, text, number) + [line for line in whole[-1:] if line.startswith('ended: ')]


def each_line(change):
    """What lists each line otherwise."""
    return lambda at, text, lines: map(change, SOUND['listed'](at, text, lines))


def list_faults():
    return [
        *named('source_lines', {
            'one behind the last line feed': lambda text: [line.removesuffix('\r') for line in text.decode().split('\n')],
            'carriage returns': lambda text: text.decode().removesuffix('\n').split('\n'),
            'all carriage returns dropped': changed('source_lines', lambda lines, _: [line.rstrip('\r') for line in lines]),
            'no blanks at the end': changed('source_lines', lambda lines, _: [line.rstrip() for line in lines]),
            'no empty lines at the end': lambda text: SOUND['source_lines'](text.rstrip()),
            'tabs as spaces': changed('source_lines', lambda lines, _: [line.replace('\t', ' ') for line in lines])}),
        *named('stands_at', {
            'a blocked rank at its next statement': next_statement,
            'a trapped rank nowhere': nowhere('trapped'),
            'a blocked rank nowhere': nowhere('blocked')}),
        *named('standing', {
            'that one waits not told': changed('standing', lambda text, *_: text.removesuffix(' waits')),
            'that one can go on not told': changed('standing', lambda text, *_: text.removesuffix(' can go on')),
            'one that can go on waits': changed('standing', lambda text, *_: text.replace(' can go on', ' waits')),
            'trapped not told': changed('standing', lambda text, *_: text.removesuffix(' trapped'))}),
        *named('listed', {
            'four columns': each_line(lambda line: line[1:]),
            'a colon': each_line(lambda line: f'{line[:5]}:{line[6:]}'),
            'one space before ranks': each_line(lambda line: line.replace('  <- ', ' <- ')),
            'ranks by a blank': each_line(lambda line: re.sub(r'(<- .*)', lambda found: found[1].replace(',', ''), line))}),
        *named('whole_list', {
            'without those that have ended': changed('whole_list', lambda lines, *_: [line for line in lines if not line.startswith('ended')])}),
        *named('list_about', {
            'three lines': about(3),
            'five lines': about(5),
            'who has ended, too': with_ended})]


# ---- variables, calls, and why

def variables_first(at, names, number):
    """What has variables before requests."""
    by_kind = dict(sorted(names.items(), key=lambda item: item[1].kind == 'req'))
    return SOUND['variable_lines'](at, by_kind, number)


def requests_left_out(at, names, number):
    return SOUND['variable_lines'](at, {name: declared for name, declared in names.items() if declared.kind == 'var'}, number)


def printed_first(at, names, number):
    lines = SOUND['variable_lines'](at, names, number)
    return sorted(lines, key=lambda line: ' has printed ' not in line)


def always_printed(at, names, number):
    lines = SOUND['variable_lines'](at, names, number)
    return lines if at.world.ranks[number].printed else [*lines, f'rank {number} has printed']


def lost_before_printed(at, names, number):
    lines = SOUND['variable_lines'](at, names, number)
    return [*lines[:1], *sorted(lines[1:], key=lambda line: ' has printed ' in line)]


def name_by_name(at, names, number):
    """What has a line for each name."""
    lines = [SOUND['names_line'](at, {name: declared}, number) for name, declared in names.items()]
    return [*(lines or [SOUND['names_line'](at, names, number)]), *SOUND['variable_lines'](at, names, number)[1:]]


def in_words(at, number, declared, place):
    """What tells a request in words."""
    held = declared.kind == 'req' and at.world.ranks[number].handles[declared.first + place] is not None
    return SOUND['request_text'](at, number, declared.first + place) if held else SOUND['short_text'](at, number, declared, place)


def number_alone(at, number, declared, place):
    """What tells a request by the number of its call."""
    return SOUND['short_text'](at, number, declared, place).rpartition('.')[2]


def short_faults():
    return [
        *named('short_text', {
            'a request in words': in_words,
            'the number of a call alone': number_alone,
            'none for no request': changed('short_text', lambda text, *_: 'none' if text == '-' else text)}),
        Breakage('short_value: 15 cells', explaining, 'SHOWN', explaining.SHOWN - 1),
        Breakage('short_value: 17 cells', explaining, 'SHOWN', explaining.SHOWN + 1),
        *named('short_value', {
            'no sign of more': changed('short_value', lambda text, *_: text.replace(', ..', '')),
            'a sign of more behind the bracket': changed('short_value', lambda text, *_: text.replace(', ..]', '], ..')),
            'a sign of more where there are 16': lambda at, number, declared: (
                f'{SOUND["short_value"](at, number, declared)[:-1]}, ..]' if declared.size == 16 else SOUND['short_value'](at, number, declared)),
            'no cell': changed('short_value', lambda text, *_: 'no cell' if text == '[]' else text),
            'no brackets': changed('short_value', lambda text, *_: text.strip('[]') or text),
            'no blank behind a comma': changed('short_value', lambda text, *_: text.replace(', ', ',')),
            'one cell as it is': lambda at, number, declared: (
                SOUND['short_text'](at, number, declared, 0) if declared.size == 1 else SOUND['short_value'](at, number, declared))}),
        *named('names_line', {
            'no line where nothing is declared': lambda at, names, number: SOUND['names_line'](at, names, number) if names else f'rank {number}:',
            'no variable where requests are alone': lambda at, names, number: (
                SOUND['names_line'](at, names if any(declared.kind == 'var' for declared in names.values()) else {}, number)),
            'no array of no cells': lambda at, names, number: SOUND['names_line'](
                at, {name: declared for name, declared in names.items() if declared.size != 0}, number)})]


# ---- requests that are lost

def lost_where(is_lost):
    """What takes other calls as lost: by the world, the rank, the call and its name."""
    return lambda world, call_id: is_lost(world, world.ranks[call_id.rank], find_call(world, call_id), call_id)


def is_request(call):
    return call.kind in console_lines.MESSAGES and not call.blocks


def sound_lost(world, call_id):
    return SOUND['is_told_lost'](world, call_id)


def has_issued_any(rank):
    return any(call.kind == 'waitany' for call in rank.calls)


def held_or_any(world, rank, call, call_id):
    """Whether a call is lost, be it complete or not, beside waits for any, too."""
    return is_request(call) and not SOUND['may_be_waited_for'](rank, call_id.number)


def by_ranks(calls):
    return [[call_id for call_id in calls if call_id.rank == number] for number in sorted({call_id.rank for call_id in calls})]


def lost_faults():
    return [
        *named('is_told_lost', {
            'complete ones beside a wait for any': lost_where(held_or_any),
            'sends that are complete, too': lost_where(lambda world, rank, call, call_id: held_or_any(world, rank, call, call_id) and not (
                debugger.is_done(world, call_id) and has_issued_any(rank))),
            'none that is complete': lost_where(lambda world, rank, call, call_id: sound_lost(world, call_id) and not debugger.is_done(world, call_id)),
            'none beside a wait for any': lost_where(lambda world, rank, call, call_id: sound_lost(world, call_id) and not has_issued_any(rank)),
            'a wait for any of another rank': lost_where(lambda world, rank, call, call_id: sound_lost(world, call_id) and not (
                debugger.is_done(world, call_id) and any(map(has_issued_any, world.ranks)))),
            'beside a wait for any that is over': lost_where(lambda world, rank, call, call_id: held_or_any(world, rank, call, call_id) and not (
                debugger.is_done(world, call_id) and rank.calls[-1].kind == 'waitany' and rank.mode == 'blocked')),
            'receives alone': lost_where(lambda world, rank, call, call_id: sound_lost(world, call_id) and call.kind == 'recv'),
            'sends alone': lost_where(lambda world, rank, call, call_id: sound_lost(world, call_id) and call.kind == 'send'),
            'synchronous sends left out': lost_where(lambda world, rank, call, call_id: sound_lost(world, call_id) and not call.synchronous),
            'blocking calls, too': lost_where(lambda world, rank, call, call_id: sound_lost(world, call_id) or (
                call.kind in console_lines.MESSAGES and call.blocks)),
            'free ones alone are none': lost_where(lambda world, rank, call, call_id: sound_lost(world, call_id) or (
                is_request(call) and call_id.number in rank.free and rank.mode == 'running' and rank.rest is None)),
            'of a rank that has ended alone': lost_where(lambda world, rank, call, call_id: sound_lost(world, call_id) and (
                console_lines.has_ended(rank)))}),
        *named('may_be_waited_for', {
            'handles alone': lambda rank, number: number in rank.handles,
            'waits alone': lambda rank, number: any(call.kind == 'wait' and call.target == number for call in rank.calls),
            'the last wait alone': lambda rank, number: number in rank.handles or any(
                call.kind == 'wait' and call.target == number for call in rank.calls[-1:])}),
        *named('lost_lines', {
            'the last one first': changed('lost_lines', lambda lines, *_: lines[::-1]),
            'the first one alone': changed('lost_lines', lambda lines, *_: lines[:1]),
            'no line': changed('lost_lines', lambda lines, *_: [re.sub(r'line \d+, ', '', line) for line in lines])}),
        *named('lost_by_lines', {
            'each by itself': lambda at, calls: [SOUND['lost_line'](at, [call_id]) for call_id in calls],
            'those of a rank together': lambda at, calls: [SOUND['lost_line'](at, found) for found in by_ranks(calls)],
            'the last of a line': lambda at, calls: SOUND['lost_by_lines'](at, calls[::-1])[::-1],
            'the first of a line alone': lambda at, calls: [line for line in SOUND['lost_by_lines'](at, calls[:1])]}),
        *named('lost_line', {
            'one less': lambda at, found: SOUND['lost_line'](at, found[:1] + found[2:]),
            'without their number': lambda at, found: SOUND['lost_line'](at, found[:1])}),
        *named('place_of', {
            'the line alone': lambda at, call_id: at.lines[call_id], 'the rank alone': lambda at, call_id: call_id.rank,
            'each call': lambda at, call_id: call_id})]


def whole_request(at, number, handle):
    held = at.world.ranks[number].handles[handle]
    return SOUND['request_text'](at, number, handle) if held is None else SOUND['whole_text'](at, CallId(number, held))


def variable_faults():
    return [
        *named('request_text', {
            'a sign where there is none': changed('request_text', lambda text, *_: text.replace('no request', '-')),
            'with all that is shown': whole_request,
            'its number alone': lambda at, number, handle: str(at.world.ranks[number].handles[handle])}),
        *named('value_line', {
            'no cell left out': changed('value_line', lambda text, *_: text.replace('has no cell', '')),
            'no rank': changed('value_line', lambda text, *_: text.partition(': ')[2])}),
        *named('place_name', {
            'no index': lambda name, declared, place: name,
            'indexes from 1': lambda name, declared, place: SOUND['place_name'](name, declared, place + 1)}),
        *named('variable_lines', {
            'variables before requests': variables_first,
            'no requests': requests_left_out,
            'output first': printed_first,
            'output that is none': always_printed,
            'requests that are lost before output': lost_before_printed,
            'no requests that are lost': changed('variable_lines', lambda lines, *_: [line for line in lines if ' has lost ' not in line]),
            'a line for each name': name_by_name}),
        *named('rank_line', {
            'at the call that it can go on from': changed('rank_line', lambda text, *_: text.replace('go on from', 'go on at')),
            'no name of a trap': changed('rank_line', lambda text, *_: text.partition(': ')[0] if 'trapped' in text else text),
            'no call': changed('rank_line', lambda text, *_: text.partition(',')[0]),
            'no line of a trap': changed('rank_line', lambda text, *_: re.sub(r'trapped at line \d+', 'trapped', text))}),
        *named('whole_text', {
            'without what is shown behind': lambda at, call_id: explaining.call_text(at, call_id),
            'without its line': lambda at, call_id: call_line(at.world, call_id).removeprefix('call '),
            'without buffered': changed('whole_text', lambda text, *_: text.replace(' buffered', ''))})]


def sends_of(at):
    return [line for line in SOUND['queue_lines'](at) if line.startswith('pending')]


def by_receiver(at):
    """What has free sends by receiver, and those of one by sender."""
    sends = sends_of(at)
    return sorted(sends, key=lambda line: line.split(':')[0].split()[::-2]) + SOUND['queue_lines'](at)[len(sends):]


def queue_faults():
    return [
        *named('queue_lines', {
            'receives first': changed('queue_lines', lambda lines, _: sorted(lines, key=lambda line: line.startswith('pending'))),
            'sends alone': sends_of,
            'by receiver first': by_receiver,
            'no line': changed('queue_lines', lambda lines, _: [re.sub(r'line \d+, ', '', line) for line in lines])})]


def waits_behind(world, call_id):
    """What has the requests of a wait as long as its rank waits alone."""
    return SOUND['requests'](world, call_id) if SOUND['is_waited_at'](world, call_id) else []


def requests_now(world, call_id):
    """What has what the handles of a wait for any hold now."""
    call = find_call(world, call_id)
    if call.kind != 'waitany':
        return SOUND['requests'](world, call_id)
    return [CallId(call_id.rank, handle) for handle in world.ranks[call_id.rank].handles[call.first:call.first + call.count] if handle is not None]


def all_chances(at, call_id):
    """What tells near misses also of a call that could be matched."""
    lines = SOUND['message_lines'](at, call_id)
    more = [f'    {line}' for line in explaining.chances(at, call_id)]
    return lines if len(lines) == 1 or lines[1].startswith('  has no') else lines + more


def no_partner_of_paired(at, call_id):
    lines = SOUND['message_lines'](at, call_id)
    return lines if len(lines) > 1 else [*lines, '  is matched']


def last_waited(at, call_id):
    """What tells of a wait without the wait itself."""
    lines = SOUND['why_lines'](at, call_id)
    return lines[1:] if find_call(at.world, call_id).kind == 'wait' and len(lines) > 1 else lines


def first_partner(at, call_id):
    """What tells the first partner alone."""
    lines = SOUND['message_lines'](at, call_id)
    return lines[:2] if len(lines) > 1 and 'matched with' in lines[1] else lines


def barrier_lines(change):
    """What tells of a barrier otherwise."""
    def why_lines(at, call_id):
        lines = SOUND['why_lines'](at, call_id)
        return change(lines) if find_call(at.world, call_id).kind == 'barrier' else lines
    return why_lines


# ---- ranks that can go on

def is_waiting(kind, world, number):
    """Whether a rank waits in a call of a kind."""
    return world.ranks[number].mode == 'blocked' and find_call(world, last_call(world, number)).kind == kind


def by_any(world, number):
    """What takes a wake by a request of a wait for any for one."""
    return any(step.kind in ('wake', 'wakeany') and step.first == number for step in debugger.enabled_steps(world))


def by_release(world, number):
    """What takes the release of a barrier for a wake of those that are at it."""
    can_leave = is_waiting('barrier', world, number) and debugger.Step('release') in debugger.enabled_steps(world)
    return can_leave or SOUND['can_go_on'](world, number)


def first_alone(world, number):
    """What tells it of the first rank alone."""
    return SOUND['can_go_on'](world, number) and not any(SOUND['can_go_on'](world, other) for other in range(number))


def of_pairs(world, number):
    """What tells it of calls that are paired alone, and of no wait."""
    return SOUND['can_go_on'](world, number) and debugger.partner(world, last_call(world, number)) is not None


def going_faults():
    return [
        *named('can_go_on', {
            'never': lambda world, number: False,
            'each rank that waits': lambda world, number: world.ranks[number].mode == 'blocked',
            'a wait for any by a request': by_any,
            'no wait for any': lambda world, number: not is_waiting('waitany', world, number) and SOUND['can_go_on'](world, number),
            'a barrier that is complete': by_release,
            'the first rank alone': first_alone,
            'none but of a pair': of_pairs}),
        *named('waiting_lines', {
            'it is not told': lambda at, call_id: console_lines.why_lines(at, call_id),
            'it alone': changed('waiting_lines', lambda lines, *_: lines[-1:] if 'complete' in lines[-1] else lines),
            'it is told first': changed('waiting_lines', lambda lines, *_: [*lines[-1:], *lines[:-1]] if 'complete' in lines[-1] else lines),
            'it is told right behind the call': changed('waiting_lines', lambda lines, *_: [lines[0], *lines[-1:], *lines[1:-1]]
                                                         if 'complete' in lines[-1] else lines),
            'no rank': changed('waiting_lines', lambda lines, *_: [line.partition(': rank')[0] if 'complete' in line else line for line in lines]),
            'four spaces': changed('waiting_lines', lambda lines, *_: [f'  {line}' if 'complete' in line else line for line in lines])})]


# ---- ranks that aren't at a barrier, where they can go on

SOUND_ABSENCE = explaining.why_not_there


def absent(mode, change):
    """What tells otherwise where a rank of a mode is that isn't at a barrier and hasn't ended, by where it is reached, and the rank's number."""
    def why_not_there(at, number):
        rank = at.world.ranks[number]
        return change(at, number) if rank.mode == mode and not explaining.has_ended(rank) else SOUND_ABSENCE(at, number)
    return why_not_there


def next_of(at, number):
    """What tells the next statement of a rank whose call is complete."""
    rank = at.world.ranks[number]
    if not SOUND['can_go_on'](at.world, number):
        return SOUND_ABSENCE(at, number)
    return 'it has ended' if rank.rest is None else f'it is at line {explaining.next_line(rank)}'


def going_on(at, number):
    """What says that a rank whose call is complete can go on."""
    told = SOUND_ABSENCE(at, number)
    return told.replace('it waits at', 'it can go on from') if SOUND['can_go_on'](at.world, number) else told


def at_last_call(at, number):
    """What says that a rank which can go on waits at its last call, where it has one."""
    call_id = last_call(at.world, number)
    return SOUND_ABSENCE(at, number) if call_id.number < 0 else f'it waits at {explaining.call_text(at, call_id)}'


def line_of_last_call(at, number):
    call_id = last_call(at.world, number)
    return SOUND_ABSENCE(at, number) if call_id.number < 0 else f'it is at line {SOUND["line_of"](at, call_id)}'


def line_moved(by):
    return lambda at, number: f'it is at line {explaining.next_line(at.world.ranks[number]) + by}'


def absence_faults():
    kinds = {'running': 'a rank that runs', 'trapped': 'a rank that is trapped'}
    faults = {f'{what} {told}': absent(mode, change) for mode, what in kinds.items() for told, change in {
        'has ended': lambda at, number: 'it has ended',
        'is at another call': lambda at, number: 'it is at another call',
        'waits at its last call': at_last_call,
        'is at the line of its last call': line_of_last_call,
        'is at the line before': line_moved(-1),
        'is at the line behind': line_moved(1)}.items()}
    faults |= {
        'a rank that is trapped, with the trap': absent('trapped', lambda at, number: f'{SOUND_ABSENCE(at, number)}: {at.world.ranks[number].trap}'),
        'a rank whose call is complete is at its next statement': absent('blocked', next_of),
        'a rank whose call is complete can go on': absent('blocked', going_on)}
    return [Breakage(f'why_not_there: {what}', explaining, 'why_not_there', replacement) for what, replacement in faults.items()]


def why_faults():
    return [
        *named('partner_line', {
            'all can be matched': lambda at, other, held: SOUND['partner_line'](at, other, None),
            'what holds it back is itself': lambda at, other, held: SOUND['partner_line'](at, other, held and other),
            'no spaces': changed('partner_line', lambda text, *_: text.strip())}),
        *named('message_lines', {
            'no near misses': changed('message_lines', lambda lines, *_: [line for line in lines if not line.startswith('    ')]),
            'near misses by two spaces': changed('message_lines', lambda lines, *_: [line.replace('    ', '  ', 1) for line in lines]),
            'near misses always': all_chances,
            'a pair told': no_partner_of_paired,
            'no wish': changed('message_lines', lambda lines, *_: [line.partition(': for')[0] for line in lines]),
            'the first partner alone': first_partner}),
        *named('requests', {
            'none of a wait that is behind': waits_behind,
            'what handles hold now': requests_now,
            'the first alone': changed('requests', lambda found, *_: found[:1])}),
        *named('why_lines', {
            'barriers by two spaces': barrier_lines(lambda lines: [line.replace('    ', '  ', 1) for line in lines]),
            'no ranks at a barrier': barrier_lines(lambda lines: lines[:1]),
            'a wait without itself': last_waited}),
        *named('is_waited_at', {
            'any call of a blocked rank': lambda world, call_id: world.ranks[call_id.rank].mode == 'blocked',
            'the last call': lambda world, call_id: last_call(world, call_id.rank) == call_id,
            'always': lambda world, call_id: debugger.find_call(world, call_id) is not None})]


def mark_faults():
    sound = marks.places_of
    return [
        Breakage('places_of: of the line before', marks, 'places_of', lambda text: {number - 1: place for number, place in sound(text).items()}),
        Breakage('places_of: none', marks, 'places_of', lambda text: {}),
        Breakage('MARK: a blank before the sign', marks, 'MARK', re.compile(rb' ?' + marks.MARK.pattern, re.DOTALL)),
        Breakage('NAMED: the first digit', marks, 'NAMED', re.compile('(?<![A-Za-z0-9_])(?:line ([0-9])|lines ([0-9 ,]+))')),
        Breakage('depth_of: never in parentheses', marks, 'depth_of', lambda text: 0),
        Breakage('SOURCE: lines of the script too', marks, 'SOURCE', re.compile('(?!)')),
        Breakage('marked: the first line alone', marks, 'named_lines', lambda line, named=marks.named_lines: list(named(line))[:1])]


def line_faults():
    return [*fold_faults(), *step_faults(), *list_faults(), *short_faults(), *lost_faults(), *variable_faults(), *queue_faults(), *going_faults(),
            *absence_faults(), *why_faults(), *mark_faults()]
