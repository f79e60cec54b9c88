"""Faults that are put into how the model's sessions read lines and write replies; compare/runs/sessions.py must notice each."""

import json
import re

from faults.policy_faults import Breakage
from model import debugger, json_text, session
from model.debugger import lines_of
from model.json_text import NoJson, Reader
from model.session import BAD_FIELD, LINE_TOO_LONG, NOT_JSON, UNKNOWN_COMMAND, Refused, must_be

ANSWER_LINE, PARSE, READ_FIELDS, READ_JSON = session.answer_line, session.parse, session.read_fields, session.read_json
REPLIES, REPLY_BYTES, NUMBER_IN, STEP_IN, FIELDS_OF = session.replies, session.reply_bytes, session.number_in, session.step_in, session.fields_of
ENTRIES, READ_NUMBER, ESCAPE, CHARACTER, STRING, VALUE = Reader.entries, Reader.number, Reader.escape, Reader.character, Reader.string, Reader.value


# ---- JSON

def first_value(reader, depth):
    """What takes the first value of a key that stands twice."""
    return read_entries(reader, depth, {}, dict.setdefault)


def read_entries(reader, depth, found, keep):
    """The entries of an object, each of which is kept in some way."""
    if depth > json_text.DEEPEST:
        raise NoJson
    if reader.is_next('}'):
        return found
    while True:
        reader.must('"')
        key = reader.string()
        reader.must(':')
        keep(found, key, reader.value(depth))
        if reader.is_next('}'):
            return found
        reader.must(',')


def once(found, key, value):
    if key in found:
        raise NoJson
    found[key] = value


def doubled_refused(reader, depth):
    """What takes an object with a key that stands twice for no JSON."""
    return read_entries(reader, depth, {}, once)


def comma_taken(reader, depth):
    """What takes a comma behind the last entry."""
    reader.text = reader.text[:reader.place] + re.sub(r',([ \t\n\r]*})', r'\1', reader.text[reader.place:])
    return ENTRIES(reader, depth)


def floats_as_whole(reader):
    """What takes 1.0 for 1."""
    value = READ_NUMBER(reader)
    return int(value) if type(value) is float and value.is_integer() and 0 <= value < 2 ** 63 else value


def minus_zero(reader):
    """What takes -0 for 0."""
    value = READ_NUMBER(reader)
    return 0 if str(value) == '-0.0' else value


def exponents_as_whole(reader):
    """What takes 1e2 for 100, and no 1.0."""
    place = reader.place
    value = READ_NUMBER(reader)
    return int(value) if '.' not in reader.text[place:reader.place] and type(value) is float and 0 <= value < 2 ** 63 else value


def any_size(reader):
    """What takes numbers of any size."""
    found = reader.take(json_text.NUMBER)
    if not found:
        raise NoJson
    return float('1') / 2 if found[2] or found[1].startswith('-') else int(found[1])


def beyond_as_largest(reader):
    """What takes a number beyond 64 bits for the largest there is."""
    place = reader.place
    value = READ_NUMBER(reader)
    return json_text.LARGEST_UNSIGNED if type(value) is float and reader.text[place:reader.place].isdigit() else value


def never_too_large(reader):
    """What takes a number that is too large for a float, as one."""
    try:
        return READ_NUMBER(reader)
    except NoJson:
        if reader.text[reader.place - 1:reader.place].isdigit():
            return 0.5
        raise


def halves_taken(reader):
    """What takes half of a pair of surrogates."""
    place = reader.place
    try:
        return CHARACTER(reader)
    except NoJson:
        reader.place = place
        reader.unit()
        return '?'


def pairs_refused(reader):
    """What knows no pairs of surrogates."""
    found = CHARACTER(reader)
    if ord(found) > 0xffff:
        raise NoJson
    return found


def any_escape(reader):
    """What takes a backslash before any sign."""
    sign = reader.text[reader.place + 1:reader.place + 2]
    if sign and sign != 'u' and sign not in json_text.ESCAPED:
        reader.place += 2
        return sign
    return ESCAPE(reader)


def no_escape(reader):
    """What knows the escapes of one sign alone."""
    if reader.text[reader.place + 1:reader.place + 2] == 'u':
        raise NoJson
    return ESCAPE(reader)


def first_text_alone(data):
    """What doesn't look behind the first value."""
    try:
        return READ_JSON(data)
    except NoJson:
        try:
            return Reader(data.decode()).value(0)
        except UnicodeDecodeError:
            raise NoJson from None


def by_python(data):
    """What reads JSON as Python does."""
    try:
        return json.loads(data.decode())
    except (ValueError, RecursionError):
        raise NoJson from None


def bytes_taken(data):
    """What takes bytes that are no UTF-8."""
    return READ_JSON(data.decode(errors='replace').encode())


def mark_taken(data):
    """What passes over a byte order mark."""
    return READ_JSON(data.removeprefix(b'\xef\xbb\xbf'))


def nulls_left_out(data):
    """What takes null for a field that isn't there."""
    value = READ_JSON(data)
    return {name: one for name, one in value.items() if one is not None} if type(value) is dict else value


def with_json(name, attribute, replacement, owner=Reader):
    return Breakage(name, owner, attribute, replacement)


def json_faults():
    return [
        with_json('the first value of a doubled key', 'entries', first_value), with_json('a doubled key that is no JSON', 'entries', doubled_refused),
        with_json('a comma behind the last entry', 'entries', comma_taken), with_json('1.0 taken', 'number', floats_as_whole),
        with_json('1e2 taken', 'number', exponents_as_whole), with_json('-0 taken', 'number', minus_zero), with_json('numbers of any size', 'number', any_size),
        with_json('a number beyond 64 bits as the largest', 'number', beyond_as_largest), with_json('1e400 as a float', 'number', never_too_large),
        with_json('half of a pair of surrogates taken', 'character', halves_taken), with_json('no pair of surrogates', 'character', pairs_refused),
        with_json('any escape', 'escape', any_escape), with_json('no escape by number', 'escape', no_escape),
        with_json('leading zeros', 'NUMBER', re.compile(r'(-?[0-9]+)((?:\.[0-9]+)?(?:[eE][+-]?[0-9]+)?)'), json_text),
        with_json('a plus before a number', 'NUMBER', re.compile(r'\+?(-?(?:0|[1-9][0-9]*))((?:\.[0-9]+)?(?:[eE][+-]?[0-9]+)?)'), json_text),
        with_json('a point without digits', 'NUMBER', re.compile(r'(-?(?:0|[1-9][0-9]*))((?:\.[0-9]*)?(?:[eE][+-]?[0-9]+)?)'), json_text),
        with_json('no exponents', 'NUMBER', re.compile(r'(-?(?:0|[1-9][0-9]*))((?:\.[0-9]+)?)'), json_text),
        with_json('control characters taken', 'PLAIN', re.compile(r'[^"\\]*'), json_text),
        with_json('tabs taken in texts', 'PLAIN', re.compile(r'[^"\\\x00-\x08\x0a-\x1f]*'), json_text),
        with_json('no character 127', 'PLAIN', re.compile(r'[^"\\\x00-\x1f\x7f]*'), json_text),
        with_json('a form feed as a blank', 'BLANKS', re.compile(r'[ \t\n\r\f\v]*'), json_text), with_json('no tab as a blank', 'BLANKS', re.compile(r'[ \n\r]*'), json_text),
        with_json('no carriage return as a blank', 'BLANKS', re.compile(r'[ \t\n]*'), json_text),
        with_json('any space as a blank', 'BLANKS', re.compile(r'\s*'), json_text),
        with_json('one array more', 'DEEPEST', 128, json_text), with_json('one array less', 'DEEPEST', 126, json_text),
        with_json('200 open arrays', 'DEEPEST', 200, json_text), with_json('words in capitals', 'WORDS', {**json_text.WORDS, 'True': True, 'TRUE': True, 'None': None}, json_text),
        with_json('NaN taken', 'WORDS', {**json_text.WORDS, 'NaN': 0.5, 'Infinity': 0.5, '-Infinity': 0.5}, json_text),
        with_json('the rest of a line not looked at', 'read_json', first_text_alone, session), with_json('JSON as Python reads it', 'read_json', by_python, session),
        with_json('bytes that are no UTF-8 taken', 'read_json', bytes_taken, session), with_json('a byte order mark passed over', 'read_json', mark_taken, session),
        with_json('null for a field that is left out', 'read_json', nulls_left_out, session)]


# ---- requests

def as_not_json(line, wide=False):
    """What tells what is no object as no JSON."""
    try:
        return PARSE(line, wide)
    except Refused as refused:
        if refused.number == BAD_FIELD and type(READ_JSON(line)) is not dict:
            raise Refused(NOT_JSON) from None
        raise


def unknown_without_command(line, wide=False):
    """What tells a missing command as an unknown one."""
    try:
        return PARSE(line, wide)
    except Refused as refused:
        value = READ_JSON(line) if refused.number == BAD_FIELD else None
        if type(value) is dict and 'cmd' not in value:
            raise Refused(UNKNOWN_COMMAND) from None
        raise


def json_before_length(line, wide=False):
    """What tells a long line as no JSON where it is none."""
    if len(line) > session.LONGEST_LINE:
        try:
            READ_JSON(line)
        except NoJson:
            raise Refused(NOT_JSON) from None
    return PARSE(line, wide)


def fields_before_command(line, wide=False):
    """What tests the version before whether the command is known."""
    try:
        return PARSE(line, wide)
    except Refused as refused:
        if refused.number == UNKNOWN_COMMAND and 'at' in READ_JSON(line):
            NUMBER_IN(READ_JSON(line)['at'])
        raise


def any_case(line, wide=False):
    """What takes a command in capitals."""
    try:
        value = READ_JSON(line)
    except NoJson:
        return PARSE(line, wide)
    if type(value) is dict and type(value.get('cmd')) is str and value['cmd'].lower() in session.FIELDS and len(line) <= session.LONGEST_LINE:
        return PARSE(json.dumps({**value, 'cmd': value['cmd'].lower()}).encode(), wide)
    return PARSE(line, wide)


def with_blanks(line, wide=False):
    """What takes blanks about a command."""
    try:
        value = READ_JSON(line)
    except NoJson:
        return PARSE(line, wide)
    if type(value) is dict and type(value.get('cmd')) is str and value['cmd'] != value['cmd'].strip() and len(line) <= session.LONGEST_LINE:
        return PARSE(json.dumps({**value, 'cmd': value['cmd'].strip()}).encode(), wide)
    return PARSE(line, wide)


def one_field_more(command, entries, wide):
    """What doesn't look at fields that a command hasn't."""
    known = {*FIELDS_OF(command, entries), *session.MAY_HAVE.get(command, {}), 'at'}
    return READ_FIELDS(command, {name: value for name, value in entries.items() if name in known}, wide)


def other_commands_fields(command, entries, wide):
    """What takes fields of other commands too."""
    known = {*FIELDS_OF(command, entries), *session.MAY_HAVE.get(command, {}), 'at'}
    others = {name for fields in session.FIELDS.values() for name in fields}
    return READ_FIELDS(command, {name: value for name, value in entries.items() if name in known or name not in others}, wide)


def usual_fields(usual):
    """What takes a value for a field that is missing."""
    def read(command, entries, wide):
        there = {name: value for name, value in usual.items() if name in session.FIELDS[command] and name not in entries}
        return READ_FIELDS(command, {**there, **entries}, wide)
    return read


def other_kinds_fields(command, entries, wide):
    """What takes a line beside the cell of a breakpoint."""
    if command == 'break' and entries.get('kind') == 'change':
        entries = {name: value for name, value in entries.items() if name != 'line'}
    return READ_FIELDS(command, entries, wide)


def kind_unlooked(command, entries, wide):
    """What takes each kind of breakpoint that isn't known for one on a line."""
    if command == 'break' and 'kind' in entries and entries['kind'] not in session.FIELDS_OF_KINDS:
        entries = {**entries, 'kind': 'line'}
    return READ_FIELDS(command, entries, wide)


def bad_field_for_wide(line, wide=False):
    """What tells a command that is read with `--wide` alone as a wrong field."""
    try:
        return PARSE(line, wide)
    except Refused as refused:
        if refused.number == UNKNOWN_COMMAND and READ_JSON(line)['cmd'] in session.WIDE_COMMANDS:
            raise Refused(BAD_FIELD) from None
        raise


def fields_before_wide(line, wide=False):
    """What looks at the fields of a command that is read with `--wide` alone first."""
    try:
        return PARSE(line, wide)
    except Refused as refused:
        if refused.number == UNKNOWN_COMMAND:
            PARSE(line, READ_JSON(line)['cmd'] in session.WIDE_COMMANDS)
        raise


def kind_unknown(command, entries, wide):
    """What tells a kind of breakpoint that is read with `--wide` alone as an unknown command."""
    must_be(wide or entries.get('kind') not in tuple(session.WIDE_KINDS), UNKNOWN_COMMAND)
    return READ_FIELDS(command, entries, wide)


def wide_fields_dropped(command, entries, wide):
    """What passes over the fields of a breakpoint that are read with `--wide` alone."""
    kind = entries.get('kind')
    dropped = session.WIDE_FIELDS.get(kind, ()) if command == 'break' and type(kind) is str and not wide else ()
    return READ_FIELDS(command, {name: value for name, value in entries.items() if name not in dropped}, wide)


def texts_as_numbers(value):
    """What takes a number that is written as a text."""
    return NUMBER_IN(int(value) if type(value) is str and value.isdecimal() and len(value) < 20 else value)


def truth_as_number(value):
    return NUMBER_IN(int(value) if type(value) is bool else value)


def below_zero(value):
    """What takes a number below 0 for a large one."""
    return NUMBER_IN(value % 2 ** 64 if type(value) is int and value < 0 else value)


def fits_signed(value):
    """What takes no number that doesn't fit 63 bits."""
    return NUMBER_IN(value if type(value) is not int or value < 2 ** 63 else None)


def steps_as(change):
    return lambda value: STEP_IN(change(value) if type(value) is str else value)


def exactly_printed(value):
    """What takes a step only as it is printed."""
    step = STEP_IN(value)
    must_be(debugger.step_text(step) == value, BAD_FIELD)
    return step


def bad_number_for(name, session_number=session.BAD_NUMBER):
    """What tells a wrong step by another refusal."""
    def read(value):
        try:
            return STEP_IN(value)
        except Refused:
            raise Refused(session_number if name == 'number' else session.NOT_ENABLED) from None
    return read


def replaced(what, replacement):
    """The readers of fields with another in the place of one."""
    return {command: {name: replacement if reader is what else reader for name, reader in fields.items()} for command, fields in session.FIELDS.items()}


def with_steps(name, replacement):
    return Breakage(name, session, 'FIELDS', replaced(session.STEP, replacement))


def with_numbers(name, replacement):
    return Breakage(name, session, 'FIELDS', replaced(session.NUMBER, replacement))


def wide_faults():
    """What takes something without `--wide`, or wants it for something of the closed list."""
    commands, kinds, fields = session.WIDE_COMMANDS, session.WIDE_KINDS, session.WIDE_FIELDS
    return [
        *(Breakage(f'{command} without --wide', session, 'WIDE_COMMANDS', commands - {command}) for command in sorted(commands)),
        *(Breakage(f'{command} with --wide alone', session, 'WIDE_COMMANDS', commands | {command}) for command in sorted({*session.FIELDS} - commands)),
        *(Breakage(f'breakpoints of a {kind} without --wide', session, 'WIDE_KINDS', kinds - {kind}) for kind in sorted(kinds)),
        *(Breakage(f'breakpoints of a {kind} with --wide alone', session, 'WIDE_KINDS', kinds | {kind}) for kind in ('change', 'line', 'match')),
        Breakage('a rank of a line without --wide', session, 'WIDE_FIELDS', {**fields, 'line': fields['line'] - {'rank'}}),
        Breakage('a condition without --wide', session, 'WIDE_FIELDS', {**fields, 'line': frozenset(['rank'])}),
        Breakage('a rank of a match without --wide', session, 'WIDE_FIELDS', {'line': fields['line']}),
        Breakage('a cell that changes with --wide alone', session, 'WIDE_FIELDS', {**fields, 'change': frozenset(['cell'])})]


def request_faults():
    parses = (('what is no object as no JSON', as_not_json), ('a missing command as an unknown one', unknown_without_command),
              ('JSON before the length', json_before_length), ('a field before the command', fields_before_command),
              ('commands in capitals', any_case), ('blanks about a command', with_blanks),
              ('all read without --wide', lambda line, wide=False: PARSE(line, True)), ('--wide passed over', lambda line, wide=False: PARSE(line)),
              ('a wide command as a wrong field', bad_field_for_wide), ('fields before a wide command', fields_before_wide))
    fields = (('one field too many', one_field_more), ('fields of no command', other_commands_fields),
              ('a run without its number', usual_fields({'max': 1})), ('a step back without its count', usual_fields({'count': 1})),
              ('what is explored without fuel', usual_fields({'fuel': 10})), ('a goto without its depth', usual_fields({'depth': 0})),
              ('cells without their rank', usual_fields({'rank': 0})), ('a line beside a cell', other_kinds_fields),
              ('a kind that isn\'t known', kind_unlooked), ('a wide kind as an unknown command', kind_unknown), ('wide fields passed over', wide_fields_dropped))
    return [
        *(Breakage(name, session, 'parse', replacement) for name, replacement in parses),
        *(Breakage(name, session, 'read_fields', replacement) for name, replacement in fields),
        with_numbers('numbers as texts', texts_as_numbers), with_numbers('true for 1', truth_as_number), with_numbers('numbers below 0', below_zero),
        with_numbers('numbers of 63 bits', fits_signed), with_steps('steps in capitals', steps_as(str.lower)),
        with_steps('line feeds in steps', steps_as(lambda text: text.replace('\n', ' '))), with_steps('steps as they are printed alone', exactly_printed),
        with_steps('no tabs in steps', steps_as(lambda text: text.replace('\t', '?'))),
        with_steps('no blanks about steps', steps_as(lambda text: text if text == text.strip() else '?')),
        with_steps('a wrong step as a wrong number', bad_number_for('number')), with_steps('a wrong step as not enabled', bad_number_for('step')),
        Breakage('no choice beside `next`', session, 'MAY_HAVE', {}), Breakage('a choice beside all', session, 'MAY_HAVE', {
            command: {'choice': session.NUMBER} for command in ('state', 'enabled', 'breaks', 'run-back')}),
        Breakage('longer numbers in steps', debugger, 'LONGEST_NUMBER', debugger.LONGEST_NUMBER + 1),
        Breakage('shorter numbers in steps', debugger, 'LONGEST_NUMBER', debugger.LONGEST_NUMBER - 1)]


# ---- lines and bytes

def empty_answered(held, line):
    """What answers an empty line."""
    return ANSWER_LINE(held, line or b' ')


def blank_skipped(held, line):
    """What takes a line of blanks for an empty one."""
    return ANSWER_LINE(held, line if line.strip(b' \t\r') else b'')


def carriage_return_answered(held, data):
    """What keeps the carriage return of a line."""
    pieces = data.split(b'\n')
    answers = (ANSWER_LINE(held, line) for line in pieces)
    return b''.join(REPLY_BYTES(reply) for reply in answers if reply is not None)


def last_skipped(held, data):
    """What doesn't answer a line without an end."""
    return REPLIES(held, data[:data.rfind(b'\n') + 1])


def last_return_dropped(held, data):
    """What drops a carriage return at the end of the input."""
    return REPLIES(held, data if data.endswith(b'\n') else data.removesuffix(b'\r'))


def all_returns_dropped(held, data):
    """What drops all carriage returns at the end of a line."""
    return REPLIES(held, re.sub(rb'\r+\n', b'\n', data))


def first_refusal_ends(held, data):
    """What ends at a line that is no request."""
    found = b''
    for line in lines_of(data):
        reply = ANSWER_LINE(held, line)
        found += b'' if reply is None else REPLY_BYTES(reply)
        if reply and reply.get('error') == 'not-json':
            break
    return found


def told_for_each_part(held, data):
    """What answers a line that is too long once for each part of it that fits."""
    found = b''
    for line in lines_of(data):
        reply = ANSWER_LINE(held, line)
        found += b'' if reply is None else REPLY_BYTES(reply) * max(1, -(-len(line) // session.LONGEST_LINE) - 1)
    return found


def cut_to_length(held, line):
    """What takes the first part of a line that is too long."""
    return ANSWER_LINE(held, line[:session.LONGEST_LINE])


def rest_of_long(held, data):
    """What takes up the rest of a line that is too long as a line."""
    parts = []
    for line in lines_of(data):
        parts += [line] if len(line) <= session.LONGEST_LINE else [line[:session.LONGEST_LINE + 1], line[session.LONGEST_LINE + 1:]]
    return REPLIES(held, b''.join(part + b'\n' for part in parts))


def as_text(**options):
    return lambda reply: json.dumps(reply, **options).encode() + b'\n'


def no_line_feed(reply):
    return REPLY_BYTES(reply)[:-1]


def carriage_return_too(reply):
    return REPLY_BYTES(reply)[:-1] + b'\r\n'


def floats_printed(reply):
    return REPLY_BYTES({name: float(value) if type(value) is int and name == 'depth' else value for name, value in reply.items()})


def with_null(*names):
    """What prints null for a field that isn't there."""
    return lambda reply: REPLY_BYTES({**dict.fromkeys(names), **reply} if reply['ok'] else reply)


def ok_alone(reply):
    """What leaves out that a request was refused."""
    return REPLY_BYTES(reply if reply['ok'] else {name: value for name, value in reply.items() if name != 'ok'})


def version_of_refusals(held, line):
    """What tells the version in a refusal too."""
    reply = ANSWER_LINE(held, line)
    return {**reply, 'version': held.version} if reply and not reply['ok'] else reply


def without(name, error=None):
    """What leaves out a field of a refusal."""
    return lambda reply: REPLY_BYTES({key: value for key, value in reply.items() if key != name} if reply.get('error', '') == (error or '') else reply)


def named(number, name):
    return Breakage(f'{session.NAMES[number]} as {name}', session, 'NAMES', {**session.NAMES, number: name})


def stale_first(held, line):
    """What tests the version before the command and its fields."""
    try:
        value = READ_JSON(line)
    except NoJson:
        return ANSWER_LINE(held, line)
    at = value.get('at') if type(value) is dict and len(line) <= session.LONGEST_LINE else None
    if type(at) is int and 0 <= at != held.version:
        return Refused(session.STALE, now=held.version).reply()
    return ANSWER_LINE(held, line)


def kept_from_last(held, line):
    """What asks the last request again where a line is no JSON."""
    reply = ANSWER_LINE(held, line)
    if reply and reply.get('error') == 'not-json' and getattr(held, 'last_line', None):
        return ANSWER_LINE(held, held.last_line)
    if reply and reply['ok']:
        held.last_line = line
    return reply


def line_faults():
    lines = (('an empty line answered', empty_answered), ('a line of blanks skipped', blank_skipped), ('a long line cut', cut_to_length),
             ('the version told in refusals', version_of_refusals), ('the version before the fields', stale_first), ('the last request again for no JSON', kept_from_last))
    inputs = (('a carriage return kept', carriage_return_answered), ('a last line without an end skipped', last_skipped),
              ('a carriage return dropped at the end of the input', last_return_dropped), ('all carriage returns dropped', all_returns_dropped),
              ('an end at what is no JSON', first_refusal_ends), ('a long line answered for each part', told_for_each_part),
              ('the rest of a long line taken up', rest_of_long))
    texts = (('no line feed', no_line_feed), ('CR LF', carriage_return_too), ('keys as they come', as_text(separators=(',', ':'))),
             ('keys downward', lambda reply: REPLY_BYTES(reply) and as_text(separators=(',', ':'))(dict(sorted(reply.items(), reverse=True)))),
             ('blanks in replies', as_text(sort_keys=True)), ('floats in replies', floats_printed), ('a null in the place of no outcome', with_null('outcome')),
             ('a null in the place of no breakpoint', with_null('break')), ('a refusal without ok', ok_alone), ('no version', without('version')),
             ('a stale version without the right one', without('now', 'stale')), ('a missing choice without the count', without('count', 'needs-choice')))
    return [
        *(Breakage(name, session, 'answer_line', replacement) for name, replacement in lines),
        *(Breakage(name, session, 'replies', replacement) for name, replacement in inputs),
        *(Breakage(name, session, 'reply_bytes', replacement) for name, replacement in texts),
        Breakage('one byte more in a line', session, 'LONGEST_LINE', session.LONGEST_LINE + 1),
        Breakage('one byte less in a line', session, 'LONGEST_LINE', session.LONGEST_LINE - 1), named(LINE_TOO_LONG, 'too-long'),
        *(named(number, 'refused') for number in session.NAMES), Breakage('larger counts', session, 'MOST_COUNT', session.MOST_COUNT + 1),
        Breakage('smaller counts', session, 'MOST_COUNT', session.MOST_COUNT - 1)]


def breakages():
    """All of them."""
    return [*json_faults(), *request_faults(), *wide_faults(), *line_faults()]
