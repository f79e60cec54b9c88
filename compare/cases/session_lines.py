"""Lines of requests: how an object is written, and what can be wrong with a line, each kind by its name.

A request is a list of pairs here, a name and a value, both as they are written. What spoils a line may leave a request all the same:
what it is answered is for the model to say.
"""

import json

from cases.scripts import mutated_bytes

BLANKS = ('', '', ' ', '\t', '\r', '  ', ' \t ')
SHORT = {'"': '\\"', '\\': '\\\\', '\b': '\\b', '\f': '\\f', '\n': '\\n', '\r': '\\r', '\t': '\\t'}
LENGTHS = (4094, 4095, 4096, 4096, 4097, 4097, 4098, 5000, 8192, 8193, 12288, 20000)
DEPTHS = (1, 2, 60, 125, 126, 127, 128, 129, 500, 1900)
PAIRS_OF_UNITS = ('\\ud83d\\ude00', '\\ud800\\udc00', '\\udbff\\udfff')
HALVES = ('\\ud800', '\\udfff', '\\ud800\\ud800', '\\udc00\\ud800', '\\ud800\\u0041', '\\udbffx', '\\ud800\\', '\\ud800\\n', '\\ud83d \\ude00')
WRONG_ESCAPES = ('\\x41', '\\u12', '\\u00g0', '\\u+041', '\\U0041', '\\a', '\\0', "\\'", '\\u 041', '\\', '\\v', '\\u{41}')
# Numbers that are none, are too large, or fit and are no whole number from 0.
WRONG_NUMBERS = ('01', '00', '-01', '+1', '.5', '1.', '-', '1e', '1e+', '0x1', '1_0', 'NaN', 'Infinity', '-Infinity', '--1', '1.e1', '1,0', '1 0',
                 'e1', '-.5', '- 1', 'inf', '1L', '\u0661')
TOO_LARGE = ('1e309', '1e400', '-1e400', '9' * 400, '-' + '9' * 400, '1.5e999999', '1e99999999999999999999', '0.1e320', '1' + '0' * 309,
             '-1' + '0' * 310 + '.5', '0.' + '0' * 20 + '1e340')
FLOATS = ('1.0', '0.0', '-0.0', '2.5', '1.00', '0.1e1', '1e-1', '1e-400', '0e400', '0e99999999999', '1e308', '1E0', '1e0', '1e2', '10e-1', '0E0',
          '1e+2', '3.0000000000000000000001', '1e-99999999999999999999', '0.0e99999999999999999999', '-0e1', '0.' + '0' * 400 + '1', '1' + '0' * 400 + 'e-400',
          '0.' + '0' * 400 + '1e500')
BEYOND = ('18446744073709551616', '18446744073709551617', '100000000000000000000', '9' * 100, '340282366920938463463374607431768211456',
          '1' + '0' * 308)
NEGATIVE = ('-1', '-2', '-9223372036854775808', '-9223372036854775809', '-18446744073709551615', '-100')
OTHER_VALUES = ('null', 'true', 'false', '[]', '{}', '[0]', '{"cmd":"state"}', '"0"', '""', '[[]]')
OTHER_TEXTS = ('null', 'true', '0', '[]', '{}', '["state"]', '""', '1.5')
NO_COMMANDS = ('State', 'STATE', 'states', 'stat', ' state', 'state ', 'run_back', 'runback', 'Run-Back', 'show', 'undo', 'continue', 'quit', 'exit',
               'help', 'check', 'trace', 'wakeany', 'goto 0', 'cmd', '', '\x00', 'st\u00e4te', '\U0001f600', 'state\n', 'enabled\x00', 'unbreaks',
               'breakpoint', 'hits', 'walk', 'at', 'Next', 'back ', 'vars\t', 'call', 'explores', 'run_on', 'runon', 'run on', 'Run-On', 'run-', 'run-ons')
UNKNOWN_FIELDS = ('x', '', 'At', 'CMD', 'at ', ' cmd', 'id', 'count', 'max', 'depth', 'rank', 'line', 'choice', 'kind', 'cell', 'step', 'split',
                  'version', 'ok', 'cm\u0501', '\U0001f600', '$serde_json::private::Number', '$serde_json::private::RawValue', '__proto__')
OTHERS_FIELDS = ('line', 'line', 'rank', 'cell', 'handle', 'choice', 'choice', 'max', 'count', 'depth', 'kind', 'break', 'runs', 'fuel', 'call', 'step')
ODD_STEPS = ('Local 0', 'LOCAL 0', 'local 0\n', '\nlocal 0', 'local\n0', 'local\r0', 'local 0\r', 'release\n', 'local\t0', '\tlocal 0', ' local 0', 'local 0 ',
             'local  0', 'local 00', 'local 000000000', 'local 0000000000', 'wake 1234567890', 'local', 'local 0 0', 'local x', 'local -1', 'local +0', 'local 0.0',
             'local\u00a00', 'local \u0660', 'local 0\x00', 'match 0.0', 'match 0.0 1.0 2.0', 'match 0 1', 'match 0.0,1.0', 'match .0 1.', 'match 0.0.0 1.0',
             'match 0.0\t\t1.0', 'match 00.0 01.0', 'match 999999999.0 0.999999999', 'release 0', 'Release', 'release', 'back', 'redo', 'show', 'enabled', 'goto 0',
             'wakeany 0 0', 'wake', 'wake 0', 'wakes 0', '', ' ', '\t', 'local 0, local 1', 'local 0;', '"local 0"', 'step', 'local\x0b0', 'match 0.0 1.0\n')
ODD_KINDS = ('Line', 'LINE', 'lines', 'line ', ' line', '', 'match\n', 'changes', 'Change', 'watch', 'call', 'rank', 'line\x00', 'l\u0131ne', 'matc', 'break', 'handles', 'Handle', 'request')
CHARACTERS = ('\x7f', '\x80', '\u00e4', '\u2028', '\u2029', '\ufeff', '\ufffd', '\uffff', '\U0001f600', '\U0010ffff', '/', "'", '\u00a0')
# What stands before, behind or in a text, and is no blank of JSON.
NO_BLANKS = ('\x0b', '\x0c', '\u00a0', '\u2028', '\ufeff', '\x00', '\x1f', '\u3000', '\x85', '\x7f', '\u200b', '\x1a')
NO_OBJECTS = ('null', 'true', 'false', '0', '-1', '1.5', '"state"', '"cmd"', '[]', '["cmd","state"]', '[{"cmd":"state"}]', '{}', '""', '{"a":{"cmd":"state"}}',
              '[null]', '1e5', '-0', '18446744073709551616', '"\\ud83d\\ude00"', '[1,2,3]', '{"":""}', '{"cmd":{}}', '{"cmd":[]}', '{"cmd":0}', '{"cmd":null}')
NO_JSON = ('state', 'local 0', 'show', '---', '{', '}', '[', ']', '"', '{]', '[}', '{{}}', '{"cmd"}', '{"cmd":}', '{:}', '{"a":1 "b":2}', '[1 2]', '[,]',
           '{,}', 'nul', 'nulll', 'truefalse', 'TRUE', 'None', 'undefined', '\'state\'', '{\'cmd\':\'state\'}', '{cmd:"state"}', '# {}', '// {}', '/**/{}',
           '{}/**/', '{};', '()', '<cmd>state</cmd>', '\x00', '{}\x00', '\x0b{}', '{}\x0c', '\u00a0{}', '{}\u2028', '\ufeff{"cmd":"state"}', '-', '+',
           '.', ',', ':', '{"cmd":"state"},', '[1,]', '{"a":1,}', '["cmd":"state"]', '{"cmd","state"}', '"cmd":"state"', 'GET / HTTP/1.1')
BAD_BYTES = (b'\xff', b'\xfe', b'\x80', b'\xbf', b'\xc0\x80', b'\xc0\xaf', b'\xc3', b'\xe2\x82', b'\xed\xa0\x80', b'\xed\xbf\xbf', b'\xf4\x90\x80\x80',
             b'\xf0\x80\x80\x80', b'\xf8\x88\x80\x80\x80', b'\xe0\x80\xaf', b'\xf0\x9f\x98')


CONTROLS = tuple(map(chr, [*range(10), *range(11, 32)]))


def escaped(character):
    """A character by its number, as a pair of surrogates where it has a large one."""
    return json.dumps(character)[1:-1] if ord(character) > 0xffff else f'\\u{ord(character):04x}'


def quoted(random, text, rate=0.0):
    """A text as JSON writes it, some of its characters by their numbers."""
    parts = []
    for character in text:
        if random.random() < rate:
            written = escaped(character)
            parts.append(written.upper().replace('\\U', '\\u') if random.random() < 0.3 else written)
        elif character == '/' and random.random() < 0.5:
            parts.append('\\/')
        else:
            parts.append(SHORT.get(character, character if character >= ' ' else escaped(character)))
    return f'"{"".join(parts)}"'


def pairs_of(random, fields, rate=0.0):
    """The pairs of a request by its fields, of which texts and numbers are written."""
    return [(quoted(random, name, rate), quoted(random, value, rate) if isinstance(value, str) else str(value)) for name, value in fields.items()]


def written(random, pairs, blank=0.0):
    """The object that has these pairs, with blanks between its parts now and then."""
    def gap():
        return random.choice(BLANKS) if random.random() < blank else ''
    inner = ','.join(f'{gap()}{name}{gap()}:{gap()}{value}{gap()}' for name, value in pairs)
    return f'{gap()}{{{inner}}}{gap()}'.encode()


def is_number(value):
    return value.isdecimal()


def with_value(random, pairs, values, wanted=is_number):
    """The pairs with another value in the place of one that is wanted; None where there is none."""
    places = [place for place, (name, value) in enumerate(pairs) if wanted(value)]
    if not places:
        return None
    place = random.choice(places)
    return pairs[:place] + [(pairs[place][0], random.choice(values))] + pairs[place + 1:]


def number_as(*values):
    """What puts another value in the place of a number; of a request without one, it gets an `at` of that."""
    def spoiled(random, pairs):
        return with_value(random, pairs, values) or [*pairs, ('"at"', random.choice(values))]
    return spoiled


def text_as(*values):
    return lambda random, pairs: with_value(random, pairs, values, lambda value: value.startswith('"'))


def is_command(name, value):
    """Whether a pair has the command as a text."""
    return json.loads(name) == 'cmd' and value.startswith('"')


def no_command(random, pairs):
    """The pairs with another command, which may be the right one in capitals, with a blank about it, or so."""
    def changed(command):
        alike = (command.upper(), command.title(), f' {command}', f'{command} ', f'{command}\t', command[:-1], command * 2, command.replace('-', '_'))
        chosen = random.choice(alike) if random.random() < 0.6 else random.choice(NO_COMMANDS)
        return quoted(random, chosen, random.choice([0.0, 0.0, 0.5]))
    return [(name, changed(json.loads(value)) if is_command(name, value) else value) for name, value in pairs]


def doubled(random, pairs, right_last):
    """The pairs with one of them twice, of which the other has another value."""
    name, value = random.choice(pairs)
    other = random.choice(OTHER_TEXTS + ('"state"', '"run"') if value.startswith('"') else OTHER_VALUES + ('0', '1', '2', '7'))
    rest = [pair for pair in pairs if pair[0] != name]
    both = [(name, other), (name, value)] if right_last else [(name, value), (name, other)]
    for pair in rest:
        both.insert(random.randint(0, len(both)), pair)
    return both


def right_last(random, pairs):
    return doubled(random, pairs, True)


def wrong_last(random, pairs):
    return doubled(random, pairs, False)


def doubled_alike(random, pairs):
    """The pairs with one of them twice, its name written in two ways."""
    name, value = random.choice(pairs)
    return [*pairs, (quoted(random, json.loads(name), 1.0), value)]


def field_more(random, pairs):
    """The pairs and one more, mostly of another command, whose value would be right there."""
    name = random.choice(UNKNOWN_FIELDS if random.random() < 0.4 else OTHERS_FIELDS)
    value = random.choice([*OTHER_VALUES] + ['0', '1', '"line"'] * 10)
    more = list(pairs)
    more.insert(random.randint(0, len(pairs)), (quoted(random, name), value))
    return more


def field_less(random, pairs):
    gone = random.randrange(len(pairs))
    return pairs[:gone] + pairs[gone + 1:]


def optional_null(random, pairs):
    return [*pairs, (random.choice(['"at"', '"choice"']), 'null')]


def with_field(pairs, wanted, value):
    """The pairs with another value of a field; None where there is no such field."""
    if not any(json.loads(name) == wanted for name, _ in pairs):
        return None
    return [(name, value if json.loads(name) == wanted else there) for name, there in pairs]


def odd_step(random, pairs):
    """A text that is no step, or is one in a way that isn't the printed one."""
    return with_field(pairs, 'step', quoted(random, random.choice(ODD_STEPS), random.choice([0.0, 0.3])))


def odd_kind(random, pairs):
    return with_field(pairs, 'kind', quoted(random, random.choice(ODD_KINDS)))


def other_character(random, pairs):
    """A character in a text that a line may have as it is."""
    character, draw = random.choice(CHARACTERS), random.random()
    if draw < 0.4:
        return [*pairs, ('"x"', f'"{character}"')]
    return [(name, f'"{json.loads(value)}{character}"' if is_command(name, value) else value) for name, value in pairs]


def deep_field(random, pairs):
    depth, (opening, closing) = random.choice(DEPTHS), random.choice(['[]', ('{"a":', '}')])
    core = random.choice(['0', '', '[]']) if opening == '[' else random.choice(['0', '{}', '[]'])
    value = opening * depth + core + closing * random.choice([depth, depth, depth, depth - 1])
    return [*pairs, (random.choice(['"x"', '"at"', '"cmd"']), value)]


# What changes the pairs of a request, and may give none.
OF_PAIRS = {
    'a doubled key, the right one last': right_last, 'a doubled key, the wrong one last': wrong_last, 'a doubled key, alike': doubled_alike,
    'a field more': field_more, 'a field less': field_less, 'null for a field that may be left out': optional_null,
    'null for a number': number_as('null'), 'a float': number_as(*FLOATS), 'a number below 0': number_as(*NEGATIVE), '-0': number_as('-0'),
    'a number beyond 64 bits': number_as(*BEYOND), 'a number that is too large': number_as(*TOO_LARGE), 'a number that is none': number_as(*WRONG_NUMBERS),
    'no number': number_as(*OTHER_VALUES), 'no text': text_as(*OTHER_TEXTS), 'no command': no_command, 'a deep field': deep_field, 'an odd step': odd_step, 'an odd kind': odd_kind,
    'another character': other_character,
    'half of a pair of surrogates': lambda random, pairs: [*pairs, ('"x"', f'"{random.choice(HALVES)}"')],
    'half of a pair in the command': lambda random, pairs: [('"cmd"', f'"state{random.choice(HALVES)}"')],
    'a pair of surrogates': lambda random, pairs: [*pairs, (f'"{random.choice(PAIRS_OF_UNITS)}"', '0')],
    'a pair in the command': lambda random, pairs: [('"cmd"', f'"state{random.choice(PAIRS_OF_UNITS)}"')],
    'a wrong escape': lambda random, pairs: [*pairs, ('"x"', f'"{random.choice(WRONG_ESCAPES)}"')],
    'a control character': lambda random, pairs: [*pairs, ('"x"', f'"a{random.choice(CONTROLS)}b"')],
    'no text for a name': lambda random, pairs: [*pairs, (random.choice(['0', 'null', 'at', "'at'", '[]']), '0')]}


def comma_more(random, line):
    place = random.choice([line.rfind(b'}'), line.find(b'{') + 1, line.find(b',') + 1])
    return line[:place] + b',' + line[place:]


def cut(random, line):
    return line[:random.randint(0, len(line))]


def bad_bytes(random, line):
    place = random.choice([random.randint(0, len(line)), max(0, line.rfind(b'"'))])
    return line[:place] + random.choice(BAD_BYTES) + line[place:]


def padded(random, line):
    """The line as long as a line may be, or about so: by blanks in it or by a long text."""
    length = random.choice(LENGTHS)
    draw = random.random()
    if draw < 0.4:
        return line + b' ' * (length - len(line))
    if draw < 0.6:
        return b'\t' * (length - len(line)) + line
    if draw < 0.8:
        name = line.find(b'{') + 1
        return line[:name] + b'"x":"' + b'a' * (length - len(line) - 7) + b'",' + line[name:]
    return random.choice([b'x', b'[', b' ', b'\xff', b'{']) * length


def no_blank(random, line):
    """Something that is no blank, before the line, behind it, or at one of its signs."""
    places = [0, 0, len(line), len(line), *(place for place in range(len(line)) if line[place:place + 1] in (b'{', b'}', b':', b','))]
    place = random.choice(places)
    return line[:place] + random.choice(NO_BLANKS).encode() + line[place:]


def two_objects(random, line):
    return line + random.choice([b'', b' ', b',']) + random.choice([line, b'{}', b'null', b'x', b'0'])


# What changes the bytes of a line.
OF_BYTES = {
    'a comma more': comma_more, 'a line that is cut': cut, 'bytes that are changed': lambda random, line: mutated_bytes(random, line).replace(b'\n', b' '),
    'bytes that are no UTF-8': bad_bytes, 'no blank': no_blank, 'a length': padded, 'two objects': two_objects,
    'no object': lambda random, line: random.choice(NO_OBJECTS).encode(), 'no JSON': lambda random, line: random.choice(NO_JSON).encode(),
    'blanks alone': lambda random, line: random.choice([b' ', b'\t', b'  ', b' \t', b'\r ', b'\r\r', b' ' * 4096, b' ' * 4097, b'\r', b'']),
    'a quote less': lambda random, line: line.replace(b'"', b'', 1)}
KINDS = (*OF_PAIRS, *OF_BYTES)


def kinds_for(pairs):
    """The kinds, of which those that are for a step or for a breakpoint stand more than once where the request is one."""
    return KINDS + ('an odd step',) * 6 * ('"step"' in dict(pairs)) + ('an odd kind', 'a field more', 'a field less') * 3 * ('"kind"' in dict(pairs))


def are_read(pairs):
    """Whether the names and texts of pairs can be read, so that more may be changed of them."""
    try:
        read = [json.loads(text) for pair in pairs for text in pair if text.startswith('"')]
        return all(name.startswith('"') for name, _ in pairs) and all(text.encode() is not None for text in read)
    except ValueError:
        return False


def spoiled(random, kind, pairs):
    """The line of a request that is spoiled in a way; None where that can't be done to it."""
    if kind in OF_BYTES:
        return OF_BYTES[kind](random, written(random, pairs))
    changed = OF_PAIRS[kind](random, pairs)
    if changed and random.random() < 0.2:
        changed = OF_PAIRS[random.choice(list(OF_PAIRS))](random, changed) if are_read(changed) else changed
    return None if changed is None else written(random, changed, random.choice([0.0, 0.0, 0.2]))
