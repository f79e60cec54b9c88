"""Random scripts: their tokens, the spacing between them, and mutations of both."""

from model.language import HIGHEST, LEVELS, RESERVED, WORD

NAMES = ('x', 'y', 'i', 'j', 'a', 'b', '_', 'x1', 'Rank', 'sizes', 'tag_', 'A' * 64, 'iff', 'waitany_', 'mpd1', '_9')
HANDLE_NAMES = ('r', 'q', 'req_', 'h', 'isend1', 'wait_', 'R' * 64, 'anyway')
NUMBERS = (0, 1, 2, 3, 5, 7, 10, 63, 64, 2147483647, 2147483648, 4294967296, 3037000499, 3037000500,
           4611686018427387904, 9223372036854775806, 9223372036854775807, 32767, 32768, 16)
COUNTED = frozenset(sign for level in LEVELS for sign in level) | frozenset('([!')
WORD_CHARACTERS = frozenset('abcdefghijklmnopqrstuvwxyzABCDEFGHIJKLMNOPQRSTUVWXYZ_0123456789')
COMMENT_CHARACTERS = 'ab;{}$\t# \r&-'

# What mutations put in.
PIECES = (
    'mpd', 'ranks', 'var', 'req', 'if', 'else', 'while', 'print', 'assert', 'send', 'ssend', 'isend', 'issend',
    'recv', 'irecv', 'wait', 'waitany', 'barrier', 'to', 'from', 'tag', 'any', 'status', 'rank', 'size',
    ';', '{', '}', '(', ')', '[', ']', '=', '==', '!=', '<', '<=', '>', '>=', '+', '-', '*', '/', '%', '!', '&&', '||',
    '&', '|', '$', '.', ',', '"', "'", '@', '0', '1', '2', '16', '17', '18',
    '9223372036854775807', '9223372036854775808', '99999999999999999999999999', '0' * 40 + '1',
    'nope', 'x', 'y', 'a', 'A' * 64, 'A' * 65, '1x', '0x10', '&&&', '|||', '===', '<==', '!==', '!!', '--', '# c',
    '\x00', '\x7f', '\x80', '\xff', '\x0b', '\x0c', '\x1b', '\t', '\r', '\n', '#\x01',
    'var x;', 'var q[3];', 'var q[0];', 'req r;', 'req h[2];', 'r', 'h', 'wait r;', 'isend r', 'irecv r x', 'x', 'if 1 {', '{ }', 'print 1;', 'waitany', '~', '\\', '`', '^', '?', ':',
    '1.5', 'a[', ']', 'MPD', 'Var')
BYTES = (0, 7, 9, 10, 11, 12, 13, 27, 31, 32, 35, 36, 38, 45, 46, 59, 61, 33, 60, 62, 91, 93, 64, 95, 96,
         123, 124, 125, 126, 127, 128, 160, 194, 255, 48, 57, 65)


def header(ranks, version=1):
    return ['mpd', str(version), ';', 'ranks', str(ranks), ';']


def declaration(name, size, kind='var'):
    return [kind, name] + ([] if size is None else ['[', str(size), ']']) + [';']


def made_up_name(random, number):
    """A name that no other number gives; many begin alike, and some are as long as allowed and differ at the end alone."""
    if random.random() < 0.1:
        return 'n' * 60 + f'{number:04}'
    front = random.choice(['v', '_', 'rank', 'x_', 'A'])
    return (f'{front}{number}' + '_' * random.choice([0, 0, 0, 1, 20, 60]))[:64]


def made_up_names(random, count):
    """So many names, no two alike."""
    names = [made_up_name(random, number) for number in range(count)]
    random.shuffle(names)
    return names


def synchronous(random, share=0.3):
    """What stands before `send` in its word: now and then the `s` of a synchronous one."""
    return 's' if random.random() < share else ''


class Writer:
    """Writes a random script of a version as a list of tokens; a calm one avoids most traps."""

    def __init__(self, random, ranks, count=None, version=1):
        self.random = random
        self.ranks = ranks
        self.version = version
        self.calm = self.chance(0.5)
        self.variables = []
        if count is None:
            count = random.randint(0, 5) if self.chance(0.9) else random.randint(6, 40)
        names = made_up_names(random, count + 1) if count > 5 else random.sample(NAMES, 6)
        for name in names[:count]:
            unsteady_size = None if self.calm else random.randint(0, 4)
            size = random.choice([None, None, unsteady_size, random.randint(1, 3)])
            self.variables.append((name, size))
        if self.chance(0.85) and all(size is not None for _, size in self.variables):
            self.variables.append((names[count], None))
        self.handles = []
        for name in random.sample(HANDLE_NAMES, random.choice([0, 0, 1, 1, 2, 3] if version == 1 else [1, 1, 2, 3])):
            self.handles.append((name, random.choice([None, None, 1, 2, 3] + ([] if self.calm else [0, 5]))))

    def chance(self, probability):
        return self.random.random() < probability

    def number(self):
        if self.calm:
            return str(self.random.randint(0, 4))
        if self.chance(0.55):
            value = self.random.randint(0, 4)
        elif self.chance(0.8):
            value = self.random.choice(NUMBERS)
        else:
            value = self.random.randint(0, HIGHEST)
        zeros = '0' * self.random.randint(1, 30) if self.chance(0.03) else ''
        return zeros + str(value)

    def place(self, depth):
        """A scalar or an element; None where no variable is declared."""
        return self.one_of(self.variables, depth) if self.variables else None

    def one_of(self, declared, depth):
        """One of the declared names, with an index where it is an array."""
        name, size = self.random.choice(declared)
        if size is None:
            return [name]
        if self.calm and self.chance(0.97):
            if self.chance(0.8) or size < 2:
                index = [str(self.random.randint(0, size - 1))]
            else:
                index = ['(', 'rank', '+', str(self.random.randint(0, 9)), ')', '%', str(size)]
        else:
            index = self.small_index(size) if self.chance(0.8) else self.logical(depth - 1)
        return [name, '[', *index, ']']

    def small_index(self, size):
        draw = self.random.random()
        if draw < 0.7:
            return [str(self.random.randint(0, max(0, size - 1)))]
        if draw < 0.8:
            return ['rank']
        if draw < 0.9:
            return [str(size)]
        return ['-', '1']

    def atom(self, depth):
        draw = self.random.random()
        if draw < 0.35 or depth <= 0:
            return self.random.choice([[self.number()], [self.number()], ['rank'], ['size']])
        if draw < 0.45:
            return ['rank']
        if draw < 0.5:
            return ['size']
        if draw < 0.8:
            place = self.place(depth)
            if place:
                return place
        return ['(', *self.logical(depth - 1), ')']

    def unary(self, depth):
        signs = []
        while self.chance(0.18):
            signs.append(self.random.choice('-!'))
        return signs + self.atom(depth)

    def chain(self, operand, signs, probability, depth):
        tokens = operand(depth)
        while self.chance(probability):
            tokens = tokens + [self.random.choice(signs)] + operand(depth)
        return tokens

    def product(self, depth):
        return self.chain(self.unary, '*' if self.calm else '*/%', 0.18, depth)

    def sum(self, depth):
        return self.chain(self.product, '+-', 0.2, depth)

    def comparison(self, depth):
        tokens = self.sum(depth)
        if self.chance(0.15):
            tokens = tokens + [self.random.choice(['==', '!=', '<', '<=', '>', '>='])] + self.sum(depth)
        return tokens

    def conjunction(self, depth):
        return self.chain(self.comparison, ['&&'], 0.12, depth)

    def logical(self, depth):
        return self.chain(self.conjunction, ['||'], 0.1, depth)

    def expression(self, depth=None):
        """An expression with no more operators than allowed."""
        if depth is None:
            depth = self.random.choice([0, 1, 2, 3, 4])
        for _ in range(20):
            tokens = self.logical(depth)
            if sum(token in COUNTED for token in tokens) <= 64:
                return tokens
        return ['1']

    def tag(self):
        draw = self.random.random()
        if draw < 0.85 or self.calm:
            return [str(self.random.randint(0, 1))]
        if draw < 0.9:
            return [self.random.choice(['32767', '32768', '0'])]
        if draw < 0.95:
            return ['-', '1']
        return self.expression(1)

    def rank(self):
        draw = self.random.random()
        if draw < 0.75:
            return [str(self.random.randint(0, self.ranks - 1))]
        if draw < 0.85:
            return ['(', 'rank', '+', '1', ')', '%', 'size']
        if draw < 0.9:
            return ['size', '-', '1', '-', 'rank']
        if self.calm:
            return [str(self.random.randint(0, self.ranks - 1))]
        if draw < 0.94:
            return [str(self.ranks)]
        return self.expression(1)

    def send(self, to=None, tag=None, handle=None):
        value = self.expression(self.random.choice([0, 0, 1, 2]))
        word = synchronous(self.random) + 'send'
        word = [f'i{word}', *handle] if handle else [word]
        return [*word, *value, 'to', *(to or self.rank()), 'tag', *(tag or self.tag()), ';']

    def receive(self, source=None, tag=None, handle=None):
        place = self.place(2)
        if not place:
            return ['print', '0', ';']
        word = ['irecv', *handle] if handle else ['recv']
        source = ['any'] if self.chance(0.2) else source or self.rank()
        tag = ['any'] if self.chance(0.15) else tag or self.tag()
        return [*word, *place, 'from', *source, 'tag', *tag, *self.status(place), ';']

    def status(self, target):
        """Mostly none; else two places, now and then the one that the value goes to."""
        if self.chance(0.85):
            return []
        return ['status', *(target if self.chance(0.2) else self.place(2)), *(target if self.chance(0.2) else self.place(2))]

    def handle(self):
        return self.one_of(self.handles, 1)

    def request(self):
        """A statement about a handle, or in version 2 about all of a declaration."""
        if self.version > 1 and self.chance(0.35):
            return self.wait_for_any()
        draw = self.random.random()
        if draw < 0.3:
            return self.send(handle=self.handle())
        return self.receive(handle=self.handle()) if draw < 0.6 else ['wait', *self.handle(), ';']

    def wait_for_any(self):
        place = self.place(2)
        return ['waitany', self.random.choice(self.handles)[0], 'to', *place, ';'] if place else ['print', '0', ';']

    def block(self, depth):
        tokens = ['{']
        for _ in range(self.random.choice([0, 1, 1, 2, 3])):
            tokens += self.statement(depth - 1)
        return tokens + ['}']

    def statement(self, depth):
        if self.chance(0.02):
            return ['barrier', ';']
        draw = self.random.random()
        if draw < 0.17:
            place = self.place(2)
            if place:
                return [*place, '=', *self.expression(), ';']
        if draw < 0.3:
            return ['print', *self.expression(), ';']
        if draw < 0.36:
            return self.assertion()
        if draw < 0.5 and depth > 0:
            return self.branch(depth)
        if draw < 0.58 and depth > 0:
            return self.loop(depth)
        if self.handles and self.chance(0.4):
            return self.request()
        return self.send() if draw < 0.8 else self.receive()

    def assertion(self):
        if self.calm:
            conditions = [['1'], ['rank', '<', 'size'], ['1', '||', '1', '/', '0']]
        else:
            conditions = [['1'], ['rank', '!=', '1'], self.expression()]
        return ['assert', *self.random.choice(conditions), ';']

    def branch(self, depth):
        conditions = [['rank', '==', str(self.random.randint(0, self.ranks - 1))], self.expression(2)]
        tokens = ['if', *self.random.choice(conditions), *self.block(depth)]
        if self.chance(0.5):
            tokens += ['else', *self.block(depth)]
        return tokens

    def loop(self, depth):
        """Mostly a loop that counts a scalar up, so that it ends."""
        scalars = [name for name, size in self.variables if size is None]
        if scalars and self.chance(0.8):
            name = self.random.choice(scalars)
            body = self.block(depth)[:-1] + [name, '=', name, '+', '1', ';', '}']
            return ['while', name, '<', str(self.random.randint(1, 3)), *body]
        return ['while', *self.expression(1), *self.block(depth)]

    def wait_for(self, handle):
        """A wait for a handle, or in version 2 one for any of those that it stands among."""
        if self.version > 1 and self.chance(0.5) and (place := self.place(2)):
            return ['waitany', handle[0], 'to', *place, ';']
        return ['wait', *handle, ';']

    def messages(self):
        """For each rank its sends, receives and waits of some messages, nearly consistent."""
        parts, waits = [[] for _ in range(self.ranks)], [[] for _ in range(self.ranks)]
        for _ in range(self.random.randint(1, 7)):
            source, destination = self.random.randrange(self.ranks), self.random.randrange(self.ranks)
            if source == destination and self.chance(0.9):
                destination = (source + 1) % self.ranks
            tag = str(self.random.randint(0, 1))
            handles = [self.handle() if self.handles and self.chance(0.4) else None for _ in range(2)]
            parts[source].append(self.send([str(destination)], [tag], handles[0]))
            if not self.chance(0.93):
                tag = str(self.random.randint(0, 2))
            parts[destination].append(self.receive([str(source)], [tag], handles[1]))
            for rank, handle in zip((source, destination), handles):
                if handle and self.chance(0.7):
                    waits[rank].append(self.wait_for(handle))
        for part, waited in zip(parts, waits):
            for wait in waited:
                part.insert(len(part) if self.chance(0.8) else self.random.randint(0, len(part)), wait)
            if len(part) > 1 and self.chance(0.1):
                first = self.random.randrange(len(part) - 1)
                part[first], part[first + 1] = part[first + 1], part[first]
            for _ in range(self.random.randint(0, 2)):
                part.insert(self.random.randint(0, len(part)), self.statement(1))
        if self.chance(0.3):
            self.meet(parts)
        return parts

    def meet(self, parts):
        """Puts barriers into the parts of all ranks, now and then of all but one."""
        for _ in range(self.random.choice([1, 1, 2])):
            absent = self.random.randrange(self.ranks) if self.chance(0.15) else None
            for rank, part in enumerate(parts):
                if rank != absent:
                    part.insert(len(part) if self.chance(0.4) else self.random.randint(0, len(part)), ['barrier', ';'])

    def protocol(self):
        """The messages of each rank in a branch of its own, one behind the other or one in the `else` of the other."""
        parts = self.messages()
        nested = self.chance(0.4)
        tokens = []
        for rank, part in enumerate(parts):
            tokens += ['if', 'rank', '==', str(rank), '{']
            for statement in part:
                tokens += statement
            tokens.append('}')
            if nested and rank < self.ranks - 1:
                tokens += ['else', '{']
        return tokens + ['}'] * (self.ranks - 1 if nested else 0)

    def declarations(self):
        """All declarations; those of handles stand anywhere between those of variables."""
        declared = [declaration(name, size) for name, size in self.variables]
        for name, size in self.handles:
            declared.insert(self.random.randint(0, len(declared)), declaration(name, size, 'req'))
        return sum(declared, [])

    def script(self):
        version = str(self.version) if self.chance(0.95) else f'00{self.version}'
        ranks = str(self.ranks) if self.chance(0.95) else f'00{self.ranks}'
        tokens = ['mpd', version, ';', 'ranks', ranks, ';', *self.declarations()]
        for name, size in self.variables:
            if self.chance(0.5):
                value = self.expression(self.random.choice([0, 0, 1]))
                tokens += [name, *([] if size is None else ['[', '0', ']']), '=', *value, ';']
        if self.chance(0.5):
            tokens += self.protocol()
        if self.chance(0.2):
            tokens += ['barrier', ';']
        for _ in range(self.random.choice([0, 1, 2, 3, 5])):
            tokens += self.statement(3)
        return tokens


def needs_gap(random, token, following):
    """Whether two tokens without a blank would be read as others."""
    if token[-1] in WORD_CHARACTERS and following[0] in WORD_CHARACTERS:
        number_before_name = token.isdigit() and not following[0].isdigit()
        return not (number_before_name and random.random() < 0.5)
    return token + following in ('&&', '||') or (token in ('=', '!', '<', '>') and following[0] == '=')


def blanks(random, gap):
    """Random blanks and comments, at least one where a gap is needed."""
    text = ''
    while random.random() < 0.5 or (gap and not text):
        draw = random.random()
        if draw < 0.9:
            limits = ((0.5, ' '), (0.7, '\n'), (0.78, '\r\n'), (0.86, '\t'), (0.9, '\r'))
            text += next(blank for limit, blank in limits if draw < limit)
        else:
            length = random.randint(0, 6)
            text += '#' + ''.join(random.choice(COMMENT_CHARACTERS) for _ in range(length)) + '\n'
    return text


def rendered(random, tokens):
    """The bytes of a script, spaced densely, by lines or at random."""
    style = random.random()
    text = ''
    for place, token in enumerate(tokens):
        if place:
            before = tokens[place - 1]
            gap = needs_gap(random, before, token)
            if style < 0.2:
                text += ' ' if gap else ''
            elif style < 0.5:
                text += '\n' if before in (';', '{', '}') and random.random() < 0.7 else ' '
            else:
                text += blanks(random, gap)
        text += token
    draw = random.random()
    if draw < 0.2:
        text += '\n' * random.randint(1, 3)
    elif draw < 0.25:
        text += '# end'
    elif draw < 0.28:
        text = '\n# head\n' + text
    return text.encode('latin-1')


def name_places(tokens):
    return [place for place, token in enumerate(tokens) if WORD.match(token) and token not in RESERVED]


def replace_number(random, tokens):
    places = [place for place, token in enumerate(tokens) if token[0].isdigit()]
    if places:
        tokens[random.choice(places)] = random.choice([
            '9223372036854775808', '9' * 30, '18446744073709551616', '18446744073709551615', '1025', '1024', '17', '0',
            '4294967297', '340282366920938463463374607431768211457'])


def replace_name(random, tokens):
    places = name_places(tokens)
    if places:
        tokens[random.choice(places)] = random.choice([
            'nope', 'q', 'z', 'A' * 65, 'A' * 64, 'rank', 'size', 'any', 'to'])


def declare_again(random, tokens, declared):
    name = random.choice(declared)[0] if declared else 'x'
    size = random.choice(['0', '2', '256', '257', '1024', '1025', '99999999999999999999'])
    tokens[6:6] = [random.choice(['var', 'var', 'req']), name, *random.choice([[';'], ['[', size, ']', ';'], ['$'], ['[']])]


def change_kind(random, tokens, declared):
    """Puts a declared name in place of another, mostly of the other kind."""
    places = name_places(tokens)
    if places and declared:
        tokens[random.choice(places)] = random.choice(declared)[0]


def change_bracket(random, tokens):
    """Takes the bracket behind a name away, or puts one there."""
    places = name_places(tokens)
    if places:
        behind = random.choice(places) + 1
        if behind < len(tokens) and tokens[behind] == '[':
            del tokens[behind]
        else:
            tokens[behind:behind] = random.choice([['['], ['[', '0', ']']])


def change_token(random, kind, tokens, place):
    """Deletes, doubles, swaps, replaces or inserts a token, or cuts the tokens from it on off."""
    if kind == 'delete':
        del tokens[place]
    elif kind == 'double':
        tokens.insert(place, tokens[place])
    elif kind == 'swap':
        other = min(len(tokens) - 1, place + 1) if random.random() < 0.6 else random.randrange(len(tokens))
        tokens[place], tokens[other] = tokens[other], tokens[place]
    elif kind == 'replace':
        tokens[place] = random.choice(PIECES)
    elif kind == 'insert':
        tokens.insert(place, random.choice(PIECES))
    elif kind == 'cut':
        del tokens[place:]


def mutated_tokens(random, tokens, declared):
    tokens = list(tokens)
    kind = random.choice(['delete', 'double', 'swap', 'replace', 'insert', 'replace', 'insert', 'number', 'name',
                          'version', 'ranks', 'cut', 'declare', 'bracket', 'delete', 'kind', 'kind'])
    place = random.randrange(len(tokens))
    if kind == 'number':
        replace_number(random, tokens)
    elif kind == 'name':
        replace_name(random, tokens)
    elif kind == 'version':
        tokens[1] = random.choice(['0', '2', '3', '01', '10', '11', 'x', '9223372036854775808', '$', 'waitany'])
    elif kind == 'ranks':
        tokens[4] = random.choice(['0', '17', '16', '016', '1000', '9223372036854775808', 'x', '$', '00'])
    elif kind == 'declare':
        declare_again(random, tokens, declared)
    elif kind == 'kind':
        change_kind(random, tokens, declared)
    elif kind == 'bracket':
        change_bracket(random, tokens)
    else:
        change_token(random, kind, tokens, place)
    return tokens


def mutated_bytes(random, data):
    data = bytearray(data)
    for _ in range(random.choice([1, 1, 2])):
        place = random.randrange(len(data) + 1)
        draw = random.random()
        if draw < 0.35:
            data[place:place] = bytes([random.choice(BYTES)])
        elif draw < 0.5:
            data[place:place] = bytes([random.randrange(256)])
        elif draw < 0.8 and place < len(data):
            del data[place]
        elif place < len(data):
            data[place] = random.randrange(256)
    return bytes(data)
