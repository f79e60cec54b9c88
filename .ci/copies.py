"""Copies of functions, beside them and under names of their own, in which edits.py makes its edits.

Two edits of one function can't stand in one text. Two copies of it can: each has the function's clauses, attributes and proof files,
and one edit in its body. The function itself stays as it is, so that what calls it is proved as ever, and no goal waits for it.

A copy could be refused for being a copy. So some are made with no edit in them, the controls: one of each function that has proof
files, since their names are turned too, for each clause that its edits name, and one in each type and module; or, at a word, one of
each function. A refusal of a copy counts only where its control is proved (`Copies.fault`). What is not refused in a copy is tried
again in the function itself.

An edit may name the clause that refuses it (a line `clause: NAME` in its file): its copy then has that clause alone of what the
function ensures, with no name, since a body that doesn't meet one clause doesn't meet them all. So it is that clause that is shown
to refuse it, and nothing is sought for the others. Of the function's proof files its copy has what answers no other clause. Where
what a call in the body requires refuses it, it has `clause: requires`, and its copy ensures nothing.

A copy of a member of a cycle of calls is outside of the cycle: it calls the members themselves, and owes no measure. What breaks
the measure alone is so not refused in a copy. A method of a trait has no copies, nor has an edit that changes more than one
function, or that wants the refusal of a caller.
"""
import os
import re

# A function's head by the layout of rt fmt, with its cycle of calls, where it is in one.
HEAD = re.compile(r'(?m)^( *)(?:#\[cycle\((\w+)\)\]\n(?:\1(?:#\[|///).*\n)*\1)?(?:pub(?:\([^)]*\))? )?(?:const )?fn (\w+)')

# A clause that a function ensures, on a line of its own.
ENSURES = re.compile(r'(?m)^ +ensures (?:(\w+) )?\{.*\}\n')

# What a check says of a function that it did not refuse: it is proved, or would be but for what was left open (assumed.py).
GRANTED = re.compile(r'proved$|no holes$|depends on a hole in ')

# The head of an impl block: the trait, where it is of one, and the type.
IMPL = re.compile(r'(?m)^impl\b(?:<[^{]*?>)? (?:(\S.*) for )?(\w+)[^{;]*\{')


def head_around(text, begin, end):
    """The head of the function around this piece of a text; None where it is in none."""
    above = [it for it in HEAD.finditer(text) if it.start() <= begin]
    return above[-1] if above and end_of(text, above[-1]) >= end else None


def end_of(text, head):
    """Where the function with this head ends; -1 where that isn't seen."""
    found = re.compile(rf'(?m)^{head[1]}\}}').search(text, head.end())
    return found.end() if found else -1


def start_of(text, head):
    """Where its doc comment and attributes begin."""
    begin = text.rfind('\n', 0, head.end()) + 1
    while begin:
        above = text.rfind('\n', 0, begin - 1) + 1
        line = text[above:begin]
        if not line.strip() or not line.startswith(head[1]) or line.rstrip().endswith('{'):
            break
        begin = above
    return begin


def outside_of_cycle(text, name):
    """What a proof file of a cycle of calls says of this member, as it is said of a function in no cycle; None where it is nothing.

    A name there has the member's in front of what it is outside, behind `invariant-` or `decreases-`; an answer takes the
    theorems of the cycle first; and what a call of a member requires is a pair there, with the fall of the measure first.
    """
    uses, *said = text.split('\n\n')
    own = [it for it in said if re.search(rf'(?m)^(?:abbrev )?pub (?:invariant-|decreases-)?{name}-\S+ :', it)]
    own = [re.sub(rf'(?<![\w-])((?:invariant-|decreases-)?){name}-', r'\1', it) for it in own]
    own = [re.sub(r'(?m)^(\S+) t c\b', r'\1 c', it) for it in own]
    own = [without_measure(it) if re.search(r'^pub \S+-requires\S* :', it, re.M) else it for it in own]
    return '\n\n'.join([uses, *own]).rstrip() + '\n' if own else None


def for_clause(text, clause):
    """What a proof file says for a copy that ensures this clause alone: an answer to it has no clause in its name there, one to all
    clauses at once is that record's field, and answers to other clauses are left out. Of a copy that ensures nothing (`requires`) no
    answer to what a function ensures is left."""
    kept = []
    for block in text.split('\n\n'):
        head = re.search(r'(?m)^(?:abbrev )?pub (returns\S*) :', block)
        goal, _, of = head[1].partition('-clause-') if head else ('', '', '')
        if not head:
            kept.append(block)
        elif of == clause:
            kept.append(re.sub(rf'(?<![\w-]){re.escape(head[1])}(?![\w-])', goal, block))
        elif not of and clause != 'requires':
            kept.append(with_field(block, clause))
    return '\n\n'.join(kept).rstrip() + '\n'


def with_field(block, field):
    """This answer with the record that it ends in replaced by what its field is; as it is where it ends in no record with it."""
    text = block.rstrip()
    for found in re.finditer(r'record \{', text):
        parts, close = parts_of(text, found.end())
        if close == len(text) - 1:
            said = next((value for name, _, value in (it.partition(' = ') for it in parts) if name.strip() == field), None)
            return block if said is None else f'{text[: found.start()]}{said.strip()}'
    return block


def parts_of(text, begin):
    """What stands between the `;` of the record that begins here, and where its bracket closes; -1 where that isn't seen."""
    parts, depth, last = [], 0, begin
    for at in range(begin, len(text)):
        depth += (text[at] in '({[') - (text[at] in ')}]')
        if depth < 0:
            return [*parts, text[last:at]], at
        if text[at] == ';' and not depth:
            parts.append(text[last:at])
            last = at + 1
    return parts, -1


def without_measure(answer):
    """The answer with the second part of the pair that is its last line, where that is a pair; else the answer."""
    above, last = answer.rstrip().rsplit('\n', 1)
    pair = last.strip()
    if not (pair.startswith('(') and pair.endswith(')')):
        return answer
    depth = 0
    for at, sign in enumerate(pair):
        depth += (sign == '(') - (sign == ')')
        if sign == ',' and depth == 1:
            return f'{above}\n    {pair[at + 1 : -1].strip()}'
    return answer


class Original:
    """A function that may be copied: where it stands, and its proof files."""

    def __init__(self, folder, file, text, head):
        self.folder, self.file, self.text = folder, file, text
        self.indent, self.cycle, self.name = head[1], head[2], head[3]
        self.begin, self.end = start_of(text, head), end_of(text, head)
        self.is_free, self.owner = not head[1], None
        above = list(IMPL.finditer(text, 0, head.start()))
        if head[1] and above and '\n}' not in text[above[-1].end() : head.start()]:
            self.owner = None if above[-1][1] else above[-1][2]

    def can_be_copied(self):
        """Whether it stands in a module, or in a block of a type's own methods."""
        return bool(self.is_free or self.owner)

    def clauses(self):
        """The names of the clauses that it ensures."""
        return [it[1] for it in ENSURES.finditer(self.text, self.begin, self.end)]

    def source(self, name, begin=0, end=0, new='', clause=None):
        """Its text under this name, with what stands from `begin` to `end` of the file changed; of what it ensures this clause alone,
        where one is named: without its name, since the goal of a clause with a name is a record, and the answers are none."""
        text = self.text[self.begin : self.end]
        if end:
            text = text[: begin - self.begin] + new + text[end - self.begin :]
        if self.cycle:
            text = re.sub(rf' *#\[cycle\({self.cycle}\)\]\n', '', text, count=1)
        if clause:
            text = ENSURES.sub(lambda it: it[0].replace(f'ensures {clause} ', 'ensures ', 1) if it[1] == clause else '', text)
        return '\n\n' + re.sub(rf'\bfn {self.name}\b', f'fn {name}', text, count=1)

    def has_folder(self, below):
        """Whether its proof files, or those of its cycle, stand in this folder below the crate."""
        last = f'+{self.cycle}' if self.cycle else self.name
        if self.owner:
            return below.endswith(f'/{self.owner}/{last}')
        module = self.file.removeprefix('src/').removesuffix('.rt')
        return below == f"proofs/{'' if module == 'lib' else f'{module}/'}{last}"

    def proofs(self, name, clause=None):
        """Its proof files, for a copy of this name, which ensures this clause alone, where one is named: of each the path below the
        crate, and the text."""
        found = {}
        for at, _, files in os.walk(f'{self.folder}/proofs'):
            below = at.removeprefix(f'{self.folder}/')
            if not self.has_folder(below):
                continue
            copied = f'{os.path.dirname(below)}/{name}'
            was, now = (it.replace('/', '.') for it in (below, copied))
            for file in files:
                with open(f'{at}/{file}', encoding='utf-8') as it:
                    text = it.read().replace(f'.{was}.', f'.{now}.')
                text = outside_of_cycle(text, self.name) if self.cycle else text
                text = for_clause(text, clause) if text and clause else text
                if text:
                    found[f'{copied}/{file}'] = text
        return found


class Copies:
    """The copies of a round, with what they add to the crate."""

    def __init__(self, is_each=False):
        self.is_each = is_each
        self.added, self.files, self.counts = {}, {}, {}
        # the control of each function and clause that has one, and of each type and module
        self.controls = {}

    def add(self, edit, original, region):
        """A copy with this edit in it, and a control where it needs one; answers its path, as --only takes it."""
        at = original.file, original.end
        group = original.file, original.owner
        made = *at, edit.clause
        self.counts[at] = self.counts.get(at, 0) + 1
        if made not in self.controls and (self.is_each or group not in self.controls or original.proofs(original.name)):
            name = f'{original.name}_as_it_is{f"_for_{edit.clause}" if edit.clause else ""}'
            self.controls[made] = self.place(edit, original, name, clause=edit.clause)
            self.controls.setdefault(group, self.controls[made])
        return self.place(edit, original, f'{original.name}_turned_{self.counts[at]}', region, edit.clause)

    def place(self, edit, original, name, region=(), clause=None):
        at = original.file, original.end
        self.added[at] = self.added.get(at, '') + original.source(name, *region, clause=clause)
        self.files.update(original.proofs(name, clause))
        return edit.function.removesuffix(original.name) + name

    def regions(self):
        """The places behind the functions, as regions of the files, with the copies."""
        found = {}
        for (file, end), text in self.added.items():
            found.setdefault(file, []).append((end, end, text))
        return found

    def fault(self, told, original, clause=None):
        """Why the control of this function, for this clause where one is named, was not proved; None where it was."""
        control = self.controls.get((original.file, original.end, clause)) or self.controls[original.file, original.owner]
        named = told.named(control)
        if len(named) != 1:
            return f'{control}: it was not checked'
        word = told.functions[named[0]][0]
        return None if GRANTED.match(word) else f'{control}: {word}'
