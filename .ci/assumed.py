"""What a check of edits assumes: that every function which it doesn't judge meets its contract.

rt ci proves all functions; a check that only asks whether an edited one is refused needn't prove once more what that one calls. So
each other function has an empty body in its copy of the crate, and in place of its own proof files one whose theorem rests on the one
thing that is left open; the check runs past that (`--allow-holes`). A refusal then means more, not less: the edited function isn't
proved though all that it calls is granted. What can't be told from the source (methods of traits, what a derive writes) is proved as
ever, but for what drops a value, where the log of rt ci names it.
"""
import os
import re
import shutil

from copies import HEAD, Original, end_of

# A module that only the tests have.
OF_TESTS = re.compile(r'(?m)^#\[cfg\(test\)\]\n(?:pub(?:\([^)]*\))? )?mod (\w+);')

# How the path of what drops a value begins, behind the type's.
DROPS = '+Destruct'

# The types of these take no bytes, and the prover writes itself what drops them: with a proof there a check has to be made again.
COUNTERS = 'mpd_counter++counter++'

# A line that is a comment.
COMMENT = re.compile(r'(?m)^ *//.*\n')

# Where a type is declared.
TYPE = re.compile(r'(?m)^(?:pub(?:\([^)]*\))? )?(?:struct|enum) (\w+)')

# What stands for a proof: the theorem, by what is assumed of every one.
PROOF = """use Rattle.{crate}.proofs.{module}.Statement as stated
use Rattle.{crate}.proofs.Assumed.{{assumed}}

pub {name}_spec : {{M : Type 1}} → stated.statement M
{name}_spec = assumed
"""

# The one thing that is left open.
ASSUMED = 'pub assumed : {A : Type 2} → A\nassumed = ?\n'


class Granted:
    """One function whose contract is granted: where its proof stands, and what stands in its source for it."""

    def __init__(self, folder, cycle=None, original=None):
        self.folder, self.cycle, self.original = folder, cycle, original
        self.name = folder.rpartition('/')[2]

    def proof(self, crate):
        return PROOF.format(crate=crate, module=self.folder.removeprefix('proofs/').replace('/', '.'), name=self.name)

    def regions(self):
        """What changes in its source: it is in no cycle of calls any more, since its body is empty."""
        it, found = self.original, []
        text = it.text[it.begin : it.end]
        cycle = re.search(rf'(?m)^ *#\[cycle\({self.cycle}\)\]\n', text) if self.cycle else None
        if cycle:
            found.append((it.begin + cycle.start(), it.begin + cycle.end(), ''))
        found.append((it.begin + body_of(text, it.indent), it.end, f'{{\n{it.indent}    loop {{}}\n{it.indent}}}'))
        return found


def body_of(text, indent):
    """Where the body of a function begins, at a line of its own behind clauses, or else at the end of its head; None where there is
    nothing in it, as in a law."""
    found = re.search(rf'(?m)^{indent}{{(}}?)$', text)
    if found:
        return None if found[1] else found.end() - 1
    return re.search(rf'(?m)^{indent}\S.* {{$', text).end() - 1


def without_bodies(text):
    """What a crate above sees of a source: the text without the bodies of its functions, but of those that are evaluated as it is
    compiled, and without comments. A function is checked against the contracts of what it calls, and not against their bodies."""
    for head in reversed([*HEAD.finditer(text)]):
        end = end_of(text, head)
        begin = body_of(text[head.start() : end], head[1]) if end > 0 and 'const fn' not in head[0] else None
        if begin is not None:
            text = text[: head.start() + begin] + text[end:]
    return COMMENT.sub('', text)


def sources(folder):
    """The files of the crate that are no tests, each with its text."""
    texts = {}
    for at, _, files in os.walk(f'{folder}/src'):
        for file in files:
            with open(f'{at}/{file}', encoding='utf-8') as it:
                texts[f'{at}/{file}'.removeprefix(f'{folder}/')] = it.read()
    tests = {name for text in texts.values() for name in OF_TESTS.findall(text)}
    return {file: text for file, text in texts.items() if os.path.basename(file).removesuffix('.rt') not in tests}


def module_of(file):
    """The folder of a module's proofs."""
    name = file.removeprefix('src/').removesuffix('.rt')
    return 'proofs' if name in ('lib', 'main') else f'proofs/{name}'


def grants(folder, named=()):
    """What can be granted of a crate, by its source; and, of those that a check named, what drops a value."""
    texts, found, homes = sources(folder), [], {}
    for file, text in texts.items():
        for name in TYPE.findall(text):
            homes.setdefault(name, []).append(module_of(file))
    for file, text in texts.items():
        for head in HEAD.finditer(text):
            it = Original(folder, file, text, head)
            is_placed = it.can_be_copied() and (not it.owner or len(homes.get(it.owner, [])) == 1)
            if is_placed and it.name != 'main' and body_of(it.text[it.begin : it.end], it.indent):
                below = f'{homes[it.owner][0]}/{it.owner}' if it.owner else module_of(file)
                found.append(Granted(f'{below}/{it.name}', it.cycle, it))
    for name in named:
        path = name.split('::')[1:]
        if path[-1] == 'drop' and path[0].endswith(DROPS) and not path[0].startswith(COUNTERS):
            found.append(Granted('/'.join(['proofs', *path])))
    return found


def granted(known, judged):
    """Those of them that a check grants which judges the functions of these names, and so all of their cycles."""
    kept = {it.cycle for it in known if it.cycle and it.name in judged}
    return [it for it in known if it.name not in judged and it.cycle not in kept]


def assume(room, crate, given):
    """Gives these their proofs, in this copy of a crate, and takes away the files of others that would stand beside them."""
    os.makedirs(f'{room}/proofs', exist_ok=True)
    with open(f'{room}/proofs/Assumed.antt', 'w', encoding='utf-8') as it:
        it.write(ASSUMED)
    with open(f'{room}/proofs/Lib.antt', 'a', encoding='utf-8') as it:
        it.write('pub mod Assumed\n')
    for grant in given:
        folder = f'{room}/{grant.folder}'
        if grant.cycle:
            shutil.rmtree(f'{os.path.dirname(folder)}/+{grant.cycle}', ignore_errors=True)
        os.makedirs(folder, exist_ok=True)
        for file in ('Answers.antt', 'Invariants.antt'):
            if os.path.exists(f'{folder}/{file}'):
                os.remove(f'{folder}/{file}')
        with open(f'{folder}/Proof.antt', 'w', encoding='utf-8') as it:
            it.write(grant.proof(crate))
