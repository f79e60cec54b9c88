"""What is remembered of earlier runs of the gate (docs/GATE.md, "What is remembered").

`.ci/refused.txt` has a line for each edit and kit: the edit's name, how many processor seconds it took, its share of those of its crate,
a digest of all that tells whether it is refused, the kit's logic among it, and the kit's name. What an edit reaches is told by
.ci/reach.py. Lines are written as the edits of a crate end, for each that was refused, if what its digest is of is as it was at the
start. Lines that answer for nothing any more go; those of other kits stay: machines have one or another, and what one of them remembers
is not lost by a run on the other. An edit is remembered if a line has its digest, whatever its name was then. A twentieth of these are
tried nevertheless, so that a wrong record is found, and a fifth where only another kit of the same logic remembers them. The seconds tell
nothing of an edit, but which crate is begun first.
"""
import hashlib
import os
import re
import subprocess
from typing import NamedTuple

from assumed import without_bodies
from edit_files import BadEdit, Edit
from items import NOTE, two_texts
from reach import Reach, texts_of

FILE = '.ci/refused.txt'

# The files of .ci/ by which edits are judged.
JUDGES = ('assumed.py', 'copies.py', 'edit_files.py', 'edits.py', 'rounds.py', 'told.py')

# The folders of a crate that its own checks read, and those of which checks of crates above it read something.
OWN, SEEN_ABOVE = ('proofs', 'specs', 'src'), ('specs', 'src')

# Of the edits that are remembered, one of so many is tried: of this kit's, and of those that another kit of the same logic alone has.
SHARE, SHARE_ELSEWHERE = 20, 5

# A name of what a proof file of a crate has.
OF_PROOFS = re.compile(r'\bRattle\.(\w+)\.proofs\b')

HEAD = '# Written by .ci/edits.py, of each edit that was tried and refused, and never by hand: edit, seconds, digest, kit.\n'

# A line of the record.
LINE = re.compile(r'(\w+/\S+\.edit) (\d+) ([0-9a-f]{32}) (\S+)')

# What an edit is reckoned to take where nothing is remembered of it.
SECONDS = 8

# What is known of the tree that was read last: its digest, and what its items reach.
LAST = {}


class Kept(NamedTuple):
    """What is remembered of an edit: the digest as it was refused, and how many processor seconds it took."""
    digest: str
    seconds: int


def bytes_of(file):
    with open(file, 'rb') as it:
        return it.read()


def files_below(folder):
    """The files below a folder, in order; texts for a reader are none of a crate's."""
    return sorted(f'{at}/{it}' for at, _, files in os.walk(folder) for it in files if not it.endswith('.md'))


def digest_of(parts):
    """A digest of named pieces of bytes, of which none runs into the next."""
    whole = hashlib.sha256()
    for name, said in parts:
        whole.update(f'{len(name.encode())} {len(said)} {name}\n'.encode() + said)
    return whole.hexdigest()[:32]


def without_comments(file, text):
    """The lines of a file that say something, without comments."""
    plain = two_texts(text)[0] if file.endswith('.rt') else NOTE.sub('', text)
    return '\n'.join(it.rstrip() for it in plain.split('\n') if it.strip())


def files_of(root, crate, folders):
    """The files of a crate in these folders, each with what it has."""
    found = [it for folder in folders for it in files_below(f'{root}/crates/{crate}/{folder}')]
    return [(os.path.relpath(it, root), bytes_of(it).decode()) for it in found]


def seen_above(root, crate, folders):
    """What crates above read of a crate's files: of its sources all but the bodies of functions."""
    return [(file, without_bodies(said) if file.endswith('.rt') else said) for file, said in files_of(root, crate, folders)]


def names_proofs_of(root, crate):
    """The other crates whose proof files this one's files name."""
    named = {name for _, said in files_of(root, crate, ('proofs', 'specs', 'src')) for name in OF_PROOFS.findall(said)}
    return named - {crate}


def kit_of(repository):
    return bytes_of(f'{repository.kit}/KIT-ID')


def logic_of(repository):
    """What a kit says of its logic, behind its name: kits that differ in the name alone prove by the same rules."""
    return b' '.join(kit_of(repository).split()[1:])


def name_of_kit(repository):
    """The first word of what a kit says of itself."""
    return kit_of(repository).decode().split()[0]


# what tells of an edit

def judged_by(repository):
    """What each edit goes by: the files that judge edits, and the kit's logic."""
    return [('logic', logic_of(repository)), *((f'.ci/{it}', bytes_of(f'{repository.root}/.ci/{it}')) for it in JUDGES)]


def of_crate(repository, crate):
    """What the edits go by that are of no function: the crate's files, and what is read of the crates below it."""
    root, below = repository.root, repository.below(crate)
    found = files_of(root, crate, OWN)
    named = {name for it in [crate, *below] for name in names_proofs_of(root, it)}
    for used in sorted(below):
        found += seen_above(root, used, ('proofs', *SEEN_ABOVE) if used in named else SEEN_ABOVE)
    uses = [(f'uses of {it}', ' '.join(repository.uses[it]).encode()) for it in [crate, *sorted(below)]]
    return uses + [(file, without_comments(file, said).encode()) for file, said in found]


def said_by(edit):
    """What an edit's file says, wherever its function stands: without the modules in front of that, and the names of files."""
    said = []
    for line in bytes_of(edit.path).decode().split('\n'):
        key, _, value = line.partition(':')
        parts = value.strip().split('::')
        if key == 'fn':
            value = '::'.join(it for it in parts[:-1] if it[:1].isupper()) + f'::{parts[-1]}'
        said += [f'{key}:{"" if key == "file" else value}'] * bool(line.strip())
    return '\n'.join(said).encode()


def of_names(repository, reach, crate, edit):
    """What an edit of a function goes by: what it reaches by names, and the attributes of its crate; None if it goes by the crate."""
    start = reach.start(crate, edit)
    if start is None:
        return None
    reached = [reach.marks[it] for it in reach.closure(crate, start)]
    roots = [reach.files[it] for it in (f'crates/{crate}/src/lib.rt', f'crates/{crate}/src/main.rt') if it in reach.files]
    return [('attributes', '\n'.join(at for it in roots for at in it.attributes).encode()),
            ('changed', ' '.join(sorted({reach.marks[it] for it in start})).encode()), ('reached', ' '.join(reached).encode())]


def reach_of(repository):
    """What items reach in the tree as it is; it is read anew if a file has changed."""
    texts = texts_of(repository.root, repository.uses)
    known = digest_of([(name, text.encode()) for name, text in texts.items()] + [(it, ' '.join(of).encode()) for it, of in repository.uses.items()])
    if known not in LAST:
        LAST.clear()
        LAST[known] = Reach(repository, texts)
    return LAST[known]


def digests(repository, crates=None):
    """For each of these crates, or of all, the digests of its edits by their names."""
    reach, judges, found = reach_of(repository), judged_by(repository), {}
    for crate in crates or repository.uses:
        folder, found[crate], whole = f'{repository.root}/crates/{crate}', {}, None
        for path in files_below(f'{folder}/must-fail'):
            edit = Edit(folder, path)
            try:
                edit.read()
                parts = of_names(repository, reach, crate, edit)
            except BadEdit:
                parts = None
            if parts is None:
                parts = whole = whole or of_crate(repository, crate)
            found[crate][edit.name] = digest_of([*judges, ('edit', said_by(edit)), *parts])
    return found


# the record

def lines_of(root):
    """The lines of the record, in order, each as a match."""
    if not os.path.exists(f'{root}/{FILE}'):
        return []
    found = [LINE.fullmatch(it) for it in bytes_of(f'{root}/{FILE}').decode().splitlines()]
    return [it for it in found if it]


def read(repository, is_here=True):
    """What is remembered of each edit under the kit at hand; or, where that is asked for, under any other."""
    kit = name_of_kit(repository)
    return {it[1]: Kept(it[3], int(it[2])) for it in lines_of(repository.root) if (it[4] == kit) == is_here}


def longest_first(repository, crates):
    """These crates, those whose edits are likely to take longest first: by what they took when they were remembered."""
    kept = {**read(repository, is_here=False), **read(repository)}
    def likely(crate):
        return sum(kept[it.name].seconds if it.name in kept else SECONDS for it in crate.edits)
    return sorted(crates, key=likely, reverse=True)


def remember(repository, crate, verdicts, before):
    """Writes the lines of a crate's edits that ended with these verdicts, by the digests of all edits at the start of the run, and
    answers what became of it. An edit has one if it was refused, and nothing has changed meanwhile that tells of it; one that was
    not refused is remembered no more."""
    now, own, kit = digests(repository, [crate.name])[crate.name], before[crate.name], name_of_kit(repository)
    refused = [it.edit.name for it in verdicts if it.is_refused]
    others = sorted(it.edit.name for it in verdicts if not it.is_refused)
    kept = [it for it in refused if it in own and now.get(it) == own[it]]
    share = max(1, round(crate.seconds / len(verdicts))) if verdicts else 1
    rewrite(repository, before, {it: f'{share} {own[it]} {kit}' for it in kept}, {own.get(it) for it in others})
    said = [f'{FILE} has {len(kept)} of its edits']
    said += [f'{it} was not refused' for it in others[:1]]
    said += ['files that tell of others were changed since the run began'] * (len(kept) < len(refused))
    return f'{crate.name}: {", ".join(said)}'


def rewrite(repository, before, new, not_refused):
    """Writes the record with these lines, in place of those of the same edits and kit, and without the lines whose digest is of no edit
    that there is, or of one of those that weren't refused. A line of this kit stays as it is if the new one has its digest."""
    kit, names = name_of_kit(repository), {}
    for own in before.values():
        for name, digest in own.items():
            names.setdefault(digest, []).append(name)
    lines = {}
    for it in lines_of(repository.root):
        if it[3] in names and it[3] not in not_refused:
            name = it[1] if it[1] in names[it[3]] else names[it[3]][0]
            lines[name, it[4]] = f'{it[2]} {it[3]} {it[4]}'
    for name, line in new.items():
        if lines.get((name, kit), '').split()[1:2] != line.split()[1:2]:
            lines[name, kit] = line
    with open(f'{repository.root}/{FILE}.new', 'w', encoding='utf-8') as it:
        it.write(HEAD + ''.join(f'{name} {line}\n' for (name, _), line in sorted(lines.items())))
    os.replace(f'{repository.root}/{FILE}.new', f'{repository.root}/{FILE}')


# what is due

def draw(names, seed, share=SHARE):
    """One of so many of these names, one at least where there are any: side by side in their order, from a place that the seed tells,
    so that each has the same chance, and few crates are begun."""
    names = sorted(names)
    if not names:
        return set()
    begin = int(hashlib.sha256(seed.encode()).hexdigest(), 16) % len(names)
    return {names[(begin + it) % len(names)] for it in range(-(-len(names) // share))}


def seed_of(root, of_edits):
    """The commit of this tree; where it is in no repository of its own, the digests of its edits."""
    asked = ['git', '-C', root, 'rev-parse', '--show-toplevel', 'HEAD']
    try:
        ran = subprocess.run(asked, stdin=subprocess.DEVNULL, capture_output=True, text=True)
    except OSError:
        ran = None
    top, _, commit = ran.stdout.strip().partition('\n') if ran and not ran.returncode else ('', '', '')
    return commit if top and os.path.samefile(top, root) else ' '.join(digest for _, own in sorted(of_edits.items()) for _, digest in sorted(own.items()))


def take_due(repository, crates, of_edits):
    """Leaves each of these crates the edits that are due: those that the record doesn't answer for, and of the rest those that are
    drawn. Says which, and answers the names of the crates of whose edits lines are written, and those of the edits that are drawn."""
    seed = seed_of(repository.root, of_edits)
    here, elsewhere = ({it.digest for it in read(repository, is_here).values()} for is_here in (True, False))
    found = {edit.name: of_edits[crate.name].get(edit.name) for crate in crates for edit in crate.edits}
    by_this = {name for name, digest in found.items() if digest in here}
    by_others = {name for name, digest in found.items() if digest in elsewhere} - by_this
    due = {crate.name: [it for it in crate.edits if it.name not in by_this | by_others] + crate.bad for crate in crates}
    said = ', '.join(f'{len(edits)} of {crate}' for crate, edits in due.items() if edits)
    print(f'edits that {FILE} does not answer for: {sum(map(len, due.values()))} ({said or "of no crate"})')
    drawn = set()
    for remembered, share, what in ((by_this, SHARE, 'the others'), (by_others, SHARE_ELSEWHERE, 'those that another kit has refused')):
        names = draw(remembered, seed, share)
        print(f'edits of {what}: {len(remembered)}, of which these {len(names)} are drawn: {" ".join(sorted(names)) or "none"}', flush=True)
        drawn |= names
    for crate in crates:
        crate.edits = [it for it in crate.edits if it.name in drawn or it.name not in by_this | by_others]
    return {it.name for it in crates if any(edit.name not in by_this for edit in it.edits)}, drawn
