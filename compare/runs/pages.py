"""Reads pages of recorded runs by docs/PAGES.md, and compares each of their states with the model.

    python3 compare/runs/pages.py PROGRAM                pages of 20 random scripts of both versions, in all modes, and of the examples
    python3 compare/runs/pages.py PROGRAM --count 300    more of them
    python3 compare/runs/pages.py --broken               faults that are put into pages (page_faults.py), each of which must be noticed

The command `page` of PROGRAM makes the pages. Of each script there is one of the runs that it takes by itself, of choices along
decisions and along the wide walk, of the first leaves, of trace words, and of a witness. A page is read again: its changes are applied to
one view after another, and each view must show what `show` of the model does where the steps lead, the lines, why ranks wait, and the
candidates. All of the data is that of the model, too, as JSON has it, and none of its bytes is a `<`. Without a PROGRAM the pages are the model's. The status is 0 where nothing
differs, and all was met that must be.
"""

import json
import os
import subprocess
import sys
import tempfile
from collections import Counter
from itertools import islice
from pathlib import Path
from random import Random
from typing import NamedTuple, Optional

sys.path.insert(0, os.path.dirname(os.path.dirname(os.path.abspath(__file__))))

from cases.piece_cases import script_of
from cases.reread_cases import report_asked
from faults import page_faults
from model import page_model, picture_model, walks, wide
from model.debugger import CallId, RENDEZVOUS, enabled_steps, first_world, next_world, outcome, show, step_text
from model.deciding import NOT_COUNTED
from model.diagnosed import UNTRIED, Diagnosis, Limits, mode_of, verdict_lines
from model.explaining import Reached
from model.files import held
from model.language import Fault, read_script
from model.page_model import BAD, DECISIONS, WIDE, WORDS
from model.remembered import steps_remembered
from model.run_words import run_by
from model.walks import Run
from model.worlds import Step
from places import EXAMPLES, TOP
from runs import driving

TEMPLATE = f'{TOP}/page/page.html'
OPENING = b'<script type="application/json" id="run">'
CHUNK, MOST_FUEL, MOST_LOOKED_AT, FEW, MANY = 5, 300, 3000, 40, 20
# The examples whose pages are read, each with its mode.
SHOWN = (('stolen_message', RENDEZVOUS), ('race', RENDEZVOUS), ('one_in_seven', RENDEZVOUS), ('waitany', RENDEZVOUS), ('order_decides', RENDEZVOUS),
         ('trap', RENDEZVOUS), ('skipped_barrier', RENDEZVOUS), ('lost_request', RENDEZVOUS), ('freed_slot', 'slots:2'), ('head_to_head', 'buffered'),
         ('loop', RENDEZVOUS), ('wrong_handle', RENDEZVOUS))
MUST_MEET = ('by itself', 'choices', 'runs', 'words', 'witness', 'choices along the wide walk', 'runs along the wide walk', 'several runs', 'done',
             'deadlock', 'trap', 'leftovers', 'cut', 'rendezvous', 'buffered', 'slots', 'a release', 'a waitany', 'a choice', 'another candidate',
             'a request', 'held back', 'complete', 'a lost request', 'a step that decides', 'no step that decides', 'a search that gave up', 'printed',
             'another parent', 'a `<`', 'a barrier', 'a buffered send', 'a rank that waits for another', 'more runs', 'no more runs', 'not everything was tried')


class Asked(NamedTuple):
    """A page that is asked for: the words of it, and what the model makes it of."""
    kind: str
    words: tuple
    file: Optional[bytes]
    of: page_model.Asked

    def told_in(self, folder):
        """The words behind `page`, with files in a folder."""
        words = [held(folder, 'asked', self.file) if word is None else word for word in self.words]
        return held(folder, self.of.name, self.of.text), '--mode', self.of.mode, *['--hide'] * self.of.hide, *words


# ---- what is asked

def with_choices(leaf, ends):
    return '--choices', ' '.join(map(str, leaf.choices)), *['--ends'] * ends


def random_choices(random, begun, ends):
    """The choices of a run that are drawn at random."""
    run, followed = begun, wide.followed if ends else walks.followed
    while True:
        run, decided = followed(run)
        if walks.ending(decided, run.fuel) is not None:
            return run_by(begun, run.choices, ends)
        place = random.randrange(len(decided.steps))
        run = walks.taken(run, decided.steps[place], place)


def random_steps(random, script, mode):
    """Steps that are enabled one after another, in any order."""
    world, steps = first_world(script, mode), []
    for _ in range(random.randrange(60)):
        if not (enabled := enabled_steps(world)):
            break
        steps.append(random.choice(enabled))
        world = next_world(world, steps[-1])
    return tuple(steps)


def leaves_of(begun, ends):
    """The leaves that a report lists."""
    return (leaf for leaf in wide.ways_behind(begun) if leaf.outcome != wide.ASLEEP) if ends else walks.walk(begun.world, begun.fuel)


def is_told_wide(text, mode):
    """Whether the runs that a page takes by itself are told along the wide walk."""
    code = b'\n'.join(line.split(b'#')[0] for line in text.split(b'\n'))
    return mode.startswith('slots') or b'waitany' in code


def by_itself(begun, text, mode, most):
    """The runs that a page has where none is asked for, whether there are more, and what is said of all, by a search that comes to so many states
    at most."""
    asked = Diagnosis('', text, mode, limits=Limits(begun.fuel, most, most, 0, 0))
    search, found = asked.searched()
    bad, good = (next((way for ended, way in found.ways.items() if ended.split()[0] in words), None) for words in (BAD, ('done', 'leftovers')))
    chosen = [way for way in found.ways.values() if way in (bad, good)] if bad and good else list(found.ways.values())[:1]
    runs = [run_by(begun, way.first, True) for way in chosen] or [next(leaves_of(begun, is_told_wide(text, mode)))]
    more = found.more or sum(way.runs for way in found.ways.values()) > len(chosen) or walks.CUT in found.ways
    return [run.steps for run in runs], more, tuple(verdict_lines(asked, search, found))


def questions(text, script, mode, random, fuel, name):
    """The pages that are asked for of a script."""
    begun = Run(first_world(script, mode), fuel)
    most = random.choice([MOST_LOOKED_AT, MOST_LOOKED_AT, random.randrange(1, FEW)])
    told = ('--fuel', str(fuel), '--states', str(most))

    def asked(kind, words, walk, runs, more=True, said=(), file=None):
        of = page_model.Asked(text, script, mode, walk, tuple(runs), name, random.random() < 0.3, '', said, more, most)
        return Asked(kind, (*words, *told), file, of)

    yield asked('by itself', (), WIDE if is_told_wide(text, mode) else DECISIONS, *by_itself(begun, text, mode, most))
    for ends in (False, True):
        leaf, walk, name_of = random_choices(random, begun, ends), WIDE if ends else DECISIONS, ' along the wide walk' if ends else ''
        yield asked('choices' + name_of, with_choices(leaf, ends), walk, [leaf.steps])
        count = random.randrange(1, 6)
        leaves = list(islice(leaves_of(begun, ends), count + 1))
        more = len(leaves) > count or any(one.outcome == walks.CUT for one in leaves[:count])
        yield asked('runs' + name_of, ('--runs', str(count), *['--ends'] * ends), walk, [one.steps for one in leaves[:count]], more)
        if leaf.steps and leaf.outcome.split()[0] in BAD:
            witness = f'{leaf.outcome}\n{", ".join(map(step_text, leaf.steps))}\n'.encode()
            yield asked('witness', ('--witness', None), WORDS, [leaf.steps], file=witness)
    steps = random_steps(random, script, mode)
    yield asked('words', ('--words', None), WORDS, [steps], file=''.join(f'{step_text(step)}\n' for step in steps).encode())


# ---- what is made

def made(chosen, asked):
    """The page that is made, and what is said on standard error."""
    if chosen.program is None:
        return by_model(asked.of), b''
    with tempfile.TemporaryDirectory(prefix='pages-') as folder:
        done = subprocess.run([chosen.program, 'page', *asked.told_in(folder)], capture_output=True, timeout=chosen.seconds * 10, check=False)
    return done.stdout, done.stderr


def parts():
    """What stands in a page before its data, and behind it."""
    head, tail = Path(TEMPLATE).read_bytes().split(OPENING + b'null')
    return head + OPENING, tail


def by_model(of):
    """The page that the model makes."""
    head, tail = parts()
    return head + page_model.data_text(page_model.data_of(of)) + tail


# ---- a page is read

KEYS = {'format', 'name', 'mode', 'ranks', 'walk', 'hide', 'note', 'said', 'script', 'vars', 'handles', 'more'}


class Wrong(Exception):
    """What is wrong with a page."""


def must(holds, what):
    if not holds:
        raise Wrong(what)


def data_in(page):
    """The data of a page, which is the template about it, and has no `<`."""
    head, tail = parts()
    must(page.startswith(head) and page.endswith(tail), 'it is not the template about its data')
    text = page[len(head):len(page) - len(tail)]
    must(b'<' not in text, 'a `<` in the data')
    data = json.loads(text.decode())
    must(set(data) == {'run', 'nodes', 'ends'} and set(data['run']) == KEYS and data['run']['format'] == page_model.FORMAT, 'what stands first')
    return data


SENDS, RECEIVES = ('send', 'isend', 'ssend', 'issend'), ('recv', 'irecv')


def words_of(call):
    """What a call is, as `show` has it."""
    kind = call['kind']
    if kind in SENDS:
        return f'{kind} to {call["to"]} tag {call["tag"]} value {call["value"]}{" buffered" * call.get("buffered", False)}'
    if kind in RECEIVES:
        return f'{kind} from {call.get("from", "any")} tag {call.get("tag", "any")}'
    if kind == 'wait':
        return f'wait {call.get("for", "none")}'
    return f'waitany {call["first"]} {call["count"]}{" none" * call.get("none", False)}' if kind == 'waitany' else 'barrier'


class Shown:
    """A view that changes are applied to."""

    def __init__(self, data):
        sizes = [sum(1 if size is None else size for _, size in data['run'][names]) for names in ('vars', 'handles')]
        ranks = range(data['run']['ranks'])
        self.places, self.why, self.partners = [[0] for _ in ranks], [None for _ in ranks], {}
        self.values, self.handles = [['0'] * sizes[0] for _ in ranks], [[None] * sizes[1] for _ in ranks]
        self.printed, self.calls = [[] for _ in ranks], [[] for _ in ranks]

    def copied(self):
        other = object.__new__(Shown)
        for name, value in vars(self).items():
            setattr(other, name, dict(value) if name == 'partners' else [list(one) if isinstance(one, list) else one for one in value])
        return other

    def apply(self, node):
        """Applies the changes of a node, each of which must change something."""
        for rank, *place in node.get('d', []):
            must(self.places[rank] != place, 'a place that is no other')
            self.places[rank] = place
        for held_in, key in ((self.values, 'v'), (self.handles, 'h')):
            for rank, cell, value in node.get(key, []):
                must(key == 'h' or isinstance(value, str), 'a value that is no text')
                must(held_in[rank][cell] != value, 'a cell that holds the same')
                held_in[rank][cell] = value
        for rank, value in node.get('o', []):
            must(isinstance(value, str), 'a value that is no text')
            self.printed[rank].append(value)
        if 'c' in node:
            self.calls[node['s'][1]].append(node['c'])
        for rank, why in node.get('w', []):
            must(self.why[rank] != why, 'a reason that is no other')
            self.why[rank] = why
        kind, *calls = node.get('s', [None])
        if kind == 'match':
            send, receive = map(tuple, calls)
            self.partners |= {send: receive, receive: send}

    def call_line(self, rank, number):
        """A call as `show` has it."""
        call = self.calls[rank][number]
        other = self.partners.get((rank, number))
        state = ''
        if call['kind'] in SENDS or call['kind'] in RECEIVES:
            state = ' free' if other is None else f' with {other[0]}.{other[1]}'
        if call['kind'] in RECEIVES and other is not None:
            state += f' value {self.calls[other[0]][other[1]]["value"]}'
        return f'call {rank}.{number} {words_of(call)}{state}'

    def free(self, rank, kinds):
        """The calls of a rank of these kinds that have no partner."""
        return [number for number, call in enumerate(self.calls[rank]) if call['kind'] in kinds and (rank, number) not in self.partners]

    def lines(self):
        """The lines of `show` that a view has."""
        ranks = range(len(self.places))
        for rank in ranks:
            line, *words = self.places[rank]
            doing = ' '.join(words) or f'at {line}'
            yield f'rank {rank} {f"blocked {len(self.calls[rank]) - 1}" if doing == "blocked" else doing}'
            for name, held_in in (('vars', self.values), ('handles', self.handles), ('out', self.printed)):
                yield ' '.join([name, *('-' if value is None else str(value) for value in held_in[rank])])
            yield from (self.call_line(rank, number) for number in range(len(self.calls[rank])))
        for source in ranks:
            for target in ranks:
                to = [number for number in self.free(source, SENDS) if self.calls[source][number]['to'] == target]
                yield from [' '.join([f'pending {source} to {target}:', *map(str, to)])] * bool(to)
        for rank in ranks:
            yield from [' '.join([f'posted {rank}:', *map(str, posted)]) for posted in [self.free(rank, RECEIVES)] if posted]


def compare_view(view, at):
    """Tells what a view shows otherwise than the model."""
    wanted = [line for line in show(at.world, 0, 0).split('\n')[1:-1] if not line.startswith(('set ', 'outcome '))]
    for line, other in zip([*view.lines(), '(nothing)'], [*wanted, '(nothing)']):
        must(line == other, f'{line!r} in place of {other!r}')
    ranks = range(len(view.places))
    must(view.places == [page_model.plain(page_model.place_of(at, rank)) for rank in ranks], 'where ranks stand')
    must(view.why == [page_model.plain(page_model.why_of(at.world, rank)) for rank in ranks], 'why ranks wait')
    lines = [[at.lines[CallId(rank, number)] for number in range(len(at.world.ranks[rank].calls))] for rank in ranks]
    must([[call['line'] for call in calls] for calls in view.calls] == lines, 'the lines of calls')


def step_in(value):
    """The step that a value tells."""
    kind, *parts = value
    return Step(kind, *(CallId(*part) if isinstance(part, list) else part for part in parts))


def compare_page(page, of):
    """Raises what is wrong with a page, as it is read; gives the data."""
    data = data_in(page)
    head = data['run']
    must((head['mode'], head['ranks'], head['walk']) == (mode_of(of), of.script.ranks, of.walk), 'what stands first')
    must((head['hide'], head['more']) == (of.hide, of.more), 'whether ends are covered, or there are more runs')
    must(head['said'] == list(of.said), 'what is said of all runs')
    must(head['script'] == page_model.source_lines(of.text) and head['name'] == of.name, 'the script')
    must(head['vars'] == page_model.declared(of.script, 'var') and head['handles'] == page_model.declared(of.script, 'req'), 'the names')
    views, reached, below, ends = [], [], set(), {end['node'] for end in data['ends']}
    for number, node in enumerate(data['nodes']):
        if number == 0:
            must('p' not in node and 's' not in node, 'the start')
            view, at = Shown(data), Reached(first_world(of.script, of.mode), {})
        else:
            parent = node.get('p', number - 1)
            step = step_in(node['s'])
            must(0 <= parent < number and ('p' in node) == (parent != number - 1), 'a parent')
            must((parent, step) not in below, 'a state twice')
            below.add((parent, step))
            must(step in enabled_steps(reached[parent].world), 'a step that is not enabled')
            view, at = views[parent].copied(), page_model.behind(reached[parent], step)
            chosen = page_model.candidates(reached[parent].world, of.walk) or []
            must(node.get('n') == (chosen.index(node['s']) if node['s'] in chosen else None), 'the number of a candidate')
            must(data['nodes'][parent].get('k') == (chosen or None), 'candidates')
        view.apply(node)
        compare_view(view, at)
        views.append(view)
        reached.append(at)
    has_kids = {parent for parent, _ in below}
    must(all(number in ends and 'k' not in node for number, node in enumerate(data['nodes']) if number not in has_kids), 'a state that leads nowhere')
    compare_ends(data, of)
    return data


def compare_ends(data, of):
    """Tells what ends are told otherwise: the way to each is the run."""
    nodes = data['nodes']
    must(len(data['ends']) == len(of.runs), 'the number of ends')
    for end, steps in zip(data['ends'], of.runs):
        way, node = [], end['node']
        while node:
            way.append(nodes[node]['s'])
            node = nodes[node].get('p', node - 1)
        must(way[::-1] == [page_model.step_value(step) for step in steps], 'the way to an end')
        tree = page_model.Tree(of.script, of.mode, of.walk)
        wanted = page_model.with_places(of.text, page_model.end_of(tree, tree.follow(steps), steps, page_model.share(of)))
        for key in ('ends', 'outcome', 'told', 'waits', 'lost', 'decided'):
            must((end.get(key) or None) == (wanted[key] or None), f'{key} of an end')


# ---- what is met

def met(asked, data):
    """What a maker may do wrongly."""
    yield asked.kind
    yield 'slots' if asked.of.mode.startswith('slots') else asked.of.mode
    yield from ['several runs'] * (len(data['ends']) > 1)
    for end in data['ends']:
        yield end['outcome'].split()[0]
        yield from ['a lost request'] * ('lost' in end)
        yield from ['no step that decides' if end['decided']['depth'] is None else 'a step that decides'] if 'decided' in end else []
        yield from ['a search that gave up'] * ('decided' in end and NOT_COUNTED in end['decided']['said'])
        yield from ['a rank that waits for another'] * bool(end.get('waits'))
    yield 'more runs' if data['run']['more'] else 'no more runs'
    yield from ['not everything was tried'] * any(line.startswith(UNTRIED) for line in data['run']['said'])
    text = json.dumps(data['nodes'])
    for what, sign in (('a release', '"release"'), ('a waitany', '"wakeany"'), ('a request', '"h"'), ('complete', '"complete"'), ('printed', '"o"'),
                       ('another parent', '"p"')):
        yield from [what] * (sign in text)
    reasons = [why for node in data['nodes'] for _, why in node.get('w', []) if why is not None]
    yield from ['a barrier'] * any('absent' in why for why in reasons)
    yield from ['held back'] * any(len(fit) > 1 for why in reasons if isinstance(why, list) for one in why for fit in one.get('fits', []))
    yield from ['a buffered send'] * any(node.get('c', {}).get('buffered', False) for node in data['nodes'])
    yield from ['a choice'] * any(len(node.get('k', ())) > 1 for node in data['nodes'])
    yield from ['another candidate'] * any(node.get('n', 0) > 0 for node in data['nodes'])
    yield from ['a `<`'] * any('<' in line for line in data['run']['script'])


# ---- random scripts and examples

def of_number(seed, number):
    """The pages of a random script."""
    case = report_asked(seed, number)
    script = None if case is None else script_of(case)
    if script is None:
        return
    random, mode = Random(f'{seed} {number} pages'), case.asked.mode or RENDEZVOUS
    fuel = random.choice([MOST_FUEL, MOST_FUEL, random.randrange(1, 40)])
    text = case.script + b'# </script> \\ "<!-- \t' if random.random() < 0.3 else case.script
    yield from questions(text, script if text == case.script else read_script(text), mode, random, fuel, random.choice(['run.mpd', 'a b".mpd', '\u00fc<b>.mpd']))


def of_example(name, mode):
    """The pages of an example."""
    text = Path(EXAMPLES, f'{name}.mpd').read_bytes()
    yield from questions(text, read_script(text), mode, Random(f'{name} pages'), MOST_FUEL, f'{name}.mpd')


def compare_one(chosen, asked, seen):
    """What is wrong with a page; None where nothing is."""
    page, errors = made(chosen, asked)
    if not page:
        return f'no page: {errors.decode(errors="replace").strip()}'
    try:
        data = compare_page(page, asked.of)
    except (Wrong, ValueError, KeyError, IndexError, TypeError, AttributeError) as why:
        return f'{type(why).__name__}: {why}'
    seen.update(met(asked, data))
    return None if page_model.data_of(asked.of) == data else 'the data is another'


def compare_chunk(chosen, numbers):
    """What differs of the pages of some scripts, how many were asked for, and what was met."""
    return compare_all(chosen, ((f'script {number}', of_number(chosen.seed, number)) for number in numbers))


def compare_all(chosen, scripts):
    found, seen, count = [], Counter(), 0
    for name, pages in scripts:
        with steps_remembered():
            for asked in pages:
                count += 1
                how = compare_one(chosen, asked, seen)
                found += [] if how is None else [f'{name}, {asked.kind}, {asked.of.mode}: {how}']
    return found, seen, count


def compare(chosen, pool):
    """How many pages are wrong, or how much was not met."""
    tasks = [pool.submit(compare_all, chosen, [(name, tuple(of_example(name, mode)))]) for name, mode in SHOWN]
    differing, seen, count = [], Counter(), 0
    for found, seen_there, count_there in (*driving.by_chunks(pool, compare_chunk, chosen, CHUNK), *(task.result() for task in tasks)):
        driving.tell(found)
        differing += found
        seen += seen_there
        count += count_there
    missed = driving.unmet(MUST_MEET, seen, chosen.count >= MANY)
    print(f'{count} pages, {len(differing)} wrong')
    return len(differing) + missed + (not count)


# ---- faults

def is_noticed(page, asked):
    """Whether a page with a fault is found to be wrong."""
    try:
        compare_page(page, asked.of)
    except (Wrong, ValueError, KeyError, IndexError, TypeError, AttributeError):
        return True
    return False


def compare_broken(chosen):
    """How many faults of pages are not noticed: each must be, on each page that it changes, and there must be one."""
    pages = [asked for name, mode in SHOWN for asked in of_example(name, mode)]
    left = {name: 0 for name in page_faults.FAULTS}
    missed = set()
    head, tail = parts()
    for asked in pages:
        page = by_model(asked.of)
        must(not is_noticed(page, asked), f'{asked.kind} of {asked.of.name} is wrong without a fault')
        for name, broken in page_faults.FAULTS.items():
            text = broken(page[len(head):len(page) - len(tail)])
            if text is not None and head + text + tail != page:
                left[name] += 1
                missed |= set() if is_noticed(head + text + tail, asked) else {name}
    for name, count in left.items():
        print(f'{name}: {count} pages{", NOT NOTICED" if name in missed else ""}{"" if count else ", NEVER THERE"}', flush=True)
    wrong = len(missed | {name for name, count in left.items() if not count})
    print(f'{len(left)} faults of pages, {len(left) - wrong} noticed')
    return wrong


def main():
    chosen = driving.chosen_by(driving.parser_of(__doc__, 'scripts (20)', 20, 'answer'))
    return driving.driven(chosen, compare, lambda chosen, _: compare_broken(chosen))


if __name__ == '__main__':
    sys.exit(main())
