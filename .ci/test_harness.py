#!/usr/bin/env python3
"""Tests of the harness of the gate, on small sources: that an edit counts as refused rests on how .ci/ reads sources and checks.
Those of what is remembered of a run are in .ci/test_record.py, those of .ci/run and .ci/test themselves in .ci/test_rehearsal.py, and run
with these.

    .ci/test_harness.py    at the top of the repository
"""
import contextlib
import io
import os
import re
import sys
import types
import unittest

sys.dont_write_bytecode = True
sys.path.insert(0, os.path.dirname(os.path.abspath(__file__)))

import assumed
import cited
import copies
import crate_pages
import edit_files
import growing
import planted
import read_lines
import processes
import record
import reference
import rounds
import told
# (their tests are run with those of this file)
from test_reach import Reached, ReadAsItems
from test_record import AsTheyEnd, Landing, Noticed, Remembered
from test_rehearsal import Built, Rehearsals, TestCommand
from with_folder import WithFolder

SOURCE = """//! A module.

/// A list.
pub struct List {
    items: Vec<u64>,
}

impl List {
    /// How many.
    #[inline(always)]
    pub fn len(&self) -> usize
        ensures exact { result ≡ length self.now }
        ensures few { result ≤ 9 }
    {
        self.items.len()
    }

    fn first(&self) -> u64 {
        self.items[0]
    }
}

impl Clone for List {
    fn clone(&self) -> List {
        List { items: self.items.clone() }
    }
}

/// One side.
#[cycle(side)]
fn left(count: u64)
    requires { count ≤ 9 }
{
    if count > 0 {
        right(count - 1);
    }
}

/// The other.
#[cycle(side)]
#[inline(never)]
pub(crate) fn right(count: u64) {
    left(count);
}

/// No code.
pub fn law()
    ensures { true }
{}
"""

ANSWERS = """use Rattle.std.proofs.Common.{rules}
use Rattle.small.proofs.list.List.len.Goals as goal

pub helper : Nat
helper = 1

pub returns-clause-exact : goal.returns-clause-exact
returns-clause-exact c = search rules

pub returns-clause-few : goal.returns-clause-few
returns-clause-few c = omega arith

pub returns : goal.returns
returns c =
    let n = c.args in
    record {
      exact = one (two; three) n;
      few = record { inner = four; outer = five };
    }
"""

OF_CYCLE = """use Rattle.small.proofs.list.+side.Goals as goal

abbrev pub decreases-left : goal.decreases-left
decreases-left l = l.count.now

pub left-returns : goal.left-returns
left-returns t c =
    search rules

pub left-right-requires : goal.left-right-requires
left-right-requires t c =
    (omega (arith, n), omega arith)

pub right-returns : goal.right-returns
right-returns t c = search rules
"""


def head(name, text=SOURCE):
    return next(it for it in copies.HEAD.finditer(text) if it[3] == name)


def place(piece, text=SOURCE):
    begin = text.index(piece)
    return begin, begin + len(piece)


class Heads(unittest.TestCase):
    """Where a function begins and ends."""

    def test_the_function_around_a_piece(self):
        for piece, name in (('self.items.len()', 'len'), ('self.items[0]', 'first'), ('self.items.clone()', 'clone'), ('right(count - 1);', 'left'), ('    left(count);', 'right')):
            self.assertEqual(copies.head_around(SOURCE, *place(piece))[3], name)

    def test_what_is_in_no_function(self):
        for piece in ('items: Vec<u64>', 'A module', 'impl Clone'):
            self.assertIsNone(copies.head_around(SOURCE, *place(piece)))

    def test_a_piece_of_two_functions_is_in_none(self):
        begin, end = place('self.items.len()')[0], place('self.items[0]')[1]
        self.assertIsNone(copies.head_around(SOURCE, begin, end))

    def test_the_end(self):
        self.assertTrue(SOURCE[: copies.end_of(SOURCE, head('len'))].endswith('        self.items.len()\n    }'))
        self.assertTrue(SOURCE[: copies.end_of(SOURCE, head('left'))].endswith('        right(count - 1);\n    }\n}'))
        self.assertEqual(copies.end_of('fn open() {\n    1\n', head('open', 'fn open() {\n    1\n')), -1)

    def test_the_begin_is_at_its_doc_comment(self):
        for name, begins in (('len', '    /// How many.'), ('first', '    fn first'), ('left', '/// One side.'), ('right', '/// The other.')):
            self.assertTrue(SOURCE[copies.start_of(SOURCE, head(name)) :].startswith(begins), name)

    def test_the_begin_is_behind_what_opens_a_block(self):
        text = 'mod inner {\nfn first() {\n    1\n}\n'
        self.assertTrue(text[copies.start_of(text, head('first', text)) :].startswith('fn first'))

    def test_the_cycle_of_calls(self):
        self.assertEqual([head(it)[2] for it in ('left', 'right', 'len', 'law')], ['side', 'side', None, None])

    def test_enclosing_takes_the_cycle_along(self):
        line = {name: SOURCE[: head(name).end()].count('\n') + 1 for name in ('left', 'right', 'first')}
        found = edit_files.enclosing(SOURCE, *place('right(count - 1);'))
        self.assertEqual(found, {('left', line['left']), ('right', line['right'])})
        self.assertEqual(edit_files.enclosing(SOURCE, *place('self.items[0]')), {('first', line['first'])})
        self.assertEqual(edit_files.enclosing(SOURCE, *place('A module')), set())


class Bodies(WithFolder):
    """What is granted of a crate, and how its bodies are emptied."""

    def body(self, name):
        text = SOURCE[copies.start_of(SOURCE, head(name)) : copies.end_of(SOURCE, head(name))]
        begin = assumed.body_of(text, head(name)[1])
        return begin if begin is None else text[begin:]

    def test_where_a_body_begins(self):
        self.assertEqual(self.body('len'), '{\n        self.items.len()\n    }')
        self.assertEqual(self.body('first'), '{\n        self.items[0]\n    }')
        self.assertTrue(self.body('left').startswith('{\n    if count > 0 {'))
        self.assertIsNone(self.body('law'))

    def test_what_a_crate_above_sees(self):
        seen = assumed.without_bodies(SOURCE)
        for text in ('self.items', 'loop', '///', '//!'):
            self.assertNotIn(text, seen)
        for name in ('len', 'first', 'left', 'right', 'law'):
            self.assertIn(f'fn {name}', seen)
        self.assertIn('ensures few { result ≤ 9 }', seen)
        self.assertIn('1 + 1', assumed.without_bodies('const fn two() -> u64 {\n    1 + 1\n}\n'))
        for old, new in (('self.items[0]', 'self.items[1]'), ('/// One side.', '/// A side.')):
            self.assertEqual(assumed.without_bodies(SOURCE.replace(old, new)), seen)
        for old, new in (('result ≤ 9', 'result ≤ 8'), ('count: u64', 'count: u32'), ('pub(crate) fn right', 'pub fn right')):
            self.assertNotEqual(assumed.without_bodies(SOURCE.replace(old, new)), seen)

    def granted(self):
        self.write('src/list.rt', SOURCE)
        self.write('src/lib.rt', '#[cfg(test)]\nmod rows;\nmod list;\n')
        self.write('src/rows.rt', 'fn of_tests() {\n    1\n}\n')
        return assumed.grants(self.folder, ['small::mpd_counter++counter++A+Destruct::drop', 'small::List+Destruct::drop'])

    def test_what_is_granted(self):
        found = {it.folder for it in self.granted()}
        self.assertEqual(found, {f'proofs/{it}' for it in ('list/List/len', 'list/List/first', 'list/left', 'list/right', 'List+Destruct/drop')})

    def test_what_is_judged_is_not_granted_nor_is_its_cycle(self):
        names = {it.name for it in assumed.granted(self.granted(), {'left', 'len'})}
        self.assertEqual(names, {'first', 'drop'})

    def test_a_granted_function_is_empty_and_in_no_cycle(self):
        regions = {it.name: it.regions() for it in self.granted() if it.original}
        text = edit_files.merged(self.folder, {'src/list.rt': regions['right'] + regions['len']})['src/list.rt']
        self.assertIn('/// The other.\n#[inline(never)]\npub(crate) fn right(count: u64) {\n    loop {}\n}', text)
        self.assertIn('few { result ≤ 9 }\n    {\n        loop {}\n    }', text)
        self.assertIn('/// One side.\n#[cycle(side)]', text)

    def test_what_stands_for_its_proof(self):
        given = [it for it in self.granted() if it.name in ('left', 'len')]
        for file in ('proofs/list/+side/Answers.antt', 'proofs/list/List/len/Answers.antt', 'proofs/list/List/first/Answers.antt'):
            self.write(file, 'an answer')
        assumed.assume(self.folder, 'small', given)
        self.assertIn('use Rattle.small.proofs.list.List.len.Statement as stated', self.read('proofs/list/List/len/Proof.antt'))
        left = {at.removeprefix(f'{self.folder}/') for at, _, files in os.walk(f'{self.folder}/proofs') if 'Answers.antt' in files}
        self.assertEqual(left, {'proofs/list/List/first'})
        self.assertIn('assumed = ?', self.read('proofs/Assumed.antt'))


class Answers(unittest.TestCase):
    """The proof files of copies."""

    def test_the_answer_to_the_clause_alone_is_kept(self):
        found = copies.for_clause(ANSWERS, 'exact')
        self.assertIn('pub returns : goal.returns\nreturns c = search rules\n', found)
        self.assertNotIn('omega arith', found)
        self.assertNotIn('clause', found)
        self.assertIn('pub helper : Nat', found)

    def test_of_an_answer_to_all_the_field_is_kept(self):
        self.assertIn('let n = c.args in\n    one (two; three) n\n', copies.for_clause(ANSWERS, 'exact'))
        self.assertIn('let n = c.args in\n    record { inner = four; outer = five }\n', copies.with_field(ANSWERS.split('\n\n')[-1], 'few') + '\n')

    def test_a_copy_that_ensures_nothing_has_no_answer(self):
        found = copies.for_clause(ANSWERS, 'requires')
        self.assertNotIn('returns', found)
        self.assertIn('pub helper : Nat', found)

    def test_of_several_records_the_last_one_has_the_field(self):
        block = 'returns c =\n    let n = record { few = 1 } in\n    record { few = 2 }'
        self.assertEqual(copies.with_field(block, 'few'), 'returns c =\n    let n = record { few = 1 } in\n    2')

    def test_an_answer_with_no_such_field_stays(self):
        for block in ('returns c = search rules', 'returns c =\n    record {\n      exact = one;\n    }'):
            self.assertEqual(copies.with_field(block, 'few'), block)

    def test_outside_of_its_cycle(self):
        found = copies.outside_of_cycle(OF_CYCLE, 'left')
        self.assertIn('pub returns : goal.returns\nreturns c =\n    search rules', found)
        self.assertIn('pub right-requires : goal.right-requires\nright-requires c =\n    omega arith', found)
        self.assertNotIn('right-returns', found)
        self.assertNotIn('(omega (arith, n),', found)

    def test_a_measure_is_said_of_its_function(self):
        self.assertIn('right-returns', copies.outside_of_cycle(OF_CYCLE, 'right').replace('pub returns', 'right-returns'))
        self.assertIsNone(copies.outside_of_cycle(OF_CYCLE, 'middle'))

    def test_without_the_fall_of_the_measure(self):
        self.assertEqual(copies.without_measure('a =\n    (f (1, 2), g (3, 4))'), 'a =\n    g (3, 4)')
        for answer in ('a =\n    omega arith', 'a =\n    (f (1, 2))'):
            self.assertEqual(copies.without_measure(answer), answer)


class Copied(WithFolder):
    """Functions that are copied."""

    def original(self, name):
        self.write('src/list.rt', SOURCE)
        return copies.Original(self.folder, 'src/list.rt', SOURCE, head(name))

    def test_which_can_be(self):
        self.assertEqual([self.original(it).can_be_copied() for it in ('len', 'first', 'left', 'clone')], [True, True, True, False])
        self.assertEqual([self.original(it).owner for it in ('len', 'left', 'clone')], ['List', None, None])

    def test_its_clauses(self):
        self.assertEqual(self.original('len').clauses(), ['exact', 'few'])
        self.assertEqual(self.original('first').clauses(), [])

    def test_a_copy_has_the_edit_and_one_clause(self):
        begin, end = place('self.items.len()')
        text = self.original('len').source('len_turned_1', begin, end, '7', 'few')
        self.assertIn('pub fn len_turned_1(&self) -> usize\n        ensures { result ≤ 9 }\n    {\n        7\n    }', text)
        self.assertNotIn('length', text)

    def test_a_copy_for_what_a_call_requires_ensures_nothing(self):
        self.assertNotIn('ensures', self.original('len').source('len_as_it_is', clause='requires'))

    def test_a_copy_is_in_no_cycle(self):
        text = self.original('right').source('right_turned_1')
        self.assertNotIn('cycle', text)
        self.assertIn('left(count);', text)

    def test_its_proof_files_have_its_name(self):
        original = self.original('len')
        self.write('proofs/list/List/len/Answers.antt', ANSWERS)
        self.write('proofs/list/List/first/Answers.antt', ANSWERS)
        found = original.proofs('len_turned_1', 'few')
        self.assertEqual(list(found), ['proofs/list/List/len_turned_1/Answers.antt'])
        self.assertIn('use Rattle.small.proofs.list.List.len_turned_1.Goals as goal', *found.values())

    def test_a_refusal_counts_where_the_control_is_proved(self):
        made = copies.Copies()
        edit = types.SimpleNamespace(function='List::len', clause='few')
        self.assertEqual(made.add(edit, self.original('len'), (*place('self.items.len()'), '7')), 'List::len_turned_1')
        control = 'List::len_as_it_is_for_few'
        self.assertEqual(set(made.controls.values()), {control})
        for word, fault in (('proved', None), ('depends on a hole in Assumed', None), ('no proof: c', f'{control}: no proof: c')):
            said = told.Told({}, f'fn small::list::{control}: {word}\nlogic=not-proved')
            self.assertEqual(made.fault(said, self.original('len'), 'few'), fault)
        self.assertEqual(made.fault(told.Told({}, ''), self.original('len'), 'few'), f'{control}: it was not checked')


class Judged(unittest.TestCase):
    """What counts as refused."""

    def told(self, *lines):
        return told.Told({}, '\n'.join([*lines, 'logic=not-proved']))

    def verdict(self, *lines, judged='List::len', lemma=None):
        edit = types.SimpleNamespace(judged=judged, lemma=lemma, name='small/len.wrong.edit')
        return told.judge(edit, self.told(*lines))

    def test_a_fault_of_its_own(self):
        for lines in (
            ['note: src/list.rt:3:5: it is not proved that it holds', 'fn small::list::List::len: no proof'],
            ['fn small::list::List::len: no proof: the search has given up'],
            ['./proofs/list/List/len/Answers.antt:3:1: error: types differ', 'fn small::list::List::len: no proof'],
            ['./proofs/list/other/Answers.antt:3:1: error: types differ', 'fn small::list::List::len: no proof: expected answers in ./proofs/list/other/'],
        ):
            self.assertTrue(self.verdict(*lines).is_refused, lines)

    def test_a_fault_of_what_it_calls_is_none(self):
        for lines in (
            ['fn small::list::List::len: no proof: it calls `small::list::first`, which is not proved'],
            ['fn small::list::List::len: no proof: it calls `first`, `second` and `third`, which are not proved'],
            ['fn small::list::List::len: no proof: in `small::list::left`, of this cycle of calls: it calls `first`, which is not proved'],
        ):
            verdict = self.verdict(*lines)
            self.assertFalse(verdict.is_refused, lines)
            self.assertIn('has no fault of its own', verdict.text)

    def test_a_note_of_another_function_is_none(self):
        verdict = self.verdict('note: src/list.rt:9:5: it is not proved that it holds', 'fn small::list::first: no proof', 'fn small::list::List::len: proved')
        self.assertFalse(verdict.is_refused)
        self.assertIn('is still proved', verdict.text)
        verdict = self.verdict('note: src/list.rt:9:5: it is not proved that it holds', 'fn small::list::first: no proof', 'fn small::list::List::len: no proof: it calls `first`, which is not proved')
        self.assertFalse(verdict.is_refused)

    def test_what_is_proved_has_no_reasons(self):
        said = self.told('note: src/list.rt:9:5: it is not proved that it holds', 'fn small::list::first: proved')
        self.assertEqual(said.reasons('small::list::first'), [])

    def test_a_closure_is_its_own(self):
        lines = ['note: src/list.rt:3:5: it is not proved that it holds', 'fn small::list::List::fn::len::0: no proof', 'fn small::list::List::len: no proof: it calls `small`, which is not proved']
        self.assertTrue(self.verdict(*lines).is_refused)

    def test_what_is_granted_is_proved(self):
        for word in ('proved', 'no holes', 'depends on a hole in Assumed'):
            self.assertFalse(self.verdict(f'fn small::list::List::len: {word}').is_refused)

    def test_a_proof_file_that_names_what_was_taken_away_is_none(self):
        verdict = self.verdict('proofs/list/List/len/Answers.antt:3:1: error: `c` has no field few', 'fn small::list::List::len: no proof')
        self.assertFalse(verdict.is_refused)
        self.assertIn('names what the edit took away', verdict.text)

    def test_goals_that_wait_are_tried_again(self):
        verdict = self.verdict('`search` has not tried the goals of `small::list::List::len`', 'fn small::list::List::len: no proof: it calls `first`, which is not proved')
        self.assertEqual((verdict.is_refused, verdict.is_open), (False, True))
        verdict = self.verdict('fn small::list::List::len: could not tell')
        self.assertEqual((verdict.is_refused, verdict.is_open), (False, True))

    def test_a_name_of_no_function_or_two_is_bad(self):
        for lines in ([], ['fn small::a::List::len: no proof: x', 'fn small::b::List::len: no proof: x']):
            verdict = self.verdict(*lines)
            self.assertFalse(verdict.is_refused)
            self.assertIn('BAD EDIT', verdict.text)
        self.assertEqual(self.told('fn small::list::List::relen: proved').named('List::len'), [])
        self.assertEqual(self.told('fn small::list::MyList::len: proved').named('List::len'), [])

    def test_lemmas(self):
        error = './specs/Lib.antt:3:1: error: `few`: types differ'
        self.assertTrue(self.verdict(error, judged=None, lemma='few').is_refused)
        for lines in ([], ['./specs/Lib.antt:3:1: error: `more`: types differ'], ['./specs/Lib.antt:3:1: error: `few`: `x` is not in scope']):
            self.assertFalse(self.verdict(*lines, judged=None, lemma='few').is_refused, lines)

    def test_what_is_unread(self):
        for line in ('./src/list.rt:3:1: error: expected a type', 'specs/Lib.antt:3:1: error: `few`: `x` is not in scope', 'specs/Lib.antt:3:1: error: expected the end'):
            self.assertTrue(told.is_unread(line), line)
        for line in ('specs/Lib.antt:3:1: error: `few`: types differ', './proofs/Lib.antt:3:1: error: expected the end', 'note: src/list.rt:3:1: it is not proved'):
            self.assertFalse(told.is_unread(line), line)

    def test_what_did_not_reach_the_prover(self):
        self.assertTrue(self.told().is_judged)
        self.assertFalse(told.Told({}, 'src/list.rt:3:1: error: expected a type').is_judged)


class Edits(WithFolder):
    """What an edit's file says, and which edits are tried together."""

    def edit(self, name, *lines):
        self.write('src/list.rt', SOURCE)
        self.write('src/lib.rt', 'mod list;\n')
        self.write(f'must-fail/{name}.edit', '\n'.join(lines) + '\n')
        found = edit_files.Edit(self.folder, f'{self.folder}/must-fail/{name}.edit')
        found.read()
        return found

    def of(self, function, old, new, *more):
        return self.edit(function.rpartition('::')[2], f'fn: {function}', 'file: src/list.rt', f'old: {old}', f'new: {new}', *more)

    def test_its_region(self):
        begin, end, new = self.of('List::len', 'self.items.len()', 'self.items.len() + 1').regions()['src/list.rt']
        self.assertEqual((SOURCE[:begin] + new + SOURCE[end:]), SOURCE.replace('self.items.len()', 'self.items.len() + 1'))

    def test_what_is_no_edit(self):
        pair = ['file: src/list.rt', 'old: self.items.len()', 'new: 7']
        for lines in (pair, ['fn: a', 'lemma: b', *pair], ['fn: a', *pair[:2]], ['fn: a', *pair[1:]], ['fn: a', 'file: ../list.rt', *pair[1:]], ['fn: a', 'file: src/../src/list.rt', *pair[1:]], ['fn: a', 'huh: x', *pair]):
            with self.assertRaises(edit_files.BadEdit, msg=lines):
                self.edit('bad', *lines)
        for old, new in (('self.items', '7'), ('nowhere', '7'), ('self.items.len()', 'self.items.len()')):
            with self.assertRaises(edit_files.BadEdit, msg=old):
                self.of('List::len', old, new).regions()
        with self.assertRaises(edit_files.BadEdit):
            self.of('List::len', 'self.items.len()', '7', 'clause: many').original()

    def test_where_a_lemma_is(self):
        self.write('specs/Lib.antt', 'pub mod rows\n')
        self.write('specs/rows/Some.antt', 'pub few : 1 ≡ 1\nfew = refl\n')
        edit = self.edit('few', 'lemma: few', 'file: specs/rows/Some.antt', 'old: 1 ≡ 1', 'new: 1 ≡ 2')
        self.assertEqual(edit.lemma_file(), 'specs/rows/Some.antt')
        self.assertTrue(edit.turns_its_lemma())

    def test_what_is_copied(self):
        self.assertIsNotNone(self.of('List::len', 'self.items.len()', '7', 'clause: few').original())
        # (one that wants the refusal of a caller, one of a trait's method, and one of what is in no function)
        self.assertIsNone(self.of('List::first', 'self.items.len()', '7').original())
        self.assertIsNone(self.of('ListClone::clone', 'self.items.clone()', 'Vec::new()').original())
        self.assertIsNone(self.of('List::len', 'items: Vec<u64>,', 'items: Vec<u32>,').original())

    def test_what_changes_with_it(self):
        self.assertEqual({name for name, _ in self.of('right', '    left(count);', '    left(count + 1);').changed()}, {'left', 'right'})
        self.assertIsNone(self.of('List::len', 'items: Vec<u64>,', 'items: Vec<u32>,').changed())

    def test_copies_go_into_one_round(self):
        edits = [self.of('List::len', 'self.items.len()', '7'), self.of('List::first', 'self.items[0]', '7'), self.of('ListClone::clone', 'self.items.clone()', 'Vec::new()')]
        made = rounds.Round(edits)
        self.assertEqual([it.judged for it in made.taken], ['List::len_turned_1', 'List::first_turned_1'])
        text = made.texts([])['src/list.rt']
        self.assertTrue(text.replace(' ', '').count('self.items.len()') >= 1 and 'fn len_turned_1' in text and 'fn first_turned_1' in text)

    def test_in_place_a_cycle_has_one_edit_in_a_round(self):
        edits = [self.of('left', 'right(count - 1);', 'right(count);'), self.of('right', '    left(count);', '    left(count + 1);'), self.of('List::len', 'self.items.len()', '7')]
        for it in edits:
            it.is_for_a_copy = False
        self.assertEqual([it.function for it in rounds.Round(edits).taken], ['left', 'List::len'])

    def test_a_type_has_a_round_of_its_own(self):
        edits = [self.of('List::len', 'items: Vec<u64>,', 'items: Vec<u32>,'), self.of('left', 'right(count - 1);', 'right(count);')]
        for it in edits:
            it.is_for_a_copy = False
        self.assertEqual(len(rounds.Round(edits).taken), 1)
        self.assertEqual([it.function for it in rounds.Round(edits[::-1]).taken], ['left'])

    def test_what_touches(self):
        regions = {'src/list.rt': [(10, 20, 'x')]}
        for file, begin, end, wanted in (('src/list.rt', 20, 22, True), ('src/list.rt', 5, 10, True), ('src/list.rt', 21, 22, False), ('src/lib.rt', 12, 15, False)):
            self.assertEqual(edit_files.touches(regions, {file: (begin, end, 'y')}), wanted)


class Planted(WithFolder):
    """Which wrong bodies of compare/ can be made, whichever run plants them."""

    def setUp(self):
        super().setUp()
        self.addCleanup(os.chdir, os.getcwd())
        os.chdir(self.folder)
        self.write('crates/low/src/list.rt', SOURCE)

    def body(self, path, function, old, *more):
        self.write(path, '\n'.join(('crate: low', f'fn: {function}', 'file: src/list.rt', f'old: {old}', 'new: 7', *more)) + '\n')

    def said(self, *of):
        """What is said where another run has this body alone."""
        self.body('compare/served/broken/body.edit', *of)
        count, said = planted.unmade()
        self.assertEqual(count, 1)
        return said

    def test_what_can_be_made(self):
        self.assertEqual(self.said('List::len', 'self.items.len()', 'scenario: a dialogue'), [])
        self.assertEqual(self.said('list::left', 'right(count - 1);', f'row: {min(planted.calls())}', 'said: memory'), [])

    def test_a_text_that_is_gone(self):
        [said] = self.said('List::len', 'self.items.count()', 'scenario: a dialogue')
        self.assertIn('compare/served/broken/body.edit: BAD EDIT: an old text stands in src/list.rt 0 times', said)

    def test_a_text_that_has_come_to_another_function(self):
        [said] = self.said('List::first', 'self.items.len()')
        self.assertIn('what it changes stands in len, and not in first', said)
        [said] = self.said('List::len', 'items: Vec<u64>,')
        self.assertIn('what it changes stands in no one function, and not in len', said)

    def test_a_scenario_that_is_gone(self):
        self.assertEqual(len(self.said('List::len', 'self.items.len()', 'scenario: a monologue')), 1)

    def test_a_row_that_is_gone(self):
        [said] = self.said('List::len', 'self.items.len()', f'row: {min(planted.calls())}, once', 'said: memory')
        self.assertIn('BAD EDIT: no row: ', said)

    def test_what_makes_a_copy_for_a_run(self):
        self.body('compare/probe/copy.edit', 'answer', 'items: Vec<u64>,')
        self.assertEqual(planted.unmade(), (1, []))
        self.body('compare/probe/copy.edit', 'answer', 'items: Vec<u8>,')
        self.assertEqual(len(planted.unmade()[1]), 1)

    def test_those_that_the_gate_plants(self):
        self.body('compare/broken/first.edit', 'List::first', 'self.items[0]', 'in: mpd 1;')
        self.body('compare/broken/gone.edit', 'List::first', 'self.items[1]', 'in: mpd 1;')
        self.body('compare/broken/other.edit', 'List::len', 'self.items[0]', 'in: mpd 1;')
        with contextlib.redirect_stdout(io.StringIO()) as told:
            bodies, failed = planted.read_bodies()
        self.assertEqual(([it.name for it in bodies], failed), (['first'], 2))
        self.assertEqual(re.findall(r'(\w+)\.edit: BAD EDIT', told.getvalue()), ['gone', 'other'])
        self.assertEqual(planted.unmade(), (0, []))


class Growing(WithFolder):
    """What the page on growing names."""

    def setUp(self):
        super().setUp()
        for file in ('crates/low/src/lib.rt', 'crates/low/specs/Lines.antt', 'crates/low/out/kept.rt', 'crates/high/src/main.rt', 'compare/runs/run.py'):
            self.write(file, '')

    def gone(self, text):
        return growing.missing(text, growing.listed(self.folder))

    def test_what_is_there(self):
        for text in ('`low/src/lib.rt`', '`low/specs/Lines`', '`low/specs/`', '`compare/runs/run.py`', '`crates/high/src`'):
            self.assertEqual(self.gone(text), [], text)

    def test_what_is_not(self):
        for name in ('low/src/gone.rt', 'low/specs/Gone', 'gone/src/lib.rt', 'low/out/kept.rt', 'gone.py', 'low/src/main.rt'):
            self.assertEqual(self.gone(f'a line\n| `{name}` | in a table |'), [(2, name)])

    def test_by_its_end_where_the_paragraph_names_its_crate(self):
        self.assertEqual(self.gone('`low/src/lib.rt`, `Lines.antt` and `specs/Lines`'), [])
        self.assertEqual(self.gone('`lib.rt` of `low`'), [])
        self.assertEqual(self.gone('`high/src/main.rt`, `Lines.antt`'), [(1, 'Lines.antt')])
        self.assertEqual(self.gone('`low/src/lib.rt`\n`Lines.antt`'), [])
        for between in ('\n\n', '\n- ', '\n| '):
            self.assertEqual(self.gone(f'`low/src/lib.rt`{between}`Lines.antt`'), [(1 + between.count('\n'), 'Lines.antt')])
        self.assertEqual(self.gone('`low`, `ines.antt`'), [(1, 'ines.antt')])

    def test_what_is_no_file(self):
        self.assertEqual(self.gone('`lib`, `Lines`, `a / b`, and gone.rt'), [])


class Cited(WithFolder):
    """Functions and clauses that pages name."""

    def setUp(self):
        super().setUp()
        self.write('crates/low/src/list.rt', SOURCE + """
/// A law.
pub fn law_of_more()
    ensures { more }
{}

pub trait Desk {
    ghost says: { Self → Type 0 };
}
""")
        self.write('crates/high/src/main.rt', 'pub fn left()\n    ensures ok { true }\n    ensures err { true }\n{\n}\n')
        self.write('crates/low/specs/steps/Told.antt', """-- A record, and one that has it.
pub record Room (old new : ℕ) : Type 0 where
  pub taken : old ≤ new + 1

pub record Told {D : Type 0} (old new : ℕ) : Type 0 where
  -- of the room
  pub room : Room old new
  pub more : old ≤ new

abbrev pub ToldTwice : ℕ → ℕ → Type 0
ToldTwice old new =
    Told old new

pub record Other (old : ℕ) : Type 0 where
  pub less : old ≤ 9
""")
        self.write('crates/high/src/told.rt', """ghost use Rattle.low.specs.steps.Told.{Told};
ghost use Rattle.low.specs.steps.Told.{Room, ToldTwice};

pub fn tell(n: u64) -> u64
    ensures told { Told n result }
    ensures { Other n }
{
    n
}

pub fn tell_twice(n: u64) -> u64
    ensures { ToldTwice n result }
{
    n
}
""")
        self.found = cited.clauses(self.folder)

    def of(self, line):
        return list(cited.faults(line, self.found))

    def test_what_is_there(self):
        for line in ('`List::len` (`exact`, `few`)', '`List::len` (`few`, which is `Few`; `exact`), `high::left` (`ok`)', '`List::{len, first}`; `Desk` (`says`)',
                     '| few | `left` (`ok`, `err`) |', '`left` of `high` (`ok`)', '`law_of_more` (its only one)', '`low::right`; `left` (only the first)'):
            self.assertEqual(self.of(line), [], line)

    def test_what_is_not(self):
        for line, name in (('`List::len` (`exact`, `many`)', 'List::len'), ('`List::{len, first}` (`few`)', 'List::first'), ('`List::len`, and over both `right` (`few`)', 'right'),
                           ('`List::len` and `left` (`exact`)', 'left'), ('`left` of `low` (`ok`)', 'left'), ('`gone` (`few`)', 'gone'), ('`Desk` (`hears`)', 'Desk')):
            self.assertEqual([it.partition(' has not all of ')[0] for it in self.of(line)], [name], line)
        self.assertEqual(self.of('`List::last`, `low::last` and `List::{len, last}`'), ['no function List::last', 'no function low::last', 'no function List::last'])
        for line in ('`List::len` (its only one)', '`right` (its only one)', '`gone` (its only one)'):
            self.assertEqual(len(self.of(line)), 1, line)

    def test_a_clause_is_of_the_function_that_it_stands_in(self):
        self.assertEqual(self.found['law'], [[('', [])]])
        self.assertEqual(self.found['List::first'], [[]])

    def test_fields_of_a_record_that_is_a_clause(self):
        for line in ('`tell` (`told`, `room`, `taken`, `more`)', '`tell_twice` (its only one)', '`high::tell_twice` (`taken`, `more`)'):
            self.assertEqual(self.of(line), [], line)
        for line in ('`tell` (`less`)', '`tell` (`taken`, `less`)', '`tell_twice` (`told`)', '`tell` (its only one)', '`List::len` (`more`)'):
            self.assertEqual(len(self.of(line)), 1, line)
        self.assertEqual(list(cited.faults_in_row('| a row, `tell` | `taken`, `less` | `Told` | 12 |', self.found)), ['none has less'])

    def test_the_table_of_theorems(self):
        for row, said in (('| a row, `List::len`, `left` | `few`, `ok`; `exact` of `mpd_low` | `Some` | 1,226 |', []), ('| a row, `List::len` | `few`, `ok` | `Some` | 12 |', ['none has ok']),
                          ('| a row, `List::last` of `mpd_low` | its only one | `Some` | 12 |', ['no function List::last']), ('| Theorem `a` | Clauses | Files | Lines |', [])):
            self.assertEqual(list(cited.faults_in_row(row, self.found)), said, row)


class CratePages(WithFolder):
    """What the pages of crates say."""

    def setUp(self):
        super().setUp()
        self.write('crates/mpd_low/src/list.rt', SOURCE)
        self.write('crates/mpd_low/specs/steps/Told.antt', '-- A record.\npub record Told : Type 0 where\n  pub more : ℕ\n')
        self.write('crates/mpd_high/src/main.rt', 'pub enum Mode {\n    Slots(usize),\n}\n\nfn two() {\n    let list = List::new();\n    list.len()\n}\n')
        self.write('compare/probe/direct/rows.rattle', 'fn rows() {\n    let one = 1;\n    let two = 2;\n}\n')
        self.write('docs/WORDS.md', '# Words\n\n## Lists\n')

    def faults(self, text):
        return list(crate_pages.faults_of_page(crate_pages.Sources(self.folder), 'mpd_low', text))

    def test_code_stands_in_one_caller_in_its_order(self):
        for code in ('let list = List::new();\n  list.len()', 'fn rows() {\n\n}', 'let two = 2;'):
            self.assertEqual(self.faults(f'# mpd_low\n\n```\n{code}\n```\n'), [], code)
        for code, number in (('let one = 1;\nlet three = 3;', 5), ('let two = 2;\nlet one = 1;', 5), ('let one = 1;\nlist.len()', 5), ('self.items.len()', 4)):
            self.assertEqual([it for it, _ in self.faults(f'# mpd_low\n\n```\n{code}\n```\n')], [number], code)

    def test_what_is_there(self):
        for text in ('`List::len` (`exact`,\n`few`)', '`Told`, `more` and `mpd_low::left`', '`Mode::Slots` of `mpd_high`, `mpd_high::two`', '`specs/steps/Told.antt`',
                     '`mpd_low/specs/steps/Told.antt`', '(docs/WORDS.md, "Words" and\n"Lists")', '`a b`'):
            self.assertEqual(self.faults(f'# mpd_low\n\n{text}\n'), [], text)

    def test_what_is_not(self):
        for text in ('`gone`', '`List::last_one`', '`Mode`', '`Mode::Gone` of `mpd_high`', '`Told` of `mpd_gone`', '`specs/Told.antt`', 'docs/GONE.md', 'docs/WORDS.md, "Lists" and "Gone"'):
            self.assertNotEqual(self.faults(f'# mpd_low\n\n{text}\n'), [], text)
        self.assertEqual(self.faults('`List::first` (`few`)\n'), [(1, 'List::first has not all of few')])

    def test_the_size_of_a_page(self):
        self.assertEqual(self.faults('a line\n\n' * 15), [])
        self.assertEqual(self.faults('a line\n' * 16), [(1, '16 lines, and not 15 at most')])
        self.assertEqual(self.faults('\n' + 'a' * 101), [(2, '101 columns')])

    def test_each_crate_that_is_called_has_one(self):
        self.write('crates/mpd_low/README.md', '# mpd_low\n\n`gone`\n')
        self.assertEqual(crate_pages.all_faults(self.folder, ('mpd_low', 'mpd_high')),
                         (1, ['crates/mpd_high: has no README.md', 'crates/mpd_low/README.md:3: no gone in mpd_low']))


class ReadLines(WithFolder):
    """The lines of definitions that a theorem rests on."""

    def setUp(self):
        super().setUp()
        for number, name in enumerate((*read_lines.STATE, 'Words')):
            self.write(f'crates/mpd_model/specs/{name}.antt', '\n' * 2 ** number)
        self.write('crates/mpd_high/specs/texts/Words.antt', '\n' * 1000)

    def wrong(self, *rows):
        table = '\n'.join(f'| {theorem} | `ok` | {files} | {lines} |' for theorem, files, lines in rows)
        return read_lines.right(self.folder, f'before\n\n{read_lines.HEAD}\n|---|\n{table}\n\nbehind\n')

    def test_what_is_right(self):
        self.assertEqual(self.wrong(('a step, `Core::apply`', 'state', '63'), ('its record', 'the same without `Tree`; `Words`', '119'),
                                    ('both', 'those of the two rows before; `Words` of `mpd_high`', '1,127'),
                                    ('one', 'the same without `Words` of `mpd_high`, and the contracts of `clap`', '127'),
                                    ('two', 'those of `Core::apply`', '63'), ('three', 'those of a step without `World`; `Words`', '126'))[1], [])

    def test_what_is_wrong(self):
        text, wrong = self.wrong(('a step', 'state without `World`', '63'), ('words', '`Words`', '64'))
        self.assertEqual(wrong, ['a step: 63, and not 62'])
        self.assertIn('| a step | `ok` | state without `World` | 62 |\n| words | `ok` | `Words` | 64 |\n\nbehind', text)


class Reference(WithFolder):
    """The page of public functions that is made from the sources."""

    def setUp(self):
        super().setUp()
        self.write('crates.txt', 'high: low clap\nlow:\nmiddle: low\ntop: high low middle\n')
        self.write('crates/low/src/lib.rt', '//! Lists. Not\n//! much.\n#![tactic(auto)]\n\npub mod list;\nmod inner;\n\npub use inner::{Shown, shown};\n')
        self.write('crates/low/src/list.rt', SOURCE + """
/// A law. With more.
pub fn law_of_more()
    ensures { more }
{}

/// A desk.
pub trait Desk {
    ghost says: { Self → Type 0 };

    /// What it
    /// answers. And more.
    fn answer(&mut self) -> u64
        requires open { true }
        ensures { true }
        ensures more { true };
}

/// Not seen.
fn hidden() -> u64 {
    0
}

/// A word and what it does.
pub type Told = (&'static str, &'static str);

pub const GO: Told = ("go", "goes");

pub const STOP: Told = (
    "stop",
    "stops",
);

pub const BARE: u64 = 0;
""")
        self.write('crates/low/src/inner.rt', '/// Is | shown.\n#[derive(Drop)]\npub struct Shown;\n\nimpl Shown {\n    /// One.\n    pub fn one(\n        n: u64,\n    ) -> u64\n'
                   '        ensures exact { true }\n    {\n        n\n    }\n}\n\npub fn shown() {}\n\n/// Not seen.\npub fn unseen() {}\n')
        self.write('crates/high/src/main.rt', '//! The program.\n\npub fn left() {}\n')

    def test_what_is_public_with_its_clauses(self):
        said, items = reference.crate_items(f'{self.folder}/crates/low')
        self.assertEqual(said, 'Lists. Not much.')
        told = {it.name: it for it in items}
        self.assertEqual(told['law_of_more'], ('law', 'law_of_more', 'A law.', {'requires': [], 'ensures': ['']}))
        self.assertEqual(told['Desk::answer'], ('fn', 'Desk::answer', 'What it answers.', {'requires': ['open'], 'ensures': ['', 'more']}))
        self.assertEqual(told['Shown::one'], ('fn', 'Shown::one', 'One.', {'requires': [], 'ensures': ['exact']}))
        self.assertEqual(told['Shown'][:3], ('struct', 'Shown', 'Is | shown.'))
        self.assertTrue({'List', 'List::len', 'shown'} <= told.keys())
        self.assertFalse({'hidden', 'unseen', 'left', 'List::hidden'} & told.keys())

    def test_the_page(self):
        page = reference.page(self.folder)
        self.assertLess(page.index('## `low`'), page.index('## `high`'))
        self.assertIn('\n## `high`\n\nThe program.\n\nLayer 2; stands on `low`.\n', page)
        self.assertIn('| `Desk::answer` | What it answers. | `open` | `more`, (1) |\n', page)
        self.assertIn('| `Shown` | struct | Is \\| shown. |\n', page)
        self.assertIn('| `Told` | type | A word and what it does. |\n| `GO`, `STOP` | const | A `Told`. |\n', page)
        self.assertEqual([*reference.thin(self.folder)], ['low: BARE', 'low: shown'])

    def test_what_a_crate_stands_on(self):
        self.assertEqual(reference.levels('high: low clap\nlow:\nmiddle: low\ntop: high low middle\n'),
                         {'high': (2, ['low']), 'low': (1, []), 'middle': (2, ['low']), 'top': (3, ['high', 'middle'])})


class Processes(unittest.TestCase):
    """How many checks rt ci makes."""

    LISTED = {
        2: (1, ['python3', '/kit/bin/rt', 'ci']),
        3: (2, ['/kit/bin/rattle', 'check', '--jobs', '1', '']),
        4: (2, ['/kit/bin/rattle', 'build', '--jobs', '3', '']),
        5: (4, ['/kit/bin/rattle', 'build', '--jobs', '3', '']),
        6: (2, ['sh', '-c', 'read _']),
        7: (6, ['/kit/bin/rattle', 'check', '']),
        8: (1, ['/kit/bin/rattle', 'check', '']),
    }

    def test_its_checks(self):
        self.assertEqual(processes.checks(self.LISTED, 2), 1 + 3 + 1)
        self.assertEqual(processes.checks(self.LISTED, 3), 0)

    def test_those_below(self):
        self.assertEqual(processes.below(self.LISTED, 2), [3, 4, 6, 5, 7])
        self.assertIn(os.getpid(), processes.below(processes.listed(), os.getppid()))


class Layout(unittest.TestCase):
    """What the repository itself is held to."""

    def test_all_judges_enter_the_digest(self):
        here = os.path.dirname(os.path.abspath(__file__))
        reads, left = set(), ['edits']
        while left:
            name = left.pop()
            if name not in reads and os.path.exists(f'{here}/{name}.py'):
                reads.add(name)
                with open(f'{here}/{name}.py', encoding='utf-8') as it:
                    left += re.findall(r'(?m)^(?:from|import) (\w+)', it.read())
        # (how many processes run judges nothing, nor does what is remembered, which says what isn't tried)
        self.assertEqual({f'{it}.py' for it in reads}, {*record.JUDGES, 'processes.py', 'record.py', 'reach.py', 'names.py', 'items.py'})


if __name__ == '__main__':
    unittest.main()
