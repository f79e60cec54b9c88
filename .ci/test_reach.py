"""Tests of what an edit reaches by names, and so of what makes it due (.ci/test_harness.py runs them)."""
import os

import items
import reach
import record
import rounds
from with_folder import WithFolder

# A crate above another: a function, what it calls, and what their contracts rest on.
LOW = {
    'src/lib.rt': 'mod list;\nmod other;\n\npub use list::{Count, List};\npub use other::{limit, unused};\n',
    'src/list.rt': '''ghost use Rattle.low.specs.Lists.{held};

/// A list.
#[derive(Clone)]
pub struct List {
    pub size: u64,
    ghost bounded: { size ≤ 10 },
}

impl List {
    /// How many it has.
    pub fn size(&self) -> u64
        ensures { result ≡ held self.now }
    {
        // the number
        self.size
    }
}

pub struct Count {
    size: u64,
}

impl Count {
    pub fn unread(&self) -> u64
        ensures { result ≡ 1 }
    {
        1
    }
}

impl Model for Count {
    ghost view = { λ c. c.size };
}
''',
    'src/other.rt': '''pub const MOST: u64 = 9;

pub const fn limit() -> u64 {
    MOST
}

pub fn unused() -> u64
    ensures { result ≡ 2 }
{
    2
}
''',
    'specs/Lists.antt': '''use Rattle.low.specs.declared.list.List.{List}
use Rattle.low.specs.Deep.{deep}

-- how many it holds
abbrev pub held : List → ℕ
held l = deep l.size

abbrev pub apart : List → ℕ
apart l = 0
''',
    'specs/Deep.antt': 'abbrev pub deep : ℕ → ℕ\ndeep n = n\n',
}
HIGH = {
    'src/lib.rt': '''use low::{List, limit};

/// What is there.
pub fn all(list: &List) -> u64
    ensures { result ≤ 10 }
{
    list.size() + part(list)
}

fn part(list: &List) -> u64
    ensures { result ≡ 0 }
{
    step(list)
}

fn step(_list: &List) -> u64
    ensures { result ≡ 0 }
{
    0
}

pub fn bound() -> u64
    ensures { result ≡ 9 }
{
    limit()
}
''',
    'specs/Laws.antt': 'pub law : 1 ≡ 1\nlaw = refl\n',
    'proofs/Lib.antt': '-- proofs\n',
    'must-fail/all.edit': 'fn: lib::all\nfile: src/lib.rt\nold:     list.size() + part(list)\nnew:     11\n',
    'must-fail/bound.edit': 'fn: lib::bound\nfile: src/lib.rt\nold:     limit()\nnew:     8\n',
    'must-fail/law.edit': 'lemma: law\nfile: specs/Laws.antt\nold: 1 ≡ 1\nnew: 1 ≡ 2\n',
}


class Reached(WithFolder):
    """What makes an edit due."""

    def setUp(self):
        super().setUp()
        self.write('crates.txt', 'low: std\nhigh: low std\n')
        self.write('KIT-ID', 'kit 1')
        for judge in record.JUDGES:
            self.write(f'.ci/{judge}', judge)
        for crate, files in (('low', LOW), ('high', HIGH)):
            for file, text in files.items():
                self.write(f'crates/{crate}/{file}', text)

    def digests(self):
        repository = rounds.Repository(self.folder)
        repository.kit = self.folder
        return {name: it for own in record.digests(repository).values() for name, it in own.items()}

    def due_by(self, file, old, new):
        """The edits that are due after this change, without their crate, which there is one of."""
        before, text = self.digests(), self.read(f'crates/{file}')
        self.assertEqual(text.count(old), 1, f'{old} in {file}')
        self.write(f'crates/{file}', text.replace(old, new))
        after = self.digests()
        self.write(f'crates/{file}', text)
        return {it.removeprefix('high/').removesuffix('.edit') for it in after if before.get(it) != after[it]}

    def test_comments_and_layout(self):
        for file, old, new in (('high/src/lib.rt', '/// What is there.', '/// Another.'), ('high/src/lib.rt', 'pub fn all', '// new\npub fn all'),
                               ('low/src/list.rt', '        // the number\n', ''), ('low/src/list.rt', '/// A list.', '/// A row.'),
                               ('low/specs/Lists.antt', '-- how many it holds', '-- other'), ('high/proofs/Lib.antt', '-- proofs', '-- all'),
                               ('low/specs/Deep.antt', 'deep n = n\n', 'deep n = n\n\n-- more\n'),
                               ('high/src/lib.rt', 'fn part(list: &List) -> u64\n    ensures', 'fn part(list: &List) -> u64\n\n        ensures')):
            # (an edit of specs/ goes by the lines of the crate)
            self.assertEqual(self.due_by(file, old, new) - ({'law'} if 'fn part' in new else set()), set(), new)

    def test_what_only_looks_like_a_comment(self):
        self.write('crates/high/src/lib.rt', HIGH['src/lib.rt'] + '\nconst PAGE: &[u8] = b"http://a";\n\nfn page() -> u64\n    ensures { PAGE }\n{\n    1\n}\n')
        self.write('crates/high/must-fail/page.edit', 'fn: lib::page\nfile: src/lib.rt\nold:     1\nnew:     2\n')
        self.assertEqual(self.due_by('high/src/lib.rt', '//a', '//b'), {'page', 'law'})

    def test_bodies(self):
        self.assertEqual(self.due_by('high/src/lib.rt', '    step(list)\n', '    step(list) + 0\n'), {'law'})
        self.assertEqual(self.due_by('low/src/list.rt', '        self.size\n', '        self.size + 0\n'), set())
        self.assertEqual(self.due_by('high/src/lib.rt', 'list.size() + part(list)\n', 'list.size() + part(list)\n        + 0\n'), {'all', 'law'})

    def test_bodies_that_are_evaluated(self):
        self.assertEqual(self.due_by('low/src/other.rt', '    MOST\n', '    MOST + 0\n'), {'bound', 'law'})
        self.assertEqual(self.due_by('low/src/other.rt', '= 9;', '= 10;'), {'bound', 'law'})

    def test_contracts(self):
        self.assertEqual(self.due_by('low/src/list.rt', 'result ≡ held', 'result ≤ held'), {'all', 'law'})
        # (what is called by what is called tells nothing, but its contract does where that names it)
        self.assertEqual(self.due_by('high/src/lib.rt', 'fn step(_list: &List) -> u64\n    ensures { result ≡ 0 }', 'fn step(_list: &List) -> u64\n    ensures { result ≤ 0 }'), {'law'})
        self.assertEqual(self.due_by('low/src/other.rt', 'ensures { result ≡ 2 }', 'ensures { result ≡ 3 }'), {'law'})
        self.assertEqual(self.due_by('low/src/list.rt', 'ensures { result ≡ 1 }', 'ensures { result ≡ 3 }'), {'law'})

    def test_definitions(self):
        self.assertEqual(self.due_by('low/specs/Deep.antt', 'deep n = n', 'deep n = 0'), {'all', 'law'})
        self.assertEqual(self.due_by('low/specs/Lists.antt', 'apart l = 0', 'apart l = 1'), {'law'})

    def test_invariants_and_models(self):
        self.assertEqual(self.due_by('low/src/list.rt', 'size ≤ 10', 'size ≤ 11'), {'all', 'law'})
        self.assertEqual(self.due_by('low/src/list.rt', 'λ c. c.size', 'λ c. 0'), {'law'})
        self.write('crates/low/src/list.rt', LOW['src/list.rt'].replace('impl Model for Count', 'impl Model for List'))
        self.assertEqual(self.due_by('low/src/list.rt', 'λ c. c.size', 'λ c. 0'), {'all', 'law'})

    def test_a_method_of_a_type_that_is_not_reached(self):
        self.write('crates/low/src/list.rt', LOW['src/list.rt'].replace('fn unread', 'fn size'))
        self.assertEqual(self.due_by('low/src/list.rt', 'result ≡ 1 }', 'result ≡ 3 }'), {'law'})
        self.write('crates/low/src/list.rt', LOW['src/list.rt'].replace('fn unread', 'fn size').replace('pub size: u64,\n    ghost', 'pub size: u64,\n    pub count: Count,\n    ghost'))
        self.assertEqual(self.due_by('low/src/list.rt', 'result ≡ 1 }', 'result ≡ 3 }'), {'all', 'law'})

    def test_names_of_several_items(self):
        self.write('crates/low/specs/Other.antt', 'abbrev pub deep : ℕ → ℕ\ndeep n = 5\n')
        # (the `use` line tells which; where it leads nowhere both are taken)
        self.assertEqual(self.due_by('low/specs/Other.antt', 'deep n = 5', 'deep n = 6'), {'law'})
        self.assertEqual(self.due_by('low/specs/Lists.antt', 'specs.Deep.{deep}', 'specs.Other.{deep}'), {'all', 'law'})
        self.write('crates/low/specs/Lists.antt', LOW['specs/Lists.antt'].replace('specs.Deep', 'specs.Gone'))
        for file, old in (('low/specs/Other.antt', 'deep n = 5'), ('low/specs/Deep.antt', 'deep n = n')):
            self.assertEqual(self.due_by(file, old, 'deep n = 7'), {'all', 'law'})

    def test_names_that_mean_another_of_the_same_text(self):
        # (two definitions of one text, whose names mean different things)
        for file, number in (('A', 1), ('B', 2)):
            self.write(f'crates/low/specs/{file}.antt', f'abbrev pub base : ℕ\nbase = {number}\n')
            self.write(f'crates/low/specs/Of{file}.antt', f'use Rattle.low.specs.{file}.{{base}}\n\nabbrev pub top : ℕ\ntop = base\n')
        self.write('crates/low/specs/Both.antt', 'use Rattle.low.specs.OfA.{top}\nuse Rattle.low.specs.OfB as other\n\nabbrev pub both : ℕ\nboth = top - other.top\n')
        self.write('crates/low/specs/Deep.antt', 'use Rattle.low.specs.Both.{both}\n\nabbrev pub deep : ℕ → ℕ\ndeep n = both\n')
        before = self.digests()
        self.write('crates/low/specs/Both.antt', 'use Rattle.low.specs.OfB.{top}\nuse Rattle.low.specs.OfA as other\n\nabbrev pub both : ℕ\nboth = top - other.top\n')
        self.assertNotEqual(self.digests()['high/all.edit'], before['high/all.edit'])

    def test_names_of_other_crates(self):
        self.write('crates/low/specs/Deep.antt', 'use Rattle.std.specs.Prelude.{min}\n\nabbrev pub deep : ℕ → ℕ\ndeep n = min n 3\n')
        self.assertEqual(self.due_by('low/specs/Deep.antt', 'Prelude.{min}', 'Other.{min}'), {'all', 'law'})
        self.assertEqual(self.due_by('low/specs/Deep.antt', '{min}', '{min, max}'), {'law'})

    def test_what_is_moved(self):
        before = self.digests()
        self.write('crates.txt', 'deeper: std\nlow: deeper std\nhigh: low deeper std\n')
        for crate, file in (('deeper', 'src/list.rt'), ('deeper', 'specs/Lists.antt'), ('deeper', 'specs/Deep.antt')):
            self.write(f'crates/{crate}/{file}', LOW[file].replace('Rattle.low', f'Rattle.{crate}'))
            os.remove(f'{self.folder}/crates/low/{file}')
        self.write('crates/deeper/src/lib.rt', 'pub mod list;\n\npub use list::{Count, List};\n')
        self.write('crates/low/src/lib.rt', 'mod other;\n\npub use deeper::{Count, List};\npub use other::{limit, unused};\n')
        self.write('crates/high/src/lib.rt', HIGH['src/lib.rt'].replace('low::{List, limit}', 'low::{limit}').replace('use low', 'use deeper::List;\nuse low'))
        after = self.digests()
        self.assertEqual({it for it in after if before[it] != after[it]}, {'high/law.edit'})

    def test_an_edit_that_is_moved(self):
        before = self.digests()
        self.write('crates/low/src/bounds.rt', 'use crate::other::limit;\n\npub fn bound() -> u64\n    ensures { result ≡ 9 }\n{\n    limit()\n}\n')
        self.write('crates/low/must-fail/bound.edit', HIGH['must-fail/bound.edit'].replace('lib::', 'bounds::').replace('lib.rt', 'bounds.rt'))
        self.assertEqual(self.digests()['low/bound.edit'], before['high/bound.edit'])

    def test_what_an_edit_writes(self):
        self.write('crates/high/must-fail/all.edit', HIGH['must-fail/all.edit'].replace('new:     11', 'new:     low::unused()'))
        self.assertEqual(self.due_by('low/src/other.rt', 'ensures { result ≡ 2 }', 'ensures { result ≡ 3 }'), {'all', 'law'})

    def test_an_edit_that_names_a_lemma_goes_by_the_crate(self):
        for file, old, new in (('high/src/lib.rt', '    0\n', '    1 - 1\n'), ('low/specs/Lists.antt', 'apart l = 0', 'apart l = 1')):
            self.assertIn('law', self.due_by(file, old, new), file)
        # (bodies below it aside)
        self.assertEqual(self.due_by('low/src/other.rt', '    2\n', '    1 + 1\n'), set())

    def test_files_that_are_not_understood(self):
        """A file with something else in it counts whole, and its names mean all that have them."""
        self.write('crates/low/specs/Deep.antt', LOW['specs/Deep.antt'] + '\nsyntax of something\n\nabbrev pub by : ℕ\nby = 1\n')
        self.assertEqual(self.due_by('low/specs/Deep.antt', 'by = 1', 'by = 2'), {'all', 'law'})
        self.assertEqual(self.due_by('low/src/other.rt', 'ensures { result ≡ 2 }', 'ensures { result ≡ 3 }'), {'law'})
        self.write('crates/low/src/other.rt', LOW['src/other.rt'] + '\nblocks! {\n    one\n}\n')
        self.assertEqual(self.due_by('low/src/other.rt', '    one\n', '    two\n'), {'all', 'bound', 'law'})
        self.assertEqual(self.due_by('low/src/other.rt', 'ensures { result ≡ 2 }', 'ensures { result ≡ 3 }'), {'all', 'bound', 'law'})

    def test_operators(self):
        self.write('crates/low/specs/Deep.antt', 'abbrev pub ◌⊕◌ : ℕ → ℕ → ℕ\nm ⊕ n = m\n')
        self.write('crates/low/specs/Lists.antt', LOW['specs/Lists.antt'].replace('{deep}', '{◌⊕◌}').replace('deep l.size', 'l.size ⊕ 1'))
        self.assertEqual(self.due_by('low/specs/Deep.antt', 'm ⊕ n = m', 'm ⊕ n = n'), {'all', 'law'})


class ReadAsItems(WithFolder):
    """How sources are read."""

    def read_source(self, text):
        return items.Source({'low': []}).read('low', 'src/lib.rt', text)

    def test_texts_are_no_code(self):
        plain, bare = items.two_texts('f("// }", \'{\', b"\\"") // end\nr#"{"# /* { */ x\'')
        self.assertEqual(plain, 'f("// }", \'{\', b"\\"")       \nr#"{"#         x\'')
        self.assertNotIn('{', bare)
        self.assertEqual(len(bare), len(plain))

    def test_pieces(self):
        file = self.read_source('''#![tactic(auto)]
use std::fmt;

#[tactic(auto, using(crate::proofs::A::b))]
pub(crate) fn one(
    n: u64,
) -> u64
    ensures { result ≡ crate::inner::two n }
{
    n + 1
}

pub const TEXT: &str = "{
}
";

impl<T: Eq> fmt::Display for Of<T> {
    ghost output = { none };

    fn fmt(&self) -> u8 {
        1
    }
}
''')
        self.assertEqual([(it.kind, it.name) for it in file.items], [('fn', 'one'), ('body', 'one'), ('const', 'TEXT'), ('body', 'fmt'), ('impl', 'Of')])
        self.assertEqual(file.items[0].text, 'fn one( n: u64, ) -> u64 ensures { result ≡ two n }')
        self.assertEqual(file.items[-1].text, 'impl<T: Eq> fmt::Display for Of<T> { ghost output = { none }; fn fmt(&self) -> u8')
        self.assertFalse(file.is_odd)

    def test_pieces_that_are_not_known(self):
        for text in ('thing! {\n}\n', 'mod inner {\n    fn one() {}\n}\n', 'use low::*;\n'):
            self.assertTrue(self.read_source(text).is_odd, text)

    def test_what_use_lines_name(self):
        self.assertEqual(items.paths_of('a::{b, c::{d as e, self}}'), [('b', ('a', 'b')), ('e', ('a', 'c', 'd')), ('c', ('a', 'c'))])
        self.assertEqual(items.names_of_definitions('A.b', 'c, ◌+◌', None), [('c', ('A', 'b', 'c')), ('◌+◌', ('A', 'b', '◌+◌'))])

    def test_groups_come_after_what_they_lead_to(self):
        self.assertEqual([sorted(it) for it in reach.components([[1], [2], [1, 3], []])], [[3], [1, 2], [0]])
