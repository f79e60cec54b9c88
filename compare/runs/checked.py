"""Runs what tools/checked.py builds: its checks stop a faulty program, and the checked mpdbg answers as the proved one must.

    python3 compare/runs/checked.py [PROGRAM]

A crate of a few lines has a fault for each kind of check, and words that meet it or don't; each must end as its check has it. It is
built twice: in parts (tools/parts.py), where some faults stand in another part than the words that meet them, and as one module, by a
clang that refuses a part. A module of two functions, with addresses that must be the same in both, is compiled in these ways too, and
where it has a line that isn't known, or the linker refuses. Then the examples, the lessons, the worked rows of the command line and
each fault of a script are run as compare/runs/statuses.py runs them, and the worked dialogues of a session (session_statuses.py) and of
a console (console_statuses.py), on PROGRAM; where none is named it is built, which takes some two minutes on four processors. The
status is 0 where every run ended as it must.

The other comparisons take a checked program too. Where they limit its addresses it can't start: `--memory 100000000` lifts that of
compare/runs/run.py, compare/runs/explore.py and compare/runs/sessions.py; the rows `much to show with 32 MiB` and `much to tell with 32 MiB` of
compare/runs/statuses.py can't be met by it, and its long check takes more than its minute on a busy machine.
"""

import os
import re
import shutil
import subprocess
import sys
import tempfile

sys.path.insert(0, os.path.dirname(os.path.dirname(os.path.abspath(__file__))))

from places import TOP
from runs import driving
from runs.statuses import Result, example_rows, lesson_rows, refused_rows, shortened, usage_rows
from started.kits import Kit, write
from started.programs import run_at_once
from statuses.console_statuses import DIALOGUE_ROWS as CONSOLE_ROWS
from statuses.session_statuses import DIALOGUE_ROWS

FAULTY = '''#![tactic(auto)]

use std::env::args;
use std::io;

fn sum_of(count: u8) -> u8 {
    200 + count
}

fn write_at(numbers: &mut Vec<u64>, place: usize) {
    numbers[place] = 8;
}

fn read_at(numbers: &Vec<u64>, place: usize) -> u64 {
    numbers[place]
}

fn short(length: usize) -> usize {
    let is_short = length < 6;
    prove!(is_short);
    length
}

fn five_or_six(length: usize) -> usize {
    match length {
        5 => 1,
        6 => 2,
        _ => unreachable!(),
    }
}

fn main(rt: HostRuntime) -> io::Result<()> {
    let mut numbers: Vec<u64, _> = Vec::new(rt.alloc());
    for word in args(&rt)? {
        let length = word.len();
        if word.as_str() == "push" {
            let _ = numbers.push(7);
        } else if word.as_str() == "small" {
            println!(rt; "{}", sum_of(55))?;
        } else if word.as_str() == "large" {
            println!(rt; "{}", sum_of(56))?;
        } else if word.as_str() == "narrow" {
            println!(rt; "{}", (300 + length) as u8)?;
        } else if word.as_str() == "divide" {
            println!(rt; "{}", 7 / (length - 6))?;
        } else if word.as_str() == "shift" {
            println!(rt; "{}", length << (length * 20))?;
        } else if word.as_str() == "first" {
            println!(rt; "{}", numbers[length - 5])?;
        } else if word.as_str() == "second" {
            println!(rt; "{}", numbers[length - 5])?;
        } else if word.as_str() == "write" {
            numbers[length - 5] = 8;
        } else if word.as_str() == "write_away" {
            numbers[length * 2] = 8;
        } else if word.as_str() == "far_write" {
            write_at(&mut numbers, length - 9);
        } else if word.as_str() == "far_write_away" {
            write_at(&mut numbers, length * 2);
        } else if word.as_str() == "far_read" {
            println!(rt; "{}", read_at(&numbers, length - 8))?;
        } else if word.as_str() == "far_read_past" {
            println!(rt; "{}", read_at(&numbers, length - 12))?;
        } else if word.as_str() == "prove" || word.as_str() == "prove_not" {
            println!(rt; "{}", short(length))?;
        } else if word.as_str() == "place" || word.as_str() == "place_not" {
            println!(rt; "{}", five_or_six(length))?;
        } else if word.as_str() == "last" {
            println!(rt; "{}", numbers.last().unwrap())?;
        } else if word.as_str() == "never" {
            unreachable!();
        } else {
            println!(rt; "word")?;
        }
    }
    Ok(())
}
'''
# The words of a run, and what it writes; or, where a check must fail, what is said of it and None.
FAULTS = (
    ('', b'word\n', b''),
    ('x y', b'word\n' * 3, b''),
    ('small', b'word\n255\n', b''),
    ('push first', b'word\n7\n', b''),
    ('push last', b'word\n7\n', b''),
    ('push write first', b'word\n8\n', b''),
    ('large', None, b': ILL '),
    ('narrow', None, b': ILL '),
    ('divide', None, b': ILL '),
    ('shift', None, b': ILL '),
    ('first', None, b': ILL '),
    ('push second', None, b': ILL '),
    ('push write_away', None, b'heap-buffer-overflow'),
    ('last', None, b': ILL '),
    ('never', None, b': ILL '),
    ('push far_write first', b'word\n8\n', b''),
    ('push far_read', b'word\n7\n', b''),
    ('prove', b'word\n5\n', b''),
    ('place', b'word\n1\n', b''),
    ('push far_write_away', None, b'heap-buffer-overflow'),
    ('push far_read_past', None, b': ILL '),
    ('prove_not', None, b': ILL '),
    ('place_not', None, b': ILL '),
)
# The functions that stand in another part than `main`, which calls them.
FAR = ['sum_of', 'write_at', 'read_at', 'short', 'five_or_six']
PARTS = 5
IN_PARTS = f'compiled in {PARTS} parts\n'

# Two functions, each in a part of its own as the first is long, a small one that both call, and what must have one address.
STORES = ''.join(f'  store volatile i8 {number}, ptr @static.0, align 1\n' for number in range(60))
MODULE = f'''target triple = "x86_64-unknown-linux-gnu"

@static.0 = private global [1 x i8] zeroinitializer, align 1
@static.1 = private constant <{{ ptr, [1 x i8] }}> <{{ ptr getelementptr (i8, ptr @static.1, i64 8), [1 x i8] c"\\05" }}>, align 8
@static.2 = private unnamed_addr constant [1 x i8] c"\\07", align 1

define internal i32 @"near::started"() #0 {{
  ret i32 0
}}

define internal i8 @"near::called"() #0 {{
  %it = load i8, ptr @static.2, align 1
  ret i8 %it
}}

define internal ptr @"far::long"(i1 %is_function) #0 {{
{STORES}  %it = call i8 @"near::called"()
  store i8 %it, ptr @static.0, align 1
  %address = select i1 %is_function, ptr @"near::started", ptr @static.1
  ret ptr %address
}}

define i32 @main() #0 {{
  %1 = call ptr @"far::long"(i1 true)
  %2 = icmp eq ptr %1, @"near::started"
  %3 = call ptr @"far::long"(i1 false)
  %4 = icmp eq ptr %3, @static.1
  %5 = load i8, ptr @static.0, align 1
  %6 = call i8 @"near::called"()
  %7 = icmp eq i8 %5, %6
  %8 = and i1 %2, %4
  %9 = and i1 %7, %8
  %10 = select i1 %9, i32 7, i32 1
  ret i32 %10
}}

attributes #0 = {{ noinline nounwind }}
'''
OTHER_LINE = 'as one module: OtherModule: a line b\''
REFUSED = 'as one module: CalledProcessError: '
# How it is compiled: the beginning of what is told, in how many parts, the module, and a word that clang and the linker refuse.
MODULES = (
    ('in 2 parts\n', 2, MODULE, None, None),
    ('as one module: one part was asked for\n', 1, MODULE, None, None),
    (f'{OTHER_LINE}module asm', 2, f'{MODULE}module asm ".globl other"\n', None, None),
    (f'{OTHER_LINE}@other = ', 2, f'{MODULE}@other = internal alias i32 (), ptr @main\n', None, None),
    (REFUSED, 2, MODULE, '-S', None),
    (REFUSED, 2, MODULE, '-inline-threshold=25', None),
    (REFUSED, 2, MODULE, '*/1.ll', None),
    (REFUSED, 2, MODULE, None, '-r'),
)
ABORTED = -6
SECONDS = 60


def build(top, crate, out):
    """Builds the checked program of a crate of a repository, or ends this."""
    words = [sys.executable, f'{top}/tools/checked.py', crate, out]
    if status := subprocess.run(words, check=False).returncode:
        sys.exit(f'the checked program of {crate} is not built: status {status}')
    return out


def module_rows(folder):
    """The module of two functions, compiled in each way: what is told, the parts that there were, and what the program gives."""
    for number, (told, count, text, by_clang, by_linker) in enumerate(MODULES):
        name, kit = f'module {number}', Kit(f'{folder}/{number}', by_clang, by_linker)
        module, out, program = (f'{kit.folder}/{it}' for it in ('module.txt', 'module.o', 'program'))
        write(module, text)
        words = [str(count), kit.clang, '-c', '-fPIE', '-x', 'ir', module, '-o', out, '-O0']
        said = subprocess.run([sys.executable, f'{TOP}/tools/parts.py', *words], capture_output=True, text=True, check=False)
        yield name, said.stdout[:len(told)], told
        if told.startswith('in '):
            yield f'{name}, its parts', [re.findall(r'^define .*@"?(far::long|main)\b', part, re.M) for part in kit.parts()], [['far::long'], ['main']]
        is_linked = kit.link(out, program)
        yield f'{name}, run', is_linked and subprocess.run([program], check=False).returncode, 7


def built_rows(folder, kit, told):
    """The faulty program, built by a kit in parts where that takes them: how it is compiled, and in which part functions stand."""
    shutil.copytree(f'{TOP}/tools', f'{folder}/tools', ignore=shutil.ignore_patterns('__pycache__'))
    write(f'{folder}/crates.txt', 'faulty:\n')
    write(f'{folder}/crates/faulty/src/main.rt', FAULTY)
    words = [sys.executable, f'{folder}/tools/checked.py', 'faulty', f'{folder}/faulty', str(PARTS)]
    said = subprocess.run(words, env=kit.environment(), stderr=subprocess.PIPE, text=True, check=False).stderr
    yield f'built, {told}', (told in said, said), (True, said)
    if told == IN_PARTS:
        defined = {name: re.compile(f'^define .*@"faulty::{name}"', re.M) for name in ('main', *FAR)}
        places = {name: [bool(it.search(part)) for part in kit.parts()] for name, it in defined.items()}
        yield 'functions in one part', [name for name, found in places.items() if sum(found) == 1], ['main', *FAR]
        yield 'functions beside `main`', [name for name in FAR if places[name] == places['main']], []


def fault_rows(folder, told, by_clang=None):
    """The faulty program, by a clang that refuses a word: what it writes where it meets no fault, and how each check stops it."""
    name = told.strip(': \n')
    yield from built_rows(f'{folder}/top', Kit(f'{folder}/kit', by_clang), told)
    for words, output, said in FAULTS:
        result = run_at_once(f'{folder}/top/faulty', b'', SECONDS, words=words.split())
        if output is not None:
            yield f'{name}: {words}', result, Result(output, b'', 0)
        else:
            yield f'{name}: {words}', (result.status, said in result.errors), (ABORTED, True)


def main():
    if len(sys.argv) > 2:
        sys.exit(__doc__)
    with tempfile.TemporaryDirectory() as folder:
        found = [*module_rows(f'{folder}/modules'), *fault_rows(f'{folder}/parts', IN_PARTS)]
        found += fault_rows(f'{folder}/one', f'compiled {REFUSED}', '*/1.ll')
        program = os.path.abspath(sys.argv[1]) if len(sys.argv) == 2 else build(TOP, 'mpdbg', f'{folder}/mpdbg')
        for rows in (example_rows, lesson_rows, refused_rows, usage_rows, DIALOGUE_ROWS, CONSOLE_ROWS):
            found += rows(program)
        count, wrong = driving.count_wrong(found, lambda result, wanted: f'{shortened(result)}, wanted {shortened(wanted)}')
    print(f'{count} runs of checked programs, {wrong} wrong')
    return 1 if wrong else 0


if __name__ == '__main__':
    sys.exit(main())
