#!/usr/bin/env python3
"""Compiles an LLVM module on several processors: in parts, whose objects are linked into one.

    python3 tools/parts.py PARTS CLANG WORDS..

The words are those that clang would be called with; they name the module behind `-x ir`, the
object behind `-o`, and `-O0`, in place of which it is optimized a little. A line on standard output
says what was done: `in 8 parts`, or `as one module: ` and why.

What `main` doesn't reach is left out. Each other function stands in one part, near what calls it,
and is declared in the parts that name it. A small one that is called and nothing else is copied to
each of them, so that it is inlined there as in a whole module. So is each constant of which the
module says that its address means nothing (`unnamed_addr`). All else has one address, as it has in
a whole module; the text of mpdbg compares no address but with null. What several parts name is
hidden in place of private or internal. No check is taken out: AddressSanitizer puts its own into
each part, and into functions of which it can't see all callers a few more.

Calls between parts aren't inlined, and little is inlined at all (LEVEL), so that the program takes
up to 1.6 times as long. A function with very wide variables (WIDE) isn't optimized.

The module is compiled as one where one part is asked for, and where it has a line that isn't known
here, or clang or the linker refuses a part.
"""

import concurrent.futures
import os
import re
import subprocess
import sys
import tempfile

# A function of at most so many bytes of text is copied.
SMALL = 600

# A function whose variables take so many bytes isn't optimized: one pass, SROA, takes ten seconds
# for one.
WIDE = 30_000

# How far a part is optimized. What is inlined costs a tenth of the time of all parts, and more.
LEVEL = ('-O1', '-mllvm', '-inline-threshold=25')

# A name, and behind it what shows that it is called there.
NAME = re.compile(rb'@("[^"]*"|[-\w.$]+)(\(?)')
VARIABLE = re.compile(rb' = alloca \[(\d+) x i8\]')
ATTRIBUTES = re.compile(rb'(?= #\d+ \{\n)')
INTERNAL = re.compile(rb'define internal ')
GLOBAL = re.compile(rb'@[-\w.$]+ = (?:private|internal) (unnamed_addr constant|constant|global) ')
LINKAGE = re.compile(rb'(?<= = )(?:private|internal) ')
ALIGNED = re.compile(rb', align \d+$')


class OtherModule(Exception):
    """The module holds what this doesn't know."""


def processors():
    """How many processors this may use."""
    return len(os.sched_getaffinity(0))


def usual():
    """In how many parts a module is compiled here: two for each processor, so that none waits long
    for the last one, and 16 at most, as each has copies of its own."""
    return 1 if processors() == 1 else min(2 * processors(), 16)


def name_in(text):
    """The first name of a text."""
    found = NAME.search(text)
    if not found:
        raise OtherModule(f'no name in {text[:80]!r}')
    return found.group(1)


def functions_in(text):
    """The functions that the text of a module defines, by name, and the rest of it."""
    functions, rest, at = {}, [], 0
    while (begin := text.find(b'\ndefine ', at) + 1) > 0:
        rest.append(text[at:begin])
        at = text.index(b'\n}\n', begin) + 3
        body = text[begin:at]
        if sum(map(int, VARIABLE.findall(body))) >= WIDE:
            body = ATTRIBUTES.sub(b' noinline optnone', body, count=1)
        functions[name_in(body)] = body
    rest.append(text[at:])
    return functions, b''.join(rest)


class Module:
    """The text of a module, by what it defines and declares."""

    def __init__(self, text):
        self.functions, rest = functions_in(text)
        self.globals, self.declared, self.head, self.tail = {}, {}, [], []
        for line in rest.splitlines(keepends=True):
            self.take(line)
        self.names, self.only_called = {}, set(self.functions)
        for name, body in (*self.functions.items(), *self.globals.items()):
            found = set(NAME.findall(body))
            self.names[name] = {it for it, _ in found} - {name}
            self.only_called.difference_update(it for it, called in found if not called)
        if b'main' not in self.functions:
            raise OtherModule('no main')

    def take(self, line):
        """Takes a line that stands in no function."""
        if GLOBAL.match(line):
            self.globals[name_in(line)] = line
        elif line.startswith(b'declare '):
            self.declared[name_in(line)] = line
        elif line.startswith((b'attributes #', b'!')):
            self.tail.append(line)
        elif line.startswith((b'source_filename = ', b'target ')):
            self.head.append(line)
        elif line.strip() and not line.startswith(b';'):
            raise OtherModule(f'a line {line[:80]!r}')

    def in_order(self):
        """What `main` reaches, each behind what it names."""
        order, seen, stack = [], {b'main'}, [(b'main', iter(sorted(self.names[b'main'])))]
        while stack:
            name, left = stack[-1]
            for it in left:
                if it not in seen and it in self.names:
                    seen.add(it)
                    stack.append((it, iter(sorted(self.names[it]))))
                    break
            else:
                order.append(name)
                stack.pop()
        return order

    def is_copied(self, name):
        """Whether what is defined is copied to each part that names it."""
        if name in self.globals:
            return GLOBAL.match(self.globals[name]).group(1) == b'unnamed_addr constant'
        body = self.functions[name]
        return len(body) <= SMALL and name in self.only_called and bool(INTERNAL.match(body))


class Cut:
    """A module that is cut into so many parts."""

    def __init__(self, module, count):
        self.module, self.count = module, count
        order = module.in_order()
        # the part of each name that stands in one alone
        self.part_of = self.placed([name for name in order if not module.is_copied(name)])
        homes = [[] for _ in range(count)]
        for name, number in self.part_of.items():
            homes[number].append(name)
        self.held = [self.held_by(home) for home in homes]
        # what is named by a part that it doesn't stand in
        self.shared = {name for number, names in enumerate(self.held) for name in names
                       if self.part_of.get(name, number) != number}

    def placed(self, names):
        """A part for each of these names: functions by their order, with as much text in each part
        as in others, and variables in the first."""
        sizes = {name: len(self.module.functions.get(name, b'')) for name in names}
        total, before, placed = sum(sizes.values()), 0, {}
        for name, size in sizes.items():
            placed[name] = before * self.count // total if size else 0
            before += size
        return placed

    def held_by(self, home):
        """What stands in a part, which is home to these names, and what is named there."""
        module, seen, stack = self.module, set(home), list(home)
        while stack:
            for name in module.names[stack.pop()] - seen:
                if name in module.declared:
                    seen.add(name)
                elif name in module.names:
                    seen.add(name)
                    if name not in self.part_of:
                        stack.append(name)
        return seen

    def text(self, number):
        """The text of a part."""
        lines = (self.line(name, number) for name in sorted(self.held[number]))
        return b''.join([*self.module.head, *lines, *self.module.tail])

    def line(self, name, number):
        """What a part has of a name that is held there."""
        module = self.module
        if name in module.declared:
            return module.declared[name]
        is_here, is_shared = self.part_of.get(name, number) == number, name in self.shared
        if name in module.functions:
            body = module.functions[name]
            if is_here:
                return INTERNAL.sub(b'define hidden ', body, count=1) if is_shared else body
            head = body[:body.index(b'\n')].rstrip(b' {')
            return INTERNAL.sub(b'declare hidden ', head, count=1) + b'\n'
        line = module.globals[name]
        if is_here:
            return LINKAGE.sub(b'hidden ', line, count=1) if is_shared else line
        # (of no size that is told, so that each use of it is checked)
        align = ALIGNED.search(line.rstrip())
        return b'@%s = external hidden global i8%s\n' % (name, align.group() if align else b'')


def printed(clang, module):
    """The text of a module."""
    words = ['-S', '-emit-llvm', '-x', 'ir', module, '-o', '-', '-Xclang', '-disable-llvm-passes']
    said = subprocess.run([clang, *words, '-Xclang', '-disable-llvm-verifier'], check=True,
                          stdout=subprocess.PIPE, stderr=subprocess.DEVNULL)
    return said.stdout


def compile_parts(count, clang, words):
    """Does what clang does with these words, in so many parts."""
    module, out = words[words.index('ir') + 1], words[words.index('-o') + 1]
    words = [it for it in words if it not in ('-c', '-x', 'ir', module, '-o', out, '-O0')]
    cut = Cut(Module(printed(clang, module)), count)
    with tempfile.TemporaryDirectory() as folder:
        paths, waiting = [f'{folder}/{number}' for number in range(count)], []
        with concurrent.futures.ThreadPoolExecutor(processors()) as pool:
            for number, path in enumerate(paths):
                with open(f'{path}.ll', 'wb') as file:
                    file.write(cut.text(number))
                command = [clang, *words, *LEVEL, '-c', '-x', 'ir', f'{path}.ll', '-o', f'{path}.o']
                waiting.append(pool.submit(subprocess.run, command, check=True))
            try:
                for it in waiting:
                    it.result()
            finally:
                for it in waiting:
                    it.cancel()
        linker = f'{os.path.dirname(clang)}/ld.lld'
        subprocess.run([linker, '-r', '-o', out, *(f'{path}.o' for path in paths)], check=True)


def main():
    if len(sys.argv) < 4:
        sys.exit(__doc__)
    count, clang, words = int(sys.argv[1]), sys.argv[2], sys.argv[3:]
    why = 'one part was asked for'
    if count > 1:
        try:
            compile_parts(count, clang, words)
            print(f'in {count} parts')
            return
        except Exception as error:  # pylint: disable=broad-except
            # (whatever it is, clang may still take the whole)
            why = f'{type(error).__name__}: {error}'
    print(f'as one module: {why}', flush=True)
    os.execv(clang, [clang, *('-O1' if word == '-O0' else word for word in words)])


if __name__ == '__main__':
    main()
