"""Runs every command that README.md, docs/*.md and the texts of help show, as it stands, and compares what is shown of its answers.

    python3 compare/runs/shown_commands.py PROGRAM

The commands run at the top of a copy of the repository in which `./mpdbg` is the built program. Pages show them in blocks that are
indented by four spaces, and in code within a line; what stands behind two spaces is said of a command. Where a block stands right
below a command, with nothing said between, it is what the command answers, whole. Blocks of words with their answers, tables of
these, requests with their replies, dialogues, states, and scripts, are compared with the examples that they are taken from, and the
requests of each example are answered by the program. A dialogue with prompts is typed at a terminal, to the command that stands above
it, and all that is answered is compared. Where `serve` is shown, as many clients come as it waits for, and leave; where a
client is, it has a server. Where `sbatch` is, a script of a few lines stands for Slurm, and runs the tasks of an array one behind the
other; where GNU parallel is, and none is on the path, the rest of the block is skipped, which is said. What is no command of the program
is named in NOT_RUN, and a block that is none of all that in EXCERPTS: a block or a command that is new to this list is wrong here. The
status is 0 where each command ended as it must.
"""

import glob
import os
import re
import shlex
import shutil
import socket
import subprocess
import sys
import tempfile
import tty
from typing import NamedTuple, Optional

sys.path.insert(0, os.path.dirname(os.path.dirname(os.path.abspath(__file__))))

from model.debugger import Result
from places import TOP
from rows.examples import dialogues
from started.console_terminal import read as read_terminal, wrong_end

SECONDS = 60

# What begins a command that is not run here, since it is none of the program.
NOT_RUN = ('.ci/', 'GATE_', 'rt ', 'python3 compare/', 'python3 bench/', 'git ', 'mpicc ', 'mpiexec ', 'tools/record/', './mpdbg --prove', './mpdbg --test')
# What begins a command that is run.
RUN = ('./mpdbg', 'cat ', 'sed ', 'echo ', 'mkdir ', 'seq ', 'sbatch ', 'sh examples/', 'python3 examples/')
# How a block begins that shows neither commands nor what one of the commands answers: a line of another command, or a form.
EXCERPTS = {
    'docs/ADAPTER.md': ('mpdbg dap FILE', '{"body":B', '{"id":I'),
    'README.md': ('checked as it runs',),
    'docs/FORMATS.md': ('enabled local 3', 'handles 1', 'leaf N ', 'rendezvous leaves 2', 'witness N: ', 'leaf 1 [1] deadlock', 'deadlock 0.1', 'trap 0 assert', 'mpdbg: script refused', 'mpdbg: device',
                        'all 12 runs were tried', 'not everything was tried', 'outcome 0 runs 3', '  decided at depth 9', 'rendezvous outcomes 2', 'words and picture take', 'JSON requests', 'end 0 leaves 3', 'proving '),
    # the second is a screen of a terminal, which views.py compares
    'docs/CONSOLE.md': ('help lists ', '            4  var x; '),
    'docs/FROM_A_RUN.md': ('first run: ', 'recv x from any tag 2 '),
    'docs/GATE.md': ('fn: ',),
    'docs/PAGES.md': ('{"run":{"format":', '{"c":{"kind":"send"'),
    'docs/PICTURES.md': ('<line class', '0 1 2')}
# Files that a page names by a word: a script, words for it, and a witness of it, which is made.
FILES = {'FILE': 'examples/race.mpd', 'WORDS': 'examples/race.words', 'WITNESS': 'made.witness', '--port P': '--port 7007', '--clients N': '--clients 2'}
MAKING = './mpdbg check examples/race.mpd --witness | grep -A 1 deadlock | head -2 > made.witness'
# A word that is typed behind a prompt, and what stands before it.
TYPED_TURN = re.compile(r'(.*?^\(\d+\) )([^\n]*)\n', re.M | re.S)
# What is typed behind a script that is read from standard input with it.
TYPED = {'cat examples/first_message.mpd - | ./mpdbg': '---\n'}
# A command that wants GNU parallel, at its beginning or behind a pipe; without that the rest of its block is skipped.
PARALLEL = re.compile(r'(?:^|\| )parallel ')
# What stands for Slurm: each task of the array is run, with its number, in the folder where the array was submitted.
SBATCH = '''#!/bin/sh
for word; do
  case $word in --array=*) range=${word#--array=} ;; -*) ;; *) script=$word ;; esac
done
for number in $(seq "${range%-*}" "${range#*-}"); do
  SLURM_ARRAY_TASK_ID=$number sh "$script" || exit 1
done
'''
# What tells of a deadlock or a trap, in a report, grouped or of modes, or in a diagnosis.
IS_BAD = re.compile(r'^(?:leaf|outcome) .*\] (?:deadlock|trap) |^end .* first \d+ (?:deadlock|trap) |'
                    r'^\S+ leaves \d+ (?:deadlocks [1-9]|deadlocks 0 traps [1-9])|^it (?:can (?:hang|trap)|always (?:hangs|traps|fails)) in '
                    r'|^\S+: \d+ runs?(?: and more)?, \d+ (?:hang|trap)'
                    r'|^\d+ ranks?: .*, \d+ (?:hang|trap)\b', re.M)
# What the examples of help answer, each in its turn.
STUCK = '  rank {0} waits at line 4, {0}.0 send to {1} tag 5 value {0}: for a receive of rank {1} from rank {0} with tag 5\n'
CANDIDATE = '  {0}: rank {0} sends {0}, tag 0 (line 7); match {0}.0 0.0\n'
SOURCE = ('    7  if rank == 0 { recv x from any tag any status who tag_of; recv x from 1\n'
          '        tag any; } else { send rank to 0 tag 0; }\n')
HELP = {'--help': ['first.stdout'], 'trace --help': ['ok 1\n'], 'verify --help': ['accepted\n'],
        'serve --help': ['listening 4000\nserved 0\n'], 'run --help': ['{"depth":6,"ok":true,"steps":6,"stop":"choice","version":1}\n'],
        'debug --help': ['6 steps, depth 6\nstopped at a choice of rank 0, line 7; next N takes one:\n' + SOURCE + CANDIDATE.format(1)
                         + CANDIDATE.format(2)],
        'words --help': [''.join(f'ok {depth}\n' for depth in range(1, 11))],
        'check --help': [
            'leaf 0 [] deadlock 0.0 1.0\nwitness 0: local 0, local 1\n' + STUCK.format(0, 1) + STUCK.format(1, 0)
            + '  rank 0 waits for rank 1\n  rank 1 waits for rank 0\n  a cycle, where each waits for the next: rank 0, rank 1, rank 0\nleaves 1 more no\n',
            'end 0 leaves 1 first 0 deadlock 0.1 2.0\nend 1 leaves 1 first 1 done\nleaves 2 more no\n',
            'leaf 0 [0] deadlock 0.1 2.0\nleaf 1 [1] done\nleaves 2 more no\n']}


class Shown(NamedTuple):
    """A command of a page, what stands below it as its answer, if that does, whether it wants GNU parallel, and what stands below it as a
    dialogue at a terminal."""
    where: str
    command: str
    answer: Optional[str] = None
    wants_parallel: bool = False
    talk: Optional[str] = None


class Block(NamedTuple):
    """Lines of a page that are indented or fenced, the number of the first, and whether nothing is said before them behind the last."""
    number: int
    lines: list
    is_fenced: bool
    follows: bool

    @property
    def text(self):
        return '\n'.join([*self.lines, ''])


def read(path):
    with open(path, encoding='utf-8') as file:
        return file.read()


def blocks_of(page):
    """The blocks of a page."""
    found, lines, fenced, said = [], [], False, True
    for number, line in enumerate([*read(f'{TOP}/{page}').split('\n'), ''], 1):
        if line.startswith('```'):
            if fenced:
                found.append(Block(number - len(lines), lines, True, False))
                lines, said = [], True
            fenced = not fenced
        elif fenced:
            lines.append(line)
        elif line.startswith('    ') and line.strip():
            lines.append(line[4:])
        else:
            if lines:
                found.append(Block(number - len(lines), lines, False, not said))
                lines, said = [], False
            said = said or bool(line.strip())
    return found


def command_of(line):
    """A command without what is said of it."""
    return re.split(r'\s{2,}', line.strip())[0]


def is_command(line):
    return line.startswith(RUN + NOT_RUN)


def with_files(command):
    """A command with the files that a page names by a word."""
    return re.sub(r'\b(?:FILE|WORDS|WITNESS)\b|--port P\b|--clients N\b', lambda word: FILES[word[0]], command)


class Page:
    """The commands of a page, and what else it shows."""

    def __init__(self, page):
        self.page, self.commands, self.problems, self.compared = page, [], [], 0
        self.script = None
        lines = read(f'{TOP}/{page}').split('\n')
        self.names = [(number, name) for number, line in enumerate(lines, 1) for name in re.findall(r'examples/(\w+)\.mpd', line)]
        for block in blocks_of(page):
            self.take(block)
        self.inline(lines)
        self.tables(lines)

    def name_before(self, number):
        """The example that was named last before a line, or in it."""
        return [name for line, name in self.names if line <= number][-1]

    def wrong(self, number, what):
        self.problems.append(f'{self.page}, line {number}: {what}')

    def take(self, block):
        """Sorts out what a block is."""
        first = block.lines[0]
        if block.is_fenced:
            self.fenced(block)
        elif is_command(first):
            wants_parallel = False
            for number, line in enumerate(block.lines, block.number):
                wants_parallel = wants_parallel or bool(PARALLEL.search(line))
                if not is_command(line):
                    self.wrong(number, f'no command: {line}')
                elif not line.startswith(NOT_RUN):
                    self.commands.append(Shown(f'{self.page}, line {number}', command_of(line), None, wants_parallel))
        elif re.match(r'\d [<>] ', first):
            self.dialogue(block)
        elif block.follows and self.commands and TYPED_TURN.match(block.text):
            self.commands[-1] = self.commands[-1]._replace(talk=block.text)
        elif block.follows and self.commands:
            before = self.commands[-1].answer
            self.commands[-1] = self.commands[-1]._replace(answer=block.text if before is None else f'{before}\n{block.text}')
        elif all(re.search(r'\S {2,}\S', line) for line in block.lines) and not first.startswith(EXCERPTS.get(self.page, ())):
            self.spoken(block.number, [tuple(re.split(r' {2,}', line, maxsplit=1)) for line in block.lines])
        elif not first.startswith(EXCERPTS.get(self.page, ())):
            self.wrong(block.number, f'a block of a kind that is not known: {first}')

    def fenced(self, block):
        """A script is that of an example, where it says what it shows, and else it is one, and so is a program in C that begins with what it
        includes; a state is one that its example answers; a function in Rattle stands in the program of direct calls (compare/probe/direct/)."""
        if block.lines[0].startswith('#'):
            self.compared += 1
            if block.text not in [read(path) for name in ('*.mpd', '*.c', '*.sh', '*.slurm', 'lab/*.mpd') for path in glob.glob(f'{TOP}/examples/{name}')]:
                self.wrong(block.number, f'no example is this script: {block.lines[0]}')
        elif block.lines[0].startswith('fn '):
            self.compared += 1
            if not any(f'\n{block.text}' in read(path) for path in glob.glob(f'{TOP}/compare/probe/direct/*.rattle')):
                self.wrong(block.number, f'no program of calls has this function: {block.lines[0]}')
        elif block.lines[0] == 'mpd 1;':
            self.commands.append(Shown(f'{self.page}, line {block.number}', f"./mpdbg <<'---'\n{block.text}---", ''))
        elif block.lines[0].startswith('depth '):
            self.compared += 1
            if block.text not in read(f'{TOP}/examples/{self.name_before(block.number)}.stdout'):
                self.wrong(block.number, 'the example answers no such state')

    def spoken(self, number, turns):
        """Words with their answers, or requests with their replies, are some of those of the example, one behind the other."""
        self.compared += 1
        name = self.name_before(number)
        endings = ('requests', 'replies') if turns[0][0].startswith('{') else ('words', 'stdout')
        words, answers = (read(f'{TOP}/examples/{name}.{ending}').splitlines() for ending in endings)
        all_turns, rest = [], iter(answers)
        for word in words:
            answer = next(rest)
            all_turns.append((word, answer))
            while word == 'show' and answer != 'end':
                answer = next(rest)
        if not any(all_turns[at:at + len(turns)] == turns for at in range(len(all_turns))):
            self.wrong(number, f'{name} answers otherwise than {turns}')

    def dialogue(self, block):
        """What clients of one session say and are told is in the dialogue of an example."""
        self.compared += 1
        if block.text not in read(f'{TOP}/examples/{self.name_before(block.number)}.dialogue'):
            self.wrong(block.number, 'the example has no such dialogue')

    def tables(self, lines):
        """A table whose rows have a word and its answer in code; `show` has its answer below."""
        rows = []
        for number, line in enumerate([*lines, ''], 1):
            if turn := re.match(r'\| `([^`]+)` \| `((?:enabled|ok|refused)[^`]*)` \| ', line):
                rows.append(turn.groups())
            elif rows:
                self.spoken(number - len(rows), rows)
                rows = []

    def inline(self, lines):
        """Commands in code within a line, but not forms of them, which have a word in capitals or dots."""
        for number, line in enumerate(lines, 1):
            if line.startswith('    ') or line.startswith('|'):
                continue
            for command in re.findall(r'`([^`]+)`', line):
                if command.startswith(('./mpdbg ', 'sed ')) and not command.startswith(NOT_RUN) and '..' not in command:
                    self.commands.append(Shown(f'{self.page}, line {number}', command))


def not_handed_out():
    """What is wrong with the scripts of the lab: each stands in its page whole, is short, and its first line tells nothing but its number."""
    page = read(f'{TOP}/docs/COURSE.md')
    for path in sorted(glob.glob(f'{TOP}/examples/lab/*.mpd')):
        script, number = read(path), os.path.basename(path).removesuffix('.mpd').lstrip('0')
        if f'\n```\n{script}```\n' not in page:
            yield f'{path}: docs/COURSE.md does not show it'
        if script.count('\n') > 25:
            yield f'{path}: more than 25 lines'
        if not script.startswith(f'# Lab {number}. Read it and answer the question before you run it.\nmpd '):
            yield f'{path}: its first line'


def help_commands(copy):
    """The commands that the texts of help show behind `Example:`, and what they answer."""
    for words, wanted in HELP.items():
        text = subprocess.run(['./mpdbg', *words.split()], cwd=copy, capture_output=True, text=True, check=True).stdout
        examples = re.split(r'\nExamples?:\n', text)[-1].strip().split('\n')
        if len(examples) != len(wanted):
            yield Shown(words, '')
        for example, answer in zip(examples, wanted):
            yield Shown(words, example.strip(), read(f'{TOP}/examples/{answer}') if answer.endswith('.stdout') else answer)


def run(copy, command):
    """What a command gives at the top of the copy."""
    command = with_files(command)
    if served := re.fullmatch(r'\./mpdbg serve .* --port (\d+) --clients (\d+)', command):
        return with_clients(copy, command, int(served[1]), int(served[2]))
    if asked := re.fullmatch(r'python3 examples/socket_client\.py (\d+)', command):
        return with_server(copy, command, int(asked[1]))
    ran = subprocess.run(['bash', '-c', command], cwd=copy, input=TYPED.get(command, '').encode(), capture_output=True,
                         timeout=SECONDS, check=False, env={**os.environ, 'PATH': f'{copy}/bin:{os.environ["PATH"]}'})
    return Result(ran.stdout, ran.stderr, ran.returncode)


def has_parallel():
    """Whether GNU parallel is on the path; another program may have its name."""
    return bool(shutil.which('parallel')) and b'GNU parallel' in subprocess.run(['parallel', '--version'], capture_output=True, check=False).stdout


def started(copy, command):
    """A server, and what it says once it listens."""
    server = subprocess.Popen(['bash', '-c', f'exec {command}'], cwd=copy, stdin=subprocess.DEVNULL, stdout=subprocess.PIPE, stderr=subprocess.PIPE)
    return server, server.stdout.readline()


def with_clients(copy, command, port, clients):
    """What a server gives whose clients come, and leave at once."""
    server, said = started(copy, command)
    if said:
        for client in [socket.create_connection(('127.0.0.1', port), SECONDS) for _ in range(clients)]:
            client.close()
    output, errors = server.communicate(timeout=SECONDS)
    return Result(said + output, errors, server.returncode)


def with_server(copy, command, port):
    """What a client gives that has a session for itself."""
    server, _ = started(copy, f'./mpdbg serve examples/two_clients.mpd --port {port} --clients 1')
    ran = subprocess.run(['bash', '-c', command], cwd=copy, stdin=subprocess.DEVNULL, capture_output=True, timeout=SECONDS, check=False)
    server.communicate(timeout=SECONDS)
    return Result(ran.stdout, ran.stderr, ran.returncode or server.returncode)


def answer_of_example(command):
    """What the examples have as the answer of a trace or a console with its words, or of a session with its requests, if the command is
    one."""
    if command == './mpdbg < examples/first.trace':
        return read(f'{TOP}/examples/first.stdout')
    if served := re.search(r'^\./mpdbg serve .* --port (\d+) ', with_files(command)):
        return f'listening {served[1]}\nserved 0\n'
    if asked := re.fullmatch(r'\./mpdbg run examples/(\w+)\.mpd(?: --wide)? < examples/\1\.requests', command):
        return read(f'{TOP}/examples/{asked[1]}.replies')
    if typed := re.fullmatch(r'\./mpdbg debug examples/(\w+)\.mpd < examples/\1\.console', with_files(command)):
        return read(f'{TOP}/examples/{typed[1]}.console.stdout')
    traced = re.fullmatch(r'\./mpdbg trace examples/(\w+)\.mpd(?: --mode (\w+))? < examples/\1\.words', with_files(command))
    if traced is None:
        return None
    return read(f'{TOP}/examples/{traced[1]}{f".{traced[2]}" if traced[2] == "buffered" else ""}.stdout')


def problem_of(shown, result):
    """What is wrong with what a command gave; None where nothing is."""
    said = result.output.decode()
    is_verdict = shown.command.startswith('./mpdbg verify')
    is_bad = IS_BAD.search(said) or is_verdict and said.startswith('refused ')
    status = 1 if is_bad and '|' not in shown.command else 0
    if not shown.command or result.errors or result.status != status:
        return f'status {result.status}, {result.errors.decode()!r}'
    if is_verdict and shown.answer is None and said != 'accepted\n':
        return f'a witness that is not accepted: {said}'
    wanted = answer_of_example(shown.command) if shown.answer is None else shown.answer
    return None if wanted is None or said == wanted else f'answered {said!r}, wanted {wanted!r}'


def wrong_talk(copy, shown):
    """What is otherwise where the words of a dialogue are typed at a terminal, each behind its prompt; None where nothing is."""
    if not shown.talk.endswith(') quit\n') or TYPED_TURN.sub('', shown.talk):
        return 'the dialogue has no end'
    ours, theirs = os.openpty()
    tty.setraw(theirs)
    process = subprocess.Popen(shlex.split(shown.command), cwd=copy, stdin=theirs, stdout=theirs, stderr=theirs)
    os.close(theirs)
    try:
        for due, typed in TYPED_TURN.findall(shown.talk):
            if (told := read_terminal(ours, len(due), SECONDS)) != due.encode():
                return f'{told.decode()!r} and not {due!r} before {typed}'
            os.write(ours, f'{typed}\n'.encode())
        return wrong_end(process, ours, SECONDS)
    finally:
        process.kill()
        process.wait()
        os.close(ours)


def make_copy(copy, program):
    """What a reader has before them, with the program built."""
    for folder in ('examples', 'page'):
        shutil.copytree(f'{TOP}/{folder}', f'{copy}/{folder}')
    shutil.copy(program, f'{copy}/mpdbg')
    os.mkdir(f'{copy}/bin')
    with open(f'{copy}/bin/sbatch', 'w', encoding='ascii') as file:
        file.write(SBATCH)
    os.chmod(f'{copy}/bin/sbatch', 0o755)
    subprocess.run(['bash', '-c', MAKING], cwd=copy, check=True)


def other_pages(copy):
    """Which pages for the class differ from those that the commands of the lab have made, and which are missing or too many."""
    ready, made = ({os.path.basename(path): read(path) for path in glob.glob(f'{folder}/*.html')} for folder in (f'{TOP}/examples/pages', f'{copy}/pages'))
    for name in sorted({*ready, *made}):
        if ready.get(name) != made.get(name):
            yield f'examples/pages/{name} is not what its command in docs/COURSE.md makes'


def main():
    if len(sys.argv) != 2:
        sys.exit(__doc__)
    names = ['README.md', *sorted(f'docs/{os.path.basename(path)}' for path in glob.glob(f'{TOP}/docs/*.md'))]
    pages = [Page(name) for name in names]
    problems = [problem for page in pages for problem in page.problems] + [*not_handed_out()]
    with tempfile.TemporaryDirectory(prefix='shown-') as copy:
        make_copy(copy, os.path.abspath(sys.argv[1]))
        commands = [shown for page in pages for shown in page.commands] + [*help_commands(copy)]
        commands += [Shown(f'examples/{name}.requests', f'./mpdbg run examples/{name}.mpd --wide < examples/{name}.requests') for name in dialogues()]
        skipped = [] if has_parallel() else [shown for shown in commands if shown.wants_parallel]
        commands = [shown for shown in commands if shown not in skipped]
        for shown in commands:
            problem = wrong_talk(copy, shown) if shown.talk else problem_of(shown, run(copy, shown.command))
            if problem:
                problems.append(f'{shown.where}: {shown.command}: {problem}')
        problems += other_pages(copy)
    for problem in problems:
        print(problem)
    for shown in skipped:
        print(f'{shown.where}: {shown.command}: skipped, there is no GNU parallel')
    compared = sum(page.compared for page in pages)
    print(f'{len(commands)} commands run, {compared} other blocks compared, {len(skipped)} commands skipped, {len(problems)} wrong')
    return 1 if problems or not commands or not compared else 0


if __name__ == '__main__':
    sys.exit(main())
