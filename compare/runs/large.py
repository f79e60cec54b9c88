"""Runs the built program on more than random inputs have: candidates, pieces, calls, steps, blocked calls, bytes of a path, a witness, trace words and a reply.

    python3 compare/runs/large.py PROGRAM

What must be answered was worked out by hand from docs/FORMATS.md, and is written down here by how it goes on; where a run has many
ranks, the model answers the same. The status is 0 where each run ended as it must.
"""

import json
import os
import sys
import tempfile

sys.path.insert(0, os.path.dirname(os.path.dirname(os.path.abspath(__file__))))

from model.debugger import Debugger, Result, step_text
from model.language import read_script
from model.policy import Forced, Leaf, decision
from rows.worked_explorer import counting, gathered, gathering
from rows.worked_pieces import TOO_MANY, gathered_in_pieces
from runs import driving
from started.programs import run_at_once

SECONDS = 60


class Folder:
    """A folder of files for one program, which is run on them."""

    def __init__(self, program, path):
        self.program, self.path = program, path

    def file(self, name, text):
        """The path of a file that has the text."""
        path = os.path.join(self.path, name)
        os.makedirs(os.path.dirname(path), exist_ok=True)
        with open(path, 'w', encoding='ascii') as file:
            file.write(text)
        return path

    def run(self, *words, data=''):
        return run_at_once(self.program, data.encode(), SECONDS, words=words)


def said(*lines, status=0):
    return Result(''.join(f'{line}\n' for line in lines).encode(), b'', status)


# ---- candidates of one choice

TO_ITSELF_TOO = ('mpd 1; ranks 16; var x; req r;\n'
                 'isend r rank to 0 tag 0; if rank == 0 { recv x from any tag 0; }')


def candidate_rows(folder):
    """Fifteen candidates of one choice, then fourteen behind it; and sixteen, where the receiver has sent to itself."""
    one, two = (folder.file(f'gather{receives}', gathering(16, receives)) for receives in (1, 2))
    for path, receives, runs, more in ((one, 1, 15, 'no'), (one, 1, 14, 'yes'), (two, 2, 210, 'no'), (two, 2, 209, 'yes')):
        wanted = said(*gathered(16, receives, runs, more).split('; '))
        yield f'{receives} of 15 candidates, {runs} runs', folder.run('check', path, '--runs', str(runs), '--split', '0'), wanted
    for split, runs, more in ((1, 14, 'no'), (1, 13, 'yes'), (2, 1, 'no')):
        wanted = said(*gathered_in_pieces(16, 2, split, runs, more).split('; '))
        yield f'2 of 15 candidates, {runs} runs of each piece by {split}', folder.run('check', two, '--runs', str(runs), '--split', str(split)), wanted
    # of a rank that isn't received the send is left
    leaves = [f'leaf {taken} [{taken}] leftovers {" ".join(f"{rank}.0" for rank in range(16) if rank != taken)}' for taken in range(16)]
    path = folder.file('itself', TO_ITSELF_TOO)
    yield '16 candidates', folder.run('check', path), said(*leaves, 'leaves 16 more no')
    # two local steps of each rank, then the receive of rank 0, the third call of the whole run that it could be matched with being 14.0
    words = [f'local {rank}' for rank in range(16)] * 2 + ['local 0']
    matches = ', '.join(f'match {rank}.0 0.1' for rank in range(16))
    wanted = [*(f'ok {depth}' for depth in range(1, 34)), f'enabled {matches}', 'ok 34', 'ok 33', 'ok 34', 'enabled wake 0']
    data = '\n'.join([*words, 'enabled', 'match 15.0 0.1', 'back', 'match 14.0 0.1', 'enabled', ''])
    yield '16 candidates, traced', folder.run('trace', path, data=data), said(*wanted)


# ---- pieces

def of_each_tag(senders, tags):
    """A script in which so many ranks send a message of each tag to one that receives each tag of any source: all of them can be matched
    at its first choice."""
    return (f'mpd 1; ranks {senders + 1}; var i; var x; req r;\n'
            f'while i < {tags} {{ if rank == 0 {{ irecv r x from any tag i; }} else {{ isend r i to 0 tag i; }} i = i + 1; }}')


def sent(rank, first, behind):
    """Calls of a rank, as an outcome has them."""
    return ''.join(f' {rank}.{number}' for number in range(first, behind))


def piece_rows(folder):
    """1,024 pieces of one choice, and one more, which are too many; without another limit 1,000 runs of each piece."""
    just, more = folder.file('just', of_each_tag(4, 256)), folder.file('more', of_each_tag(5, 205))
    yield '1,024 candidates', folder.run('check', just, '--pieces'), said('pieces 1024')
    # the last candidate is the last receive with the last sender; then each receive takes what rank 1 has sent
    wanted = said(f'leaf 0 [1023{" 0" * 255}] leftovers{sent(1, 255, 256)}{sent(2, 0, 256)}{sent(3, 0, 256)}{sent(4, 0, 255)}', 'leaves 1 more yes')
    yield 'the last of 1,024 candidates', folder.run('check', just, '--piece', '1023', '--runs', '1'), wanted
    too_many = Result(b'', f'{TOO_MANY}\n'.encode(), 2)
    for words in ((), ('--pieces',), ('--piece', '0'), ('--workers', '1')):
        yield f'1,025 candidates {" ".join(words)}', folder.run('check', more, *words), too_many
    rest = ''.join(sent(rank, 0, 205) for rank in range(2, 6))
    wanted = said(f'leaf 0 [{" ".join(["0"] * 205)}] leftovers{rest}', 'leaves 1 more yes')
    yield '1,025 candidates, not cut', folder.run('check', more, '--split', '0', '--runs', '1'), wanted
    # by three choices each of the 990 runs is a piece
    wanted, path = said(*gathered(12, 3, 990, 'no').split('; ')), folder.file('gather3', gathering(12, 3))
    yield '990 pieces', folder.run('check', path, '--split', '3', '--pieces'), said('pieces 990')
    for workers in (4, 16):
        yield f'990 pieces, {workers} workers', folder.run('check', path, '--split', '3', '--runs', '1', '--workers', str(workers)), wanted
    wanted, path = said(*gathered_in_pieces(14, 4, 1, 1000, 'yes').split('; ')), folder.file('gather4', gathering(14, 4))
    for workers in (1, 4, 16):
        yield f'1,000 of the 1,320 runs of each of 13 pieces, {workers} workers', folder.run('check', path, '--workers', str(workers)), wanted


# ---- calls of one rank

ROUNDS = 50_000
CALLS = ('mpd 1; ranks 1; var i; var x; req r;\n'
         f'while i < {ROUNDS} {{ isend r i to 0 tag 0; irecv r x from 0 tag 0; i = i + 1; }}')


def shown_calls(depth, steps, matched, outcome):
    """What `show` prints of all calls, as far as they are matched."""
    yield from (f'depth {depth} of {steps}', 'rank 0 ended', f'vars {ROUNDS} 0', f'handles {2 * ROUNDS - 1}', 'out')
    for turn in range(ROUNDS):
        send, recv = f'0.{2 * turn}', f'0.{2 * turn + 1}'
        is_matched = turn < matched
        yield f'call {send} isend to 0 tag 0 value {turn} ' + (f'with {recv}' if is_matched else 'free')
        yield f'call {recv} irecv from 0 tag 0 ' + (f'with {send} value {turn}' if is_matched else 'free')
    if matched < ROUNDS:
        yield 'pending 0 to 0: ' + ' '.join(str(2 * turn) for turn in range(matched, ROUNDS))
        yield 'posted 0: ' + ' '.join(str(2 * turn + 1) for turn in range(matched, ROUNDS))
    yield from (f'set pair 0.{2 * turn} 0.{2 * turn + 1}' for turn in range(matched))
    yield from outcome
    yield 'end'


def call_rows(folder):
    """100,000 calls of one rank: issued, shown, matched one by one in order alone, shown, and all taken back."""
    local = 4 * ROUNDS + 1
    last = local + ROUNDS
    words = ['local 0'] * local + ['show', 'enabled', 'match 0.2 0.3', 'match 0.99998 0.99999']
    wanted = [f'ok {depth}' for depth in range(1, local + 1)]
    wanted += [*shown_calls(local, local, 0, ()), 'enabled match 0.0 0.1', 'refused not-enabled', 'refused not-enabled']
    words += [f'match 0.{2 * turn} 0.{2 * turn + 1}' for turn in range(ROUNDS)] + ['show', 'back', 'enabled', 'goto 0', 'show']
    wanted += [f'ok {depth}' for depth in range(local + 1, last + 1)]
    wanted += [*shown_calls(last, last, ROUNDS, ('outcome done',)), f'ok {last - 1}', f'enabled match 0.{2 * ROUNDS - 2} 0.{2 * ROUNDS - 1}']
    wanted += ['ok 0', f'depth 0 of {last}', 'rank 0 at 2', 'vars 0 0', 'handles -', 'out', 'end']
    yield f'{2 * ROUNDS} calls', folder.run('trace', folder.file('calls', CALLS), data='\n'.join([*words, ''])), said(*wanted)


# ---- paths

RACE = 'mpd 1; ranks 1; send 1 to 0 tag 0;'


def path_rows(folder):
    """Files whose paths have 255, 256, 300 and 4,000 bytes, for each command."""
    for length in (255, 256, 300, 4000):
        room = length - len(folder.path)
        parts = ['d' * 100 for _ in range(room // 101)]
        name = '/'.join([*parts, 'f' * (room - 1 - 101 * len(parts))])
        if name.endswith('/'):
            name = name[101:] + 'f' * 101
        path = folder.file(name, RACE)
        assert len(path) == length
        witness = folder.file(f'{name[:-1]}w', 'deadlock 0.0\nlocal 0\n')
        yield f'a trace of a path of {length} bytes', folder.run('trace', path, data='local 0\nwake 0\n'), said('ok 1', 'refused not-enabled')
        yield f'a check of a path of {length} bytes', folder.run('check', path), said('leaf 0 [] deadlock 0.0', 'leaves 1 more no', status=1)
        yield f'witness and script of paths of {length} bytes', folder.run('verify', path, witness), said('accepted')


# ---- steps of a witness

def long_witness_rows(folder):
    """Witnesses of 120,000 steps, above a million bytes, and of a million steps, which no trail holds one more of."""
    for turns in (59_999, 499_999):
        steps = 2 * turns + 2
        script = folder.file(f'count{turns}', counting(turns, 'recv i from 0 tag 0;'))
        text = f'leaf 0 [] deadlock 0.0\nwitness 0: {", ".join(["local 0"] * steps)}\n'
        assert len(text) > 1_000_000
        witness = folder.file(f'witness{turns}', text)
        wanted = Result(f'{text}leaves 1 more no\n'.encode(), b'', 1)
        yield f'a check of {steps} steps', folder.run('check', script, '--witness', '--fuel', '1000000'), wanted
        yield f'a witness of {steps} steps', folder.run('verify', script, witness), said('accepted')
        # one step less, and one more
        short, more = (folder.file(name, rest) for name, rest in (('short', text.replace('local 0, ', '', 1)), ('more', f'{text[:-1]}, local 0\n')))
        yield f'a witness of {steps - 1} steps', folder.run('verify', script, short), said('refused 33 not-stuck', status=1)
        yield f'a witness of {steps + 1} steps', folder.run('verify', script, more), said(f'refused 32 no-such-step at {steps}', status=1)
        # a step that is none near the end
        at = text.rindex('local 0')
        wrong = folder.file('wrong', f'{text[:at]}wake 0\n')
        yield f'a wrong step {steps - 1}', folder.run('verify', script, wrong), said(f'refused 32 no-such-step at {steps - 1}', status=1)


# ---- trace words that are to be drawn

ROUND = 'mpd 1; ranks 1; while 1 { }'
# So many bytes and so many steps a text of words has at most.
WORDS_BYTES, WORDS_STEPS = 33_554_432, 1_000_000


def words_rows(folder):
    """Words of as many bytes as there may be, and of one more; a source of them that never ends; and as many steps as there may be, and one more."""
    script = folder.file('round', ROUND)

    def drawn(words):
        return folder.run('picture', script, '--words', words)

    def refused(line):
        return Result(b'', f'mpdbg: words {line}\n'.encode(), 2)

    # the first line is read and is no step, where it isn't the bytes that are too many
    lines = 'none\n' + '\n' * (WORDS_BYTES - 5)
    yield f'words of {WORDS_BYTES} bytes', drawn(folder.file('most', lines)), refused('refused at line 1')
    for name, path in (('one byte more', folder.file('more', f'{lines}\n')), ('words without an end', '/dev/zero')):
        yield name, drawn(path), refused(f'of more than {WORDS_BYTES} bytes')
    steps = folder.file('steps', 'local 0\n' * WORDS_STEPS)
    found = drawn(steps)
    yield f'{WORDS_STEPS} words', found._replace(output=found.output[:5]), Result(b'<svg ', b'', 0)
    yield 'one word more', drawn(folder.file('step', 'local 0\n' * (WORDS_STEPS + 1))), refused(f'of more than {WORDS_STEPS} steps')


# ---- steps that are shown

GIVE_AND_TAKE = ('mpd 1; ranks 3; var i; var x; req r; var s; var t;\n'
                 'while i < 190 { isend r rank * 1000 + i to (rank + 1) % size tag i % 3; recv x from any tag any status s t; wait r; '
                 'i = i + 1; barrier; }\nprint x;').encode()


def walked(script):
    """The answers of the model along what is forced and the last candidate of each choice, with the words; what it shows there."""
    debugger = Debugger(read_script(script))
    words, answers = [], []
    while not isinstance(decided := decision(debugger.world), Leaf):
        words.append(step_text(decided.step if isinstance(decided, Forced) else decided.steps[-1]))
        answers.append(debugger.answer(words[-1].encode()))
    return words, answers, debugger


def step_rows(folder):
    """A state behind more than 5,000 steps of three ranks, shown there and one step before."""
    words, answers, debugger = walked(GIVE_AND_TAKE)
    assert len(words) > 5_000 and answers[-1] == f'ok {len(words)}'
    rest = ['show', 'back', 'show', 'enabled', 'goto 5001', 'show', 'redo', 'show']
    answers += [debugger.answer(word.encode()) for word in rest]
    path = folder.file('give_and_take', GIVE_AND_TAKE.decode())
    yield f'{len(words)} steps, shown', folder.run('trace', path, data='\n'.join([*words, *rest, ''])), said(*answers)


# ---- steps that are enabled

ALL_TO_ALL = ('mpd 1; ranks 16; var i; var x; req r;\n'
              'if rank < 8 { i = 8; while i < 16 { isend r rank to i tag 0; i = i + 1; } } else { irecv r x from any tag any; }\nprint i;')


def enabled_rows(folder):
    """Sixteen local steps and 64 matches in one answer, by receiver and by sender; then one less of each."""
    senders, receivers = range(8), range(8, 16)
    # a sender takes its `if`, the assignment, 9 tests of the `while`, 8 sends and 8 sums; a receiver its `if` and its `irecv`
    words = [f'local {rank}' for rank in senders for _ in range(27)] + [f'local {rank}' for rank in receivers for _ in range(2)]
    matches = [f'match {sender}.{receiver - 8} {receiver}.0' for receiver in receivers for sender in senders]
    locals_left = [f'local {rank}' for rank in range(16)]
    wanted = [f'ok {depth}' for depth in range(1, len(words) + 1)] + [f'enabled {", ".join(locals_left + matches)}']
    behind = [match for match in matches if not match.endswith(' 15.0')]
    depth = len(words)
    wanted += [f'ok {depth + 1}', f'enabled {", ".join(locals_left + behind)}', f'ok {depth + 2}', f'enabled {", ".join(locals_left[1:] + behind)}']
    data = '\n'.join([*words, 'enabled', 'match 7.7 15.0', 'enabled', 'local 0', 'enabled', ''])
    yield f'{16 + len(matches)} enabled steps', folder.run('trace', folder.file('all', ALL_TO_ALL), data=data), said(*wanted)


# ---- calls that are blocked

RING = 'mpd 1; ranks 16; var x;\nrecv x from (rank + 1) % size tag 0;'


def blocked_rows(folder):
    """A deadlock of all sixteen ranks, found, and verified; and witnesses of it that are changed."""
    script = folder.file('ring', RING)
    calls = [f'{rank}.0' for rank in range(16)]
    steps = [f'local {rank}' for rank in range(16)]
    found = said(f'leaf 0 [] deadlock {" ".join(calls)}', f'witness 0: {", ".join(steps)}', 'leaves 1 more no', status=1)
    yield 'sixteen ranks blocked', folder.run('check', script, '--witness'), found

    def verified(calls, steps):
        text = f'deadlock {" ".join(calls)}\n{", ".join(steps)}\n'
        return folder.run('verify', script, folder.file('witness', text))

    accepted, wrong = said('accepted'), said('refused 34 wrong-blocked', status=1)
    yield 'sixteen blocked calls', verified(calls, steps), accepted
    yield 'sixteen blocked calls, steps turned', verified(calls, steps[::-1]), accepted
    for number in (0, 14, 15):
        yield f'without call {number}', verified(calls[:number] + calls[number + 1:], steps), wrong
    yield 'one call twice', verified(calls[:15] + calls[14:15], steps), wrong
    yield 'seventeen calls', verified([*calls, '15.0'], steps), wrong
    yield 'the last two turned', verified([*calls[:14], '15.0', '14.0'], steps), wrong
    yield 'without the last step', verified(calls, steps[:15]), said('refused 33 not-stuck', status=1)
    yield 'the last step twice', verified(calls, [*steps, 'local 15']), said('refused 32 no-such-step at 16', status=1)


# ---- replies

def text_reply(**fields):
    """A reply that is answered ok, as it is written."""
    return json.dumps({**fields, 'ok': True}, sort_keys=True, separators=(',', ':'))


# A decision walks all receives that are free, so fewer rounds of the same script are matched.
FEWER = 5_000


def call_texts(rounds, is_matched):
    """The texts of all calls of so many rounds, all of them matched or none."""
    for turn in range(rounds):
        yield f'isend to 0 tag 0 value {turn} ' + (f'with 0.{2 * turn + 1}' if is_matched else 'free')
        yield 'irecv from 0 tag 0 ' + (f'with 0.{2 * turn} value {turn}' if is_matched else 'free')


def free_turns(rounds):
    """Requests of a session, each with its reply: all calls are issued, and none is matched."""
    local = 4 * rounds + 1
    receives, sends = ([f'0.{2 * turn + place}' for turn in range(1, rounds)] for place in (1, 0))
    return (
        (f'{{"cmd":"run","max":{local}}}', text_reply(depth=local, steps=local, stop='max', version=1)),
        ('{"cmd":"calls","rank":0}', text_reply(calls=list(call_texts(rounds, False)), version=1)),
        # the first receive holds back all others from the first send, and the first send all others from the last receive
        ('{"cmd":"why","rank":0,"call":0}', text_reply(partners=['0.1 eligible', *(f'{it} held by 0.1' for it in receives)], version=1)),
        (f'{{"cmd":"why","rank":0,"call":{2 * rounds - 1}}}',
         text_reply(partners=['0.0 held by 0.1', *(f'{it} held by 0.0' for it in sends)], version=1)),
        ('{"cmd":"enabled"}', text_reply(steps=['match 0.0 0.1'], version=1)), ('{"cmd":"next"}', text_reply(depth=local + 1, step='match 0.0 0.1', version=2)),
        (f'{{"cmd":"back","count":{local}}}', text_reply(depth=1, version=3)), ('{"cmd":"run-back"}', text_reply(depth=0, steps=1, stop='start', version=4)),
        (f'{{"cmd":"redo","count":{local + 1}}}', text_reply(depth=local + 1, version=5)))


def matched_turns(rounds):
    """The same where all calls are matched."""
    local, last = 4 * rounds + 1, 5 * rounds + 1
    pairs = [f'pair 0.{2 * turn} 0.{2 * turn + 1}' for turn in range(rounds)]
    return (
        ('{"cmd":"run","max":1000000}', text_reply(depth=last, steps=last, stop='leaf', version=1)),
        ('{"cmd":"state"}', text_reply(depth=last, outcome='done', ranks=['ended'], sets=pairs, undone=0, version=1)),
        ('{"cmd":"calls","rank":0}', text_reply(calls=list(call_texts(rounds, True)), version=1)),
        ('{"cmd":"vars","rank":0}', text_reply(handles=[2 * rounds - 1], out=[], vars=[rounds, 0], version=1)),
        (f'{{"cmd":"back","count":{rounds}}}', text_reply(depth=local, version=2)),
        (f'{{"cmd":"explore","runs":1,"fuel":{rounds}}}', text_reply(leaves=['[] done'], more=False, version=2)),
        (f'{{"cmd":"explore","runs":1,"fuel":{rounds - 1}}}', text_reply(leaves=['[] cut'], more=False, version=2)),
        (f'{{"cmd":"redo","count":{rounds}}}', text_reply(depth=last, version=3)),
        ('{"cmd":"run-back"}', text_reply(depth=0, steps=last, stop='start', version=4)))


def session_rows(folder):
    """Sessions whose replies have 100,000 texts of calls, 5,000 sets, and 32,760 leaves, or one less."""
    yield f'a session of {2 * ROUNDS} calls', *dialogue(folder, 'calls', CALLS, free_turns(ROUNDS))
    yield f'a session of {FEWER} pairs', *dialogue(folder, 'pairs', CALLS.replace(str(ROUNDS), str(FEWER)), matched_turns(FEWER))
    leaves = [line.split(' ', 2)[2] for line in gathered(16, 4, 32_760, 'no').split('; ')[:-1]]
    turns = [(f'{{"cmd":"explore","runs":{runs},"fuel":1000000}}', text_reply(leaves=leaves[:runs], more=runs < len(leaves), version=0))
             for runs in (32_760, 32_759)]
    yield f'{len(leaves)} leaves in a reply', *dialogue(folder, 'gather', gathering(16, 4), turns)


def dialogue(folder, name, script, turns):
    """What the program replies to requests, and what it must."""
    data = ''.join(f'{request}\n' for request, _ in turns)
    return folder.run('run', folder.file(name, script), data=data), said(*(reply for _, reply in turns))


ROWS = (candidate_rows, piece_rows, call_rows, path_rows, long_witness_rows, words_rows, step_rows, enabled_rows, blocked_rows, session_rows)


def first_difference(result, wanted):
    """The first line that is another, with both, and the statuses."""
    for part in ('output', 'errors'):
        lines, due = (getattr(one, part).split(b'\n') + [b'(nothing)'] for one in (result, wanted))
        for number, (line, right) in enumerate(zip(lines, due), 1):
            if line != right:
                return f'line {number} of {part} is {line[-200:]!r}, wanted {right[-200:]!r}'
    return f'status {result.status}, wanted {wanted.status}'


def in_folder(rows):
    """Rows, each of which is run in a folder of theirs."""
    with tempfile.TemporaryDirectory(prefix='large-') as path:
        yield from rows(Folder(os.path.abspath(sys.argv[1]), path))


def main():
    if len(sys.argv) != 2:
        sys.exit(__doc__)
    count, wrong = driving.count_wrong_of(ROWS, in_folder, first_difference)
    print(f'{count} runs on much, {wrong} wrong')
    return 1 if wrong else 0


if __name__ == '__main__':
    sys.exit(main())
