#!/usr/bin/env python3
"""What a `step` request through pipes takes, beside a Rust program that only reads, parses, prints and writes (docs/SPEED.md).

    python3 bench/requests.py [PROGRAM [RUNS]]   (10 runs of crates/mpdbg/out/mpdbg, where nothing else is named)

It is no part of the gate. 300,000 requests go from `cat` to the program and its replies to `cat`, in turn with
`bench/plain_requests`, which has serde_json of Rust and a number in the place of a debugger. That is built by cargo, from a registry
or, where `CRATE_SOURCES` names a folder that has the sources of crates (as Debian's `librust-serde-json-dev` has), from there; where
it can't be built, a line says so. Both read 4,096 bytes at most at a time, and write each reply by itself. It tells the least and
the middle of the runs; then what a step takes in one `run` of a million, beside `check`.
"""
import os
import shutil
import subprocess
import sys
import tempfile
import time

TOP = os.path.dirname(os.path.dirname(os.path.abspath(__file__)))
SCRIPT = 'mpd 1; ranks 1; var i; while 1 { i = i + 1; }\n'
COUNT = 300_000
STEPS = 1_000_000
# Has cargo take crates from a folder.
CONFIG = '[source.crates-io]\nreplace-with = "folder"\n[source.folder]\ndirectory = "{}"\n'


def plain(folder):
    """Builds the plain program; None where it can't be."""
    shutil.copytree(f'{TOP}/bench/plain_requests', f'{folder}/plain')
    sources = os.environ.get('CRATE_SOURCES')
    if sources:
        os.mkdir(f'{folder}/plain/.cargo')
        with open(f'{folder}/plain/.cargo/config.toml', 'w', encoding='utf-8') as it:
            it.write(CONFIG.format(sources))
    built = subprocess.run(['cargo', 'build', '--release', '-q'], cwd=f'{folder}/plain', stderr=subprocess.PIPE, text=True)
    if built.returncode:
        print(f'the plain program is not built: {built.stderr[-300:]}')
        return None
    return f'{folder}/plain/target/release/plain_requests'


def piped(words, requests):
    """How long a program takes for requests that come by a pipe, with replies that go by one, in seconds."""
    began = time.monotonic()
    given = subprocess.Popen(['cat', requests], stdout=subprocess.PIPE)
    answers = subprocess.Popen(words, stdin=given.stdout, stdout=subprocess.PIPE)
    last = subprocess.run(['tail', '-n', '1'], stdin=answers.stdout, stdout=subprocess.PIPE)
    took = time.monotonic() - began
    if f'"depth":{COUNT},' not in last.stdout.decode() or answers.wait():
        sys.exit(f'{words[0]} answered {last.stdout!r} at last')
    return took


def timed(words, text=b''):
    began = time.monotonic()
    subprocess.run(words, input=text, stdout=subprocess.DEVNULL, check=True)
    return time.monotonic() - began


def told(what, times, count):
    """Says the least and the middle of some times, for each of so many."""
    times = sorted(times)
    print(f'{what}: {times[0] / count * 1e9:.0f} ns at best, {times[len(times) // 2] / count * 1e9:.0f} in the middle of {len(times)}')


def main():
    program = os.path.abspath(sys.argv[1]) if len(sys.argv) > 1 else f'{TOP}/crates/mpdbg/out/mpdbg'
    runs = int(sys.argv[2]) if len(sys.argv) > 2 else 10
    if not os.access(program, os.X_OK):
        print(f'{program} is not built: (cd crates/mpdbg && rt run)')
        sys.exit(2)
    with tempfile.TemporaryDirectory() as folder:
        script, requests = f'{folder}/loop.mpd', f'{folder}/requests'
        with open(script, 'w', encoding='utf-8') as it:
            it.write(SCRIPT)
        with open(requests, 'w', encoding='utf-8') as it:
            it.write('{"cmd":"step","step":"local 0"}\n' * COUNT)
        other = plain(folder)
        pairs = [(piped([program, 'run', script], requests), other and piped([other], requests)) for _ in range(runs)]
        told('a step request', [it[0] for it in pairs], COUNT)
        if other:
            told('the same, plain', [it[1] for it in pairs], COUNT)
        run = f'{{"cmd":"run","max":{STEPS}}}\n'.encode()
        told('a step of one run', [timed([program, 'run', script], run) for _ in range(runs)], STEPS)
        told('a step of check', [timed([program, 'check', script, '--runs', '1', '--fuel', str(STEPS)]) for _ in range(runs)], STEPS)


if __name__ == '__main__':
    main()
