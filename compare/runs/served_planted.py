"""Plants wrong bodies in `serve`, each of which the scenario that it names must notice (docs/TRIED.md, "Clients that share a session").

    python3 compare/runs/served_planted.py [--only BODY]..    a build without proofs for each, some 2 minutes (no part of the gate)

Each file of compare/served/broken/ is such a body, as those of compare/broken/ (.ci/planted.py), with the scenario of
compare/runs/serving.py that must find it. Each is planted alone, and without any the scenarios must find nothing. The status is 0 where
that is so.
"""

import argparse
import os
import shutil
import subprocess
import sys
import tempfile

sys.path.insert(0, os.path.dirname(os.path.dirname(os.path.abspath(__file__))))

from places import TOP

sys.path.append(f'{TOP}/.ci')

import planted  # noqa: E402
from runs.serving import BY_NAME, came_of  # noqa: E402
from served.served_program import Tried  # noqa: E402

FOLDER = 'compare/served/broken'


class Body(planted.Body):
    """A wrong body, and the scenario that must find it."""

    def __init__(self, path):
        super().__init__('', path)
        self.name, self.scenario = os.path.basename(path).removesuffix('.edit'), None
        self.read()

    def reads(self, key, value):
        if key == 'scenario':
            self.scenario = value.strip()
        return key == 'scenario' or super().reads(key, value)


def built(bodies, room):
    """A program with these bodies."""
    if left := planted.plant(bodies, room):
        sys.exit(f'{left[0].name} touches another body')
    for name in ('bench', 'tools'):
        shutil.copytree(os.path.join(TOP, name), os.path.join(room, name))
    program = os.path.join(room, 'program')
    subprocess.run([sys.executable, os.path.join(room, 'bench/unproved.py'), 'mpdbg', program], check=True, stdout=subprocess.DEVNULL)
    return program


def found_with(bodies, scenarios):
    """What these scenarios find wrong in a program with these bodies."""
    with tempfile.TemporaryDirectory(prefix='served-') as room:
        program = built(bodies, room)
        return [came_of(Tried((program,), seconds=20), scenario).problem for scenario in scenarios]


def main():
    parser = argparse.ArgumentParser(description=__doc__, formatter_class=argparse.RawDescriptionHelpFormatter)
    parser.add_argument('--only', action='append', metavar='BODY', help='a body in the place of all, by its name')
    chosen = parser.parse_args()
    os.chdir(TOP)
    bodies = [Body(f'{FOLDER}/{name}') for name in sorted(os.listdir(FOLDER))]
    bodies = [body for body in bodies if chosen.only is None or body.name in chosen.only]
    if unknown := [body.name for body in bodies if body.scenario not in BY_NAME]:
        sys.exit(f'no scenario: {unknown}')
    wrong = [problem for problem in found_with([], sorted({body.scenario for body in bodies})) if problem]
    for problem in wrong:
        print(f'without a wrong body: {problem}')
    for body in bodies:
        [problem] = found_with([body], [body.scenario])
        print(f'{body.name}: {f"noticed by {body.scenario}: {problem}" if problem else "NOT NOTICED"}', flush=True)
        wrong += [] if problem else [body.name]
    print(f'{len(bodies)} wrong bodies, {len(wrong)} wrong')
    return 1 if wrong or not bodies else 0


if __name__ == '__main__':
    sys.exit(main())
