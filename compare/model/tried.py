"""What a terminal is told below a report that tells every way in which a script can end, in the model: how many runs there are, or ends with
`--ends`, and what becomes of them (docs/FORMATS.md, "Reports").

Where all runs were drawn, these are all runs of the wide walk, as they are with `--outcomes`.
"""

from collections import Counter

from model import explorer, outcomes
from model.debugger import RENDEZVOUS
from model.language import read_script
from model.states import word_of

# What one of them does, and several do, that ends so.
DOES = {'done': ('finishes', 'finish'), 'leftovers': ('leaves messages that nobody receives', 'leave messages that nobody receives'),
        'deadlock': ('hangs', 'hang'), 'trap': ('traps', 'trap')}


def counts_of(script, words):
    """How many runs, or ends, a check of a script with these words has of each kind."""
    mode = words[words.index('--mode') + 1] if '--mode' in words else RENDEZVOUS
    if '--outcomes' in words or '--sample' in words:
        counts = Counter()
        for outcome, way in outcomes.Outcomes('tried', script, mode).found().ways.items():
            counts[word_of(outcome)] += way.runs
        return counts
    asked = explorer.USUAL._replace(mode=mode, ends='--ends' in words)
    found = explorer.reported(explorer.cut_into(read_script(script), mode, asked), asked)
    return Counter(word_of(leaf.outcome) for leaf in found.leaves)


def line_of(counts, what, how):
    """The line of these counts of runs, or ends, which were tried or counted."""
    total = sum(counts.values())
    if total == 1:
        return f'its one run was {how}: it {DOES[next(iter(counts))][0]}'
    parts = [f'{counts[kind]} {several if counts[kind] > 1 else one}' for kind, (one, several) in DOES.items() if counts[kind]]
    return f'all {total} {what}s were {how}: {", ".join(parts)}'


def tried(script, words):
    """The line below the whole report of a check with these words."""
    return line_of(counts_of(script, words), 'end' if '--ends' in words else 'run', 'counted' if '--outcomes' in words else 'tried')
