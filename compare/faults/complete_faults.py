"""Faults that are put into the model on purpose, each of which complete.py must notice.

Steps that are taken for independent and aren't, forced steps that can be disabled or that take something from a choice, walks that
pass something by or say that they are whole, and a walk that sleeps too much or not at all.
"""

from faults.explore_faults import SOUND, choosing, ended_by_trap, forgotten, free_choices, of_report, outcome_word, without_cut
from faults.policy_faults import Breakage, any_source_first
from model import debugger, explorer, policy, walks
from model.debugger import enabled_steps
from model.policy import Choice, Forced

ELIGIBLE = debugger.eligible


def deciding(change):
    """What decides otherwise where the candidates of a choice are asked for."""
    def decided(world):
        found = policy.decision(world)
        return change(found) if isinstance(found, Choice) else found
    return decided


def open_matches(world):
    """The matches of receives of any source."""
    return [step for step in enabled_steps(world) if step.kind == 'match' and not policy.names_source(world, step)]


def early(decide):
    """What decides about open matches as soon as some are enabled, whatever else is."""
    def decided(world):
        found = open_matches(world)
        return decide(found) if found else policy.decision(world)
    return decided


def forced_where_alone(world):
    """What takes an open match as soon as there is one alone, though other ranks go on."""
    found = open_matches(world)
    return Forced(found[0]) if len(found) == 1 else policy.decision(world)


def of_first_receive(steps):
    """The candidates of one receive."""
    return [step for step in steps if step.second == steps[0].second]


def some_at_barrier(world):
    return any(map(debugger.is_at_barrier, world.ranks))


def while_none_runs(world, send_id, receive_id):
    """A match that waits until no rank can take a local step."""
    return ELIGIBLE(world, send_id, receive_id) and not any(map(debugger.can_run, world.ranks))


def independence_faults(complete):
    """Steps that are taken for independent."""
    return [
        Breakage('any two steps are independent', complete, 'apart', lambda one, other: True),
        Breakage('matches of one receive are independent', complete, 'shares_call', lambda one, other: (
            one.kind == other.kind == 'match' and one.first == other.first)),
        Breakage('the order of match sets counts', complete, 'key', lambda world: (
            tuple((complete.left(rank), *rank[1:]) for rank in world.ranks), world.records)),
        Breakage('a match waits until no rank can go on', debugger, 'eligible', while_none_runs),
        Breakage('one rank at a barrier is enough', debugger, 'can_release', some_at_barrier)]


def decision_faults():
    """Forced steps that can be disabled, or that take something from a choice, and candidates that are passed by."""
    return ([Breakage(name, walks, 'decision', decided) for name, decided in (
                ('the first match is forced', deciding(lambda found: Forced(found.steps[0]))),
                ('the last match is forced', deciding(lambda found: Forced(found.steps[-1]))),
                ('an open match is forced as soon as it is enabled', early(lambda found: Forced(found[0]))),
                ('an open match is forced as soon as it is alone', forced_where_alone),
                ('a choice as soon as there is an open match', early(lambda found: Choice(tuple(found)))),
                ('a choice before matches that name their source', any_source_first),
                ('the last candidate is passed by', choosing(lambda steps: steps[:-1] or steps)),
                ('the first candidate is passed by', choosing(lambda steps: steps[1:] or steps)),
                ('candidates of one receive alone', choosing(of_first_receive)),
                ('nothing behind a trap', ended_by_trap))]
            + [Breakage('a send may overtake another', debugger, 'sends_ahead', lambda world, send_id, receive_id: []),
               Breakage('a receive may pass by another', debugger, 'receives_ahead', lambda world, send_id, receive_id: [])])


def walk_faults():
    """Walks and reports that say that they are whole, or aren't whole where they are."""
    return [
        Breakage('a choice takes no fuel', walks, 'taken', free_choices),
        Breakage('runs that are cut are left out', explorer, 'walk', without_cut),
        Breakage('no outcome where no fuel is left', walks, 'ending', forgotten),
        Breakage('outcomes without calls', walks, 'ending', outcome_word),
        Breakage('never more', explorer, 'part', of_report(lambda found, runs: found._replace(more=False))),
        Breakage('the first leaf alone', explorer, 'walk', lambda world, fuel: [next(SOUND.walk(world, fuel))])]


def sleep_faults(complete):
    """A walk that sleeps too much, or not at all."""
    return [
        Breakage('nothing falls asleep', complete, 'falling_asleep', lambda asleep, step: asleep),
        Breakage('one candidate alone is asleep', complete, 'falling_asleep', lambda asleep, step: (step,)),
        Breakage('all of one receive are asleep', complete, 'is_asleep', lambda asleep, step: (
            step.second in {other.second for other in asleep})),
        Breakage('all of one send are asleep', complete, 'is_asleep', lambda asleep, step: (
            step.first in {other.first for other in asleep}))]


def breakages(complete):
    """All of them; `complete` is the module that checks."""
    return [*independence_faults(complete), *decision_faults(), *walk_faults(), *sleep_faults(complete)]
