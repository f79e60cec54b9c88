"""What must be told of calls that explore, draw runs, check, explain, or read what a report has: by the model.

The model has no explanations: these were worked out by hand (call_explained.py).
"""

from itertools import islice

from model import complete, explorer, run_words, sampler, session, walks, wide, witness
from model.debugger import Debugger
from model.explorer import pieces, report_text
from model.walks import Run
from probe.call_explained import explained, explanation
from probe.call_given import by_hand, line, no_state, numbered, steps_line, trail_text, unchanged, walked


def told_report(row, found):
    return report_text(explorer.up_to_bad(found) if row.has('until') else found, row.has('witnesses'))


def explored(row):
    found = walked(row)
    runs, fuel, *_ = row.numbers()
    return unchanged(trail_text(found), told_report(row, listed(row, found, runs, fuel)))


def listed(row, found, runs, fuel):
    """The report from where the debugger is: of all runs, or of those that the walk of ends takes."""
    return explorer.explored(found, runs, fuel, row.has('ends'))


def walk_with(row, begun):
    """The leaves of the runs behind one, along the wide walk or along decisions, where what was tried falls asleep or not. Where it does, steps
    may be asleep from the outset."""
    sleeps, asleep = row.has('ends'), row.asleep()
    assert sleeps or not asleep
    if row.has('wide'):
        return explorer.walk_of_ends(begun._replace(asleep=asleep)) if sleeps else wide.wide_walk(begun.world, begun.fuel)
    return complete.asleep_walk(begun.world, begun.fuel, asleep) if sleeps else walks.walk(begun.world, begun.fuel)


def explored_with(row):
    """The report of some walk."""
    found = walked(row)
    runs, fuel, *_ = row.numbers()
    if row.by_hand:
        return unchanged(trail_text(found), row.by_hand)
    leaves = tuple(islice(walk_with(row, Run(found.world, fuel)), runs + 1))
    return unchanged(trail_text(found), told_report(row, behind_steps(found, explorer.Report(leaves[:runs], len(leaves) > runs))))


def sampled(row):
    """A sample; the third number is its seed."""
    found = walked(row)
    runs, fuel, seed, *_ = row.numbers()
    listed_leaves = sampler.sampled(found, runs, fuel, seed, row.has('until'))
    return unchanged(trail_text(found), report_text(listed_leaves, row.has('witnesses')))


def report_printed(row):
    return no_state(explored(row).answer + '\n')


def report_by_workers(row):
    """The argument has the number of workers in front."""
    return row.by_hand or report_printed(row._replace(argument=row.argument.partition(' ')[2]))


def leaves_pushed(row):
    runs, fuel, *_ = row.numbers()
    leaves = listed(row, walked(row), runs, fuel).leaves
    return no_state(line(''.join(map(session.leaf_text, leaves))))


def report_looks(row):
    runs, fuel, *_ = row.numbers()
    leaves = listed(row, walked(row), runs, fuel).leaves
    told = [any(map(explorer.is_bad, leaves)), explorer.is_bad(leaves[0])]
    return no_state(line(' '.join(str(it).lower() for it in told)))


def witness_text(found):
    return steps_line('witness', found.steps) + numbered('blocked' if found.word == 'deadlock' else 'trapped', found.blocked)


def witness_made(row):
    found = walked(row)
    runs, fuel, number = row.numbers()
    made = explorer.witness(listed(row, found, runs, fuel).leaves[number])
    return unchanged(trail_text(found), witness_text(made) if made else 'none\n')


def verdict_text(row):
    told = witness.read_witness(row.argument.encode())
    return witness.told(explorer.verify(row.read(), row.mode, *told)).output.decode()


def verified(row):
    """The verdict without the words around it: `accepted`, or the number and the name of the fault."""
    return no_state(line(verdict_text(row).strip().removeprefix('refused ').split(' at ')[0]))


def judged(row):
    text = verdict_text(row)
    return no_state(line('true' if text.startswith('accepted') else 'false'), text)


def witness_read(row):
    try:
        return no_state(witness_text(witness.read_witness(row.argument.encode())))
    except witness.BadWitness as bad:
        return no_state(line(f'line {bad.line}'))


def cut(found, split, fuel, ends=False):
    """The pieces from where a debugger is, or None where there are too many."""
    cut_here = list(islice(pieces(Run(found.world, fuel), split, ends), explorer.MOST_PIECES + 1))
    return cut_here if len(cut_here) <= explorer.MOST_PIECES else None


def split(row):
    found = walked(row)
    parts = cut(found, *row.numbers(), row.has('ends'))
    if parts is None:
        return unchanged(trail_text(found), '31 too-many-pieces\n')
    return unchanged(trail_text(found), ''.join(numbered(f'{number}:', part.choices) for number, part in enumerate(parts)))


def behind_steps(found, report):
    """A report whose leaves have the steps that led here in front."""
    before = tuple(found.steps[:found.depth])
    return report._replace(leaves=tuple(leaf._replace(steps=before + leaf.steps) for leaf in report.leaves))


def choices_at(row):
    """The choices that the first word of the argument is: numbers with commas between them, or `-` for none."""
    first, *_ = row.argument.split()
    return () if first == '-' else tuple(map(int, first.split(',')))


def part_explored(row):
    """The part of the piece with these choices."""
    found, choices = walked(row), choices_at(row)
    runs, fuel = [int(word) for word in row.argument.split()[1:3]]
    piece = next(it for it in cut(found, len(choices), fuel, row.has('ends')) if it.choices == choices)
    return unchanged(trail_text(found), told_report(row, behind_steps(found, part_of(row, piece, runs))))


def part_of(row, piece, runs):
    """What a report has of a piece."""
    return (explorer.ends_part if row.has('ends') else explorer.part)(piece, runs)


def pieces_explored(row, split_by, runs, fuel):
    """The report of all pieces from where the debugger is."""
    found = walked(row)
    parts = cut(found, split_by, fuel, row.has('ends'))
    if parts is None:
        return unchanged(trail_text(found), '31 too-many-pieces\n')
    return unchanged(trail_text(found), told_report(row, behind_steps(found, explorer.joined([part_of(row, piece, runs) for piece in parts]))))


def by_pieces(row):
    return pieces_explored(row, *row.numbers()[:3])


def by_workers(row):
    workers, *plan = row.numbers()[:4]
    if not 1 <= workers <= explorer.MOST_WORKERS:
        return unchanged(trail_text(walked(row)), '35 bad-workers\n')
    return pieces_explored(row, *plan)


def asked_of(row, **more):
    """The options of a check by the numbers of the argument behind the first, and by its words."""
    _, split_by, runs, fuel = row.numbers()[:4]
    flags = {name: row.has(name) for name in ('witnesses', 'until', 'ends', 'group')}
    return explorer.USUAL._replace(mode=row.mode, split=split_by, runs=runs, fuel=fuel, **flags, **more)


def tally_text(row, found, is_wide):
    script = row.read()
    bad = [leaf.outcome.split()[0] for leaf in found.leaves]
    counts = [f'{name} {bad.count(word)}' for name, word in (('deadlocks', 'deadlock'), ('traps', 'trap'), ('leftovers', 'leftovers'), ('cut', 'cut'))]
    more = 'true' if found.more else 'false'
    tells_all = 'true' if explorer.is_whole(found) and explorer.tells_all(script, row.mode, is_wide) else 'false'
    status = explorer.status_of(script, row.mode, found, True, is_wide)
    return line(f'runs {len(bad)} {" ".join(counts)} more {more} all {tells_all} status {status}')


def checked(row, **more):
    """A check, or one piece of it, as it is written to a sink."""
    asked = asked_of(row, **more)
    told = explorer.checked(row.read(), asked)
    if told.status == 2:
        refused = told.errors.decode().removeprefix('mpdbg: ').strip()
        return no_state(line(refused.split()[-1] if refused.startswith('refused') else refused), '')
    parts = cut(Debugger(row.read(), row.mode), asked.split, asked.fuel, asked.ends)
    return no_state(tally_text(row, explorer.reported(parts, asked), asked.ends), told.output.decode())


def check_written(row):
    return checked(row, workers=row.numbers()[0])


def piece_written(row):
    return checked(row, piece=row.numbers()[0])


def mode_written(row):
    """A line of what a check in the mode of a row tells."""
    told, asked = checked(row, workers=row.numbers()[0]), asked_of(row)
    parts = cut(Debugger(row.read(), row.mode), asked.split, asked.fuel, asked.ends)
    if not told.end:
        return told
    text, _ = explorer.counted(explorer.reported(parts, asked))
    return told._replace(end=line(f'{row.mode} {text}'))


def pieces_counted(row):
    told = explorer.checked(row.read(), asked_of(row, pieces=True))
    return no_state('too-many-pieces\n' if told.status == 2 else 'done\n', told.output.decode())


# ---- explanations, and what is read back of a report

def listing_text(row, found):
    """A report, or its groups, with what is asked for beside leaves."""
    text = (explorer.group_text if row.has('group') else report_text)(found, row.has('witnesses'))
    return explained(row.script, text) if row.has('explain') else text


def leaf_explained(row):
    found = walked(row)
    runs, fuel, number = row.numbers()
    return unchanged(trail_text(found), line(explanation(row.script, listed(row, found, runs, fuel).leaves[number].outcome)))


def all_explained(row):
    found = walked(row)
    texts = [explanation(row.script, leaf.outcome) for leaf in listed(row, found, *row.numbers()).leaves]
    return unchanged(trail_text(found), ''.join(line(f'{number}:') + text for number, text in enumerate(texts)))


def listing_written(row):
    told = check_written(row)
    return told._replace(end=explained(row.script, told.end)) if row.has('explain') else told


def sample_written(row):
    """A sample from the start; the third number is its seed."""
    runs, fuel, seed, *_ = row.numbers()
    found = sampler.sampled(Debugger(row.read(), row.mode), runs, fuel, seed, row.has('until'))
    return no_state(tally_text(row, found, is_wide=True), listing_text(row, found))


def left_behind(row):
    """Whether there is a run behind so many pieces; the last number says how many."""
    found = walked(row)
    split_by, _, fuel, place = row.numbers()
    behind = cut(found, split_by, fuel, row.has('ends'))[place:]
    is_left = any(explorer.ends_part(piece, 0).more for piece in behind) if row.has('ends') else bool(behind)
    return unchanged(trail_text(found), line('true' if is_left else 'false'))


def report_read(row):
    """The witness of a report, of the leaf whose number the line is, if there is one. The model doesn't say what is wrong with a report."""
    leaf = int(row.lines[0]) if row.lines else None
    return row.by_hand or no_state(witness_text(witness.witness_of(row.argument.encode(), leaf)))


def run_led(row):
    """The steps that choices lead to; the word behind them is the fuel, and `ends` says that they are those of the wide walk."""
    found, choices = walked(row), choices_at(row)
    try:
        answer = steps_line('steps', run_words.run_by(Run(found.world, int(row.argument.split()[1])), choices, row.has('ends')).steps)
    except run_words.BadChoices as bad:
        answer = line(f'bad choices at {bad.place}')
    return unchanged(trail_text(found), answer)


def run_written(row):
    told = run_words.answer(row.script.encode(), choices_at(row), row.mode, int(row.argument.split()[1]), row.has('ends'))
    return no_state(line(told.errors.decode().removeprefix('mpdbg: ').strip() or 'done'), told.output.decode())


REPORTS = {
    'explore': explored, 'explore_with': explored_with, 'sample': sampled, 'witness_of': witness_made, 'print_report': report_printed,
    'push_leaf_text': leaves_pushed, 'push_leaves, push_total': report_printed, 'mpd_pool::print_report': report_by_workers,
    'SearchReport looks': report_looks, 'verify': verified, 'verify_end': verified, 'verify_from': verified, 'split': split, 'explore_at': part_explored,
    'explore_by_pieces': by_pieces, 'mpd_pool::check_watched': by_workers, 'mpd_check::check_search': check_written, 'check_piece': piece_written,
    'count_pieces': pieces_counted, 'check_mode': mode_written, 'put_least': by_hand, 'judge': judged, 'read_witness': witness_read,
    'explain': leaf_explained, 'explain_all': all_explained, 'check_listing': listing_written, 'check_sample': sample_written, 'is_left': left_behind, 'read_report': report_read,
    'read_report_witness': report_read, 'choices_of': by_hand, 'steps_by_choices': run_led, 'write_words': run_written}
