"""What holds a match back, and the order that a run shows: rules with no trace word, in the model.

compare/runs/order.py checks on walks what must hold of them, and compare/runs/why.py compares the crates with it.
"""

from model.debugger import find_call, fits, free_calls, partner, receives_ahead, sends_ahead


def holder(world, send_id, receive_id):
    """What holds the match of two free calls back that fit: an earlier send, else an earlier receive; None where nothing does."""
    ahead = sends_ahead(world, send_id, receive_id) or receives_ahead(world, send_id, receive_id)
    return ahead[0] if ahead else None


def why(world, call_id):
    """The free calls that a free send or receive fits, by rank and number, each with what holds that match back, or None."""
    call = find_call(world, call_id)
    if call is None or call.kind not in ('send', 'recv') or partner(world, call_id) is not None:
        return []
    others = [(other_id, other.kind) for rank in range(len(world.ranks)) for other_id, other in free_calls(world, rank)]
    if call.kind == 'send':
        pairs = [(call_id, other_id) for other_id, kind in others if kind == 'recv']
    else:
        pairs = [(other_id, call_id) for other_id, kind in others if kind == 'send']
    place = 1 if call.kind == 'send' else 0
    return [(pair[place], holder(world, *pair)) for pair in pairs if fits(world, *pair)]


def why_text(partners):
    return ', '.join(f'{other} eligible' if held is None else f'{other} held by {held}' for other, held in partners)


def covers(number, other):
    """Whether what takes `number`, or any where that is None, takes all that `other` takes."""
    return number is None or number == other


def cases_of(world, first, second):
    """The cases by which one call completes before a later one of its rank: `sends`, `receives`, `wait`, `blocks`."""
    if first.rank != second.rank or first.number >= second.number or find_call(world, second) is None:
        return set()
    one, two = find_call(world, first), find_call(world, second)
    found = {'blocks'} if one.blocks else set()
    if two.kind == 'wait' and two.target == first.number:
        found.add('wait')
    if one.kind == two.kind == 'send' and (one.other, one.tag) == (two.other, two.tag):
        found.add('sends')
    if one.kind == two.kind == 'recv' and covers(one.other, two.other) and covers(one.tag, two.tag):
        found.add('receives')
    return found


def before(world, first, second):
    return bool(cases_of(world, first, second))
