"""Faults that are put into the data of a page on purpose: pages.py must notice each, on each page that it changes."""

import json

from model.page_model import data_text


def of_data(change):
    """What makes the text of changed data; None where there is nothing to change."""
    def changed(text):
        data = json.loads(text)
        return None if change(data) is None else data_text(data)
    return changed


def of_run(change):
    """What changes what is told of all runs."""
    return of_data(lambda data: change(data['run']))


def of_node(key, change, first=True):
    """What changes the first node that has a key, or the last one."""
    def changed(data):
        found = [number for number, node in enumerate(data['nodes']) if node.get(key)]
        return change(data, data['nodes'][found[0 if first else -1]]) if found else None
    return of_data(changed)


def dropped(key, first=True):
    """What leaves a key out."""
    return of_node(key, lambda _, node: [node.pop(key)], first)


def put(key, value_of, first=True):
    """What puts something else in the place of a key."""
    def change(data, node):
        value = value_of(data, node)
        if value is None or value == node[key]:
            return None
        node[key] = value
        return data
    return of_node(key, change, first)


def with_place(list_of, place, value):
    return [*list_of[:place], value, *list_of[place + 1:]]


def other_parent(data, node):
    return node['p'] - 1 if node['p'] else None


def later_parent(data, node):
    """A parent that comes later."""
    return len(data['nodes'])


def of_other_rank(key):
    """The first change of a kind, of another rank."""
    def other(data, node):
        rank, *what = node[key][0]
        count = data['run']['ranks']
        return [[(rank + 1) % count, *what], *node[key][1:]] if count > 1 else None
    return put(key, other)


def of_other_cell(data, node):
    """The first change of variables, of another cell."""
    rank, cell, value = node['v'][0]
    count = sum(1 if size is None else size for _, size in data['run']['vars'])
    return [[rank, (cell + 1) % count, value], *node['v'][1:]] if count > 1 else None


def with_field(key, change):
    """What changes a field of the first call that has it."""
    def changed(data):
        call = next((node['c'] for node in data['nodes'] if key in node.get('c', {})), None)
        if call is None:
            return None
        value = change(call[key])
        call.update({key: value} if value is not None else {})
        return call if value is not None else [call.pop(key)]
    return of_data(changed)


def other_partner(data):
    """A match of another send: that of a receive with the first send of the next rank."""
    for node in data['nodes']:
        if node.get('s', [None])[0] == 'match':
            node['s'][1][0] = (node['s'][1][0] + 1) % data['run']['ranks']
            return data if data['run']['ranks'] > 1 else None
    return None


def in_why(change):
    """What changes the first entry of a reason to wait that has something to change; its change gives None where it has not."""
    def changed(data):
        reasons = (why for node in data['nodes'] for _, why in node.get('w', []) if isinstance(why, list))
        return next((data for why in reasons for entry in why if change(entry) is not None), None)
    return of_data(changed)


def other_fit(entry):
    """Another call in the place of one that fits."""
    if 'fits' not in entry:
        return None
    entry['fits'][0][0][0] = 9
    return entry


def not_held(entry):
    """A match that isn't held back."""
    held = [fit for fit in entry.get('fits', []) if len(fit) > 1]
    return held[0].pop() if held else None


def nobody_absent(data):
    """A barrier where all ranks are."""
    for node in data['nodes']:
        for _, why in node.get('w', []):
            if isinstance(why, dict) and why['absent']:
                why['absent'] = []
                return data
    return None


def other_trap(data):
    for node in data['nodes']:
        for place in node.get('d', []):
            if 'trapped' in place:
                place[3] = 'overflow' if place[3] != 'overflow' else 'assert'
                return data
    return None


def of_end(key, change):
    """What changes what is told of the first end that has a key."""
    def changed(data):
        for end in data['ends']:
            if end.get(key):
                end[key] = change(end[key])
                return data
        return None
    return of_data(changed)


def ended_or_not(waits):
    return [{**waits[0], 'ended': not waits[0]['ended']}, *waits[1:]]


def without_node(data):
    """The last state is left out, and the end stands in its parent."""
    if len(data['nodes']) < 2:
        return None
    node = data['nodes'].pop()
    for end in data['ends']:
        if end['node'] == len(data['nodes']):
            end['node'] = node.get('p', len(data['nodes']) - 1)
    return data


def lines_turned(run):
    """The first two lines of the script, turned."""
    one, two, *rest = run['script']
    run['script'] = [two, one, *rest]
    return run if one != two else None


def last_end_lost(data):
    return data['ends'].pop()


def raw_sign(text):
    """A `<` that is written as it is."""
    return text.replace(b'\\u003c', b'<', 1) if b'\\u003c' in text else None


def mark_in_note(text):
    return text.replace(b'"note":"', b'"note":"</script>', 1)


FAULTS = {
    'places left out': dropped('d', first=False), 'values left out': dropped('v'), 'requests left out': dropped('h'), 'what was printed left out': dropped('o'),
    'a call left out': dropped('c', first=False), 'candidates left out': dropped('k'), 'a reason left out': dropped('w', first=False),
    'the number of a candidate left out': of_data(lambda data: next((node for node in data['nodes'] if node.pop('n', None) is not None), None)),
    'a parent left out': dropped('p'), 'a step left out': dropped('s', first=False),
    'changes applied to another parent': put('p', other_parent), 'a parent that comes later': put('p', later_parent),
    'a value of another rank': of_other_rank('v'), 'a place of another rank': of_other_rank('d'), 'a request of another rank': of_other_rank('h'),
    'a reason of another rank': of_other_rank('w'), 'another rank has printed': of_other_rank('o'),
    'a value of another cell': put('v', of_other_cell),
    'another value': put('v', lambda _, node: with_place(node['v'], 0, [*node['v'][0][:2], str(int(node['v'][0][2]) + 1)])),
    'a value as a number': put('v', lambda _, node: with_place(node['v'], 0, [*node['v'][0][:2], int(node['v'][0][2])])),
    'another value printed': put('o', lambda _, node: [[node['o'][0][0], node['o'][0][1] + '1']]),
    'another line': put('d', lambda _, node: [[node['d'][0][0], node['d'][0][1] + 1, *node['d'][0][2:]], *node['d'][1:]], first=False),
    'another trap': of_data(other_trap),
    'the line of another call': with_field('line', lambda line: line + 1), 'another tag': with_field('tag', lambda tag: tag + 77),
    'any tag': with_field('tag', lambda tag: None), 'another destination': with_field('to', lambda to: to + 1), 'any source': with_field('from', lambda source: None),
    'another value of a send': with_field('value', lambda value: value + '1'), 'another kind of call': with_field('kind', lambda kind: 'barrier' if kind != 'barrier' else 'wait'),
    'a wait for another call': with_field('for', lambda number: number + 1), 'a waitany of fewer requests': with_field('count', lambda count: count - 1),
    'a send that is not buffered': with_field('buffered', lambda _: None),
    'a candidate too few': put('k', lambda _, node: node['k'][:-1] if len(node['k']) > 1 else None, first=False),
    'candidates in another order': put('k', lambda _, node: node['k'][::-1]),
    'another candidate': of_data(lambda data: next((node for node in data['nodes'] if 'n' in node and not node.update(n=node['n'] + 1)), None)),
    'a wrong partner': of_data(other_partner), 'a wrong partner in a reason': in_why(other_fit), 'a match that is not held back': in_why(not_held),
    'a call that is not complete': in_why(lambda entry: entry.pop('complete', None)), 'nobody is absent': of_data(nobody_absent),
    'another step': put('s', lambda _, node: ['local', 15], first=False),
    'another outcome': of_end('outcome', lambda text: 'done' if text != 'done' else 'cut'), 'another end': of_end('ends', lambda word: 'done' if word != 'done' else 'cut'),
    'a line of the explanation left out': of_end('told', lambda lines: lines[:-1]),
    'one left out who waits': of_end('waits', lambda waits: waits[:-1]), 'one that waits has ended': of_end('waits', ended_or_not),
    'a lost request left out': of_end('lost', lambda lines: lines[:-1]),
    'a search that gives up at will': of_end('decided', lambda told: {'depth': None, 'said': 'not known: not all runs from there were counted'}),
    'another step that decides': of_end('decided', lambda told: {**told, 'depth': (told['depth'] or 0) + 1}),
    'the end elsewhere': of_end('node', lambda node: node - 1),
    'a state left out': of_data(without_node), 'an end left out': of_data(last_end_lost),
    'lines of the script turned': of_run(lines_turned),
    'another mode': of_run(lambda run: [run.update(mode='slots:3')]), 'another walk': of_run(lambda run: [run.update(walk='none')]),
    'what is said left out': of_run(lambda run: run['said'] and [run['said'].pop()]), 'more is said': of_run(lambda run: [run['said'].append('it can hang')]),
    'no more runs': of_run(lambda run: [run.update(more=not run['more'])]),
    'a `<` as it is': raw_sign, 'the end of the element in the note': mark_in_note,
}
