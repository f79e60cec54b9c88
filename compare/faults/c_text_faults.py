"""Faults that are put into what is written of a script in C, in the model, on purpose: c_text.py must notice each."""

from faults.policy_faults import Breakage
from model import c_script
from model.c_script import COMPARISONS, is_scalar
from model.language import Number, OwnRank, Place, RankCount, Unary

SOUND = {name: getattr(c_script, name) for name in (
    'c_text', 'expression_text', 'operand_text', 'place_text', 'stands_between', 'source_text', 'tag_text', 'send_lines', 'receive_lines',
    'waitany_lines', 'statement_lines', 'lines_of', 'line_of', 'block_of', 'declaration_text', 'call_lines')}


def put(name, attribute, replacement):
    return Breakage(name, c_script, attribute, replacement)


def texts(name, old, new):
    """A fault of the whole text: something in it is written otherwise."""
    return put(name, 'c_text', lambda script: SOUND['c_text'](script).replace(old.encode(), new.encode()))


def lines(name, attribute, old, new):
    """A fault of the lines of a statement, or of its one line."""
    def changed(*given):
        found = SOUND[attribute](*given)
        return found.replace(old, new) if isinstance(found, str) else None if found is None else tuple(line.replace(old, new) for line in found)
    return put(name, attribute, changed)


def without(name, attribute, beginning):
    """A fault of the lines of a statement: the one that begins so is left out."""
    return put(name, attribute, lambda *given: None if SOUND[attribute](*given) is None else tuple(
        line for line in SOUND[attribute](*given) if not line.startswith(beginning)))


def turned(first, second):
    """A fault of the lines of a receive: the lines that begin so are in each other's place."""
    def changed(statement):
        found = list(SOUND['receive_lines'](statement))
        places = [next((number for number, line in enumerate(found) if line.startswith(beginning)), None) for beginning in (first, second)]
        if None not in places:
            found[places[0]], found[places[1]] = found[places[1]], found[places[0]]
        return tuple(found)
    return changed


def other_between(is_between):
    """What writes other expressions with an operator of C between two operands; `is_between` tells it of a comparison."""
    def between(expression):
        if getattr(expression, 'sign', None) in COMPARISONS and hasattr(expression, 'right'):
            return is_between(expression)
        return SOUND['stands_between'](expression)
    return between


def is_plain(expression):
    return is_scalar(expression) or isinstance(expression, Number)


def negated(expression):
    """What writes a `-` before a number as C does."""
    if isinstance(expression, Unary) and expression.sign == '-' and isinstance(expression.operand, Number):
        return f'-{expression.operand.value}'
    return SOUND['expression_text'](expression)


def in_the_order_of_declaration(place):
    """What writes a place by the number of its cell."""
    return f'my_{place.first}' if place.size is None else SOUND['place_text'](place)


def unchecked(place):
    if place.size is None:
        return SOUND['place_text'](place)
    return f'{c_script.name_text(place.name)}[{c_script.expression_text(place.index)}]'


def sized(change):
    """What writes another size behind an index."""
    return lambda place: SOUND['place_text'](place if place.size is None else place._replace(size=change(place.size)))


def same_line(change):
    """What writes another line before a statement."""
    return lambda statements, names: SOUND['lines_of']([statement._replace(line=change(statement.line)) for statement in statements], names)


def else_always(statement, names):
    """What writes an `else` behind every `if`."""
    found = list(SOUND['statement_lines'](statement, names))
    return [*found[:-1], '} else {', '}'] if found[0].startswith('if (') and '} else {' not in found else found


def of_the_last_line(statements, names):
    """What tells no line of a loop."""
    return (line.replace(f'while (line = {line.partition("= ")[2].partition(",")[0]}, ', 'while (') if line.startswith('while (') else line
            for line in SOUND['lines_of'](statements, names))


def always_requests(script):
    """What writes the part on requests of every script."""
    text = SOUND['c_text'](script)
    requests = c_script.REQUESTS.encode()
    return text if requests in text else text.replace(b'\n/* The names', requests + b'\n/* The names', 1)


def requests_by_use(script):
    """What writes the part on requests only where a call has a request."""
    text = SOUND['c_text'](script)
    return text if b'new_call();\n' in text.split(b'int main(')[1] else text.replace(c_script.REQUESTS.encode(), b'')


def names_always(script):
    text, names = SOUND['c_text'](script), f'\n{c_script.NAMES}\n'.encode()
    return text if names in text else text.replace(c_script.MAIN.encode()[:20], names + c_script.MAIN.encode()[:20])


def sorted_names(script):
    return SOUND['c_text'](script._replace(names=dict(sorted(script.names.items()))))


FAULTS = [
    lines('a receive of any source is one of rank 0', 'source_text', 'MPI_ANY_SOURCE', 'as_rank(0)'),
    lines('a receive of any tag is one of tag 0', 'tag_text', 'MPI_ANY_TAG', 'as_tag(0)'),
    put('any source is any tag', 'source_text', lambda expression: 'MPI_ANY_TAG' if expression is None else SOUND['source_text'](expression)),
    put('a tag is checked as a rank', 'tag_text', lambda expression: SOUND['tag_text'](expression).replace('as_tag', 'as_rank')),
    put('a rank isn\'t checked', 'source_text', lambda expression: SOUND['source_text'](expression).replace('as_rank', '')),
    lines('a synchronous send is a standard one', 'send_lines', 'MPI_Ssend', 'MPI_Send'),
    lines('a nonblocking synchronous send is a standard one', 'send_lines', 'MPI_Issend', 'MPI_Isend'),
    lines('a standard send is synchronous', 'send_lines', 'MPI_Send', 'MPI_Ssend'),
    lines('a standard send is buffered', 'send_lines', 'MPI_Send', 'MPI_Bsend'),
    lines('a nonblocking send blocks', 'send_lines', 'MPI_Isend', 'MPI_Send'),
    lines('destination and tag of a send are turned', 'send_lines', 'to, tag,', 'tag, to,'),
    lines('source and tag of a receive are turned', 'receive_lines', 'source, tag,', 'tag, source,'),
    lines('a status is ignored', 'receive_lines', '&status);', 'MPI_STATUS_IGNORE);'),
    lines('a status has no source', 'receive_lines', 'status.MPI_SOURCE', 'status.MPI_ERROR'),
    without('the tag of a status is left out', 'receive_lines', '*tag_place'),
    without('that of a request is left out', 'receive_lines', 'call->tag_place'),
    without('a request keeps no place', 'receive_lines', 'call->place'),
    without('a receive keeps no handle', 'receive_lines', '*handle'),
    without('a send keeps no handle', 'send_lines', '*handle'),
    put('the places of a status are turned', 'receive_lines', lambda statement: SOUND['receive_lines'](
        statement._replace(status=statement.status and statement.status[::-1]))),
    put('source and tag are written in another order', 'receive_lines', turned('*source_place', '*tag_place')),
    put('the source is evaluated before the place', 'receive_lines', turned('const int source', 'int64_t *const place')),
    put('the tag is evaluated before the source', 'receive_lines', turned('const int source', 'const int tag')),
    put('a status is evaluated before the tag', 'receive_lines', turned('const int tag', 'call->source_place')),
    put('the destination is evaluated before the value', 'send_lines', lambda statement: (
        *SOUND['send_lines'](statement)[1::-1], *SOUND['send_lines'](statement)[2:])),
    put('a value and a destination are turned', 'send_lines', lambda statement: SOUND['send_lines'](
        statement._replace(value=statement.to, to=statement.value))),
    put('a call is made before its handle is known', 'call_lines', lambda handle: SOUND['call_lines'](handle)[::-1]),
    lines('a wait is left out', 'line_of', 'wait_for(', '(void)('),
    lines('a barrier is left out', 'line_of', 'MPI_Barrier(MPI_COMM_WORLD);', ';'),
    lines('an assertion is a print', 'line_of', 'must_hold(', 'print('),
    lines('an assignment is a comparison', 'line_of', ' = ', ' == '),
    put('no value is written to an array', 'block_of', lambda statement, names: None if isinstance(statement, c_script.Assign)
        else SOUND['block_of'](statement, names)),
    put('one line more is written of an array alone', 'block_of', lambda statement, names: c_script.assign_lines(statement)
        if isinstance(statement, c_script.Assign) else SOUND['block_of'](statement, names)),
    lines('a wait for any is for one less', 'waitany_lines', ', 2);', ', 1);'),
    put('a wait for any of none is for one', 'waitany_lines', lambda statement, sizes: SOUND['waitany_lines'](
        statement._replace(count=statement.count or 1), sizes)),
    lines('a wait for any of one handle takes that for an array', 'waitany_lines', '(&my_h', '(my_h'),
    lines('the index of a wait for any is written first', 'waitany_lines', '*place = ', ''),
    put('an `else` is left out', 'statement_lines', lambda statement, names: SOUND['statement_lines'](
        statement._replace(otherwise=[]) if hasattr(statement, 'otherwise') else statement, names)),
    put('an empty `else` is written', 'statement_lines', else_always),
    put('the blocks of an `if` are turned', 'statement_lines', lambda statement, names: SOUND['statement_lines'](
        statement._replace(then=statement.otherwise, otherwise=statement.then)
        if hasattr(statement, 'otherwise') and statement.otherwise else statement, names)),
    put('a loop tells no line', 'lines_of', of_the_last_line),
    put('a line is told one too high', 'lines_of', same_line(lambda line: line + 1)),
    put('lines are counted in steps of two', 'lines_of', same_line(lambda line: line - line % 2)),
    put('a block is indented by three spaces', 'INDENTATION', '   '),
    put('an index isn\'t checked', 'place_text', unchecked),
    put('an index may be the size', 'place_text', sized(lambda size: size + 1)),
    put('the size of an array of none is 1', 'place_text', sized(lambda size: size or 1)),
    put('a name is told by its cell', 'place_text', in_the_order_of_declaration),
    put('a name is its own', 'name_text', lambda name: name),
    put('a name has something behind it', 'name_text', lambda name: f'{name}_'),
    put('a name is written in small letters', 'name_text', lambda name: f'my_{name.lower()}'),
    put('an array of no size is none', 'declaration_text', lambda name, declared: '' if declared.size == 0
        else SOUND['declaration_text'](name, declared)),
    put('an array of no size has size 0', 'declaration_text', lambda name, declared: SOUND['declaration_text'](name, declared).replace('[1]', '[0]')
        if declared.size == 0 else SOUND['declaration_text'](name, declared)),
    put('an array has one more', 'declaration_text', lambda name, declared: SOUND['declaration_text'](
        name, declared if not declared.size else declared._replace(size=declared.size + 1))),
    put('a handle is a request', 'declaration_text', lambda name, declared: SOUND['declaration_text'](name, declared).replace(
        'struct call *', 'MPI_Request ')),
    put('every script has requests', 'c_text', always_requests),
    put('requests come with the calls that have them', 'c_text', requests_by_use),
    put('there are names where nothing is declared', 'c_text', names_always),
    put('names stand in their order', 'c_text', sorted_names),
    put('a negative number is one', 'expression_text', negated),
    put('the operand of `!` has no parentheses', 'operand_text', c_script.expression_text),
    put('every operand has parentheses', 'operand_text', lambda expression: f'({c_script.expression_text(expression)})'),
    put('an operand with two operands has parentheses', 'operand_text', lambda expression: f'({c_script.expression_text(expression)})'
        if hasattr(expression, 'right') else c_script.expression_text(expression)),
    put('every comparison stands in place', 'stands_between', other_between(lambda expression: True)),
    put('no comparison stands in place', 'stands_between', other_between(lambda expression: False)),
    put('a comparison of two numbers stands in place', 'stands_between', other_between(
        lambda expression: is_plain(expression.left) and isinstance(expression.right, Number))),
    put('a comparison of two names stands in place', 'stands_between', other_between(
        lambda expression: is_scalar(expression.left) and is_plain(expression.right))),
    put('a comparison of an element stands in place', 'stands_between', other_between(
        lambda expression: isinstance(expression.left, (OwnRank, RankCount, Place)) and isinstance(expression.right, Number))),
    put('a comparison of `rank` stands not in place', 'stands_between', other_between(
        lambda expression: isinstance(expression.left, Place) and expression.left.size is None and isinstance(expression.right, Number))),
    *(put(f'`{one}` is `{other}`', 'MACROS', {**c_script.MACROS, one: c_script.MACROS[other]}) for one, other in (
        ('+', '-'), ('-', '+'), ('*', '+'), ('/', '%'), ('%', '/'), ('==', '!='), ('!=', '=='), ('<', '<='), ('<=', '<'), ('>', '>='), ('>=', '>'))),
    texts('one process is many', ' 1 process:', ' 1 processes:'), texts('many processes are one', ' processes', ' process'),
    texts('the number of ranks isn\'t told', 'if (size != 2) {', 'if (size < 2) {'),
    texts('the last line feed is missing', '    return 0;\n}\n', '    return 0;\n}'),
    texts('all ranks end for themselves', '    MPI_Barrier(at_the_end);\n', ''),
    texts('a trap ends with status 1', 'MPI_Abort(MPI_COMM_WORLD, 3);', 'MPI_Abort(MPI_COMM_WORLD, 1);'),
    texts('what is printed is kept back', '    fflush(stdout);\n', ''),
    texts('a sum wraps around', '__builtin_add_overflow', '__builtin_sub_overflow'),
]
