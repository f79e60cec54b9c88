"""The text of a script in C, in the model: what `mpdbg c FILE` writes (docs/FORMATS.md, "A script in C").

compare/runs/c_text.py prints it and compares a program with it, and compare/runs/mpi.py runs it under MPI libraries.
"""

from model.language import COMPARISONS, Assert, Assign, Barrier, Branch, Number, OwnRank, Place, Print, RankCount, Receive, Send, Unary, Wait, WaitAny, While

INDENTATION = '    '

HEAD = '''\
/* A script of mpdbg as a program in C with MPI. Compile it with mpicc, and run it as {ranks}: mpiexec -n {number}. */
#include <inttypes.h>
#include <mpi.h>
#include <stdint.h>
#include <stdio.h>
#include <stdlib.h>

static int64_t rank, size;

/* The line of the script that runs. It is volatile, so that no compiler leaves out a loop that does nothing. */
static volatile int line;

/* Ends all processes, since this one can't go on. */
_Noreturn static inline void trap(const char *name)
{
    fprintf(stderr, "rank %" PRId64 " traps at line %d: %s\\n", rank, line, name);
    MPI_Abort(MPI_COMM_WORLD, 3);
    exit(3);
}

/* Operators. A script evaluates the left operand first, and C leaves that open: so it is held while the right one is evaluated. */
static int64_t held[64];
static int held_count;

static inline void hold(int64_t left)
{
    held[held_count++] = left;
}

static inline int64_t left_operand(void)
{
    return held[--held_count];
}

static inline int64_t held_add(int64_t right)
{
    int64_t result;
    if (__builtin_add_overflow(left_operand(), right, &result)) {
        trap("overflow");
    }
    return result;
}

static inline int64_t held_subtract(int64_t right)
{
    int64_t result;
    if (__builtin_sub_overflow(left_operand(), right, &result)) {
        trap("overflow");
    }
    return result;
}

static inline int64_t held_multiply(int64_t right)
{
    int64_t result;
    if (__builtin_mul_overflow(left_operand(), right, &result)) {
        trap("overflow");
    }
    return result;
}

static inline void check_division(int64_t left, int64_t right)
{
    if (right == 0) {
        trap("zero-divisor");
    }
    if (left == INT64_MIN && right == -1) {
        trap("overflow");
    }
}

static inline int64_t held_divide(int64_t right)
{
    const int64_t left = left_operand();
    check_division(left, right);
    return left / right;
}

static inline int64_t held_remainder(int64_t right)
{
    const int64_t left = left_operand();
    check_division(left, right);
    return left % right;
}

static inline int64_t negate(int64_t value)
{
    if (value == INT64_MIN) {
        trap("overflow");
    }
    return -value;
}

static inline int64_t held_equal(int64_t right) { return left_operand() == right; }
static inline int64_t held_differ(int64_t right) { return left_operand() != right; }
static inline int64_t held_less(int64_t right) { return left_operand() < right; }
static inline int64_t held_at_most(int64_t right) { return left_operand() <= right; }
static inline int64_t held_greater(int64_t right) { return left_operand() > right; }
static inline int64_t held_at_least(int64_t right) { return left_operand() >= right; }

#define ADD(left, right) (hold(left), held_add(right))
#define SUBTRACT(left, right) (hold(left), held_subtract(right))
#define MULTIPLY(left, right) (hold(left), held_multiply(right))
#define DIVIDE(left, right) (hold(left), held_divide(right))
#define REMAINDER(left, right) (hold(left), held_remainder(right))
#define EQUAL(left, right) (hold(left), held_equal(right))
#define DIFFER(left, right) (hold(left), held_differ(right))
#define LESS(left, right) (hold(left), held_less(right))
#define AT_MOST(left, right) (hold(left), held_at_most(right))
#define GREATER(left, right) (hold(left), held_greater(right))
#define AT_LEAST(left, right) (hold(left), held_at_least(right))

/* What a script checks: the index of an array of so many elements, a rank, a tag, and what is asserted. */
static inline int64_t within(int64_t index, int64_t elements)
{
    if (index < 0 || index >= elements) {
        trap("bad-index");
    }
    return index;
}

static inline int as_rank(int64_t value)
{
    if (value < 0 || value >= size) {
        trap("bad-rank");
    }
    return (int)value;
}

static inline int as_tag(int64_t value)
{
    if (value < 0 || value > 32767) {
        trap("bad-tag");
    }
    return (int)value;
}

static inline void must_hold(int64_t condition)
{
    if (condition == 0) {
        trap("assert");
    }
}

static inline void print(int64_t value)
{
    printf("rank %" PRId64 " prints %" PRId64 "\\n", rank, value);
    fflush(stdout);
}
'''

REQUESTS = '''
/* A call that doesn't block: its request, the buffer of its message, and where a receive puts the value, the source and the tag. */
struct call {
    MPI_Request request;
    int64_t value;
    int64_t *place, *source_place, *tag_place;
};

/* A new call. Its buffer stays until a wait has ended it: for ever, where its handle gets another call before. */
static inline struct call *new_call(void)
{
    struct call *const call = calloc(1, sizeof *call);
    if (call == NULL) {
        fprintf(stderr, "rank %" PRId64 " has no memory at line %d\\n", rank, line);
        MPI_Abort(MPI_COMM_WORLD, 4);
        exit(4);
    }
    return call;
}

/* Puts what a complete call has received to its places, and leaves its handle without a call. */
static inline void end_call(struct call **handle, const MPI_Status *status)
{
    struct call *const call = *handle;
    if (call->place != NULL) {
        *call->place = call->value;
    }
    if (call->source_place != NULL) {
        *call->source_place = status->MPI_SOURCE;
        *call->tag_place = status->MPI_TAG;
    }
    free(call);
    *handle = NULL;
}

static inline void wait_for(struct call **handle)
{
    MPI_Status status;
    if (*handle != NULL) {
        MPI_Wait(&(*handle)->request, &status);
        end_call(handle, &status);
    }
}

/* Waits for any call of so many handles, at most 256, and tells which; -1 where none of them has a call. */
static inline int64_t wait_for_any(struct call **handles, int count)
{
    MPI_Request requests[256];
    MPI_Status status;
    int index;
    for (index = 0; index < count; index++) {
        requests[index] = handles[index] == NULL ? MPI_REQUEST_NULL : handles[index]->request;
    }
    MPI_Waitany(count, requests, &index, &status);
    if (index == MPI_UNDEFINED) {
        return -1;
    }
    end_call(&handles[index], &status);
    return index;
}
'''

NAMES = '/* The names of the script, each behind my_. Every rank has its own. */'

MAIN = '''
int main(int argc, char **argv)
{
    int own_rank, all_ranks;
    MPI_Comm at_the_end;
    MPI_Init(&argc, &argv);
    MPI_Comm_dup(MPI_COMM_WORLD, &at_the_end);
    MPI_Comm_rank(MPI_COMM_WORLD, &own_rank);
    MPI_Comm_size(MPI_COMM_WORLD, &all_ranks);
    rank = own_rank;
    size = all_ranks;
    if (size != {number}) {
        if (rank == 0) {
            fprintf(stderr, "this program is for {ranks}: mpiexec -n {number}\\n");
        }
        MPI_Finalize();
        return 2;
    }
'''

TAIL = '''\
    printf("rank %" PRId64 " ends\\n", rank);
    fflush(stdout);
    /* A call that no wait has ended may still be matched, until all ranks have ended. */
    MPI_Barrier(at_the_end);
    MPI_Finalize();
    return 0;
}
'''

# Operators that are written as the call of a macro.
MACROS = {'+': 'ADD', '-': 'SUBTRACT', '*': 'MULTIPLY', '/': 'DIVIDE', '%': 'REMAINDER', '==': 'EQUAL', '!=': 'DIFFER', '<': 'LESS',
          '<=': 'AT_MOST', '>': 'GREATER', '>=': 'AT_LEAST'}


def name_text(name):
    """A name of the script as one of C, which is no word of C and none of the text's own."""
    return f'my_{name}'


# ---- expressions

def is_scalar(expression):
    return isinstance(expression, (OwnRank, RankCount)) or isinstance(expression, Place) and expression.size is None


def stands_between(expression):
    """Whether an expression is written with an operator of C between two operands: `&&` and `||`, and a comparison of `rank`, `size` or a
    variable without an index with a number. These can be evaluated in the order of C."""
    if not hasattr(expression, 'right'):
        return False
    return expression.sign in ('&&', '||') or (expression.sign in COMPARISONS and is_scalar(expression.left)
                                               and isinstance(expression.right, Number))


def operand_text(expression):
    """An operand of an operator of C."""
    text = expression_text(expression)
    return f'({text})' if stands_between(expression) else text


def expression_text(expression):
    if isinstance(expression, Number):
        return str(expression.value)
    if isinstance(expression, (OwnRank, RankCount)):
        return 'rank' if isinstance(expression, OwnRank) else 'size'
    if isinstance(expression, Place):
        return place_text(expression)
    if isinstance(expression, Unary):
        return f'negate({expression_text(expression.operand)})' if expression.sign == '-' else f'!{operand_text(expression.operand)}'
    if stands_between(expression):
        return f'{operand_text(expression.left)} {expression.sign} {operand_text(expression.right)}'
    return f'{MACROS[expression.sign]}({expression_text(expression.left)}, {expression_text(expression.right)})'


def place_text(place):
    if place.size is None:
        return name_text(place.name)
    return f'{name_text(place.name)}[within({expression_text(place.index)}, {place.size})]'


# ---- statements

def source_text(expression):
    return 'MPI_ANY_SOURCE' if expression is None else f'as_rank({expression_text(expression)})'


def tag_text(expression):
    return 'MPI_ANY_TAG' if expression is None else f'as_tag({expression_text(expression)})'


def send_lines(statement):
    """What is written of a send, in a block of its own."""
    word = 'ssend' if statement.synchronous else 'send'
    to_and_tag = (f'const int to = {source_text(statement.to)};', f'const int tag = {tag_text(statement.tag)};')
    if statement.handle is None:
        return (f'const int64_t value = {expression_text(statement.value)};', *to_and_tag,
                f'MPI_{word.capitalize()}(&value, 1, MPI_INT64_T, to, tag, MPI_COMM_WORLD);')
    return (*call_lines(statement.handle), f'call->value = {expression_text(statement.value)};', *to_and_tag,
            f'MPI_I{word}(&call->value, 1, MPI_INT64_T, to, tag, MPI_COMM_WORLD, &call->request);', '*handle = call;')


def call_lines(handle):
    return f'struct call **const handle = &{place_text(handle)};', 'struct call *const call = new_call();'


def receive_lines(statement):
    """What is written of a receive, in a block of its own."""
    place = f'&{place_text(statement.place)};'
    source_and_tag = (f'const int source = {source_text(statement.source)};', f'const int tag = {tag_text(statement.tag)};')
    places = () if statement.status is None else tuple(f'&{place_text(place)};' for place in statement.status)
    if statement.handle is not None:
        return (*call_lines(statement.handle), f'call->place = {place}', *source_and_tag,
                *(f'call->{name} = {text}' for name, text in zip(('source_place', 'tag_place'), places)),
                'MPI_Irecv(&call->value, 1, MPI_INT64_T, source, tag, MPI_COMM_WORLD, &call->request);', '*handle = call;')
    received = 'MPI_Recv(place, 1, MPI_INT64_T, source, tag, MPI_COMM_WORLD, '
    if not places:
        return (f'int64_t *const place = {place}', *source_and_tag, f'{received}MPI_STATUS_IGNORE);')
    return (f'int64_t *const place = {place}', *source_and_tag,
            *(f'int64_t *const {name} = {text}' for name, text in zip(('source_place', 'tag_place'), places)),
            'MPI_Status status;', f'{received}&status);', '*source_place = status.MPI_SOURCE;', '*tag_place = status.MPI_TAG;')


def assign_lines(statement):
    return f'int64_t *const place = &{place_text(statement.place)};', f'*place = {expression_text(statement.value)};'


def waitany_lines(statement, sizes):
    name = name_text(statement.name)
    handles = f'&{name}' if sizes[statement.name].size is None else name
    return f'int64_t *const place = &{place_text(statement.place)};', f'*place = wait_for_any({handles}, {statement.count});'


def block_of(statement, names):
    """The lines of a statement that is written as a block; None of one that is a line."""
    if isinstance(statement, Send):
        return send_lines(statement)
    if isinstance(statement, Receive):
        return receive_lines(statement)
    if isinstance(statement, WaitAny):
        return waitany_lines(statement, names)
    return assign_lines(statement) if isinstance(statement, Assign) and statement.place.size is not None else None


def line_of(statement):
    """A statement that is written as one line."""
    if isinstance(statement, Assign):
        return f'{place_text(statement.place)} = {expression_text(statement.value)};'
    if isinstance(statement, Print):
        return f'print({expression_text(statement.value)});'
    if isinstance(statement, Assert):
        return f'must_hold({expression_text(statement.condition)});'
    if isinstance(statement, Wait):
        return f'wait_for(&{place_text(statement.handle)});'
    assert isinstance(statement, Barrier)
    return 'MPI_Barrier(MPI_COMM_WORLD);'


def statement_lines(statement, names):
    """The lines of a statement behind the one that tells its line."""
    if isinstance(statement, Branch):
        yield f'if ({expression_text(statement.condition)}) {{'
        yield from inner_lines(statement.then, names)
        if statement.otherwise:
            yield '} else {'
            yield from inner_lines(statement.otherwise, names)
        yield '}'
    elif block := block_of(statement, names):
        yield '{'
        yield from (INDENTATION + line for line in block)
        yield '}'
    else:
        yield line_of(statement)


def lines_of(statements, names):
    for statement in statements:
        if isinstance(statement, While):
            yield f'while (line = {statement.line}, {expression_text(statement.condition)}) {{'
            yield from inner_lines(statement.body, names)
            yield '}'
        else:
            yield f'line = {statement.line};'
            yield from statement_lines(statement, names)


def inner_lines(statements, names):
    yield from (INDENTATION + line for line in lines_of(statements, names))


# ---- the whole text

def declaration_text(name, declared):
    """The declaration of a name; an array without elements has one in C, which isn't used."""
    kind = 'int64_t ' if declared.kind == 'var' else 'struct call *'
    size = '' if declared.size is None else f'[{declared.size or 1}]'
    return f'{kind}{name_text(name)}{size};\n'


def c_text(script):
    """The text of a script in C, in bytes."""
    number = str(script.ranks)
    ranks = f'{number} process{"" if script.ranks == 1 else "es"}'

    def filled(text):
        return text.replace('{ranks}', ranks).replace('{number}', number)

    parts = [filled(HEAD)]
    if any(declared.kind == 'req' for declared in script.names.values()):
        parts.append(REQUESTS)
    if script.names:
        parts.append(f'\n{NAMES}\n')
        parts += [declaration_text(name, declared) for name, declared in script.names.items()]
    parts.append(filled(MAIN))
    parts += [f'{line}\n' for line in inner_lines(script.body, script.names)]
    parts.append(TAIL)
    return ''.join(parts).encode('ascii')
