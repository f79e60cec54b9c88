"""Faults that are put into the text of a script in C on purpose: the runs of mpi.py must notice each, by a row of worked_mpi.py."""

from typing import NamedTuple


class Fault(NamedTuple):
    """A fault: the row that shows it, what stands in its text, and what stands there instead."""
    name: str
    row: str
    old: str
    new: str

    def change(self, text):
        """The text with the fault, which must be another."""
        changed = text.replace(self.old.encode(), self.new.encode())
        assert changed != text, self
        return changed


ANY, TAGS, WAIT, LATER, LOST = ('any source and any tag', 'tags tell messages apart', 'a wait brings the value', 'no value before the wait',
                                'a request that is lost')
OF_ANY = 'a wait for any'

FAULTS = (
    Fault('a receive of any source takes rank 0 alone', ANY, 'source = MPI_ANY_SOURCE', 'source = 0'),
    Fault('a receive of any tag takes tag 0 alone', ANY, 'tag = MPI_ANY_TAG', 'tag = 0'),
    Fault('source and tag of a status are turned', ANY, '*tag_place = status.MPI_TAG;',
          '*source_place = status.MPI_TAG; *tag_place = status.MPI_SOURCE;'),
    Fault('a status of a request is left out', 'the tag of a status stays', '*call->tag_place = status->MPI_TAG;', ''),
    Fault('the tags of receives are turned', TAGS, 'MPI_Recv(place, 1, MPI_INT64_T, source, tag,', 'MPI_Recv(place, 1, MPI_INT64_T, source, 1 - tag,'),
    Fault('the values of two sends are turned', 'messages of one tag keep their order', 'const int tag = as_tag(0);\n            MPI_Isend',
          'const int tag = as_tag(0);\n            call->value = 3 - call->value;\n            MPI_Isend'),
    Fault('a barrier is left out', 'a barrier that one rank skips', 'MPI_Barrier(MPI_COMM_WORLD);', ''),
    Fault('a wait is left out', WAIT, 'wait_for(&my_r);', ''),
    Fault('a wait writes nothing', WAIT, '*call->place = call->value;', ''),
    Fault('a request writes its value at once', LATER, 'MPI_Irecv(&call->value,', 'MPI_Irecv(call->place,'),
    Fault('a handle keeps its call', LATER, 'free(call);\n    *handle = NULL;', 'call->request = MPI_REQUEST_NULL; call->value += 1;'),
    Fault('a lost request is waited for', LOST, '*handle = call;', 'wait_for(handle); *handle = call;'),
    Fault('buffers of sends are one', 'sends whose handle is lost', 'struct call *const call = new_call();',
          'static struct call only; struct call *const call = &only; *call = *new_call();'),
    Fault('a wait for any tells no index', 'the index of a wait for any stays', '*place = wait_for_any(my_r, 2);',
          'wait_for_any(my_r, 2);'),
    Fault('a wait for any looks at one handle alone', OF_ANY, 'wait_for_any(my_r, 2)', 'wait_for_any(my_r, 1)'),
    Fault('a wait for any of none writes 0', OF_ANY, 'return -1;', 'return 0;'),
    Fault('a synchronous send is a standard one', 'a synchronous send that nobody receives', 'MPI_Ssend', 'MPI_Send'),
    Fault('a nonblocking synchronous send is a standard one', 'a wait for a synchronous send that nobody receives', 'MPI_Issend', 'MPI_Isend'),
    Fault('the right operand is evaluated first', 'the left operand is first', '#define ADD(left, right) (hold(left), held_add(right))',
          '#define ADD(left, right) (hold(right), held_add(left))'),
    Fault('so it is of a comparison', 'the right operand is second', '#define EQUAL(left, right) (hold(left), held_equal(right))',
          '#define EQUAL(left, right) (hold(right), held_equal(left))'),
    Fault('a difference is turned', 'arithmetic', '__builtin_sub_overflow(left_operand(), right,', '__builtin_sub_overflow(right, left_operand(),'),
    Fault('a remainder has the sign of the divisor', 'arithmetic', 'return left % right;', 'return left % right + (left % right < 0) * 2;'),
    Fault('at least is by four less', 'comparisons', 'return left_operand() >= right;', 'return left_operand() > right - 4;'),
    Fault('a comparison in place is another', 'comparisons', 'my_x <= 7', 'my_x < 7'),
    Fault('the index comes behind the value', 'the index comes before the value', 'int64_t *const place = &my_a[within(SUBTRACT(0, 1), 2)];',
          'int64_t *const place = my_a;'),
    Fault('a sum wraps around', 'the sum is too large', '__builtin_add_overflow(left_operand(), right, &result)',
          '__builtin_add_overflow(left_operand(), right, &result) && right > 1'),
    Fault('a product wraps around', 'the product is too small', '__builtin_mul_overflow(left_operand(), right, &result)',
          '__builtin_mul_overflow(left_operand(), right, &result) && right > 2'),
    Fault('the smallest number has a remainder', 'the smallest number', 'left == INT64_MIN && right == -1', 'left == INT64_MIN && right == 0'),
    Fault('the smallest number is negated', 'its negation', 'if (value == INT64_MIN) {', 'if (value == INT64_MAX) {'),
    Fault('the tag comes before the rank', 'the rank comes before the tag', 'const int to = as_rank(size);',
          'as_tag(32768); const int to = as_rank(size);'),
    Fault('a rank below 0 is one', 'a source that is none', 'if (value < 0 || value >= size) {', 'if (value >= size) {'),
    Fault('one tag less is allowed', 'a tag that is too large', 'value > 32767', 'value > 32766'),
    Fault('one tag more is allowed', 'a tag that is too large', 'value > 32767', 'value > 32768'),
    Fault('an index may be the size', 'a place of a status that is none', 'index >= elements', 'index > elements'),
    Fault('a trap has another line', 'an assertion', 'line = 4;', 'line = 3;'),
    Fault('an assertion is left out', 'an assertion', 'if (condition == 0) {', 'if (condition == 2) {'),
    Fault('one block is taken for the other', 'blocks', 'if (my_s) {', 'if (!my_s) {'),
    Fault('a loop is run once', 'blocks', 'while (line = 2, my_i < 3)', 'if (line = 2, my_i < 3)'),
)
