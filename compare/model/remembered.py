"""Has the explorer of the model remember the steps of a script, so that many checks of one script take each of them once.

What is remembered is what functions of worlds give, which depends on nothing else.
"""

from contextlib import ExitStack, contextmanager
from unittest import mock

from model import explorer, walks, wide
from model.debugger import Step

# So many steps of a script are remembered at most.
MOST_REMEMBERED = 12000
# What is remembered, of each module.
NAMES = ((explorer, 'read_script'), (explorer, 'first_world'), (explorer, 'next_world'), (walks, 'decision'), (walks, 'next_world'),
         (wide, 'wide_decision'))


def remembering(function):
    """A function that remembers what it has given for the very same objects."""
    known = {}

    def remembered(*given):
        key = tuple(one if isinstance(one, (bytes, str, Step)) else id(one) for one in given)
        if key in known:
            return known[key][1]
        found = function(*given)
        if len(known) < MOST_REMEMBERED:
            # (the objects are kept with it, so that no others get their identities)
            known[key] = given, found
        return found
    return remembered


@contextmanager
def steps_remembered():
    """Has the model take a step of a script once alone, whatever number of checks have it in common."""
    with ExitStack() as stack:
        for module, name in NAMES:
            stack.enter_context(mock.patch.object(module, name, remembering(getattr(module, name))))
        yield
