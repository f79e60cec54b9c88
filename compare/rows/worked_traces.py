"""Worked rows: scripts that are traced forward and back, and what each word is answered; worked out by hand from the rules.

compare/runs/worked.py compares them with the model, compare/runs/statuses.py with the built program. Those of requests, wildcards, barriers
and modes have all that `show` prints, byte for byte.
"""

from typing import NamedTuple, Optional

from model.debugger import BUFFERED, RENDEZVOUS


class Trace(NamedTuple):
    """A script, and the mode in which it is traced from a file (None: it stands before its words, in one input).

    Behind them stand the words, and what they are answered, a line between two `; `.
    """
    what: str
    script: str
    mode: Optional[str]
    words: str
    answers: str

    @property
    def file(self):
        """The script, as a file has it."""
        return self.script.encode()

    @property
    def asked(self):
        """The words, as they are read."""
        return as_lines(self.words)

    @property
    def input(self):
        """The script with its words behind it, as they are read."""
        return self.file + b'---\n' + self.asked

    @property
    def wanted(self):
        """What they are answered, as it is written."""
        return as_lines(self.answers)


class Row(NamedTuple):
    """A script in a mode; words, each with its answer; lines that `show` prints then, in this order, and a text that none has."""
    script: str
    mode: str
    words: str
    shown: str
    lacks: str = '?'


def as_lines(text):
    return text.replace('; ', '\n').encode() + b'\n'


# Loops and arrays.
LANGUAGE = (
    Trace('a loop that ends after five steps',
          'mpd 1; ranks 1; var i;\nwhile i < 2 { i = i + 1; }\n', None,
          'local 0; local 0; local 0; local 0; local 0; local 0; back; back; show',
          'ok 1; ok 2; ok 3; ok 4; ok 5; refused not-enabled; ok 4; ok 3; depth 3 of 5; rank 0 at 2; vars 1; handles; out; end'),
    Trace('assignments to a variable and to an array, at an index that the array holds',
          'mpd 1; ranks 1; var a[3]; var b;\na[a[0] + 1] = 5;\nb = a[1] * 2;\na[2] = b;\n', None,
          'local 0; local 0; local 0; show; back; back; show',
          'ok 1; ok 2; ok 3; depth 3 of 3; rank 0 ended; vars 0 5 10 10; handles; out; outcome done; end; ok 2; ok 1; '
          'depth 1 of 3; rank 0 at 3; vars 0 5 0 0; handles; out; end'))

# Requests.
REQUESTS = (
    Trace('a match that passes another',
          'mpd 1; ranks 2; var x; req r[3];\nif rank == 0 { isend r[0] 10 to 1 tag 1; isend r[1] 20 to 1 tag 2; isend '
          'r[2] 30 to 1 tag 1; } else { recv x from 0 tag 2; }\n', None,
          'local 0; local 0; local 0; local 0; local 1; local 1; match 0.1 1.0; show; back; show',
          'ok 1; ok 2; ok 3; ok 4; ok 5; ok 6; ok 7; depth 7 of 7; rank 0 ended; vars 0; handles 0 1 2; out; '
          'call 0.0 isend to 1 tag 1 value 10 free; call 0.1 isend to 1 tag 2 value 20 with 1.0; '
          'call 0.2 isend to 1 tag 1 value 30 free; rank 1 blocked 0; vars 0; handles - - -; out; '
          'call 1.0 recv from 0 tag 2 with 0.1 value 20; pending 0 to 1: 0 2; set pair 0.1 1.0; end; ok 6; depth 6 of 7; '
          'rank 0 ended; vars 0; handles 0 1 2; out; call 0.0 isend to 1 tag 1 value 10 free; '
          'call 0.1 isend to 1 tag 2 value 20 free; call 0.2 isend to 1 tag 1 value 30 free; rank 1 blocked 0; vars 0; '
          'handles - - -; out; call 1.0 recv from 0 tag 2 free; pending 0 to 1: 0 1 2; posted 1: 0; end'),
    Trace('a second send on one handle, taken back and again',
          'mpd 1; ranks 2; var x; var y; req r;\nif rank == 0 { isend r 1 to 1 tag 0; isend r 2 to 1 tag 0; wait r; } '
          'else { recv x from 0 tag 0; recv y from 0 tag 0; }\n', None,
          'local 0; local 0; local 0; back; show; local 0; show; local 0; local 1; local 1; match 0.0 1.0; wake 1; local 1; '
          'match 0.1 1.1; wake 0; wake 1; show',
          'ok 1; ok 2; ok 3; ok 2; depth 2 of 3; rank 0 at 2; vars 0 0; handles 0; out; '
          'call 0.0 isend to 1 tag 0 value 1 free; rank 1 at 2; vars 0 0; handles -; out; pending 0 to 1: 0; end; ok 3; '
          'depth 3 of 3; rank 0 at 2; vars 0 0; handles 1; out; call 0.0 isend to 1 tag 0 value 1 free; '
          'call 0.1 isend to 1 tag 0 value 2 free; rank 1 at 2; vars 0 0; handles -; out; pending 0 to 1: 0 1; end; ok 4; '
          'ok 5; ok 6; ok 7; ok 8; ok 9; ok 10; ok 11; ok 12; depth 12 of 12; rank 0 ended; vars 0 0; handles -; out; '
          'call 0.0 isend to 1 tag 0 value 1 with 1.0; call 0.1 isend to 1 tag 0 value 2 with 1.1; call 0.2 wait 1; '
          'rank 1 ended; vars 1 2; handles -; out; call 1.0 recv from 0 tag 0 with 0.0 value 1; '
          'call 1.1 recv from 0 tag 0 with 0.1 value 2; set pair 0.0 1.0; set woke 1.0; set pair 0.1 1.1; set woke 0.2; '
          'set woke 1.1; outcome done; end'),
    Trace('two receives in the other order of tags',
          'mpd 1; ranks 2; var x; var y; req r[2];\nif rank == 0 { isend r[0] 1 to 1 tag 1; isend r[1] 2 to 1 tag 2; } '
          'else { recv x from 0 tag 2; recv y from 0 tag 1; }\n', None,
          'local 0; local 0; local 0; local 1; local 1; match 0.0 1.0; match 0.1 1.0; wake 1; local 1; match 0.0 1.1; wake 1; '
          'show',
          'ok 1; ok 2; ok 3; ok 4; ok 5; refused not-enabled; ok 6; ok 7; ok 8; ok 9; ok 10; depth 10 of 10; rank 0 ended; '
          'vars 0 0; handles 0 1; out; call 0.0 isend to 1 tag 1 value 1 with 1.1; call 0.1 isend to 1 tag 2 value 2 with 1.0; '
          'rank 1 ended; vars 2 1; handles - -; out; call 1.0 recv from 0 tag 2 with 0.1 value 2; '
          'call 1.1 recv from 0 tag 1 with 0.0 value 1; set pair 0.1 1.0; set woke 1.0; set pair 0.0 1.1; set woke 1.1; '
          'outcome done; end'),
    Trace('a wait for a handle without a request',
          'mpd 1; ranks 1; var x; req r;\nwait r;\n', None,
          'local 0; wake 0; show; back; back; show',
          'ok 1; ok 2; depth 2 of 2; rank 0 ended; vars 0; handles -; out; call 0.0 wait none; set woke 0.0; outcome done; '
          'end; ok 1; ok 0; depth 0 of 2; rank 0 at 2; vars 0; handles -; out; end'),
    Trace('a receive that is written as its wait is woken, and back',
          'mpd 1; ranks 2; var x; req r;\nif rank == 0 { x = 5; irecv r x from 1 tag 3; wait r; print x; } else { send 7 '
          'to 0 tag 3; }\n', None,
          'local 0; local 0; local 0; local 0; wake 0; local 1; local 1; match 1.0 0.0; wake 0; local 0; show; back; back; show',
          'ok 1; ok 2; ok 3; ok 4; refused not-enabled; ok 5; ok 6; ok 7; ok 8; ok 9; depth 9 of 9; rank 0 ended; vars 7; '
          'handles -; out 7; call 0.0 irecv from 1 tag 3 with 1.0 value 7; call 0.1 wait 0; rank 1 blocked 0; vars 0; '
          'handles -; out; call 1.0 send to 0 tag 3 value 7 with 0.0; set pair 1.0 0.0; set woke 0.1; end; ok 8; ok 7; '
          'depth 7 of 9; rank 0 blocked 1; vars 5; handles 0; out; call 0.0 irecv from 1 tag 3 with 1.0 value 7; '
          'call 0.1 wait 0; rank 1 blocked 0; vars 0; handles -; out; call 1.0 send to 0 tag 3 value 7 with 0.0; '
          'set pair 1.0 0.0; end'),
    Trace('requests that are lost and left over',
          'mpd 1; ranks 1; var x; req r;\nisend r 1 to 0 tag 0;\nirecv r x from 0 tag 1;\n', None,
          'local 0; local 0; match 0.0 0.1; show',
          'ok 1; ok 2; refused not-enabled; depth 2 of 2; rank 0 ended; vars 0; handles 1; out; '
          'call 0.0 isend to 0 tag 0 value 1 free; call 0.1 irecv from 0 tag 1 free; pending 0 to 0: 0; posted 0: 1; '
          'outcome leftovers 0.0 0.1; end'),
    Trace('a rank that sends to itself, on one handle',
          'mpd 1; ranks 1; var x; req r;\nisend r 1 to 0 tag 0;\nirecv r x from 0 tag 0;\nwait r;\n', None,
          'local 0; local 0; local 0; wake 0; match 0.0 0.1; wake 0; show',
          'ok 1; ok 2; ok 3; refused not-enabled; ok 4; ok 5; depth 5 of 5; rank 0 ended; vars 1; handles -; out; '
          'call 0.0 isend to 0 tag 0 value 1 with 0.1; call 0.1 irecv from 0 tag 0 with 0.0 value 1; call 0.2 wait 1; '
          'set pair 0.0 0.1; set woke 0.2; outcome done; end'),
    Trace('two receives into one cell',
          'mpd 1; ranks 1; var x; req r[4];\nirecv r[0] x from 0 tag 1; irecv r[1] x from 0 tag 2; isend r[2] 5 to 0 tag '
          '1; isend r[3] 6 to 0 tag 2;\nwait r[1];\nprint x;\nwait r[0];\nprint x;\n', None,
          'local 0; local 0; local 0; local 0; match 0.2 0.0; match 0.3 0.1; local 0; wake 0; local 0; local 0; wake 0; '
          'local 0; show',
          'ok 1; ok 2; ok 3; ok 4; ok 5; ok 6; ok 7; ok 8; ok 9; ok 10; ok 11; ok 12; depth 12 of 12; rank 0 ended; vars 5; '
          'handles - - 2 3; out 6 5; call 0.0 irecv from 0 tag 1 with 0.2 value 5; '
          'call 0.1 irecv from 0 tag 2 with 0.3 value 6; call 0.2 isend to 0 tag 1 value 5 with 0.0; '
          'call 0.3 isend to 0 tag 2 value 6 with 0.1; call 0.4 wait 1; call 0.5 wait 0; set pair 0.2 0.0; set pair 0.3 0.1; '
          'set woke 0.4; set woke 0.5; outcome done; end'))

# Receives of any source and of any tag, statuses, and the list of the enabled steps.
WILDCARDS = (
    Trace('a race, won by one rank and then by the other',
          'mpd 1; ranks 3; var x; var y;\nif rank == 0 { recv x from any tag any; recv y from 1 tag any; } else { send '
          'rank * 10 to 0 tag rank; }\n', None,
          'local 0; local 0; local 1; local 1; local 2; local 2; enabled; match 2.0 0.0; wake 0; local 0; match 1.0 0.1; '
          'enabled; back; back; back; back; enabled; match 1.0 0.0; wake 0; local 0; wake 1; enabled; show',
          'ok 1; ok 2; ok 3; ok 4; ok 5; ok 6; enabled match 1.0 0.0, match 2.0 0.0; ok 7; ok 8; ok 9; ok 10; '
          'enabled wake 0, wake 1, wake 2; ok 9; ok 8; ok 7; ok 6; enabled match 1.0 0.0, match 2.0 0.0; ok 7; ok 8; ok 9; '
          'ok 10; enabled; depth 10 of 10; rank 0 blocked 1; vars 10 0; handles; out; '
          'call 0.0 recv from any tag any with 1.0 value 10; call 0.1 recv from 1 tag any free; rank 1 ended; vars 0 0; '
          'handles; out; call 1.0 send to 0 tag 1 value 10 with 0.0; rank 2 blocked 0; vars 0 0; handles; out; '
          'call 2.0 send to 0 tag 2 value 20 free; pending 2 to 0: 0; posted 0: 1; set pair 1.0 0.0; set woke 0.0; '
          'set woke 1.0; outcome deadlock 0.1 2.0; end'),
    Trace('a status in the cell of its value, and back',
          'mpd 1; ranks 2; var x; var y;\nif rank == 0 { x = 4; y = 5; recv x from any tag any status x y; } else { send '
          '6 to 0 tag 8; }\n', None,
          'local 0; local 0; local 0; local 0; local 1; local 1; match 1.0 0.0; wake 0; show; back; show',
          'ok 1; ok 2; ok 3; ok 4; ok 5; ok 6; ok 7; ok 8; depth 8 of 8; rank 0 ended; vars 1 8; handles; out; '
          'call 0.0 recv from any tag any with 1.0 value 6; rank 1 blocked 0; vars 0 0; handles; out; '
          'call 1.0 send to 0 tag 8 value 6 with 0.0; set pair 1.0 0.0; set woke 0.0; end; ok 7; depth 7 of 8; '
          'rank 0 blocked 0; vars 4 5; handles; out; call 0.0 recv from any tag any with 1.0 value 6; rank 1 blocked 0; '
          'vars 0 0; handles; out; call 1.0 send to 0 tag 8 value 6 with 0.0; set pair 1.0 0.0; end'),
    Trace('a receive from any source that holds a later one back',
          'mpd 1; ranks 2; var x; var y; req r[2];\nif rank == 0 { irecv r[0] x from any tag 2; irecv r[1] y from 1 tag '
          'any; wait r[1]; } else { send 5 to 0 tag 2; send 6 to 0 tag 9; }\n', None,
          'local 0; local 0; local 0; local 0; local 1; local 1; enabled; match 1.0 0.1; match 1.0 0.0; enabled; wake 1; '
          'local 1; enabled; match 1.1 0.1; wake 0; show',
          'ok 1; ok 2; ok 3; ok 4; ok 5; ok 6; enabled match 1.0 0.0; refused not-enabled; ok 7; enabled wake 1; ok 8; ok 9; '
          'enabled match 1.1 0.1; ok 10; ok 11; depth 11 of 11; rank 0 ended; vars 0 6; handles 0 -; out; '
          'call 0.0 irecv from any tag 2 with 1.0 value 5; call 0.1 irecv from 1 tag any with 1.1 value 6; call 0.2 wait 1; '
          'rank 1 blocked 1; vars 0 0; handles - -; out; call 1.0 send to 0 tag 2 value 5 with 0.0; '
          'call 1.1 send to 0 tag 9 value 6 with 0.1; set pair 1.0 0.0; set woke 1.0; set pair 1.1 0.1; set woke 0.2; end'),
    Trace('the word with blanks round it, and with more behind it',
          'mpd 1; ranks 1;\n', None,
          'enabled; enabled 0; \tenabled ; Enabled',
          'enabled; refused bad-word; enabled; refused bad-word'))

# Barriers.
BARRIERS = (
    Trace('two ranks leave a barrier, and are there again',
          'mpd 1; ranks 2;\nbarrier;\n', RENDEZVOUS,
          'local 0; release; local 1; release; show; back; show; wake 0; enabled',
          'ok 1; refused not-enabled; ok 2; ok 3; depth 3 of 3; rank 0 ended; vars; handles; out; call 0.0 barrier; '
          'rank 1 ended; vars; handles; out; call 1.0 barrier; set barrier; outcome done; end; ok 2; depth 2 of 3; '
          'rank 0 blocked 0; vars; handles; out; call 0.0 barrier; rank 1 blocked 0; vars; handles; out; call 1.0 barrier; '
          'end; refused not-enabled; enabled release'),
    Trace('a rank that has ended keeps the other at a barrier',
          'mpd 1; ranks 2;\nif rank == 1 { barrier; }\n', RENDEZVOUS,
          'local 0; local 1; local 1; release; enabled; show',
          'ok 1; ok 2; ok 3; refused not-enabled; enabled; depth 3 of 3; rank 0 ended; vars; handles; out; rank 1 blocked 0; '
          'vars; handles; out; call 1.0 barrier; outcome deadlock 1.0; end'),
    Trace('a rank that is trapped keeps the other at a barrier',
          'mpd 1; ranks 2;\nassert rank;\nbarrier;\n', RENDEZVOUS,
          'local 0; local 1; local 1; release; show',
          'ok 1; ok 2; ok 3; refused not-enabled; depth 3 of 3; rank 0 trapped assert; vars; handles; out; rank 1 blocked 0; '
          'vars; handles; out; call 1.0 barrier; outcome trap 0 assert; end'),
    Trace('a second barrier that one rank skips, and back to the first',
          'mpd 1; ranks 2;\nbarrier;\nif rank == 0 { barrier; }\n', BUFFERED,
          'local 0; local 1; release; local 0; local 0; local 1; release; show; back; back; back; back; enabled; release; '
          'local 0',
          'ok 1; ok 2; ok 3; ok 4; ok 5; ok 6; refused not-enabled; depth 6 of 6; rank 0 blocked 1; vars; handles; out; '
          'call 0.0 barrier; call 0.1 barrier; rank 1 ended; vars; handles; out; call 1.0 barrier; set barrier; '
          'outcome deadlock 0.1; end; ok 5; ok 4; ok 3; ok 2; enabled release; ok 3; ok 4'),
    Trace('the release stands before the matches, and pairs nothing',
          'mpd 1; ranks 2; var x; req r;\nif rank == 0 { isend r 1 to 1 tag 0; } else { irecv r x from 0 tag 0; }\n'
          'barrier;\n', RENDEZVOUS,
          'local 0; local 0; local 0; local 1; local 1; local 1; enabled; release; enabled; back; match 0.0 1.0; release; show',
          'ok 1; ok 2; ok 3; ok 4; ok 5; ok 6; enabled release, match 0.0 1.0; ok 7; enabled match 0.0 1.0; ok 6; ok 7; ok 8; '
          'depth 8 of 8; rank 0 ended; vars 0; handles 0; out; call 0.0 isend to 1 tag 0 value 1 with 1.0; call 0.1 barrier; '
          'rank 1 ended; vars 0; handles 0; out; call 1.0 irecv from 0 tag 0 with 0.0 value 1; call 1.1 barrier; '
          'set pair 0.0 1.0; set barrier; outcome done; end'),
    Trace('a barrier completes no send',
          'mpd 1; ranks 1; var x; req r;\nisend r 7 to 0 tag 0;\nbarrier;\nwait r;\nrecv x from 0 tag 0;\n', RENDEZVOUS,
          'local 0; local 0; match 0.0 0.1; release; local 0; wake 0; show',
          'ok 1; ok 2; refused not-enabled; ok 3; ok 4; refused not-enabled; depth 4 of 4; rank 0 blocked 2; vars 0; '
          'handles 0; out; call 0.0 isend to 0 tag 0 value 7 free; call 0.1 barrier; call 0.2 wait 0; pending 0 to 0: 0; '
          'set barrier; outcome deadlock 0.2; end'),
    Trace('a buffered send that is received behind a barrier',
          'mpd 1; ranks 1; var x; req r;\nisend r 7 to 0 tag 0;\nbarrier;\nwait r;\nrecv x from 0 tag 0;\n', BUFFERED,
          'local 0; local 0; release; local 0; wake 0; local 0; match 0.0 0.3; wake 0; show',
          'ok 1; ok 2; ok 3; ok 4; ok 5; ok 6; ok 7; ok 8; depth 8 of 8; rank 0 ended; vars 7; handles -; out; '
          'call 0.0 isend to 0 tag 0 value 7 with 0.3; call 0.1 barrier; call 0.2 wait 0; '
          'call 0.3 recv from 0 tag 0 with 0.0 value 7; set barrier; set woke 0.2; set pair 0.0 0.3; set woke 0.3; '
          'outcome done; end'))

# Sends of all kinds, in both modes.
SENDS = (
    Trace('sends head to head, unbuffered',
          'mpd 1; ranks 2; var x;\nsend rank to 1 - rank tag 5;\nrecv x from 1 - rank tag 5;\n', RENDEZVOUS,
          'local 0; local 1; wake 0; enabled; show',
          'ok 1; ok 2; refused not-enabled; enabled; depth 2 of 2; rank 0 blocked 0; vars 0; handles; out; '
          'call 0.0 send to 1 tag 5 value 0 free; rank 1 blocked 0; vars 0; handles; out; '
          'call 1.0 send to 0 tag 5 value 1 free; pending 0 to 1: 0; pending 1 to 0: 0; outcome deadlock 0.0 1.0; end'),
    Trace('sends head to head, buffered',
          'mpd 1; ranks 2; var x;\nsend rank to 1 - rank tag 5;\nrecv x from 1 - rank tag 5;\n', BUFFERED,
          'local 0; local 1; enabled; wake 0; wake 1; local 0; local 1; match 0.0 1.1; match 1.0 0.1; wake 0; wake 1; show',
          'ok 1; ok 2; enabled wake 0, wake 1; ok 3; ok 4; ok 5; ok 6; ok 7; ok 8; ok 9; ok 10; depth 10 of 10; rank 0 ended; '
          'vars 1; handles; out; call 0.0 send to 1 tag 5 value 0 with 1.1; call 0.1 recv from 1 tag 5 with 1.0 value 1; '
          'rank 1 ended; vars 0; handles; out; call 1.0 send to 0 tag 5 value 1 with 0.1; '
          'call 1.1 recv from 0 tag 5 with 0.0 value 0; set woke 0.0; set woke 1.0; set pair 0.0 1.1; set pair 1.0 0.1; '
          'set woke 0.1; set woke 1.1; outcome done; end'),
    Trace('a message that nobody receives, unbuffered',
          'mpd 1; ranks 1;\nsend 1 to 0 tag 0;\n', RENDEZVOUS,
          'local 0; wake 0; show',
          'ok 1; refused not-enabled; depth 1 of 1; rank 0 blocked 0; vars; handles; out; '
          'call 0.0 send to 0 tag 0 value 1 free; pending 0 to 0: 0; outcome deadlock 0.0; end'),
    Trace('a message that nobody receives, buffered',
          'mpd 1; ranks 1;\nsend 1 to 0 tag 0;\n', BUFFERED,
          'local 0; wake 0; show',
          'ok 1; ok 2; depth 2 of 2; rank 0 ended; vars; handles; out; call 0.0 send to 0 tag 0 value 1 free; '
          'pending 0 to 0: 0; set woke 0.0; outcome leftovers 0.0; end'),
    Trace('a synchronous message that nobody receives is not buffered',
          'mpd 1; ranks 1;\nssend 1 to 0 tag 0;\n', BUFFERED,
          'local 0; wake 0; show',
          'ok 1; refused not-enabled; depth 1 of 1; rank 0 blocked 0; vars; handles; out; '
          'call 0.0 ssend to 0 tag 0 value 1 free; pending 0 to 0: 0; outcome deadlock 0.0; end'),
    Trace("a buffered message of the second rank's that stays, and back",
          'mpd 1; ranks 2; if rank { } else { send 7 to 1 tag 0; }', BUFFERED,
          'local 0; local 0; wake 0; local 1; show; back',
          'ok 1; ok 2; ok 3; ok 4; depth 4 of 4; rank 0 ended; vars; handles; out; call 0.0 send to 1 tag 0 value 7 free; '
          'rank 1 ended; vars; handles; out; pending 0 to 1: 0; set woke 0.0; outcome leftovers 0.0; end; ok 3'),
    Trace("a wait for a buffered send is complete unpaired, and one for a receive isn't",
          'mpd 1; ranks 1; var x; req r;\nisend r 1 to 0 tag 0;\nwait r;\nirecv r x from 0 tag 1;\nwait r;\n', BUFFERED,
          'local 0; local 0; wake 0; local 0; local 0; wake 0; show',
          'ok 1; ok 2; ok 3; ok 4; ok 5; refused not-enabled; depth 5 of 5; rank 0 blocked 3; vars 0; handles 2; out; '
          'call 0.0 isend to 0 tag 0 value 1 free; call 0.1 wait 0; call 0.2 irecv from 0 tag 1 free; call 0.3 wait 2; '
          'pending 0 to 0: 0; posted 0: 2; set woke 0.1; outcome deadlock 0.3; end'),
    Trace('a wait for a synchronous send, unbuffered',
          'mpd 1; ranks 2; var x; req r;\nif rank == 0 { issend r 7 to 1 tag 0; wait r; } else { recv x from 0 tag '
          '0; }\n', RENDEZVOUS,
          'local 0; local 0; local 0; wake 0; local 1; local 1; match 0.0 1.0; wake 0; wake 1; show',
          'ok 1; ok 2; ok 3; refused not-enabled; ok 4; ok 5; ok 6; ok 7; ok 8; depth 8 of 8; rank 0 ended; vars 0; handles -; '
          'out; call 0.0 issend to 1 tag 0 value 7 with 1.0; call 0.1 wait 0; rank 1 ended; vars 7; handles -; out; '
          'call 1.0 recv from 0 tag 0 with 0.0 value 7; set pair 0.0 1.0; set woke 0.1; set woke 1.0; outcome done; end'),
    Trace('a wait for a synchronous send, buffered',
          'mpd 1; ranks 2; var x; req r;\nif rank == 0 { issend r 7 to 1 tag 0; wait r; } else { recv x from 0 tag 0; '
          '}\n', BUFFERED,
          'local 0; local 0; local 0; wake 0; local 1; local 1; match 0.0 1.0; wake 0; wake 1; show',
          'ok 1; ok 2; ok 3; refused not-enabled; ok 4; ok 5; ok 6; ok 7; ok 8; depth 8 of 8; rank 0 ended; vars 0; handles -; '
          'out; call 0.0 issend to 1 tag 0 value 7 with 1.0; call 0.1 wait 0; rank 1 ended; vars 7; handles -; out; '
          'call 1.0 recv from 0 tag 0 with 0.0 value 7; set pair 0.0 1.0; set woke 0.1; set woke 1.0; outcome done; end'),
    Trace('sends of all kinds are of one order',
          'mpd 1; ranks 2; var x; req r;\nif rank == 0 { isend r 1 to 1 tag 0; ssend 2 to 1 tag 0; } else { recv x '
          'from any tag any; }\n', BUFFERED,
          'local 0; local 0; local 0; local 1; local 1; match 0.1 1.0; enabled; wake 0',
          'ok 1; ok 2; ok 3; ok 4; ok 5; refused not-enabled; enabled match 0.0 1.0; refused not-enabled'))

TRACES = LANGUAGE + REQUESTS + WILDCARDS + BARRIERS + SENDS
