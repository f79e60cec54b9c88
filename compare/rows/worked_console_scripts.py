"""Dialogues of the console that are worked rows (console_worked.py): what one is, the scripts of those that are no examples, and what several
of them are answered."""

from itertools import islice, product
from typing import NamedTuple, Optional

from model.console import Look, NamedRun, answers, begun
from model.debugger import RENDEZVOUS
from rows.examples import open_example


class Dialogue(NamedTuple):
    """What it is of, a script, what is spoken, from what is told first on, the mode, the text of a witness that lies ahead, how many steps are
    kept, how many a run may have that is tried, how many runs are looked at, and how many states are come to, where that is less than usual, and
    a run that lies ahead by its choices."""
    what: str
    script: str
    spoken: str
    mode: str = RENDEZVOUS
    witness: Optional[str] = None
    limit: Optional[int] = None
    fuel: Optional[int] = None
    runs: Optional[int] = None
    states: Optional[int] = None
    run: Optional[NamedRun] = None
    # What the file of the script has each time that it is read again, None where it can't be read.
    files: tuple = ()
    # What each file of words has, by its name.
    words: tuple = ()

    @property
    def is_usual(self):
        """Whether a program can be asked it."""
        return self.limit is None and self.fuel is None and self.runs is None and self.states is None

    @property
    def text(self):
        """The text of the script."""
        return open_example(self.script) if self.script.endswith('.mpd') else self.script.encode()

    @property
    def witness_text(self):
        """The text of the witness as bytes; None where there is none."""
        return None if self.witness is None else self.witness.encode()

    @property
    def words_by_name(self):
        """What each file of words has, as bytes."""
        return {name.encode(): words.encode('latin-1') for name, words in self.words}

    @property
    def told(self):
        """What is typed, each line with its answer; first what is told before any line is typed, as behind none."""
        found = [(None, [])]
        for line in self.spoken.strip('\n').split('\n'):
            if line.startswith('>'):
                found.append((line.removeprefix('>').removeprefix(' ').encode('latin-1'), []))
            else:
                found[-1][1].append(line)
        return [(typed, ''.join(f'{line}\n' for line in lines)) for typed, lines in found]

    @property
    def first(self):
        """What is told before any line is typed."""
        return self.told[0][1]

    @property
    def turns(self):
        """What is typed, each line with its answer."""
        return self.told[1:]

    @property
    def data(self):
        """The input."""
        return b''.join(typed + b'\n' for typed, _ in self.turns)

    def shown(self):
        """What the model writes where lines are shown."""
        console = begun(self.text, self.mode, self.witness_text, self.run)
        console.look, console.open_words = Look(is_echoing=True), self.words_by_name.get
        return answers(console, self.data)

    def wanted(self):
        """What is told first, and the answers."""
        return ''.join(answer for _, answer in self.told).encode()


def many_messages(count):
    """A script in which rank 0 receives so many messages of rank 1, each from any rank."""
    return f'''mpd 1; ranks 2; var x; var i;
if rank == 0 {{ while i < {count} {{ recv x from any tag 0; i = i + 1; }} }} else {{ while i < {count} {{ send 1 to 0 tag 0; i = i + 1; }} }}
'''


# Requests that are waited for, of which each is nearly the other's partner.
WAITS = '''mpd 1; ranks 2;
var x; req h; req r[2];
if rank == 0 {
  irecv h x from 1 tag 3;
  wait h;
} else {
  isend r[1] 7 to 0 tag 4;
  wait r[1];
}
'''
# A wait for any of two requests, the later of which has the first handle.
ANY_OF_TWO = '''mpd 2; ranks 3;
var x; var i; req r[3];
if rank == 0 {
  irecv r[2] x from 1 tag 1;
  issend r[0] 5 to 2 tag 0;
  waitany r to i;
}
if rank == 1 { recv x from 0 tag 0; }
'''
# A wait for any of two requests, whose handles stand behind another that holds a call.
BEHIND_ANOTHER = '''mpd 2; ranks 1;
var x; var i; req h; req r[2];
isend h 5 to 0 tag 9;
irecv r[0] x from 0 tag 1;
isend r[1] 7 to 0 tag 1;
waitany r to i;
'''
# A rank at a barrier, one at a send, and one that has ended.
AT_A_BARRIER = '''mpd 1; ranks 3;
if rank == 0 { barrier; }
if rank == 1 {
  ssend 1 to 2 tag 0;
}
'''
# A rank at a barrier, and two that come to one behind a message, but for a trap.
BEFORE_A_BARRIER = '''mpd 1; ranks 3; var x;
if rank == 0 { barrier; }
if rank == 1 {
  recv x from 2 tag 0;
  print 1 / x;
}
if rank == 2 {
  send 0 to 1 tag 0;
}
barrier;
'''
# Two races that have nothing to do with each other, of one sender each.
TWO_RACES = '''mpd 1; ranks 4; var x;
if rank < 2 {
  recv x from any tag 0;
} else {
  send 7 to rank - 2 tag 0;
}
'''
# A rank that goes on by its first request, while another message may still come.
BESIDE_ANY = '''mpd 2; ranks 2;
var x; var y; var i; req r[2]; req h;
if rank == 0 {
  irecv r[0] x from 1 tag 1;
  irecv h y from any tag 2;
  waitany r to i;
} else {
  isend r[0] 5 to 0 tag 1;
  isend r[1] 6 to 0 tag 2;
}
'''
# A rank that may go on by either of its requests, while another message may still come.
BESIDE_ANY_OF_TWO = '''mpd 2; ranks 2;
var x; var y; var i; req r[2]; req h;
if rank == 0 {
  irecv r[0] x from 1 tag 1;
  irecv r[1] x from 1 tag 3;
  irecv h y from any tag 2;
  waitany r to i;
} else {
  isend r[0] 5 to 0 tag 1;
  isend r[1] 6 to 0 tag 2;
  isend h 7 to 0 tag 3;
}
'''
# What nearly fits is free, and what fits is taken.
NEARLY = '''mpd 1; ranks 2; var x; req r;
if rank == 0 {
  send 5 to 1 tag 1;
  isend r 6 to 1 tag 2;
} else {
  recv x from 0 tag any;
  recv x from 0 tag 1;
}
'''
# A send fits a receive, and another one nearly does.
ONE_OF_TWO = '''mpd 1; ranks 3; var x;
if rank == 0 { recv x from 1 tag 7; } else { send rank to 0 tag 7; }
'''
# Names of all kinds, of which some have no cell, and variables behind requests.
CELLS = '''mpd 1; ranks 2;
var a[3]; var none[0]; req h; var b; req g[2]; req empty[0];
a[1] = -5;
isend g[1] a[1] to rank tag 9;
print b;
barrier;
'''
# An array of one cell, which changes twice.
ONE_CELL = '''mpd 1; ranks 1; var one[1];
one[0] = 4;
one[0] = 5;
'''
# A wait for no request, and one for a request that is complete, and stays free.
APART = '''mpd 1; ranks 1; req r; req s;

if rank == 0 {
  isend r 1 to 0 tag 0;
  wait s;
  wait r;
}
'''
# Seven messages that come in any order: of the first there are seven candidates, of the next one less.
SEVEN_SENDERS = '''mpd 1; ranks 8; var x; var i;
if rank == 0 {
  while i < 7 { recv x from any tag 0; i = i + 1; }
} else { send 1 to 0 tag 0; }
'''
# Three of them.
THREE_SENDERS = SEVEN_SENDERS.replace('ranks 8', 'ranks 4').replace('i < 7', 'i < 3')
# By the message that comes first the first run traps, and the second is a deadlock, or the other way round.
TRAP_THEN_HANG = '''mpd 1; ranks 3; var x;
if rank == 0 {
  recv x from any tag 0;
  print 1 / (x - 1);
  recv x from 2 tag 0;
} else { send rank to 0 tag 0; }
'''
HANG_THEN_TRAP = TRAP_THEN_HANG.replace('x - 1', 'x - 2').replace('from 2', 'from 1')
# The message of rank 1 must be the first of three.
THIRD_TRAPS = '''mpd 1; ranks 4; var x;
if rank == 0 { recv x from any tag 0; assert x == 1; recv x from 2 tag 0; recv x from 3 tag 0; }
else { send rank to 0 tag 0; }
'''
# A race that is a deadlock where rank 2 is the first, beside two pairs of ranks whose four messages come in any order, which changes nothing.
RARE = '''mpd 1; ranks 7; var x; var i;
if rank < 3 {
  if rank == 0 { recv x from any tag 0; recv x from 2 tag 0; } else { send rank to 0 tag 0; }
} else {
  while i < 2 {
    if rank < 5 { recv x from any tag 0; } else { send rank to rank - 2 tag 0; }
    i = i + 1;
  }
}
'''
# The same with a trap, and with five pairs: the ten messages come in 113,400 orders.
RARE_TRAP = RARE.replace('recv x from 2', 'print 1 / (2 - x); recv x from 2')
RARER = RARE.replace('ranks 7', 'ranks 13').replace('rank < 5', 'rank < 8').replace('rank - 2', 'rank - 5')
RARER_OF_THREE = RARE.replace('ranks 7', 'ranks 9').replace('rank < 5', 'rank < 6').replace('rank - 2', 'rank - 3')
# Nine messages to one rank, which come in 362,880 orders; each of them is an end of its own.
MANY_ENDS = SEVEN_SENDERS.replace('ranks 8', 'ranks 10').replace('i < 7', 'i < 9')
LOOP = 'mpd 1; ranks 1;\nwhile 1 { }\n'
# Line ends of both kinds, an empty line, a tab, and blanks in the last line, which has no end.
PRINTS = 'mpd 1; ranks 1; print -7;\r\n\nprint 2;\t# 2\n#\r\r\n '

# The choice of examples/stolen_message.mpd, its deadlock, and the way there.
STOLEN_CHOICE = '''stopped at a choice of rank 0, line 8; next N takes one:
    8    irecv r note from any tag any;
  1: rank 1 sends 42, tag 7 (line 13); match 1.0 0.0
  2: rank 2 sends 5, tag 1 (line 13); match 2.0 0.0'''
STOLEN_END = '''ended: deadlock: rank 0 at line 9, rank 2 at line 13
  rank 0 waits at line 9, 0.1 recv from 1 tag 7: for a send of rank 1 with tag 7
    the last that fits is taken: line 13, 1.0 send to 0 tag 7 value 42, by line
        8, 0.0 irecv from any tag any
  rank 2 waits at line 13, 2.0 send to 0 tag 1 value 5: for a receive of rank 0
        from rank 2 with tag 1
    the last that fits is taken: line 8, 0.0 irecv from any tag any, by line 13,
        1.0 send to 0 tag 7 value 42
  rank 0 waits for rank 1 (ended)
  rank 2 waits for rank 0'''
STOLEN_STEPS = '''local 0
local 0
local 0
local 1
local 1
local 1
local 2
local 2
local 2
match 1.0 0.0
wake 1'''
STOLEN_AHEAD = f'leaf 0 [0] deadlock 0.1 2.0\nwitness 0: {STOLEN_STEPS}\n'.replace('\nlocal', ', local').replace('\nmatch', ', match').replace(
    '\nwake', ', wake')

# The choice of BESIDE_ANY_OF_TWO.
ANY_CHOICE = '''stopped at a choice of rank 0, line 7; next N takes one:
    7    waitany r to i;
  1: request r[0], the receive of line 4 (value 5); wakeany 0 0
  2: request r[1], the receive of line 5 (value 7); wakeany 0 1'''
# The line that receives in THREE_SENDERS, its first choice, and the one behind the message of rank 2.
TAKES_THREE = '    3    while i < 3 { recv x from any tag 0; i = i + 1; }'
OF_THREE = f'''stopped at a choice of rank 0, line 3; next N takes one:
{TAKES_THREE}
  1: rank 1 sends 1, tag 0 (line 4); match 1.0 0.0
  2: rank 2 sends 1, tag 0 (line 4); match 2.0 0.0
  3: rank 3 sends 1, tag 0 (line 4); match 3.0 0.0'''
OF_TWO = f'''stopped at a choice of rank 0, line 3; next N takes one:
{TAKES_THREE}
  1: rank 1 sends 1, tag 0 (line 4); match 1.0 0.1
  2: rank 3 sends 1, tag 0 (line 4); match 3.0 0.1'''
# The choice of TWO_RACES.
BOTH_RACES = '''stopped at a choice; next N takes one:
  1: rank 2 sends 7, tag 0 (line 5), to rank 0 (line 3); match 2.0 0.0
  2: rank 3 sends 7, tag 0 (line 5), to rank 1 (line 3); match 3.0 1.0'''


def first_orders(count):
    """So many of the first runs of the seven messages, a line each: the last of the candidates moves first."""
    orders = islice(product(*(range(1, left + 1) for left in range(7, 0, -1))), count)
    return '\n'.join(f'{number} choices {" ".join(map(str, choices))}: done' for number, choices in enumerate(orders, 1))
