"""Pictures that were worked out by hand from docs/PICTURES.md: for pictures.py."""

from typing import NamedTuple, Optional

from model.debugger import RENDEZVOUS
from rows.examples import open_example


class PictureRow(NamedTuple):
    """A script, the choices of its run, or None for the first candidates, lines that its drawing has, each once or more, its text, where that
    was worked out, the mode, whether the run is one along the wide walk, how many steps it takes at most, whether the drawing is plain or large, and what
    no line of it has."""
    script: bytes
    choices: Optional[str]
    lines: tuple
    text: Optional[str] = None
    mode: str = RENDEZVOUS
    ends: bool = False
    fuel: int = 400
    look: str = ''
    without: tuple = ()


RACE = b'''mpd 1;
ranks 3;
var x;
if rank == 0 { recv x from any tag any; recv x from 1 tag any; }
else { send rank to 0 tag 0; }
'''
# Ranks 0, 1, 2 stand at x 132, 292, 452, and the list at 620. The three first calls have row 0 (y 80), the match row 1 (y 116), the second
# receive row 2 (y 152), and row 3, the end, is at 188. In the list the match has place 3 (y 100), after three calls. The brackets of the two
# receives of rank 0 are 8 and 12 at the left of its lane.
RACE_LINES = (
    '<svg xmlns="http://www.w3.org/2000/svg" class="mpd" version="1.1" width="1180" height="462" viewBox="0 0 1180 462">',
    '<title>3 ranks, rendezvous, 10 steps: deadlock 0.1 2.0</title>',
    '<text class="mpd-head" x="12" y="24">3 ranks, rendezvous, 10 steps: deadlock 0.1 2.0</text>',
    '<line class="mpd-lane" x1="452" y1="60" x2="452" y2="188"/>',
    '<text class="mpd-name" x="452" y="52">rank 2</text>',
    '<g><title>line 4, 0.0 recv from any tag any with 1.0 value 1</title>',
    '<path class="mpd-recv" d="M132 80m-5 0a5 5 0 1 0 10 0a5 5 0 1 0 -10 0z"/>',
    '<text class="mpd-right" x="144" y="84">4 recv</text>',
    '<text class="mpd-row" x="620" y="52">line 4, 0.0 recv from any tag any with 1.0 value 1</text>',
    '<path class="mpd-send" d="M292 80m-5 0a5 5 0 1 0 10 0a5 5 0 1 0 -10 0z"/>',
    '<path class="mpd-stub" d="M452 80l-12 16m-3 0a3 3 0 1 0 6 0a3 3 0 1 0 -6 0"/>',
    '<path class="mpd-posted" d="M127 80H124V116H127"/>',
    '<g><title>1.0 to 0.0: value 1 tag 0</title>',
    '<path class="mpd-arrow" d="M292 80L136 116"/>',
    '<text class="mpd-left" x="108" y="120">1 tag 0</text>',
    '<text class="mpd-row" x="620" y="100">1.0 to 0.0: value 1 tag 0</text>',
    '<line class="mpd-waiting" x1="132" y1="85" x2="132" y2="121"/>',
    '<path class="mpd-posted" d="M127 152H120V188H127"/>',
    '<path class="mpd-stub" d="M132 152l-26 0m-3 0a3 3 0 1 0 6 0a3 3 0 1 0 -6 0"/>',
    '<line class="mpd-waiting" x1="452" y1="85" x2="452" y2="193"/>',
    '<g><title>rank 0: blocked</title>',
    '<path class="mpd-blocked" d="M132 188m-3 -7h6l5 5v5l-5 5h-6l-5 -5v-5z"/>',
    '<g><title>rank 1: ended</title>',
    '<path class="mpd-ended" d="M292 188m-9 0h18"/>',
    '<text class="mpd-name" x="452" y="226">blocked</text>',
    '<text class="mpd-name" x="452" y="240">line 5</text>',
    '<text class="mpd-name" x="132" y="254">for rank 1</text>',
    '<path class="mpd-want" d="M144 260C144 296 280 296 280 262"/>',
    '<text class="mpd-name" x="452" y="254">for rank 0</text>',
    '<path class="mpd-want" d="M464 260C464 312 120 312 120 262"/>',
    '<g transform="translate(12 328)">')
# A plain drawing ends at the column, and 134 below row 3.
PLAIN_LINES = (
    '<svg xmlns="http://www.w3.org/2000/svg" class="mpd" version="1.1" width="620" height="322" viewBox="0 0 620 322">',
    '<rect class="mpd-paper" width="620" height="322"/>',
    '<text class="mpd-left" x="108" y="120">1 tag 0</text>',
    '<text class="mpd-name" x="452" y="254">for rank 0</text>')
# A large one is 8/5 of its box, and has larger texts.
LARGE_LINES = (
    '<svg xmlns="http://www.w3.org/2000/svg" class="mpd" version="1.1" width="992" height="515" viewBox="0 0 620 322">',
    '<style type="text/css">', '.mpd{font-family:sans-serif;font-size:15px}', '.mpd-head{font-size:17px}', '.mpd-number{font-size:17px}', '</style>',
    *PLAIN_LINES[1:])
NO_PLAIN = ('mpd-row" x', 'translate', 'a message, up to its match')
RACE_TEXT = '''0 1 2  line: call
R | |  4: 0.0 recv from any tag any
| S |  5: 1.0 send to 0 tag 0
| | S  5: 2.0 send to 0 tag 0 free
<-o |  1.0 to 0.0: 1
R | |  4: 0.1 recv from 1 tag any free
! E !  at the end
S send, R receive, W wait, A waitany, B barrier, P print, o-> match, == release
at the end: E ended, V can go on, ~ waits, ! blocked, X trapped
'''

MEET = b'''mpd 1; ranks 2; var x; req r;
irecv r x from any tag any;
isend r rank to rank tag 3;
barrier;
if rank == 1 { print 1 / (x - x); }
'''
# Of each rank the three calls have rows 0 to 2; the release has row 3 (y 188), and place 6 in the list (y 148). Steps: 3 of each rank, the
# release, `if` of each, the trap, and two matches. So below the release the match of rank 0 and the trap have row 4 (y 224), the match of rank 1
# has row 5 (y 260), and the end is at y 296. The trap has place 7 in the list (y 164); its label has 14 characters.
MEET_LINES = (
    '<title>2 ranks, rendezvous, 12 steps: trap 1 zero-divisor</title>',
    '<g><title>line 5, rank 1 is trapped: zero-divisor</title>',
    '<path class="mpd-trapped" d="M292 224m-5 -5l10 10m0 -10l-10 10"/>',
    '<text class="mpd-right" x="304" y="228">5 zero-divisor</text>',
    '<text class="mpd-row" x="620" y="164">line 5, rank 1 is trapped: zero-divisor</text>',
    '<path class="mpd-trapped" d="M292 296m-6 -6l12 12m0 -12l-12 12"/>',
    '<path class="mpd-arrow" d="M292 116C252 116 252 260 292 260"/>',
    '<path class="mpd-arrow" d="M132 116C92 116 92 224 132 224"/>',
    '<g><title>release: all ranks leave the barrier</title>',
    '<text class="mpd-row" x="620" y="148">release</text>',
    '<line class="mpd-bar" x1="118" y1="188" x2="306" y2="188"/>',
    '<text class="mpd-name" x="292" y="334">zero-divisor</text>',
    '<text class="mpd-name" x="292" y="348">line 5</text>')
# Rank 0 prints in rows 0 and 1 (y 80 and 116), at places 0 and 1 of the list, and its call stands in row 2; the assert of line 4 holds, and shows
# nothing. Rank 1 prints in row 0, beside that, at place 3 (y 100). The first label has 10 characters; the second value has 20, and is left to the
# list; that of rank 1 has 18 with its line and 10 without. The match has row 3 (y 188), and the end is at y 224.
PRINTS = b'''mpd 1; ranks 2; var x;
if rank == 0 {
  print 42; print -9223372036854775807;
  assert 1;
  send 7 to 1 tag 0;
} else { print 1234567890; recv x from 0 tag 0; }
'''
PRINTS_LINES = (
    '<g><title>line 3, rank 0 prints 42</title>',
    '<path class="mpd-print" d="M132 80m0 -5l5 5l-5 5l-5 -5z"/>',
    '<text class="mpd-right" x="144" y="84">3 print 42</text>',
    '<text class="mpd-row" x="620" y="52">line 3, rank 0 prints 42</text>',
    '<path class="mpd-print" d="M132 116m0 -5l5 5l-5 5l-5 -5z"/>',
    '<text class="mpd-right" x="144" y="120">..</text>',
    '<text class="mpd-row" x="620" y="68">line 3, rank 0 prints -9223372036854775807</text>',
    '<path class="mpd-print" d="M292 80m0 -5l5 5l-5 5l-5 -5z"/>',
    '<text class="mpd-right" x="304" y="84">1234567890</text>',
    '<text class="mpd-row" x="620" y="100">line 6, rank 1 prints 1234567890</text>',
    '<path class="mpd-arrow" d="M132 152L285 188"/>',
    '<path class="mpd-ended" d="M132 224m-9 0h18"/>')
PRINTS_TEXT = '''0 1  line: call
P |  3: rank 0 prints 42
P |  3: rank 0 prints -9223372036854775807
S |  5: 0.0 send to 1 tag 0
| P  6: rank 1 prints 1234567890
| R  6: 1.0 recv from 0 tag 0
o->  0.0 to 1.0: 7
E E  at the end
S send, R receive, W wait, A waitany, B barrier, P print, o-> match, == release
at the end: E ended, V can go on, ~ waits, ! blocked, X trapped
'''
# Six ranks wait in a ring, each in row 0; the end is at y 116, and the arrow of rank P goes down to y 116 + 72 + 12 + 8 P, and up to y 190 at 12
# before the lane of the next. Of six ranks the legend stands 140 below the end, of seven 8 lower.
RING = b'mpd 1; ranks 6; var x; recv x from (rank + 1) % size tag 0;'
RING_LINES = (
    '<path class="mpd-want" d="M144 188V200H280V190"/>',
    '<path class="mpd-want" d="M304 188V208H440V190"/>',
    '<path class="mpd-want" d="M944 188V240H120V190"/>',
    '<g transform="translate(12 256)">')
RING_OF_7 = RING.replace(b'6', b'7')
# The arrows of four ranks hang, that to a lower rank lower.
RING_OF_4 = RING.replace(b'6', b'4')
RING_OF_4_LINES = ('<path class="mpd-want" d="M144 188C144 224 280 224 280 190"/>', '<path class="mpd-want" d="M624 188C624 240 120 240 120 190"/>')
# Over the lane of rank 1 an arrow goes down beside its own lane (x 212 or 372), and between the rows (y 88 to 107); its tip is beside the lane.
FAR_LEFT = b'''mpd 1; ranks 3; var x;
if rank == 2 { send 4 to 0 tag 1; }
if rank == 0 { recv x from 2 tag 1; }
'''
FAR_RIGHT = b'''mpd 1; ranks 3; var x;
if rank == 0 { send 4 to 2 tag 1; }
if rank == 2 { recv x from 0 tag 1; }
'''
# Two pairs stand side by side: four calls in row 0 (y 80), two matches in row 1 (y 116), at places 4 and 5 of the list, and the end at 152.
PAIRS = b'''mpd 1; ranks 4; var x;
if rank % 2 == 0 { send rank to rank + 1 tag 0; }
else { recv x from rank - 1 tag 0; }
'''
PAIRS_LINES = (
    '<path class="mpd-arrow" d="M132 80L285 116"/>',
    '<path class="mpd-arrow" d="M452 80L605 116"/>',
    '<text class="mpd-left" x="428" y="84">2 send</text>',
    '<text class="mpd-row" x="772" y="132">2.0 to 3.0: value 2 tag 0</text>',
    '<path class="mpd-ended" d="M612 152m-9 0h18"/>')
# Buffered sends wait for nothing: both calls of each rank have rows 0 and 1, and both messages are taken in row 2 (y 152), side by side. Steps:
# four calls, two matches, and each rank goes on from both of its calls.
EXCHANGE = open_example('exchange.mpd')
EXCHANGE_LINES = (
    '<title>2 ranks, buffered, 10 steps: done</title>',
    '<path class="mpd-arrow" d="M132 80L285 152"/>',
    '<path class="mpd-arrow" d="M292 80L136 152"/>',
    '<text class="mpd-right" x="304" y="156">0 tag 5</text>',
    '<text class="mpd-left" x="108" y="156">1 tag 5</text>',
    '<path class="mpd-ended" d="M132 188m-9 0h18"/>')
# Rank 0 waits for each of its sends: the match is in row 1, the next send of it in row 2 (y 152), and the last match in row 5 (y 260). Of the
# labels of the matches one has 21 characters with its tag, one 16, and one has a value of 17.
VALUES = b'''mpd 1; ranks 2; var x;
if rank == 0 { send -2147483648 to 1 tag 32767; send 1234567890 to 1 tag 7; send 12345678901234567 to 1 tag 0; }
else { recv x from 0 tag any; recv x from 0 tag any; recv x from 0 tag any; }
'''
VALUES_LINES = (
    '<path class="mpd-arrow" d="M132 80L285 116"/>',
    '<text class="mpd-right" x="304" y="120">-2147483648</text>',
    '<text class="mpd-row" x="620" y="84">0.0 to 1.0: value -2147483648 tag 32767</text>',
    '<path class="mpd-arrow" d="M132 152L285 188"/>',
    '<text class="mpd-right" x="304" y="192">1234567890 tag 7</text>',
    '<path class="mpd-arrow" d="M132 224L285 260"/>',
    '<text class="mpd-right" x="304" y="264">..</text>')
# At the choice of rank 0 all ranks are blocked, and none has stopped: rank 0 has calls in rows 0 and 1, the others in row 0, and row 2, the
# end, is at y 152. Rank 0 waits in the receive of line 9.
STOLEN = open_example('stolen_message.mpd')
CHOICE_LINES = (
    '<title>3 ranks, rendezvous, 9 steps: can go on</title>',
    '<g><title>rank 0: waits</title>',
    '<path class="mpd-held" d="M132 152m-6 -7h12l-12 14h12z"/>',
    '<text class="mpd-name" x="132" y="190">waits</text>',
    '<text class="mpd-name" x="132" y="204">line 9</text>',
    '<text class="mpd-name" x="292" y="204">line 13</text>',
    '<text class="mpd-name" x="132" y="218">for rank 1</text>',
    '<g><title>1: 1.0 to 0.0: value 42 tag 7</title>',
    '<path class="mpd-candidate" d="M292 80C292 98 132 98 132 80"/>',
    '<text class="mpd-number" x="292" y="71">1</text>',
    '<path class="mpd-candidate" d="M452 80C452 98 132 98 132 80"/>',
    '<text class="mpd-number" x="452" y="71">2</text>')
# A step before rank 2 can go on, and before the pairs are matched nobody has to choose: there is no candidate.
BEFORE_LINES = ('<title>3 ranks, rendezvous, 8 steps: can go on</title>', '<g><title>rank 2: can go on</title>', '<text class="mpd-name" x="452" y="204">line 13</text>')
UNMATCHED_LINES = ('<title>4 ranks, rendezvous, 8 steps: can go on</title>', '<g><title>rank 1: waits</title>')
CHOICE_TEXT = '''0 1 2  line: call
R | |  8: 0.0 irecv from any tag any free
R | |  9: 0.1 recv from 1 tag 7 free
| S |  13: 1.0 send to 0 tag 7 free
| | S  13: 2.0 send to 0 tag 1 free
~ ~ ~  at the end
S send, R receive, W wait, A waitany, B barrier, P print, o-> match, == release
at the end: E ended, V can go on, ~ waits, ! blocked, X trapped
'''
# After one step rank 0 is at its receive, and the others at the `if`; no row is taken yet.
START_LINES = ('<g><title>rank 0: can go on</title>', '<path class="mpd-running" d="M132 80m-6 -5h12l-6 10z"/>', '<text class="mpd-name" x="132" y="132">line 4</text>')

# Rank 0 has calls in rows 0 to 2, its two messages are taken in rows 3 and 4, and the end is at y 260. Four steps of rank 0 and two of each
# other rank lead to the calls; then each message is taken, and its sender goes on: 12 steps. Both requests are complete.
ANY = b'''mpd 2; ranks 3; var x; var y; var w; req r[2];
if rank == 0 { irecv r[0] x from 1 tag 0; irecv r[1] y from 2 tag 0; waitany r to w; } else { send rank to 0 tag 0; }
'''
ANY_LINES = (
    '<title>3 ranks, rendezvous, 12 steps: can go on</title>',
    '<g><title>1: line 2, 0.0 irecv from 1 tag 0 with 1.0 value 1</title>',
    '<path class="mpd-candidate" d="M132 80C92 80 92 152 132 152"/>',
    '<text class="mpd-number" x="132" y="71">1</text>',
    '<g><title>2: line 2, 0.1 irecv from 2 tag 0 with 2.0 value 2</title>',
    '<path class="mpd-candidate" d="M132 116C92 116 92 152 132 152"/>',
    '<text class="mpd-number" x="132" y="107">2</text>',
    '<text class="mpd-name" x="132" y="326">for a request</text>')
# Two ranks print in row 2, after the release in row 1, and are at a second barrier in row 3; the end is at y 224: rank 2 isn't there, and has
# ended.
SKIPPED = open_example('skipped_barrier.mpd')
SKIPPED_LINES = (
    '<text class="mpd-right" x="304" y="156">8 print 1</text>',
    '<text class="mpd-name" x="132" y="290">for rank 2</text>',
    '<path class="mpd-want" d="M144 296C144 332 440 332 440 298"/>',
    '<text class="mpd-name" x="292" y="290">for rank 2</text>',
    '<path class="mpd-want" d="M304 296C304 332 440 332 440 298"/>')
# Of three ranks two aren't there; the end is at y 116.
ALONE = b'mpd 1; ranks 3; if rank == 0 { barrier; }'
ALONE_LINES = ('<title>3 ranks, rendezvous, 4 steps: deadlock 0.0</title>', '<text class="mpd-name" x="132" y="182">for all ranks</text>')

# Rank 0 sends with a slot, and rank 1 receives; then the second send comes before the match, or behind it (worked_ends.py).
FREED_SLOT = open_example('freed_slot.mpd')
LETTERS = '''S send, R receive, W wait, A waitany, B barrier, P print, o-> match, == release
at the end: E ended, V can go on, ~ waits, ! blocked, X trapped
'''
SEND_FIRST = f'''0 1  line: call
S |  7: 0.0 isend to 1 tag 0
| R  11: 1.0 recv from 0 tag 0
S |  8: 0.1 isend to 1 tag 1 free
W |  9: 0.2 wait 1
o->  0.0 to 1.0: 1
! E  at the end
{LETTERS}'''
MATCH_FIRST = f'''0 1  line: call
S |  7: 0.0 isend to 1 tag 0
| R  11: 1.0 recv from 0 tag 0
o->  0.0 to 1.0: 1
S |  8: 0.1 isend to 1 tag 1 free
W |  9: 0.2 wait 1
E E  at the end
{LETTERS}'''
# Along decisions all calls of rank 0 come first: in rows 0 to 2, so the end is at y 188. It waits for its second send, to rank 1.
ALL_FIRST_LINES = (
    '<title>2 ranks, slots:1, 8 steps: deadlock 0.2</title>',
    '<text class="mpd-name" x="132" y="254">for rank 1</text>',
    '<path class="mpd-want" d="M144 260C144 296 280 296 280 262"/>')
ALL_FIRST = f'''0 1  line: call
S |  7: 0.0 isend to 1 tag 0
S |  8: 0.1 isend to 1 tag 1 free
W |  9: 0.2 wait 1
| R  11: 1.0 recv from 0 tag 0
o->  0.0 to 1.0: 1
! E  at the end
{LETTERS}'''
# The second message is taken by the receive of any source before rank 0 goes on, by that request.
ORDER_DECIDES = open_example('order_decides.mpd')
OTHER_FIRST = f'''0 1 2  line: call
R | |  8: 0.0 irecv from 1 tag 0
R | |  9: 0.1 irecv from any tag 0
A | |  10: 0.2 waitany 0 2
| S |  13: 1.0 send to 0 tag 0
| | S  13: 2.0 send to 0 tag 0
<-o |  1.0 to 0.0: 1
<---o  2.0 to 0.1: 2
X | |  11: rank 0 is trapped: assert
X E E  at the end
{LETTERS}'''

ROWS = (
    PictureRow(RACE, None, PLAIN_LINES, look='plain', without=(*NO_PLAIN, '15px')), PictureRow(RACE, None, LARGE_LINES, look='large', without=NO_PLAIN),
    PictureRow(RACE, None, RACE_LINES, RACE_TEXT), PictureRow(RACE, '0', RACE_LINES, RACE_TEXT), PictureRow(RACE, '0', RACE_LINES, RACE_TEXT, ends=True),
    PictureRow(STOLEN, None, CHOICE_LINES, CHOICE_TEXT, fuel=9), PictureRow(RACE, None, START_LINES, fuel=1), PictureRow(PAIRS, None, PAIRS_LINES),
    PictureRow(EXCHANGE, None, EXCHANGE_LINES, mode='buffered'), PictureRow(VALUES, None, VALUES_LINES),
    PictureRow(FAR_LEFT, None, ('<path class="mpd-arrow" d="M452 80L372 88L212 107L136 116"/>',)),
    PictureRow(FAR_RIGHT, None, ('<path class="mpd-arrow" d="M132 80L212 88L372 107L445 116"/>',)),
    PictureRow(STOLEN, None, BEFORE_LINES, fuel=8), PictureRow(PAIRS, None, UNMATCHED_LINES, fuel=8),
    PictureRow(PRINTS, None, PRINTS_LINES, PRINTS_TEXT), PictureRow(RING, None, RING_LINES),
    PictureRow(RING_OF_4, None, RING_OF_4_LINES),
    PictureRow(RING_OF_7, None, ('<g transform="translate(12 264)">', '<path class="mpd-want" d="M1104 188V248H120V190"/>')),
    PictureRow(MEET, None, MEET_LINES), PictureRow(MEET, None, MEET_LINES, ends=True),
    *(PictureRow(FREED_SLOT, choices, ALL_FIRST_LINES, ALL_FIRST, 'slots:1') for choices in (None, '')),
    PictureRow(ANY, None, ANY_LINES, fuel=12), PictureRow(SKIPPED, None, SKIPPED_LINES),
    PictureRow(ALONE, None, ALONE_LINES, without=('class="mpd-want" d="M144',)),
    *(PictureRow(FREED_SLOT, choices, ('<title>2 ranks, slots:1, 8 steps: deadlock 0.2</title>',), SEND_FIRST, 'slots:1', True) for choices in (None, '0 0')),
    PictureRow(FREED_SLOT, '1', ('<title>2 ranks, slots:1, 9 steps: leftovers 0.1</title>',), MATCH_FIRST, 'slots:1', True),
    PictureRow(ORDER_DECIDES, '1 1', ('<title>3 ranks, rendezvous, 14 steps: trap 0 assert</title>',), OTHER_FIRST, ends=True))
