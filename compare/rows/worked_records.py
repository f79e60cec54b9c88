"""Records and what comes of them, worked out by hand from docs/FROM_A_RUN.md; for compare/runs/recorded.py.

A row of STATEMENTS is a record of a few calls, given by the lines of each rank without its first ones, and the
statements that docs/FROM_A_RUN.md has for them, by rank. A row of RUNS is a record that is stored, with how it was
worked out.
"""

from typing import NamedTuple, Optional, Tuple


class Written(NamedTuple):
    """Records by rank, and the statements of the script as asked, by rank; None in their place where it is refused."""
    name: str
    records: Tuple[str, ...]
    statements: Optional[Tuple[str, ...]]
    refused: str = ''


END = '> 9 Finalize @=a.c:9\n< 9\n'

STATEMENTS = (
    Written('blocking calls, by names', (
        '> 0 Send to=1 tag=3 bytes=8 comm=world @=a.c:1\n< 0\n> 1 Ssend to=1 tag=4 bytes=0 comm=world @=a.c:2\n< 1\n' + END,
        '> 0 Recv from=0 tag=3 room=8 comm=world @=a.c:3\n< 0 done=-:0:3:8\n> 1 Recv from=0 tag=4 room=8 comm=world @=a.c:4\n< 1 done=-:0:4:0\n' + END),
        ('send 8 to 1 tag 3;  #@ a.c:1 MPI_Send\nssend 0 to 1 tag 4;  #@ a.c:2 MPI_Ssend',
         'recv x from 0 tag 3;  #@ a.c:3 MPI_Recv\nrecv x from 0 tag 4;  #@ a.c:4 MPI_Recv')),
    Written('a wildcard is held to what it took, and a tag above 20,000 has another number', (
        '> 0 Bsend to=1 tag=70000 bytes=8 comm=world @=a.c:1\n< 0\n' + END,
        '> 0 Recv from=* tag=* room=8 comm=world @=a.c:3\n< 0 done=-:0:70000:8\n' + END),
        ('isend b 8 to 1 tag 20001;  #@ a.c:1 MPI_Bsend',
         'recv x from any tag any status s t;  #@ a.c:3 MPI_Recv\nassert s == 0 && t == 20001;  #@ a.c:3 MPI_Recv [left]')),
    Written('nobody is a partner', (
        '> 0 Send to=none tag=3 bytes=8 comm=world @=a.c:1\n< 0\n> 1 Recv from=none tag=3 room=8 comm=world @=a.c:2\n< 1 done=-\n' + END, END),
        ('', '')),
    Written('requests have the lowest handle that is free, and a wildcard is held where it is waited for', (
        '> 0 Isend to=1 tag=3 bytes=8 comm=world request=0 @=a.c:1\n< 0\n> 1 Issend to=1 tag=4 bytes=8 comm=world request=1 @=a.c:2\n< 1\n'
        '> 2 Wait requests=0 @=a.c:3\n< 2 done=0\n> 3 Isend to=1 tag=5 bytes=8 comm=world request=2 @=a.c:4\n< 3\n'
        '> 4 Waitall requests=1,2 @=a.c:5\n< 4 done=1 done=2\n' + END,
        '> 0 Irecv from=* tag=3 room=8 comm=world request=0 @=a.c:6\n< 0\n> 1 Waitany requests=0,- @=a.c:7\n< 1 done=0:0:3:8\n'
        '> 2 Recv from=0 tag=4 room=8 comm=world @=a.c:8\n< 2 done=-:0:4:8\n> 3 Recv from=0 tag=5 room=8 comm=world @=a.c:8\n< 3 done=-:0:5:8\n' + END),
        ('isend h[0] 8 to 1 tag 3;  #@ a.c:1 MPI_Isend\nissend h[1] 8 to 1 tag 4;  #@ a.c:2 MPI_Issend\nwait h[0];  #@ a.c:3 MPI_Wait\n'
         'isend h[0] 8 to 1 tag 5;  #@ a.c:4 MPI_Isend\nwait h[1];  #@ a.c:5 MPI_Waitall\nwait h[0];  #@ a.c:5 MPI_Waitall',
         'irecv h[0] y[0] from any tag 3 status u[0] v[0];  #@ a.c:6 MPI_Irecv\nwait h[0];  #@ a.c:7 MPI_Waitany [one of several]\n'
         'assert u[0] == 0;  #@ a.c:6 MPI_Irecv [left]\nrecv x from 0 tag 4;  #@ a.c:8 MPI_Recv\nrecv x from 0 tag 5;  #@ a.c:8 MPI_Recv')),
    Written('both halves of a Sendrecv, and of one with nobody the other half', (
        '> 0 Sendrecv to=1 send_tag=3 bytes=8 comm=world from=1 tag=4 room=8 comm=world @=a.c:1\n< 0 done=-:1:4:8\n' + END,
        '> 0 Sendrecv to=0 send_tag=4 bytes=8 comm=world from=none tag=4 room=8 comm=world @=a.c:2\n< 0 done=-\n'
        '> 1 Sendrecv_replace to=none send_tag=4 bytes=8 comm=world from=0 tag=3 room=8 comm=world @=a.c:3\n< 1 done=-:0:3:8\n' + END),
        ('irecv q x from 1 tag 4;  #@ a.c:1 MPI_Sendrecv\nsend 8 to 1 tag 3;  #@ a.c:1 MPI_Sendrecv\nwait q;  #@ a.c:1 MPI_Sendrecv',
         'send 8 to 0 tag 4;  #@ a.c:2 MPI_Sendrecv\nirecv q x from 0 tag 3;  #@ a.c:3 MPI_Sendrecv_replace\nwait q;  #@ a.c:3 MPI_Sendrecv_replace')),
    Written('a probe and the receive of what it found are one', (
        '> 0 Send to=1 tag=3 bytes=8 comm=world @=a.c:1\n< 0\n' + END,
        '> 0 Probe from=* tag=3 comm=world @=a.c:2\n< 0 done=-:0:3:8\n> 1 Recv from=0 tag=3 room=8 comm=world @=a.c:3\n< 1 done=-:0:3:8\n' + END),
        ('send 8 to 1 tag 3;  #@ a.c:1 MPI_Send',
         'recv x from any tag 3 status s t;  #@ a.c:2 MPI_Probe\nassert s == 0;  #@ a.c:2 MPI_Probe [left]')),
    Written('a probe before a receive of any is left out, and one that looks is marked', (
        '> 0 Send to=1 tag=3 bytes=8 comm=world @=a.c:1\n< 0\n> 1 Send to=1 tag=3 bytes=8 comm=world @=a.c:1\n< 1\n' + END,
        '> 0 Probe from=* tag=* comm=world @=a.c:2\n< 0 done=-:0:3:8\n> 1 Recv from=* tag=3 room=8 comm=world @=a.c:3\n< 1 done=-:0:3:8\n'
        '? 2 Iprobe @=a.c:4\n> 2 Iprobe from=0 tag=3 comm=world @=a.c:4\n< 2 done=-:0:3:8\n'
        '> 3 Recv from=0 tag=3 room=8 comm=world @=a.c:5\n< 3 done=-:0:3:8\n' + END),
        ('send 8 to 1 tag 3;  #@ a.c:1 MPI_Send\nsend 8 to 1 tag 3;  #@ a.c:1 MPI_Send',
         'recv x from any tag 3 status s t;  #@ a.c:3 MPI_Recv\nassert s == 0;  #@ a.c:3 MPI_Recv [left]\nrecv x from 0 tag 3;  #@ a.c:4 MPI_Iprobe [poll]')),
    Written('a receive that a message is too long for', (
        '> 0 Send to=1 tag=3 bytes=8 comm=world @=a.c:1\n< 0\n> 1 Send to=1 tag=3 bytes=16 comm=world @=a.c:2\n< 1\n' + END,
        '> 0 Recv from=0 tag=3 room=8 comm=world @=a.c:3\n< 0 done=-:0:3:8\n> 1 Recv from=0 tag=3 room=16 comm=world @=a.c:4\n< 1 done=-:0:3:16\n' + END),
        ('send 8 to 1 tag 3;  #@ a.c:1 MPI_Send\nsend 16 to 1 tag 3;  #@ a.c:2 MPI_Send',
         'recv x from 0 tag 3;  #@ a.c:3 MPI_Recv\nassert x <= 8;  #@ a.c:3 MPI_Recv [too long]\nrecv x from 0 tag 3;  #@ a.c:4 MPI_Recv')),
    Written('collectives: of the world a barrier, of others messages by their root or their lowest rank', (
        'comm world.0/0 0 1\n> 0 Bcast collective=1 root=0 comm=world @=a.c:1\n< 0\n> 1 Bcast collective=1 root=1 comm=world.0/0 @=a.c:2\n< 1\n'
        '> 2 Barrier collective=1 root=-1 comm=world.0/0 @=a.c:3\n< 2\n> 3 Barrier collective=1 root=-1 comm=self @=a.c:4\n< 3\n' + END,
        'comm world.0/0 0 1\n> 0 Bcast collective=1 root=0 comm=world @=a.c:1\n< 0\n> 1 Bcast collective=1 root=1 comm=world.0/0 @=a.c:2\n< 1\n'
        '> 2 Barrier collective=1 root=-1 comm=world.0/0 @=a.c:3\n< 2\n' + END),
        ('barrier;  #@ a.c:1 MPI_Bcast\nrecv z from 1 tag 20001;  #@ a.c:2 MPI_Bcast\n'
         'recv z from 1 tag 20002;  #@ a.c:3 MPI_Barrier\nisend b 0 to 1 tag 20002;  #@ a.c:3 MPI_Barrier',
         'barrier;  #@ a.c:1 MPI_Bcast\nisend b 0 to 0 tag 20001;  #@ a.c:2 MPI_Bcast\n'
         'isend b 0 to 0 tag 20002;  #@ a.c:3 MPI_Barrier\nrecv z from 0 tag 20002;  #@ a.c:3 MPI_Barrier')),
    Written('one that doesn\'t block: who has begun tells the others, who waits hears of them', (
        '> 0 Ibarrier collective=1 root=-1 comm=world request=0 @=a.c:1\n< 0\n> 1 Wait requests=0 @=a.c:2\n< 1 done=0\n' + END,
        '> 0 Ibarrier collective=1 root=-1 comm=world request=0 @=a.c:1\n< 0\n? 1 Test @=a.c:3\n> 1 Test requests=0 @=a.c:3\n< 1 done=0\n' + END),
        ('isend b 0 to 1 tag 20001;  #@ a.c:1 MPI_Ibarrier\nrecv z from 1 tag 20001;  #@ a.c:2 MPI_Wait',
         'isend b 0 to 0 tag 20001;  #@ a.c:1 MPI_Ibarrier\nrecv z from 0 tag 20001;  #@ a.c:3 MPI_Test [poll]')),
    Written('collectives that differ', (
        '> 0 Reduce collective=1 root=0 comm=world @=a.c:1\n', '> 0 Reduce collective=1 root=1 comm=world @=a.c:2\n'),
        ('assert 0;  #@ a.c:1 MPI_Reduce [another collective]\nassert 0;  #@ a.c:1 MPI_Reduce [stood here]',
         'assert 0;  #@ a.c:2 MPI_Reduce [another collective]\nassert 0;  #@ a.c:2 MPI_Reduce [stood here]')),
    Written('where ranks stood, computed or gave up', (
        '> 0 Recv from=1 tag=* room=8 comm=world @=a.c:1\n',
        '> 0 Request_free request=-1 @=a.c:2\n< 0\n',
        '> 0 Abort @=a.c:3\n'),
        ('recv x from 1 tag any status s t;  #@ a.c:1 MPI_Recv\nassert 0;  #@ a.c:1 MPI_Recv [stood here]',
         'assert 0;', 'assert 0;  #@ a.c:3 MPI_Abort [aborts]')),
    Written('a block that repeats becomes a loop', (
        ''.join(f'> {n} Send to=0 tag={1 + n % 2} bytes=8 comm=world @=a.c:{1 + n % 2}\n< {n}\n' for n in range(6)) + END,),
        ('i = 0;\nwhile i < 3 {\n  send 8 to 0 tag 1;  #@ a.c:1 MPI_Send\n  send 8 to 0 tag 2;  #@ a.c:2 MPI_Send\n  i = i + 1;\n}',)),
    Written('a call that names a rank which isn\'t there does nothing, and the script of its rank ends there if it didn\'t come back', (
        '> 0 Send to=1 tag=1 bytes=8 comm=world out=1:MPI_DOUBLE/8/1 @=a.c:1\n< 0\n'
        '> 1 Send to=absent:-1 tag=1 bytes=8 comm=world out=1:MPI_DOUBLE/8/1 @=a.c:2\nend exit 6 @=a.c:2\n',
        '> 0 Recv from=0 tag=1 room=8 comm=world in=1:MPI_DOUBLE/8/1 @=a.c:3\n< 0 done=-:0:1:8\n'
        '> 1 Isend to=0 tag=absent:-5 bytes=8 comm=world request=0 @=a.c:4\n< 1 error=MPI_ERR_TAG\n'
        '> 2 Recv from=none tag=1 room=8 comm=world @=a.c:5\n< 2 done=-\n> 3 Barrier collective=1 root=-1 comm=null @=a.c:6\n< 3 error=MPI_ERR_COMM\n' + END),
        ('send 8 to 1 tag 1;  #@ a.c:1 MPI_Send\nassert 0;  #@ a.c:2 MPI_Send [stood here]', 'recv x from 0 tag 1;  #@ a.c:3 MPI_Recv')),
    Written('a call that failed at once does nothing, and one that failed with a message took it', (
        '> 0 Send to=1 tag=1 bytes=8 comm=world @=a.c:1\n< 0\n> 1 Send to=1 tag=1 bytes=8 comm=world @=a.c:2\n< 1 error=MPI_ERR_COUNT\n' + END,
        '> 0 Recv from=0 tag=1 room=4 comm=world @=a.c:3\n< 0 done=-:0:1:8 error=MPI_ERR_TRUNCATE\n' + END),
        ('send 8 to 1 tag 1;  #@ a.c:1 MPI_Send', 'recv x from 0 tag 1;  #@ a.c:3 MPI_Recv\nassert x <= 4;  #@ a.c:3 MPI_Recv [too long]')),
    Written('a rank stands where it looked last, of all the places of one row of looks', (
        'comm world.0/0 0 1\nnamed world.0/0 a name\n? 0 Iprobe first=1 last=7 times=4 @=a.c:1\n? 0 Test first=2 last=6 times=3 @=a.c:2\n',
        'comm world.0/0 0 1\nfreed world.0/0\nchanged 0\n> 0 Wait requests=- @=a.c:3\n< 0 changed=1\n' + END), ('', '')),
    Written('a thread', ('! threads\n',), None, 'several threads call MPI: the order of their calls is one of many'),
    Written('a call that is not recorded', ('! Win_create @=a.c:7\n',), None, 'a.c:7 MPI_Win_create: this call is not recorded'),
    Written('a communicator that is not known', ('> 0 Send to=0 tag=1 bytes=0 comm=? @=a.c:1\n',), None,
            'a.c:1 MPI_Send: its communicator is not known'),
    Written('a line that is none', ('> 0\n',), None, 'line 4 of the record of rank 0 can\'t be read'),
    Written('an end of another call', ('> 0 Barrier collective=1 root=-1 comm=world @=a.c:1\n< 1\n',), None,
            'line 5 of the record of rank 0 can\'t be read'),
    Written('17 ranks', ('',) * 17, None, '17 ranks: a script has at most 16'),
)


# A receive that is posted for any, one that is not, and the wait for the first, which took the message of rank 2. If it
# takes that of rank 1, which it may, call 1 of rank 0 has none, and rank 0 never comes to the wait that would tell it:
# rank 0 waits in call 1, and the others have ended. That is one hang, and nothing else can come.
# The run that hung so, recorded: what the receive of call 0 took is not known then. It could take the message of rank 2;
# then call 1 has its message, and goes on, which is not recorded.
UNSEEN = ((
    '> 0 Irecv from=* tag=* room=8 comm=world request=0 @=a.c:1\n< 0\n> 1 Recv from=1 tag=7 room=8 comm=world @=a.c:2\n< 1 done=-:1:7:8\n'
    '> 2 Wait requests=0 @=a.c:3\n< 2 done=0:2:1:8\n' + END,
    '> 0 Send to=0 tag=7 bytes=8 comm=world @=a.c:4\n< 0\n' + END,
    '> 0 Send to=0 tag=1 bytes=8 comm=world @=a.c:5\n< 0\n' + END), (
    '> 0 Irecv from=* tag=* room=8 comm=world request=0 @=a.c:1\n< 0\n> 1 Recv from=1 tag=7 room=8 comm=world @=a.c:2\n',
    '> 0 Send to=0 tag=7 bytes=8 comm=world @=a.c:4\n< 0\n' + END,
    '> 0 Send to=0 tag=1 bytes=8 comm=world @=a.c:5\n< 0\n' + END))
UNSEEN_ENDS = [('a.c:1', 'a.c:4', ['0.1'])], [('a.c:1', 'a.c:5', None)]


# What is sent, what it is received as, and whether both are of the same types: of one sort and size, whatever language names them. What
# has no type fits all. Fewer may come than there is room for.
MESSAGES = (
    ('3:MPI_INT/4/1', '5:MPI_INTEGER/4/1', True),
    ('5:MPI_INT/4/1', '3:MPI_INT/4/1', True),
    ('1:MPI_INT/4/2,MPI_DOUBLE/8/1', '4:MPI_INT/4/1', False),
    ('2:MPI_INT/4/1,MPI_DOUBLE/8/1', '1:MPI_INT/4/1,MPI_DOUBLE/8/1,MPI_INT/4/1,MPI_DOUBLE/8/1', True),
    ('2:MPI_INT/4/1,MPI_DOUBLE/8/1', '1:MPI_INT/4/1,MPI_DOUBLE/8/2', False),
    ('1:MPI_INT/4/1', '1:MPI_FLOAT/4/1', False),
    ('1:MPI_INT/4/1', '1:MPI_UNSIGNED/4/1', False),
    ('1:MPI_LONG/8/1', '1:MPI_LONG_LONG_INT/8/1', True),
    ('1:MPI_INT/4/1', '1:MPI_LONG/8/1', False),
    ('1:MPI_DOUBLE_INT/12/1', '1:MPI_FLOAT_INT/8/1', False),
    ('8:MPI_BYTE/1/1', '2:MPI_INT/4/1', True),
    ('8:MPI_CHAR/1/1', '8:MPI_UNSIGNED_CHAR/1/1', True),
    ('2:MPI_DOUBLE/8/1', '1:MPI_C_DOUBLE_COMPLEX/16/1', False),
    ('0:MPI_INT/4/1', '1:MPI_FLOAT/4/1', True),
    ('1:MPI_REAL/4/1', '1:MPI_FLOAT/4/1', True),
)
# What ranks carry in one collective, and whether that is alike: the same types and amounts, or types where each has its own amount.
CARRIED = (
    (('3:MPI_INT/4/1', '3:MPI_INT/4/1'), True),
    (('3:MPI_INT/4/1', '1:MPI_INT/4/3'), True),
    (('3:MPI_INT/4/1', '4:MPI_INT/4/1'), False),
    (('3:MPI_INT/4/1', '4:MPI_INT/4/1', '*:MPI_INT/4/1'), True),
    (('3:MPI_INT/4/1', '*:MPI_FLOAT/4/1'), False),
    (('8:MPI_BYTE/1/1', '2:MPI_INT/4/1'), True),
    (('8:MPI_BYTE/1/1', '3:MPI_INT/4/1'), False),
    ((), True),
)


class Recorded(NamedTuple):
    """A record that is stored: how the script of its matches ends in both modes, what its receives could have taken in the
    place of what they took (receive, source and tag), which of these are too long, and the calls of collectives that
    differ; calls by rank and number in the record. `why` says how that was worked out."""
    name: str
    buffered: str
    rendezvous: str
    why: str
    others: Tuple[Tuple[str, int, int], ...] = ()
    too_long: Tuple[str, ...] = ()
    clash: Tuple[str, ...] = ()


RUNS = (
    Recorded('farm', 'deadlock 0.10 2.4', 'deadlock 0.9 2.3',
             'Rank 0 takes two results of rank 1, one of rank 2, and the goodbye of rank 1: then its call 10 waits for that goodbye. The second '
             'result of rank 2, its call 3, stays: it waits in call 4. If sends are not buffered it waits in call 3, and rank 0 in call 9, '
             'which stops rank 1 a second time, after that has ended. While rank 0 is on the record, calls '
             '2, 4, 6 and 8 could each take the result of the other worker, which has its task by then and has no result before that one left; the '
             'workers have one source, whose messages come in order.',
             (('0.2', 2, 2), ('0.4', 1, 2), ('0.6', 2, 2), ('0.8', 2, 2))),
    Recorded('token', 'done', 'done',
             'Rank 1 has messages of rank 0 alone, in order. Rank 2 has first the work of rank 0; the token of rank 1 may come before it. Then only '
             'the token is there, since rank 0 sends its third message after that has come back.',
             (('2.0', 1, 2),)),
    Recorded('ioserver', 'done', 'done',
             'Each send is received in turn, so no send needs a buffer. Headers and blocks of rank 1 are taken first. Each of calls 0 to 3 could take the header or the block of rank 2 instead, whose first '
             'two messages are there if they are buffered; then nothing of rank 1 is left, so calls 4 to 7 have no other. Calls 1 and 3 have room '
             'for 16 bytes, and a block of rank 2 has 32.',
             (('0.0', 2, 1), ('0.1', 2, 2), ('0.2', 2, 1), ('0.3', 2, 2)), ('0.1', '0.3')),
    Recorded('butterfly', 'done', 'deadlock 0.0 1.0 2.0 3.0', 'All ranks send first.'),
    Recorded('sweep', 'leftovers 2.1 2.3 2.5 2.7 2.9 2.11 2.13 2.15 2.17 2.19 2.21 2.23', 'deadlock 0.2 1.3 2.1',
             'Rank 2 receives and sends in turn, and nobody receives its 12 sends. If they are not buffered its first one, call 1, waits for ever. '
             'Rank 1 has then sent one plane, call 1, and waits with its second in call 3; it has taken two of rank 0, whose third is call 2.'),
    Recorded('halo', 'deadlock 0.6 1.4 2.2', 'deadlock 0.3 1.4 2.2',
             'Rank 1 waits in its call 4 for its first receive, of rank 0 with tag 1, and gets tag 2; so does rank 2 in call 2. Rank 0 has one receive, '
             'one send and a wait for each in a turn: in the second turn, which is calls 4 to 7, its receive has no message. If its first send is '
             'not buffered, the wait for that is the one that hangs, call 3.'),
    Recorded('solver', 'trap 0 assert 1 assert 2 assert', 'trap 0 assert 1 assert 2 assert',
             'The third collective is MPI_Allgather at rank 0, and MPI_Allreduce at the others.', clash=('0.2', '1.2', '2.2')),
    Recorded('steal', 'deadlock 1.0 2.0', 'deadlock 1.0 2.0',
             'Ranks 1 and 2 send to one another, synchronously, and rank 0 only looks.'),
)
