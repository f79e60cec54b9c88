"""What pages of recorded runs must tell of a mistake, with the line of the program, worked out by hand; for compare/runs/recorded_pages.py."""

from typing import NamedTuple, Tuple


class Shown(NamedTuple):
    """A program of compare/recorded/programs, how it is run, and what the page tells of its mistake. It is run under any library, or under
    one alone, since that one gives numbers which name nobody another meaning. Its name is the program's, if no other is named. One that isn't
    steady may have another page in another run, and is stored alone."""
    name: str
    ranks: int
    told: Tuple[str, ...]
    words: Tuple[str, ...] = ()
    library: str = ''
    program: str = ''
    patience: float = 1.0
    is_steady: bool = True


PAGES = (
    # Rows are sent on the communicator of columns, whose second rank is two further on: ranks 1 and 3 wait for the first of their row.
    Shown('rowcol', 4, ('rank 1 waits at rowcol.c:23 MPI_Recv, recv from 0 tag 1 on communicator rows: '
                        'for a send of rank 0 with tag 1 on communicator rows',
                        'left over: rowcol.c:20 MPI_Send, send to 2 tag 1 of 4 bytes on communicator cols by rank 0')),
    # The rank below rank 0 is -1, which Open MPI refuses; to MPICH it is MPI_PROC_NULL. Or it is 3 of ranks 0 to 2, which both refuse.
    Shown('ring', 3, ('ABSENT    ring.c:21 MPI_Send of rank 0 names rank -1: MPI_COMM_WORLD has ranks 0 to 2',), library='openmpi'),
    Shown('ring_nobody', 3, ('rank 2 waits at ring.c:22 MPI_Wait, for its request', 'for a send of rank 0 with tag 1',
                             'ring.c:21 MPI_Send of rank 0 sends to MPI_PROC_NULL, with tag 1'), library='mpich', program='ring'),
    Shown('ring_above', 3, ('ABSENT    ring.c:21 MPI_Send of rank 0 names rank 3: MPI_COMM_WORLD has ranks 0 to 2',), ('-DABOVE',), program='ring'),
    # Rank 0 looks for an end that has another tag, for ever.
    Shown('poll', 3, ('which only looks, and found nothing', 'LEFT      nobody receives poll.c:42 MPI_Send of rank 1 to rank 0 (tag 2)',
                      'OPEN      no message comes for poll.c:19 MPI_Irecv of rank 0'), patience=0.3),
    # The first of two sends loses its request to the second.
    Shown('lost', 3, ('REQUEST   lost.c:20 MPI_Isend of rank 0: its request is never waited for, nor freed',)),
    # The others send two integers, where rank 0 takes an integer and a weight, twice.
    Shown('kinds', 3, ('TYPES     kinds.c:40 MPI_Send sends 2 MPI_INT, which kinds.c:32 MPI_Recv takes as (1 MPI_INT, 1 MPI_FLOAT), 2 times',)),
    Shown('extremes', 3, ('ranks 0, 1 at extremes.c:16 MPI_Reduce: MPI_MAX', 'rank 2 at extremes.c:16 MPI_Reduce: MPI_MIN',
                          'rank 0 at extremes.c:18 MPI_Bcast: 1 MPI_LONG', 'ranks 1, 2 at extremes.c:20 MPI_Bcast: 1 MPI_DOUBLE')),
    Shown('teams', 3, ('COMM      communicator team of teams.c:15 MPI_Comm_split is never freed, by ranks 0 to 2',)),
    Shown('finish', 3, ('FINALIZE  rank 2 ends without MPI_Finalize, after finish.c:17 MPI_Barrier',)),
    # Each of three ranks changes its last cell between two waits, in each of three turns.
    Shown('wave', 3, ('BUFFER    wave.c:18 MPI_Isend of ranks 0 to 2: what it still sends is changed between wave.c:23 MPI_Wait and '
                      'wave.c:25 MPI_Wait, 9 times',)),
    # Those of worked_records.py, each by its word. A hang is opened in the mode in which it was found, which is another for SENDS.
    Shown('farm', 3, ('HANG      it hangs, whatever is buffered:', 'left over: farm.c:44 MPI_Send, send to 0 tag 2 of 4 bytes by rank 2',
                      'same.mpd --mode buffered'), is_steady=False),
    Shown('butterfly', 4, ('SENDS     it hangs where sends are not buffered:', '(mode slots:2)', 'same.mpd --mode rendezvous')),
    Shown('halo', 3, ('HANG      it hangs, whatever is buffered:', 'halo.c:23 MPI_Irecv, irecv from 0 tag 1: for a send of rank 0 with tag 1', ': another tag')),
    Shown('solver', 3, ('DIFFER    collectives differ at one turn on MPI_COMM_WORLD:',)),
    Shown('sweep', 3, ('LEFT      nobody receives sweep.c:',)),
    # Rank 1 ends by itself before MPI_Init, and the others wait for it there, or are ended.
    Shown('settings', 3, ('rank 1 left no record: it ended before MPI_Init, by exit 3 at settings.c:12',), patience=0.3),
    Shown('table', 3, ('rank 1 ended by SIGSEGV at table.c:10, after table.c:22 MPI_Bcast',)),
)
