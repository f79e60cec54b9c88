! Heat in a rod: each rank has a part of it, and a cell of each neighbour.
program rod
  use mpi
  implicit none
  integer, parameter :: real8 = MPI_DOUBLE_PRECISION, world = MPI_COMM_WORLD
  integer :: rank, ranks, left, right, step, error, requests(2)
  real(8) :: u(0:5), total
  call MPI_Init(error)
  call MPI_Comm_rank(world, rank, error)
  call MPI_Comm_size(world, ranks, error)
  left = merge(MPI_PROC_NULL, rank - 1, rank == 0)
  right = merge(MPI_PROC_NULL, rank + 1, rank == ranks - 1)
  u = rank
  do step = 1, 2
    call MPI_Irecv(u(0), 1, real8, left, 1, world, requests(1), error)
    call MPI_Isend(u(4), 1, real8, right, 1, world, requests(2), error)
    call MPI_Waitall(2, requests, MPI_STATUSES_IGNORE, error)
    call MPI_Sendrecv(u(1), 1, real8, left, 2, u(5), 1, real8, right, 2, world, MPI_STATUS_IGNORE, error)
    u(1:4) = (u(0:3) + u(2:5)) / 2
  end do
  call MPI_Reduce(u(1), total, 1, real8, MPI_SUM, 0, world, error)
  call MPI_Finalize(error)
end program
