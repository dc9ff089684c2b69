! A farm: the master hands out pieces of work, and takes results. `farm any` takes whichever comes first, `farm named` one
! worker's after the other's.
program farm
  implicit none
  include 'mpif.h'
  integer, parameter :: work = 1, result = 2, rounds = 3
  integer :: error, rank, size, total
  character(len=5) :: way

  call get_command_argument(1, way)
  call mpi_init(error)
  call mpi_comm_rank(mpi_comm_world, rank, error)
  call mpi_comm_size(mpi_comm_world, size, error)
  if (rank == 0) then
    call master(way /= 'named')
  else
    call worker()
  end if
  call mpi_bcast(total, 1, mpi_integer, 0, mpi_comm_world, error)
  call mpi_finalize(error)

contains

  subroutine master(takes_any)
    logical, intent(in) :: takes_any
    integer :: round, from, source, piece
    total = 0
    do round = 1, rounds
      do from = 1, size - 1
        call mpi_send(round + from, 1, mpi_integer, from, work, mpi_comm_world, error)
      end do
      do from = 1, size - 1
        source = from
        if (takes_any) source = mpi_any_source
        call mpi_recv(piece, 1, mpi_integer, source, result, mpi_comm_world, mpi_status_ignore, error)
        total = total + piece
      end do
    end do
    print '(i0)', total
  end subroutine master

  subroutine worker()
    integer :: round, piece, request, status(mpi_status_size)
    do round = 1, rounds
      call mpi_irecv(piece, 1, mpi_integer, 0, work, mpi_comm_world, request, error)
      call mpi_wait(request, status, error)
      piece = piece * piece
      call mpi_send(piece, 1, mpi_integer, 0, result, mpi_comm_world, error)
    end do
  end subroutine worker

end program farm
