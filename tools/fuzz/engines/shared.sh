# shellcheck shell=bash
# Read by the scripts beside it and by bench/engines/ping_pong: `mpi` is openmpi or mpich, `room` a folder for what is made.
# Whatever they run has a low priority, and a rank that waits sleeps (pause.c), but where `pauses` is nothing.
set -u
root=$(cd "$(dirname "${BASH_SOURCE[0]}")/../../.." && pwd)
. "$root/bench/timing.sh"
mpi=${MPI:-openmpi}
room=$(mktemp -d)
trap 'rm -rf "$room"' EXIT
export OMPI_ALLOW_RUN_AS_ROOT=1 OMPI_ALLOW_RUN_AS_ROOT_CONFIRM=1

"$root/recorders/mpi/make" "$room" "mpicc.$mpi" || exit 1
pauses=$room/pause.so
cc -O2 -shared -fPIC -o "$pauses" "$root/tools/fuzz/engines/pause.c" || exit 1

# Runs a program on so many ranks, with these libraries before its own (a list with colons, or nothing). With a folder
# it is recorded into that.
run_ranks() {
  local ranks=$1 raw=$2 libraries=$3 yields=${pauses:+1}
  shift 3
  [[ -z $pauses ]] || libraries=${libraries:+$libraries:}$pauses
  if [[ -n $raw ]]; then
    rm -rf "$raw"
    mkdir -p "$raw"
    libraries=$room/libchart_recorder.so${libraries:+:$libraries}
  fi
  if [[ $mpi == openmpi ]]; then
    nice -n 5 timeout 300 mpiexec.openmpi --oversubscribe --mca btl self,vader --mca mpi_yield_when_idle "${yields:-0}" \
      -n "$ranks" ${raw:+-x "CHART_RECORDINGS=$raw"} ${libraries:+-x "LD_PRELOAD=$libraries"} "$@"
  else
    nice -n 5 timeout 300 mpiexec.mpich -n "$ranks" ${raw:+-genv CHART_RECORDINGS "$raw"} \
      ${libraries:+-genv LD_PRELOAD "$libraries"} "$@"
  fi
}
