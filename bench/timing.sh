# shellcheck shell=bash
# Read by the scripts beside it and in bench/engines: how something is timed, and the schedule that several of them replay.

# The middle one of the numbers on standard input, the lower of two.
median() { sort -n | awk '{ number[NR] = $1 } END { print number[int((NR + 1) / 2)] }'; }

# Five runs of a command, in seconds, a number on each line. What it writes is thrown away, and so is its status: a chart may
# have races.
five_times() {
  local began ended
  for _ in 1 2 3 4 5; do
    began=$(date +%s%N)
    "$@" >/dev/null || true
    ended=$(date +%s%N)
    echo $((ended - began))
  done | awk '{ printf "%.3f\n", $1 / 1e9 }'
}

# Five turns of two programs with the same words: the seconds of both, a line for each turn.
five_turns() {
  local one=$1 other=$2 program began ended
  shift 2
  for _ in 1 2 3 4 5; do
    for program in "$one" "$other"; do
      began=$(date +%s%N)
      "$program" "$@" >/dev/null || true
      ended=$(date +%s%N)
      echo $((ended - began))
    done
  done | awk '{ printf "%.6f%s", $1 / 1e9, NR % 2 ? " " : "\n" }'
}

# The schedule in which each second of so many instances sends 4,096 messages to the one behind it, 64 at a time: all lines
# are full in the end, and no receive has a race.
pairs() {
  awk -v instances="$1" 'BEGIN {
    printf "instances"
    for (i = 1; i <= instances; i++) printf " n%d", i
    print "\ncapacity 64"
    for (turn = 0; turn < 64; turn++) for (i = 1; i < instances; i += 2) {
      for (m = 0; m < 64; m++) printf "n%d send n%d m\n", i, i + 1
      for (m = 0; m < 64; m++) printf "n%d receive n%d\n", i + 1, i
    }
  }'
}
