# shellcheck shell=bash
# Read by the scripts that time rounds; they set `folder` to a folder of theirs, `messages` to how many a round passes, and
# `command` to what runs rounds of a peer.
. "${BASH_SOURCE[0]%/*}/../timing.sh"

# Threads that wait for each other measure other work beside them, so they come ahead of it where the system lets them.
ahead=()
if chrt -f 10 true 2>/dev/null; then ahead=(chrt -f 10); fi

# The nanoseconds a message of one round in a new process: of one that is new to its memory, or by the median of three behind
# one in which the C library kept its memory.
time_of() {
  local memory=$1
  shift
  if [[ $memory == fresh ]]; then
    "${ahead[@]}" "${command[@]}" "$@" $messages 1
  else
    GLIBC_TUNABLES=glibc.malloc.trim_threshold=1000000000:glibc.malloc.mmap_threshold=1000000000 \
      "${ahead[@]}" "${command[@]}" "$@" $messages 4 | tail -n 3
  fi | awk '{ print $1 / $2 }' | median
}

# Counts something in a run on one thread, by the difference of two runs of unlike length: so much a message. The words are
# valgrind's, and behind them what stands before the number that it reports.
count_of() {
  local tool=$1 before=$2 many
  shift 2
  for many in 800 $messages; do
    # (the C library is to copy by words: valgrind counts each byte that the processor's own loop copies as an instruction)
    # shellcheck disable=SC2086
    GLIBC_TUNABLES=glibc.cpu.x86_rep_movsb_threshold=100000000 \
      valgrind --tool=$tool "${command[@]}" "$1" turns "$3" "$4" "$5" "$many" 1 2>"$folder/count"
    sed -n "s/.*$before\([0-9,]*\).*/\1/p" "$folder/count" | tr -d ,
  done | awk 'NF > 1 { messages[++runs] = $2 } NF == 1 { count[runs] = $1 }
    END { print (count[2] - count[1]) / (messages[2] - messages[1]) }'
}
