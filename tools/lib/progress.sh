# shellcheck shell=bash
# Read by ./test: how far it is, and how long the rest is likely to take. It sets `root`, `processors` and `tree`, and reads
# tools/lib/about.sh first. What each part took in this copy of the repository lies in out/test_times, and is what the next
# run goes by.

# What the parts took where they were measured, in seconds of a processor. Those that aren't here take a few minutes, and run
# beside others.
declare -A measured_part=([gate]=8820 [edits]=4860 [refusals]=300 [leaks]=120 [answers]=60 [scripts]=300 [clients]=300 [engines]=120)
declare -A expected_part=() source_size=()
here=
all_size=0
done_size=0

# The seconds that each of these parts is likely to take: what it took here, or what it took elsewhere.
plan_parts() {
  local part took
  for part; do
    took=$(awk -v part="$part" '$1 == part { print $2 }' "$root/out/test_times" 2>/dev/null)
    if [[ $took =~ ^[0-9]+$ ]]; then
      here=yes
    else
      took=${measured_part[$part]-120}
      [[ " scripts clients engines " == *" $part "* ]] || took=$((took / processors))
    fi
    expected_part[$part]=$took
  done
}

# Notes for the next run how long a part took here, if all of it was tried.
note_part() {
  local part=$1 took=$2
  unset "expected_part[$part]"
  [[ -z ${quick-} && ($part != gate || -n ${gate_held-}) ]] || return 0
  mkdir -p "$root/out" &&
    { awk -v part="$part" '$1 != part' "$root/out/test_times" 2>/dev/null; echo "$part $took"; } >"$root/out/test_times.new" &&
    mv "$root/out/test_times.new" "$root/out/test_times"
}

# How many seconds are left once so many seconds of a part are over: those of the parts one after the other, or those of the
# parts beside them, if that is longer.
seconds_left() {
  local running=$1 over=$2 part each row=0 beside_row=0
  for part in "${!expected_part[@]}"; do
    each=${expected_part[$part]}
    [[ $part != "$running" ]] || each=$((each > over ? each - over : 0))
    case $part in
      scripts | clients | engines) beside_row=$((beside_row + each)) ;;
      *) row=$((row + each)) ;;
    esac
  done
  ((row > beside_row)) || row=$beside_row
  echo $((row < 1 ? 1 : row))
}

# Says which part begins, and how long all that is to come is likely to take.
report_begin() {
  echo "$1: begins after $(clock "$SECONDS"); $(about "$(seconds_left "$1" 0)") left for all"
}

# Says how many crates of how many the gate has proved, and how long the rest is likely to take, by their sources: it takes
# longer with each line of them.
report_proved() {
  local name=$1 over=$2 ended=$3
  ((${#source_size[@]} > 0)) || weigh_sources
  done_size=$((done_size + ${source_size[$name]-0}))
  # (what the first crates took says little)
  ((10 * done_size < all_size)) || expected_part[gate]=$((over * all_size / done_size))
  echo "gate: $ended of ${#source_size[@]} crates after $(clock "$over"); $(about "$(seconds_left gate "$over")") left for all"
}

# Reads how large the sources of each crate are, with what each proof takes besides.
weigh_sources() {
  local name
  for name in $(crates); do
    source_size[$name]=$((1500 + $(find "$root/crates/$name/src" -type f -exec cat {} + 2>/dev/null | wc -c)))
    all_size=$((all_size + source_size[$name]))
  done
}

# Says each minute how many edits of how many were tried, by the lines of a file, and how long the rest is likely to take. It
# goes on until it is ended.
report_edits() {
  local file=$1 written all tried over began=$SECONDS
  written=$(find "$root"/crates/*/must-fail -name '*.edit' | wc -l)
  while sleep 60 >/dev/null 2>&1; do
    tried=$(grep -cE '^(held|FAILED|left) ' "$file")
    all=$((written - $(awk '/^rests / { edits += $3 } END { print edits + 0 }' "$file")))
    over=$((SECONDS - began))
    ((tried == 0 || 10 * tried < all)) || expected_part[edits]=$((over * all / tried))
    echo "edits: $tried of $all after $(clock "$over"); $(about "$(seconds_left edits "$over")") left for all"
  done
}
