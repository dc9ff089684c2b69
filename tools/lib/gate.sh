# shellcheck shell=bash
# Read by ./test, which sets `root`, `logs`, `passed` and `failed`: the gate, which proves a copy of all that stands here.

# What the gate proves: a copy of all that stands here, so that nobody writes a source while it is proved, and what was
# built here stays where it is. The edits that must fail lie beside the crates in it, so that rt ci doesn't try each of them
# by a check of its own.
tree=$root/out/gate
lay_copy() {
  local crate
  rm -rf "$tree" && mkdir -p "$tree/.git" "$tree/must-fail" || return
  # (what was unpacked without git is proved too)
  (set -o pipefail && tar -cf - --exclude=./out --exclude='./crates/*/out' --exclude=./.git . | tar -xf - -C "$tree") || return
  for crate in $(crates); do
    [[ ! -d $tree/crates/$crate/must-fail ]] || mv "$tree/crates/$crate/must-fail" "$tree/must-fail/$crate" || return
  done
}

# Keeps the programs and the tests that the gate has proved and built.
keep_proved() {
  local crate name file digest kit
  kit=$(rt version 2>/dev/null)
  for crate in $(crates); do
    for name in "$crate" "${crate}_tests"; do
      file=$tree/crates/$crate/out/$name
      [[ ! -x $file ]] || { digest=$(digest_of "$crate" "$tree") && keep_built "$name" "$file" "$digest"; }
    done
  done
}

# Makes the static libraries that aren't built yet, and keeps them: over what the gate has proved, where it ended well.
make_libraries() {
  local name kit digest where=$root rt=rt
  kit=$(rt version 2>/dev/null)
  [[ -z $gate_held ]] || { where=$tree rt=$root/tools/build/rt_over_copies; }
  while read -r name; do
    is_built "lib$name.a" "$name" && continue
    [[ -z $gate_held ]] || "$where/tools/build/stamp_libraries" "$name"
    digest=$(digest_of "$name" "$where") && (cd "$where/crates/$name" && "$rt" lib) &&
      keep_library "$name" "$where/crates/$name/out/lib$name.a" "$digest"
  done <tools/build/libraries >"$logs/libraries" 2>&1 || cat "$logs/libraries"
}

# The groups of processes, other than its own, that a process has begun.
groups_below() {
  cat /proc/[0-9]*/stat 2>/dev/null | sed -n 's/^[0-9]* (.*) [A-Za-z] \([0-9]*\) \([0-9]*\) .*/\1 \2/p' |
    awk -v top="$1" '$1 == top && $2 != top { print $2 }' | sort -u
}

# Ends the gate with all that it has begun: rt begins a proof that is killed once more, so they are killed until it has ended.
stop_gate() {
  # (the trap may come within a `read` to which IFS is nothing)
  local group IFS=$' \t\n'
  trap - INT TERM HUP
  echo "test: stopped; what was built before stays" >&2
  # (rt is to find a reader for what it has to say, so that it doesn't wait for one)
  cat <"$logs/stated" >/dev/null &
  kill -INT -- "-$gate" 2>/dev/null
  while [[ -n $(start_of "$gate") ]]; do
    for group in $(groups_below "$gate"); do
      kill -KILL -- "-$group" 2>/dev/null
    done
    sleep 0.2
  done
  wait "$gate" 2>/dev/null
  rm -rf out/at_work "$tree"
  exit "$1"
}

# How many proofs are made at once: as many as there are processors, or as have three gigabytes of free memory each. A proof
# here takes two and a half at most. rt itself reckons with twice that, and leaves processors idle.
proofs_at_once() {
  local free
  free=$(awk '/^MemAvailable:/ { print int($2 / 3000000) }' /proc/meminfo 2>/dev/null)
  [[ $free =~ ^[0-9]+$ ]] || free=1
  echo $((free < 1 ? 1 : free < processors ? free : processors))
}

gate() {
  local line status summary sampler ended=0 began=$SECONDS
  if ! take_turn ./test $$; then
    lose_gate "something else is at work here"
    return
  fi
  take_back_trees
  if ! lay_copy; then
    rm -rf out/at_work "$tree"
    lose_gate "no copy of the sources can be made"
    return
  fi
  mkfifo "$logs/stated"
  # (with `set -m` it is a group of its own, and heeds an interrupt)
  set -m
  (cd "$tree" && RT_JOBS=${RT_JOBS:-$(proofs_at_once)} exec rt ci) >"$logs/stated" 2>&1 </dev/null &
  gate=$!
  set +m
  trap 'stop_gate 130' INT
  trap 'stop_gate 143' TERM
  trap 'stop_gate 129' HUP
  echo "$gate $(start_of "$gate") ./test" >out/at_work
  tools/build/processor_times "$tree" "$logs/spent" &
  sampler=$!
  while IFS= read -r line || [[ -n $line ]]; do
    printf '%s\n' "$line"
    printf '%s %s\n' $((SECONDS - began)) "$line" >>"$logs/timed"
    if [[ $line =~ ^'rt: '([a-z0-9_]+)(' proved'$|' is kept: ') ]]; then
      ended=$((ended + 1))
      report_proved "${BASH_REMATCH[1]}" $((SECONDS - began)) "$ended"
    fi
  done <"$logs/stated"
  wait "$gate"
  status=$?
  trap - INT TERM HUP
  kill "$sampler"
  rm -f out/at_work
  summary=$(sed 's/^[0-9]* //' "$logs/timed" | grep -E '^[0-9]+ passed, [0-9]+ failed$' | tail -n 1)
  if [[ $summary =~ ^([0-9]+)\ passed,\ ([0-9]+)\ failed$ ]]; then
    passed=$((passed + BASH_REMATCH[1]))
    failed=$((failed + BASH_REMATCH[2]))
  fi
  tools/build/gate_entries <"$logs/timed" >"$logs/gate"
  if ((status != 0)) && ! grep -q '^FAILED ' "$logs/gate"; then
    echo "FAILED rt ci: status $status" | tee -a "$logs/gate"
    [[ $summary =~ ,\ [1-9] ]] || failed=$((failed + 1))
  fi
  report_failures gate
  keep_proved
  ((status != 0)) || gate_held=yes
}

# Counts a gate that can't be begun as a failure.
lose_gate() {
  echo "FAILED gate: $1" | tee "$logs/gate"
  failed=$((failed + 1))
}
