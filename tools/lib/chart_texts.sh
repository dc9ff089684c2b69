# shellcheck shell=bash
# Read by scripts that try charts' texts; they set `room` to a folder of their own, where `outcome` is what a schedule comes to.
# PROGRAMS is the folder of the programs that are tried, where these aren't the built ones.
mscrun=${PROGRAMS-out/bin}/mscrun
mscview=${PROGRAMS-out/bin}/mscview

# Puts the outcome's chart and its lines of races into files of their own.
take_apart() { sed '/^endmsc;$/q' "$room/outcome" >"$room/chart" && { grep '^race ' "$room/outcome" >"$room/races" || true; }; }

# Whether the chart is read: the search finds the races that were reported as they came, and it is written as it was.
is_read_back() {
  "$mscrun" check "$room/chart" | cmp -s - "$room/races" && "$mscview" tidy "$room/chart" | cmp -s - "$room/chart"
}

# Whether the chart, exported to this tool, is imported as it was.
comes_back_from() {
  local -a hosts=()
  # (a log says nothing of hosts without events)
  [[ $1 != shiviz ]] || hosts=(--hosts "$(sed -n 's/^instance \(.*\);$/\1/p' "$room/chart" | paste -sd ,)")
  "$mscview" export --to "$1" "$room/chart" >"$room/exported" 2>/dev/null &&
    "$mscview" import --from "$1" "${hosts[@]}" "$room/exported" 2>/dev/null | cmp -s - "$room/chart"
}
comes_back_from_all() { comes_back_from mscgen && comes_back_from plantuml && comes_back_from mermaid; }
