# Reports for each instance that a run on threads says is `spent` for what it gave up waiting: the first of its commands that it
# didn't do. It reads the schedule, and behind it what `mscrun threads` has printed of it; `turns` is the number of turns.
#
# An instance has done its commands up to some one of them. One that sends or receives has an event in the chart, or a note
# with its line. Of the others nothing may be seen: they need a turn, and no waiting. What is neither seen nor paid for by a
# turn wasn't reached: then the instance had turns for what it did alone.
/^msc run;$/ { printed = 1 }

!printed && NR == 1 { for (at = 2; at <= NF; at++) is_name[$at] = 1 }
!printed && NR > 2 && ($1 in is_name) {
  many[$1]++
  line[$1, many[$1]] = NR
  verb[$1, many[$1]] = $2
  partner[$1, many[$1]] = $3
}

printed && /^instance / { name = $2; sub(/;$/, "", name) }
printed && /^(in|out) / { events[name]++ }
printed && /^note / { noted[$2] = 1 }
printed && /^spent / { spent[++count] = $2 }

function is_waiting(verb) { return verb == "send" || verb == "receive" || verb == "any" }

function what(name, at) {
  if (verb[name, at] == "receive") return partner[name, at]
  return verb[name, at] == "any" ? "a message" : "room towards " partner[name, at]
}

function report(name,  at, left) {
  left = events[name]
  for (at = 1; at <= many[name]; at++) {
    if ((line[name, at]) in noted) continue
    if (is_waiting(verb[name, at]) && left-- > 0) continue
    if (at > turns) return name " had no turn left for line " line[name, at] " after " amount
    if (is_waiting(verb[name, at])) return name " gave up waiting for " what(name, at) " (line " line[name, at] ") after " amount
  }
  return name " had no turn left to stop after " amount
}

BEGIN {
  turns += 0
  amount = turns == 1 ? "1 turn" : turns " turns"
}

END {
  for (at = 1; at <= count; at++) print report(spent[at]) ": more turns may be enough"
}
