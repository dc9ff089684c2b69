# Reads the nanoseconds of rounds, a line each: MEMORY|LOAD|BOARD|RINGS|C, where the peers ran one after the other. C is
# empty where there is no ring in C. Prints a line for each memory and load, in the order in which they came: the medians
# of all three, and the quartiles of the board's ratios to C and to the rings. A ratio is that of one round.
BEGIN { FS = OFS = "|" }

# The place q (0 to 1) among the numbers of a group, between two of them in proportion.
function quantile(values, group, count, q,    i, j, value, sorted, place, below) {
  for (i = 1; i <= count; i++) {
    value = values[group, i]
    for (j = i - 1; j >= 1 && sorted[j] > value; j--) sorted[j + 1] = sorted[j]
    sorted[j + 1] = value
  }
  place = 1 + (count - 1) * q
  below = int(place)
  if (below >= count) return sorted[count]
  return sorted[below] + (place - below) * (sorted[below + 1] - sorted[below])
}

function quartiles(values, group, count) {
  return quantile(values, group, count, 0.25) OFS quantile(values, group, count, 0.5) OFS quantile(values, group, count, 0.75)
}

{
  group = $1 OFS $2
  if (!(group in rounds)) groups[++many] = group
  i = ++rounds[group]
  board[group, i] = $3
  rings[group, i] = $4
  to_rings[group, i] = $3 / $4
  if ($5 != "") {
    with_c = 1
    c[group, i] = $5
    to_c[group, i] = $3 / $5
  }
}

END {
  for (g = 1; g <= many; g++) {
    group = groups[g]
    n = rounds[group]
    print group, quantile(board, group, n, 0.5), quantile(rings, group, n, 0.5),
      (with_c ? quantile(c, group, n, 0.5) OFS quartiles(to_c, group, n) : OFS OFS OFS), quartiles(to_rings, group, n)
  }
}
