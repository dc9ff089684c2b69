# Makes the tables. With part=counts it reads a line for each load: LOAD, and of the board, the rings and C the instructions
# and the allocations a message. With part=ratios it reads what
# quartiles.awk prints. What is empty was left out, and stands as -.
BEGIN { FS = "|" }

function whole(text) { return text == "" ? "-" : sprintf("%.0f", text) }
function parts(text) { return text == "" ? "-" : sprintf("%.2f", text) }
function ratio(low, median, high) { return median == "" ? "-" : sprintf("%.2f (%.2f to %.2f)", median, low, high) }

part == "ratios" {
  if ($1 != memory) {
    memory = $1
    print "\n" memory ":\n"
    print "| load | board / C | board / rings | board, rings, C: ns a message |"
    print "|---|---|---|---|"
  }
  printf "| %s | %s | %s | %s, %s, %s |\n", $2, ratio($6, $7, $8), ratio($9, $10, $11), whole($3), whole($4), whole($5)
}

part == "counts" {
  if (FNR == 1) {
    print "Instructions and allocations a message, on one thread:\n"
    print "| load | instructions: board, rings, C | board / C | allocations: board, rings, C |"
    print "|---|---|---|---|"
  }
  printf "| %s | %s, %s, %s | %s | %s, %s, %s |\n", $1, whole($2), whole($4), whole($6), ($6 == "" ? "-" : sprintf("%.2f", $2 / $6)), parts($3), parts($5), parts($7)
}
