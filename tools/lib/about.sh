# shellcheck shell=bash
# Read by scripts that say how long something is likely to take.

# Says how long that is, in seconds, as one says what is only likely.
about() {
  if (($1 >= 120)); then
    echo "about $((($1 + 30) / 60)) min"
  else
    echo "about $((($1 + 9) / 10 * 10)) s"
  fi
}

clock() { printf '%d:%02d' $(($1 / 60)) $(($1 % 60)); }
