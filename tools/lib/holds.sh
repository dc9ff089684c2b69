# shellcheck shell=bash
# Read by scripts that try others, which set `room` to a folder of their own.

# Says of what was asked whether it holds: its name, and a command.
holds() {
  local name=$1
  shift
  if "$@"; then
    echo "held $name"
  else
    echo "FAILED $name"
    tail -n 5 "$room"/std*
  fi
}

# Runs these words here or there, and keeps status, stdout and stderr.
run() {
  "$@" >"$room/stdout" 2>"$room/stderr" </dev/null
  status=$?
}
