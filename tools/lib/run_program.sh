# shellcheck shell=bash
# Read by ./mscrun and its like, which set `root` to the repository's top.
. "$root/tools/lib/built.sh"
. "$root/tools/lib/front.sh"
. "$root/tools/lib/spent_turns.sh"
. "$root/tools/lib/words_behind.sh"
. "$root/tools/lib/reasons.sh"
. "$root/tools/lib/imports.sh"
. "$root/tools/lib/linked_kit.sh"
. "$root/tools/lib/kit.sh"
. "$root/tools/lib/about.sh"
. "$root/tools/lib/unproved.sh"
usages=$root/tools/usage
spent_turns=$root/tools/lib/spent_turns.awk
version=$root/VERSION

# Runs the program of a name with these words, proved where it is built, or as it was compiled before.
run_built_or_not() {
  local name=$1
  if is_built "$name"; then
    "$root/out/bin/$name" "${@:2}"
  elif is_built "$name.unproved" "$name"; then
    echo "$name: this run is unproved: ./build proves and builds the program" >&2
    run_kept "$@"
  else
    run_unproved "$@"
  fi
}

# Whether the program of a name answers at once: it is built, or was compiled before.
at_once() { is_built "$1" || is_built "$1.unproved" "$1"; }

# What is reported while a program is compiled goes to the terminal at once, and not line by line behind what the program says.
run_program() {
  local name=$1 terminal=
  [[ ! -t 2 || ${TERM-dumb} == dumb ]] || exec {terminal}>&2
  answer "$name" run_built_or_not "${@:2}"
}
