# shellcheck shell=bash
# Read beside front.sh, by what sets `spent_turns` to the awk program: how `answer` reports on a terminal for what the instances of
# a run on threads waited whose turns were spent.

# Whether what is run here is kept: a run on threads, where a terminal gets what its instances waited for.
is_kept() { [[ $1 == mscrun && ${2-} == threads && -t 2 ]] && command -v awk >/dev/null && { : >&1; } 2>/dev/null; }

# Runs the program as `runs` does, and keeps in `kept` what it writes to standard output, which then goes there.
runs_kept() {
  local status end
  # (behind what the program writes stand its status and the beginning of the last line that it says)
  kept=$(passing_on "$@"; printf '\n%s\n%s.' "$?" "${stated:0:200}")
  end=$kept
  ((${#kept} < 400)) || end=${kept: -400}
  stated=${end##*$'\n'} end=${end%$'\n'*}
  status=${end##*$'\n'}
  kept=${kept:0:${#kept}-${#stated}-${#status}-2}
  stated=${stated%.}
  [[ -z $kept ]] || (trap '' PIPE; printf '%s' "$kept") 2>/dev/null || { echo 'refused: F24 Write' >&2; return 2; }
  return "$status"
}

# The number behind --turns, without zeros before it.
turns_among() {
  while (($# > 0)); do
    case $1 in
      --turns) printf '%s' "$((10#${2-0}))" ;;
      --turns=*) printf '%s' "$((10#${1#*=}))" ;;
    esac
    shift
  done
}

# Reports on a terminal for what the instances waited whose turns were spent, by what the run on threads has written.
report_spent() {
  local output=$1 file='' before='' word
  shift
  [[ $'\n'$output == *$'\nspent '* ]] || return 0
  for word in "${@:2}"; do
    [[ -n $file || $word == -* || $before == --turns || ! -f $word ]] || file=$word
    before=$word
  done
  [[ -z $file ]] || { cat -- "$file" && printf '%s' "$output"; } | awk -v turns="$(turns_among "$@")" -f "$spent_turns"
}
