# shellcheck shell=bash
# Read by scripts that run the cases at the repository's top; they set `room` to a folder of their own. PROGRAMS is the folder
# of the programs that are tried, where these aren't the built ones.

# The program that a case is for: the one that its file `program` names, or mscrun.
program_of() {
  local name=mscrun
  [[ ! -e $1/program ]] || name=$(<"$1/program")
  echo "${PROGRAMS-out/bin}/$name"
}

# Unpacks the cases, or these alone, a folder for each, as $unpacked/cases/mscview/why/a_race.case. Without them the
# script ends.
unpack_cases() {
  unpacked=$room/unpacked
  tools/lib/read_cases "$unpacked" "$@" || { echo "FAILED cases/: not all of it can be read"; exit 1; }
}

# What a case is called that is unpacked, or a file of it: its place in the repository. Any other file is called as it is.
called_as() {
  if [[ $1 == */unpacked/cases/* ]]; then echo "cases/${1##*/unpacked/cases/}"; else echo "$1"; fi
}
