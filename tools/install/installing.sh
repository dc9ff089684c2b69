# shellcheck shell=bash
# Read by ./install and ./uninstall.

# Removes what lib/mscrun/installed lists in this place, but for what a file lists, and the folders that are empty then. Paths
# that lead out of the place are left alone.
remove_but() {
  local place=$1 kept=${2-/dev/null} file folder
  [[ -f $place/lib/mscrun/installed ]] || return 0
  while IFS= read -r file; do
    [[ -n $file && /$file/ != */../* ]] || continue
    rm -f "$place/$file"
    folder=$(dirname "$file")
    while [[ $folder != . ]] && rmdir "$place/$folder" 2>/dev/null; do folder=$(dirname "$folder"); done
  done < <(LC_ALL=C comm -23 <(LC_ALL=C sort -u "$place/lib/mscrun/installed") <(LC_ALL=C sort -u "$kept"))
}
