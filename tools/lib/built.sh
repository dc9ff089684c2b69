# shellcheck shell=bash
# Read by the scripts that build programs or run what is built; they set `root` to the repository's top.
#
# A program that was proved lies in out/bin, where no gate sets it aside, and beside it in NAME.sources the digest of what
# its proof has read: of its crate and of each crate below the files in src/, specs/ and proofs/, by their names and
# contents, and the line of crates.txt; and HANDLES. A program is built where that is the digest of the sources as they
# stand, whatever their times. So it has to be the digest of what was proved, and of no later edit: ./build takes it of the
# copies that it proves, which nobody else writes, and the gate keeps a program only if none of its sources was touched
# from before the gate began until it had ended.
#
# Taking the digest reads some megabytes. So NAME.seen keeps how the sources stood when they were last found to have that
# digest: of each file and folder its name, its place on the disk, its size, and the time of its last change, which no
# program can set. While all of this is the same, nothing was written. (What was changed in the two seconds before may be
# changed once more at what the clock takes for the same time: then nothing is kept.)

# The crates that a crate stands on, and itself, a name on each line; with the word `lines` their lines of crates.txt.
crates_below() {
  awk -v wanted="$1" -v reports="${2-names}" '
    { sub(/#.*/, "") }
    at = index($0, ":") {
      split(substr($0, 1, at - 1), head, " ")
      low[head[1]] = substr($0, at + 1)
      $1 = $1
      line[head[1]] = $0
    }
    function list(name,  words, many, at) {
      if (name in listed || !(name in low)) return
      listed[name] = 1
      many = split(low[name], words, " ")
      for (at = 1; at <= many; at++) list(words[at])
      print reports == "lines" ? line[name] : name
    }
    END { list(wanted) }' crates.txt | LC_ALL=C sort
}

# Sets `parts` to the folders of these crates that a proof reads.
find_parts() {
  local crate part
  parts=()
  for crate; do
    for part in src specs proofs; do
      [[ ! -d crates/$crate/$part ]] || parts+=("crates/$crate/$part")
    done
  done
}

# The digest of a crate's sources and of those below, as they stand in this folder. It fails where one can't be read.
digest_of() (
  local crates parts
  cd "$2" 2>/dev/null || exit
  set -o pipefail
  mapfile -t crates < <(crates_below "$1")
  find_parts "${crates[@]}"
  ((${#parts[@]} > 0)) || exit
  {
    cat HANDLES && crates_below "$1" lines && find "${parts[@]}" -type f -print0 | LC_ALL=C sort -z | xargs -0 sha256sum --
  } 2>/dev/null | sha256sum
)

# How the sources of these crates stand at the repository's top: a sum of what would be another had one been written. It
# fails where that isn't known.
standing_of() (
  local parts
  cd "$root" || exit
  find_parts "$@"
  set -o pipefail
  find HANDLES crates.txt "${parts[@]}" -printf '%p %i %s %C@\n' 2>/dev/null | sha256sum
)

# Whether one of the sources was changed in the last seconds, or that isn't known.
is_recent() (
  local seconds=$1 parts changed
  shift
  cd "$root" || exit 0
  find_parts "$@"
  changed=$(find HANDLES crates.txt "${parts[@]}" -newerct "$seconds seconds ago" -print -quit 2>/dev/null) || exit 0
  [[ -n $changed ]]
)

# Whether a program is built from the sources as they stand: its name, and its crate's if that is another one.
is_built() {
  local file=$root/out/bin/$1 crate=${2-$1} digest seen standing below now found began=$EPOCHSECONDS
  [[ -f $file ]] && read -r digest 2>/dev/null <"$file.sources" || return 1
  { read -r seen && read -r standing && read -r -a below; } 2>/dev/null <"$file.seen" || seen=none
  if [[ $seen == "$digest" ]]; then
    now=$(standing_of "${below[@]}") && [[ $now == "$standing" ]] && return 0
  fi
  mapfile -t below < <(cd "$root" && crates_below "$crate")
  now=$(standing_of "${below[@]}") || now=
  found=$(digest_of "$crate" "$root") && [[ $found == "$digest" ]] || return 1
  [[ -z $now ]] || is_recent $((EPOCHSECONDS - began + 2)) "${below[@]}" ||
    { printf '%s\n' "$digest" "$now" "${below[*]}" >"$file.seen.$$" && mv "$file.seen.$$" "$file.seen"; } 2>/dev/null
  return 0
}

# The digest of what ./playground makes the page of a browser of: the programs that are built, and the page's own files.
digest_of_page() (
  cd "$root" || exit
  set -o pipefail
  {
    head -qn 1 out/bin/mscview.sources out/bin/mscrun.sources &&
      find playground VERSION examples tools/page tools/playground tools/usage -type f -print0 | LC_ALL=C sort -z | xargs -0 sha256sum --
  } 2>/dev/null | sha256sum
)

# Whether ./playground has made the page of the programs that are built.
is_page_made() { [[ -s $root/out/mscview.html && $(<"$root/out/mscview.html.sources") == "$(digest_of_page)" ]] 2>/dev/null; }

# Keeps a program, a file, as what was proved from the sources with this digest, by the kit that `kit` says or rt is of.
keep_built() {
  local name=$1 file=$2 digest=$3 bin=$root/out/bin
  mkdir -p "$bin" && rm -f "$bin/$name.sources" && cp "$file" "$bin/$name.new" && mv "$bin/$name.new" "$bin/$name" &&
    printf '%s\n' "$digest" "${kit-$(rt version 2>/dev/null)}" >"$bin/$name.sources.new" && mv "$bin/$name.sources.new" "$bin/$name.sources"
}

# Keeps a crate's static library, a file, and beside it the kit's functions of memory over malloc, which it calls.
keep_library() {
  local name=$1 file=$2 digest=$3
  keep_built "lib$name.a" "$file" "$digest" && cp "$(dirname "$(rt doc)")/c/liblibc_c.a" "$root/out/bin/lib${name}_malloc.a"
}

# When a process began, by the clock of the machine's processes; nothing where there is no such process.
start_of() {
  local line reported
  line=$(cat "/proc/$1/stat" 2>/dev/null) || return
  read -ra reported <<<"${line##*) }"
  # (a process that has ended may still be listed)
  [[ ${reported[0]} == [ZX] ]] || echo "${reported[19]-}"
}

# One ./build or gate works in a copy of the repository at a time, since both move what is built: says which one does, and
# fails, or notes that this process does: its name, and its number.
take_turn() {
  local process began name file=$root/out/at_work
  mkdir -p "$root/out"
  if read -r process began name 2>/dev/null <"$file" && [[ -n $began && $(start_of "$process") == "$began" ]]; then
    echo "$1: $name is at work here, as process $process" >&2
    return 1
  fi
  echo "$2 $(start_of "$2") $1" >"$file"
}

# Gives the crates back what a ./build that was killed outright has left in its trees. (rt ci refuses a crates.txt there.)
take_back_trees() {
  local tree name
  for tree in "$root"/out/trees/*; do
    name=${tree##*/}
    [[ ! -d $tree/crates/$name/out || -e $root/crates/$name/out ]] || mv "$tree/crates/$name/out" "$root/crates/$name"
  done
  rm -rf "$root/out/trees"
}

# Gives the crates back what a gate that was killed outright has set aside, as rt itself does when its next gate begins, but
# for what was made anew since.
take_back_aside() {
  local kept name part made
  for kept in "$root"/.git/rt-aside/*; do
    name=${kept##*/}
    [[ -d $kept && -d $root/crates/$name ]] || continue
    # (a gate that is still at work, or no way to know)
    flock -n "$root/.git/rt-ci.lock" true 2>/dev/null || return 0
    for part in incremental rlib; do
      made=$root/crates/$name/out/$part
      [[ $part == incremental ]] || made+=/stamp
      if [[ -d $kept/$part && ! -e $made ]]; then
        mkdir -p "$root/crates/$name/out"
        rm -rf "$root/crates/$name/out/$part"
        mv "$kept/$part" "$root/crates/$name/out"
      fi
    done
  done
}
