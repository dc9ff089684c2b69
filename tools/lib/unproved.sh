# shellcheck shell=bash
# Read by what compiles or runs programs without a proof; it sets `root` to the repository's top, and reads tools/lib/built.sh,
# tools/lib/front.sh, tools/lib/linked_kit.sh, tools/lib/kit.sh and tools/lib/about.sh first.
#
# A program that was compiled so lies in out/bin as NAME.unproved, with the digest of its sources, and answers until one of
# them changes. Beside it NAME.unproved.took says how many seconds that took here.

# What it took of one processor where it was measured, in seconds, and the microseconds that `pace` took there.
declare -A measured_seconds=([mscrun]=50 [mscview]=110)
measured_pace=50000
# How much of that is over once clang begins, in hundredths.
part_before_clang=67

# The microseconds that the shell takes here for what says how quick this machine is, and how much else is at work on it.
pace() {
  local at began=${EPOCHREALTIME//[!0-9]/}
  for ((at = 0; at < 30000; at++)); do :; done
  echo $((${EPOCHREALTIME//[!0-9]/} - began))
}

# How many seconds it is likely to take here to compile a program: what it took here the last time, or what it took where it
# was measured, by this machine's pace.
seconds_to_compile() {
  local took
  read -r took 2>/dev/null <"$root/out/bin/$1.unproved.took" && [[ $took =~ ^[1-9][0-9]*$ ]] ||
    took=$((${measured_seconds[$1]-60} * $(pace) / measured_pace))
  echo $((took < 10 ? 10 : took))
}

# Shows on `terminal`, a file descriptor, how much of the time is over, until it is ended or its parent has: what is shown, its
# seconds, and a file that is there once clang has begun, which measures the time anew.
show_bar() {
  local what=$1 seconds=$2 began_clang=$3 parent=$4 began=$SECONDS passed width clang=''
  while kill -0 "$parent" 2>/dev/null; do
    passed=$((SECONDS - began))
    if [[ -z $clang && -e $began_clang ]]; then
      clang=yes
      ((passed == 0)) || seconds=$((passed * 100 / part_before_clang))
    fi
    # (what takes longer than it should isn't over)
    ((passed < seconds)) || seconds=$((passed + 1))
    width=$((30 * passed / seconds))
    printf '\r%s [%s%s] %s of %s\e[K' "$what" "$(printf '%*s' "$width" '' | tr ' ' '#')" "$(printf '%*s' $((30 - width)) '')" \
      "$(clock "$passed")" "$(about "$seconds")" >&"$terminal"
    sleep 0.5
  done
}

# Makes in `room` a kit whose clang leaves there as program.o what rt try has it compile, if this kit is one that has all that
# is needed to link it; with the word `stops` nothing is run then. Beside its own work rt try has the prover read all crates
# once more, for names that a check would refuse: that is no matter of an answer, and takes a quarter of a processor's time, so
# here the prover reads nothing.
prepare_keeping() {
  local clang=$kit_at/toolchain/bin/clang
  [[ -x $clang && -x $kit_at/bin/rattle-link && -x $kit_at/bin/rt && -f $kit_at/c/asan.a ]] || return
  link_kit "$kit_at" "$room/kit" <<END
[[ " \$* " == *' -fsanitize=address '* ]] || exec $(printf %q "$clang") "\$@"
touch $(printf %q "$room/clang_began")
$(printf %q "$clang") "\$@" || exit
for word; do
  [[ \${before-} != -o ]] || cp "\$word" $(printf %q "$room/program.o")
  before=\$word
done
${1:+exit 1}
END
  rm -f "$room/kit/bin/rattle" && printf '#!/bin/sh\n' >"$room/kit/bin/rattle" && chmod +x "$room/kit/bin/rattle"
}

# Keeps the program that rt try has compiled, so that the next answer comes at once, where the sources have this digest still.
keep_unproved() {
  local name=$1 digest=$2
  [[ -n $digest && -s $room/program.o && $(digest_of "$name" "$root") == "$digest" ]] &&
    "$kit_at/bin/rattle-link" --target x86_64-unknown-linux-gnu --toolchain "$kit_at/toolchain" -o "$room/program" "$room/program.o" \
      "$kit_at"/c/{asan,libos_c,liblibc_c}.a &&
    keep_built "$name.unproved" "$room/program" "$digest"
}

# Compiles a program without a proof, and keeps it. It says how long that is likely to take, or on `terminal`, where that is
# set, shows how far it is. With status 1 what this kit compiles can't be kept, and with 2 it refuses the sources, and has stated why.
compile_unproved() (
  name=$1 began=$SECONDS bar=''
  room=$(mktemp -d) || exit 2
  trap '[[ -z $bar ]] || kill "$bar" 2>/dev/null; rm -rf "$room"' EXIT
  trap 'exit 130' INT
  kit_at=$(place_of_kit)
  prepare_keeping stops && digest=$(digest_of "$name" "$root") || exit 1
  seconds=$(seconds_to_compile "$name")
  if [[ -n ${terminal-} ]]; then
    show_bar "$name: compiling" "$seconds" "$room/clang_began" "$BASHPID" &
    bar=$!
  else
    echo "$name: compiling, $(about "$seconds")" >&2
  fi
  (cd "$root/crates/$name" && PATH=$room/kit/bin:$PATH exec rt try -- --version) </dev/null >"$room/stdout" 2>"$room/stderr"
  if [[ -n $bar ]]; then
    kill "$bar" 2>/dev/null
    wait "$bar" 2>/dev/null
    bar=
    printf '\r\e[K' >&"$terminal"
  fi
  if [[ ! -s $room/program.o ]]; then
    grep -v '^run=none ' "$room/stderr" >&2
    echo "$name: no answer: these sources can't be compiled" >&2
    exit 2
  fi
  keep_unproved "$name" "$digest" 2>/dev/null || exit 1
  echo $((SECONDS - began)) 2>/dev/null >"$root/out/bin/$name.unproved.took"
  exit 0
)

# Runs the program that was kept so.
run_kept() {
  local name=$1 status
  shift
  "$root/out/bin/$name.unproved" "$@"
  status=$?
  # (what ends by such a signal has met a fault, at which rt try stops too, and says where)
  [[ $status =~ ^13[2-6]$|^139$ ]] || return "$status"
  mv "$root/out/bin/$name.unproved" "$root/out/bin/$name.faulted"
  echo "$name: no answer without ./build: the unproved run stopped at a fault, and the next one says where" >&2
  return 2
}

# Whether a command line of mscview reads standard input where no file is named.
may_lack_file() {
  [[ $1 =~ ^(draw|page|export|import|races|tidy|explain)$ ]] ||
    [[ $1 =~ ^(why|witness|mend)$ && " ${*:2} " =~ ' --'(from|all)[\ =] ]]
}

# Passes on lines, with the file's own name in the place of each copy's before a colon.
with_own_names() {
  local line copy
  while IFS= read -r line; do
    for copy in "${!own_names[@]}"; do line=${line//"$copy:"/"${own_names[$copy]}:"}; done
    printf '%s\n' "$line"
  done
}

# Runs the program by rt try, which says where a fault is. It sees only the files that it is given, and no standard input: a
# word that names a file is changed to the name of a copy of it, and so is standard input. The last lines on standard error
# are rt's, and not the program's.
run_tried() {
  local name=$1 before='' earlier='' before_that='' word copy status files named=0 kit_at digest
  local -a words=() data=()
  local -A own_names=()
  shift
  room=$(mktemp -d) || return 2
  trap 'rm -rf "$room"' EXIT
  echo "$name: compiling, $(about "$(seconds_to_compile "$name")")" >&2
  files=$(most_files "$@")
  for word; do
    copy=file${#words[@]}
    # (the first word is a command, and the words of a race come behind the files)
    if ((${#words[@]} == 0 || named >= files)) || is_no_file "$word" "$before" "$earlier" "$before_that"; then
      words+=("$word")
    else
      named=$((named + 1))
      if [[ $name == mscview && $word == - && $1 != compare ]]; then
        cat >"$room/$copy"
        data+=(--data "$copy=$room/$copy")
        words+=("$copy")
      elif [[ -r $word && ! -d $word ]] && cat -- "$word" >"$room/$copy"; then
        data+=(--data "$copy=$room/$copy")
        words+=("$copy")
        own_names[$copy]=$word
      else
        words+=("$word")
      fi
    fi
    before_that=$earlier earlier=$before before=$word
  done
  if [[ $name == mscview && $named == 0 ]] && may_lack_file "$@"; then
    cat >"$room/input"
    data+=(--data "input=$room/input")
    words=("${words[0]}" input "${words[@]:1}")
  fi
  kit_at=$(place_of_kit)
  digest=
  ! prepare_keeping || digest=$(digest_of "$name" "$root")
  (cd "$root/crates/$name" && PATH=$room/kit/bin:$PATH exec rt try "${data[@]}" -- "${words[@]}") </dev/null >"$room/stdout" 2>"$room/stderr"
  if [[ ! $(tail -n 1 "$room/stderr") =~ ^run=ended\ status=([0-9]+)\ .*proved=no$ ]]; then
    cat "$room/stderr" >&2
    echo "$name: no answer without ./build: an unproved run has a minute, and writes a mebibyte at most" >&2
    return 2
  fi
  status=${BASH_REMATCH[1]}
  cat "$room/stdout"
  sed -e '$d' "$room/stderr" | grep -v -e '^checked: ended status=' -e '^races: not looked for, ' | with_own_names >&2
  keep_unproved "$name" "$digest" 2>/dev/null
  return "$status"
}

# Runs the program without a proof: it is compiled and kept, and then answers. Where the last run stopped at a fault, or what
# this kit compiles can't be kept, rt try runs it.
run_unproved() {
  local name=$1 status=1
  has_kit "$name" || return 2
  echo "$name: this run is unproved: ./build proves and builds the program" >&2
  if [[ -e $root/out/bin/$name.faulted ]]; then
    rm -f "$root/out/bin/$name.faulted"
  else
    compile_unproved "$name"
    status=$?
  fi
  case $status in
    0) run_kept "$@" ;;
    1) run_tried "$@" ;;
    *) return "$status" ;;
  esac
}
