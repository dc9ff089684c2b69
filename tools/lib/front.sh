# shellcheck shell=bash
# Read by ./mscrun and ./mscview, and by what ./install puts into PREFIX/bin. They set `usages` to the folder with the usage
# texts and `version` to the file with the version, and define `at_once`, whether the program of a name answers at once. They
# read spent_turns.sh, words_behind.sh, reasons.sh and imports.sh too. They call `answer` with the program's name, a command that runs the
# program of a name with words, and the words of the command line.

# Whether the words ask for help.
asks_for_help() {
  local word
  [[ ${1-} != help ]] || return 0
  for word; do
    case $word in
      --) return 1 ;;
      -h | --help) return 0 ;;
    esac
  done
  return 1
}

# The usage of a program's command, or of all where there is no such command. A command's part of the text begins with the
# program's and the command's name behind seven characters, and what stands behind the last part begins a line.
usage_of() {
  awk -v name="$1" -v command="${2-}" '
    function is_part(line) { return index(substr(line, 8), name " ") == 1 && substr(line, 1, 7) ~ /^(usage: |       )$/ }
    { all = all $0 "\n" }
    is_part($0) { split(substr($0, 8), words, " "); chosen = words[2] == command }
    chosen && /^(usage: |       )/ { part = part (part == "" ? "usage: " substr($0, 8) : $0) "\n" }
    END { printf "%s", part == "" ? all : part }' "$usages/$1"
}

# Of a usage lines `command NAME`, `option COMMAND OPTION` and `value COMMAND OPTION WORD..`, with a `-` for what the user
# chooses. The lines that begin with the program's name count, up to two blanks: the command, its options, and what goes with
# each: the words of a choice as `a|b`, or something of the user's. A line that says `with the options of COMMAND` has those
# too.
parts_of_usage() {
  awk -v name="$1" '
    function add(kind, text) { if (!((kind, text) in has)) { has[kind, text] = 1; order[++many] = kind " " text } }
    substr($0, 8, length(name) + 1) == name " " && substr($0, 1, 7) ~ /^(usage: |       )$/ {
      call = substr($0, 8)
      sub(/  .*/, "", call)
      count = split(call, word, " ")
      command = word[2]
      add("command", command)
      for (at = 3; at <= count; at++) {
        option = word[at]
        gsub(/[][]|\.\./, "", option)
        if (option !~ /^--/) continue
        add("option", command " " option)
        # (an option whose bracket ends at once has no value, and one before another bracket has none)
        if (word[at] ~ /\]/ || at == count || word[at + 1] ~ /^[[-]/ || word[at + 1] ~ /^FILE/) continue
        value = word[at + 1]
        gsub(/[][]|\.\.$/, "", value)
        gsub(/\|/, " ", value)
        if (value ~ /[^a-z ]/) value = "-"
        add("value", command " " option " " value)
      }
    }
    /with the options of [a-z]+/ {
      match($0, /with the options of [a-z]+/)
      other = substr($0, RSTART + 20, RLENGTH - 20)
      if (other != command) lends[command] = other
    }
    END {
      for (at = 1; at <= many; at++) print order[at]
      for (command in lends)
        for (at = 1; at <= many; at++) {
          split(order[at], word, " ")
          if (word[1] == "command" || word[2] != lends[command]) continue
          lent = order[at]
          sub(" " lends[command] " ", " " command " ", lent)
          if (!((word[1], substr(lent, length(word[1]) + 2)) in has)) print lent
        }
    }' "$usages/$1"
}

# Runs these words, and passes on what they say on standard error as it comes. `stated` is its last line then, and `refused`
# that of a refusal, which may have further lines behind it. `of_hosts` are the warnings about names and hosts of a log, and
# `lineless` is set where one of them is about a host without lines.
passing_on() {
  local line open=
  shopt -s lastpipe
  stated='' refused='' lineless='' of_hosts=()
  # (standard output may be closed, and is to be so for the program)
  ! { exec 3>&1; } 2>/dev/null || open=1
  if [[ -n $open ]]; then
    "$@" 2>&1 >&3 3>&-
  else
    "$@" 2>&1 >&-
  fi | while IFS= read -r line || [[ -n $line ]]; do
    printf '%s\n' "$line" >&2
    stated=$line
    case $line in
      'refused: '*) refused=$line ;;
      *' has no line of its own') lineless=1 of_hosts+=("$line") ;;
      'name '* | *', which no line names as a peer: --peer '*) of_hosts+=("$line") ;;
    esac
  done
  return "${PIPESTATUS[0]}"
}

# The file among the words of a command line: the first word behind the command that names one, and is no option's value.
file_among() {
  local before='' earlier='' before_that='' word
  for word in "${@:2}"; do
    if [[ -f $word && -r $word ]] && ! is_no_file "$word" "$before" "$earlier" "$before_that"; then
      printf '%s' "$word"
      return
    fi
    before_that=$earlier earlier=$before before=$word
  done
  return 1
}

# Whether a word of a command line names no file, by the three before it, the last one first: it is an option, or a value of
# one.
is_no_file() {
  local word=$1 behind=0 many option
  [[ $word != -?* ]] || return 0
  for option in "${@:2}"; do
    behind=$((behind + 1))
    count_values "$option"
    ((many < behind)) || return 0
  done
  return 1
}

# How many words of a command line are neither its command nor an option or a value of one.
free_words() {
  local before='' earlier='' before_that='' word many=0
  for word in "${@:2}"; do
    is_no_file "$word" "$before" "$earlier" "$before_that" || many=$((many + 1))
    before_that=$earlier earlier=$before before=$word
  done
  echo "$many"
}

# How many files the words of a command line name at most: two to compare, and of a log any number. Those about a race have
# its three words behind the files.
most_files() {
  case ${1-} in
    compare) echo 2 ;;
    import | races | page) echo $# ;;
    why | witness | mend) [[ " $* " == *' --all '* ]] && echo $# || echo $(($(free_words "$@") - 3)) ;;
    *) echo 1 ;;
  esac
}

# Why a file can't be read, in words; nothing where it can.
why_unread() {
  if [[ -d $1 ]]; then
    echo 'is a folder'
  elif [[ ! -e $1 ]]; then
    echo "isn't there"
  elif [[ ! -r $1 ]] || { [[ -f $1 ]] && ! head -c 1 -- "$1" >/dev/null 2>&1; }; then
    echo "can't be read"
  fi
}

# Says which files among the words of a command line can't be read.
report_unread() {
  local before='' earlier='' before_that='' word why files=0 most command=1
  most=$(most_files "$@")
  for word; do
    if [[ -z $command && $word != - ]] && ((files < most)) && ! is_no_file "$word" "$before" "$earlier" "$before_that"; then
      files=$((files + 1))
      why=$(why_unread "$word")
      [[ -z $why ]] || echo "$(quoted "$word") $why" >&2
    fi
    command='' before_that=$earlier earlier=$before before=$word
  done
}

# The words, as a shell takes them.
quoted() {
  local words
  printf -v words ' %q' "$@"
  printf '%s' "${words:1}"
}

# These words, with commas and before the last one the word that joins them.
listed() {
  local joint=$1 all=''
  shift
  (($# == 1)) || printf -v all '%s, ' "${@:1:$#-1}"
  printf '%s' "${all%, }${2+ $joint }${!#}"
}

# Whether a word is one of the others.
is_among() {
  local word
  for word in "${@:2}"; do [[ $word != "$1" ]] || return 0; done
  return 1
}

# The program of this name as whoever typed the command line types it: its name, where the shell finds it by that, and else its
# place, beside the one that was typed.
typed() {
  local beside
  beside=$(dirname -- "$0")/$1
  if [[ ! -x $beside || $(command -v "$1") -ef $beside ]]; then
    echo "$1"
  else
    quoted "$beside"
  fi
}

# What `mscview explain` writes of a file, or nothing, where there is none or mscview doesn't answer at once.
explained() {
  local program=$1 file=$2
  [[ -z $file ]] || ! at_once mscview || "$program" mscview explain "$file" 2>/dev/null </dev/null
}

# The tool whose diagram a file is, by what `mscview explain` writes of it.
tool_in() {
  case $1 in
    'a diagram of mscgen: '*) echo mscgen ;;
    'a diagram of PlantUML: '*) echo plantuml ;;
    'a diagram of Mermaid: '*) echo mermaid ;;
    *) return 1 ;;
  esac
}

# What reads a diagram in the place of this command of mscview, which refuses it: the command itself, with --from, where it
# has that for diagrams, and else an import.
reader_of() {
  local tool=$1 command=$2 file=$3
  shift 3
  if usage_of mscview "$command" | grep -q -e '--from mscgen|plantuml|mermaid'; then
    quoted "$command" --from "$tool" "$@"
  else
    quoted import "$file"
  fi
}

# Whether this line refuses a text, which `mscview explain` can say more of.
refuses_text() { [[ $1 =~ ^'refused: F'(1|2|3|4|7|8|9|13|16|17|18|20|21|22|23|35|37|38|51|53)' ' ]]; }

# Whether a file has at most a million bytes, so that it is looked into without a terminal too.
is_short() { [[ -n $1 ]] && (($(head -c 1000001 -- "$1" 2>/dev/null | wc -c) <= 1000000)); }

# Colours what `mscview explain` writes, as compilers do.
coloured() {
  sed -e $'s/^error: .*/\e[1;31m&\e[0m/' -e $'s/^note: .*/\e[1;33m&\e[0m/' -e $'s/^help: .*/\e[1;32m&\e[0m/' \
    -e $'s/^\\( *| *\\)\\^$/\\1\e[1;31m^\e[0m/' -e $'s/^ *--> .*/\e[1;34m&\e[0m/'
}

# Runs the program by this command, its name and its words, and passes on what it says; what `mscview explain` writes to a
# terminal has colours.
runs() {
  local status
  if [[ $2 == mscview && ${3-} == explain && -t 1 && -z ${NO_COLOR-} && ${TERM-dumb} != dumb ]]; then
    passing_on "$@" > >(coloured)
    status=$?
    # (what passed it on holds the pipe still)
    exec 3>&-
    wait $!
    return "$status"
  fi
  passing_on "$@"
}

# Says what to try where a text was refused: of a diagram that mscview took for a chart the command that reads it, of a text
# that isn't exact that tidy makes it so, and of any other on a terminal what takes it, or the command that says more. Where an
# option has taken the file, and standard input was read, it says that.
report_what_to_try() {
  local name=$1 program=$2 refusal=$3 file reported='' tool taken_for_chart='' hint
  shift 3
  file=$(file_among "$@") || file=
  if [[ -z $file ]] && hint=$(report_taken "$name" "$@"); then
    echo "$hint" >&2
    return
  fi
  [[ $name != mscview || " $* " == *' --from'[\ =]* || ! $refusal =~ ^'refused: F'(20|21)' ' ]] || taken_for_chart=1
  [[ -z $taken_for_chart && ! -t 2 ]] && ! is_short "$file" || reported=$(explained "$program" "$file")
  if [[ -n $taken_for_chart ]] && tool=$(tool_in "$reported"); then
    echo "try: $(typed mscview) $(reader_of "$tool" "$1" "$file" "${@:2}")" >&2
  elif [[ -t 2 ]]; then
    report_of_options "$refusal" " $*" "$reported" >&2
    report_who_takes "$name" "$1" "$file" "$reported" "$refusal" " $* " >&2
  else
    hint=$(report_who_takes "$name" "$1" "$file" "$reported" "$refusal" " $* ")
    [[ $hint != *' reads only the exact text'* ]] || echo "$hint" >&2
  fi
}

# Reports on a terminal what explains why commands of a schedule did nothing.
report_notes() {
  local file
  file=$(file_among "$@") || return 0
  echo "try: $(typed mscview) explain $(quoted "$file")" >&2
}

# Says why a command line is refused, where that is known, and the usage; of a command that isn't known only which there are.
report_usage() {
  local name=$1 hint
  hint=$(report_unknown "$@")
  [[ -n $hint ]] || hint=$(report_misapplied "$@")
  [[ -n $hint ]] || hint=$(report_reason "$@")
  [[ -n $hint ]] || hint=$(report_luck "$@")
  [[ -z $hint ]] || echo "$hint"
  [[ $hint == "$name has no command "* ]] || usage_of "$name" "$2"
}

# Adds to what a program has answered, a status with a refusal or another last line, what is known of it. What is refused as a
# command line has behind it why, and the usage; as a text, what to try; and on a terminal a file that can't be read its name.
# There is also reported what says why commands of a schedule did nothing, and what instances on threads waited for.
add_words() {
  local name=$1 program=$2 status=$3 refusal=${refused:-$stated}
  shift 3
  if [[ $status == 2 && $stated == 'refused: G1 Usage' ]]; then
    report_usage "$name" "$@" >&2
  elif [[ $status == 2 && $stated == 'refused: G2 File' && -t 2 ]]; then
    report_unread "$@"
  elif [[ $status == 2 ]] && refuses_text "$refusal "; then
    report_what_to_try "$name" "$program" "$refusal " "$@"
  elif [[ $status == 2 && $name == mscview && $stated == 'refused: F34 NoSuchName' ]]; then
    report_names "$program" "$@" >&2
  elif [[ $status == 2 && $name == mscview && $refusal =~ ^'refused: F39 BadPattern '([0-9]+)$ ]]; then
    show_place "$(value_among --pattern "$@")" "${BASH_REMATCH[1]}" >&2
  elif [[ $status == 2 && $name == mscview && $stated =~ ^'refused: F'(31 NoSuchEvent$|40 ) ]]; then
    report_instances "$stated" "$program" "$@" >&2
  elif [[ $name == mscview && -n $lineless && ($status != 2 || $refusal == 'refused: F52 '*) ]]; then
    report_hosts "$program" "$@" >&2
  elif [[ $status == 2 && $name == mscview && -t 2 ]]; then
    report_missing "$stated" >&2
  elif [[ $status != 2 && $name == mscview && $stated =~ ' of the schedule did nothing, ' && -t 2 ]]; then
    report_notes "$@"
  elif [[ $status != 2 && -n $kept ]]; then
    report_spent "$kept" "$@" >&2 2>/dev/null
  fi
}

# Answers the words of a command line: the usage and the version where it asks for them, which takes no program, and else what
# the program answers, with what is known of it.
answer() {
  local name=$1 program=$2 status stated refused='' lineless='' kept=''
  local -a of_hosts=()
  shift 2
  if asks_for_help "$@"; then
    usage_of "$name" "$([[ ${1-} == help ]] && echo "${2-}" || echo "${1-}")"
    return
  elif [[ $# == 1 && $1 == --version ]]; then
    echo "$name $(<"$version")"
    return
  fi
  if (($# == 0)); then
    echo 'refused: G1 Usage' >&2
    usage_of "$name" >&2
    return 2
  fi
  if is_kept "$name" "$@"; then runs_kept "$program" "$name" "$@"; else runs "$program" "$name" "$@"; fi
  status=$?
  add_words "$name" "$program" "$status" "$@"
  return "$status"
}
