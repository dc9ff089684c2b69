# shellcheck shell=bash
# Read beside front.sh and words_behind.sh: why a command line is refused whose words are all known, and apply.

# How many values an option has, in `many`.
count_values() {
  case $1 in
    --witness) many=3 ;;
    --around) many=2 ;;
    --seed | --turns | --only | --events | --rows | --title | --to | --from | --skip | --join | --name | --pattern) many=1 ;;
    --hosts | --peer | --from-line | --to-line | --limit) many=1 ;;
    *) many=0 ;;
  esac
}

# What an option with a value takes, as the usage names it.
value_of() {
  case $1 in
    --only | --hosts) echo 'NAME,NAME..' ;;
    --events | --rows | --skip) echo A..B ;;
    --around) echo 'INSTANCE N' ;;
    --witness) echo 'INSTANCE EARLIER RECEIVE' ;;
    --title) echo TEXT ;;
    --pattern) echo REGEX ;;
    --name) echo NAME ;;
    --join | --peer) echo 'NAME=NAME,NAME..' ;;
    *) echo N ;;
  esac
}

# What an option of a program's command takes, with what its value has to be.
report_value() {
  local name=$1 command=$2 option=$3 which=''
  local -a known
  case $option in
    --events | --rows | --skip) which=', with 1 <= A <= B' ;;
    --around) which=', and N is a number' ;;
    --witness) which=', and EARLIER and RECEIVE are numbers' ;;
    --seed) which=', from 0 to 18446744073709551615' ;;
    --turns) which=', from 1 to 1000000' ;;
    --from-line | --to-line) which=', a number from 1 on' ;;
    --limit) which=', a number' ;;
    --title) which=', with = before it if it begins with -' ;;
    --from | --to)
      mapfile -t known < <(parts_of_usage "$name" | sed -n "s/^value $command $option //p" | tr ' ' '\n' | awk '!has[$0]++')
      echo "$option takes $(listed or "${known[@]}")"
      return
      ;;
  esac
  echo "$option takes $(value_of "$option")$which"
}

# Whether a word is a number of 64 bits.
is_number() {
  [[ $1 =~ ^0*([0-9]{1,20})$ ]] || return 1
  local digits=${BASH_REMATCH[1]}
  # (bash itself counts to 9223372036854775807)
  ((${#digits} < 20)) || ((${digits:0:10} < 1844674407 || ${digits:0:10} == 1844674407 && 10#${digits:10} <= 3709551615))
}

# Whether a word is A..B, with numbers and 1 <= A <= B.
is_range() {
  [[ $1 =~ ^0*([1-9][0-9]*)\.\.0*([1-9][0-9]*)$ ]] || return 1
  local first=${BASH_REMATCH[1]} last=${BASH_REMATCH[2]}
  is_number "$first" && is_number "$last" || return 1
  ((${#first} < ${#last})) || { ((${#first} == ${#last})) && [[ ! $first > $last ]]; }
}

# Whether these are values of an option, in form and number.
are_values() {
  local option=$1 many word
  shift
  count_values "$option"
  (($# == many)) || return 1
  for word; do [[ $word != -?* ]] || return 1; done
  case $option in
    --events | --rows | --skip) is_range "$1" ;;
    --around) is_number "$2" ;;
    --witness) is_number "$2" && is_number "$3" ;;
    --seed | --limit) is_number "$1" ;;
    --turns) [[ $1 =~ ^0*[1-9][0-9]{0,6}$ ]] && ((10#$1 <= 1000000)) ;;
    --from-line | --to-line) is_number "$1" && [[ $1 == *[1-9]* ]] ;;
    --join | --peer) [[ $1 == ?*=?* && ,${1#*=}, != *,,* ]] ;;
    --hosts) [[ ,$1, != *,,* ]] ;;
  esac
}

# Says which of these words of a command line isn't there, or is one too many. The first COUNT of them may be left out.
report_words() {
  local many=$1 count=$2
  shift 2
  local -a names=("${@:1:many}") there=("${@:many+1}")
  if ((${#there[@]} > many)); then
    echo "$(quoted "${there[many]}") is a word too many"
  elif ((${#there[@]} < many - count)); then
    # (where the numbers are there, it is the file)
    if ((many == 4 && ${#there[@]} == 3)) && is_number "${there[1]}" && is_number "${there[2]}"; then
      echo 'FILE is missing'
    else
      echo "${names[${#there[@]}+count]} is missing"
    fi
  fi
}

# Sorts the words of a command line behind the command: `free` are those that are no option's, and `given` has its options. Reports
# the first option that is given twice, or whose value has another form.
sort_words() {
  local name=$1 command=$2 option many
  local -a values
  shift 2
  while (($# > 0)); do
    if [[ $1 == -- ]]; then
      free+=("${@:2}")
      return
    elif [[ $1 != -?* ]]; then
      free+=("$1")
      shift
      continue
    fi
    option=${1%%=*}
    if [[ $option != --* ]]; then
      reason="$command has no $(quoted "$1")"
    elif [[ -n ${given[$option]-} && ! $option =~ ^--(skip|join|peer)$ ]]; then
      reason="$option is given twice"
    fi
    [[ -z $reason ]] || return
    given[$option]=1
    count_values "$option"
    if [[ $1 == *=* ]]; then
      # (a text behind = may begin with -)
      values=("${1#*=}")
      values=("${values[0]/#-/.}")
      shift
    else
      values=("${@:2:many}")
      shift $((many < $# ? many + 1 : $#))
    fi
    if ((many > 0)) && ! are_values "$option" "${values[@]}"; then
      reason=$(report_value "$name" "$command" "$option")
      return
    fi
  done
}

# Says which options of a command line exclude each other, or need another one, by what is in `given`.
report_excluded() {
  local command=$1 from=$2 option first=''
  local -a others=()
  case $command in
    draw)
      if [[ -n ${given[--witness]-} ]]; then
        first=--witness others=(--events --rows --around --from --skip --join --strict)
      elif [[ -n ${given[--rows]-} ]]; then
        first=--rows others=(--around)
      fi
      ;;
    mend)
      if [[ -n ${given[--all]-} ]]; then
        first=--all others=(--name --verbose)
      else
        for option in --limit --receives --run-to-completion --luck; do
          if [[ -n ${given[$option]-} ]]; then
            echo "$option needs --all"
            return
          fi
        done
      fi
      ;;&
    mend | witness)
      if [[ -n ${given[--strict]-} && -z $from ]]; then
        echo '--strict needs --from'
        return
      fi
      ;;
  esac
  for option in "${others[@]}"; do
    if [[ -n ${given[$option]-} ]]; then
      echo "$first excludes $option"
      return
    fi
  done
}

# Says which of the free words of a command line is missing, or is one too many, or is no number.
report_free() {
  local command=$1 from=$2 pair='INSTANCE EARLIER RECEIVE' log='' many
  shift 2
  many=$#
  [[ ! $from =~ ^(log|shiviz)$ ]] || log=1
  case $command in
    compare) report_words 2 0 A B "$@" ;;
    replay | random | check | threads) report_words 1 0 FILE "$@" ;;
    why | witness | mend)
      # shellcheck disable=SC2086
      if [[ -z $from ]] && ((many != 4)); then
        report_words 4 0 FILE $pair "$@"
      elif ((many < 3)); then
        report_words 3 0 $pair "$@"
      elif [[ -z $log ]] && ((many > 4)); then
        report_words 4 1 FILE $pair "$@"
      elif ! is_number "${*: -2:1}" || ! is_number "${!#}"; then
        echo 'EARLIER and RECEIVE are numbers'
      fi
      ;;
    *) [[ -n $log ]] || report_words 1 1 FILE "$@" ;;
  esac
}

# Reports of a command line, whose words are all known and apply, what is missing, is too many, or has another form.
report_reason() {
  local name=$1 command=${2-} needed='' reason='' from
  local -a free=()
  local -A given=()
  from=$(value_among --from "${@:3}")
  sort_words "$@"
  [[ -n $reason ]] || reason=$(report_excluded "$command" "$from")
  case $command in
    random) needed=--seed ;;
    threads) needed=--turns ;;
    export) needed=--to ;;
  esac
  if [[ -n $reason ]]; then
    echo "$reason"
  elif [[ -n $needed && -z ${given[$needed]-} ]]; then
    echo "$needed is missing"
  elif [[ -n ${given[--all]-} ]]; then
    report_free page "$from" "${free[@]}"
  else
    report_free "$command" "$from" "${free[@]}"
  fi
}
