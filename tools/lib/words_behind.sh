# shellcheck shell=bash
# Read beside front.sh: words behind refusals, of command lines and of texts. They use what front.sh defines.

# The value of an option among the words of a command line, or nothing.
value_among() {
  local option=$1 before='' word
  shift
  for word; do
    [[ $word != -- ]] || return 0
    if [[ $before == "$option" ]]; then
      printf '%s' "$word"
      return
    elif [[ $word == "$option="* ]]; then
      printf '%s' "${word#*=}"
      return
    fi
    before=$word
  done
}

# Says what makes a chart of another tool's text, which --from has named, for a command that reads only charts.
report_import() {
  local from=$1 files=FILE..
  case $from in
    mscgen | plantuml | mermaid) files=FILE ;;
    shiviz) ;;
    *) from=log ;;
  esac
  echo "try: $(typed mscview) import --from $from $files >a.msc"
}

# Reports the first word of a refused command line that isn't known, and which there are: a command, an option, or the value of
# one that has a choice.
report_unknown() {
  local name=$1 command=${2-} parts option value
  local -a known
  shift 2
  parts=$(parts_of_usage "$name")
  mapfile -t known < <(sed -n 's/^command //p' <<<"$parts")
  if ! is_among "$command" "${known[@]}"; then
    echo "$name has no command $(quoted "$command"): it has $(listed and "${known[@]}")"
    return
  fi
  while (($# > 0)) && [[ $1 != -- ]]; do
    option=${1%%=*} value=${2-}
    [[ $1 != *=* ]] || value=${1#*=}
    if [[ $option == --* ]]; then
      mapfile -t known < <(sed -n "s/^option $command //p" <<<"$parts")
      if ! is_among "$option" "${known[@]}"; then
        ((${#known[@]} > 0)) || known=(none)
        echo "$command has no $(quoted "$option"): it has $(listed and "${known[@]}")"
        [[ ! "$name $command $option" =~ ^mscview\ (compare|export)\ --from$ ]] || report_import "$value"
        return
      fi
      mapfile -t known < <(sed -n "s/^value $command $option //p" <<<"$parts" | tr ' ' '\n' | awk '!has[$0]++')
      if ((${#known[@]} > 0)) && [[ ${known[0]} != - && -n $value ]] && ! is_among "$value" "${known[@]}"; then
        echo "$option takes no $(quoted "$value"): it takes $(listed or "${known[@]}")"
        # (a log becomes a chart first)
        [[ ! "$name $option $value" =~ ^mscview\ --from\ (log|shiviz)$ ]] ||
          echo "try: $(typed mscview) import --from $value FILE.. >run.msc; $(typed mscview) $command run.msc"
        return
      fi
      ((${#known[@]} == 0 || $# == 1)) || [[ $1 == *=* ]] || shift
    fi
    shift
  done
}

# Says what --luck of a command of mscview applies to.
report_luck_of() {
  local what='a schedule, and to --from log'
  [[ $1 != mend ]] || what='--from log'
  echo "--luck applies to $what without captured messages or vector time"
}

# Reports what --luck applies to, if it is given. Luck isn't known of charts, and not of each log, and the words don't show which
# it is: so this is for command lines in which nothing else is wrong.
report_luck() {
  local word
  [[ $1 == mscview ]] || return 0
  for word in "${@:3}"; do
    [[ $word != -- ]] || return 0
    [[ $word == --luck ]] || continue
    report_luck_of "$2"
    return
  done
}

# Reports of a refused command line of mscview, whose words are all known, the first option that doesn't apply to what is read,
# and to what it does.
report_misapplied() {
  local name=$1 command=${2-} from word
  [[ $name == mscview && $command =~ ^(import|races|draw|page|why|witness|mend)$ ]] || return 0
  shift 2
  from=$(value_among --from "$@")
  for word; do
    case ${word%%=*}:$from in
      --:*) return ;;
      --luck:*)
        # (that it needs --all is reported behind)
        if [[ $command == mend ]]; then
          [[ " $* " == *' --all '* && $from != log ]] || continue
        else
          [[ -n $from && $from != log ]] || continue
        fi
        report_luck_of "$command"
        ;;
      --pattern:log) continue ;;
      --pattern:*) echo '--pattern applies to --from log' ;;
      --hosts:log | --peer:log | --from-line:log | --to-line:log) continue ;;
      --hosts:shiviz | --peer:shiviz | --from-line:shiviz | --to-line:shiviz) continue ;;
      --hosts:* | --peer:* | --from-line:* | --to-line:*) echo "${word%%=*} applies to --from log and to --from shiviz" ;;
      --strict:log | --strict:shiviz) echo "--strict doesn't apply to logs" ;;
      --skip:mscgen | --skip:plantuml | --skip:mermaid | --join:mscgen | --join:plantuml | --join:mermaid) continue ;;
      --skip:* | --join:*)
        [[ $command != import || $from =~ ^(log|shiviz)$ ]] || continue
        echo "${word%%=*} applies to diagrams: --from mscgen, plantuml or mermaid"
        ;;
      *) continue ;;
    esac
    return
  done
}

# Says which option has taken a file of a command line without another one, so that standard input was read.
report_taken() {
  local name=$1 before='' earlier='' before_that='' word option rest='' at=1
  shift
  [[ $name == mscview && $(free_words "$@") == 0 ]] || return 1
  for word in "${@:2}"; do
    at=$((at + 1))
    if [[ $word != -* && -f $word ]] && is_no_file "$word" "$before" "$earlier" "$before_that"; then
      for option in "$before" "$earlier" "$before_that"; do [[ $option != --* ]] || break; done
      echo "standard input was read: $option takes $(value_of "$option"), and has taken $(quoted "$word")"
      (($# == at)) || rest=" $(quoted "${@:at+1}")"
      [[ $option != "$before" ]] ||
        echo "try: $(typed mscview) $(quoted "${@:1:at-1}") $(value_of "$option")$rest $(quoted "$word")"
      return
    fi
    before_that=$earlier earlier=$before before=$word
  done
  return 1
}

# Reports on a terminal which event or pair a refusal is about.
report_missing() {
  local refusal=$1 name count
  case $refusal in
    'refused: F31 NoSuchEvent '*)
      read -r _ _ _ name count <<<"$refusal"
      if ((count > 0)); then echo "$name has events 1 to $count"; else echo "$name has no events"; fi
      ;;
    'refused: F32 NotAPair '*) echo "event ${refusal##* } is a send, and a race ends in a receive" ;;
    'refused: F32 NotAPair') echo 'the first of the two events has to be the earlier one' ;;
  esac
}

# Says what the options of a refused import have to do with it: `mscview explain` reads the text without them.
report_of_options() {
  local refusal=$1 words=$2 reported=$3 tool
  if [[ $refusal == 'refused: F21 '* && $words == *' --skip'[\ =]* ]]; then
    echo 'what --skip leaves of the text ends too early'
  elif [[ $refusal =~ ^'refused: F'(35|38|51)' ' ]]; then
    [[ $words != *' --skip'[\ =]* ]] || echo 'the remaining lines have to be valid: skip an else with its branch, and an end with its frame'
    [[ $refusal != 'refused: F35 '* || "$words " != *' --strict '* || $reported =~ ^'a '(chart|schedule)', ' ]] ||
      echo '--strict refuses constructs that a chart cannot express; without it they are skipped with a warning'
    tool=$(tool_in "$reported") || return 0
    [[ $words != *' --from'[\ =]* || $words == *" --from"[\ =]"$tool"* ]] || echo "it looks like a diagram for --from $tool"
  fi
}

# Says what takes a file that a program's command has refused, by what `mscview explain` writes of the file: nothing of what
# only --strict refuses, or what is no log, for there it has no more to say.
report_who_takes() {
  local name=$1 command=$2 file=$3 reported=$4 refusal=$5 words=$6
  if [[ $refusal =~ ^'refused: F'(35|38|51)' ' ]]; then
    if [[ $reported =~ ^'a '(chart|schedule)', ' ]]; then
      echo "$(quoted "$file") is a ${BASH_REMATCH[1]} already, and needs no import"
      echo "try: $(typed mscview) races $(quoted "$file")"
      return
    fi
    [[ $refusal == 'refused: F35 '* && ! ($words == *' --strict '* && $reported == *$'\nnothing is wrong with it'*) ]] || return 0
  fi
  case $name:$command:$reported in
    mscrun:check:'a schedule, '*)
      echo "$(quoted "$file") is a schedule, and check takes a chart"
      echo "try: $(typed mscrun) replay $(quoted "$file")"
      ;;
    mscrun:replay:'a chart, '* | mscrun:random:'a chart, '* | mscrun:threads:'a chart, '*)
      echo "$(quoted "$file") is a chart, and $command takes a schedule"
      # (a chart with what mscrun printed behind it is for mscview alone)
      if [[ $reported == *'mscrun check refuses what stands here'* ]]; then
        echo "try: $(typed mscview) races $(quoted "$file")"
      else
        echo "try: $(typed mscrun) check $(quoted "$file")"
      fi
      ;;
    mscrun:*:'a diagram of '*) echo "try: $(typed mscview) $(quoted races --from "$(tool_in "$reported")" "$file")" ;;
    *$'\nhelp: mscview tidy writes '*)
      echo "$command reads only the exact text, without comments, blank lines and arrows, and tidy writes it"
      echo "try: $(typed mscview) tidy $(quoted "$file")"
      ;;
    *) echo "try: $(typed mscview) explain $(quoted "${file:-FILE}")" ;;
  esac
}
