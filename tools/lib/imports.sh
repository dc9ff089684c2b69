# shellcheck shell=bash
# Read beside front.sh, words_behind.sh and reasons.sh: what `mscview import` reads by the words of a command line with --from,
# the instances that it has, the place of a bad expression, and the words of a log for one host.

# Sorts the words of a command line with --from: `options` are those of import, but for one that LEFT_OUT names, and `files` are
# its files. It fails unless each of these is a file that can be read once more.
sort_import() {
  local left_out=$1 command=$2 race=0 all='' many option file
  shift 2
  options=() files=()
  [[ ! $command =~ ^(why|witness|mend)$ || " $* " == *' --all '* ]] || race=3
  while (($# > 0)); do
    option=${1%%=*} many=1
    if [[ -n $all || $1 != -?* ]]; then
      files+=("$1")
    elif [[ $1 == -- ]]; then
      all=1
    else
      [[ $1 == *=* ]] || { count_values "$option" && many=$((many < $# ? many + 1 : $#)); }
      [[ $option == "$left_out" || ! $option =~ ^--(from|skip|join|pattern|hosts|peer|from-line|to-line)$ ]] ||
        options+=("${@:1:many}")
    fi
    shift "$many"
  done
  ((${#files[@]} > race)) || return
  files=("${files[@]:0:${#files[@]}-race}")
  for file in "${files[@]}"; do [[ -f $file && -r $file ]] || return; done
}

# Runs import once more, with the options and the files of a command line with --from, but for the option LEFT_OUT. It fails where
# mscview doesn't answer at once, or a file can't be read once more.
import_again() {
  local left_out=$1 program=$2
  local -a options files
  shift 2
  at_once mscview && sort_import "$left_out" "$@" || return
  "$program" mscview import "${options[@]}" -- "${files[@]}" </dev/null
}

# Whether the files of a command line with --from have at most a million bytes in all, so that they are read once more without a
# terminal too.
is_short_import() {
  local -a options files
  sort_import '' "$@" && (($(cat -- "${files[@]}" 2>/dev/null | head -c 1000001 | wc -c) <= 1000000))
}

# The instances of the chart that a command line is about, one on each line: of its FILE, a schedule or a chart, or with --from of
# what import makes of it. Nothing where mscview doesn't answer at once.
instances_of() {
  local left_out=$1 program=$2 file
  shift 2
  at_once mscview || return 0
  {
    if [[ " $*" == *' --from'[\ =]* || $1 == import ]]; then
      import_again "$left_out" "$program" "$@"
    elif file=$(file_among "$@"); then
      "$program" mscview tidy "$file" </dev/null
    fi
  } 2>/dev/null | awk '
    /^instances / { for (at = 2; at <= NF; at++) print $at; exit }
    /^instance [^ ]+;$/ { sub(/;$/, "", $2); print $2 }'
}

# The names that an option of a command line has, one on each line: of --join those of the diagram.
names_of() {
  local option=$1 value=''
  shift
  while (($# > 0)); do
    case $1 in
      --) return ;;
      "$option") value=${2-} ;;
      "$option"=*) value=${1#*=} ;;
      *) value='' ;;
    esac
    [[ $option != --join ]] || value=${value#*=}
    [[ -z $value ]] || tr , '\n' <<<"$value"
    shift
  done
}

# Says what is wrong with the names of a refused command line: which one --only or --join has twice, or which instances there are.
report_names() {
  local program=$1 option=--only left_out='' name
  local -a there=() options files
  local -A given=()
  shift
  # (the names of --join are looked up first)
  if [[ " $*" == *' --join'[\ =]* ]] &&
    { [[ $1 == import ]] || { sort_import '' "$@" && ! import_again '' "$program" "$@" >/dev/null 2>&1; }; }; then
    option=--join left_out=--join
  fi
  while IFS= read -r name; do
    if [[ -n ${given["x$name"]-} ]]; then
      echo "$option has $(quoted "$name") twice"
      return
    fi
    given["x$name"]=1
  done < <(names_of "$option" "$@")
  mapfile -t there < <(instances_of "$left_out" "$program" "$@")
  if ((${#there[@]} > 0)); then
    echo "the instances are $(listed and "${there[@]}")"
  else
    echo 'each name has to be that of an instance, and is given once'
  fi
}

# Says that a file has no such instance, and which it has, or that only one of two files has an instance.
report_instances() {
  local refusal=$1 program=$2
  local -a there=()
  shift 2
  if [[ $refusal == 'refused: F40 '* ]]; then
    echo "only one of the two recordings has this instance"
    return
  fi
  mapfile -t there < <(instances_of '' "$program" "$@")
  echo "the chart has no instance of this name${there[0]+: the instances are $(listed and "${there[@]}")}"
}

# Shows the place of a bad expression, a number of bytes from 1 on, by a caret below its line: at most 40 bytes before it, and 40
# from there on. (A caret goes below a character, and a byte that continues one takes no room.)
show_place() (
  LC_ALL=C
  text=$1 continues=$'[\x80-\xbf]' cut=40
  before=${text:0:$2-1} behind=${text:$2-1}
  before=${before##*$'\n'} behind=${behind%%$'\n'*}
  if ((${#before} > 40)); then
    before=${before: -40}
    while [[ $before == $continues* ]]; do before=${before:1}; done
    before=..$before
  fi
  if ((${#behind} > 40)); then
    while [[ ${behind:cut} == $continues* ]]; do cut=$((cut - 1)); done
    behind=${behind:0:cut}..
  fi
  before=${before//[[:cntrl:]]/ } behind=${behind//[[:cntrl:]]/ }
  width=${before//$continues/}
  printf '  | %s%s\n  | %*s\n' "$before" "$behind" $((${#width} + 1)) '^'
)

# Of what import writes of a log, its chart and its warnings, three lines for each two words that may be for one host: `alike`,
# where the names of the warning aren't the words of the log, or `alone`, the word of a host that has lines of its own and that
# no line names, and the word of a peer. Alone are those that are the only ones of their kind, if the host's lines don't name it.
# Nothing is reported of a word of which a warning can't show each byte, or where one `name` may be of a host or of a message.
words_for_one_host() {
  LC_ALL=C awk '
    function own(name) { return name in word ? word[name] : name }
    function is_unclear(name) { return name in message && has_word[name] == 1 }
    function report(kind, host, peer) {
      if (index(own(host), "=") || index(own(peer), ",") || own(host) own(peer) ~ /[?\\]/) return
      if (is_unclear(host) || is_unclear(peer)) return
      print kind; print own(host); print own(peer)
    }
    function begun(text) { sub(/;$/, "", text); return text }
    / has no line of its own$/ { lineless[$1] = 1 }
    /^[^ ]+ may be [^ ]+, which no line names as a peer: --peer / { alike[++many] = $1; hosts[many] = $4; sub(/,$/, "", hosts[many]) }
    /^name [^ ]+ is "/ { if (!has_word[$2]++) word[$2] = substr($0, length($2) + 11, length($0) - length($2) - 11) }
    /^[^ ]+ [0-9]+ is invented: / { invented[$1, $2] = 1 }
    /^instance [^ ]+;$/ { line[++lines] = begun($2); events = 0 }
    /^(out|in) [^ ]+ (to|from) [^ ]+;$/ { events++; message[$2]; event[++all] = line[lines] SUBSEP events; partner[all] = begun($4) }
    END {
      for (at = 1; at <= many; at++)
        if (own(alike[at]) != alike[at] || own(hosts[at]) != hosts[at]) report("alike", hosts[at], alike[at])
      for (at = 1; at <= all; at++) {
        if (event[at] in invented) continue
        named[partner[at]] = 1
        split(event[at], part, SUBSEP)
        by[part[1], partner[at]] = 1
      }
      for (at = 1; at <= lines; at++) {
        if (!(line[at] in lineless) && !(line[at] in named)) { host = line[at]; many_hosts++ }
        if (line[at] in lineless && line[at] in named) { peer = line[at]; many_peers++ }
      }
      if (many == 0 && many_hosts == 1 && many_peers == 1 && !((host, peer) in by)) report("alone", host, peer)
    }'
}

# Reports a log, of which some warnings are `of_hosts`, which of its words may be for one host. Import reads it once more, if it
# is short or on a terminal; else there are only these warnings.
report_hosts() {
  local program=$1 text again kind host peer
  shift
  text=$(printf '%s\n' "${of_hosts[@]}")
  if [[ -t 2 ]] || is_short_import "$@"; then
    ! again=$(import_again '' "$program" "$@" 2>&1) || text=$again
  fi
  while IFS= read -r kind && IFS= read -r host && IFS= read -r peer; do
    case $kind in
      alike) echo "--peer takes the words of the log: --peer $(quoted "$host=$peer")" ;;
      alone) echo "$peer may be $host, which no line names as a peer: --peer $(quoted "$host=$peer")?" ;;
    esac
  done < <(words_for_one_host <<<"$text")
}
