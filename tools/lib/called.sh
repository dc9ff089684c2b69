# shellcheck shell=bash
# Read by ./build, ./test, ./install, ./uninstall, ./package and ./playground, before they do anything.

# Says what a command is for, by the description that its file begins with, where one of its words asks for that. Refuses
# another word that begins with a dash, which would be the name of a file or a folder else, and more words than MOST.
heed_words() {
  local file=$1 most=$2 command=${1##*/} word
  shift 2
  for word; do
    case $word in
      --help | -h)
        sed -n '1d; /^#/!q; s/^# \{0,1\}//p' "$file"
        exit 0
        ;;
      -*)
        echo "$command: no option $word; ./$command --help says what there is" >&2
        exit 1
        ;;
    esac
  done
  if (($# > most)); then
    echo "$command: ${*:most + 1:1} is a word too many; ./$command --help says what there is" >&2
    exit 1
  fi
}
