# shellcheck shell=bash
# Read by scripts that need the Rattle kit.

# Whether the kit is here; where it isn't, says what serves without it.
has_kit() {
  ! command -v rt >/dev/null || return 0
  echo "$1: this needs the Rattle kit, whose command rt isn't on the path." \
    "Ask whoever gave you this repository for its Debian package, or for its page for a browser." >&2
  return 1
}
