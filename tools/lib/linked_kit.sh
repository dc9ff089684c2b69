# shellcheck shell=bash
# Read by what keeps something of what the kit's clang is given or makes while rt is at work.

# The folder of the Rattle kit.
place_of_kit() { dirname "$(rt doc 2>/dev/null)"; }

# Makes in a folder a kit of links to the one at this place, whose clang is a script of these lines on standard input. rt goes
# by the place of its own file, so its files are copies.
link_kit() {
  local place=$1 folder=$2 it
  mkdir -p "$folder/bin" "$folder/toolchain/bin"
  for it in "$place"/* "$place"/bin/* "$place"/toolchain/* "$place"/toolchain/bin/*; do
    case ${it#"$place"/} in
      bin | toolchain | toolchain/bin | toolchain/bin/clang) ;;
      bin/rt*) cp "$it" "$folder/${it#"$place"/}" ;;
      *) ln -sfn "$(realpath "$it")" "$folder/${it#"$place"/}" ;;
    esac
  done
  { echo '#!/usr/bin/env bash' && cat; } >"$folder/toolchain/bin/clang" && chmod +x "$folder/toolchain/bin/clang"
}
