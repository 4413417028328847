# shellcheck shell=bash
# How ./try keeps what `rt try` builds, for which the toolchain has no word of its own: `rt try` works in a copy of the kit that is
# links to the kit's files but for the linker, and in the linker's place stands a script that calls it and keeps what it linked. So
# what is kept is what `rt try` itself compiles and runs: not optimised, and with checks that stop it at what a proof rules out.

# Makes the copy of the kit whose command rt is at $1 in the folder $2, which keeps what is linked in the file $3.
kit_that_keeps() {
  local kit=${1%/*/*} name
  mkdir -p "$2/bin" "$2/toolchain/bin" || return
  for name in "$kit"/* "$kit"/bin/* "$kit"/toolchain/* "$kit"/toolchain/bin/*; do
    case ${name#"$kit"/} in
      bin | toolchain | toolchain/bin | toolchain/bin/ld.lld) ;;
      # These two look where they themselves are.
      bin/rt | bin/rtlib.py) cp "$name" "$2/bin" ;;
      *) ln -s "$name" "$2/${name#"$kit"/}" ;;
    esac || return
  done
  [ -x "$kit/toolchain/bin/ld.lld" ] || return
  {
    echo '#!/bin/bash'
    printf '%q "$@" || exit\n' "$kit/toolchain/bin/ld.lld"
    printf 'if [ -x program ]; then /bin/cp program %q-new && /bin/mv %q-new %q; fi\n' "$3" "$3" "$3"
  } >"$2/toolchain/bin/ld.lld"
  chmod +x "$2/toolchain/bin/ld.lld"
}
