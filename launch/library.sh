# shellcheck shell=bash
# How the library for C is built and kept, as the program is: out/library-SUM.a is the one that was proved and built of the
# sources whose checksum is SUM. Wants launch/proved.sh.

: "${top:?}"

# What makes the exports and builds them.
builder=$(dirname "$(readlink -f "${BASH_SOURCE[0]}")")/library.py

# What root_crate names in its place is proved and summed: the library stands on other crates than the program, and on the exports
# that are made of its calls.
library_sum() {
  local sum
  sum=$(root_crate=shop_book source_sum) || return
  { echo "$sum" && cat "$builder"; } | sha256sum | cut -d ' ' -f 1
}

# Where the library of these sources is kept: by the checksum.
kept_library() {
  echo "$top/out/library-$1.a"
}

# Builds the library over what `rt ci` proved and built in the checkout $1, and keeps it as that of the sources of the checksum $2:
# one archive of it and of the three functions on the heap that it calls of the toolchain's. By $3 processes, where that is given.
build_library() {
  local kit room
  kit=$(readlink -f "$(command -v rt)") && kit=${kit%/*/*} && room=$(mktemp -d) || return
  if MIMALLOC_PURGE_DELAY=-1 python3 "$builder" "$kit" "$1" "$room/built.a" ${3:+"$3"} >"$room/log" 2>&1 && grep -q '^logic=proved' "$room/log" &&
    (cd "$room" && ar x built.a && ar x "$kit/c/liblibc_c.a" heap.pic.o && ar rcs whole.a ./*.o) &&
    mkdir -p "$top/out" && cp "$room/whole.a" "$top/out/new-$$" && mv "$top/out/new-$$" "$(kept_library "$2")"; then
    rm -rf "$room"
  else
    tail -n 30 "$room/log" >&2
    rm -rf "$room"
    return 1
  fi
}
