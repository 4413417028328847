# shellcheck shell=bash
# Functions for the scripts that run or keep the program. They want the repository's folder in `top`.
#
# out/lowfare-SUM is the program that was proved and built of the sources whose checksum is SUM, by the kit that is in that sum
# too. It is put there in one step and never changed, so what is run depends on what the sources say, and on no file's time.

: "${top:?}"

# The lines of crates.txt on the program, or on the crate that root_crate names, and the crates that it stands on, each after those
# below it.
program_lines() {
  awk -v root="${root_crate:-lowfare_cli}" '
    function visit(name, names, count, i) {
      if (name in wanted) return
      wanted[name] = 1
      count = split(below[name], names, " ")
      for (i = 1; i <= count; i++) if (names[i] in line) visit(names[i])
    }
    function tell(name, names, count, i) {
      if (name in told) return
      told[name] = 1
      count = split(below[name], names, " ")
      for (i = 1; i <= count; i++) if (names[i] in line) tell(names[i])
      print line[name]
    }
    { sub(/#.*/, "") }
    /:/ { split($0, parts, ":"); split(parts[1], words, " "); order[++last] = words[1]; line[words[1]] = $0; below[words[1]] = parts[2] }
    END {
      visit(root)
      for (at = 1; at <= last; at++) if (order[at] in wanted) tell(order[at])
    }
  ' "$top/crates.txt"
}

# The names of these crates.
program_crates() {
  program_lines | sed -E 's/[ :].*//'
}

# The checksum of all that the program is proved and built of: the sources, and the kit that proves and builds them.
source_sum() {
  local kit crate part parts=()
  # The input is the program's, and may be a folder.
  kit=$(rt version </dev/null) && [ -n "$kit" ] || return
  for crate in $(program_crates); do
    for part in src specs proofs; do
      if [ -d "$top/crates/$crate/$part" ]; then parts+=("crates/$crate/$part"); fi
    done
  done
  {
    echo "$kit" && program_lines && cd "$top" && sha256sum HANDLES && find "${parts[@]}" -type f -print0 | LC_ALL=C sort -z | xargs -0 sha256sum
  } | sha256sum | cut -d ' ' -f 1
}

# Where the program of these sources is kept: by the checksum.
kept_program() {
  echo "$top/out/lowfare-$1"
}

# Keeps a program that was proved and built of the sources of this checksum.
keep_program() {
  local new=$top/out/new-$$
  mkdir -p "$top/out" && cp "$1" "$new" && mv "$new" "$(kept_program "$2")"
}

# What tells whether a file that the checksum is made of was changed, put in another's place, added or removed since: of each its
# place, its kind, device and number, its size, and when it and what the system knows of it changed last. Wants the file rt.
listing() {
  cd "$top" || return
  shopt -s nullglob
  find crates.txt HANDLES launch/proved.sh "$1" "${1%/*/*}/KIT-ID" crates/*/src crates/*/specs crates/*/proofs -printf '%p %y %D %i %s %T@ %C@\n' 2>/dev/null || true
}

# The checksum that was made of the files as they are listed now, without making it again; fails where there is none. The time at
# which the system changed what it knows of a file can't be set by a program, so what could fool it is a clock that was set back, a
# file system without that time, or a write to a file that a program has mapped into its memory since before the checksum.
listed_sum() {
  local sum
  read -r sum 2>/dev/null <"$top/out/listed" && { echo "$sum" && listing "$1"; } | cmp -s - "$top/out/listed" && echo "$sum"
}

# Makes the checksum and notes what the files look like, unless one of them changed in the last five seconds or meanwhile: a later
# change could then leave the same times.
summed() {
  local rt=$1 began before sum
  began=$(date +%s)
  before=$(listing "$rt") || true
  sum=$(source_sum) || return
  echo "$sum"
  if ! awk -v began="$began" '$NF > began - 5 { exit 1 }' <<<"$before" || [ "$(listing "$rt")" != "$before" ]; then return; fi
  if mkdir -p "$top/out" 2>/dev/null && printf '%s\n' "$sum" "$before" 2>/dev/null >"$top/out/listed-$$"; then
    mv "$top/out/listed-$$" "$top/out/listed" || true
  fi
}

# Copies what the program is proved of into a folder that is a repository of its own. (`rt ci NAME..` does the same, and throws the
# program away with its copy.) The edits that must be refused are left out: they say something of the contracts, not of the program.
copy_sources() {
  local crate
  mkdir -p "$1/crates" "$1/.git" && program_lines >"$1/crates.txt" && cp "$top/HANDLES" "$1" || return
  for crate in $(program_crates); do
    (cd "$top" && tar --exclude="crates/$crate/out" --exclude="crates/$crate/must-fail" -cf - "crates/$crate") | tar -C "$1" -xf - || return
  done
}

# Proves, builds and runs the repository in the folder where it is called, by the gate's own command. One process for each task:
# several for one proof took a third more of the processors, of the one crate where that was measured. With a fixed number
# `rt ci` doesn't plan by memory, so three at most. What a proof frees stays with its process: giving it back and taking it again
# took a twenty-fifth of the time of a crate.
prove_all() {
  local lanes
  lanes=$(nproc)
  MIMALLOC_PURGE_DELAY=-1 RT_JOBS=$((lanes < 3 ? lanes : 3)) rt ci
}
