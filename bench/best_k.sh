#!/usr/bin/env bash
# Draws the 1,000 least derivations from a lattice of 1,000,000 nodes with 10,000,000 leaf choices, by best_k and by the same
# algorithm in plain Rust, in turn: bench/best_k.sh [RUNS]. Prints the least wall time and the greatest peak memory of each; both
# must print the same derivations. Needs rt, rustc and /usr/bin/time.
set -euo pipefail
top=$(cd "$(dirname "$0")/.." && pwd)
runs=${1:-7}
work=$(mktemp -d)
trap 'rm -rf "$work"' EXIT

# A .rt file may stand only in a crate that is listed, so the program becomes one in a copy of best_k and the crates below it.
below() {
  local crate names
  read -ra names < <(sed -nE "s/^$1:([^#]*).*/\1/p" "$top/crates.txt")
  for crate in "${names[@]}"; do
    if [ -d "$top/crates/$crate" ]; then below "$crate"; fi
  done
  echo "$1"
}
mkdir -p "$work/crates/bench/src" "$work/crates/bench/specs"
for crate in $(below best_k | awk '!seen[$1]++'); do
  tar -C "$top" --exclude="crates/$crate/out" --exclude="crates/$crate/must-fail" -cf - "crates/$crate" | tar -C "$work" -xf -
  grep "^$crate:" "$top/crates.txt" >>"$work/crates.txt"
done
echo 'bench: best_k fare_law' >>"$work/crates.txt"
cp "$top/HANDLES" "$work/HANDLES"
cp "$top/bench/best_k/main.rt.txt" "$work/crates/bench/src/main.rt"
cp "$top/bench/best_k/Chain.antt.txt" "$work/crates/bench/specs/Chain.antt"
echo 'pub mod Chain' >"$work/crates/bench/specs/Lib.antt"

(cd "$work/crates/bench" && rt run >"$work/ours.txt" 2>"$work/build.txt") || { cat "$work/build.txt" >&2; exit 1; }
rustc -O -C target-cpu=x86-64-v2 -o "$work/peer" "$top/bench/best_k/peer.rs"
"$work/peer" >"$work/peer.txt"
"$work/crates/bench/out/bench" >"$work/ours.txt"
cmp "$work/ours.txt" "$work/peer.txt"

for _ in $(seq "$runs"); do
  /usr/bin/time -a -o "$work/ours.times" -f "%e %M" "$work/crates/bench/out/bench" >/dev/null
  /usr/bin/time -a -o "$work/peer.times" -f "%e %M" "$work/peer" >/dev/null
done
for name in ours peer; do
  sort -n "$work/$name.times" | awk -v name="$name" '
    NR == 1 { least = $1 }
    $2 > most { most = $2 }
    END { printf "%s %.2f s, %.0f MB\n", name, least, most / 1000 }'
done
