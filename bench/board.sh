#!/usr/bin/env bash
# Times the search of a case with no board, by one pass of a board alone, and by one after or beside others:
# bench/board.sh CASE [RUNS]. Of each way it prints the run that was fastest. The program is proved and built like each other one, over
# the libraries that are built here already. Run it on a machine with nothing else to do.
set -euo pipefail
top=$(cd "$(dirname "$0")/.." && pwd)
case=$(realpath "$1") runs=${2:-5}
mkdir -p "$top/out"
copy=$(mktemp -d "$top/out/board-XXXXXX")
trap 'rm -rf "$copy"' EXIT

# A .rt file may stand only in a crate that is listed, so the program becomes one in a copy.
tar -C "$top" --exclude='crates/*/out' -cf - crates crates.txt HANDLES | tar -C "$copy" -xf -
for library in "$top"/crates/*/out/rlib; do
  [ -d "$library" ] || continue
  crate=$copy${library#"$top"}
  mkdir -p "${crate%/rlib}" && cp -al "$library" "$crate"
done
mkdir -p "$copy/crates/board_bench/src" "$copy/crates/board_bench/proofs/workers"
cp "$top/bench/board/main.rt.txt" "$copy/crates/board_bench/src/main.rt"
cp "$top/bench/board/Invariants.antt.txt" "$copy/crates/board_bench/proofs/workers/Invariants.antt"
echo 'board_bench: core fare_law fare_io fare_book fare_component node_publish search_core shared_board whole_case atomic_table certificate residual_keys' >>"$copy/crates.txt"
cd "$copy/crates/board_bench"
rt run <"$case" >"$copy/lines" 2>"$copy/build.txt" || { cat "$copy/build.txt" >&2; exit 1; }
echo "$(nproc) cores, $(sed -n 's/^model name[^:]*: //p' /proc/cpuinfo | head -n 1)"
for _ in $(seq "$((runs - 1))"); do out/board_bench <"$case" >>"$copy/lines"; done
sort -t: -k1,1 -k2,2n "$copy/lines" | awk -F: '!seen[$1]++'
