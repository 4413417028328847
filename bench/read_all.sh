#!/bin/bash
# Times reading 64 MiB whole: `read_all` against Rust's `read_to_end`. It works in a copy of the
# repository, and prints the best of 20 runs of each, from a file and from a pipe.
set -euo pipefail

top=$(cd "$(dirname "$0")/.." && pwd)
copy=$(mktemp -d)
trap 'rm -rf "$copy"' EXIT
tar -C "$top" --exclude=out --exclude=.git -cf - . | tar -C "$copy" -xf -

crate=$copy/crates/read_all_bench
mkdir -p "$crate/src"
cp "$top/bench/read_all/main.rt.txt" "$crate/src/main.rt"
echo 'read_all_bench: fare_io' >> "$copy/crates.txt"
(cd "$crate" && rt run < /dev/null > "$copy/build.txt" 2>&1) || { cat "$copy/build.txt"; exit 1; }
rustc -O -o "$copy/peer" "$top/bench/read_all/peer.rs"
head -c 67108864 /dev/urandom > "$copy/input"

from_file() { "$1" < "$copy/input" > /dev/null; }
# shellcheck disable=SC2002 # a pipe is what is timed
from_pipe() { cat "$copy/input" | "$1" > /dev/null; }

# How long one run took, in microseconds.
taken() {
    local start=${EPOCHREALTIME/./}
    "$@"
    echo $((${EPOCHREALTIME/./} - start))
}

ours=$crate/out/read_all_bench
theirs=$copy/peer
for program in "$ours" "$theirs"; do
    # shellcheck disable=SC2094 # both only read it
    "$program" < "$copy/input" | cmp - "$copy/input"
done
# The runs of the two take turns, so that both meet the same machine.
for way in from_file from_pipe; do
    for _ in {1..20}; do
        taken "$way" "$ours" >> "$copy/$way.ours"
        taken "$way" "$theirs" >> "$copy/$way.theirs"
    done
    a=$(sort -n "$copy/$way.ours" | head -1)
    b=$(sort -n "$copy/$way.theirs" | head -1)
    echo "$way: read_all $a us, read_to_end $b us, $((a * 100 / b)) %"
done
