#!/bin/sh
# Times the kernels of lane_mask against plain loops, in a copy of the repository that is removed
# again. The program is proved and built like each other one. Where rustc is there, the plain loops
# are built by it too. Run it at the top of the repository.
set -eu

top=$(cd "$(dirname "$0")/.." && pwd)
copy=$(mktemp -d)
trap 'rm -rf "$copy"' EXIT

mkdir -p "$copy/crates/lane_mask" "$copy/crates/lane_mask_bench/src"
cp -r "$top/crates/lane_mask/src" "$top/crates/lane_mask/specs" "$top/crates/lane_mask/proofs" "$copy/crates/lane_mask"
cp "$top/bench/lane_mask/main.rt.txt" "$copy/crates/lane_mask_bench/src/main.rt"
cp "$top/HANDLES" "$copy"
printf 'lane_mask:\nlane_mask_bench: lane_mask\n' >"$copy/crates.txt"

cd "$copy/crates/lane_mask_bench"
rt run >"$copy/log" 2>&1 || { cat "$copy/log"; exit 1; }
echo "$(nproc) cores, $(sed -n 's/^model name[^:]*: //p' /proc/cpuinfo | head -n 1)"
echo "this repository:"
./out/lane_mask_bench
if command -v rustc >/dev/null; then
    rustc -O -C target-cpu=x86-64-v2 -o "$copy/plain" "$top/bench/lane_mask/plain.rs"
    echo "$(rustc --version), the plain loops alone:"
    "$copy/plain"
fi
