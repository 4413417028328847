#!/usr/bin/env bash
# Serves one case again and again in one process, eight desks beside a clerk that files without a pause, until so many seconds of the
# processors are taken, and tells how much memory the process has meanwhile, and how many blocks of the heap are left by one run and by ten:
# trials/soak.sh [SECONDS], 3,600 where none are said. The program is proved and built like each other one, over what is proved here already: run
# the gate or ./lowfare before. Fails where a run isn't done, where more runs leave more blocks, or where the memory grows by half.
set -euo pipefail
top=$(cd "$(dirname "$0")/.." && pwd)
# shellcheck source=trials/survey/program.sh
source "$top/trials/survey/program.sh"
seconds=${1:-3600}
mkdir -p "$top/out"
copy=$(mktemp -d "$top/out/soak-XXXXXX")
trap 'rm -rf "$copy"' EXIT

# A .rt file may stand only in a crate that is listed, so the program becomes one in a copy that is a repository of its own, which keeps what the
# gate's command builds.
root_crate=lowfare
copy_sources "$copy"
mkdir -p "$copy/crates/soak/src"
cp "$top/trials/soak/main.rt.txt" "$copy/crates/soak/src/main.rt"
echo 'soak: fare_law fare_io lowfare' >>"$copy/crates.txt"
(cd "$copy" && prove_all) >"$copy/build.txt" 2>&1 </dev/null || { tail -n 30 "$copy/build.txt" >&2; exit 1; }
"$program" make --seed 1 --size 20 | python3 "$top/trials/soak/case.py" >"$copy/case"
cc -O2 -Wall -fPIC -shared -o "$copy/refuse.so" "$top/trials/memory/refuse.c" -ldl -lpthread
python3 "$top/trials/soak/watch.py" "$copy/crates/soak/out/soak" "$copy/refuse.so" "$copy/case" "$seconds"
