#!/usr/bin/env bash
# Measures the C interface over the library that make_lib built: bench/embedding.sh CASE.. prints for each search case how long
# opening takes and a search on the open book, what the program takes for the same with its start and its reading, what the book
# holds of memory, and how many searches a second one to eight threads do. With `--alone CASE..` it prints how long the search
# itself takes, with no text read or made, by a program of its own, which is proved and built over the libraries that are built here
# already. With `--equal COUNT` it compares so many random cases with the program's bytes. Run it on a machine with nothing else to
# do.
set -euo pipefail
top=$(cd "$(dirname "$0")/.." && pwd)
export LOWFARE_LIBRARY=$top/out/liblowfare.so PYTHONPATH=$top/bindings/python
python=${PYTHON:-/usr/bin/python3}
work=$(mktemp -d)
trap 'rm -rf "$work"' EXIT

# Times the search alone. A .rt file may stand only in a crate that is listed, so the program becomes one in a copy.
search_alone() {
  local library crate case
  tar -C "$top" --exclude='crates/*/out' -cf - crates crates.txt HANDLES | tar -C "$work" -xf -
  for library in "$top"/crates/*/out/rlib; do
    [ -d "$library" ] || continue
    crate=$work${library#"$top"}
    mkdir -p "${crate%/rlib}" && cp -a "$library" "$crate"
  done
  mkdir -p "$work/crates/search_alone/src"
  cp "$top/bench/embedding/main.rt.txt" "$work/crates/search_alone/src/main.rt"
  echo 'search_alone: fare_law fare_io fare_book fare_component search_core whole_case certificate residual_keys shop_book lowfare' >>"$work/crates.txt"
  (cd "$work/crates/search_alone" && rt run <"$1" >/dev/null 2>"$work/build") || { tail -n 30 "$work/build" >&2; exit 1; }
  for case in "$@"; do
    echo "$case"
    "$work/crates/search_alone/out/search_alone" <"$case"
  done
}

if [ "${1:-}" = --alone ]; then
  search_alone "${@:2}"
  exit
fi
# shellcheck source=trials/survey/program.sh
source "$top/trials/survey/program.sh"
if [ "${1:-}" = --equal ]; then
  "$python" "$top/bench/embedding/equal.py" "${program:?}" "$2"
  exit
fi
cc -std=c11 -D_GNU_SOURCE -O2 -I"$top/include" "$top/bench/embedding/figures.c" -o "$work/figures" "$top/out/liblowfare.a" -lm -pthread
for case in "$@"; do
  "$work/figures" "$case" "${SECONDS_EACH:-5}"
  "$python" - "${program:?}" "$case" <<'END'
import subprocess, sys, time

program, case = sys.argv[1:]
with open(case, "rb") as text:
    data = text.read()
took = []
for _ in range(7):
    began = time.perf_counter()
    subprocess.run([program, "search", "--budget", "1000000"], input=data, stdout=subprocess.DEVNULL, check=False)
    took.append(time.perf_counter() - began)
print(f"  the program: {min(took) * 1000:.3f} ms")
END
done
