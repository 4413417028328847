#!/usr/bin/env bash
# Compares the C interface that make_lib built with the program, byte for byte and by status, on random cases of all commands:
# trials/library.sh FIRST COUNT. What was counted and the cases that differ are kept in the folder that DONE names, or in a new one.
set -euo pipefail
top=$(cd "$(dirname "$0")/.." && pwd)
# shellcheck source=trials/survey/program.sh
source "$top/trials/survey/program.sh"
export LOWFARE_LIBRARY=${LOWFARE_LIBRARY:-$top/out/liblowfare.so}
done=${DONE:-$(mktemp -d)}
echo "how far the run came, and cases that differ: $done"
export PYTHONPATH=$top/bindings/python:$top/trials/survey:$top/trials/differ PYTHONDONTWRITEBYTECODE=1
python3 "$top/trials/library/library.py" "${program:?}" "$1" "$2" "$done"
