#!/usr/bin/env bash
# Changes the examples at random and compares the program with the reference, or with another program of the same formats that PEER names,
# byte for byte and by status: trials/fuzz.sh FIRST COUNT. What was counted and the cases that differ are kept in the folder that DONE names,
# or in a new one.
set -euo pipefail
top=$(cd "$(dirname "$0")/.." && pwd)
# shellcheck source=trials/survey/program.sh
source "$top/trials/survey/program.sh"
first=$1 count=$2
done=${DONE:-$(mktemp -d)}
echo "how far the run came, and cases that differ: $done"
survey fuzz/fuzz.py "$program" "${peer:?}" "$first" "$count" "$done"
