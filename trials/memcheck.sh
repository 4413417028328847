#!/usr/bin/env bash
# Runs the program under valgrind's memcheck on each example and on the worked cases: no read or write outside what was allocated, no
# value used before it is written, nothing lost, and the same text and status: trials/memcheck.sh [DONE], where the folder DONE keeps
# how far it came. A run that was cut off goes on where it was. Needs valgrind, and a second or more a case.
set -euo pipefail
top=$(cd "$(dirname "$0")/.." && pwd)
# shellcheck source=trials/survey/program.sh
source "$top/trials/survey/program.sh"
done=${1:-$(mktemp -d)}
echo "how far the run came: $done"
survey memcheck/memcheck.py "$program" "$done"
