#!/usr/bin/env bash
# Random cases of `serve`, whose every reply is compared with a search of the version that it names by the reference, or by another program
# of the same formats that PEER names: trials/desks.sh FIRST COUNT. What was counted, and the cases that are wrong, are kept in the folder that
# DONE names, or in a new one.
set -euo pipefail
top=$(cd "$(dirname "$0")/.." && pwd)
# shellcheck source=trials/survey/program.sh
source "$top/trials/survey/program.sh"
first=$1 count=$2
done=${DONE:-$(mktemp -d)}
echo "how far the run came, and cases that are wrong: $done"
survey desks/desks.py "$program" "${peer:?}" "$first" "$count" "$done"
