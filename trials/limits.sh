#!/usr/bin/env bash
# One input at each limit and one past it, made by limits/inputs.py: what comes, in what time and memory, beside the reference or another
# program of the same formats that PEER names: trials/limits.sh [DONE], where the folder DONE keeps what was measured. Needs /usr/bin/time.
set -euo pipefail
top=$(cd "$(dirname "$0")/.." && pwd)
# shellcheck source=trials/survey/program.sh
source "$top/trials/survey/program.sh"
done=${1:-$(mktemp -d)}
survey limits/limits.py "$program" "${peer:?}" "$done"
