#!/usr/bin/env bash
# Damages the worked cases byte by byte and compares the program with the reference, or with another program of the same formats that PEER
# names, byte for byte and by status: trials/damage.sh [DONE], where the folder DONE keeps how far each run came. A run that was cut off goes on
# where it was.
set -euo pipefail
top=$(cd "$(dirname "$0")/.." && pwd)
# shellcheck source=trials/survey/program.sh
source "$top/trials/survey/program.sh"
done=${1:-$(mktemp -d)}
echo "how far each run came: $done"
survey damage/damage.py "$program" "${peer:?}" "$done"
