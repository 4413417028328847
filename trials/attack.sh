#!/usr/bin/env bash
# The worst case that its author could think of for each table with a hash and each list that is gone through, against a harmless case of its
# size and count of residuals: trials/attack.sh [--scale PART] [--times N] [--only ATTACK[,ATTACK ..]] [--judge]. The program is the one that
# ./lowfare keeps, or that LOWFARE names. MOST_SECONDS (120) and MOST_MEGABYTES (4000) bound each run. Needs /usr/bin/time. Nothing of it is
# proved.
set -euo pipefail
top=$(cd "$(dirname "$0")/.." && pwd)
# shellcheck source=trials/survey/program.sh
source "$top/trials/survey/program.sh"
PYTHONPATH=$top/bench/growth PYTHONDONTWRITEBYTECODE=1 python3 "$top/trials/attack/attack.py" "$program" "$@"
