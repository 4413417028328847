#!/usr/bin/env bash
# What the time and the room of each stage grow with: bench/growth.sh [--larger] [--times N] [--only STAGE[,STAGE ..]]. It makes cases in doubling
# sizes (growth/stages.py), takes processor time and memory of the program that ./lowfare keeps or that LOWFARE names, and prints the exponents;
# docs/GROWTH.md says what they are to be. Some minutes, and with --larger some ten. Needs /usr/bin/time. Nothing of it is proved.
set -euo pipefail
top=$(cd "$(dirname "$0")/.." && pwd)
# shellcheck source=trials/survey/program.sh
source "$top/trials/survey/program.sh"
PYTHONDONTWRITEBYTECODE=1 python3 "$top/bench/growth/growth.py" "$program" "$@"
