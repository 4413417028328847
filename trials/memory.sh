#!/usr/bin/env bash
# Refuses memory to each command on the worked cases, one allocation after the other: trials/memory.sh [DONE], where the folder DONE
# keeps how far each run came. A run that was cut off goes on where it was.
set -euo pipefail
top=$(cd "$(dirname "$0")/.." && pwd)
# shellcheck source=trials/survey/program.sh
source "$top/trials/survey/program.sh"
done=${1:-$(mktemp -d)}
library=$(mktemp -d)/refuse.so
cc -O2 -Wall -fPIC -shared -o "$library" "$top/trials/memory/refuse.c" -ldl -lpthread
echo "how far each run came: $done"
survey memory/refuse.py "$program" "$library" "$done"
