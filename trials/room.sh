#!/usr/bin/env bash
# Runs each command on the worked cases and on made ones in twenty sizes of address space, from the least in which the program starts to one in
# which the command ends, and in twenty sizes of stack from 256 KB on: trials/room.sh [DONE], where the folder DONE keeps how far each run came.
# A run that was cut off goes on where it was.
set -euo pipefail
top=$(cd "$(dirname "$0")/.." && pwd)
# shellcheck source=trials/survey/program.sh
source "$top/trials/survey/program.sh"
done=${1:-$(mktemp -d)}
echo "how far each run came: $done"
survey room/room.py "$program" "$done"
