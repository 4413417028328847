#!/usr/bin/env bash
# Runs each command on the worked cases with streams that are closed, fail, break, stall or take little at a time, and says what
# came: trials/streams.sh [DONE], where the folder DONE keeps the counts.
set -euo pipefail
top=$(cd "$(dirname "$0")/.." && pwd)
# shellcheck source=trials/survey/program.sh
source "$top/trials/survey/program.sh"
done=${1:-$(mktemp -d)}
libraries=$(mktemp -d)
cc -O2 -Wall -fPIC -shared -o "$libraries/streams.so" "$top/trials/streams/streams.c" -ldl
cc -O2 -Wall -fPIC -shared -o "$libraries/refuse.so" "$top/trials/memory/refuse.c" -ldl -lpthread
survey streams/streams.py "$program" "$libraries/streams.so $libraries/refuse.so" "$done"
