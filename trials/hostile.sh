#!/usr/bin/env bash
# Runs all that is tried against the program, one part after the other, and prints the tables for docs/RELIABILITY.md:
# trials/hostile.sh DONE [CASES [PART ..]]. CASES says how many random cases are compared with the reference, or with another program of the
# same formats that PEER names (100,000), and the parts are memory, room, streams, damage, limits, differ, fuzz, desks and memcheck. The folder DONE
# keeps how far each part came: called again with it, a run that was cut off goes on, and what is done isn't done again. JOBS is how many runs
# there are at a time (1).
set -euo pipefail
top=$(cd "$(dirname "$0")/.." && pwd)
# shellcheck source=trials/survey/program.sh
source "$top/trials/survey/program.sh"
done=$1 cases=${2:-100000}
parts=("${@:3}")
[ ${#parts[@]} -gt 0 ] || parts=(memory room streams damage limits differ fuzz desks memcheck)
export LOWFARE=$program DONE=$done

mkdir -p "$done"
sum=$(sha256sum <"$program")
if [ "$(cat "$done/program" 2>/dev/null || echo "$sum")" != "$sum" ]; then
  echo "$done has the results of another program: name another folder" >&2
  exit 1
fi
echo "$sum" >"$done/program"

status=0
for part in "${parts[@]}"; do
  echo "$(date -u +%H:%M:%S) $part"
  case $part in
    memory | room | streams | memcheck | damage | limits) "$top/trials/$part.sh" "$done" ;;
    differ | fuzz | desks) "$top/trials/$part.sh" 1 "$cases" ;;
    *) echo "no such part: $part" >&2 && exit 2 ;;
  esac || status=1
done
survey survey/report.py "$done"
exit "$status"
