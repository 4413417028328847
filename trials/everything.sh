#!/usr/bin/env bash
# Runs all that docs/RELIABILITY.md and docs/GROWTH.md tell of, one part after another, and goes on where one fails: trials/everything.sh DONE PEER,
# where PEER is another program of the same formats and DONE a folder for what is counted and for a log of each part. Run the gate in this
# checkout before, which leaves the program and the C library. JOBS is how many runs there are at a time (4). Two hours and more.
set -uo pipefail
top=$(cd "$(dirname "$0")/.." && pwd)
done=$(realpath -m "$1") peer=$(realpath "$2")
export JOBS=${JOBS:-4}
mkdir -p "$done"

# Runs a part by its name and command, with a log of its own.
part() {
  local name=$1 status=0
  shift
  "$@" >"$done/$name.log" 2>&1 || status=$?
  echo "$(date -u +%H:%M:%S) $name: status $status" | tee -a "$done/log"
}

cd "$top" || exit
part growth bench/growth.sh
part attack trials/attack.sh
part memory trials/memory.sh "$done/plain"
part room trials/room.sh "$done/plain"
part streams trials/streams.sh "$done/plain"
part memcheck trials/memcheck.sh "$done/plain"
part rounds trials/rounds.sh
part damage env PEER="$peer" trials/damage.sh "$done/plain"
part limits env PEER="$peer" trials/limits.sh "$done/plain"
part differ env PEER="$peer" DONE="$done/plain" trials/differ.sh 9000001 700000
part fuzz env PEER="$peer" DONE="$done/plain" trials/fuzz.sh 40001 20000
part desks env PEER="$peer" DONE="$done/plain" trials/desks.sh 40001 20000
part library env DONE="$done/library" trials/library.sh 8000001 100000
part differ-reference env DONE="$done/reference" trials/differ.sh 40001 40000
part fuzz-reference env DONE="$done/reference" trials/fuzz.sh 50001 9000
part desks-reference env DONE="$done/reference" trials/desks.sh 50001 1000
part soak trials/soak.sh 3600
