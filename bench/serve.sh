#!/usr/bin/env bash
# Serves a case beside the peer: bench/serve.sh PEER CASE, where CASE is a search case. It is made a serve case with 8 desks,
# 24 searches and 20 later filings, each of which files the first fare of the case's first filing again at another price. Wall
# time, processor time and memory of one run each are shown; the texts may differ in their versions alone.
set -euo pipefail
top=$(cd "$(dirname "$0")/.." && pwd)
# shellcheck source=trials/survey/program.sh
source "$top/trials/survey/program.sh"
peer=$1 case=$2
folder=$(mktemp -d)
trap 'rm -r "$folder"' EXIT
python3 - "$case" > "$folder/case" <<'MAKE'
import json
import sys

DESKS, SEARCHES, LATER = 8, 24, 20
lines = open(sys.argv[1], encoding="ascii").read().split("\n")
request = lines.index("#request")
first = json.loads(lines[lines.index("#filings") + 1])
fare = next(action["put_fare"] for action in first["actions"] if "put_fare" in action)
later = [json.dumps({"actions": [{"put_fare": fare | {"amount": fare["amount"] + 2 * (n + 1)}}]}) for n in range(LATER)]
script = [f"desks {DESKS}"] + [f"{n % DESKS + 1} search 1" for n in range(SEARCHES)]
print("\n".join(lines[:request] + ["#later"] + later + lines[request : request + 2] + ["#script"] + script + ["#end"]))
MAKE
for each in "$program" "$peer"; do
  echo "$each"
  /usr/bin/time -f "%e s by the clock, %U s and %S s of the processors, %M KiB" "$each" serve --budget 1000000 < "$folder/case" > "$folder/text"
  head -1 "$folder/text"
done
