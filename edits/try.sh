#!/usr/bin/env bash
# Tries the edits that the prover must refuse, those in edits/CRATE and in the crate's own must-fail folder (the gate tries the
# latter alone), and writes what becomes of each to edits/VERDICTS as soon as it is known. An edit whose verdict is of its crate
# as it stands isn't tried again, so a run that was cut off goes on where it was. Ends with status 0 where each that was tried is
# refused for what its crate says.
#
#   edits/try.sh [--anew]           of all crates, the lowest first
#   edits/try.sh [--anew] COMMIT    of the crates whose files or edits differ from that commit's
#   edits/try.sh [--anew] CRATE..   of these crates
#
# With --anew those are tried too whose verdict is up to date. A crate takes a whole check, in which most of its edits are tried
# together (edits/together.py), and ten to sixty seconds for each check after it. It works at the lowest priority and with one job,
# or as many as RT_JOBS says, over a copy of the files as they stand when it starts: so it can run for a night beside other work.
set -euo pipefail
top=$(dirname "$(dirname "$(readlink -f "${BASH_SOURCE[0]}")")")
cd "$top"
renice -n 19 $$ >/dev/null 2>&1 || true
export RT_JOBS=${RT_JOBS:-1}
anew=()
if [ "${1:-}" = --anew ]; then
  anew=(--anew)
  shift
fi

# The crates that are named in paths such as crates/NAME/src/lib.rt and edits/NAME/one.edit.
crates_of() {
  sed -nE 's,^(crates|edits)/([^/]+)/.*,\2,p' | sort -u
}

if [ $# -eq 0 ]; then
  mapfile -t names < <(find crates edits -path '*/out' -prune -o -name '*.edit' -print | crates_of)
elif [ -d "crates/$1" ]; then
  names=("$@")
else
  commit=$(git rev-parse --verify "$1^{commit}")
  mapfile -t names < <({ git diff --name-only "$commit" -- crates edits; git ls-files --others --exclude-standard crates edits; } | crates_of)
fi
copy=$(mktemp -d)
trap 'rm -rf "$copy"' EXIT
tar --exclude='crates/*/out' -cf - crates crates.txt HANDLES edits | tar -xf - -C "$copy"
# What `rt ci` keeps of these sources on this machine needs no second proof.
python3 docs/authors/kept-libraries "$copy" ${names[@]+"${names[@]}"} 2>/dev/null || true
mapfile -t lines < <(python3 edits/verdicts.py due "$copy" ${anew[@]+"${anew[@]}"} ${names[@]+"${names[@]}"})
if [ ${#lines[@]} -eq 0 ]; then
  echo 'the verdict of each edit is of its crate as it stands'
  exit 0
fi
echo "$(for line in "${lines[@]}"; do wc -w <<<"$line"; done | awk '{ n += $1 - 1 } END { print n }') edits to try"

# So that no other edit is tried than those that are named.
for folder in "$copy"/crates/*/must-fail; do
  [ -d "$folder" ] || continue
  crate=$(basename "$(dirname "$folder")")
  mkdir -p "$copy/edits/$crate"
  mv "$folder"/*.edit "$copy/edits/$crate"
  rm -r "$folder"
done

# Whether the crate is proved as it stands: over one that isn't, each edit would seem refused.
is_proved() {
  # The mark of kept-libraries at what the gate proved.
  if [ -e "$copy/crates/$1/out/rlib/of_gate" ]; then return; fi
  if (cd "$copy/crates/$1" && rt check --jobs "$RT_JOBS") >"$copy/checked" 2>&1; then return; fi
  tail -n 20 "$copy/checked"
  echo "$1: it isn't proved as it stands, so none of its edits is tried"
  return 1
}

# Tries some edits of a crate, each in a check of its own.
try_alone() {
  local crate=$1 edit folder=$copy/crates/$1/must-fail
  shift
  rm -rf "$folder"
  mkdir "$folder"
  for edit in "$@"; do cp "$copy/edits/$crate/$edit.edit" "$folder"; done
  (cd "$copy" && rt must-fail "$crate" ${anew[@]+"${anew[@]}"}) >"$copy/said" 2>&1 || true
  rm -rf "$folder"
  python3 edits/verdicts.py record . "$copy" "$crate" "$copy/said" || return
  if [ "$(grep -cE '^rt: must-fail [^ ]+: (refused|NOT REFUSED|BAD EDIT)' "$copy/said")" -ne $# ]; then
    echo "$crate: not each of its edits was tried: $(grep -E '^rt: .*NOT TRIED' "$copy/said" || tail -n 3 "$copy/said")"
    return 1
  fi
}

# Tries the edits of a crate, many in one check, and then those that such a check can't tell of.
try_crate() {
  local crate=$1 status=0 alone
  shift
  python3 edits/together.py . "$copy" "$crate" "$@" | tee "$copy/together" | sed '/^alone:/d'
  if grep -qE '^[^ ]+: (let-through|bad|refused-by)' "$copy/together"; then status=1; fi
  read -ra alone < <(sed -n 's/^alone://p' "$copy/together")
  while [ ${#alone[@]} -gt 0 ]; do
    if ! try_alone "$crate" "${alone[@]:0:8}"; then status=1; fi
    alone=("${alone[@]:8}")
  done
  return "$status"
}

status=0
for line in "${lines[@]}"; do
  read -ra words <<<"$line"
  if ! is_proved "${words[0]}" || ! try_crate "${words[@]}"; then status=1; fi
done
exit "$status"
