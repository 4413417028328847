# shellcheck shell=bash
# For the scripts beside this folder. `program` is what LOWFARE names, else the proved program itself that ./lowfare keeps: what is
# loaded before it, or counts its memory, must not meet a shell.

: "${top:?}"
# shellcheck source=launch/proved.sh
source "$top/launch/proved.sh"
program=${LOWFARE:-$(kept_program "$(source_sum)")}
if [ ! -x "$program" ]; then
  echo "no program of these sources is kept yet: call ./lowfare once" >&2
  exit 1
fi

# The program to compare with: what PEER names, else the reference of this repository.
# shellcheck disable=SC2034
peer=${PEER:-$top/reference/run}

# Runs one of the surveys.
survey() {
  PYTHONPATH=$top/trials/survey:$top/trials/differ PYTHONDONTWRITEBYTECODE=1 python3 "$top/trials/$1" "${@:2}"
}
