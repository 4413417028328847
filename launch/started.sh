# shellcheck shell=bash
# How ./lowfare and ./try start the program that they found. It wants their calls `say` and `fail`.

# Runs the program with the words and the standard input, and ends with its status. Where a person looks on, they are told what is
# waited for, and after a refusal where it is explained; a pipe whose reader has gone, as head does when it has enough, is no news, so
# the program's line on it isn't shown. Elsewhere nothing is said but by the program, which then takes this process's place.
start_program() {
  local program=$1 said status=0
  shift
  if [ ! -t 2 ]; then
    exec "$program" "$@" || fail 'the program could not be started'
  fi
  case "${1:-}" in
    search | check | serve | calendar | verdict)
      if [ -t 0 ]; then say 'waiting for a case from the terminal, up to its end (Ctrl-D); or give a file: < examples/one-way.case'; fi
      ;;
  esac
  { said=$("$program" "$@" 2>&1 >&3) || status=$?; } 3>&1
  if [ -n "$said" ] && { [ "$status" -ne 4 ] || [ ! -p /dev/stdout ]; }; then echo "$said" >&2; fi
  case $status in
    1) say 'see docs/FORMATS.md#refusals' ;;
    2) say 'see docs/FORMATS.md#the-words' ;;
  esac
  exit "$status"
}
