#!/usr/bin/env bash
# Makes every call of the C interface so many times over the one-way case, under valgrind and with the address sanitizer, over the library that
# make_lib leaves: trials/rounds.sh [ROUNDS], a thousand where none are said. Fails where a block is lost or an access is wrong.
set -euo pipefail
top=$(cd "$(dirname "$0")/.." && pwd)
rounds=${1:-1000}
work=$(mktemp -d)
trap 'rm -rf "$work"' EXIT
flags=(-std=c11 -Wall -Wextra -Werror -g -O1 -I"$top/include")
cc "${flags[@]}" "$top/bench/embedding/rounds.c" -o "$work/plain" "$top/out/liblowfare.a" -lm
cc "${flags[@]}" -fsanitize=address "$top/bench/embedding/rounds.c" -o "$work/sanitized" "$top/out/liblowfare.a" -lm
"$work/sanitized" "$top/examples/one-way.case" "$rounds"
echo "address sanitizer: $rounds rounds, nothing found"
valgrind -q --leak-check=full --error-exitcode=1 "$work/plain" "$top/examples/one-way.case" "$rounds"
echo "valgrind: $rounds rounds, nothing found"
