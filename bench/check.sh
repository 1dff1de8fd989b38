#!/bin/sh
# Times `secomp check` on texts of 1, 2, 4 and 8 MiB, and `clang -fsyntax-only` on the same functions. They have a
# loop, a branch, an array and a call each, and stand in 31 compartments.
# Usage: bench/check.sh [PROGRAM]. PROGRAM is a built secomp (by default what ./secomp runs).
# It prints, for each text and program, the seconds of the fastest of three runs, MB/s, and the most memory in MiB.
set -e
top=$(cd "$(dirname "$0")/.." && pwd)
program=${1:-$top/secomp}
work=$(mktemp -d)
trap 'rm -rf "$work"' EXIT
. "$top/bench/texts.sh"

for size in 1048576 2097152 4194304 8388608; do
    text $size > "$work/text.c"
    bytes=$(wc -c < "$work/text.c")
    tell secomp "$bytes" "$program" check
    tell clang "$bytes" clang -w -fsyntax-only "$work/text.c"
done
