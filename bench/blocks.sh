#!/bin/sh
# Runs a program whose compartment ever has more than 2^32 variables: a function of 4,000 locals, called 1,100,000
# times.
# Usage: bench/blocks.sh [PROGRAM]. PROGRAM is a built secomp, by default what ./secomp runs. Numbers of variables
# have 64 bits, so the run goes to its end as every other: the script prints what the program prints and the seconds
# that it took, and fails where the answer isn't the end of `main`.
set -e
top=$(cd "$(dirname "$0")/.." && pwd)
program=${1:-$top/secomp}
work=$(mktemp -d)
trap 'rm -rf "$work"' EXIT

{
    echo '#pragma compartment Main'
    echo 'int wide(int n) {'
    seq 4000 | sed 's/.*/  int a&;/'
    echo '  a4000 = n;'
    echo '  return a4000;'
    echo '}'
    echo 'int main(void) {'
    echo '  unsigned i;'
    echo '  int last = 0;'
    echo '  for (i = 0; i < 1100000u; i++) {'
    echo '    last = wide(7);'
    echo '  }'
    echo '  return last;'
    echo '}'
} > "$work/text"

start=$(date +%s)
status=0
"$program" meaning --turns 16777216 < "$work/text" > "$work/out" || status=$?
cat "$work/out"
echo "status $status, $(($(date +%s) - start)) seconds"
grep -q '^end Main 7' "$work/out"
