#!/bin/sh
# Times `secomp meaning` on small programs of 16,777,216 turns, and the same programs as C, compiled by `clang -O0
# -fsanitize=undefined`; one that allocates, with `address` beside it.
# Usage: bench/meaning.sh [PROGRAM]. PROGRAM is a built secomp (by default what ./secomp runs).
# It prints, for each program, turns per second of both and how many times as long the meaning takes. A cross call
# is two events, and a run has 4,096 events at most, so cross calls are timed over many runs of 2,048 calls each,
# less as many runs that stop at once. At the end are the seconds of recursions 1,000 and 10,000 deep that allocate
# at each level.
set -e
top=$(cd "$(dirname "$0")/.." && pwd)
program=${1:-$top/secomp}
work=$(mktemp -d)
trap 'rm -rf "$work"' EXIT
turns=16777216

cat > "$work/loop" <<'TEXT'
#pragma compartment Main
int main(void) {
  unsigned i;
  int sum = 0;
  for (i = 0; i < 16777216u; i++) {
    sum = sum ^ 5;
  }
  return sum;
}
TEXT
cat > "$work/calls" <<'TEXT'
#pragma compartment Main
int next(int a) {
  return a ^ 5;
}
int main(void) {
  unsigned i;
  int sum = 0;
  for (i = 0; i < 8388608u; i++) {
    sum = next(sum);
  }
  return sum;
}
TEXT
cat > "$work/stores" <<'TEXT'
#pragma compartment Main
unsigned a[256];
int main(void) {
  unsigned i;
  for (i = 0; i < 16777216u; i++) {
    a[i & 255u] = i;
  }
  return 0;
}
TEXT
cat > "$work/heap" <<'TEXT'
#pragma compartment Main
int main(void) {
  unsigned i, k;
  unsigned *p;
  for (i = 0; i < 986895u; i++) {
    p = malloc(16 * sizeof(unsigned));
    for (k = 0; k < 16u; k++) {
      p[k] = i;
    }
    free(p);
  }
  return 0;
}
TEXT
cat > "$work/deep" <<'TEXT'
#pragma compartment Main
int down(int n) {
  int *p;
  if (n == 0) {
    return 0;
  }
  p = malloc(sizeof(int));
  *p = down(n - 1);
  n = *p;
  free(p);
  return n;
}
int main(void) {
  int i;
  int last;
  for (i = 0; i < ROUNDS; i++) {
    last = down(DEPTH);
  }
  return last;
}
TEXT
cat > "$work/cross" <<'TEXT'
#pragma compartment Main
#pragma import Other next
int next(int a);
int main(void) {
  unsigned i;
  int sum = 0;
  for (i = 0; i < ROUNDS; i++) {
    sum = next(sum);
  }
  return sum;
}
#pragma compartment Other
#pragma export next
int next(int a) {
  return a ^ 5;
}
TEXT

now() { date +%s%N; }

# seconds of the fastest of three runs of a command
best() {
    least=
    for run in 1 2 3; do
        start=$(now)
        "$@" > "$work/out" 2>&1 || true
        spent=$(($(now) - start))
        if [ -z "$least" ] || [ "$spent" -lt "$least" ]; then least=$spent; fi
    done
    awk "BEGIN { print $least / 1e9 }"
}

meaning() { "$program" meaning --turns $turns < "$1"; }
short_runs() { for run in $(seq 100); do "$program" meaning --events "$2" < "$1" > "$work/out"; done; }
compile() { clang -O0 -fsanitize="${2:-undefined}" -w -x c "$1" -o "$work/native"; }
tell() {
    awk "BEGIN { printf \"%-7s meaning %.1f million/s  clang %.1f million/s  %.1f times as long\\n\",
        \"$1\", $2 / 1e6, $3 / 1e6, $3 / $2 }"
}
per_second() { awk "BEGIN { print $1 / $2 }"; }

"$program" meaning --turns 0 < "$work/loop" > /dev/null
for name in loop calls stores; do
    compile "$work/$name"
    tell $name "$(per_second $turns "$(best meaning "$work/$name")")" "$(per_second $turns "$(best "$work/native")")"
done

{ echo 'void *malloc(unsigned long); void free(void *);'; cat "$work/heap"; } > "$work/heap.c"
compile "$work/heap.c" address,undefined
tell heap "$(per_second $turns "$(best meaning "$work/heap")")" "$(per_second $turns "$(best "$work/native")")"

sed 's/ROUNDS/2048u/' "$work/cross" > "$work/few"
sed 's/ROUNDS/8388608u/' "$work/cross" > "$work/many"
whole=$(best short_runs "$work/few" 4096)
empty=$(best short_runs "$work/few" 0)
compile "$work/many"
tell cross "$(awk "BEGIN { print 100 * 4096 / ($whole - $empty) }")" "$(per_second $turns "$(best "$work/native")")"

sed 's/ROUNDS/100/; s/DEPTH/1000/' "$work/deep" > "$work/shallow"
sed -i 's/ROUNDS/10/; s/DEPTH/10000/' "$work/deep"
echo "100 recursions 1,000 deep $(best meaning "$work/shallow") s, 10 of 10,000 $(best meaning "$work/deep") s"
