#!/usr/bin/env bash
# Measures `far_memory plan`: lines and bytes a second on 1,000 users and 2,000 lines, the ratio of its time to `wc -w` on the same input, and,
# where a C compiler is there, to a plain C program that prints the same bytes. Then microseconds a quantum by users and size of demands.
# Ratios hold within one run; the figures of other machines differ. plan.sh [LINES] [SEED]
set -euo pipefail
here=$(cd "$(dirname "${BASH_SOURCE[0]}")" && pwd)
lines=${1:-2000} seed=${2:-20261130}
work=$(mktemp -d)
trap 'rm -rf "$work"' EXIT

# each command's own input and output are set by the caller's function
. "$here/seconds.sh"
. "$here/built.sh"
use_far_memory
ours() { "$program" plan $words < "$work/in" > "$work/out"; }
audited() { "$program" audit $words < "$work/out" > "$work/audit"; }
counted() { wc -w < "$work/in" > /dev/null; }
plain() { "$work/plan" plan $words < "$work/in" > "$work/want"; }

if command -v cc > /dev/null; then cc -O2 -o "$work/plan" "$here/yardstick/plan.c"; fi

words='1000 64 32 100000'
"$here/input.sh" 1000 "$lines" 192 "$seed" > "$work/in"
t=$(seconds ours)
w=$(seconds counted)
in_bytes=$(wc -c < "$work/in"); out_bytes=$(wc -c < "$work/out")
echo "processors $(nproc)"
awk -v t="$t" -v w="$w" -v n="$lines" -v i="$in_bytes" -v o="$out_bytes" 'BEGIN {
  printf "plan: 1000 users, %d lines: %.3f s, %.0f lines/s, %.1f MB/s in, %.1f MB/s out, %.1f times wc -w\n", n, t, n / t, i / t / 1e6, o / t / 1e6, t / w }'
if [ -x "$work/plan" ]; then
  p=$(seconds plain)
  cmp "$work/out" "$work/want" # ends the script where they differ
  awk -v t="$t" -v p="$p" 'BEGIN { printf "plan: the same bytes as the plain C program, in %.2f times its time (%.3f s)\n", t / p, p }'
fi
a=$(seconds audited)
awk -v a="$a" -v n="$lines" 'BEGIN { printf "audit: its output: %.3f s, %.0f blocks/s\n", a, n / a }'
if [ "$(cat "$work/audit")" != "ok $lines" ]; then echo "audit wrote: $(cat "$work/audit")" >&2; exit 1; fi
cat "$work/audit"

# One quantum's time with its text: that of a whole run by its count of lines.
for users in 10 100 1000; do
  for size in small greatest; do
    if [ "$size" = small ]; then words="$users 64 32 100000" most=192; else words="$users 4294967296 2147483648 1152921504606846976" most=4398046511104; fi
    count=$((2000000 / users / 10))
    "$here/input.sh" "$users" "$count" "$most" "$seed" > "$work/in"
    t=$(seconds ours)
    awk -v t="$t" -v n="$count" -v u="$users" -v s="$size" 'BEGIN { printf "quantum: %d users, %s demands: %.1f microseconds with its text\n", u, s, t / n * 1e6 }'
  done
done
