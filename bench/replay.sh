#!/usr/bin/env bash
# Measures `far_memory replay`: lines and bytes a second on a seeded script of appends and reads, in slices of 64 KiB and of 64 bytes, and the ratio of
# its time to `wc` on script and output. The draws and grants that give the slices are measured apart, by a run of them alone.
# Ratios hold within one run; the figures of other machines differ. replay.sh [LINES] [SEED]
set -euo pipefail
here=$(cd "$(dirname "${BASH_SOURCE[0]}")" && pwd)
lines=${1:-200000} seed=${2:-20261201}
work=$(mktemp -d)
trap 'rm -rf "$work"' EXIT

. "$here/seconds.sh"
. "$here/built.sh"
use_far_memory
given() { "$program" replay $words < "$work/slices" > "$work/given"; }
ours() { "$program" replay $words < "$work/in" > "$work/out"; }
counted() { wc < "$work/in" > /dev/null; wc < "$work/out" > /dev/null; }

echo "processors $(nproc)"
for slice in 65536 64; do
  "$here/script.sh" "$slice" "$lines" "$seed" slices > "$work/slices"
  "$here/script.sh" "$slice" "$lines" "$seed" > "$work/in"
  slices=$(grep -c draw "$work/slices")
  words="1 $slices $slices 0 $slice"
  g=$(seconds given)
  t=$(seconds ours)
  w=$(seconds counted)
  if grep -q -v -E '^(slice|granted|done|number|[+]|bytes)' "$work/out"; then echo "a line was refused" >&2; exit 1; fi
  # the whole output begins with that of the draws and grants alone; this ends the script where it doesn't
  cmp -n "$(wc -c < "$work/given")" "$work/given" "$work/out"
  in_bytes=$(wc -c < "$work/in"); out_bytes=$(wc -c < "$work/out"); all=$(wc -l < "$work/in")
  awk -v s="$slice" -v c="$slices" -v g="$g" -v t="$t" -v w="$w" -v n="$lines" -v a="$all" -v i="$in_bytes" -v o="$out_bytes" 'BEGIN {
    printf "slices of %d bytes: %d draws and grants in %.3f s, %.0f lines/s; ", s, c, g, 2 * c / g
    printf "then %d appends and reads in %.3f s, %.0f lines/s; ", n, t - g, n / (t - g)
    printf "all %d lines in %.3f s, %.1f MB/s in, %.1f MB/s out, %.1f times wc\n", a, t, i / t / 1e6, o / t / 1e6, t / w }'
done
