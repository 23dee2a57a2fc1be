#!/usr/bin/env bash
# Measures Karma's rule alone: microseconds a quantum at 10, 100 and 1,000 users, with small shares, with the greatest, and with shares from 1 to 100 and a
# tenth of the users away; with demands up to 2, 3 and 1,024 of the user's own fair shares. All three run in turn in one process, over the same choices. Each
# figure is the median of so many runs; a ratio is that of the run in the middle, with the least and the greatest of all runs. Ratios hold within one run;
# the figures of other machines differ. quantum.sh [RUNS] [SEED]
set -euo pipefail
here=$(cd "$(dirname "${BASH_SOURCE[0]}")" && pwd)
runs=${1:-7} seed=${2:-20261201}
. "$here/built.sh"
use_bench bench_quantum

echo "processors $(nproc), load $(cut -d' ' -f1-3 /proc/loadavg), $runs runs"
echo "users  demands up to        small     greatest   greatest / small              mixed   mixed / small"
for users in 10 100 1000; do
  for times in 2 3 1024; do
    for ((run = 0; run < runs; run++)); do
      "$program" "$users" $((2000000 / users > 20000 ? 20000 : 2000000 / users)) "$times" $((seed + run)) || exit 1
    done | awk '{ time[$1] = $NF } $1 == "mixed" { s = time["small"]; g = time["greatest"]; m = $NF; print s, g, g / s, m, m / s }' | awk -v users="$users" -v times="$times" '
      function middle(values, count,    i, j, t) {
        for (i = 2; i <= count; i++) for (j = i; j > 1 && values[j] < values[j - 1]; j--) { t = values[j]; values[j] = values[j - 1]; values[j - 1] = t }
        return values[int((count + 1) / 2)]
      }
      { small[NR] = $1; greatest[NR] = $2; ratio[NR] = $3; mixed[NR] = $4; apart[NR] = $5 }
      END {
        s = middle(small, NR); g = middle(greatest, NR); r = middle(ratio, NR); m = middle(mixed, NR); a = middle(apart, NR)
        printf "%5d  %4d fair shares  %8.2f us  %8.2f us   %.3f (%.3f to %.3f)  %8.2f us   %.3f (%.3f to %.3f)\n",
          users, times, s / 1000, g / 1000, r, ratio[1], ratio[NR], m / 1000, a, apart[1], apart[NR]
      }'
  done
done
