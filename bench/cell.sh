#!/usr/bin/env bash
# Measures the turn cell beside std's Mutex: 2, 4, 16 and 50 threads that call one object, which works about a microsecond a call. Prints calls a second
# and processor time of both, and the ratios. Ratios hold within one run; the figures of other machines differ. cell.sh [CALLS]
set -euo pipefail
here=$(cd "$(dirname "${BASH_SOURCE[0]}")" && pwd)
calls=${1:-100000}
work=$(mktemp -d)
trap 'rm -rf "$work"' EXIT

. "$here/built.sh"
use_bench bench_cell

# measure KIND THREADS: nanoseconds a call, processor seconds and the number after all calls, of the run with the least time of three
measure() {
  local best="" line each used
  for _ in 1 2 3; do
    TIMEFORMAT='%U %S'
    { time "$program" "$1" "$2" "$calls" > "$work/out"; } 2> "$work/time" || { cat "$work/time" >&2; return 1; }
    line=$(cat "$work/out")
    each=$(figure time "$line")
    used=$(awk '{ print $1 + $2 }' "$work/time")
    if [ -z "$best" ] || [ "$each" -lt "${best%% *}" ]; then best="$each $used $(figure number "$line")"; fi
  done
  echo "$best"
}

echo "processors $(nproc), load $(cut -d' ' -f1-3 /proc/loadavg), $calls calls"
for threads in 2 4 16 50; do
  cell=$(measure cell "$threads")
  mutex=$(measure mutex "$threads")
  if [ "${cell##* }" != "${mutex##* }" ]; then
    echo "$threads threads: after as many calls the cell's number is ${cell##* } and the mutex's ${mutex##* }" >&2
    exit 1
  fi
  awk -v n="$threads" -v c="$cell" -v m="$mutex" 'BEGIN {
    split(c, cell, " "); split(m, mutex, " ")
    printf "%2d threads: cell %.0f calls/s, %.3f s of processors; mutex %.0f calls/s, %.3f s; ", n, 1e9 / cell[1], cell[2], 1e9 / mutex[1], mutex[2]
    printf "the cell takes %.2f times the time and %.2f times the processors\n", cell[1] / mutex[1], (mutex[2] > 0 ? cell[2] / mutex[2] : 0) }'
done
