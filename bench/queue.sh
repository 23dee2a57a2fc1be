#!/usr/bin/env bash
# Measures a queue in a home: nanoseconds for a push and for a pop of 1,000,000 items of 100 bytes, in slices of 64 KiB and of 1 KiB, none of them parked,
# beside a VecDeque of as many blobs in the same run. The sums of the first bytes of all items have to be the same.
set -euo pipefail
here=$(cd "$(dirname "${BASH_SOURCE[0]}")" && pwd)
. "$here/built.sh"
use_bench bench_home
echo "processors $(nproc), load $(cut -d' ' -f1-3 /proc/loadavg)"
items=1000000
for size in 65536 1024; do
  for run in 1 2 3; do
    lines=$("$program" queue "$size" "$items" 100)
    queue=${lines%%$'\n'*} deque=${lines#*$'\n'}
    if [ "$(figure sum "$queue")" != $((7 * items)) ] || [ "$(figure sum "$deque")" != $((7 * items)) ]; then
      echo "slices of $size bytes: $lines" >&2
      exit 1
    fi
    echo "slices of $size bytes, run $run: $queue; $deque"
  done
done
