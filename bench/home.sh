#!/usr/bin/env bash
# Measures a file in a home: nanoseconds for an append and for a read of 64 bytes and of 64 KiB, beside 1,000 and 1,000,000 blocks, none of them parked. Then
# blocks of 64 bytes, 4 KiB and 64 KiB that are parked in memory, read there and loaded, beside as many images written and read. The cost of a call may grow
# with its bytes, and not with the count of blocks.
set -euo pipefail
here=$(cd "$(dirname "${BASH_SOURCE[0]}")" && pwd)
. "$here/built.sh"
use_bench bench_image
image_program=$program
use_bench bench_home
echo "processors $(nproc), load $(cut -d' ' -f1-3 /proc/loadavg)"
calls=1000
for size in 64 65536; do
  for blocks in 1000 1000000; do
    for piece in 64 65536; do
      [ "$size" = 65536 ] && [ "$blocks" = 1000000 ] && continue # 64 GiB
      figures=$("$program" home "$size" "$blocks" "$piece" "$calls")
      if [ "$(figure length "$figures")" != $((size * blocks + piece * calls)) ]; then
        echo "slices of $size bytes, $blocks blocks, calls of $piece bytes: $figures" >&2
        exit 1
      fi
      echo "slices of $size bytes, $blocks blocks, calls of $piece bytes: $figures"
    done
  done
done
for size in 64 4096 65536; do
  images=$("$image_program" image "$size" "$calls")
  for blocks in 1000 1000000; do
    [ "$size" = 65536 ] && [ "$blocks" = 1000000 ] && continue
    figures=$("$program" parks "$size" "$blocks" "$calls")
    if [ "${figures% park *}" != "parks parked $calls found $calls loaded $calls" ]; then
      echo "$blocks blocks of $size bytes: $figures" >&2
      exit 1
    fi
    echo "$blocks blocks of $size bytes: $figures; $images"
  done
done
