#!/usr/bin/env bash
# Measures frames: nanoseconds to encode and to decode an append of 64 bytes and of 64 KiB, a put, a get and 4,096 places, beside a copy of as many bytes,
# all in one run. A decode copies each blob once, and an encode writes into room that is there.
set -euo pipefail
here=$(cd "$(dirname "${BASH_SOURCE[0]}")" && pwd)
. "$here/built.sh"
use_bench bench_frames
echo "processors $(nproc), load $(cut -d' ' -f1-3 /proc/loadavg)"
measure() {
  figures=$("$program" frames "$1" "$2" "$3")
  awk -v what="$4" -v figures="$figures" -v e="$(figure encode "$figures")" -v d="$(figure decode "$figures")" 'BEGIN {
    printf "%s: %s; %.1f million encoded and %.1f million decoded a second\n", what, figures, 1000 / (e > 0 ? e : 1), 1000 / (d > 0 ? d : 1) }'
}
measure append 64 1000000 "append of 64 bytes"
measure append 65536 20000 "append of 64 KiB"
measure put 0 1000000 "put of 16 and 100 bytes"
measure get 0 1000000 "get of 16 bytes"
measure places 4096 1000 "4,096 places"
