#!/usr/bin/env bash
# Measures what a store costs: images written with their digests and images read, bytes a second beside sha256sum on as many bytes; and puts and gets of
# 64 KiB a second in a folder, beside a dd for each such file and beside one dd of as many bytes. Ratios hold within one run. image.sh [IMAGES [BLOCKS]]
set -euo pipefail
here=$(cd "$(dirname "${BASH_SOURCE[0]}")" && pwd)
images=${1:-4000}
blocks=${2:-1000}
size=65536
. "$here/built.sh"
. "$here/seconds.sh"
use_bench bench_image
work=$(mktemp -d)
trap 'rm -rf "$work"' EXIT
echo "processors $(nproc), load $(cut -d' ' -f1-3 /proc/loadavg)"

# in MB/s or calls a second, where each call took so many nanoseconds
head -c $((images * size)) /dev/zero | tr '\0' '\7' > "$work/bytes"
line=$("$program" image "$size" "$images")
if [ "$(figure length "$line")" != $((size + 53)) ] || [ "$(figure good "$line")" != "$images" ]; then
  echo "images of $size bytes: $line" >&2
  exit 1
fi
digest() { sha256sum "$work/bytes" > /dev/null; }
awk -v w="$(figure write "$line")" -v r="$(figure read "$line")" -v s="$(seconds digest)" -v size="$size" -v n="$images" 'BEGIN {
  each = s * 1e9 / n
  printf "images: %.0f MB/s written, %.0f MB/s read; sha256sum %.0f MB/s; ", size * 1e3 / w, size * 1e3 / r, size * 1e3 / each
  printf "a write takes %.2f times its time, a read %.2f times\n", w / each, r / each }'

head -c "$size" "$work/bytes" > "$work/block"
head -c $((blocks * size)) "$work/bytes" > "$work/all"
line=$("$program" dir "$work/store" "$blocks")
if [ "$(figure found "$line")" != "$blocks" ]; then
  echo "blocks in a folder: $line" >&2
  exit 1
fi
mkdir "$work/files"
write_files() { for ((k = 0; k < blocks; k++)); do dd if="$work/block" of="$work/files/$k" bs="$size" count=1 status=none; done; }
read_files() { for ((k = 0; k < blocks; k++)); do dd if="$work/files/$k" of=/dev/null bs="$size" count=1 status=none; done; }
write_one() { dd if="$work/all" of="$work/one" bs="$size" status=none; }
read_one() { dd if="$work/one" of=/dev/null bs="$size" status=none; }
awk -v p="$(figure put "$line")" -v g="$(figure get "$line")" -v n="$blocks" \
  -v wf="$(seconds write_files)" -v rf="$(seconds read_files)" -v wo="$(seconds write_one)" -v ro="$(seconds read_one)" 'BEGIN {
  printf "a folder: %.0f puts/s, %.0f gets/s; a dd for each file %.0f and %.0f; ", 1e9 / p, 1e9 / g, n / wf, n / rf
  printf "one dd of as many bytes %.0f and %.0f\n", n / wo, n / ro }'
