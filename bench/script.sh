#!/usr/bin/env bash
# script.sh SLICE LINES SEED [slices]: a script for one user and slices of SLICE bytes, the same for the same arguments. First as many draws and grants as
# its appends need, and a file; with `slices` that is all. Then LINES lines: one of four appends 64 to 4,096 bytes, the others read as many from
# anywhere in the file.
awk -v slice="$1" -v lines="$2" -v seed="$3" -v part="${4:-all}" '
  function next_number() { seed = seed * 16807 % 2147483647; return seed }
  function size_of(from, to) { return from + int(next_number() / 2147483647 * (to - from + 1)) }
  BEGIN {
    for (line = 0; line < lines; line++) {
      is_append[line] = line == 0 || next_number() % 4 == 0
      size[line] = size_of(64, 4096)
      if (is_append[line]) total += size[line]
    }
    slices = int((total + slice - 1) / slice)
    for (s = 0; s < slices; s++) print "draw\ngrant 0"
    print "make 0 f file 1000000"
    if (part == "slices") exit
    text = "abcdefghijklmnopqrstuvwxyzABCDEFGHIJKLMNOPQRSTUVWXYZ0123456789_-"
    while (length(text) < 8192) text = text text
    for (line = 0; line < lines; line++) {
      if (is_append[line]) {
        print "append 0 f " substr(text, size_of(1, 4096), size[line])
        long += size[line]
      } else print "read 0 f " size_of(0, long) " " size[line]
    }
  }'
