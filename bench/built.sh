#!/usr/bin/env bash
# To be sourced by the scripts beside it, with their folder in $here. Each function sets $program to a program that is current: what was built of other
# sources isn't measured. It is run as it is and not by bin/far_memory, whose own look at the sources would be measured too.

use_far_memory() {
  "$here/../.ci/built" < /dev/null || exit 1
  program=$here/../crates/far_memory/out/far_memory
}

# use_bench NAME: the program of measurements of that crate
use_bench() {
  # 'rt run' proves and builds where something has changed, and then runs the program
  if ! (cd "$here/../crates/$1" && rt run -- check) < /dev/null >&2; then
    echo "$1 was not built, or its check failed" >&2
    exit 1
  fi
  program=$here/../crates/$1/out/$1
}

# figure NAME LINE: a figure of a line that such a program printed
figure() { awk -v name="$1" '{ for (i = 2; i < NF; i += 2) if ($i == name) print $(i + 1) }' <<< "$2"; }
