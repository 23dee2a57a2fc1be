#!/usr/bin/env bash
# To be sourced by the scripts beside it.

# seconds COMMAND..: the least wall-clock time of three runs, or a failure where one fails
seconds() {
  local best="" from to took
  for _ in 1 2 3; do
    from=$(date +%s%N)
    "$@" || { echo "failed with status $?: $*" >&2; return 1; }
    to=$(date +%s%N)
    took=$((to - from))
    if [ -z "$best" ] || [ "$took" -lt "$best" ]; then best=$took; fi
  done
  awk -v t="$best" 'BEGIN { printf "%.4f", t / 1e9 }'
}
