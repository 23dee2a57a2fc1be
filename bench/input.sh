#!/usr/bin/env bash
# input.sh USERS LINES MOST SEED: lines of demands from 0 to MOST (below 2^46), the same for the same arguments.
# Of eight lines one asks for nothing, one for the most, and six for something between.
awk -v users="$1" -v lines="$2" -v most="$3" -v seed="$4" '
  function next_number() { seed = seed * 16807 % 2147483647; return seed }
  BEGIN {
    for (line = 0; line < lines; line++) {
      text = ""
      for (user = 0; user < users; user++) {
        kind = next_number() % 8
        part = next_number() / 2147483647
        demand = kind == 0 ? 0 : kind == 1 ? most : int(part * most)
        text = text (user ? " " : "") sprintf("%.0f", demand)
      }
      print text
    }
  }'
