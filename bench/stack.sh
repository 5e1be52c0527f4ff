#!/usr/bin/env bash
# How much stack the program takes over the greatest inputs there are: for each command the least limit of the stack, in KiB, at
# which it still ends as it does without a limit, with the same output, found by halving. A process's own start takes a part of it.
set -eu
here=$(cd "$(dirname "${BASH_SOURCE[0]}")" && pwd)
. "$here/timing.sh"
crew=$(built "$here")
made=$(mktemp -d)
trap 'rm -r "$made"' EXIT

# the head of a dossier of the greatest instance, with this budget
head_of() {
  awk -v nodes="$1" 'BEGIN {
    print "crew dossier 2\nsize 64 400 200 " nodes
    for (p = 0; p < 200; p++) print "place G" p
    for (p = 0; p < 200; p++) {
      row = "travel"
      for (q = 0; q < 200; q++) row = row " " (p == q ? 0 : 10)
      print row
    }
    for (k = 0; k < 64; k++) print "team T" k " " k " 0 2880"
    for (j = 0; j < 400; j++) print "task J" j " " j % 200 " 600 1320 300 1"
    print "frozen 0\npool 0 0\nplan 400 0"
  }'
}

# a dossier whose tree is 100,000 splits deep
deep() {
  head_of 100000
  awk 'BEGIN {
    splits = 100000
    print "tree " splits " 0 " splits + 1 " " splits
    for (s = 0; s < splits; s++) print "window " int(s / 720) " " 1319 - s % 720 "\nwhy none"
    for (s = 0; s <= splits; s++) print "leaf bare"
    print "end"
  }'
}

# a day of 8 MiB, most of whose records are changes
long_day() {
  awk 'function put(line) { bytes += length(line) + 1; print line }
  BEGIN {
    for (p = 0; p < 200; p++) put("place,G" p)
    put("default_travel,12")
    for (k = 0; k < 64; k++) put("team,T" k ",G" k ",00:00,48:00,0 1 2 3")
    for (j = 0; j < 400; j++) put("task,J" j ",G" j % 200 ",07:00,08:00,30,1," j % 4)
    for (n = 0; bytes < 8388608 - 40; n++) put("move,J" n % 400 ",0" n % 9 ":00,0" n % 9 ":45")
  }'
}

# runs KIB FILE WORDS..: what the program ends with, and writes, under this limit of the stack
runs() {
  local kib=$1 file=$2
  shift 2
  (
    ulimit -s "$kib"
    exec "$crew" "$@"
  ) <"$file" 2>/dev/null | cksum
  echo "${PIPESTATUS[0]}"
}

# stack TITLE FILE WORDS..
stack() {
  local title=$1 file=$2 low=0 high=8192 middle wanted
  shift 2
  wanted=$(runs "$high" "$file" "$@")
  while [ $((high - low)) -gt 4 ]; do
    middle=$(((low + high) / 2))
    if [ "$(runs "$middle" "$file" "$@" 2>/dev/null)" = "$wanted" ]; then high=$middle; else low=$middle; fi
  done
  echo "$title: $high KiB, ends with $(tail -n 1 <<<"$wanted")"
}

deep >"$made/deep"
long_day >"$made/long"
"$here/generated_day" 3 4 15 400 >"$made/searched"
"$here/generated_day" 1 6 25 400 >"$made/split"
"$here/generated_day" 1 64 400 0 >"$made/greatest"
"$crew" day <"$made/greatest" >"$made/dossier" 2>/dev/null || true
: >"$made/nothing"

stack 'check, the smallest dossier' "$here/../examples/first.dossier" check
stack 'check, a tree 100,000 splits deep' "$made/deep" check
stack 'rosters, the same' "$made/deep" rosters
stack 'check, a dossier of 64 teams and 400 tasks' "$made/dossier" check
stack 'apply, a day of 8 MiB' "$made/long" apply
stack 'day, 4 teams and 15 tasks, one split' "$made/searched" day
stack 'day, 6 teams and 25 tasks, 65 splits' "$made/split" day
stack 'day, 64 teams and 400 tasks, no step' "$made/greatest" day
stack 'trial, 8 teams and 40 tasks, 20 nodes' "$made/nothing" trial 7 8 40 20
