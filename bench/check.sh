#!/usr/bin/env bash
# Times `crew check` against `wc -l` and `sha256sum` on the same bytes: a hundred megabytes and more of dossiers
# with the greatest instance, of those of a small airport, and of the smallest there are; a leaf of the greatest day, with
# all its potentials, three numbers for each task or one for each minute, in both forms; and a pool, a deep tree in form 1, and
# one in form 2 each of whose splits shows a loose cause, of half the size and of the whole; and forty megabytes of what `crew day`
# writes of generated days and of a realistic one. With words: only these of them, as leaf_runs; or trees_counted, which counts
# instructions of smaller such trees, and wants valgrind. CREW and OTHER: see timing.sh.
set -eu
here=$(cd "$(dirname "${BASH_SOURCE[0]}")" && pwd)
. "$here/timing.sh"
crew=$(built "$here")
made=$(mktemp -d)
trap 'rm -r "$made"' EXIT

# the first lines of a dossier in this form of 64 teams, 400 tasks and 200 places, with this node budget
places() {
  awk -v form="$1" -v nodes="$2" 'BEGIN {
    print "crew dossier " form "\nsize 64 400 200 " nodes
    for (p = 0; p < 200; p++) print "place G" p
    for (p = 0; p < 200; p++) {
      row = "travel"
      for (q = 0; q < 200; q++) row = row " " (p == q ? 0 : 10 + (p * 7 + q * 13) % 50)
      print row
    }
  }'
}

# a dossier of them each of whose tasks is planned
greatest() {
  places 1 0
  awk 'BEGIN {
    for (k = 0; k < 64; k++) print "team T" k " " k " 0 2880 0 1 2 3"
    for (j = 0; j < 400; j++) {
      from = 200 + int(j / 64) * 150
      print "task J" j " " j % 200 " " from " " from + 90 " 30 1 " j % 4
    }
    print "pool 0 0\nplan 0 0"
    for (j = 0; j < 400; j++) print "do " j " " 200 + int(j / 64) * 150 " " j % 64
    print "tree 0 0 1 0\nleaf bare\nend"
  }'
}

# a dossier of 4 teams, 12 tasks and 6 places each of whose tasks is planned
airport() {
  awk 'BEGIN {
    print "crew dossier 1\nsize 4 12 6 200\nplace BASE"
    for (p = 1; p < 6; p++) print "place GATE-A" p
    for (p = 0; p < 6; p++) {
      row = "travel"
      for (q = 0; q < 6; q++) row = row " " (p == q ? 0 : 5 + (p * 7 + q * 5) % 13)
      print row
    }
    for (k = 0; k < 4; k++) print "team RAMP-" k + 1 " 0 360 840 0 " 1 + k % 3
    for (j = 0; j < 12; j++) {
      from = 420 + int(j / 4) * 90
      print "task LH" 1000 + 37 * j " " 1 + j % 5 " " from " " from + 30 " 35 1 0"
    }
    print "pool 0 0\nplan 0 0"
    for (j = 0; j < 12; j++) print "do " j " " 420 + int(j / 4) * 90 " " j % 4
    print "tree 0 0 1 0\nleaf bare\nend"
  }'
}

# the head of a dossier in this form with the widest windows, with this node budget
wide() {
  places "$1" "$2"
  awk -v form="$1" 'BEGIN {
    for (k = 0; k < 64; k++) print "team T" k " " k " 0 2880"
    for (j = 0; j < 400; j++) print "task J" j " " j % 200 " 600 1320 300 1"
    if (form == 2) print "frozen 0"
  }'
}

# a dossier whose plan does no task, and whose one leaf has a price of one task for each task: a team can do three. The
# potentials of a task are three numbers, in form 1 (`minutes`) or in form 2 (`runs`); or each minute has a number of its own,
# in form 1 (`apart`) or in form 2 (`steps`)
full_leaf() {
  local form=2
  case "$1" in minutes | apart) form=1 ;; esac
  wide "$form" 0
  awk -v kind="$1" -v form="$form" 'BEGIN {
    one = 840000000
    print "pool 0 0\nplan 400 208\ntree 0 0 1 0\nleaf open"
    row = "price"
    for (j = 0; j < 400; j++) row = row " " one
    print row
    row = ""
    for (t = 600; t <= 1320; t++) {
      worth = one * (int((1320 - t) / 300) + 1)
      if (kind == "apart" || kind == "steps") worth += 1320 - t
      if (t == 600) most = worth
      if (form == 1 || worth != before) row = row (form == 1 ? "" : " " t) " " sprintf("%.0f", worth)
      before = worth
    }
    for (k = 0; k < 64; k++) {
      print "worth " sprintf("%.0f", most)
      for (j = 0; j < 400; j++) print (form == 1 ? "phi " : "steps ") j row
    }
    print "end"
  }'
}

# a dossier with this many routes in its pool, all of one team
pool() {
  wide 1 0
  awk -v routes="$1" 'BEGIN {
    print "pool 0 " routes
    for (r = 0; r < routes; r++) print "route 0 " r % 400 " " 600 + int(r / 400)
    print "plan 400 0\ntree 0 0 1 0\nleaf bare\nend"
  }'
}

# a dossier whose tree has this many splits, each in the first child of the one before
deep() {
  wide 1 "$1"
  awk -v splits="$1" 'BEGIN {
    print "pool 0 0\nplan 400 0\ntree " splits " 0 " splits + 1 " " splits
    for (s = 0; s < splits; s++) print "window " int(s / 720) " " 1319 - s % 720
    for (s = 0; s <= splits; s++) print "leaf bare"
    print "end"
  }'
}

# the same in form 2, where each split shows a loose cause: halves of two routes of each team, each of two tasks, one of which
# is in both
deep_loose() {
  wide 2 "$1"
  awk -v splits="$1" 'BEGIN {
    print "pool 0 128"
    for (k = 0; k < 64; k++) {
      print "route " k " " 200 + k " 600 " 264 + k " 1200"
      print "route " k " " 200 + k " 700 " 328 + k " 1320"
    }
    print "plan 400 0\ntree " splits " 0 " splits + 1 " " splits
    cause = "why loose 400 2 128"
    for (c = 0; c < 128; c++) cause = cause "\nshare " c " 1"
    cause = cause "\nspare"
    for (j = 0; j < 400; j++) cause = cause " " (j < 200 || j >= 392 ? 2 : j < 264 ? 0 : 1)
    for (s = 0; s < splits; s++) print "window " int(s / 720) " " 1319 - s % 720 "\n" cause
    for (s = 0; s <= splits; s++) print "leaf bare"
    print "end"
  }'
}

# repeat FILE MANY [BYTES]: writes the file again and again to MANY, until it has so many bytes, or a hundred megabytes
repeat() {
  cp "$1" "$2"
  while [ "$(wc -c <"$2")" -lt "${3:-100000000}" ]; do
    cat "$2" "$2" >"$made/twice"
    mv "$made/twice" "$2"
  done
}

# each input: it is made, and the commands are timed over it
dossiers_greatest() {
  greatest >"$made/once"
  repeat "$made/once" "$made/many"
  ratios 'dossiers of the greatest instance' "$made/many" "$crew" check
}
dossiers_small() {
  airport >"$made/once"
  repeat "$made/once" "$made/many"
  ratios 'dossiers of a small airport' "$made/many" "$crew" check
}
dossiers_smallest() {
  # in form 1, which is the smaller one
  sed -e 's/^crew dossier 2/crew dossier 1/' -e '/^frozen /d' "$here/../examples/first.dossier" >"$made/once"
  repeat "$made/once" "$made/many"
  ratios 'the smallest dossiers' "$made/many" "$crew" check
}
leaf() {
  full_leaf minutes >"$made/one"
  ratios 'a leaf of the greatest day' "$made/one" "$crew" check
}
leaf_runs() {
  full_leaf runs >"$made/one"
  ratios 'the same leaf in form 2' "$made/one" "$crew" check
}
leaf_apart() {
  full_leaf apart >"$made/one"
  ratios 'a leaf of the greatest day with a number of its own for each minute' "$made/one" "$crew" check
}
leaf_steps() {
  full_leaf steps >"$made/one"
  ratios 'the same leaf in form 2' "$made/one" "$crew" check
}
pools() {
  for many in 50000 100000; do
    pool "$many" >"$made/one"
    ratios "a pool of $many routes" "$made/one" "$crew" check
  done
}
trees() {
  for many in 50000 100000; do
    deep "$many" >"$made/one"
    ratios "a tree of depth $many" "$made/one" "$crew" check
  done
}
trees_loose() {
  for many in 50000 100000; do
    deep_loose "$many" >"$made/one"
    ratios "a tree of depth $many with loose causes, of 128 shares each" "$made/one" "$crew" check
  done
}
# day_of TITLE DAYS NUMBER TEAMS TASKS NODES: what `day` writes of such a day, which ends with status 7 where it leaves a gap
day_of() {
  local title=$1
  shift
  "$here/$1" "${@:2}" >"$made/day"
  "$crew" day <"$made/day" >"$made/once" || [ $? = 7 ] || return 1
  repeat "$made/once" "$made/many" 40000000
  ratios "$title" "$made/many" "$crew" check
}
days() {
  for number in 1 3; do
    day_of "day $number of 20 teams and 120 tasks, budget 0" generated_day $number 20 120 0
    day_of "day $number of 20 teams and 120 tasks, budget 1" generated_day $number 20 120 1
  done
  day_of 'day 3 of 40 teams and 300 tasks, budget 0' generated_day 3 40 300 0
  for number in 1 3; do day_of "day $number of 64 teams and 400 tasks, budget 0" generated_day $number 64 400 0; done
  day_of 'a realistic day of 18 teams and 110 tasks, budget 10' airport_day 1 18 110 10
}
# instructions of `crew check` in place of seconds, by valgrind: they are the same whatever else the machine does
trees_counted() {
  local counted
  for many in 2500 5000 10000; do
    deep_loose "$many" >"$made/one"
    counted=$(valgrind --tool=callgrind --callgrind-out-file=/dev/null "$crew" check <"$made/one" 2>&1 >/dev/null |
      awk '/Collected/ { print $NF }')
    echo "a tree of depth $many with loose causes: $counted instructions, $((counted / many)) a split"
  done
}

inputs=("$@")
if [ $# -eq 0 ]; then
  inputs=(dossiers_greatest dossiers_small dossiers_smallest leaf leaf_runs leaf_apart leaf_steps pools trees trees_loose days)
fi
for input in "${inputs[@]}"; do "$input"; done
