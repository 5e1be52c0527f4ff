#!/usr/bin/env bash
# Times `crew apply` against `wc -l` and `sha256sum` on the same bytes: a day of 8 MiB, with the greatest instance, most
# of whose records are changes, and with a few rounds.
set -eu
here=$(cd "$(dirname "${BASH_SOURCE[0]}")" && pwd)
. "$here/timing.sh"
crew=$(built "$here")
made=$(mktemp -d)
trap 'rm -r "$made"' EXIT

day() {
  awk 'function put(line) { bytes += length(line) + 1; print line }
  BEGIN {
    for (p = 0; p < 200; p++) put("place,G" p)
    put("default_travel,12")
    for (k = 0; k < 64; k++) put("team,T" k ",G" k ",00:00,48:00,0 1 2 3")
    for (j = 0; j < 400; j++) put("task,J" j ",G" j % 200 ",07:00,08:00,30,1," j % 4)
    for (n = 0; bytes < 8388608 - 40; n++) {
      if (n % 50000 == 49999) put("plan,100")
      else put("move,J" n % 400 ",0" n % 9 ":00,0" n % 9 ":45")
    }
  }'
}

day >"$made/day"
ratios 'a day of 8 MiB' "$made/day" "$crew" apply
