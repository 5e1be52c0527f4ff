# Times commands over one file, for the scripts beside this one. Source it; it wants bash 5.

# How often each command is run; ROUNDS tells another number. They take turns, and the least time of each is told: it is the
# least disturbed one.
rounds=${ROUNDS:-9}

# CREW tells the path of a program that is built already, and OTHER that of another build, which is timed in the same turns:
# only what runs beside each other can be put side by side. `taskset -c 0` in front keeps all of them on one processor.
other=${OTHER:-}

# built HERE: has the program built, where it isn't, and prints its path. It is timed itself: bin/crew looks first whether
# it is to be built anew, which would be timed with it.
built() {
  if [ -n "${CREW:-}" ]; then
    echo "$CREW"
    return
  fi
  "$1/../bin/crew" check <"$1/../examples/first.dossier" >/dev/null || return 1
  echo "$1/../crates/crew/out/crew"
}

# once FILE COMMAND..: the seconds by the clock, and of the processor, that the command takes with the file as its input
once() {
  local file=$1 TIMEFORMAT='%R %U %S'
  shift
  { time "$@" <"$file" >/dev/null 2>&3; } 3>&2 2>&1 || return 1
}

# least WORD FILE..: the least of a word of all lines of these files
least() {
  local word=$1
  shift
  cat "$@" | awk -v word="$word" '{ t = word == 1 ? $1 : $2 + $3; if (NR == 1 || t < least) least = t } END { print least }'
}

# median OWN SUM: the median of what the processor's times of the one file's lines are to those of the other's
median() {
  paste -d ' ' "$1" "$2" | awk '{ print ($2 + $3) / ($5 + $6) }' | sort -n |
    awk '{ a[NR] = $1 } END { printf "%.2f", NR % 2 ? a[(NR + 1) / 2] : (a[NR / 2] + a[NR / 2 + 1]) / 2 }'
}

# ratios TITLE FILE COMMAND..: the least times of `wc -l`, of `sha256sum` and of the command over the file, and their ratios
ratios() {
  local title=$1 file=$2 times
  shift 2
  times=$(mktemp -d)
  for _ in $(seq "$rounds"); do
    once "$file" wc -l >>"$times/lines" && once "$file" sha256sum >>"$times/sum" && once "$file" "$@" >>"$times/own" &&
      { [ -z "$other" ] || once "$file" "$other" "${@:2}" >>"$times/other"; } || {
      echo "$title: a command failed" >&2
      rm -r "$times"
      return 1
    }
  done
  awk -v title="$title" -v bytes="$(wc -c <"$file")" \
    -v lines="$(least 1 "$times/lines")" -v sum="$(least 1 "$times/sum")" -v own="$(least 1 "$times/own")" \
    -v sum_work="$(least 2 "$times/sum")" -v own_work="$(least 2 "$times/own")" 'BEGIN {
    printf "%s, %.1f MB: wc -l %.3f s, sha256sum %.3f s, crew %.3f s; crew / sha256sum %.2f; of processor time %.3f s and %.3f s, %.2f; crew / wc -l %.1f; %.0f MB/s\n",
      title, bytes / 1e6, lines, sum, own, own / sum, sum_work, own_work, own_work / sum_work, own / lines, bytes / 1e6 / own }'
  if [ -n "$other" ]; then
    echo "$title: to sha256sum by the processor's time, medians of $rounds rounds: $(median "$times/own" "$times/sum"), the other build $(median "$times/other" "$times/sum")"
  fi
  rm -r "$times"
}
