#!/usr/bin/env bash
# Draws plans by `bin/crew picture` and renders the pages in headless Chromium, to be looked at: of examples/airport.day, of a
# generated day of 20 teams and of one of 64. The pages and their images, NAME.html and NAME.png, go to the folder that is named, or
# to a new one, which is told. It writes docs/first-run.svg too, the chart of the first round of examples/airport.day by itself.
# CHROMIUM of the environment is the browser, chromium where there is none.
set -eu
here=$(cd "$(dirname "${BASH_SOURCE[0]}")" && pwd)
crew="$here/../bin/crew"
made=${1:-$(mktemp -d)}
mkdir -p "$made"
made=$(cd "$made" && pwd)

# draw NAME: the page of the day on standard input, and its image; a day ends with 7 where a round is not proved best
draw() {
  local status=0
  "$crew" day >"$made/$1.dossiers" || status=$?
  [ "$status" = 0 ] || [ "$status" = 7 ]
  "$crew" picture <"$made/$1.dossiers" >"$made/$1.html"
  "${CHROMIUM:-chromium}" --headless --no-sandbox --disable-gpu --hide-scrollbars --window-size="$2" \
    --screenshot="$made/$1.png" "file://$made/$1.html" >"$made/$1.log" 2>&1
  echo "$made/$1.png"
}

draw airport 1400,700 <"$here/../examples/airport.day"
"$here/generated_day" 0 20 120 50 | draw teams20 1600,1000
"$here/generated_day" 0 64 400 0 | draw teams64 1600,1900

# the first chart by itself: what stands inside its svg, with the page's looks and the pattern of fixed jobs
awk -v quote="'" '
  /<style>/ { looks = 1; next }
  /^<\/style>/ { looks = 0 }
  looks { style = style $0 "\n" }
  /<defs>/ { match($0, /<defs>.*<\/defs>/); defs = substr($0, RSTART, RLENGTH) }
  /^<div><svg/ {
    sub(/^<div><svg/, "<svg xmlns=" quote "http://www.w3.org/2000/svg" quote)
    end = index($0, ">")
    print substr($0, 1, end) "<style>\n" style "</style>" defs substr($0, end + 1)
    drawn = 1
    next
  }
  drawn && /^<\/g><\/svg>/ { print "</g></svg>"; exit }
  drawn { print }
' "$made/airport.html" >"$here/../docs/first-run.svg"
