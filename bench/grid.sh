#!/usr/bin/env bash
# bench/grid.sh [MILLIONS [ROUNDS]]: measures a grid at 24 by 80 and at 100 by 250, and prints the best slice of all rounds.
#
# It measures how fast the grid takes characters, one by one and in runs. It also compares scrolls, ED, IL, DL, ICH and DCH with filling and
# moving the same bytes in one flat list.
# shellcheck source-path=SCRIPTDIR source=common.sh
. "$(dirname "$0")/common.sh"
millions=${1:-50}
rounds=${2:-3}
speed=$(built roam_bench)

# shellcheck disable=SC2086
each_round $speed grid "$millions" | awk "$best"'
  # The nanoseconds of one operation.
  $1 != "end" { least($1 " " $2 " by " $3, $5 * 1000 / $4) }
  function of(way) { return low[way at] }
  function row(text, value, beside, other, limit) {
    printf "  %-34s %9.1f ns, %-28s %9.1f ns: %5.2f   %s\n", text, value, beside, other, value / other, limit
  }
  function bar(text, value, limit) { printf "  %-86s %5.2f   %s\n", text, value, limit }
  END {
    for (size = 1; size <= 2; size++) {
      at = size == 1 ? " 24 by 80" : " 100 by 250"
      printf "%s: characters one by one %.0f and by runs %.0f million a second\n", substr(at, 2), 1000 / of("put"), 1000 / of("run")
      row("scroll of lines of a third", of("third-scrolled") - of("third"), "a row filled", of("fill-row"), "at most 0.5 at 250 columns")
      row("scroll of full lines", of("full-scrolled") - of("full"), "a row filled", of("fill-row"), "")
      row("scroll between margins", of("scroll-between") - of("full"), "rows moved, a row filled", of("move-between"), "at most 1.5")
      row("ED of a full screen", of("pages-erased") - of("pages"), "all rows filled", of("fill-all"), "")
      row("IL and DL", of("lines-in-out"), "rows moved and back", of("move-rows"), "")
      row("ICH and DCH", of("cells-in-out"), "cells of a row moved and back", of("move-cells"), "")
      bar("runs to one by one", of("put") / of("run"), "at least 1.5")
    }
    small = low["put 24 by 80"]; large = low["put 100 by 250"]
    print "both sizes"
    bar("one by one, the slower size to the quicker", small > large ? small / large : large / small, "at most 1.5")
  }'
