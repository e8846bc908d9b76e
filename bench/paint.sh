#!/usr/bin/env bash
# bench/paint.sh [TIMES [ROUNDS]]: measures the painter, in bytes and microseconds, beside a memcmp of as many bytes as the cells have.
#
# The paintings are of an unchanged screen, an echoed key, a scrolled screen and a new one. If tmux is installed, the table also has the bytes
# that tmux sends to its client for the same changes; that needs python3.
# shellcheck source-path=SCRIPTDIR source=common.sh
. "$(dirname "$0")/common.sh"
times=${1:-2000}
rounds=${2:-5}
speed="$(built roam_bench) paint"
compare=$(compiled paint_compare)

# Rows and columns.
both() {
  # shellcheck disable=SC2086
  $speed "$1" "$2" "$times"
  "$compare" "$1" "$2" "$times"
}
for size in "24 80" "100 250" "200 500"; do
  # shellcheck disable=SC2086
  if command -v tmux > /dev/null; then python3 "$here/tmux_bytes.py" $size > "$folder/tmux"; else : > "$folder/tmux"; fi
  # shellcheck disable=SC2086
  each_round both $size | awk -v size="$size" -v tmux="$folder/tmux" "$best"'
    { least($1, $4 / $3); bytes[$1] = $2 }
    END {
      while ((getline line < tmux) > 0) { split(line, part, " "); peer[part[1]] = part[2] }
      printf "%s: memcmp of the cells %.1f microseconds\n", size, low["memcmp"]
      split("unchanged key scrolled full", names)
      for (k = 1; k <= 4; k++) {
        name = names[k]
        beside = name in peer && peer[name] > 0 ? sprintf("; %.2f of the %d bytes of tmux", bytes[name] / peer[name], peer[name]) : ""
        printf "%s: %s %d bytes, %.1f microseconds, %.1f times a memcmp%s\n", size, name, bytes[name], low[name],
               low[name] / low["memcmp"], beside
      }
    }'
done
