#!/usr/bin/env bash
# bench/update.sh [CELLS [ROUNDS]]: measures diffs in both versions of the text.
#
# The two screens differ in nothing, one cell, one row, or everything, as after a scroll by a row. In two more pairs a blank screen becomes one
# of 4 styles, or of 10,000, a new one in each cell. It prints the bytes of the text and the microseconds to write and to apply it, with a
# copy of the base. It also prints the nanoseconds to write a cell, beside memcmp of as many cells of 16 bytes. Each measurement processes about
# CELLS million cells.
# shellcheck source-path=SCRIPTDIR source=common.sh
. "$(dirname "$0")/common.sh"
million=${1:-4}
rounds=${2:-5}
compare=$(compiled cells_compare)
speed="$(built roam_bench) update"

# Rows, columns, and repetitions.
all() {
  "$compare" $(($1 * $2)) "$3"
  # shellcheck disable=SC2086
  $speed "$1" "$2" 4 "$3" | sed 's/ styles / 4-styles /'
  # shellcheck disable=SC2086
  [ "$1" = 24 ] || $speed "$1" "$2" 10000 "$(($3 / 4 + 1))" | sed -n 's/ styles / 10000-styles /p'
}
printf '%-12s %-8s %13s %10s %11s %11s %14s\n' size change styles bytes 'µs written' 'µs applied' 'ns/ns memcmp'
for size in "24 80" "100 250" "200 500"; do
  # shellcheck disable=SC2086
  each_round all $size $((million * 1000000 / (${size% *} * ${size#* }))) | awk -v size="$size" "$best"'
    $1 == "memcmp" { least("memcmp", $4 * 1000 / ($2 * $3)); next }
    {
      key = $1 " " $2
      if (!(key in bytes)) order[++count] = key
      least("write " key, $5 / $4); least("apply " key, $6 / $4)
      bytes[key] = $7; cells = $3
    }
    END {
      for (i = 1; i <= count; i++) {
        key = order[i]; split(key, part, " "); wrote = low["write " key]
        printf "%-12s %-8s %13s %10d %11.1f %11.1f %14.1f\n", by(size), "text " part[1], part[2], bytes[key], wrote, low["apply " key],
               wrote * 1000 / cells / low["memcmp"]
      }
    }'
done
