#!/usr/bin/env bash
# bench/hub.sh [TIMES [ROUNDS]]: measures a server and its client instances, in microseconds, at several sizes of the screen.
#
# - An idle tick, with one client instance and with 64.
# - A round, which is a tick and its datagrams at the client instance: after one changed row, a scroll, a redraw and one changed cell. The
#   ratio is that to a copy of the screen.
# - The bytes of the datagrams of one changed cell, as of an echoed key. Its ratio to 24 by 80 is at most 25 at 200 by 500, which has 52 times
#   the cells.
# - A tick after such a change, with 1, 8 and 64 client instances. Each further instance adds at most 20 at 24 by 80 and 40 at 200 by 500.
# - The KiB of a record and of a client instance, each with eight screens of 24 by 80.
# shellcheck source-path=SCRIPTDIR source=common.sh
. "$(dirname "$0")/common.sh"
times=${1:-500}
rounds=${2:-5}
speed=$(built roam_bench)
meter=$(compiled show_meter)

printf '%-12s %8s %8s %8s %8s %8s %8s %8s %12s %8s\n' microseconds copy idle '64 idle' row scroll redraw key 'bytes a key' further
for size in "24 80" "100 250" "200 500"; do
  # shellcheck disable=SC2086
  each_round $speed cores $size "$times" | awk -v size="$size" "$best"'
    { least($1, $3 / $2 / 1000); bytes[$1] = $4 / $2 }
    END { printf "%-12s %8.2f %8.3f %8.3f %8.1f %8.1f %8.1f %8.1f %12.1f %8.2f\n", by(size), low["copy"], low["idle1"],
                 low["idle64"], low["row"], low["scroll"], low["redraw"], low["echo"], bytes["echo"],
                 (low["ticks64"] - low["ticks1"]) / 63
          printf "%-12s a tick after a key with 1, 8 and 64 starts %.1f, %.1f, %.1f\n", "", low["ticks1"], low["ticks8"], low["ticks64"]
          printf "%-12s %8s %8s %8s %8.1f %8.1f %8.1f %8.1f\n", "  of a copy", "", "", "", low["row"] / low["copy"],
                 low["scroll"] / low["copy"], low["redraw"] / low["copy"], low["echo"] / low["copy"] }'
done | tee "$folder/table"
awk '
  / by / { key[$1] = $10 }
  END { if (key[24] > 0)
          printf "a key to 24 by 80: %.1f at 100 by 250, %.1f at 200 by 500   at most 25\n", key[100] / key[24], key[200] / key[24] }' \
  "$folder/table"

# The largest resident set in KiB. The meter is a small program, since a process begins with the set of the one that started it.
# shellcheck disable=SC2086
peak() { "$meter" /dev/null $speed "$1" "$2" | awk '{ print $2 }'; }
few=$(peak records 1)
many=$(peak records 61)
both=$(peak clients 61)
one=$(peak clients 1)
echo "KiB of a record: $(((many - few) / 60)); of a client start: $(((both - one - many + few) / 60))"
