#!/usr/bin/env bash
# bench/show.sh [MEGABYTES [RUNS]]: measures the speed and memory of `roam show` on seeded inputs. If Debian's package libvterm-dev is
# installed, it measures libvterm too and prints the ratio. It needs python3.
# shellcheck source-path=SCRIPTDIR source=common.sh
. "$(dirname "$0")/common.sh"
megabytes=${1:-4}
runs=${2:-5}
roam=$top/crates/roam/out/roam
[ -x "$roam" ] || make -C "$top" >&2
python3 "$here/inputs.py" "$folder/inputs" "$megabytes" prose cjk colours redraw log
meter=$(compiled show_meter)
if ! vterm=$(compiled show_vterm -lvterm 2> "$folder/cc"); then
    vterm=-
    echo "libvterm is not installed (Debian: libvterm-dev), so roam is measured alone" >&2
fi
echo "$(nproc) cores, load $(cut -d' ' -f1 /proc/loadavg), $megabytes MB an input, best of $runs"
echo
python3 "$here/show_measure.py" "$meter" "$roam" "$vterm" "$folder/inputs" "$runs"
