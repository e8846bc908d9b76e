#!/usr/bin/env bash
# bench/latency.sh [COUNT]: measures delays of roam, and of tmux and mosh if they are installed, in milliseconds.
#
# One delay is from the output of a pane's program to the client's terminal, the other from a key to its echo there. It prints the median and
# the 99th percentile of COUNT measurements. It needs rt and python3.
# shellcheck source-path=SCRIPTDIR source=common.sh
. "$(dirname "$0")/common.sh"
make -s -C "$top" >&2
python3 "$here/latency.py" "$top/crates/roam/out/roam" "${1:-1000}"
