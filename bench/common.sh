# Sourced by the scripts of bench/. It has paths, a temporary directory, builds, and the best of several rounds, since other work on the
# machine can only slow a measurement down. A script that measures a program of roam needs rt; one that compiles needs cc.
# shellcheck shell=bash disable=SC2034,SC2154
set -eu
here=$(cd "$(dirname "${BASH_SOURCE[0]}")" && pwd)
top=$(dirname "$here")
folder=$(mktemp -d)
trap 'rm -rf "$folder"' EXIT

# Prove and build a program of crates/, and print its path.
built() {
    make -s -C "$top" "crates/$1/out/built" > "$folder/build" 2>&1 || { cat "$folder/build" >&2; exit 1; }
    echo "$top/crates/$1/out/$1"
}

# Compile a program of this directory with further options, and print its path.
compiled() {
    cc -O2 -o "$folder/$1" "$here/$1.c" "${@:2}" || exit 1
    echo "$folder/$1"
}

# Run a command once in each round.
each_round() { for _ in $(seq "$rounds"); do "$@"; done; }

# For awk: keep the least and the greatest value of a name; print a size.
best='
  function least(name, value) { if (!(name in low) || value < low[name]) low[name] = value }
  function most(name, value) { if (!(name in high) || value > high[name]) high[name] = value }
  function by(size) { sub(/ /, " by ", size); return size }
'
