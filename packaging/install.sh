#!/bin/sh
# install.sh [PREFIX]: install roam below PREFIX, ~/.local if none is named, or upgrade an older build there.
# install.sh --remove [PREFIX]: remove it; PREFIX/lib/roam/install.sh does the same. Running sessions continue in both cases.
# roam needs Linux on x86-64, glibc @LIBC@ and Python 3.9.
set -eu
does=install
if [ "${1-}" = --remove ]; then
    does=remove
    shift
fi
case ${1-} in
-*)
    sed -n '2,4s/^# //p' "$0"
    exit 2
    ;;
esac
from=$(dirname -- "$(readlink -f -- "$0")")
# A copy that is installed below a prefix uses that prefix.
case $from in
*/lib/roam) own=${from%/lib/roam} ;;
*) own=${HOME:?}/.local ;;
esac
prefix=$(readlink -m -- "${1:-$own}")

fail() {
    echo "install.sh: $1" >&2
    exit 1
}

python3 -c 'import sys; sys.exit(sys.version_info < (3, 9))' 2> /dev/null || fail "roam needs Python 3.9 or newer as python3 on the PATH"
if [ $does = install ]; then
    [ -f "$from/lib/roam/files" ] || fail "$from lacks files of roam; unpack the whole tarball"
    [ "$from" != "$prefix" ] || fail "$prefix is the unpacked tarball; name another directory"
    [ "$(uname -sm)" = "Linux x86_64" ] || fail "roam needs Linux on x86-64, and this is $(uname -sm)"
    "$from/lib/roam/roam" --help > /dev/null 2>&1 || fail "the program does not run here; it needs glibc @LIBC@ or newer"
else
    [ -f "$prefix/lib/roam/files" ] || fail "roam is not installed below $prefix"
fi

python3 - "$does" "$from" "$prefix" << 'END'
import compileall
import os
import pathlib
import shutil
import subprocess
import sys

OWN = ("lib/roam/files", "lib/roam/install.sh")
does, source, prefix = sys.argv[1], pathlib.Path(sys.argv[2]), pathlib.Path(sys.argv[3])
tools = prefix / "lib/roam"


def paths_in(path):
    """The paths of a list of files, below a prefix."""
    lines = path.read_text(encoding="utf-8").splitlines() if path.exists() else []
    return [line for line in lines if line and not line.startswith("/") and ".." not in line.split("/")]


def is_same(path, other):
    """Whether two files, or links, are equal."""
    if path.is_symlink() or other.is_symlink():
        return path.is_symlink() and other.is_symlink() and os.readlink(path) == os.readlink(other)
    return other.is_file() and path.read_bytes() == other.read_bytes() and path.stat().st_mode == other.stat().st_mode


def put(path, to):
    """Puts a file in its place as a whole, so that a process that has the old one keeps it."""
    if is_same(path, to):
        return
    to.parent.mkdir(parents=True, exist_ok=True)
    made = to.with_name(f"{to.name}.new")
    made.unlink(missing_ok=True)
    shutil.copy(path, made, follow_symlinks=False)
    made.replace(to)


def drop(paths):
    """Removes files, and folders that are empty then."""
    for path in paths:
        (prefix / path).unlink(missing_ok=True)
    folders = {prefix / parent for path in paths for parent in pathlib.PurePosixPath(path).parents}
    for folder in sorted(folders, key=lambda one: len(one.parts), reverse=True):
        try:
            folder.rmdir()
        except OSError:
            pass


def drop_compiled():
    """Removes what Python compiled."""
    for folder in list(tools.rglob("__pycache__")):
        shutil.rmtree(folder)


before = paths_in(prefix / OWN[0])
if does == "remove":
    drop_compiled()
    drop([*before, *OWN])
else:
    wanted = paths_in(source / OWN[0])
    for path in wanted:
        put(source / path, prefix / path)
    put(source / "install.sh", prefix / OWN[1])
    put(source / OWN[0], prefix / OWN[0])
    gone = [path for path in before if path not in set(wanted)]
    if gone:
        drop_compiled()
    drop(gone)
    compileall.compile_dir(tools / "roam_live", quiet=1)
    compileall.compile_file(tools / "roam_bundle.py", quiet=1)
    subprocess.run([sys.executable, "-S", str(tools / "roam_bundle.py")], check=False)
END

if [ $does = remove ]; then
    echo "roam was removed from $prefix; running sessions continue"
    exit 0
fi
echo "roam is installed below $prefix; start with \`roam mux\`; $prefix/lib/roam/install.sh --remove removes it"
case :$PATH: in
*:"$prefix/bin":*) ;;
*) echo "$prefix/bin is not on your PATH; add it" ;;
esac
