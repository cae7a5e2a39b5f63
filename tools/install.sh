#!/bin/sh
# Puts the program and its manual page into place: PREFIX/bin/lx and PREFIX/share/man/man1/lx.1.
#
# Usage: install.sh PREFIX [LX]
#
# LX is the program; where it is not given it is the one that this repository has built, crates/lx/out/lx. Folders that are absent
# are made. What stands there is replaced once the new file is whole. The status is 0 where both are in place, 1 where one could
# not be put there, and 2 where the words are wrong or there is no program.
set -u

top=$(cd "$(dirname "$0")/.." && pwd)

usage() {
    sed -n '2,8s/^# \{0,1\}//p' "$0"
}

# Puts a file into a folder, by a new name first: a program that runs cannot be written over.
put() {
    mkdir -p "$3" && cp "$1" "$3/.$2.$$" && chmod "$4" "$3/.$2.$$" && mv -f "$3/.$2.$$" "$3/$2" && return 0
    rm -f "$3/.$2.$$"
    echo "install.sh: $3/$2 could not be put there" >&2
    return 1
}

case "${1-}" in
-h | --help)
    usage
    exit 0
    ;;
"" | -*)
    usage >&2
    exit 2
    ;;
esac
[ $# -le 2 ] || {
    usage >&2
    exit 2
}
lx=${2:-$top/crates/lx/out/lx}
[ -f "$lx" ] || {
    echo "install.sh: no program: $lx (cd crates/lx && rt run -- --help builds it)" >&2
    exit 2
}
put "$lx" lx "$1/bin" 755 && put "$top/docs/lx.1" lx.1 "$1/share/man/man1" 644 || exit 1
echo "$1/bin/lx"
echo "$1/share/man/man1/lx.1"
