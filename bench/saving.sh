#!/bin/sh
# Tries what a save leaves, and what is said of it, over real files: a full disk, a folder that may not be written, links, modes, pipes.
#
# Usage: saving.sh LX
#
# LX is the program. Works in a new folder below ${TMPDIR:-/tmp}. As root the row of the folder that may not be written is run as
# nobody, by setpriv. It is no part of the gate, which has no full disk. Prints a line for each row that goes wrong, and the
# count of rows; the status is 0 where none does.
set -u

case "${1-}" in
-h | --help)
    sed -n '2,8s/^# \{0,1\}//p' "$0"
    exit 0
    ;;
"" | -*)
    sed -n '2,8s/^# \{0,1\}//p' "$0" >&2
    exit 2
    ;;
esac
case "$1" in
*/*) lx=$(cd "$(dirname "$1")" && pwd)/$(basename "$1") ;;
*) lx=$1 ;;
esac
here=$(cd "$(dirname "$0")" && pwd)
room=$(mktemp -d) || exit 1
trap 'chmod -R u+w "$room"; rm -rf "$room"' EXIT
chmod 755 "$room"
cd "$room" || exit 1
cp "$here"/../examples/stored/add.obj "$here"/../examples/add.def .
chmod 644 add.obj add.def
i=0
while [ $i -lt 400 ]; do
    i=$((i + 1))
    echo " n$i = add_up @$i"
done | { printf 'LIBRARY BIG\nEXPORTS\n' && cat; } >big.def

rows=0
wrong=0

# row TITLE TEST: counts the row, and tells it where the test does not hold
row() {
    rows=$((rows + 1))
    eval "$2" || {
        wrong=$((wrong + 1))
        echo "saving.sh: $1"
    }
}

link() {
    "$lx" link "$1" add.def add.obj >/dev/null 2>said
    status=$?
}

# says LINE: standard error of the last link had it
says() {
    grep -qxF "lx: $1" said
}

left_over() {
    find "$room" -name '.lx-new*' | grep -q .
}

link new.dll
row "a new file" '[ $status = 0 ] && [ -s new.dll ] && ! left_over && [ ! -s said ]'
cp new.dll wanted.dll

echo old >over.dll && chmod 640 over.dll && link over.dll
row "an old file is replaced" '[ $status = 0 ] && cmp -s over.dll wanted.dll && ! left_over'
row "its modes stay" '[ "$(stat -c %a over.dll)" = 640 ]'
row "what it was is told" 'says "warning: over.dll: the file that is written over now is no module: it seems to be text"'
link over.dll
row "nothing is told of a module that is written over" '[ $status = 0 ] && [ ! -s said ]'

echo old >kept.dll
(
    trap '' XFSZ
    ulimit -f 1
    exec "$lx" link kept.dll big.def add.obj >/dev/null 2>said
)
status=$?
row "a full disk leaves the old file" '[ $status = 4 ] && [ "$(cat kept.dll)" = old ] && ! left_over'
row "that it is full is told" 'says "note: the system says: File too large (os error 27)"'
(
    trap '' XFSZ
    ulimit -f 1
    exec "$lx" link none.dll big.def add.obj >/dev/null 2>&1
)
status=$?
row "a full disk leaves no new file" '[ $status = 4 ] && [ ! -e none.dll ] && ! left_over'

link no/such.dll
row "an absent folder" '[ $status = 4 ] && [ ! -e no ] && ! left_over && says "note: there is no folder no"'
row "what the system says of it" 'says "note: the system says: No such file or directory (os error 2)"'
long=$(printf '%0252d.dll' 0)
link "$long"
row "a name of 256 bytes" '[ $status = 4 ] && ! left_over && says "note: the file'"'"'s name has more than 255 bytes"'
row "what the system says of it" 'says "note: the system says: File name too long (os error 36)"'
: >.lx-new-0 && : >.lx-new-1 && link stale.dll
row "what a save has left is told" '[ $status = 0 ] && says "warning: .lx-new-0 stands there: a save that was cut off has left it, or one is going on"'
row "and what another one has" 'says "warning: .lx-new-1 stands there: a save that was cut off has left it, or one is going on"'
rm -f .lx-new-0 .lx-new-1

mkdir folder && link folder
row "a folder" '[ $status = 4 ] && [ -d folder ] && ! left_over && says "note: the system says: Is a directory (os error 21)"'
echo old >part && link part/a.dll
row "a folder that is a file" '[ $status = 4 ] && says "note: the system says: Not a directory (os error 20)"'

echo old >aim.dll && ln -s aim.dll soft.dll && link soft.dll
row "a symbolic link is followed" '[ $status = 0 ] && [ -L soft.dll ] && [ ! -L aim.dll ] && cmp -s aim.dll wanted.dll'
mkdir deep && ln -s deep/far.dll loose.dll && link loose.dll
row "a symbolic link to what is not there" '[ $status = 0 ] && [ -L loose.dll ] && cmp -s deep/far.dll wanted.dll'
ln -s round.dll round.dll && link round.dll
row "a symbolic link to itself" '[ $status = 4 ] && [ -L round.dll ] && ! left_over'
row "what the system says of it" 'says "note: the system says: Too many levels of symbolic links (os error 40)"'

link /dev/null
row "a device" '[ $status = 0 ] && [ -c /dev/null ]'
link /dev/full
row "a device without room" '[ $status = 4 ] && [ -c /dev/full ] && says "note: the system says: No space left on device (os error 28)"'
mkfifo pipe.dll && cat pipe.dll >piped.dll &
reader=$!
sleep 1
link pipe.dll
wait $reader
row "a pipe" '[ $status = 0 ] && [ -p pipe.dll ] && cmp -s piped.dll wanted.dll'

mkdir shut && echo old >shut/a.dll && chmod 666 shut/a.dll && chmod 555 shut
if [ "$(id -u)" = 0 ]; then
    setpriv --reuid=65534 --regid=65534 --clear-groups "$lx" link shut/a.dll add.def add.obj >/dev/null 2>said
else
    "$lx" link shut/a.dll add.def add.obj >/dev/null 2>said
fi
status=$?
row "a folder that may not be written" '[ $status = 4 ] && [ "$(cat shut/a.dll)" = old ]'
row "that a save makes a new file there is told" 'grep -q "^lx: note: shut/a.dll could not be written: a save makes a new file in its folder" said'
row "what the system says of it" 'says "note: the system says: Permission denied (os error 13)"'
mkdir open && chmod 777 open && echo old >open/a.dll && chmod 444 open/a.dll
if [ "$(id -u)" = 0 ]; then
    setpriv --reuid=65534 --regid=65534 --clear-groups "$lx" link open/a.dll add.def add.obj >/dev/null 2>&1
else
    "$lx" link open/a.dll add.def add.obj >/dev/null 2>&1
fi
status=$?
row "a file that may not be written" '[ $status = 4 ] && [ "$(cat open/a.dll)" = old ] && ! left_over'

echo "$rows rows, $wrong wrong"
[ "$wrong" = 0 ]
