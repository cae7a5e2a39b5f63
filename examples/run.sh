#!/bin/sh
# Makes the examples anew in a temporary folder and compares each file and each line with those of stored/.
#
# Usage: run.sh LX
#
# LX is the program. Objects come from stored/, so nasm is not needed; where nasm is on the path, the sources are assembled
# too, and objects that differ are told (another nasm may write others; that is no fault). With the word --store in the place
# of LX the folder stored/ is filled by the program $LX; that takes nasm and python3. The status is 0 where all agrees.
set -u

here=$(cd "$(dirname "$0")" && pwd)

usage() {
    sed -n '2,9s/^# \{0,1\}//p' "$0"
}

# Runs the commands in this folder, each with its words, its text and its status.
commands() {
    grep -v -e '^#' -e '^$' "$here/commands.txt" | while read -r words; do
        echo "\$ lx $words"
        # (the words are to be split)
        # shellcheck disable=SC2086
        "$lx" $words 2>/dev/null
        echo "status $?"
    done
}

# (by its bare name, since nasm puts a source's name as it was given into the object file)
assemble() {
    cp "$here"/*.asm .
    for source in *.asm; do
        nasm -f obj -o "${source%.asm}.obj" "$source" || exit 1
    done
    rm -f ./*.asm
}

case "${1-}" in
-h | --help)
    usage
    exit 0
    ;;
--store) lx=${LX:?the program} ;;
"" | -*)
    usage >&2
    exit 2
    ;;
*) lx=$1 ;;
esac
case "$lx" in
*/*) lx=$(cd "$(dirname "$lx")" && pwd)/$(basename "$lx") ;;
esac
command -v "$lx" >/dev/null || {
    echo "run.sh: no program: $lx" >&2
    exit 2
}

room=$(mktemp -d) || exit 1
trap 'rm -rf "$room"' EXIT
cd "$room" || exit 1
cp "$here"/*.def "$here"/add.ses "$here"/by_hand.txt "$here"/wrong_reply.txt .

if [ "$1" = --store ]; then
    python3 "$here/gas_to_nasm.py" "$here/words.s" >"$here/words.asm" || exit 1
    assemble
    python3 "$here/make_library.py" maths.lib root.obj cube.obj square.obj || exit 1
    mkdir -p "$here/stored"
    rm -f "$here"/stored/*
    commands >commands.log
    rm -f ./*.def add.ses by_hand.txt wrong_reply.txt
    cp ./* "$here/stored/"
    exit 0
fi

differ=0
if command -v nasm >/dev/null; then
    assemble
    for object in *.obj; do
        cmp -s "$object" "$here/stored/$object" || echo "run.sh: this nasm writes another $object"
    done
    rm -f ./*.obj
fi
cp "$here"/stored/*.obj "$here/stored/maths.lib" .
commands >commands.log
for wanted in "$here"/stored/*; do
    name=$(basename "$wanted")
    cmp -s "$name" "$wanted" && continue
    differ=1
    echo "run.sh: $name is another one"
    case "$name" in commands.log) diff "$wanted" "$name" ;; esac
done
for made in *; do
    case "$made" in *.def | add.ses | by_hand.txt | wrong_reply.txt) continue ;; esac
    [ -e "$here/stored/$made" ] || {
        differ=1
        echo "run.sh: $made was not to be made"
    }
done
program=$(command -v "$lx")
if sh "$here/../tools/install.sh" "$room/prefix" "$program" >/dev/null && cmp -s prefix/bin/lx "$program" &&
    cmp -s prefix/share/man/man1/lx.1 "$here/../docs/lx.1"; then :; else
    differ=1
    echo "run.sh: install.sh does not put the program and its page into place"
fi
if command -v python3 >/dev/null; then
    printf 'f:\n\tmovl\t$1, %%eax\n' | python3 "$here/gas_to_nasm.py" /dev/stdin >/dev/null 2>&1 && {
        differ=1
        echo "run.sh: gas_to_nasm.py takes AT&T assembly"
    }
    python3 "$here/stand_in.py" "$lx" hello.exe >/dev/null && "$lx" run hello.ses >hello.log 2>hello.notes &&
        grep -q '^1 P1 start HELLO$' hello.log && [ ! -s hello.notes ] || {
        differ=1
        echo "run.sh: stand_in.py makes no session that starts hello.exe"
    }
fi
[ "$differ" = 0 ] && echo "run.sh: all as stored"
exit "$differ"
