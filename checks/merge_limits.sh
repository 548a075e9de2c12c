#!/bin/sh
# Pictures of just as many cells as are merged, and of more, and marks that are refused before them, each with what the built
# program answers. Build the program first: ./build. It takes about 80 MB in a folder of its own.
set -eu
here=$(cd "$(dirname "$0")" && pwd)
weave="$here/../weave"
[ -x "$weave" ] || { echo "no $weave: build it first"; exit 2; }
work=$(mktemp -d)
trap 'rm -rf "$work"' EXIT
cd "$work"
wrong=0

# picture NAME WIDTH HEIGHT: a black one, which as marks marks no cell.
picture() {
    { printf 'P6\n%s %s\n255\n' "$2" "$3"; head -c $((3 * $2 * $3)) /dev/zero; } >"$1"
}

# mark NAME WIDTH HEIGHT MARK: a picture whose last cell alone is marked.
mark() {
    { printf 'P6\n%s %s\n255\n' "$2" "$3"; head -c $((3 * $2 * $3 - 3)) /dev/zero; printf "\\$(printf %03o "$4")\\000\\000"; } >"$1"
}

# pictures COUNT: words for so many pictures, all of the file that is named a.
pictures() {
    printf 'sample=a'
    i=2
    while [ $i -le "$1" ]; do
        ln -sf a "a$i"
        printf ' sample%s=a%s' $i $i
        i=$((i + 1))
    done
}

# answers STATUS LINE WORD..: the status of a merge, and what it says.
answers() {
    wanted="$1 $2"
    shift 2
    status=0
    said=$("$weave" merge "$@" out=o map=m 2>&1) || status=$?
    if [ "$status $said" = "$wanted" ]; then
        echo "as it should be: $wanted"
    else
        echo "$status $said, and not $wanted"
        wrong=$((wrong + 1))
    fi
}

# Eight pictures have as many cells together as are read; the ninth passes that, before any marks are read.
picture a 1024 1024
mark marks 1024 1024 9
answers 3 'weave: marks: mark at 1048575' $(pictures 8) marks=marks
answers 4 'weave: limit cells 9437184 over 8388608' $(pictures 9) marks=none

# The bound of an output comes after the marks.
picture a 2048 1024
mark marks 2048 1024 3
answers 3 'weave: marks: mark at 2097151' $(pictures 2) marks=marks
mark marks 2048 1024 2
answers 4 'weave: limit output 2097152 over 1048576' $(pictures 2) marks=marks
mark marks 1024 2048 3
answers 3 'weave: marks: unlike' $(pictures 2) marks=marks

# Lines of cells, one after another, and as many pictures as there may be.
for size in '1 1' '1 4096' '4096 1'; do
    picture a $size
    mark marks $size 7
    answers 0 "merge $(echo $size | tr ' ' x)x1
pictures 16
seams 0" $(pictures 16) marks=marks
done
answers 2 'weave: word 18: unknown key' $(pictures 17) marks=marks

# The largest merge, with the marks through a pipe.
picture a 1024 1024
mark marks 1024 1024 1
status=0
said=$("$weave" merge $(pictures 2) marks=/dev/stdin out=o map=m <marks 2>&1) || status=$?
[ "$status $said" = "0 merge 1024x1024x1
pictures 2
seams 0" ] || { echo "$status $said"; wrong=$((wrong + 1)); }
exit "$wrong"
