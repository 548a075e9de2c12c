#!/bin/sh
# Clips of just as many cells and frames as are read, and of one frame more, each with what the built program answers: samples of
# 2^23 cells and of 4,096 frames, and an out file of 2^25 cells, which check reads. Build the program first: ./build.
# It takes about 200 MB in a folder of its own.
set -eu
here=$(cd "$(dirname "$0")" && pwd)
weave="$here/../weave"
[ -x "$weave" ] || { echo "no $weave: build it first"; exit 2; }
work=$(mktemp -d)
trap 'rm -rf "$work"' EXIT
cd "$work"
wrong=0

# clip NAME WIDTH HEIGHT FRAMES: of the kind mono, and black.
clip() {
    printf 'YUV4MPEG2 W%s H%s Cmono\n' "$2" "$3" >"$1"
    { printf 'FRAME\n'; head -c $(($2 * $3)) /dev/zero; } >frame
    i=0
    while [ $i -lt "$4" ]; do
        cat frame
        i=$((i + 1))
    done >>"$1"
}

# answers STATUS LINE WORD..: the status of a run, and what it says.
answers() {
    wanted="$1 $2"
    shift 2
    status=0
    said=$("$weave" "$@" 2>&1) || status=$?
    if [ "$status $said" = "$wanted" ]; then
        echo "as it should be: $wanted"
    else
        echo "$status $said, and not $wanted"
        wrong=$((wrong + 1))
    fi
}

# grown STATUS LINE CLIP: the answer to growing one cell of it.
grown() {
    answers "$1" "$2" grow sample="$3" out=o map=m record=r width=1 height=1 place=grid overlap=0
}

one='grow 1x1x1
placements 1
rounds 0
seams 0'
clip sample 4096 2048 1
grown 0 "$one" sample
clip sample 2048 1024 4
grown 0 "$one" sample
clip sample 2048 1024 5
grown 4 'weave: limit cells 10485760 over 8388608' sample
clip sample 4096 2049 1
grown 4 'weave: limit cells 8392704 over 8388608' sample
clip sample 1 1 4096
grown 0 "$one" sample
clip sample 1 1 4097
grown 4 'weave: limit axis 4097 over 4096' sample
clip sample 4097 1 1
grown 4 'weave: limit axis 4097 over 4096' sample

# The map and the record are those of one cell, so a great out file that is read isn't of their size.
clip sample 1 1 1
grown 0 "$one" sample
clip out 4096 2048 4
answers 1 'fails record 0 rule 15 place 0' check sample=sample out=out map=m record=r
clip out 4096 2048 5
answers 4 'weave: limit cells 41943040 over 33554432' check sample=sample out=out map=m record=r
clip out 4096 4096 3
answers 4 'weave: limit cells 50331648 over 33554432' check sample=sample out=out map=m record=r
exit "$wrong"
