#!/bin/bash
# Makes the pictures of "How to choose" in docs/MANUAL.md, in docs/images/.
#
#     examples/choices.sh [WEAVE [figures]]      the program is ./weave where none is named
#
# With `figures` it prints the costs that the page has in place of that. It wants Netpbm for the pictures (pnmcat,
# pnmpad, pnmtile, pnmtopng).
set -eu
cd "$(dirname "$0")/.."
weave=$(realpath "${1-weave}")
images=$PWD/docs/images
examples=$PWD/examples
tools=$PWD/tools
scratch=$(mktemp -d)
trap 'rm -rf "$scratch"' EXIT
cd "$scratch"

for name in bricks olives gravel halves; do "$examples/samples.py" $name $name.ppm; done
for name in waves sway; do "$examples/samples.py" $name $name.y4m; done
cp "$examples/pebbles.ppm" .

# run NAME COMMAND SAMPLE WORDS..: NAME.ppm and its report
run() {
    name=$1 command=$2 sample=$3
    shift 3
    "$weave" "$command" sample="$sample.ppm" out="$name.ppm" map="$name.map" record=record "$@" > "$name.txt"
    echo "$name: $command $sample $*: $(tail -1 "$name.txt")"
}

# show OUT NAME ..: the pictures in a row, 6 white pixels apart
show() {
    out=$1
    shift
    first=$1.ppm
    shift
    cp "$first" row.ppm
    for name in "$@"; do
        pnmpad -white -left=6 "$name.ppm" > padded.ppm
        pnmcat -lr -white -jtop row.ppm padded.ppm > longer.ppm
        mv longer.ppm row.ppm
    done
    pnmtopng -quiet -compression 9 row.ppm > "$images/$out.png"
}

# cost COMMAND WORDS..: the last number of its report
cost() {
    "$weave" "$@" out=o map=m record=r | tail -1 | cut -d' ' -f2
}

# Prints the costs of a run over each sample, with these words.
row() {
    printf '%s:' "$*"
    for sample in pebbles bricks olives gravel grass; do
        printf ' %s' "$(cost "$1" sample=$sample.ppm width=320 height=240 "${@:2}")"
    done
    echo
}

if [ "${2-}" = figures ]; then
    "$examples/samples.py" grass grass.ppm
    echo "costs of pebbles, bricks, olives, gravel and grass"
    for words in "16 4" "32 8" "32 16" "48 16" "64 16" "64 32" "64 40" "120 60"; do
        row grow box="${words% *}" overlap="${words#* }" rounds=40
    done
    for tol in 0 5 10 30 100 300; do row grow box=64 overlap=32 tol=$tol; done
    for rounds in 10 200; do row grow box=64 overlap=32 rounds=$rounds; done
    row grow box=64 overlap=56 rounds=40
    for place in whole random grid; do row grow place=$place; done
    row quilt
    row quilt block=56 overlap=16 tol=5
    for words in "8 2" "12 4" "16 6" "24 10" "32 12" "40 16"; do
        echo "water, box and overlap $words: $(cost grow sample=waves.y4m width=80 height=80 frames=80 \
            box="${words% *}" overlap="${words#* }" rounds=10)"
    done
    for words in "60 1 4" "60 2 4" "60 4 4" "60 8 4" "40 8 0" "40 8 4"; do
        set -- $words
        cost loop sample=sway.y4m length=$1 gap=$2 taps=$3 > /dev/null
        xxd -s 34 -c 2 -p m | python3 -c "
import sys
walk = [int(line, 16) for line in sys.stdin]
jumps = [(a, b) for a, b in zip(walk, walk[1:] + walk[:1]) if b != a + 1]
print('reed, length $1 gap $2 taps $3:', len(jumps), 'jumps:', *jumps)"
    done
    exit
fi

size="width=200 height=140"

# box: too small, the default, right; and too large
run box_small grow bricks $size box=12 overlap=4
run box_default grow bricks $size
run box_right grow bricks $size box=64 overlap=32
show choose_box box_small box_default box_right
run box_pebbles_small grow pebbles $size box=12 overlap=4
run box_pebbles_right grow pebbles $size box=64 overlap=40
run box_pebbles_large grow pebbles $size box=124 overlap=40
show choose_box_pebbles box_pebbles_small box_pebbles_right box_pebbles_large

# overlap: none to speak of, a quarter, a half
run overlap_small grow pebbles $size box=64 overlap=2
run overlap_quarter grow pebbles $size box=64 overlap=16
run overlap_right grow pebbles $size box=64 overlap=32
show choose_overlap overlap_small overlap_quarter overlap_right

# tol: none, a little, too much
run tol_none grow bricks $size box=64 overlap=32 tol=0
run tol_right grow bricks $size box=64 overlap=32 tol=10
run tol_large grow bricks $size box=64 overlap=32 tol=300
show choose_tol tol_none tol_right tol_large

# block: too small, right, too large
run block_small quilt olives $size block=12 overlap=3 tol=5
run block_right quilt olives $size block=56 overlap=16 tol=5
run block_large quilt olives $size block=140 overlap=16 tol=5
show choose_block block_small block_right block_large

# a sample of two regions falls into its flatter one
run halves_grown grow halves $size box=64 overlap=32
show choose_halves halves halves_grown

# turns: light from above, and from all sides
run turns_none grow olives $size box=64 overlap=32 rounds=10 turns=none
run turns_all grow olives $size box=64 overlap=32 rounds=10 turns=all
show choose_turns turns_none turns_all

# gap: none to speak of, some, and enough
for gap in 1 4 8; do
    "$weave" loop sample=sway.y4m out=looped.y4m map=gap.map record=record length=60 gap=$gap > /dev/null
    "$tools/draw.py" walk gap.map gap_$gap.ppm 3
done
show choose_gap gap_1 gap_4 gap_8

# tiles: a size at which the last patches and the first don't overlap, and one at which they do; each laid two by two
for cells in 128 136; do
    "$weave" tile sample=pebbles.ppm out=tile.ppm map=tile.map width=$cells height=$cells > /dev/null
    pnmtile $((2 * cells)) $((2 * cells)) tile.ppm > tile_$cells.ppm
done
show choose_tile tile_128 tile_136
