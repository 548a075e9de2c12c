#!/bin/sh
# Tiles each picture of examples/ to 100x75 cells with the built program, and each clip, and compares the status and the line of
# each with what examples/README.md says. Build it first: ./build.
cd "$(dirname "$0")/.." || exit 2
weave=./weave
[ -x "$weave" ] || { echo "no $weave: build it first"; exit 2; }
room=$(mktemp -d) || exit 2
trap 'rm -rf "$room"' EXIT
wrong=0
for picture in examples/*.ppm examples/*.y4m; do
    "$weave" grow sample="$picture" out="$room/o" map="$room/m" record="$room/r" \
        width=100 height=75 place=grid overlap=0 >"$room/report" 2>"$room/line"
    status=$?
    case $picture in
        *_deep.ppm) wanted="3 weave: sample: depth" ;;
        *_odd.y4m) wanted="3 weave: sample: cell" ;;
        *_10.y4m | *_alpha.y4m) wanted="3 weave: sample: colour space" ;;
        *) wanted="0 " ;;
    esac
    answer="$status $(cat "$room/line")"
    [ "$answer" = "$wanted" ] || { echo "$picture: $answer"; wrong=$((wrong + 1)); }
done
# A pipe may be a sample too.
cat examples/pebbles.ppm | "$weave" grow sample=/dev/stdin out="$room/o" map="$room/m" record="$room/r" \
    width=100 height=75 >"$room/report" 2>"$room/line" || { echo "a pipe: $(cat "$room/line")"; wrong=$((wrong + 1)); }
[ "$wrong" = 0 ] && echo "each picture and each clip is answered as it should be"
exit "$wrong"
