#!/bin/sh
# Runs whose boxes have 33,554,432 cells all together, which is the most, and runs that pass this bound: of grow, quilt and
# trial, while the output is filled and in rounds of refinement. What a run within the bound leaves is checked; each other one has
# to end with status 4 and its line, report nothing, and leave the files as they were.
#
#   checks/most_records.sh
#
# Build the program first: ./build. It takes some minutes, and 300 MB for a file in the folder of
# temporary files.
set -u
here=$(cd "$(dirname "$0")" && pwd)
weave=$here/../weave
[ -x "$weave" ] || { echo "no $weave: build it first"; exit 2; }
room=$(mktemp -d) || exit 2
trap 'rm -rf "$room"' EXIT
cd "$room" || exit 2
wrong=0
cp "$here/../examples/netpbm_camouflage.ppm" s

# expect STATUS REPORT LINE WORD..: runs weave, and compares what it says.
expect() {
    wanted="$1 $2 $3"
    shift 3
    "$weave" "$@" >report 2>line
    said="$? $(tr '\n' ' ' <report) $(cat line)"
    [ "$said" = "$wanted" ] || { echo "$*: $said, not $wanted"; wrong=$((wrong + 1)); }
}

# stands REPORT WORD..: a run within the bound, and the check of its files.
stands() {
    report=$1
    shift
    expect 0 "$report" "" "$@" sample=s out=o map=m record=r
    expect 0 "stands " "" check sample=s out=o map=m record=r
    rm -f o m r
}

# passes WORD..: a run that passes the bound.
line="weave: limit records 33558528 over 33554432"
passes() {
    for file in o m r; do echo before >"$file"; done
    expect 4 "" "$line" "$@" sample=s out=o map=m record=r
    for file in o m r; do
        [ "$(cat "$file")" = before ] || { echo "$*: $file isn't as before"; wrong=$((wrong + 1)); }
    done
    rm -f o m r
}

# 8,192 boxes of 64 x 64 cells, and one more.
grid="place=grid overlap=63"
stands "grow 191x127x1 placements 8192 rounds 0 seams 0 " grow $grid width=191 height=127
passes grow $grid width=192 height=127
passes grow $grid width=1024 height=1024
passes grow place=sub box=64 overlap=63 width=192 height=127
passes grow place=sub box=64 overlap=63 width=1024 height=1024
blocks="block=64 overlap=63"
stands "quilt 191x127x1 blocks 8192 boundaries 16192 cost 32146218 " quilt $blocks width=191 height=127
passes quilt $blocks width=192 height=127

# 8,064 boxes while the output is filled, and 128 rounds; and one round more.
trial="trial n=1 $grid width=191 height=126 box=64"
expect 0 "trial 1 sample 64x64x1 grow 191x126x1 placements 8064 rounds 128 seams 182953 record stands " "" $trial rounds=128
expect 4 "" "$line" $trial rounds=129
[ "$wrong" = 0 ] && echo "each run ends as it should"
exit "$wrong"
