#!/bin/bash
# Builds the program, makes a dozen results with all commands, checks them, and compares the sums of their files with
# those in sums.txt. The results stay in examples/results/, for anyone to look at.
#
#     examples/run.sh [--write]      with --write the sums are written down instead
#
# It wants no other program than the kit's. Out files, maps and the records of quilts are a function of words and
# samples; of cuts and of walks the records aren't, so their sums aren't compared.
set -eu
cd "$(dirname "$0")"
../build || { echo "run.sh: the build failed"; exit 1; }
weave=$PWD/../weave
mkdir -p results
cd results
rm -f ./*

# make NAME COMMAND SAMPLE ENDING WORDS..: one result, and its check
make() {
    name=$1 command=$2 sample=$3 ending=$4
    shift 4
    files="sample=../$sample out=$name.$ending map=$name.map record=$name.rec"
    for word in "$@"; do
        case $word in sample[0-9]* | turns=*) more="$more $word" ;; esac
    done
    "$weave" "$command" $files "$@" > "$name.txt"
    "$weave" check $files $more > "$name.check"
    [ "$(cat "$name.check")" = stands ] || { echo "$name: $(cat "$name.check")"; exit 1; }
    more=
    echo "$name: $(tr '\n' ' ' < "$name.txt")"
}
more=

make pebbles_sub grow pebbles.ppm ppm width=192 height=128 rounds=20
make pebbles_whole grow pebbles.ppm ppm width=192 height=128 place=whole
make pebbles_random grow pebbles.ppm ppm width=192 height=128 place=random
make pebbles_grid grow pebbles.ppm ppm width=192 height=128 place=grid
make mixed grow pebbles.ppm ppm sample2=../imagemagick_plasma.ppm width=160 height=120 place=random
# Each of its cells names a sample, in the first two of eight bytes: both have to be there.
parts=$(od -An -v -tx1 -w8 -j48 mixed.map | cut -c2-6 | sort | uniq -c)
[ "$(wc -l <<< "$parts")" = 2 ] || { echo "mixed: of one sample alone: $parts"; exit 1; }
make pebbles_turned grow pebbles.ppm ppm width=192 height=128 rounds=20 turns=all
make tartan grow netpbm_tartan.ppm ppm width=200 height=150 box=40 overlap=16 tol=0
make pebbles_quilt quilt pebbles.ppm ppm width=192 height=128 block=32 overlap=8
make tartan_quilt quilt netpbm_tartan.ppm ppm width=192 height=128 block=24 overlap=6
make camouflage_quilt quilt netpbm_camouflage.ppm ppm width=160 height=120 block=20 overlap=5 seed=7
make life_grown grow life.y4m y4m width=60 height=40 frames=12 box=12 overlap=4
make life_loop loop life.y4m y4m length=24
make life_short loop life.y4m y4m length=10 taps=2 gap=2
"$weave" upgrade map=pebbles_sub.map record=pebbles_sub.rec newmap=upgraded.map newrecord=upgraded.rec
"$weave" check sample=../pebbles.ppm out=pebbles_sub.ppm map=upgraded.map record=upgraded.rec
"$weave" trial n=1 > trial.txt

sums=$(sha256sum $(ls ./*.ppm ./*grown.y4m ./*.map ./*quilt.rec trial.txt | grep -v -e life_loop -e life_short | LC_ALL=C sort))
if [ "${1-}" = --write ]; then
    echo "$sums" > ../sums.txt
elif [ "$sums" = "$(cat ../sums.txt)" ]; then
    echo "all sums are as before"
else
    echo "$sums" | diff ../sums.txt - || true
    echo "run.sh: these sums differ"
    exit 1
fi
