#!/bin/sh
# Prints the user time and the peak memory of the program, of `cp` of the same bytes, and for reading, textures and
# transfers also of plain C programs. Each line is the mean user time of 20 runs, of 3 for the textures and of one for the
# transfers, and the most memory that one of them took.
#
#   checks/measure.sh
set -eu
top=$(cd "$(dirname "$0")/.." && pwd)
weave=$top/weave
"$top/build" >&2 || { echo "the program is not built" >&2; exit 1; }
work=$(mktemp -d)
trap 'rm -rf "$work"' EXIT
cd "$work"
cc -O2 -o plain_read "$top/checks/plain_read.c"

# measure NAME STATUS COMMAND..: the command is to end with that status each time.
runs=20
measure() {
    name=$1 wanted=$2
    shift 2
    /usr/bin/time -o figures -f '%U %S %M' sh -c '
        runs=$1; wanted=$2; shift 2; i=0
        while [ $i -lt $runs ]; do
            status=0; "$@" >said 2>&1 || status=$?
            [ $status -eq $wanted ] || { cat said >&2; exit 1; }
            i=$((i + 1))
        done' sh "$runs" "$wanted" "$@"
    awk -v name="$name" -v runs="$runs" '{ printf "%-34s user %6.1f ms   system %6.1f ms   peak %6.1f MiB\n",
        name, $1 * 1000 / runs, $2 * 1000 / runs, $3 / 1024 }' figures
}

cp "$top/examples/netpbm_camouflage.ppm" sample.ppm
measure 'tile 64x64 to 1024x1024' 0 "$weave" grow sample=sample.ppm out=out.ppm map=out.map \
    record=out.record width=1024 height=1024 place=grid overlap=0
cat sample.ppm out.ppm out.map >moved
measure 'cp of the bytes read and written' 0 cp moved copy

# The output's size is refused once the sample is read, so this is the reading alone. With a maxval of 254 a
# byte can break the form, so each has to be looked at.
{ printf 'P6\n4096 2048\n254\n'; head -c 25165824 /dev/urandom | LC_ALL=C tr '\377' '\376'; } >great.ppm
measure 'read 4096x2048' 4 "$weave" grow sample=great.ppm out=out.ppm map=out.map \
    record=out.record width=4096 height=4096 place=grid overlap=0
measure 'plain C, reads and checks' 0 ./plain_read great.ppm
measure 'cp of the bytes read' 0 cp great.ppm copy

# texture NAME MODE WIDTH HEIGHT ROUNDS: grows from the pebbles. The plain program searches and cuts in the same way;
# its files have to be those of weave.
cc -O3 -march=native -o plain_grow "$top/checks/plain_grow.c"
runs=3
texture() {
    measure "$1" 0 "$weave" grow sample="$top/examples/pebbles.ppm" out=out.ppm map=out.map \
        record=out.record place="$2" width="$3" height="$4" rounds="$5"
    set -- "$2" "$top/examples/pebbles.ppm" plain.ppm plain.map plain.record "$3" "$4" 32 8 10 0 "$5"
    measure '  plain C' 0 ./plain_grow "$@"
    for kind in ppm map record; do cmp out.$kind plain.$kind; done
}
texture 'sub, 512x512' sub 512 512 0
texture 'whole, 512x512' whole 512 512 0
texture 'random, 1024x1024' random 1024 1024 0
texture 'grid, 1024x1024' grid 1024 1024 0
texture 'sub, 256x256, 200 rounds' sub 256 256 200

# Two such pictures are merged. The first 8 rows come from one of them, and the last 8 from the other.
for seed in 1 2; do
    "$weave" grow sample="$top/examples/pebbles.ppm" out=shot$seed.ppm map=out.map record=out.record \
        width=512 height=512 place=random seed=$seed >said
done
{
    printf 'P6\n512 512\n255\n'
    printf '\001\000\000%.0s' $(seq 4096)
    head -c 761856 /dev/zero
    printf '\002\000\000%.0s' $(seq 4096)
} >marks.ppm
measure 'merge, 512x512' 0 "$weave" merge sample=shot1.ppm sample2=shot2.ppm marks=marks.ppm \
    out=out.ppm map=out.map

# A target of another picture is painted with blocks of pebbles. The plain program does the same, with the same
# elimination and with none; its files have to be those of weave.
cc -O3 -o plain_transfer "$top/checks/plain_transfer.c"
runs=1
"$weave" grow sample="$top/examples/imagemagick_plasma.ppm" out=target.ppm map=out.map record=out.record \
    width=512 height=512 place=random >said

# transfer WIDTH HEIGHT BLOCK: from a sample of that size.
transfer() {
    "$weave" grow sample="$top/examples/pebbles.ppm" out=sample.ppm map=out.map record=out.record \
        width="$1" height="$2" place=random >said
    measure "transfer from $1x$2, block $3" 0 "$weave" transfer sample=sample.ppm target=target.ppm \
        out=out.ppm map=out.map record=out.record block="$3"
    set -- sample.ppm target.ppm plain.ppm plain.map plain.record "$3" 5 10 50 0
    measure '  plain C, the same elimination' 0 ./plain_transfer "$@"
    for kind in ppm map record; do cmp out.$kind plain.$kind; done
    measure '  plain C, every candidate' 0 ./plain_transfer all "$@"
}
transfer 256 256 16
transfer 256 256 32
transfer 600 400 12
