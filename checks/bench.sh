#!/bin/sh
# Times the cases of crates/bench: the user time of one run of a case, and the most memory that it takes. Each case is
# run a number of times in one process, and not at all in another, which does the rest, as making the sample; the time
# is the difference. All this is done in turns so many rounds (5), and the medians are printed.
#
#   checks/bench.sh [PROGRAM ..]
#
# Each PROGRAM is a built bench, as that of another checkout: ./build bench makes one. They are run in turns, so that
# their figures may be compared. CASES and ROUNDS in the environment choose others than all and 5. It wants GNU `time`
# at /usr/bin/time.
set -eu
top=$(cd "$(dirname "$0")/.." && pwd)
if [ $# -eq 0 ]; then
    "$top/build" bench >&2 || { echo "bench is not built" >&2; exit 1; }
    set -- "$top/bench"
fi
cases=${CASES:-sub:2 sub-256:1 rounds:2 noise:1 equal-means:1 plain:1 sub-64:1 sub-2048:1 whole:1
    random:1 grid:10 quilt:1 quilt-noise:1 transfer:1 merge:1 check:10 check-random:10 loop-100:10
    loop-4095:5 boundary-5:3000 boundary-10:2000 boundary-100:20 network-grid:10 network-ladder:10
    network-thin:10 network-drawn:10 network-comb:10 records-read:100 records-write:100
    records-copy:1000 strip-read:50 strip-write:50 strip-copy:500 clip-420-read:10 clip-420-write:10
    clip-444-read:10 clip-444-write:10}
rounds=${ROUNDS:-5}
work=$(mktemp -d)
trap 'rm -rf "$work"' EXIT

# measure PROGRAM CASE TIMES: adds a line with the user time in seconds and the peak in KiB.
measure() {
    /usr/bin/time -o "$work/figure" -f '%U %M' "$1" "$2" "$3" >"$work/number"
    awk -v name="$2" -v program="$1" -v times="$3" '{ print name, program, times, $1, $2 }' "$work/figure" \
        >>"$work/figures"
}

round=0
while [ $round -lt "$rounds" ]; do
    for case in $cases; do
        for program; do
            measure "$program" "${case%:*}" 0
            measure "$program" "${case%:*}" "${case#*:}"
        done
    done
    round=$((round + 1))
done

# median CASE PROGRAM TIMES COLUMN
median() {
    awk -v name="$1" -v program="$2" -v times="$3" -v column="$4" \
        '$1 == name && $2 == program && $3 == times { print $column }' "$work/figures" |
        sort -n | awk '{ figures[NR] = $1 } END { print figures[int((NR + 1) / 2)] }'
}

for case in $cases; do
    name=${case%:*} times=${case#*:}
    for program; do
        awk -v name="$name" -v program="$program" -v times="$times" \
            -v before="$(median "$name" "$program" 0 4)" -v after="$(median "$name" "$program" "$times" 4)" \
            -v peak="$(median "$name" "$program" "$times" 5)" \
            'BEGIN { printf "%-15s user %9.3f ms   peak %6.1f MiB   %s\n", name, (after - before) * 1000 / times,
                peak / 1024, program }'
    done
done
