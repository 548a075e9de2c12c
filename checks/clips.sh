#!/bin/sh
# Clips of ffmpeg's own sources: each is read by weave and grown in space and time, the files of the run are checked, and the
# clip that was written is read by ffmpeg. Then clips that weave refuses. Build the program first: ./build.
# It wants ffmpeg and ffprobe.
set -eu
here=$(cd "$(dirname "$0")" && pwd)
weave="$here/../weave"
work=$(mktemp -d)
trap 'rm -rf "$work"' EXIT

# A clip of a kind, a size in pixels and a filter.
clip() {
    ffmpeg -v error -y -f lavfi -i "testsrc=size=$2:rate=5:duration=1.2" -vf "$3" -pix_fmt "$1" -strict -1 \
        -f yuv4mpegpipe "$work/sample.y4m"
}

# Grows from it, checks, and has ffprobe count the frames of the output and tell its kind.
grown() {
    set -- "$@" "sample=$work/sample.y4m" "out=$work/out.y4m" "map=$work/map" "record=$work/record"
    "$weave" grow "$@" > "$work/report"
    "$weave" check "sample=$work/sample.y4m" "out=$work/out.y4m" "map=$work/map" "record=$work/record"
    ffprobe -v error -count_frames -show_entries stream=pix_fmt,width,height,nb_read_frames -of csv=p=0 "$work/out.y4m"
}

# A clip that is refused, with its line.
refused() {
    if "$weave" grow "sample=$work/sample.y4m" "out=$work/out.y4m" "map=$work/map" "record=$work/record" width=4 height=4 \
        2> "$work/line"; then
        echo "not refused"
        exit 1
    fi
    cat "$work/line"
}

for kind in gray yuv444p yuv422p yuv411p yuv420p; do
    echo "$kind"
    clip "$kind" 64x48 null
    head -n 1 "$work/sample.y4m"
    grown width=20 height=14 frames=8 box=8 overlap=3 rounds=3
    head -n 1 "$work/out.y4m"
done
echo "interlaced, top field first"
clip yuv420p 64x48 setfield=tff
head -n 1 "$work/sample.y4m"
grown width=20 height=14 frames=8 box=8 overlap=3
echo "an odd size of gray, and of a kind with cells of 2x2 pixels"
clip gray 33x25 null
grown width=40 height=30 frames=3
clip yuv420p 33x25 null
head -n 1 "$work/sample.y4m"
refused
echo "more than 8 bits"
clip yuv420p10le 64x48 null
head -n 1 "$work/sample.y4m"
refused
