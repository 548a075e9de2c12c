#!/bin/sh
# Makes the release of the commit and of the program that was built, and tries it.
#
#   checks/release.sh [--chroot ROOT] [FOLDER]
#
# In FOLDER (./release, which is removed first) are then
#
#   weave-VERSION-x86_64-linux.tar.xz   program, tools, man pages, completion, documents, examples
#   weave_VERSION_amd64.deb             the same as a Debian package
#   SHA256SUMS                          the checksums of both
#
# They are the same bytes on every machine: the script makes them twice, under another umask, time
# zone and language, and compares. It unpacks both and runs README's commands in them, and has
# lintian judge the package. With --chroot the package is also installed by apt in ROOT, which
# debootstrap makes where it isn't there, and removed again: no file may be left. That needs root
# and a mirror of Debian. Ends with 1 where something is wrong.
set -eu

top=$(cd "$(dirname "$0")/.." && pwd)
root=
if [ "${1:-}" = --chroot ]; then
    root=$2
    shift 2
fi
folder=${1:-$top/release}
cd "$top"
version=$(git show HEAD:CHANGELOG.md | sed -n 's/^## \([0-9.]*\) (.*)$/\1/p' | head -n 1)
day=$(git show HEAD:CHANGELOG.md | sed -n 's/^## [0-9.]* (\(.*\))$/\1/p' | head -n 1)
SOURCE_DATE_EPOCH=$(date -u -d "$day" +%s)
export SOURCE_DATE_EPOCH
tree=weave-$version
archive=$tree-x86_64-linux.tar.xz
package=weave_${version}_amd64.deb
work=$(mktemp -d)
trap 'rm -rf "$work"' EXIT
trap 'exit 130' INT TERM HUP

# stop LINE: ends with this line.
stop() {
    echo "release: $*" >&2
    exit 1
}

# lacks COMMAND PACKAGE: ends where a command isn't there.
lacks() {
    command -v "$1" >/dev/null || stop "$1 is lacking: apt-get install $2"
}

# files PLACE: the committed tools, documents and examples, with the program, as a folder.
files() {
    mkdir -p "$1"
    git -c tar.umask=0022 archive HEAD README.md CHANGELOG.md tools docs examples | tar -x -C "$1"
    install -m 755 weave "$1/weave"
    (cd "$1" && sha256sum weave >SHA256SUMS && chmod 644 SHA256SUMS)
}

# make_archive PLACE
make_archive() {
    files "$1/$tree"
    tar --sort=name --format=gnu --mtime="@$SOURCE_DATE_EPOCH" --owner=0 --group=0 --numeric-owner \
        -C "$1" -cf "$1/archive.tar" "$tree"
    xz -T1 -6 <"$1/archive.tar" >"$1/$archive"
}

# control PLACE: the files of the package that dpkg reads.
control() {
    libc=$(grep -aoE 'GLIBC_2\.[0-9]+' weave | sort -uV | tail -n 1)
    cat >"$1/DEBIAN/control" <<END
Package: weave
Version: $version
Architecture: amd64
Maintainer: The owner of weave <owner@weave.invalid>
Section: graphics
Priority: optional
Installed-Size: $(du -sk --apparent-size "$1/usr" | cut -f 1)
Depends: libc6 (>= ${libc#GLIBC_}), python3 (>= 3.8)
Recommends: ffmpeg, imagemagick
Suggests: netpbm, openssh-client
Description: texture and video-loop synthesiser with proofs
 weave makes textures and video loops from samples. It grows, quilts, tiles,
 merges and loops pictures and clips, and paints one picture with another.
 Every cell of a result is copied from a sample, and a map records which one.
 .
 weave-texture makes textures from common pictures and videos in one command.
END
    # Python keeps what it compiles beside the tools where root runs them.
    cat >"$1/DEBIAN/prerm" <<'END'
#!/bin/sh
set -e
find /usr/share/weave -name __pycache__ -prune -exec rm -rf {} +
END
    chmod 644 "$1/DEBIAN/control"
    chmod 755 "$1/DEBIAN/prerm"
    (cd "$1" && find usr -type f | LC_ALL=C sort | xargs md5sum >DEBIAN/md5sums)
    chmod 644 "$1/DEBIAN/md5sums"
}

# copyright_and_changes PLACE: what the policy of Debian asks of the documents of a package.
copyright_and_changes() {
    cat >"$1/copyright" <<END
Copyright $(date -u -d "$day" +%Y) the owner of weave

No licence has been granted yet. The owner decides on one.
END
    gzip -9n >"$1/changelog.gz" <<END
weave ($version) unstable; urgency=medium

  * Release $version. CHANGELOG.md says what it brings.

 -- The owner of weave <owner@weave.invalid>  $(LC_ALL=C date -u -d "$day" -R)
END
    chmod 644 "$1/copyright" "$1/changelog.gz"
}

# make_package PLACE
make_package() {
    share=$1/package/usr/share
    mkdir -p "$1/package/DEBIAN" "$1/package/usr/bin" "$share/man/man1" "$share/doc" \
        "$share/bash-completion/completions" "$share/lintian/overrides" "$share/weave"
    files "$share/doc/weave"
    mv "$share/doc/weave/weave" "$1/package/usr/bin/weave"
    mv "$share/doc/weave/tools" "$share/doc/weave/SHA256SUMS" "$share/weave/"
    cp "$share/doc/weave/CHANGELOG.md" "$share/weave/"
    ln -s ../../weave/tools "$share/doc/weave/tools"
    for tool in texture studio; do
        if [ -x "$share/weave/tools/$tool" ]; then
            ln -s "../share/weave/tools/$tool" "$1/package/usr/bin/weave-$tool"
        fi
    done
    cp "$share"/doc/weave/docs/*.1 "$share/man/man1/"
    gzip -9n "$share"/man/man1/*.1
    cp "$share/doc/weave/docs/weave.bash" "$share/bash-completion/completions/weave"
    copyright_and_changes "$share/doc/weave"
    # The checksum of the program is that of ./build, so it stays as it is.
    echo 'weave: unstripped-binary-or-object [usr/bin/weave]' >"$share/lintian/overrides/weave"
    find "$1/package" -type d -exec chmod 755 {} +
    chmod 644 "$share/lintian/overrides/weave" "$share"/man/man1/*
    control "$1/package"
    find "$1/package" -exec touch -h -d "@$SOURCE_DATE_EPOCH" {} +
    dpkg-deb --root-owner-group --threads-max=1 -Zxz -z6 --build "$1/package" "$1/$package" >"$1/said"
}

# make PLACE: both files.
make() {
    umask 022
    mkdir -p "$1"
    make_archive "$1"
    make_package "$1"
}

# try_commands WEAVE TEXTURE SAMPLES: README's first minute, in a folder of its own.
try_commands() {
    rm -rf "$work/minute"
    mkdir "$work/minute"
    (
        cd "$work/minute"
        "$3" bricks bricks.ppm
        "$1" grow sample=bricks.ppm width=384 height=280 box=64 overlap=32 rounds=10 \
            out=grown.ppm map=grown.map record=grown.record
        "$1" check sample=bricks.ppm out=grown.ppm map=grown.map record=grown.record
        "$2" grow bricks.ppm wall.png 384x280
        "$2" verify wall*.weave
    ) >"$work/said" 2>&1 || { cat "$work/said"; stop "a command of README fails"; }
    grep -q '^seams 94555$' "$work/said" || { cat "$work/said"; stop "README has other seams"; }
}

# try_pages PLACE: each man page is laid out without a warning. Each option of texture is named.
try_pages() {
    for page in "$1"/usr/share/man/man1/*; do
        said=$(man --warnings --local-file "$page" 2>&1 >"$work/page")
        [ -z "$said" ] || stop "$(basename "$page"): $said"
        [ -s "$work/page" ] || stop "$(basename "$page") is empty"
    done
    "$1/usr/share/weave/tools/texture" --help >"$work/help"
    MANWIDTH=80 man --local-file "$1/usr/share/man/man1/weave-texture.1.gz" | col -b >"$work/page"
    grep -oE -- '--[a-z-]+' "$work/help" | sort -u >"$work/options"
    while read -r option; do
        grep -q -- "$option" "$work/page" || stop "weave-texture.1 doesn't name $option"
    done <"$work/options"
}

# try_completion PLACE: bash completes the name of a command.
try_completion() {
    said=$(bash -c '. "$1"; COMP_WORDS=(weave gr) COMP_CWORD=1; _weave; echo "${COMPREPLY[@]}"' \
        bash "$1/usr/share/bash-completion/completions/weave")
    [ "$said" = grow ] || stop "completion of gr gives $said"
}

# inside COMMAND ..: runs it in the root of --chroot, as in a shell of root.
inside() {
    chroot "$root" env -i HOME=/root PATH=/usr/sbin:/usr/bin:/sbin:/bin \
        DEBIAN_FRONTEND=noninteractive LC_ALL=C.UTF-8 "$@"
}

# paths: all paths of that root, but those in which the system keeps its own books.
paths() {
    (cd "$root" && find . -path ./proc -prune -o -path ./var -prune -o -path ./tmp -prune -o -print) |
        LC_ALL=C sort
}

# try_root: apt installs the package, its commands run, and its removal leaves nothing.
try_root() {
    [ -x "$root/bin/sh" ] || debootstrap --variant=minbase stable "$root" >"$work/said" ||
        { tail "$work/said"; stop "debootstrap fails"; }
    inside apt-get update -qq
    inside apt-get install -y -qq --no-install-recommends python3 man-db >"$work/said" 2>&1
    paths >"$work/before"
    cp "$folder/$package" "$root/tmp/"
    inside apt-get install -y -qq --no-install-recommends "/tmp/$package" >"$work/said" 2>&1 ||
        { tail "$work/said"; stop "apt can't install the package"; }
    inside sh -ec 'cd /tmp && rm -rf minute && mkdir minute && cd minute
        /usr/share/doc/weave/examples/samples.py bricks bricks.ppm
        weave grow sample=bricks.ppm width=384 height=280 box=64 overlap=32 rounds=10 \
            out=grown.ppm map=grown.map record=grown.record
        weave check sample=bricks.ppm out=grown.ppm map=grown.map record=grown.record
        weave-texture grow bricks.ppm wall.png 384x280
        weave-texture verify wall*.weave
        man weave | grep -q . && man weave-texture | grep -q .
        cd /usr/share/weave && cp /usr/bin/weave /tmp/weave && cd /tmp &&
            sha256sum --check /usr/share/weave/SHA256SUMS' >"$work/said" 2>&1 ||
        { cat "$work/said"; stop "a command fails in $root"; }
    inside apt-get purge -y -qq weave >"$work/said" 2>&1
    paths >"$work/after"
    diff "$work/before" "$work/after" || stop "the removal leaves the paths above"
    echo "$root: installed, tried and removed, and nothing is left"
}

lacks dpkg-deb dpkg
lacks lintian lintian
lacks xz xz-utils
lacks man man-db
[ -n "$version" ] || stop "CHANGELOG.md has no heading with version and day"
[ -x weave ] || stop "there is no ./weave: ./build"
[ -z "$(git status --porcelain)" ] || echo "what isn't committed is left out"
if [ -e SHA256SUMS ]; then
    sha256sum --quiet --check SHA256SUMS || stop "./weave isn't the program of SHA256SUMS"
else
    echo "no SHA256SUMS is here: the release has that of ./weave"
fi

make "$work/one"
(umask 077 && TZ=Asia/Tokyo LC_ALL=C make "$work/two/elsewhere")
for made in "$archive" "$package"; do
    cmp "$work/one/$made" "$work/two/elsewhere/$made" || stop "$made has other bytes elsewhere"
done
rm -rf "$folder"
mkdir -p "$folder"
cp "$work/one/$archive" "$work/one/$package" "$folder/"
(cd "$folder" && sha256sum "$archive" "$package" >SHA256SUMS && cat SHA256SUMS)

lintian --fail-on error --tag-display-limit 0 "$folder/$package" >"$work/said" ||
    { cat "$work/said"; stop "lintian finds errors"; }
mkdir "$work/unpacked"
tar -xf "$folder/$archive" -C "$work/unpacked"
here=$work/unpacked/$tree
(cd "$here" && sha256sum --quiet --check SHA256SUMS)
try_commands "$here/weave" "$here/tools/texture" "$here/examples/samples.py"
dpkg -x "$folder/$package" "$work/installed"
usr=$work/installed/usr
PATH=$usr/bin:$PATH try_commands weave weave-texture "$usr/share/doc/weave/examples/samples.py"
try_pages "$work/installed"
try_completion "$work/installed"
echo "archive and package: the same bytes twice, README's commands run, no error of lintian"
[ -z "$root" ] || try_root
