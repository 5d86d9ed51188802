#!/usr/bin/env bash
# Downloads the original crate and the crates below it, and builds the program of this folder over them.
#
# usage: fetch.sh FOLDER RELEASE
#
# The crate, elasticlunr-rs 3.0.2, is a package of Debian's release trixie. The crates below it are packages of RELEASE: the
# crate's stemmer is regular expressions, and takes three times as long with the `regex` of one release as with that of
# another. The packages are downloaded from the archive that the machine's own sources name (tools/apt_beside.sh) and unpacked
# in FOLDER/RELEASE; nothing is installed. The path of the program is printed.
set -eu
here=$(cd "$(dirname "$0")" && pwd)
. "$here/../../tools/apt_beside.sh"
release=$2
mkdir -p "$1/$release"
folder=$(cd "$1/$release" && pwd)
program=$folder/program/target/release/original

for tool in apt-get dpkg-deb cargo; do
    command -v "$tool" >/dev/null || { echo "fetch.sh: there is no $tool on the path" >&2; exit 1; }
done

# Downloads and unpacks packages of the release that apt has.
unpack() {
    mkdir -p "$folder/apt/packages"
    (cd "$folder/apt/packages" && apt-get -qq download "$@" >&2)
    for package in "$folder"/apt/packages/*.deb; do
        dpkg-deb -x "$package" "$folder/unpacked"
    done
}

if [ ! -d "$folder/registry" ]; then
    mirror=$(archive)
    echo "fetch.sh: downloads elasticlunr-rs 3.0.2 of Debian's trixie and the crates below it of $release from $mirror" >&2
    rm -rf "$folder/unpacked"
    apt_of "$folder/apt" "$mirror" trixie
    unpack librust-elasticlunr-rs-dev
    below=$(dpkg-deb -f "$folder"/apt/packages/*.deb Depends | tr ',' '\n' | awk '{ print $1 }')
    apt_of "$folder/apt" "$mirror" "$release"
    # only the crates, not the compilers and libraries that their packages need
    unpack $(apt-get -s --no-install-recommends install $below | awk '$1 == "Inst" && $2 ~ /^librust-/ { print $2 }')
    mv "$folder/unpacked/usr/share/cargo/registry" "$folder/registry"
    rm -rf "$folder/apt" "$folder/unpacked"
fi

echo "Building the original crate ..." >&2
mkdir -p "$folder/program"
cp -r "$here/Cargo.toml" "$here/src" "$folder/program/"
(
    cd "$folder/program"
    STOP_WORDS=$here/../../crates/elasticlunr_vectors/data/stopwords/de.txt cargo build --release --offline --quiet \
        --config 'source.crates-io.replace-with="debian"' --config "source.debian.directory=\"$folder/registry\"" >&2
)
echo "$program"
