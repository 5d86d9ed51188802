#!/usr/bin/env bash
# Builds mdBook with elasticlunr-rs and with the crate of this repository, and compares both: its tests, the books that it
# builds, and the seconds that this takes.
#
# usage: mdbook.sh [FOLDER]
#
# mdBook 0.4 is Debian's package librust-mdbook-dev of trixie, and so is all that it builds from: some 650 packages, 2 GB
# unpacked. They are downloaded once from the archive that the machine's own sources name (tools/apt_beside.sh), and unpacked
# in FOLDER/root, out/mdbook/root unless it says otherwise. Nothing is installed. It needs root, for chroot, and
# out/lib/libelasticlunr.a (`make lib`).
#
# mdBook is built as it is; with two lines of `[patch.crates-io]`; and with these and the feature `as-original`.
# tests/mdbook_books.py makes the books and compares them.
set -eu
cd "$(dirname "$0")/.."
. tools/apt_beside.sh
mkdir -p "${1:-out/mdbook}"
folder=$(cd "${1:-out/mdbook}" && pwd)
root=$folder/root
build=$root/build
VARIANTS="original plain as-original"
TESTS="--lib --test rendered_output --test build_process"

[ "$(id -u)" = 0 ] || { echo "mdbook.sh: it needs root, for chroot" >&2; exit 1; }
[ -f out/lib/libelasticlunr.a ] || { echo "mdbook.sh: there is no out/lib/libelasticlunr.a: make lib builds it" >&2; exit 1; }

# Unpacks mdBook, what it is built from, and a compiler.
unpack() {
    mirror=$(archive)
    echo "mdbook.sh: downloads mdBook and some 650 packages below it from $mirror" >&2
    apt_of "$folder/apt" "$mirror" trixie
    apt-get -qqy --no-install-recommends --download-only install base-files librust-mdbook-dev librust-elasticlunr-rs-dev \
        librust-ammonia-dev librust-hex-dev librust-sha2-dev librust-select-dev cargo rustc gcc libc6-dev dash coreutils \
        python3-pdoc python3-minimal nodejs libjs-highlight.js node-clipboard fonts-font-awesome >&2
    for name in bin sbin lib lib64; do
        mkdir -p "$folder/new/usr/$name"
        ln -s "usr/$name" "$folder/new/$name"
    done
    for package in "$folder"/apt/cache/archives/*.deb; do
        dpkg-deb -x "$package" "$folder/new"
    done
    mkdir -p "$folder/new/tmp" "$folder/new/dev" "$folder/new/build/.cargo"
    mknod -m 666 "$folder/new/dev/null" c 1 3
    [ -e "$folder/new/usr/bin/cc" ] || ln -s gcc "$folder/new/usr/bin/cc" # what Debian's alternatives would set
    # mdBook's own folder in the registry has no checksum, which cargo wants of each: it is the source to build
    mv "$folder"/new/usr/share/cargo/registry/mdbook-0.4.* "$folder/new/build/mdbook"
    rm -f "$folder/new/build/mdbook/Cargo.lock"
    cat >"$folder/new/build/.cargo/config.toml" <<CONF
[source.crates-io]
replace-with = "debian"
[source.debian]
directory = "/usr/share/cargo/registry"
CONF
    rm -rf "$folder/apt"
    mv "$folder/new" "$root"
}

inside() {
    chroot "$root" /usr/bin/env -i HOME=/build CARGO_HOME=/build/.cargo CARGO_TARGET_DIR=/build/target PATH=/usr/bin:/bin \
        LANG=C.UTF-8 ELASTICLUNR_LIB_DIR=/build/lib CARGO_BUILD_JOBS="${JOBS:-1}" "$@"
}

# The source of a variant of mdBook.
source_of() {
    rm -rf "$build/mdbook-$1"
    cp -r "$build/mdbook" "$build/mdbook-$1"
    if [ "$1" != original ]; then
        printf '\n[patch.crates-io]\nelasticlunr-rs = { path = "../elasticlunr-rs" }\n' >>"$build/mdbook-$1/Cargo.toml"
    fi
    if [ "$1" = as-original ]; then
        sed -i '/^\[dependencies.elasticlunr-rs\]/a features = ["as-original"]' "$build/mdbook-$1/Cargo.toml"
    fi
}

# Builds a variant, and runs those of its tests that know of the search.
build_of() {
    echo "mdbook.sh: builds mdBook $1" >&2
    inside sh -c "cd /build/mdbook-$1 && nice cargo build --release --offline --quiet" >&2
    cp "$build/target/release/mdbook" "$build/mdbook-$1/mdbook"
    inside sh -c "cd /build/mdbook-$1 && nice cargo test --release --offline --no-fail-fast $TESTS" >"$build/tests-$1" 2>&1 || true
}

rm -rf "$folder/new"
[ -d "$root" ] || unpack
rm -rf "$build/elasticlunr-rs" "$build/lib"
cp -r rust/elasticlunr-rs "$build/elasticlunr-rs"
rm -f "$build/elasticlunr-rs/Cargo.lock"
mkdir -p "$build/lib"
cp out/lib/libelasticlunr.a "$build/lib/"
for variant in $VARIANTS; do
    source_of "$variant"
    build_of "$variant"
done
exec python3 tests/mdbook_books.py "$root"
