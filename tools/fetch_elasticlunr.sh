#!/usr/bin/env bash
# fetch_elasticlunr.sh DIR: puts elasticlunr.min.js 0.9.5 into DIR, and prints its path.
# Debian's package python3-pdoc carries the file. It is downloaded from the archive that the machine's own sources name
# (apt_beside.sh); nothing is installed. A copy that is there already is kept.
set -eu
. "$(dirname "$0")/apt_beside.sh"
target=$(mkdir -p "$1" && cd "$1" && pwd)/elasticlunr.min.js
sum=07e859522d04fef799891edd5b45924eada8cc60288ffe958d1119b8c7e3b3f5
is_there() { [ -f "$target" ] && echo "$sum  $target" | sha256sum --check --status; }
if ! is_there; then
    work=$(mktemp -d)
    trap 'rm -rf "$work"' EXIT
    mirror=$(archive)
    echo "fetch_elasticlunr.sh: downloads Debian's python3-pdoc from $mirror, for the elasticlunr.min.js in it" >&2
    apt_of "$work/apt" "$mirror" trixie
    (cd "$work" && apt-get -qq download python3-pdoc >&2 && dpkg-deb --extract python3-pdoc_*.deb unpacked)
    find "$work/unpacked" -name elasticlunr.min.js -size +8k -exec cp {} "$target" ';'
    is_there || { echo "elasticlunr.min.js of the package isn't version 0.9.5" >&2; exit 1; }
fi
echo "$target"
