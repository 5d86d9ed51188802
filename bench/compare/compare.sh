#!/usr/bin/env bash
# Downloads and builds the original crate in out/compare, once, and compares the built program with it. The crates below the
# original are those of the Debian release that BESIDE names, or else the newest that the machine's cargo can build.
set -eu
cd "$(dirname "$0")/../.."
own=$(. /etc/os-release && echo "${VERSION_CODENAME:-}")
if ! original=$(bench/compare/fetch.sh out/compare "${BESIDE:-trixie}"); then
    [ -z "${BESIDE:-}" ] && [ -n "$own" ] && [ "$own" != trixie ] || exit 1
    echo "compare.sh: cargo can't build the original over the crates of trixie, so it takes those of $own" >&2
    original=$(bench/compare/fetch.sh out/compare "$own")
fi
exec python3 bench/compare/compare.py "$@" "$original"
