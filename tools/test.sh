#!/usr/bin/env bash
# Runs the gate of the crates and, at the same time, the checks of tests/ on the programs that it builds. The last line counts
# all of them; the lines before it say what failed. out/test.log has everything that is said.
set -u
cd "$(dirname "$0")/.."
mkdir -p out
log=out/test.log
: >"$log"
echo "Proves every crate, tries the mutants, runs the tests and, as soon as the programs are built, the checks of tests/."
echo "From nothing this takes one to three hours on four cores, by how fast they are. What passed on this machine before, of the same"
echo "files, is kept, unless the kit is older than 13f. Everything that is said goes to $log."
python3 tools/gate.py "$log"
status=$?
awk '/^([a-z]+: )?[0-9]+ passed, [0-9]+ failed(, [0-9]+ skipped)?$/ {
         n = /skipped$/ ? NF - 5 : NF - 3; passed += $n; failed += $(n + 2); if (n == NF - 5) skipped += $(n + 4) }
     END { printf "%d passed, %d failed", passed, failed; if (skipped) printf ", %d skipped", skipped; print "" }' "$log"
exit "$status"
