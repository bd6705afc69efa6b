#!/usr/bin/env bash
# The second program by itself: its unit tests and those of the lent state, and the comparisons of it with wrong machines,
# which must tell each from it. No proved library is needed. What the comparisons wrote is host/target/compare/mutants.txt.
set -u
source "$(dirname "$0")/lib/check.sh"
cd host || exit 1
mkdir -p target/compare

mutants() { cargo build --offline --release -p mutants --bin mutants && target/release/mutants; }

for name in lent second; do check "unit tests of $name" cargo test --offline --release -p "$name"; done
log=target/compare/mutants.txt check "compare mutants" mutants && tail -n 2 target/compare/mutants.txt | head -n 1
exit $bad
