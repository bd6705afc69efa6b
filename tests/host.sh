#!/usr/bin/env bash
# The unit tests of the packages of host/ that link the proved libraries, which are built by rt, or lie in the directory
# that ODDERSNOW_STATICLIB names. Those of the others are in tests/second.sh, those of the bench command in tests/bench.sh.
set -u
source "$(dirname "$0")/lib/check.sh"

unit_tests() { (cd host && cargo test --offline --release --workspace --exclude lent --exclude second); }

check "the proved libraries" library label call_lists bench_api sheet_api listing_api reach || exit 1
check "unit tests of the packages that link them" unit_tests
exit $bad
