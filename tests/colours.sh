#!/usr/bin/env bash
# Colours of the bench command, by tests/colours.py. The proved libraries are built by rt, or lie in the directory that ODDERSNOW_STATICLIB names.
set -u
source "$(dirname "$0")/lib/check.sh"
check "bench builds" ./bench --version || exit 1
python3 tests/colours.py host/bench/target/release/bench || bad=1
exit $bad
