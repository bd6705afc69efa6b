#!/usr/bin/env bash
# What the documents name is there, no line is too long, and files of proofs say what is in them: the parts of tests/docs.py, a check each.
set -u
source "$(dirname "$0")/lib/check.sh"
for part in names paths cited promises sizes lines widths bits starts itself; do
  check "docs $part" python3 tests/docs.py "$part"
done
exit $bad
