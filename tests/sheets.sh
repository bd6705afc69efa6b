#!/usr/bin/env bash
# Map sheets and images through the bench command, beside Python's regular expressions and sort, uniq and cut
# (tests/sheets.py). The proved libraries are built by rt, or lie in the directory that ODDERSNOW_STATICLIB names.
set -u
source "$(dirname "$0")/lib/check.sh"
check "bench builds for sheets" ./bench --version || exit 1
python3 tests/sheets.py
