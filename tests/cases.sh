#!/usr/bin/env bash
# The worked cases of document 01 that are run, and some of document 02's sheets and images through the C header:
# built against the proved libraries, one line for each check.
set -u
source "$(dirname "$0")/lib/check.sh"
dir=${ODDERSNOW_STATICLIB:-target/staticlib}

build() { # NAME LIBRARY..
  local name=$1
  shift
  mkdir -p target
  gcc -std=c11 -O2 -Wall -Wextra -Werror -Iinclude "tests/$name.c" "${@/#/$dir/lib}" -o "target/$name"
}
check "the libraries of the worked cases" library label call_lists bench_api sheet_api &&
  check "the worked cases build" build worked_cases label.a call_lists.a bench_api.a &&
  check "the cases of sheets build" build sheet_cases sheet_api.a || exit 1
target/worked_cases || bad=1
target/sheet_cases || bad=1
exit $bad
