#!/usr/bin/env bash
# docs/TUTORIAL.md: the commands of each of its parts, one after another in one folder, print what it shows. The proved libraries are built by rt, or
# lie in the directory that ODDERSNOW_STATICLIB names.
set -u
source "$(dirname "$0")/lib/check.sh"
source "$root/tests/lib/tutorial.sh"

mkdir "$work/bin" "$work/own" && ln -s "$root/bench" "$work/bin" && cp -r examples "$work/own"
split_tutorial

check "bench builds" ./bench --version || exit 1
for part in "${tutorial_parts[@]}"; do
  check "tutorial $(cat "$work/part$part.name")" as_shown "$part" "$work/own" env PATH="$work/bin:$PATH"
done
exit $bad
