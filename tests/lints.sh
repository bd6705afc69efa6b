#!/usr/bin/env bash
# Formatting and lints of every Rust package of host/. Nothing is linked, so no proved library is needed.
set -u
source "$(dirname "$0")/lib/check.sh"
cd host || exit 1
in_bench() { (cd bench && "$@"); }

# No package below host/ is left out: it is one of the workspace's, or the bench command, a workspace of its own.
none_left_out() {
  find . -name target -prune -o -name Cargo.toml ! -path ./Cargo.toml -printf '%P\n' | sed 's,/Cargo.toml,,' | sort >"$work/there"
  {
    cargo metadata --offline --no-deps --format-version 1 |
      python3 -c 'import json, os, sys
for package in json.load(sys.stdin)["packages"]: print(os.path.relpath(os.path.dirname(package["manifest_path"])))'
    echo bench
  } | sort | diff "$work/there" -
}

check "no package of host/ is left out" none_left_out
check "cargo fmt" cargo fmt --all --check
check "cargo clippy" cargo clippy --offline --release --workspace --all-targets -- -D warnings
check "the bench command's crates" bench/build.sh crates || exit 1
check "bench cargo fmt" in_bench cargo fmt --check
check "bench cargo clippy" in_bench cargo clippy --release --all-targets -- -D warnings
exit $bad
