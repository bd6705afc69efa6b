#!/usr/bin/env bash
# Builds the bench command: the Debian crates where they are missing, the proved libraries by rt (or those
# in the directory that ODDERSNOW_STATICLIB names), the command. It is then target/release/bench. With the word
# crates, the Debian crates alone, which need no proved library.
set -eu
cd "$(dirname "$0")"

crates=(addr2line clap clap_complete csv gimli indicatif object serde serde_derive serde_json sha2 signal-hook tempfile tera)
missing=()
for crate in "${crates[@]}"; do
  compgen -G "/usr/share/cargo/registry/$crate-[0-9]*" >/dev/null || missing+=("librust-${crate/_/-}-dev")
done
if [ ${#missing[@]} -gt 0 ]; then
  ../../packaging/install "${missing[@]}"
fi
if [ "${1:-}" = crates ]; then exec cargo build --release "${crates[@]/#/-p}"; fi
if [ -z "${ODDERSNOW_STATICLIB:-}" ]; then
  ../../packaging/proved label bench_api sheet_api listing_api reach
fi
cargo build --release
