#!/usr/bin/env bash
# What others published, and capability programs, on the proved machine: published.sh [PART..], by
# default all of routines, instructions, decoding, halves, listing and programs. The proved libraries are built by
# rt, or lie in the directory that ODDERSNOW_STATICLIB names; the RISC-V tools and qemu are
# Debian's. What a part wrote is in host/target/published.
set -u
source "$(dirname "$0")/lib/check.sh"
out=host/target/published
mkdir -p "$out"

part() { # NAME COMMAND..
  log=$out/$1.txt check "published $1" "${@:2}"
}
tools() {
  need riscv64-unknown-elf-objdump riscv64-unknown-elf-gcc qemu-riscv32 &&
    riscv64-unknown-elf-gcc --version && riscv64-unknown-elf-objdump --version && qemu-riscv32 --version
}
build() {
  library bench_api listing_api && (cd host && cargo build --offline --release -p published --bin published)
}

[ $# -gt 0 ] || set -- routines instructions decoding halves listing programs
part tools tools && part build build || exit 1
for name in "$@"; do
  case $name in
  routines | instructions | decoding | halves | listing | programs)
    part "$name" host/target/release/published "$name" &&
      tail -n 2 "$out/$name.txt" | head -n 1
    ;;
  *) echo "FAIL published: no part $name"; bad=1 ;;
  esac
done
exit $bad
