#!/usr/bin/env bash
# Makes the demonstration's HEX files anew from their sources, with Debian's binutils-riscv64-unknown-elf, and the image
# with its label: map sheet, empty line, HEX file.
# interlock_make.sh [DIRECTORY]: where the files go, by default beside their sources. The linked ELF files go to
# a DIRECTORY too.
set -eu
cd "$(dirname "$0")"
out=${1:-.}
work=$(mktemp -d)
trap 'rm -rf "$work"' EXIT

make() { # NAME SOURCE TEXT-ADDRESS ASSEMBLER-OPTION..
  local name=$1 source=$2 text=$3
  shift 3
  riscv64-unknown-elf-as -march=rv32i -mabi=ilp32 -mno-relax "$@" "$source" -o "$work/$name.o"
  riscv64-unknown-elf-ld -m elf32lriscv -N --no-warn-rwx-segments "-Ttext=$text" \
    --section-start=.interlock=0x20000400 "$work/$name.o" -o "$work/$name.elf"
  riscv64-unknown-elf-objcopy -O ihex "$work/$name.elf" "$work/$name.hex"
  tr -d '\r' <"$work/$name.hex" >"$out/$name.hex"
  [ "$out" = . ] || cp "$work/$name.elf" "$out"
}
make interlock_image interlock_image.s 0x20000100
make interlock_image_short interlock_image.s 0x20000100 -march=rv32ic
{ cat interlock_image.map; echo; cat "$out/interlock_image.hex"; } >"$out/interlock_image.img"
make interlock_small interlock_board.s 0x20000000 --defsym STACK_END=0x20000800
make interlock_large interlock_board.s 0x20000000 --defsym STACK_END=0x20002000
make interlock_careless interlock_board.s 0x20000000 --defsym STACK_END=0x20000800 --defsym CARELESS=1
make interlock_keys interlock_keys.s 0x20000800
