#!/usr/bin/env bash
# The speed programs: every step retires on both proved engines and on the second program. The plain engine needs no more of
# the host's instructions for a step than the second program, and for one of the integer program by short words at most a
# quarter more than by long ones; the quick engine needs at most half of the plain one's on integer, memory and bounded, at
# most a quarter on integer and bounded, at most a third for calls, whatever their distance, at most a twentieth more on any
# kind of code here (code that changes itself, long loops, each instruction that it has no turn for), and at most twice for a
# run of one step. The bounds lookup: the proved routine needs no more than the second program's and than the tuned one. Map
# sheets: the proved reader and writer need no more for a byte than the second program's. The lister and the assembler need
# few enough for 20 million bytes of code or text a second. Callgrind counts them, so that what else the computer does changes
# nothing. By time, sheets are read and written at 50 MB a second or more, and memory without tags is swept at 20 million
# granules a second or more. The proved libraries are built by rt, or lie in the directory that ODDERSNOW_STATICLIB names.
set -u
source "$(dirname "$0")/lib/check.sh"
each=1000000

build() { (cd host && cargo build --offline --release -p speed); }
count() { # WORDS..: writes the host's instructions for each lookup or byte
  local file
  file=$(printf '.%s' "$@")
  valgrind --tool=callgrind --callgrind-out-file=/dev/null host/target/release/speed "$@" 1 >"$work/out" 2>&1 || return 1
  sed -n 's/.*Collected : //p' "$work/out" | awk -v each="$each" '{ print int($1 / each) }' >"$work/count$file"
  [ -s "$work/count$file" ]
}
no_more() { # COUNT COUNT
  local left right
  left=$(cat "$work/count$1") && right=$(cat "$work/count$2") && [ "$left" -le "$right" ]
}

at_least() { # MB: every rate of the proved library in the table of sheets, of which there are six
  host/target/release/speed sheets | tee "$work/rates"
  awk -v least="$1" 'NR > 1 && $3 >= least { good++ } END { exit !(NR == 7 && good == 6) }' "$work/rates"
}

check "the proved libraries" library bench_api label sheet_api listing_api reach
check "the speed program builds" build
check "valgrind is here" need valgrind

# Instructions a step of an engine, in hundredths: those of some thousand steps less those of none.
thousands=200
collect() { # ENGINE PROGRAM THOUSANDS
  valgrind --tool=callgrind --callgrind-out-file=/dev/null host/target/release/speed "$@" >"$work/out" 2>&1 || return 1
  sed -n 's/.*Collected : //p' "$work/out"
}
steps() { # ENGINE PROGRAM NAME
  local none some
  none=$(collect "$1" "$2" 0) && some=$(collect "$1" "$2" "$thousands") || return 1
  [ -n "$none" ] && [ -n "$some" ] && echo $(((some - none) / (10 * thousands))) >"$work/count.$1.$3"
}
at_most() { # PERCENT COUNT COUNT: the first is at most so many hundredths of the second
  local left right
  left=$(cat "$work/count$2") && right=$(cat "$work/count$3") && [ $((100 * left)) -le $(($1 * right)) ]
}
engines() { # PROGRAM NAME [ENGINE..]: every engine's, or those given, and a line of a table of them
  local engine program=$1 name=$2 line="| $2 |"
  shift 2
  for engine in ${*:-plain quick second}; do
    check "every step of $name retires ($engine)" steps "$engine" "$program" "$name"
    line+=$(awk '{ printf " %.1f |", $1 / 100 }' "$work/count.$engine.$name")
  done
  echo "$line"
}

# Code of others: routines of GCC's library, without compressed code and with it, and the demonstration on its large board.
routines() { # ARCHITECTURE
  need riscv64-unknown-elf-objcopy riscv64-unknown-elf-gcc || return 1
  riscv64-unknown-elf-gcc -march="$1" -mabi=ilp32e -nostdlib -Wl,-Ttext=0x20000000 -o "$work/$1.elf" host/speed/routines.S -lgcc &&
    riscv64-unknown-elf-objcopy -O binary -j .text "$work/$1.elf" "$work/$1.bin"
}
demonstration() {
  { grep -v '^:00000001FF' examples/interlock_large.hex && cat examples/interlock_image.hex; } >"$work/demonstration.hex" &&
    objcopy -I ihex -O binary "$work/demonstration.hex" "$work/demonstration.bin"
}

echo "| Instructions a step | plain | quick | second |"
for program in integer short memory capability bounded multiply calls far shared blocks self; do engines "$program" "$program"; done
check "routines of GCC's library are linked" routines rv32e && engines "$work/rv32e.bin" routines
check "routines of GCC's library with compressed code are linked" routines rv32emac && engines "$work/rv32emac.bin" routines-short
check "the demonstration's code" demonstration && engines "$work/demonstration.bin:600" demonstration
engines integer:1 one-step
# Kinds of code that short loops do not have, and loops of one instruction that the quick engine leaves to plain steps, by both proved engines.
kinds="straight4 straight8 straight16 straight64 branchy8 branchy64 list authorities specials"
for program in $kinds; do engines "$program" "$program" plain quick; done
left="csetbounds cseal cunseal candperm ctestsubset csetequalexact csethigh csub"
for name in $left; do engines "each $name 2 5 7" "$name" plain quick; done
for name in cgetlen ccleartag crepresentablealignmentmask; do engines "each $name 2 5" "$name" plain quick; done
engines "each cspecialrw 2 5 30" cspecialrw plain quick
engines "each csrrsi 0 768 0" csrrsi plain quick
engines "each wfi" wfi plain quick
left+=" cgetlen ccleartag crepresentablealignmentmask cspecialrw csrrsi wfi"
for program in integer short memory capability bounded multiply; do
  check "the plain engine takes no more instructions for $program than the second program" at_most 100 ".plain.$program" ".second.$program"
done
check "short words take at most a quarter more than long ones" at_most 125 .plain.short .plain.integer
for program in integer memory bounded; do
  check "the quick engine takes at most half of the plain one's instructions for $program" at_most 50 ".quick.$program" ".plain.$program"
done
for program in integer bounded; do
  check "the quick engine takes at most a quarter for $program" at_most 25 ".quick.$program" ".plain.$program"
done
for program in calls far shared; do
  check "the quick engine takes at most a third for $program" at_most 33 ".quick.$program" ".plain.$program"
done
for program in self $kinds $left; do
  check "the quick engine takes at most a twentieth more for $program" at_most 105 ".quick.$program" ".plain.$program"
done
check "the quick engine takes at most a third for a loop of 4 KiB" at_most 33 .quick.straight4 .plain.straight4
check "the quick engine takes at most two thirds for a list of sealed capabilities" at_most 66 .quick.list .plain.list
check "a run of one step takes at most twice by the quick engine" at_most 200 .quick.one-step .plain.one-step
for kind in random whole exponent4 small; do
  for routine in proved second tuned; do
    check "lookups of $kind words ($routine)" count lookup "$routine" "$kind"
    echo "$routine, $kind: $(cat "$work/count.lookup.$routine.$kind") instructions for low and high, the loop's 19 among them"
  done
  for routine in second tuned; do
    check "the proved lookup takes no more instructions for $kind words ($routine)" no_more ".lookup.proved.$kind" ".lookup.$routine.$kind"
  done
done
for way in read write; do
  for routine in proved second plain; do
    check "sheets of 64 regions ($way, $routine)" count sheets "$routine" "$way" 64
    echo "$routine, $way: $(cat "$work/count.sheets.$routine.$way.64") instructions a byte"
  done
  check "the proved library takes no more instructions to $way sheets" no_more ".sheets.proved.$way.64" ".sheets.second.$way.64"
done
log=$work/table check "sheets are read and written at 50 MB a second" at_least 50
cat "$work/table"

swept_at() { # MILLIONS: granules a second of the proved sweeper where nothing is tagged
  host/target/release/speed sweep | tee "$work/sweeps"
  awk -v least="$1" '$1 == "untagged" && $2 >= least { good = 1 } END { exit !good }' "$work/sweeps"
}
log=$work/table check "1 MiB without a tag is swept at 20 million granules a second" swept_at 20
cat "$work/table"

searched_at() { # MILLIONS MILLIONS: granules a second of the proved search where nothing is tagged, and where everything is
  host/target/release/speed reach | tee "$work/searches"
  awk -v none="$1" -v all="$2" 'NR > 1 && $2 >= ($1 == "untagged" ? none : all) { good++ } END { exit !(NR == 4 && good == 3) }' "$work/searches"
}
log=$work/table check "1 MiB is searched at 100 million granules a second without a tag, at 20 million with every tag set" searched_at 100 20
cat "$work/table"

# So many instructions for a byte are 20 million bytes a second on a core that does six thousand million in that time;
# for code that is half long words and half short ones.
most=300
collected() { # ENGINE FUNCTION KIND ROUNDS: writes the host's instructions of a whole run, and the bytes of a round
  valgrind --tool=callgrind --callgrind-out-file=/dev/null host/target/release/speed listing "$@" >"$work/bytes" 2>"$work/out" || return 1
  sed -n 's/.*Collected : //p' "$work/out" >"$work/collected.$4"
}
bytes() { # ENGINE FUNCTION KIND: the instructions for a byte, a run without a round taken away
  collected "$@" 0 && collected "$@" 1 || return 1
  echo $((($(cat "$work/collected.1") - $(cat "$work/collected.0")) / $(cat "$work/bytes"))) >"$work/count.$1.$2.$3"
}
few_enough() { [ "$(cat "$work/count.$1")" -le "$most" ]; } # COUNT
for what in list assemble; do
  for kind in mixed long short; do
    for engine in proved second; do
      check "$what of $kind words ($engine)" bytes "$engine" "$what" "$kind"
      echo "$engine, $what, $kind: $(cat "$work/count.$engine.$what.$kind") instructions a byte"
    done
  done
  check "$what takes at most $most instructions a byte" few_enough "proved.$what.mixed"
done
exit $bad
