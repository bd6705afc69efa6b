#!/usr/bin/env bash
# The bench command: it builds, its tests, how long a fit takes, the demonstration, that the demonstration's
# images are what their sources make, and what ./bench shows where it builds and where it does not. The proved
# libraries are built by rt, or lie in the directory that ODDERSNOW_STATICLIB names.
set -u
source "$(dirname "$0")/lib/check.sh"
in_bench() { (cd host/bench && "$@"); }

# Each test of cargo's as a check of its own; what hangs is ended, and counts as failed.
tests() {
  in_bench timeout 1200 cargo test --release --no-fail-fast >"$work/log" 2>&1
  local status=$?
  sed -n 's/^test \(.*\) \.\.\. ok$/ok bench \1/p; s/^test \(.*\) \.\.\. FAILED$/FAIL bench \1/p' "$work/log"
  if [ "$status" -ne 0 ]; then
    bad=1
    tail -n 40 "$work/log"
    grep -q '^test .* FAILED$' "$work/log" || echo "FAIL bench tests"
  fi
}

image_files() {
  need riscv64-unknown-elf-as && examples/interlock_make.sh "$work" || return 1
  local file
  for file in examples/interlock_*.hex examples/interlock_*.img; do cmp "$file" "$work/${file##*/}" || return 1; done
}

# The sources and their macros assemble for a core with 16 registers, products and short words too.
other_cores() {
  need riscv64-unknown-elf-as || return 1
  local source
  for source in examples/interlock_image.s examples/interlock_board.s examples/doors.s; do
    riscv64-unknown-elf-as -march=rv32emc -mabi=ilp32e -mno-relax -I examples --defsym STACK_END=0x20000800 "$source" -o "$work/other.o" || return 1
  done
}

# The ELF files run as the HEX files do, and name the function.
elf_files() {
  local bench=$PWD/host/bench/target/release/bench examples=$PWD/examples board kind from
  for board in small large; do
    for kind in hex elf; do
      from=$examples
      [ "$kind" = hex ] || from=$work
      (cd "$from" && "$bench" run --map "$examples/interlock_$board.map" --save "$work/$kind.state" \
        "interlock_$board.$kind" "interlock_image.$kind") | sed 's/, byte [0-9]* of [a-z]*//g' >"$work/$kind.txt"
    done
    cmp "$work/hex.state" "$work/elf.state" && cmp "$work/hex.txt" "$work/elf.txt" || return 1
  done
  (cd "$work" && "$bench" run interlock_small.elf interlock_image.elf) | grep -F '2000010c, word fe113c23, csc 2 1 -8, byte 0 of plan'
}

# The image with short words does on both boards what the other does: it makes as many steps, and ends, or is stopped by
# the same request; only the addresses of its code differ.
short_image() {
  local board name
  for board in small large; do
    for name in image image_short; do
      host/bench/target/release/bench run --json --map "examples/interlock_$board.map" "examples/interlock_$board.hex" "examples/interlock_$name.hex" |
        python3 -c 'import json, sys
run = json.load(sys.stdin)
trap = run["trap"] or {"cause": None, "asked": None, "authority": None}
print(run["end"], run["retired"], run["trapped"], run["state"]["registers"][10], trap["cause"], trap["asked"], trap["authority"])' >"$work/$name" || return 1
    done
    [ -s "$work/image" ] && cmp "$work/image" "$work/image_short" || return 1
  done
}

# The demonstration's images, with short words and without: each is listed, its listing assembles to the bytes that binutils
# has of the same HEX file, and these bytes have the same listing.
round_trip() {
  need riscv64-unknown-elf-objcopy || return 1
  local bench=$PWD/host/bench/target/release/bench file
  for file in examples/interlock_image.hex examples/interlock_image_short.hex; do
    riscv64-unknown-elf-objcopy -I ihex -O binary "$file" "$work/bytes" && [ -s "$work/bytes" ] &&
      "$bench" list --plain "$file" >"$work/plain" && "$bench" assemble "$work/plain" -o "$work/back" && cmp "$work/bytes" "$work/back" &&
      "$bench" assemble "$work/plain" | cmp - "$work/bytes" && "$bench" list --plain --format raw "$work/back" | cmp - "$work/plain" || return 1
  done
}

# Which of the proved functions a run calls, by callgrind; the reports do not tell.
by_engine() { # FUNCTION OTHER OPTION..: the one and not the other
  need valgrind || return 1
  local wanted=$1 other=$2
  shift 2
  (cd examples && valgrind --tool=callgrind --callgrind-out-file="$work/calls" ../host/bench/target/release/bench run "$@" \
    --map interlock_large.map interlock_large.hex interlock_image.hex) && grep -q "$wanted" "$work/calls" && ! grep -q "$other" "$work/calls"
}

refuses() { # COMMAND..: status 2, and nothing on standard output; what it says is kept
  "$bench" "$@" >"$work/out" 2>"$work/err"
  [ $? -eq 2 ] && [ ! -s "$work/out" ]
}
# A listing that lost its last byte, one with a name in upper case, and bytes that lost their last are refused with the place.
damage_named() { # after round_trip, which leaves the image with short words
  local bench=$PWD/host/bench/target/release/bench bad="$work/bad: line"
  head -c -1 "$work/plain" >"$work/bad" && refuses assemble "$work/bad" &&
    says "$work/err" "refused, number 13: $bad 19 is no word's listing: 'cjalr\\t0\\t1\\t0', without a newline" || return 1
  sed '4s/csc/CSC/' "$work/plain" >"$work/bad" && refuses assemble "$work/bad" &&
    says "$work/err" "refused, number 13: $bad 4 is no word's listing: 'CSC\\t2\\t1\\t-8'" || return 1
  head -c -1 "$work/bytes" >"$work/bad" && refuses list --plain --format raw "$work/bad" &&
    says "$work/err" "refused, number 15: $work/bad: raw bytes at [20000000, 20000041): the bytes end inside the word at offset 62, 2000003e"
}

# The listing that examples/interlock.md shows is the head of the image's.
listing_shown() {
  sed -n '/^\$ .*bench list/,/^```$/{/^\$ /d;/^```$/d;p;}' examples/interlock.md >"$work/shown"
  [ -s "$work/shown" ] && ./bench list examples/interlock_image.hex | head -n "$(wc -l <"$work/shown")" | diff - "$work/shown"
}

# What README.md shows at its head, each block that begins with a command, is what the demonstration writes.
readme_shows() {
  ./bench demo >"$work/demo"
  local block from
  awk -v out="$work/shown" '/^```$/ { inside = !inside; block += inside; next } inside { print >(out block) }' README.md
  for block in "$work/shown"[0-9]*; do
    [ "$(head -c 10 "$block")" = '$ ./bench ' ] || continue
    from=$(grep -n -F -x -m 1 -e "$(head -n 1 "$block")" "$work/demo" | cut -d: -f1) && [ -n "$from" ] &&
      tail -n "+$from" "$work/demo" | head -n "$(wc -l <"$block")" | diff - "$block" && echo shown || return 1
  done >"$work/blocks"
  [ "$(grep -c -x shown "$work/blocks")" -eq 5 ]
}

# The best of twenty fits of an image of 1 MiB takes less than 10 ms, from the start of the command to its end.
quick_fit() {
  printf 'region\tall\t20000000\t00100000\trwx\n' >"$work/large.map"
  { cat "$work/large.map"; echo; head -c 1048576 /dev/zero; } >"$work/large.img"
  python3 - host/bench/target/release/bench fit "$work/large.map" "$work/large.img" <<'PYTHON'
import subprocess, sys, time
def once():
    begin = time.perf_counter()
    said = subprocess.run(sys.argv[1:], capture_output=True, text=True, check=True).stdout
    assert "1,048,576 bytes" in said, said
    return time.perf_counter() - begin
best = min(once() for _ in range(20))
print(f"{1000 * best:.1f} ms")
sys.exit(best >= 0.010)
PYTHON
}

# A listing is written while its file is read: none of its forms takes much memory for 21 MB of halves and long words by turns.
flat_listing() {
  python3 - host/bench/target/release/bench "$work/long" <<'PYTHON'
import resource, subprocess, sys
bench, file = sys.argv[1:]
with open(file, "wb") as out:
    out.write(bytes.fromhex("01001305f0ff") * 3_500_000)
for form in ([], ["--plain"], ["--json"]):
    subprocess.run([bench, "list", "--format", "raw", file, *form], stdout=subprocess.DEVNULL, check=True)
most = resource.getrusage(resource.RUSAGE_CHILDREN).ru_maxrss
print(f"{most} KiB")
sys.exit(most >= 50_000)
PYTHON
}

# A trace takes no longer for a larger memory: 100,000 steps on 1 MiB less than three times the processor's seconds of 64 KiB, the best of three.
flat_trace() {
  printf 'addi\t11\t0\t-1\naddi\t10\t10\t1\nbne\t10\t11\t-4\n' | host/bench/target/release/bench assemble - -o "$work/loop" &&
    python3 - host/bench/target/release/bench run "$work/loop" --trace --steps 100,000 --size <<'PYTHON'
import resource, subprocess, sys
def once(size):
    before = resource.getrusage(resource.RUSAGE_CHILDREN).ru_utime
    subprocess.run([*sys.argv[1:], str(size)], stdout=subprocess.DEVNULL, check=True)
    return resource.getrusage(resource.RUSAGE_CHILDREN).ru_utime - before
small, large = (min(once(size) for _ in range(3)) for size in (65536, 1048576))
print(f"{small:.2f} s, {large:.2f} s")
sys.exit(large >= 3 * small)
PYTHON
}

# With everything built, ./bench writes what the command writes and nothing else, from any folder.
nothing_added() {
  local words=(run --map "$PWD/examples/interlock_small.map" "$PWD/examples/interlock_small.hex" "$PWD/examples/interlock_image.hex")
  [ -z "$(./bench --missing)" ] || return 1
  host/bench/target/release/bench "${words[@]}" >"$work/command.out" 2>"$work/command.err"
  local status=$?
  (cd "$work" && "$root/bench" "${words[@]}" >bench.out 2>bench.err)
  [ $? -eq "$status" ] && cmp "$work/command.out" "$work/bench.out" && cmp "$work/command.err" "$work/bench.err"
}

# A repository of four crates with an rt and a build of our own, which take seconds instead of minutes.
small_repository() { # FOLDER
  mkdir -p "$1/host/bench/src" "$1/kit" && cp --parents bench packaging/proved "$1" &&
    printf '%s\n' low: 'other:  # nobody leans on it' {label,bench_api,sheet_api,listing_api,reach}_c' staticlib: low' >"$1/crates.txt"
  local crate
  for crate in low {label,bench_api,sheet_api,listing_api,reach}_c; do mkdir -p "$1/crates/$crate/src"; done
  cat >"$1/kit/rt" <<'RT'
#!/usr/bin/env bash
[ "$1" = lib ] || exit 2
name=$(basename "$PWD")
if [ "$name" = low ]; then
  sleep 5
  [ -z "${VERDICT:-}" ]
else
  mkdir -p out && touch "out/lib$name.a"
fi
RT
  cat >"$1/host/bench/build.sh" <<'BUILD'
#!/usr/bin/env bash
mkdir -p "$(dirname "$0")/target/release"
printf '#!/bin/sh\necho the command "$@"\n' >"$(dirname "$0")/target/release/bench"
chmod +x "$(dirname "$0")/target/release/bench"
BUILD
  chmod +x "$1/kit/rt" "$1/host/bench/build.sh"
}
in_small() { # COMMAND..
  (cd "$work/small" && unset ODDERSNOW_STATICLIB && PATH=$PWD/kit:$PATH "$@")
}
says() { # FILE TEXT..: each text stands in the file, one after the other
  local file=$1 text at=0 line
  shift
  for text in "$@"; do
    line=$(tail -n "+$((at + 1))" "$file" | grep -n -m 1 -F -e "$text" | cut -d: -f1)
    [ -n "$line" ] || { echo "no '$text' in:"; cat "$file"; return 1; }
    at=$((at + line))
  done
}

progress_shown() {
  small_repository "$work/small" || return 1
  in_small ./bench --missing >"$work/missing"
  printf 'library label\nlibrary bench_api\nlibrary sheet_api\nlibrary listing_api\nlibrary reach\ncommand\n' | cmp - "$work/missing" || return 1
  in_small ./bench cut 1 2 >"$work/out" 2>"$work/err" || return 1
  echo "the command cut 1 2" | cmp - "$work/out" &&
    says "$work/err" "the proofs of 1 crates, libraries label bench_api sheet_api listing_api reach, the command" \
      "proved 0 of 1 crates; 0:0" "proved 0 of 1 crates, now low; 0:0" built &&
    in_small ./bench cut 1 2 >"$work/out" 2>&1 && echo "the command cut 1 2" | cmp - "$work/out"
}
older_than_sources() { # after progress_shown
  sleep 0.1
  touch "$work/small/crates/low/src/new.rt"
  [ "$(in_small ./bench --missing | tr '\n' ' ')" = "library label library bench_api library sheet_api library listing_api library reach command " ]
}
failure_named() { # after older_than_sources
  VERDICT=bad in_small ./bench cut 1 2 >"$work/out" 2>"$work/err"
  [ $? -eq 4 ] && [ ! -s "$work/out" ] && says "$work/err" "not built" "rt: low NOT PROVED"
}

# What the command says of the machine it asks: outside tests, no field of a word, no rule for its length or for the timer.
asks_the_machine() {
  ! grep -rnE 'instruction_bytes|\.instruction\(|\.interrupted\(|lent::.*\bMIE\b|\bword (&|>>) ' host/bench/src --include='*.rs' |
    grep -vE '/tests(/|\.rs:)|/(samples|sequence)\.rs:'
}

check "bench builds" ./bench --version || exit 1
check "./bench adds nothing where all is built" nothing_added
check "./bench shows its progress where something is missing" progress_shown
check "./bench builds again what is older than its sources" older_than_sources
check "./bench names a crate that is not proved" failure_named
check "the command has no decoder of its own" asks_the_machine
tests
check "a fit of an image of 1 MiB takes less than 10 ms" quick_fit
check "a listing takes less than 50 MB of memory" flat_listing
check "a trace takes no longer on a larger memory" flat_trace
check "--engine plain runs by the plain engine" by_engine oddersnow_run_watched oddersnow_run_quick --engine plain
check "--engine quick runs by the quick engine" by_engine oddersnow_run_quick oddersnow_run_watched --engine quick
check "a run is by the quick engine if nothing is said" by_engine oddersnow_run_quick oddersnow_run_watched
check "the demonstration" ./bench demo
check "README.md shows the demonstration's output" readme_shows
check "the demonstration's images are their sources'" image_files
check "the demonstration's sources assemble for rv32emc" other_cores
check "the demonstration's ELF files run as the HEX files" elf_files
check "the demonstration's image with short words runs as the other" short_image
check "the demonstration's image is listed and assembled again" round_trip
check "examples/interlock.md shows the image's listing" listing_shown
check "a damaged listing or image is refused with its place" damage_named
exit $bad
