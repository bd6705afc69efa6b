#!/usr/bin/env bash
# The bench under Debian's gdb-multiarch: the session and the commands of docs/DEBUGGER.md, the demonstration's trap with long and short words,
# writes, an interrupt, a debugger that comes back, one that ends the machine, and a second one. The proved libraries are built by rt, or lie in the
# directory that ODDERSNOW_STATICLIB names.
set -u
source "$(dirname "$0")/lib/check.sh"

tools() {
  need gdb-multiarch riscv64-unknown-elf-as && gdb-multiarch --version
}

# Starts a bench on a free port, in the folder of the test: `pid` is its process, `place` where it listens.
start() { # ARGUMENTS..
  stop
  : >"$work/bench.out"
  (cd "$work" && exec "$root/host/bench/target/release/bench" gdb --port 0 "$@") >"$work/bench.out" 2>&1 &
  pid=$!
  local tries
  for tries in $(seq 100); do
    place=$(sed -n "s/.*target remote \(.*\)'$/\1/p" "$work/bench.out")
    [ -z "$place" ] || return 0
    sleep 0.1
  done
  cat "$work/bench.out"
  return 1
}
pid=
stop() {
  [ -z "$pid" ] || { kill "$pid"; wait "$pid"; } 2>/dev/null
  pid=
}
trap 'stop; rm -rf "$work"' EXIT

# Runs gdb on a program with commands from standard input, each of them shown after a prompt; what it writes is in $work/gdb.out.
session() { # PROGRAM
  { printf 'set pagination off\nset confirm off\nset width 0\nset remotetimeout 20\nset trace-commands on\n'; sed "s/PLACE/$place/"; } >"$work/commands"
  (cd "$work" && timeout 60 gdb-multiarch -nx -batch -x commands "$1") >"$work/raw.out" 2>&1
  local status=$?
  sed "s/^+/(gdb) /; s/$place/PLACE/" "$work/raw.out" | expand >"$work/gdb.out"
  return $status
}
says() { # TEXT..: each stands in gdb's output, one after the other
  local text at=0 line
  for text in "$@"; do
    line=$(tail -n "+$((at + 1))" "$work/gdb.out" | grep -n -m 1 -F -e "$text" | cut -d: -f1)
    [ -n "$line" ] || { echo "no '$text' in:"; cat "$work/gdb.out"; return 1; }
    at=$((at + line))
  done
}

# The blocks of docs/DEBUGGER.md as files doc1, doc2 and so on, in a folder from which the commands' paths are right.
blocks() {
  ln -s "$root/bench" "$root/examples" "$work" &&
    awk -v out="$work/doc" '/^```$/ { inside = !inside; block += inside; next } inside { print >(out block) }' docs/DEBUGGER.md
}
block() { # TEXT: the block that has it at the start of a line
  grep -l -e "^$1" "$work"/doc[0-9] | head -n 1
}
program() {
  grep '^\$ riscv' "$(block '\$ riscv')" | sed 's/^\$ //' >"$work/make" && (cd "$work" && bash -eu make) && [ -s "$work/doors.elf" ]
}
documented_session() {
  local shown=$(block '(gdb)')
  start doors.elf &&
    sed -n 's/^(gdb) //p' "$shown" | sed 's/127.0.0.1:3333/PLACE/' | session doors.elf &&
    sed 's/127.0.0.1:3333/PLACE/' "$shown" | expand | diff - "$work/gdb.out" &&
    sed "s/$place/127.0.0.1:3333/" "$work/bench.out" | head -n 2 | diff - <(sed 1d "$(block '\$ ./bench gdb')")
}
# The other blocks: commands after a dollar sign, and what they write.
documented_runs() {
  local shown=$(block '\$ ./bench run') line
  while IFS= read -r line; do
    printf '%s\n' "$line"
    case $line in '$ '*) (cd "$work" && bash -c "${line#??}") ;; esac
  done < <(grep '^\$ ' "$shown") >"$work/runs"
  diff "$shown" "$work/runs"
}

# The demonstration's image on the small board stops at the store into the interlock table, which is watched and not met; the report is
# the one that a run prints.
demonstration() { # IMAGE
  local image=$1
  host/bench/target/release/bench run --map examples/interlock_small.map "$work/interlock_small.elf" "$work/$image.elf" >"$work/run.out"
  start --map "$root/examples/interlock_small.map" interlock_small.elf "$image.elf" && session "$image.elf" <<'GDB' || return 1
target remote PLACE
break plan
continue
stepi
continue
print/x $c2
delete
watch *(char(*)[128])0x20000400
continue
x/s 0x20000478
monitor explain
detach
GDB
  says 'Breakpoint 1, ' '(gdb) stepi' ' in plan ()' 'Breakpoint 1, ' 'tag = 0x1, low = 0x20000480, high = 0x20000800' 'Hardware watchpoint 2' \
    ': store outside the bounds of c2.' 'Program received signal SIGSEGV' '"D15:SHUT"' '(gdb) monitor explain' 'detached' || return 1
  sed '1,/^(gdb) monitor explain/d; /^(gdb) detach/,$d' "$work/gdb.out" | grep . >"$work/explained"
  sed '1d; /^Map: /d; /^  register/,$d' "$work/run.out" | grep . | diff - "$work/explained"
}

# What is written loses its tag, a tag is not given, and a new start is told.
writes() {
  start doors.elf && session doors.elf <<'GDB'
target remote PLACE
break open_door
continue
print/x $c3.tag
set $c3.address = 0x20000408
print/x $c3
set $c3.metadata = 0x7e3e0000
print/x $c3.tag
set {char}&table = 'd'
x/s &table
print $x6 = 5
print/x $c6
monitor reset
maintenance flush register-cache
print/x $c3
detach
GDB
  says '$1 = 0x1' '$2 = {address = 0x20000408, metadata = 0x7e010000, tag = 0x1, low = 0x20000400' '$3 = 0x0' '"d00:SHUT' \
    '{address = 0x5, metadata = 0x0, tag = 0x0' 'Back at the start' 'tag = 0x0' 'detached' || return 1
  grep -F 'What is held now is a new start' "$work/bench.out" && session doors.elf <<<$'target remote PLACE\nprint $c3.tag = 1'
  says "remote failure reply 'E.a tag is not given by hand'"
}

# The program is loaded again by gdb, and a trap that gdb lets pass goes on to its handler.
loaded() {
  start doors.elf && session doors.elf <<'GDB' || return 1
target remote PLACE
load
stepi
handle SIGSEGV nostop noprint pass
tbreak *0
continue
print $mcause
monitor steps
detach
GDB
  says 'Loading section .text' 'What is held now is a new start' 'Temporary breakpoint 1, 0x00000000' '$1 = 28' '25 steps retired, 1 trapped' detached
}

# A loop without an end is interrupted by what Ctrl-C sends; then a debugger comes back to the same place and ends the machine.
loop_program() {
  printf '.globl _start\n_start:\naddi x10, x10, 1\nbne x10, x0, _start\n' >"$work/loop.s" && cd "$work" &&
    riscv64-unknown-elf-as -march=rv32i -mabi=ilp32 -mno-relax loop.s -o loop.o &&
    riscv64-unknown-elf-ld -m elf32lriscv -N --no-warn-rwx-segments -Ttext=0x20000000 loop.o -o loop.elf
}
interrupted() {
  (loop_program) && start loop.elf || return 1
  printf '%s\n' 'set confirm off' 'set trace-commands on' "target remote $place" continue 'print $x10' detach >"$work/commands"
  python3 - "$work" <<'PYTHON' || return 1
import signal, subprocess, sys, time
with open(sys.argv[1] + "/gdb.out", "w") as out:
    gdb = subprocess.Popen(["gdb-multiarch", "-nx", "-batch", "-x", "commands", "loop.elf"], cwd=sys.argv[1], stdout=out, stderr=out)
    for _ in range(300):
        time.sleep(0.1)
        if "+continue" in open(sys.argv[1] + "/gdb.out").read():
            break
    time.sleep(0.5)
    gdb.send_signal(signal.SIGINT)
    sys.exit(gdb.wait(timeout=30))
PYTHON
  says 'Program received signal SIGINT' 'detached' || return 1
  local counted=$(sed -n 's/^\$1 = //p' "$work/gdb.out")
  [ "$counted" -gt 1000 ] && session loop.elf <<<$'target remote PLACE\nprint $x10\nkill' && says "\$1 = $counted" killed || return 1
  wait "$pid"
  local status=$?
  pid=
  [ "$status" -eq 0 ] && grep -F 'has ended the machine.' "$work/bench.out"
}

# A second debugger shows why it is sent away; one that comes once the first was silent for ten seconds takes its place, which the first then shows.
makes_way() {
  start doors.elf || return 1
  printf '%s\n' 'set confirm off' "target remote $place" stepi 'shell touch held; until [ -e told ]; do sleep 0.1; done' 'print $x10' >"$work/first"
  (cd "$work" && timeout 60 gdb-multiarch -nx -batch -x first doors.elf) >"$work/first.out" 2>&1 &
  local first=$! tries
  for tries in $(seq 300); do [ ! -e "$work/held" ] || break; sleep 0.1; done
  session doors.elf <<<'target remote PLACE'
  says "Remote failure reply: E.another debugger is connected, silent for" "; after 10 s of silence the next takes its place" || return 1
  sleep 10
  session doors.elf <<<$'target remote PLACE\nmonitor steps\nkill' && says '1 step retired, 0 trapped' killed || return 1
  touch "$work/told"
  wait "$first"
  grep -F 'E.silent for 10 s, and another debugger has come' "$work/first.out" && grep -F 'was silent, and another has come' "$work/bench.out" && pid=
}

check "gdb and the RISC-V tools" tools || exit 1
check "bench builds for gdb" ./bench --version || exit 1
check "the images for gdb" examples/interlock_make.sh "$work" || exit 1
check "docs/DEBUGGER.md has its blocks" blocks
check "docs/DEBUGGER.md makes its program" program || exit 1
check "docs/DEBUGGER.md shows its session" documented_session
check "docs/DEBUGGER.md shows its runs" documented_runs
check "gdb stops at the demonstration's trap" demonstration interlock_image
check "gdb stops at the demonstration's trap, short words" demonstration interlock_image_short
check "gdb writes and no tag comes of it" writes
check "gdb loads the program and lets a trap pass" loaded
check "gdb interrupts, comes back and ends the machine" interrupted
check "gdb shows why it is sent away, and makes way after silence" makes_way
exit $bad
