#!/usr/bin/env bash
# The demonstration, as `./bench demo` or, of a package, examples/demo.sh: one image on two boards (examples/interlock.md).
# Its exit status is 0 if the image's label fits the large board alone, without the label the image ends on the
# large board and is stopped on the small one, and no run writes the table there, or reads the board's keys, unless the board's
# start is careless.
set -u
cd "$(dirname "$0")/.." || exit 1
bench=./bench
[ -x "$bench" ] || bench=bench # as a package has it, on the path

show() { # WORDS..: a command as it is typed, then what it writes
  printf '\n$ %s\n' "$*"
  "$@"
}
label() { # BOARD: the image's map sheet beside the board's
  show "$bench" fit "examples/interlock_$1.map" examples/interlock_image.img
}
board() { # NAME: the image on that board
  show "$bench" run --map "examples/interlock_$1.map" "examples/interlock_$1.hex" examples/interlock_image.hex
}

never() { # START: whether a run from the handover on could write the small board's table
  show "$bench" reach --map examples/interlock_small.map --at 0x20000100 --never interlock:w "examples/interlock_$1.hex" examples/interlock_image.hex
}

keys() { # START: whether a run could read or write the small board's service keys
  show "$bench" reach --map examples/interlock_keys.map --at 0x20000100 --never keys:rw "examples/interlock_$1.hex" examples/interlock_image.hex
}

cat <<'TEXT'
Two boards have one part number and two memory maps. The image was built for the large one, and its label, a
map sheet before its bytes, says which memory it wants.
TEXT
label large
fits=$?

cat <<'TEXT'

On the small one the label catches the mistake before anything runs: the stack is too short.
TEXT
label small
misfits=$?

cat <<'TEXT'

The same image without its label has to be run to find out. On the large board it runs to its end.
TEXT
board large | sed -n 1,4p
large=${PIPESTATUS[0]}

cat <<'TEXT'

On the small one its stack reaches the door interlock table. The bench stops at the store that would have
written over a door's entry.
TEXT
board small
small=$?

cat <<'TEXT'

That was one run. What the board's own start leaves to the image decides what every run may do: here nothing that
may store into the table, so that none ever writes it.
TEXT
never small | sed -n 1,4p
careful=${PIPESTATUS[0]}

cat <<'TEXT'

A careless start leaves the root for memory in a special register, and can promise nothing of the table.
TEXT
never careless | sed -n 1,4p
careless=${PIPESTATUS[0]}

cat <<'TEXT'

Reading is asked the same way. With service keys that the board hands to nobody: no run reads or writes them, and
nothing that any run does tells what they are.
TEXT
keys small | sed -n 1,5p
hidden=${PIPESTATUS[0]}
keys careless >/dev/null
shown=$?

[ "$fits" -eq 0 ] && [ "$misfits" -eq 1 ] && [ "$large" -eq 0 ] && [ "$small" -eq 1 ] && [ "$careful" -eq 0 ] && [ "$careless" -eq 1 ] &&
  [ "$hidden" -eq 0 ] && [ "$shown" -eq 1 ]
