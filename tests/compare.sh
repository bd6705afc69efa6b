#!/usr/bin/env bash
# The bulk comparisons of the proved program with the second one, and the search for gained authority:
# compare.sh [PART..], by default all parts. (With wrong machines: tests/second.sh.) The proved libraries are built by rt,
# or lie in the directory that ODDERSNOW_STATICLIB names. What a part wrote is in host/target/compare.
set -u
source "$(dirname "$0")/lib/check.sh"
parts="capability calls machine editions halves listing authority sheets images sweep watch engine reach integrity secrecy"
out=host/target/compare
mkdir -p "$out"

library_of() { # PART: one library, or several
  case $1 in
  capability) echo label ;;
  calls) echo call_lists ;;
  listing) echo listing_api ;;
  sheets | images) echo sheet_api ;;
  reach) echo reach ;;
  integrity | secrecy) echo bench_api reach ;;
  *) echo bench_api ;;
  esac
}
compared() { # PART: its library and its program built, and the program run
  library $(library_of "$1") && (cd host && cargo build --offline --release -p compare --bin "$1") && "host/target/release/$1"
}

[ $# -gt 0 ] || set -- $parts
for part in "$@"; do
  case " $parts " in
  *" $part "*) log=$out/$part.txt check "compare $part" compared "$part" && tail -n 2 "$out/$part.txt" | head -n 1 ;;
  *) echo "FAIL compare: no part $part"; bad=1 ;;
  esac
done
exit $bad
