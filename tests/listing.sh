#!/usr/bin/env bash
# The listing's document against the proved library: each form, same encoding, hint and illegal word of docs/LISTING.md lists
# and assembles as it says there, and the forms are those of the table of names. The proved library is built by rt, or lies in
# the directory that ODDERSNOW_STATICLIB names.
set -u
source "$(dirname "$0")/lib/check.sh"

build() { gcc -std=c11 -Wall -Wextra -Werror -O2 -o "$work/lines" tests/listing_lines.c "${ODDERSNOW_STATICLIB:-target/staticlib}/liblisting_api.a"; }
documented() { python3 tests/listing.py lines | "$work/lines"; }
# The program must see a wrong line and a wrong word.
sees() { # LINE
  printf '%b\n' "$1" | "$work/lines" && return 1
  return 0
}

check "the proved library of the listing" library listing_api
check "the forms are the names that there are" python3 tests/listing.py names
check "the program of the listing's document builds" build
check "the listing's document is what the library does" documented
check "a wrong line is seen" sees '00000013\t00000013\taddi\t0\t0\t1'
check "a wrong word is seen" sees '9330000f\t9330000f\tfence\t3\t3'
exit "$bad"
