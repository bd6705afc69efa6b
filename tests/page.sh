#!/usr/bin/env bash
# The page of a run: what it says, that it is one file that loads and runs nothing, that names of others change nothing in it, and
# that a browser shows it, on a screen and on paper. The script installs Debian's chromium and poppler-utils where they are missing.
set -u
source "$(dirname "$0")/lib/check.sh"
check "bench builds for pages" ./bench --version || exit 1
bench=$PWD/host/bench/target/release/bench
page() { python3 tests/page.py "$@"; }

small=(run --map examples/interlock_small.map examples/interlock_small.hex examples/interlock_image.hex)
small_page() {
  "$bench" "${small[@]}" --report "$work/small.html" >"$work/small.txt"
  [ $? -eq 1 ] && page alone "$work/small.html"
}

# What the terminal says stands on the page: counts, stack, trap, memory and registers, line by line.
says_the_report() { # after small_page
  mapfile -t lines < <(sed 's/^ *register *address .*//; s/^Trap: //' "$work/small.txt" | grep -v 'memory there' | sed '/^ *$/d')
  [ "${#lines[@]}" -gt 30 ] && page says "$work/small.html" "${lines[@]}" "asked, store [20000478, 20000480)" "bounds of c2 [20000480, 20000800)" \
    "used [20000490, 20000800), 880 of 896 bytes" "loaded [20000100, 2000014c)" "The last 24 of 376 steps" "interlock [20000400, 20000480) rw" \
    "stack 196 [20000490, 20000800) 28 0" "$(sha256sum <examples/interlock_image.hex | cut -d' ' -f1)"
}

# The last steps on the page are the last lines of the trace, and what changed is what a comparison of saved states says.
says_the_trace() { # after small_page
  "$bench" "${small[@]}" --trace --json 2>"$work/trace" >"$work/json"
  mapfile -t lines < <(tail -n 24 "$work/trace")
  [ "${#lines[@]}" -eq 24 ] && page says "$work/small.html" "${lines[@]}" || return 1
  "$bench" "${small[@]}" --steps 0 --save "$work/before" >/dev/null && "$bench" "${small[@]}" --save "$work/after" >/dev/null
  python3 - "$work/before" "$work/after" <<'PYTHON'
import sys
def memory(path):
    rows, into = {}, None
    for line in open(path, encoding="ascii"):
        words = line.split()
        if words[0] in ("memory", "tags", "revoked"):
            into = words[0]
        elif into == "memory" and len(words) == 2 and len(words[1]) == 64:
            rows[int(words[0], 16)] = bytes.fromhex(words[1])
    return rows
one, two = map(memory, sys.argv[1:])
none = bytes(32)
pairs = [pair for row in set(one) | set(two) for pair in zip(one.get(row, none), two.get(row, none))]
differ = sum(a != b for a, b in pairs)
print(differ)
sys.exit(differ != 196)
PYTHON
}

same_with_json() { # after small_page: the page does not depend on the form of the rest
  "$bench" "${small[@]}" --json --report "$work/again.html" >"$work/json"
  [ $? -eq 1 ] && cmp "$work/small.html" "$work/again.html"
}

large_page() {
  local run=(run --map examples/interlock_large.map examples/interlock_large.hex examples/interlock_image.img --sweep 100 --watch 0x20000400 0x80)
  "$bench" "${run[@]}" --report "$work/large.html" >/dev/null && page alone "$work/large.html" &&
    page says "$work/large.html" "It ran to its end without a trap." "Label of examples/interlock_image.img" "in interlock" \
      "Memory was swept" PassClaim fits-inside "128 bytes from 20000400, touched by" \
      "The counts of watched ranges: one more for each store that retired and shares a byte with the range (WatchPromise)." &&
    ! page says "$work/small.html" "The counts of watched ranges" 2>/dev/null && page says "$work/small.html" "How many stores went into a hole of the map" &&
    "$bench" "${run[@]:0:3}" --map-stores off "${run[@]:3:2}" --report "$work/unjudged.html" >/dev/null &&
    ! page says "$work/unjudged.html" WatchPromise 2>/dev/null
}

misfit_page() {
  "$bench" "${small[@]/%image.hex/image.img}" --report "$work/misfit.html" >/dev/null 2>&1
  [ $? -eq 2 ] && page alone "$work/misfit.html" && page says "$work/misfit.html" "It does not fit the board, and was not run." \
    "no: stack is too short by 6,144 bytes" "stack [20000480, 20002000) rw"
}

# A page is written whole or not at all, and over no file that is read or saved to.
places() {
  local image=$work/i.hex
  cp examples/interlock_image.hex "$image"
  "$bench" run "$image" --report "$image" >/dev/null 2>"$work/err"
  [ $? -eq 3 ] && grep -q 'not written over' "$work/err" && cmp "$image" examples/interlock_image.hex || return 1
  "$bench" run "$image" --report "$work/none/x.html" >"$work/out" 2>/dev/null
  [ $? -eq 3 ] && [ ! -s "$work/out" ] || return 1
  "$bench" run "$image" --report "$work/x" --save "$work/x" >/dev/null 2>"$work/err"
  [ $? -eq 3 ] && grep -q 'saved there' "$work/err" && [ ! -e "$work/x" ]
}

# The matrix of what may be done says what the table does, and the region at fault is drawn.
reach_page() {
  local asked=(reach --map examples/interlock_small.map --at 0x20000100 --never interlock:w examples/interlock_careless.hex examples/interlock_image.hex)
  "$bench" "${asked[@]}" --report "$work/reach.html" >"$work/reach.txt"
  [ $? -eq 1 ] && page alone "$work/reach.html" || return 1
  mapfile -t lines < <(sed 's/^ *region .*//; s/  *$//' "$work/reach.txt" | sed '/^$/d')
  [ "${#lines[@]}" -gt 12 ] && page says "$work/reach.html" "${lines[@]}" "executed" "ReachPromise" "interlock [20000400, 20000480), by MTDC" || return 1
  "$bench" "${asked[@]}" --json --report "$work/again.html" >"$work/json"
  [ $? -eq 1 ] && cmp "$work/reach.html" "$work/again.html"
}

# Files and functions with hostile names: the page has the elements of one with plain names, and shows the names written out.
hostile=('<script>alert(1)</script>' '"><img src=x onerror=alert(1)>' "'\"&amp;&lt;" $'new\nline\ttab\x1b[31m\x7f'
  $'\u202egnp.exe\u2066\u200b' '</title></style></pre>' '{{ title }}{% raw %}' "$(printf 'long%.0s' {1..60})" $'\xff\xfe' '-->' ']]>' 'javascript:alert(1)')
hostile_names() {
  local name file number=0
  mkdir -p "$work/names" && python3 tests/page.py elf "$work/plain.elf" plain
  "$bench" run "$work/plain.elf" --report "$work/plain.html" >/dev/null
  for name in "${hostile[@]}"; do
    number=$((number + 1))
    file=$work/names/$(printf '%s' "$name" | tr / _)
    python3 tests/page.py elf "$file" "$(printf '%s' "$name" | iconv -c -f utf-8 -t utf-8)"
    "$bench" run --report "$work/hostile$number.html" -- "$file" >/dev/null 2>&1
    page alone "$work/hostile$number.html" && page same "$work/plain.html" "$work/hostile$number.html" ||
      { printf 'name %q\n' "$name"; return 1; }
  done
  page says "$work/hostile1.html" '<script>alert(1)<_script>' 'byte 0 of <script>alert(1)</script>' &&
    page says "$work/hostile4.html" 'new\nline\ttab\u{1b}[31m\u{7f}' && page says "$work/hostile5.html" '\u{202e}gnp.exe\u{2066}\u{200b}'
}
long_name() {
  python3 tests/page.py elf "$work/long.elf" "$(printf 'x%.0s' {1..100000})" && "$bench" run "$work/long.elf" --report "$work/long.html" >/dev/null
  page same "$work/plain.html" "$work/long.html" && page says "$work/long.html" "(99880 letters more)" && [ "$(wc -c <"$work/long.html")" -lt 60000 ]
}

# What the pages and the words below a table call proved is there: each name is declared in the crates' definitions or proofs; a mere use is not enough.
# What the command writes keeps the spelling of a law or definition that it has always had (reach-claim, boundsOf): in the crates it is in snake case.
named_facts() {
  local name
  { grep -o '<code>[^<]*</code>' host/bench/src/page/proved.html | sed 's/<[^>]*>//g'
    grep -o '(law [^)]*)' host/bench/src/reach/text.rs | tr -d '()' | cut -d ' ' -f 2; } | sort -u >"$work/facts"
  [ "$(wc -l <"$work/facts")" -ge 10 ] || return 1
  while read -r name; do
    case $name in [a-z]*) name=$(sed 's/-/_/g; s/\([a-z]\)\([A-Z]\)/\1_\l\2/g' <<<"$name") ;; esac
    grep -rqE --include='*.antt' "(^|[ ;])pub (record )?$name( |\$)" crates || { echo "no $name in crates"; return 1; }
  done <"$work/facts"
}

# The browser's own answers. Its messages of a console would stand on standard error.
browser() { # OPTIONS..
  timeout 60 chromium --headless --no-sandbox --disable-gpu --hide-scrollbars --disable-dev-shm-usage --user-data-dir="$work/profile" \
    --enable-logging=stderr --v=0 "$@" 2>"$work/browser"
}
quiet() { ! grep -E 'CONSOLE|Refused to|SyntaxError' "$work/browser"; }
browser_text() {
  browser --dump-dom "file://$work/small.html" >"$work/dom.html" && quiet && page same "$work/small.html" "$work/dom.html" &&
    page says "$work/dom.html" "It was stopped by a trap: store outside the bounds of c2." "trapped at [2000010c, 20000110)"
}
browser_hostile() {
  local number
  for number in 1 2 4 6; do
    browser --dump-dom "file://$work/hostile$number.html" >"$work/dom.html" && quiet && page same "$work/plain.html" "$work/dom.html" || return 1
  done
}
# Board, image, hatched stack, what changed, bounds and request are all there by their colours.
browser_picture() {
  browser --window-size=1000,1200 --screenshot="$work/small.png" "file://$work/small.html" && quiet &&
    page pixels "$work/small.png" dfe7f1 10000 cfe3d4 500 e9d9a8 1000 6b4b8a 1000 e2efe5 1000 c22a2a 1000 ffffff 100000 &&
    browser --window-size=1000,1200 --screenshot="$work/misfit.png" "file://$work/misfit.html" &&
    page pixels "$work/misfit.png" f6d5d5 5000 dfe7f1 1000 &&
    browser --window-size=1000,1200 --screenshot="$work/reach.png" "file://$work/reach.html" && quiet &&
    page pixels "$work/reach.png" f6d5d5 5000 dfe7f1 5000 cfe3d4 5000
}
browser_catches() { # a page that is not as it should be is seen
  sed 's/<h1>/<h1><script>console.error("seen")<\/script>/; s/<meta http-equiv[^>]*>//' "$work/small.html" >"$work/wrong.html"
  browser --dump-dom "file://$work/wrong.html" >"$work/dom.html"
  ! quiet >/dev/null && ! page alone "$work/wrong.html" 2>/dev/null && ! page same "$work/small.html" "$work/wrong.html" 2>/dev/null &&
    browser --window-size=1000,1200 --screenshot="$work/blank.png" about:blank && ! page pixels "$work/blank.png" dfe7f1 10000 2>/dev/null
}
paper() {
  browser --no-pdf-header-footer --print-to-pdf="$work/small.pdf" "file://$work/small.html" &&
    pdftotext -layout "$work/small.pdf" - | tr -d '[:space:]' >"$work/small.paper" &&
    [ "$(pdfinfo "$work/small.pdf" | sed -n 's/^Pages: *//p')" -le 6 ] || return 1
  local text
  for text in "store outside the bounds of c2" "[20000480, 20000800), 896 bytes of c2; the request starts 8 bytes below them" \
    "376  2000010c  fe113c23  csc 2 1 -8" "MScratchC" "RunPromise" "stack [20000480, 20000800) rw"; do
    grep -qF "$(tr -d '[:space:]' <<<"$text")" "$work/small.paper" || { echo "no '$text' on paper"; return 1; }
  done
}

check "the page of a run that traps loads nothing" small_page
check "the page says what the terminal says" says_the_report
check "the page has the trace's last steps and the bytes that differ" says_the_trace
check "the page is the same beside JSON" same_with_json
check "the page of a run that ends" large_page
check "the page of an image that does not fit" misfit_page
check "the page of what any run may do" reach_page
check "a page is written over no file that is read" places
check "hostile names change nothing on a page" hostile_names
check "a very long name is cut on a page" long_name
check "what a page calls proved is in the crates" named_facts
check "chromium is here" need chromium || exit 1
check "pdftotext is here" need pdftotext || exit 1
check "a browser shows the page's text without a complaint" browser_text
check "a browser shows hostile names as text" browser_hostile
check "a browser draws the picture" browser_picture
check "a wrong page is caught" browser_catches
check "the page can be read on paper" paper
exit $bad
