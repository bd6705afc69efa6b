#!/usr/bin/env bash
# A folder of images on a board (bench shelf): what is said of each image, in every form and by any number of jobs; that it goes on
# where it was stopped, and makes anew what has changed; hostile and broken files; its page of all. Images are made by
# tests/shelf_images.py. The script installs Debian's chromium where it is missing.
set -u
source "$(dirname "$0")/lib/check.sh"
check "bench builds for shelves" ./bench --version || exit 1
bench=$PWD/host/bench/target/release/bench
page() { python3 tests/page.py "$@"; }
large=(--board examples/interlock_large.map --with examples/interlock_large.hex)
shelf() { "$bench" shelf "${large[@]}" --steps 20000 "$@"; }
python3 tests/shelf_images.py "$work/images" 400

rows_expected() {
  shelf "$work/images" --csv >"$work/one.csv"
  [ $? -eq 1 ] && python3 tests/shelf.py expected "$work/one.csv" 400
}
forms_alike() { # after rows_expected
  shelf "$work/images" --json >"$work/one.json"
  shelf "$work/images" >"$work/one.txt" 2>"$work/err"
  [ ! -s "$work/err" ] && python3 tests/shelf.py forms "$work/one.csv" "$work/one.json" "$work/one.txt"
}
alone_alike() { python3 tests/shelf.py alike "$work/one.csv" "$work/images" "$bench"; }
any_jobs() {
  local jobs
  for jobs in 1 2 3 16; do
    shelf "$work/images" --jobs "$jobs" --report "$work/pages$jobs" >"$work/jobs$jobs.txt"
    [ $? -eq 1 ] && cmp "$work/one.txt" "$work/jobs$jobs.txt" && diff -r "$work/pages1" "$work/pages$jobs" || return 1
  done
  shelf "$work/images" --csv | cmp - "$work/one.csv" && [ "$(find "$work/pages1" -name '*.html' | wc -l)" -eq 401 ]
}
all_pages() { page alone "$work"/pages1/*.html && [ "$(page links "$work/pages1/index.html")" = 400 ] &&
  page says "$work/pages1/index.html" "400 images: " "at 2000010c: store outside the bounds of c2" "stack: stack is too short by 16 bytes"; }

statuses() {
  mkdir -p "$work/good" "$work/empty/folder" && cp examples/interlock_image.img "$work/good/a.img"
  shelf "$work/good" >"$work/out" && grep -q '^1 image: 1 fit and are good\.$' "$work/out" || return 1
  # The board's own files are no images, wherever they lie.
  cp examples/interlock_large.map examples/interlock_large.hex "$work/good"
  "$bench" shelf "$work/good" --board "$work/good/interlock_large.map" --with "$work/good/interlock_large.hex" >"$work/out" || return 1
  rm "$work/good/interlock_large".*
  local folder status
  while read -r status folder; do
    shelf $folder >"$work/out" 2>"$work/err"
    [ $? -eq "$status" ] && [ ! -s "$work/out" ] && [ -s "$work/err" ] || { echo "not $status: $folder"; return 1; }
  done <<LIST
3 $work/empty
3 $work/none
3 $work/good --report $work/good
3 $work/good --results $work/good/results
3 $work/good --with $work/none
3 $work/good --jobs 0
LIST
  "$bench" shelf "$work/good" --board "$work/good/a.img" >"$work/out" 2>"$work/err"
  [ $? -eq 2 ] && [ ! -s "$work/out" ] && grep -q 'a.img: line 4' "$work/err"
}

# An image that never ends is not good, with a status, a count and a colour of its own, unless it may run on.
runs_on() {
  mkdir -p "$work/onward" && cp "$work/images/image-00099.img" "$work/onward"
  shelf "$work/onward" --color always >"$work/out"
  [ $? -eq 5 ] && grep -q $'\x1b\\[33m  running  \x1b' "$work/out" &&
    grep -q '^1 image: 0 fit and are good; 1 have not come to their end\.$' "$work/out" || return 1
  shelf "$work/onward" --may-run-on >"$work/out" && grep -q '^1 image: 1 fit and are good\.$' "$work/out" || return 1
  cp examples/interlock_image.img "$work/onward/good.img" && shelf "$work/onward" --report "$work/onward.pages" >"$work/out"
  [ $? -eq 5 ] && page says "$work/onward.pages/index.html" "some have not come to their end" || return 1
  cp "$work/images/image-00090.img" "$work/onward" && shelf "$work/onward" >"$work/out"
  [ $? -eq 1 ]
}

# A label alone makes no shelf good: without one an image is run, and the shelf is not all fit.
unlabelled() {
  mkdir -p "$work/plain" && cp examples/interlock_image.hex "$work/plain"
  shelf "$work/plain" >"$work/out"
  [ $? -eq 1 ] && grep -q '^1 image: 0 fit and are good; 1 have no label to be judged by\.$' "$work/out"
}

# Broken and hostile files stand in rows of their own, and the good one is as good as ever.
broken_files() {
  local folder=$work/broken
  mkdir -p "$folder/folder" && cp examples/interlock_image.img "$folder/good.img" && ln -s nowhere "$folder/link" && : >"$folder/none" &&
    mkfifo "$folder/pipe" && cp examples/interlock_image.img "$folder/<script>alert(1)<script>" &&
    cp examples/interlock_image.img "$folder/"$'new\nline\x1b[31m\u202e' && cp examples/interlock_image.img "$folder/"$'\xff' &&
    cp examples/interlock_image.img "$folder/"$'\xfe' && head -c 4000 /dev/urandom >"$folder/noise" &&
    head -c 150 examples/interlock_image.img >"$folder/short.img"
  shelf "$folder" --report "$work/broken.pages" >"$work/broken.txt" 2>"$work/err"
  [ $? -eq 1 ] && [ ! -s "$work/err" ] && [ "$(wc -l <"$work/broken.txt")" -eq 12 ] || return 1
  grep -q '^good.img  *fits  *ended  *687  *1,296 of 7,040$' "$work/broken.txt" &&
    grep -q '^link  *bad  *not run  *there is no such file or folder' "$work/broken.txt" &&
    grep -qF '\xff ' "$work/broken.txt" && grep -qF 'new\nline\u{1b}[31m\u{202e} ' "$work/broken.txt" && ! grep -q $'\x1b' "$work/broken.txt" &&
    page alone "$work"/broken.pages/*.html && [ "$(page links "$work/broken.pages/index.html")" = 9 ]
}

# The table that host/bench/README.md shows is what the demonstration's images come to on the small board.
readme_shows() {
  mkdir -p "$work/shown" && cp examples/interlock_image.hex examples/interlock_image.img "$work/shown"
  "$bench" shelf "$work/shown" --board examples/interlock_small.map --with examples/interlock_small.hex >"$work/shown.txt"
  sed -n '/^    image  .*  why$/,/^    2 images:/{s/^    //;p;}' host/bench/README.md | diff - "$work/shown.txt"
}

at_hand() { sed -n 's/^bench: \([0-9]*\) of [0-9]* results were at hand$/\1/p' "$1"; }
again() { # RESULTS EXPECTED [COMMAND..]: how many results are at hand, and that the answer is the same as ever
  local results=$1 expected=$2
  shift 2
  "${@:-shelf}" "$work/copy" --results "$results" >"$work/again.txt" 2>"$work/err"
  [ "$(at_hand "$work/err")" = "$expected" ] || { echo "not $expected at hand:"; cat "$work/err"; return 1; }
}
other_board() { "$bench" shelf --board "$work/other.map" --with examples/interlock_large.hex --steps 20000 "$@"; }
other_with() { "$bench" shelf --board examples/interlock_large.map --with "$work/other.hex" --steps 20000 "$@"; }
other_steps() { "$bench" shelf "${large[@]}" --steps 20001 "$@"; }
other_program() { "$work/bench" shelf "${large[@]}" --steps 20000 "$@"; }

# Results are taken up where nothing has changed, and made anew where the image, the board, the steps or the program has, or where
# the line was damaged.
made_anew() {
  local results=$work/results
  cp -r "$work/images" "$work/copy" && sed 's/boot/book/' examples/interlock_large.map >"$work/other.map" &&
    { cat examples/interlock_large.hex; echo; } >"$work/other.hex" && { cat "$bench"; echo; } >"$work/bench" && chmod +x "$work/bench"
  again "$results" "" && cmp "$work/again.txt" "$work/one.txt" && again "$results" 400 && cmp "$work/again.txt" "$work/one.txt" || return 1
  printf '\0' >>"$work/copy/image-00007.img" && again "$results" 399 && again "$results" 400 && cp "$work/images/image-00007.img" "$work/copy" || return 1
  again "$results" 399 && cmp "$work/again.txt" "$work/one.txt" || return 1
  sed -i '100s/"bytes":/"bytes":1/' "$results" && again "$results" 399 && cmp "$work/again.txt" "$work/one.txt" || return 1
  rm "$work/copy/image-00003.img" && again "$results" 399 && cp "$work/images/image-00003.img" "$work/copy" && again "$results" 399 || return 1
  cp "$results" "$work/kept"
  local other
  for other in other_board other_with other_steps other_program; do
    cp "$work/kept" "$results" && again "$results" "" "$other" && again "$results" 400 "$other" || { echo "$other"; return 1; }
  done
}
no_results() { # a file that is something else is not written over
  cp examples/interlock_image.img "$work/thing"
  shelf "$work/good" --results "$work/thing" >"$work/out" 2>"$work/err"
  [ $? -eq 3 ] && [ ! -s "$work/out" ] && grep -q 'not written over' "$work/err" && cmp "$work/thing" examples/interlock_image.img
}
pages_anew() { # after any_jobs: a page that is gone or was changed is made again
  cp -r "$work/pages1" "$work/pages" && rm "$work/pages/image-00001.img-"*.html && echo >>"$(ls "$work/pages/image-00002.img-"*.html)"
  shelf "$work/images" --report "$work/pages" >"$work/again.txt" 2>"$work/err"
  [ "$(at_hand "$work/err")" = 398 ] && diff -r "$work/pages1" "$work/pages" && cmp "$work/again.txt" "$work/one.txt"
}

# How many steps an image that never ends makes in so many seconds, here and now.
steps_in() { # SECONDS
  mkdir -p "$work/endless" && cp "$work/images/image-00099.img" "$work/endless"
  python3 - "$1" "$bench" shelf "$work/endless" "${large[@]}" --may-run-on --steps <<'PYTHON'
import subprocess, sys, time
steps, seconds = 1000000, 0
while seconds < 0.2:
    steps *= 4
    begin = time.perf_counter()
    subprocess.run(sys.argv[2:] + [str(steps)], stdout=subprocess.DEVNULL, check=True)
    seconds = time.perf_counter() - begin
print(int(steps * float(sys.argv[1]) / seconds))
PYTHON
}

# Killed in the middle, it has a whole file of results, and goes on from there to the same answer.
stopped() {
  local folder=$work/slow number results=$work/slow.results
  mkdir -p "$folder"
  for number in $(seq 100 160); do cp "$work/images/image-00099.img" "$folder/$number.img"; done
  slow_steps=$(steps_in 0.06) || return 1
  local slow=("$bench" shelf "$folder" "${large[@]}" --steps "$slow_steps")
  "${slow[@]}" --jobs 1 --results "$results" >"$work/out" 2>"$work/err" &
  local job=$!
  for _ in $(seq 300); do [ -s "$results" ] && break; sleep 0.1; done
  kill -9 "$job"
  wait "$job" 2>/dev/null
  [ ! -s "$work/out" ] && [ "$(head -n 1 "$results")" = 'oddersnow shelf 1' ] && [ "$(tail -c 1 "$results" | od -An -c | tr -d ' ')" = '\n' ] || return 1
  local lines=$(($(wc -l <"$results") - 1))
  [ "$lines" -gt 0 ] && [ "$lines" -lt 61 ] || { echo "$lines results"; return 1; }
  "${slow[@]}" --results "$results" >"$work/on.txt" 2>"$work/err"
  [ "$(at_hand "$work/err")" = "$lines" ] && "${slow[@]}" --jobs 2 >"$work/whole.txt" 2>/dev/null
  cmp "$work/on.txt" "$work/whole.txt"
}

# A bar on a terminal, and nothing on a standard error that is none.
bar_shown() {
  need script >/dev/null || return 1
  script -qec "'$bench' shelf '$work/slow' ${large[*]} --steps $slow_steps >'$work/out'" "$work/terminal" >/dev/null
  grep -q 'of 61 images' "$work/terminal" && [ -s "$work/out" ]
}
flat_memory() {
  python3 tests/shelf_images.py "$work/few" 200 && python3 tests/shelf_images.py "$work/many" 3000 &&
    python3 tests/shelf.py memory "$work/few" "$work/many" "$bench" shelf @ "${large[@]}" --steps 20000
}
browser_shows() {
  need chromium >/dev/null || return 1
  local run=(timeout 60 chromium --headless --no-sandbox --disable-gpu --disable-dev-shm-usage --hide-scrollbars --user-data-dir="$work/profile")
  run+=(--enable-logging=stderr --v=0)
  "${run[@]}" --dump-dom "file://$work/broken.pages/index.html" >"$work/dom.html" 2>"$work/browser" && ! grep CONSOLE "$work/browser" &&
    page says "$work/dom.html" '<script>alert(1)<script>' 'new\nline\u{1b}[31m\u{202e}' 'Not every image fits the board and is good.' &&
    "${run[@]}" --window-size=1000,900 --screenshot="$work/index.png" "file://$work/broken.pages/index.html" 2>/dev/null &&
    page pixels "$work/index.png" 9b1c1c 1000 ffffff 100000
}

check "every image of a shelf is what it was made to be" rows_expected
check "table, CSV and JSON say the same" forms_alike
check "a row says what fit and run say of the image alone" alone_alike
check "any number of jobs gives the same bytes" any_jobs
check "a shelf's pages load nothing and its links lead to pages" all_pages
check "a shelf's exit status" statuses
check "an image that never ends is not good on a shelf" runs_on
check "an image without a label makes no shelf good" unlabelled
check "a broken file stops no other" broken_files
check "host/bench/README.md shows a shelf" readme_shows
check "results are made anew where something has changed" made_anew
check "a page that is gone is made again" pages_anew
check "no other file is written over by results" no_results
check "a shelf goes on where it was stopped" stopped
check "a bar is drawn on a terminal" bar_shown
check "memory is flat" flat_memory
check "a browser shows a shelf with hostile names" browser_shows
exit $bad
