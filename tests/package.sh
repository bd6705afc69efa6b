#!/usr/bin/env bash
# The Debian package: it is built twice to the same bytes, has the files that it should have, and what it has works from a folder where it is
# unpacked, with neither the kit nor cargo on the path. The proved libraries are built by rt, or lie in the directory that ODDERSNOW_STATICLIB names.
set -u
source "$(dirname "$0")/lib/check.sh"
source "$root/tests/lib/tutorial.sh"
triplet=$(gcc -dumpmachine)
own=usr/share/doc/oddersnow-bench
shared=usr/share/oddersnow-bench

tools() { need groff pkg-config dpkg-shlibdeps; }
built() { packaging/deb "$work/first" >"$work/path" && package=$(cat "$work/path") && dpkg-deb -x "$package" "$work/there"; }
same_twice() { sleep 1.1; packaging/deb "$work/second" && cmp "$package" "$work/second/${package##*/}"; }

# Every file of the package, and no other.
expected_files() {
  printf '/usr/bin/%s\n' bench oddersnow-cut
  printf '/usr/share/man/man1/%s.1.gz\n' bench oddersnow-cut
  printf '/usr/share/%s\n' bash-completion/completions/bench zsh/vendor-completions/_bench fish/vendor_completions.d/bench.fish
  printf '/usr/include/oddersnow.h\n/usr/lib/%s/pkgconfig/oddersnow.pc\n' "$triplet"
  printf "/usr/lib/$triplet/oddersnow/lib%s.a\n" label call_lists bench_api sheet_api listing_api reach
  printf "/$own/%s\n" README.Debian copyright crates-copyright.gz changelog.gz examples
  printf "/$own/%s.md\n" GUARANTEE TUTORIAL AUTHORITY DEBUGGER LISTING STATE TESTING PROMISES DECISIONS
  git ls-files examples | sed "s,^,/$shared/,"
}
files_are_expected() {
  expected_files | sort >"$work/expected"
  (cd "$work/there" && find . ! -type d -printf '/%P\n') | sort | diff "$work/expected" -
}
sums_are_true() { dpkg-deb -e "$package" "$work/control" && (cd "$work/there" && md5sum -c --quiet "$work/control/md5sums"); }

# Where a link of one of its pages leads, there is a file of the package.
links_lead() {
  local page link
  grep -ro --include='*.md' ']([^)#]*' "$work/there/$own" "$work/there/$shared" | grep -v :// >"$work/links" || return 1
  while IFS=: read -r page link; do
    [ -e "${page%/*}/${link#*(}" ] || { echo "$page has a link to ${link#*(}"; return 1; }
  done <"$work/links"
}

# Each shared library that the programs ask for is of a package that this one depends on.
depends_suffice() {
  local depends file owner
  depends=$(dpkg-deb -f "$package" Depends)
  ldd "$work/there/usr/bin/bench" "$work/there/usr/bin/oddersnow-cut" | sed -n 's/.*=> \(\/[^ ]*\) .*/\1/p' | sort -u >"$work/shared"
  [ -s "$work/shared" ] || return 1
  while read -r file; do
    owner=$(dpkg -S "*/${file##*/}" | sed -n '1s/:.*//p')
    [[ ", $depends" == *", $owner "* ]] || { echo "$file is of $owner, not in '$depends'"; return 1; }
  done <"$work/shared"
}

# Runs a command as on a machine without the kit: the unpacked programs, and of others only those that a script needs.
without_kit() { # COMMAND..
  local tool
  if [ ! -d "$work/tools" ]; then
    mkdir "$work/tools"
    for tool in bash env cat cmp diff sed head dirname tr fmt grep mkdir gcc as ld pkg-config; do ln -s "$(command -v "$tool")" "$work/tools"; done
  fi
  env -i HOME="$work" LC_ALL=C.UTF-8 PATH="$work/there/usr/bin:$work/tools" PKG_CONFIG_SYSROOT_DIR="$work/there" \
    PKG_CONFIG_PATH="$work/there/usr/lib/$triplet/pkgconfig" "$@"
}
# By the link beside the pages; the others take the examples from where they lie.
demonstration() {
  without_kit bash -c '! command -v rt && ! command -v cargo' &&
    without_kit "$work/there/$own/examples/demo.sh" >"$work/demo" &&
    ./bench demo | sed 's,^\$ \./bench,$ bench,' | diff - "$work/demo"
}

# The commands of README.Debian, which are its indented lines, in a folder of one's own; the copy of the examples is from the unpacked folder.
as_the_readme_says() {
  sed -n 's/^    //p' packaging/README.Debian | sed "s,/usr/share,$work/there&," >"$work/lines"
  ln -s "$(command -v cp)" "$work/tools"
  mkdir "$work/own" && (cd "$work/own" && without_kit bash -eu "$work/lines") >"$work/said" &&
    tail -n 2 "$work/said" | diff - <(printf 'cut\tlow\thigh\texact\n1\t20000000\t020000202\tno\n')
}
tutorial() {
  local part
  mkdir "$work/ten" && cp -r "$work/there/$shared/examples" "$work/ten" && split_tutorial || return 1
  for part in "${tutorial_parts[@]}"; do as_shown "$part" "$work/ten" without_kit || return 1; done
}
c_programs() {
  local source
  for source in "$work/there/$shared"/examples/*.c; do
    without_kit gcc -std=c11 -O2 -Wall -Wextra -Werror "$source" -I"$work/there/usr/include" "$work/there/usr/lib/$triplet/oddersnow"/*.a -o "$work/c" &&
      printf '20000001\t00000200\nffffffff\t00000002\n' >"$work/requests" &&
      cmp <("$work/c" <"$work/requests") <(without_kit oddersnow-cut <"$work/requests") || return 1
  done
  printf 'cut\tlow\thigh\texact\n1\t20000000\t020000202\tno\n2\tbad\t6\n' | cmp - <(without_kit oddersnow-cut <"$work/requests")
}

# Every command and option that --help has is in the completions and on the page.
completes() { # SHELL FILE
  python3 tests/package_words.py "$work/there/usr/bin/bench" "$1" "$work/there/usr/share/$2"
}
pages() {
  local page
  for page in bench oddersnow-cut; do
    gzip -dc "$work/there/usr/share/man/man1/$page.1.gz" >"$work/$page.1" &&
      groff -ww -man -Tutf8 -P-cbou -rLL=150n "$work/$page.1" >"$work/$page.txt" 2>"$work/warnings" || return 1
    [ -s "$work/$page.txt" ] && [ ! -s "$work/warnings" ] || { cat "$work/warnings"; return 1; }
  done
  python3 tests/package_words.py "$work/there/usr/bin/bench" page "$work/bench.txt"
}
linted() { need lintian && lintian --fail-on error --tag-display-limit 0 "$package"; }

check "the package's tools" tools || exit 1
check "the package is built" built || exit 1
check "the package built again has the same bytes" same_twice
check "the package has the files that it should have" files_are_expected
check "the package's sums are its files'" sums_are_true
check "the links of the package's pages lead to files of it" links_lead
check "the package depends on what its programs need" depends_suffice
check "the demonstration runs from the package, without the kit" demonstration
check "what the package's own page shows works" as_the_readme_says
check "the tutorial's commands print what it shows, without the kit" tutorial
check "C programs build by the package's header and libraries" c_programs
check "bash completes every command and option" completes bash bash-completion/completions/bench
check "zsh completes every command and option" completes zsh zsh/vendor-completions/_bench
check "fish completes every command and option" completes fish fish/vendor_completions.d/bench.fish
check "the manual pages are whole" pages
check "lintian finds no error" linted
exit $bad
