# Sourced by the scripts of tests/ and by the gate; it runs no check itself. Names the repository's root and a folder
# that is removed at the end, and stands in the root.
root=$(cd "$(dirname "${BASH_SOURCE[0]}")/../.." && pwd)
cd "$root" || exit 1
work=$(mktemp -d)
trap 'rm -rf "$work"' EXIT
bad=0

# Prints 'ok NAME', or the end of what the command wrote and 'FAIL NAME'; `bad` is 1 from then on. The command's output is
# kept in the file that `log` names.
check() { # NAME COMMAND..
  local name=$1 into=${log:-$work/log}
  shift
  if "$@" >"$into" 2>&1; then
    echo "ok $name"
  else
    bad=1
    tail -n 40 "$into"
    echo "FAIL $name"
    return 1
  fi
}

# Installs what is missing of some commands: tests/lib/packages.txt has the Debian package that brings each.
need() { # COMMAND..
  local command missing=()
  for command; do
    command -v "$command" >/dev/null ||
      missing+=("$(awk -v command="$command" '$1 == command { print $2 }' "$root/tests/lib/packages.txt")")
  done
  [ ${#missing[@]} -eq 0 ] || "$root/packaging/install" "${missing[@]}"
  command -v "$@" && [ "$(command -v "$@" | wc -l)" -eq $# ]
}

# Builds the libraries for C by rt, unless ODDERSNOW_STATICLIB names the directory where they lie.
library() { # NAME..
  [ -n "${ODDERSNOW_STATICLIB:-}" ] || packaging/proved "$@"
}
