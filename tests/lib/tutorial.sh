# Sourced by scripts of tests/, after check.sh: the commands of docs/TUTORIAL.md, and whether they print what it shows.

# The parts that have commands.
tutorial_parts=(1 2 3 4 5 6 7 8)

# Puts the lines in blocks of each part into a file, and the heading above them beside it: part1, part1.name and so on.
split_tutorial() {
  awk -v out="$work/part" '
    /^## / { part++; print substr($0, 4) >(out part ".name") }
    /^```$/ { inside = !inside; next }
    inside { print >(out part) }' docs/TUTORIAL.md
}

# Runs each line of a part after a dollar sign, in a folder and by the words before the shell, and holds what is printed to the lines below it.
as_shown() { # PART FOLDER WORDS..
  local file=$work/part$1 folder=$2 line
  shift 2
  while IFS= read -r line; do
    printf '%s\n' "$line"
    (cd "$folder" && "$@" bash -c "${line#??}" 2>&1)
  done < <(grep '^\$ ' "$file") >"$file.out"
  [ -s "$file.out" ] && diff "$file" "$file.out"
}
