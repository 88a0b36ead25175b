# shellcheck shell=bash
# What the tests of scripts share: checks that are counted, and a copy of the repository to try things in.

top=$(cd "$(dirname "${BASH_SOURCE[0]}")/.." && pwd)
scratch=$(mktemp -d)
trap 'rm -rf --one-file-system "$scratch"' EXIT
passed=0
failed=0

# Counts a check: a line that says what must be so, and a command that succeeds if it is so.
check() {
  local name=$1
  shift
  if "$@"; then
    passed=$((passed + 1))
  else
    failed=$((failed + 1))
    echo "failed: $name"
  fi
}

# Runs a command, and keeps its status, its output and its standard error.
run() {
  "$@" >"$scratch/out" 2>"$scratch/err" </dev/null
  status=$?
}

# Whether a file is one line that has a text.
is_one_line() {
  [ "$(wc -l <"$1")" -eq 1 ] && grep -qF -- "$2" "$1"
}

# Whether the last run ended with a status, nothing on standard output, and one line on standard error that has a text.
refused() {
  [ "$status" -eq "$1" ] && [ ! -s "$scratch/out" ] && is_one_line "$scratch/err" "$2"
}

# Whether the last run ended with status 0, and one line on standard output that has a text.
done_with() {
  [ "$status" -eq 0 ] && [ ! -s "$scratch/err" ] && is_one_line "$scratch/out" "$1"
}

# Prints all that is in a folder: each name with its kind and mode, and the bytes of each file as a sum.
contents() {
  (cd "$1" && find . -printf '%y %m %p %l\n' | LC_ALL=C sort && find . -type f -exec sha256sum {} + | LC_ALL=C sort -k 2)
}

lacks() {
  ! grep -qF -- "$1" "$2"
}

absent() {
  [ ! -e "$1" ] && [ ! -L "$1" ]
}

# Copies what the scripts use of the repository, without what was built.
copy_sources() {
  mkdir -p "$1" &&
    tar -C "$top" -c --exclude=out --exclude=must-fail --exclude=__pycache__ crates crates.txt docs examples install test tools uringwalk |
    tar -C "$1" -x
}

finish() {
  echo "$passed passed, $failed failed"
  [ "$failed" -eq 0 ] && [ "$passed" -gt 0 ]
}
