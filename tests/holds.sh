# shellcheck shell=bash
# Read by the tests of the scripts: each line `holds WHAT COMMAND..` is a test, and `ends` tells how many passed.
passed=0
failed=0

holds() {
  local what=$1
  shift
  if "$@"; then
    passed=$((passed + 1))
  else
    failed=$((failed + 1))
    echo "$0: not so: $what" >&2
  fi
}

# Whether a file has a line that a pattern matches.
has_line() {
  grep -q -e "$2" "$1"
}

is() {
  [ "$1" = "$2" ] && return 0
  echo "$1, and not $2" >&2
  return 1
}

# What isn't here is left out, and said: wants TOOL..
wants() {
  local tool
  for tool in "$@"; do
    if ! command -v "$tool" >/dev/null; then
      echo "$0: left out, since there is no $tool"
      exit 0
    fi
  done
}

ends() {
  echo "$0: $passed passed, $failed failed"
  [ "$failed" -eq 0 ]
}
