#!/usr/bin/env bash
# Holds README.md to what its commands print. A command is an indented line that begins with `$ `; the indented lines below it,
# up to the next command, must be what it writes to standard output and standard error.
#
#   tests/readme.sh TREE     all commands but .ci/run, run in the folder TREE
set -euo pipefail
top=$(cd "$(dirname "$0")/.." && pwd)
tree=$1
tried=0 failed=0 command=''

finish() { # the command collected so far
  case $command in '' | .ci/run*) return 0 ;; esac
  local printed
  printed=$(cd "$tree" && bash -c "$command" 2>&1 && echo . || echo .)
  tried=$((tried + 1))
  [ "${printed%.}" = "$expected" ] && return 0
  failed=$((failed + 1))
  printf 'README.md: FAILED: $ %s\n' "$command"
  diff <(printf %s "$expected") <(printf %s "${printed%.}") | sed 's/^</README  </; s/^>/printed >/' || true
}

blank='' # empty lines that belong to an output if more of it follows
while IFS= read -r line; do
  case $line in
    '    $ '*) finish; command=${line#'    $ '} expected='' blank='' ;;
    '    '*) expected+=$blank${line#'    '}$'\n' blank='' ;;
    '') blank+=$'\n' ;;
    *) finish; command='' blank='' ;;
  esac
done < "$top/README.md"
finish
echo "README.md: $tried commands tried, $failed failed"
[ "$failed" -eq 0 ] && [ "$tried" -gt 0 ]
