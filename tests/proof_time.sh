#!/usr/bin/env bash
# What it costs to prove every crate from nothing, and its tests: processor seconds, of the tree at HEAD or at a revision. Of rt's
# commands `rt all verdict` takes nothing of what other runs on this machine have kept, and tries no edits. The notes of
# docs/CHANGES.md are measured by it, each change and what stood before it one after the other on an idle machine.
#   tests/proof_time.sh [REVISION...]
set -euo pipefail
top=$(cd "$(dirname "$0")/.." && pwd)
work=$(mktemp -d)
trap 'rm -rf "$work"' EXIT

for revision in "${@:-HEAD}"; do
  tree=$work/$(git -C "$top" rev-parse --short "$revision")
  mkdir "$tree"
  git -C "$top" archive "$revision" | tar -x -C "$tree"
  TIMEFORMAT='%U %S %R'
  times=$( { time (cd "$tree" && rt all verdict --jobs "$(nproc)" > "$tree.log" 2>&1) || tail -n 5 "$tree.log" >&2; } 2>&1 )
  read -r user system real <<< "$times"
  awk -v what="$revision: $(tail -n 1 "$tree.log")" -v u="$user" -v s="$system" -v r="$real" \
    'BEGIN { printf "%s; %.0f processor seconds (%.0f user, %.0f system), %.0f s real\n", what, u + s, u, s, r }'
  rm -rf "$tree"
done
