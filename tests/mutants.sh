#!/usr/bin/env bash
# Wrong definitions that the theorems must refuse: each edit of tests/mutants is applied to a copy of the definitions from
# which the computed cases are taken out, so that only the theorems judge it: those of the crate runs, or of the one that the
# edit names. An edit counts as refused only if the changed definitions are sound by themselves and the theorems are not proved.
#
#   tests/mutants.sh [EDIT...]     all of tests/mutants, or the files named; JOBS at a time (as many as there are processors)
set -euo pipefail
top=$(cd "$(dirname "$0")/.." && pwd)
work=$(mktemp -d)
trap 'rm -rf "$work"' EXIT
. "$top/tests/lib.sh"
crates="spec lists order runs rounding hold_up energies"

copy() { # NAME: the crates of the theorems without the computed cases (Quoted and every module that imports it), in $work/NAME
  local dir=$work/$1 file
  # shellcheck disable=SC2086
  copy_crates "$dir" $crates
  rm -rf "$dir"/crates/*/must-fail
  for file in "$dir"/crates/spec/specs/Quoted.antt $(grep -l '^use Rattle\.spec\.specs\.Quoted\.' "$dir"/crates/*/specs/*.antt); do
    sed -i "/^pub mod $(basename "$file" .antt)\$/d" "$(dirname "$file")/Lib.antt"
    rm "$file"
  done
}

control() { # the same copy, unchanged, is proved: a refusal is the edit's
  copy unchanged
  (cd "$work/unchanged" && rt all check --jobs "$(at_once)") > "$work/log" 2>&1 || { echo "mutants: the unchanged copy is not proved"; tail -n 20 "$work/log"; return 1; }
}

try() { # EDIT
  local name dir crate file old new log
  name=$(basename "$1" .edit)
  dir=$work/$name
  copy "$name"
  crate=$(sed -n 's/^crate: //p' "$1")
  file=$(sed -n 's/^file: //p' "$1")
  old=$(sed -n 's/^old: //p' "$1")
  new=$(sed -n 's/^new: //p' "$1")
  OLD=$old NEW=$new perl -0pi -e 'BEGIN { $o = $ENV{OLD}; $n = $ENV{NEW} } my $k = () = /\Q$o\E/g; die "the old text stands $k times\n" unless $k == 1; s/\Q$o\E/$n/' "$dir/$file" || { echo "mutant $name: the edit does not apply"; return 1; }
  log=$dir/log
  check "$dir" "${crate:-runs}" 1 > "$log" 2>&1 && { echo "mutant $name: NOT REFUSED"; return 1; }
  grep -qx 'spec: ok' "$log" || { echo "mutant $name: the edit is no definition"; tail -n 3 "$log"; return 1; }
  # refused by the prover, and not stopped for another reason
  grep -qxE '(lists|order|runs|rounding|energies): failed \(1\)' "$log" || { echo "mutant $name: the theorems were not tried"; tail -n 3 "$log"; return 1; }
  # by what: the first file and theorem that fail
  echo "mutant $name: refused, as it must be: $(grep -m 1 -oE '^[^ ]+\.antt:[0-9]+:[0-9]+: error: `[^`]*`' "$log" || true)"
  rm -rf "$dir"
}
export -f copy copy_crates check try
export top work crates

control
edits=("$@")
[ $# -gt 0 ] || edits=("$top"/tests/mutants/*.edit)
printf '%s\n' "${edits[@]}" | xargs -P "$(at_once)" -I{} bash -c 'try {}'
