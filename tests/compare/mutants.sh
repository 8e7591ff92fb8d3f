#!/usr/bin/env bash
# The tests of the tests: each wrong simulator of mutants.txt is compared with the library, and the comparison must see it. Says
# for each at which case the first difference shows, among the vectors and among the generated cases (of the fixed cases only
# where neither sees it), and whether the brute force sees it where it stands in for the library. Not a part of the gate.
#
#   tests/compare/mutants.sh [--alone] [NAME...]     all mutants, or those named; JOBS at a time (2)
#
# With PTI_LIB_DIR set, the libpti.a of that folder is taken; else ./library proves and builds it first. With --alone the simulator as
# it stands takes the library's place, so that what the cases see can be tried where there is no library.
set -euo pipefail
here=$(cd "$(dirname "$0")" && pwd)
top=$(cd "$here/../.." && pwd)
work=$(mktemp -d)
trap 'rm -rf "$work"' EXIT
alone=no
if [ "${1:-}" = --alone ]; then alone=yes; shift; fi
wanted=("$@")

features=(--features lib) subject=
if [ "$alone" = yes ]; then
  features=() subject="--subject $work/unchanged/libpti.so"
elif [ -z "${PTI_LIB_DIR:-}" ]; then
  "$top/library"
  PTI_LIB_DIR=$top/target/staticlib
fi
export PTI_LIB_DIR CARGO_TARGET_DIR=$top/target/compare
cargo build --manifest-path "$here/Cargo.toml" --release ${features[@]+"${features[@]}"} --offline --quiet
compare=$CARGO_TARGET_DIR/release/compare

library() { # FOLDER: the simulator of its src, behind the C interface
  rustc --edition 2021 -C opt-level=0 -C panic=abort -A warnings --crate-type cdylib --crate-name pti "$1/src/mock.rs" -o "$1/libpti.so" 2> "$1/errors"
}

# At which case a difference shows; '-' if none does. A crash counts. A refusal that was never met does not.
first() { # FOLDER WORDS...
  local dir=$1 status=0
  shift
  timeout 300 "$compare" "$@" > "$dir/out" 2>&1 || status=$?
  if [ "$status" -gt 1 ]; then
    echo crash
  elif grep -qE '^DIFFERENCE' "$dir/out"; then
    sed -n 's/^compare (.*): \([0-9]*\) cases.*/\1/p' "$dir/out"
  elif grep -qE '^FAILED' "$dir/out"; then
    echo seen
  else
    echo -
  fi
}

edit() { # FOLDER FILE OLD NEW
  OLD=$3 NEW=$4 perl -0pi -e 'BEGIN { $o = $ENV{OLD}; $n = $ENV{NEW} } my $k = () = /\Q$o\E/g; die "the old text stands $k times\n" unless $k == 1; s/\Q$o\E/$n/' "$1/src/$2"
}

judge() { # NAME
  local dir=$work/$1 so=$work/$1/libpti.so vectors fixed='not tried' generated brute
  library "$dir" || { echo "$1: DOES NOT COMPILE"; return 0; }
  vectors=$(first "$dir" compare --first --only vectors --reference "$so" $subject)
  generated=$(first "$dir" compare --first --only generated --cases 20000 --reference "$so" $subject)
  if [ "$vectors$generated" = -- ]; then fixed=$(first "$dir" compare --first --only fixed --reference "$so" $subject); fi
  brute=$(first "$dir" brute --nets 4 --runs 12 --subject "$so")
  rm -rf "$dir"
  if [ "$vectors$generated$fixed" = --- ]; then
    echo "$1: NOT SEEN (brute $brute)"
  else
    echo "$1: vectors $vectors, generated $generated, fixed $fixed, brute $brute"
  fi
}
export -f library first judge
export compare work subject

control() { # the simulator unchanged is not told apart from the library
  mkdir "$work/unchanged"
  cp -r "$here/src" "$work/unchanged/src"
  library "$work/unchanged"
  [ "$(first "$work/unchanged" compare --first --cases 5000 --reference "$work/unchanged/libpti.so" $subject)" = - ] || { echo "mutants: the unchanged simulator differs"; exit 1; }
}

is_wanted() { [ ${#wanted[@]} -eq 0 ] || [[ " ${wanted[*]} " == *" $1 "* ]]; }

spread() { # a folder with the edited source for each mutant that is wanted; their names
  local line name='' file='' old=''
  while IFS= read -r line; do
    case $line in
      'name: '*)
        name=${line#name: }
        if is_wanted "$name"; then mkdir "$work/$name"; cp -r "$here/src" "$work/$name/src"; echo "$name"; else name=''; fi ;;
      'file: '*) file=${line#file: } ;;
      'old: '*) old=${line#old: } ;;
      'new:'*) line=${line#new:}; if [ -n "$name" ]; then edit "$work/$name" "$file" "$old" "${line# }"; fi ;;
    esac
  done < "$here/mutants.txt"
}

control
spread > "$work/names"
xargs -P "${JOBS:-2}" -I{} bash -c 'judge {}' < "$work/names" | tee "$work/judged"
tried=$(wc -l < "$work/judged")
missed=$(grep -cE 'NOT SEEN|DOES NOT COMPILE' "$work/judged" || true)
echo "mutants: $tried tried, $missed not seen"
[ "$missed" -eq 0 ] && [ "$tried" -eq "$(wc -l < "$work/names")" ]
