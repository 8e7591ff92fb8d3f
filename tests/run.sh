#!/usr/bin/env bash
# The tests of the library against an independent simulator. Exits non-zero on any failure. Each stage says what it did and how
# long it took:
#   unit tests    the simulator against written-out cases and literal renderings; the tests against faults put into it
#   c             include/pti.h and the library from C; it needs no other library and has no variables, so calls may overlap
#   comparison    library and simulator on written-out, fixed and generated cases, every lent byte included; on cases of before
#                 each request, with the simulator as it was then; and the library with itself under other line ends, and with
#                 the weight 1 written out
#   brute force   demand 3 on every run of small nets, all arrangements of each
#   byte table    the table that the source keeps is, byte for byte, what its program prints
#   guarded       the comparison again with pages around every lent part that may not be touched, and the stack of each call
#   peer          the unverified program that the library is measured against, held to the same comparison by document 01 with
#                 2026-04, 2026-05 and 2026-06, on texts without the other requests
#
#   tests/run.sh           400,000 generated cases, 200 nets, in about a minute
#   tests/run.sh --long    ten times as many of each, from another seed
#   tests/run.sh --bench   the benchmarks besides
#   tests/run.sh --alone   without the library: unit tests, and the simulator by brute force and on guarded pages
#
# With PTI_LIB_DIR set, the libpti.a of that folder is tested; else ./library proves and builds it first. With PTI_BYTE_TABLE set,
# that program prints the table of bytes. What the tests of the tests see is tried apart from this, by tests/compare/mutants.sh.
set -euo pipefail
top=$(cd "$(dirname "$0")/.." && pwd)
cd "$top"

times=1 seed=1 bench=no alone=no
for word in "$@"; do
  case $word in
    --long) times=10 seed=$(date +%s) ;;
    --bench) bench=yes ;;
    --alone) alone=yes ;;
    *) echo "usage: tests/run.sh [--long] [--bench] [--alone]" >&2; exit 2 ;;
  esac
done

export CARGO_TARGET_DIR=$top/target/compare
compare=$CARGO_TARGET_DIR/release/compare
brute_log=
trap '[ -z "$brute_log" ] || rm -f "$brute_log"' EXIT

if [ "$alone" = yes ]; then
  features=()
else
  features=(--features lib)
  if [ -z "${PTI_LIB_DIR:-}" ]; then
    ./library
    PTI_LIB_DIR=$top/target/staticlib
  fi
  export PTI_LIB_DIR
  [ -f "$PTI_LIB_DIR/libpti.a" ] || { echo "tests/run.sh: there is no $PTI_LIB_DIR/libpti.a" >&2; exit 2; }
fi

stage() { # NAME COMMAND...
  local name=$1 from=$SECONDS
  shift
  echo "== $name"
  "$@"
  echo "-- $name: $((SECONDS - from)) s"
}

package() { cargo "$@" --manifest-path tests/compare/Cargo.toml ${features[@]+"${features[@]}"} --offline --quiet; }

from_c() {
  local needs others data
  needs=$(nm -u "$PTI_LIB_DIR/libpti.a" | sed -n 's/^ *U //p' | sort -u)
  others=$(grep -vxE 'mem(cpy|set|move|cmp)' <<< "$needs" || true)
  data=$(nm "$PTI_LIB_DIR/libpti.a" | grep -cE ' [bBcCdD] ' || true)
  echo "c: the library needs" $needs "and has $data variables"
  if [ -n "$others" ] || [ "$data" -ne 0 ]; then return 1; fi
  cc -std=c99 -Wall -Wextra -Wpedantic -Werror -O1 -Iinclude tests/c/drive.c "$PTI_LIB_DIR/libpti.a" -o "$CARGO_TARGET_DIR/drive"
  "$CARGO_TARGET_DIR/drive"
}

# A call that does not end is a failure too.
limited() { timeout $((600 * times)) "$compare" "$@" --seed "$seed"; }
brute() { limited brute --nets $((200 * times)) --runs $((400 * times)); }
compared() { limited compare --cases $((400000 * times)); }
peer() { limited compare --peer --cases $((100000 * times)); }
guarded() { limited guarded --cases $((20000 * times)); }

timed() {
  package build --profile timed
  "$CARGO_TARGET_DIR/timed/compare" bench
  tests/peer/bench.sh
}

stage "unit tests" package test --release
stage "build" package build --release
if [ "$alone" = yes ]; then
  stage "brute force" brute
  stage "guarded" guarded
else
  stage "byte table" tests/byte_table.sh ${PTI_BYTE_TABLE:+"$PTI_BYTE_TABLE"}
  # The brute force takes the second processor meanwhile.
  brute_log=$(mktemp)
  stage "brute force" brute > "$brute_log" 2>&1 &
  brute=$!
  stage "c" from_c
  stage "comparison" compared
  stage "peer" peer
  stage "guarded" guarded
  wait "$brute" || { cat "$brute_log"; echo "tests/run.sh: the brute force failed"; exit 1; }
  cat "$brute_log"
fi
if [ "$bench" = yes ]; then stage "benchmarks" timed; fi
echo "tests/run.sh: all passed in $SECONDS s (seed $seed)"
