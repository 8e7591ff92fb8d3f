#!/usr/bin/env bash
# The library from outside: tests the Rust crate over it (rust/pti), compiles the C and the Rust programs of this folder against
# libpti.a, runs them on examples/, and holds what they print to tests/link/expected and examples/*/*.out. The crate's tests and
# the C tour are also linked with the independent simulator behind the same interface, so that what is written out and stored
# rests on more than the library. Exits non-zero on any failure.
#
# With PTI_LIB_DIR set, the libpti.a of that folder is linked; else ./library proves and builds it first.
set -euo pipefail
top=$(cd "$(dirname "$0")/../.." && pwd)
cd "$top"
work=$(mktemp -d)
trap 'rm -rf "$work"' EXIT

if [ -z "${PTI_LIB_DIR:-}" ]; then
  ./library
  PTI_LIB_DIR=$top/target/staticlib
fi
[ -f "$PTI_LIB_DIR/libpti.a" ] || { echo "tests/link/run.sh: there is no $PTI_LIB_DIR/libpti.a" >&2; exit 2; }
PTI_LIB_DIR=$(cd "$PTI_LIB_DIR" && pwd)
export PTI_LIB_DIR

. tests/lib.sh
fail() { echo "tests/link/run.sh: FAILED: $*"; failed=$((failed + 1)); }

compile_c() { # NAME FOLDER PROGRAM: the C program with the libpti.a of that folder
  gcc -std=c99 -pedantic -Wall -Wextra -Werror -O2 -Iinclude "tests/link/c/$1.c" "$2/libpti.a" -o "$3"
}

compile_rust() {
  CARGO_TARGET_DIR=$top/target/link RUSTFLAGS='-D warnings' \
    cargo build --release --offline --quiet --manifest-path tests/link/rust/Cargo.toml
}

test_crate() { # FOLDER TARGET: the crate's own tests and examples, with the libpti.a of that folder
  PTI_LIB_DIR=$1 CARGO_TARGET_DIR=$2 RUSTFLAGS='-D warnings' \
    cargo test --offline --quiet --manifest-path rust/pti/Cargo.toml > "$work/tested" 2>&1 && return
  cat "$work/tested"
  fail "the tests of rust/pti with $1/libpti.a"
}

document_crate() {
  CARGO_TARGET_DIR=$top/target/link RUSTDOCFLAGS='-D warnings' \
    cargo doc --offline --no-deps --quiet --manifest-path rust/pti/Cargo.toml || fail "the documentation of rust/pti"
}

# expected/NAME.out has what the command prints; the exit status is 1 where that is a refusal.
try() { # NAME COMMAND...
  local expected=tests/link/expected/$1.out status=0 due=0
  shift
  "$@" > "$work/printed" || status=$?
  if grep -q '^refused:' "$expected"; then due=1; fi
  diff "$expected" "$work/printed" || fail "$* printed something else than $expected"
  [ "$status" -eq "$due" ] || fail "$* ended with $status, not $due"
}

each_log() { # PROGRAM
  local log
  for log in drive/{a,b,c,d,e,cut} crossed/{together,after} temperature/{flush,together,warm} flush/{four,three,warning} bench/{a,mixed,cut}; do
    try "${log/\//.}" "$1" "examples/${log%/*}/net" "examples/$log.log"
  done
  try net "$1" "$work/net" examples/drive/a.log
  try temperature.taken "$1" examples/temperature/taken.net examples/temperature/flush.log
  try flush.wrong "$1" examples/flush/wrong.net examples/flush/four.log
}

each_arrangement() { # PROGRAM
  local order
  for order in drive/b.{park,write}_first temperature/flush.reader_{first,late}; do
    try "${order/\//.}" "$1" "examples/${order%/*}/net" "examples/${order%.*}.log" "examples/$order.arr"
  done
  try energy.b.park_first "$1" examples/drive/{net,b.log,b.park_first.arr} --energy examples/energy/new.energy
}

# The drive's log a with each energy text of its net.
each_energy() { # PROGRAM
  local text
  for text in new aged wrong short; do
    try "energy.$text" "$1" examples/drive/net examples/drive/a.log --energy "examples/energy/$text.energy"
  done
}

# What the program's operation prints is stored with the examples.
each_print() { # PROGRAM
  local log
  for log in examples/*/*.log; do
    { cat "${log%/*}/net"; echo '='; cat "$log"; } | "$1" > "$work/printed" || [ $? -eq 1 ] || fail "$1 on $log"
    diff "${log%.log}.out" "$work/printed" || fail "$1 on $log printed something else than ${log%.log}.out"
  done
}

misuse() { # PROGRAM: no words, a file that is not there, no file behind --energy, and one that is not there
  local status=0
  "$1" > "$work/printed" 2>&1 || status=$?
  [ "$status" -eq 2 ] || fail "$1 without words ended with $status, not 2"
  status=0
  "$1" "$work/none" examples/drive/a.log > "$work/printed" 2>&1 || status=$?
  [ "$status" -eq 2 ] || fail "$1 on a file that is not there ended with $status, not 2"
  status=0
  "$1" examples/drive/net --energy examples/energy/new.energy > "$work/printed" 2>&1 || status=$?
  [ "$status" -eq 2 ] || fail "$1 with an energy text and no log ended with $status, not 2"
  status=0
  "$1" examples/drive/net examples/drive/a.log --energy "$work/none" > "$work/printed" 2>&1 || status=$?
  [ "$status" -eq 2 ] || fail "$1 on an energy text that is not there ended with $status, not 2"
}

# A refused net, besides the logs: its last arc names a place that is not declared.
sed '$s/.*/H,9,2/' examples/drive/net > "$work/net"

g++ -std=c++17 -Wall -Wextra -Werror -fsyntax-only -x c++ include/pti.h
compile_rust
compile_simulator "$work/simulator"
compile_c tour "$PTI_LIB_DIR" "$work/tour_c"
compile_c tour "$work/simulator" "$work/tour_simulator"
compile_c print "$PTI_LIB_DIR" "$work/print_c"

test_crate "$work/simulator" "$work/target"
test_crate "$PTI_LIB_DIR" "$top/target/link"
document_crate

for program in "$work/tour_simulator" "$work/tour_c" target/link/release/tour; do
  each_log "$program"
  each_energy "$program"
  misuse "$program"
done
for program in "$work/tour_simulator" "$work/tour_c"; do each_arrangement "$program"; done
each_print "$work/print_c"

# A caller's stack may be small.
try cache.stack bash -c 'ulimit -s 256 && "$1" examples/cache/net examples/cache/shifts.log | tail -n 1' - "$work/tour_c"

[ "$failed" -eq 0 ] || { echo "tests/link/run.sh: $failed failed"; exit 1; }
echo "tests/link/run.sh: all passed"
