#!/usr/bin/env bash
# The set-up of the command pti, as the scripts `pti` and `library` do it: what it proves and builds, when, and what it says of that;
# and that the command then gets what the script was given. Stand-ins for rt and cargo note their calls, so that nothing is proved here.
# Exits non-zero on any failure.
set -euo pipefail
# A signal that is ignored around this would be ignored in the scripts that it tries, where ^C and others must be heard.
[ "${1:-}" = --heard ] || exec env --default-signal "$0" --heard
cd "$(dirname "$0")/.."
work=$(mktemp -d)
trap 'rm -rf "$work"' EXIT
tree="$work/a tree"
. tests/lib.sh

# ---- a small tree, and the stand-ins

make_tree() {
  local name
  mkdir -p "$tree/rust/command" "$tree/docs" "$work/tmp"
  cp pti library setup.sh "$tree/"
  cp rust/command/Cargo.toml "$tree/rust/command/"
  cp docs/REFUSALS.txt "$tree/docs/"
  printf '%s\n' '# what: this is' spec: 'one: spec' 'two: spec json' 'three: one two # both' 'four: three' 'other: pti' 'pti: four' 'pti_c staticlib: pti spec' > "$tree/crates.txt"
  for name in spec one two three four other pti pti_c; do
    mkdir -p "$tree/crates/$name/src"
    echo "$name" > "$tree/crates/$name/src/lib.rt"
  done
}

# The folder bin has the stand-ins. What the file `mode` names happens in them.
make_tools() {
  mkdir "$work/bin"
  printf '#!/bin/sh\nwork=%q\n' "$work" | tee "$work/bin/rt" "$work/bin/cargo" "$work/bin/rustc" "$work/bin/cc" > "$work/command"
  cat >> "$work/bin/rt" <<'EOT'
echo "rt $* in ${PWD##*/}" >> "$work/calls"
cat > /dev/null
mode=$(cat "$work/mode")
hang() { sleep 30 & echo "$$ $!" > "$work/pids"; mktemp > /dev/null; wait; }
all="spec one two three four pti pti_c"
case $1-$mode in
  *-hang) hang ;;
  all-refused)
    printf '%s\n' "== spec" "== one" "src/lib.rt:3:5: error: not so" "fn one::it: no proof: \`search\` did not prove" logic=not-proved
    printf '%s\n' "== summary" "spec: ok" "one: failed (1)" "two: not run, since one failed" "1 of 7 crates ok"
    exit 1 ;;
  all-slow) for name in $all; do sleep 0.5; printf '%s\n' "== $name" "fn $name::it: proved" "logic=proved functions=1"; done ;;
  all-brief) sleep 0.7 ;;
  all-*) for name in $all; do echo "== $name"; done ;;
  lib-cut) mkdir -p out; echo cut > out/libpti_c.a; exit 2 ;;
  lib-*) mkdir -p out; echo whole > out/libpti_c.a ;;
esac
EOT
  cat >> "$work/bin/cargo" <<'EOT'
echo cargo >> "$work/calls"
cat > /dev/null
[ "$(cat "$work/mode")" != broken ] || { echo "error: expected a semicolon"; exit 101; }
mkdir -p "$CARGO_TARGET_DIR/release" && cp "$work/command" "$CARGO_TARGET_DIR/release/pti"
EOT
  echo 'echo rustc 1.99.0' >> "$work/bin/rustc"
  cat >> "$work/command" <<'EOT'
case ${1:-} in
  status) exit 7 ;;
  signal) kill -TERM $$ ;;
  where) pwd; exit ;;
  ready) trap 'echo ended; exit 9' TERM; echo ready; while :; do sleep 0.1; done ;;
esac
printf '[%s]\n' "$@"
cat
EOT
  chmod +x "$work/bin"/* "$work/command"
}

mode() { echo "$1" > "$work/mode"; : > "$work/calls"; }
called() { # WORD...: rt and cargo were called so, and no more often
  sed 's/^\(rt [a-z]*\) .*/\1/; s/^rt //' "$work/calls" > "$work/words"
  if [ $# -eq 0 ]; then holds "nothing was called" test ! -s "$work/words"; else has "called: $*" "$work/words" "$@"; fi
}
left_behind() { holds "nothing is left in the folder of temporary files" test -z "$(ls -A "$work/tmp")"; }
afresh() { rm -rf "$tree/target" "$tree"/crates/*/out; mode "$1"; }

# ---- when it proves and builds

first_use() {
  afresh plain
  printf 'a\0b\nno end' > "$work/input"
  runs 0 ./pti word < "$work/input"
  { echo '[word]'; cat "$work/input"; } > "$work/wanted"
  same "the command's output, and standard input" "$work/wanted" "$work/out"
  mentions "pti: proving and building the command"; mentions "pti: proved: 7 crates"; mentions "$tree/target/setup.log"
  called all lib cargo
  holds "the crates that it needs, and no other" grep -qxE 'rt all check --jobs [1-9][0-9]* in pti_c' "$work/calls"
  holds "the library of that crate" grep -qx 'rt lib in pti_c' "$work/calls"
  has "the library" "$tree/target/staticlib/libpti.a" whole
  holds "what rt said" grep -qx '== four' "$tree/target/setup.log"
  mode plain
  runs 0 ./pti word < "$work/input"; same "the same again" "$work/wanted" "$work/out"; quiet; called
  left_behind
}

changes() {
  local file
  for file in crates/one/src/lib.rt crates/two/src/new.rt crates.txt; do
    mode plain; touch "$tree/$file"
    runs 0 ./pti < /dev/null; mentions proving; called all lib cargo
  done
  mode plain; rm "$tree/crates/two/src/new.rt"
  runs 0 ./pti < /dev/null; called all lib cargo
  for file in rust/command/main.rs rust/command/Cargo.toml docs/REFUSALS.txt; do
    mode plain; touch "$tree/$file"
    runs 0 ./pti < /dev/null; mentions "building the command"; called cargo
  done
  mode plain; touch "$tree/README.md" "$tree/crates/pti_c/out/libpti_c.a" "$tree/crates/pti_c/out" "$tree/crates/pti_c"
  runs 0 ./pti < /dev/null; quiet; called
}

# The script `library` makes the library alone, and the command is then built over it.
library_alone() {
  afresh plain
  runs 0 ./library; silent; mentions "library: proving and building the library"; mentions "library: proved: 7 crates"; called all lib
  has "the library" "$tree/target/staticlib/libpti.a" whole
  mode plain
  runs 0 ./library; silent; quiet; called
  runs 0 ./pti < /dev/null; called cargo
  mode cut; touch "$tree/crates/one/src/lib.rt"
  runs 2 ./library; silent; called all lib; mentions "$tree/target/library.log"
  mode plain
  runs 0 ./library; called all lib
  left_behind
}

# In a pipe both are started at once.
two_at_once() {
  afresh brief
  runs 0 sh -c './pti first < /dev/null | ./pti second'; prints '[second]' '[first]'; called all lib cargo
  mentions "waiting for another set-up"
}

# ---- what goes wrong

failures() {
  afresh refused
  runs 2 ./pti word; silent; mentions "$tree/target/setup.log"; mentions "lib.rt:3:5: error: not so"; mentions "one: failed (1)"; called all
  mode cut
  runs 2 ./pti word; silent; mentions "$tree/target/setup.log"; called all lib
  mode broken
  runs 2 ./pti word; silent; mentions "cargo build failed: see $tree/target/setup.log"; mentions "expected a semicolon"; called all lib cargo
  mode plain
  runs 0 ./pti < /dev/null; called cargo
  mode broken; touch "$tree/rust"
  runs 2 ./pti word; silent; called cargo
  mode plain
  runs 0 ./pti < /dev/null; called cargo
  left_behind
}

# A PATH with what the scripts call, and of the tools that set-up needs those that are named.
with_tools() { # TOOL...
  local tool
  rm -rf "$work/some"
  mkdir "$work/some"
  for tool in sh dirname readlink find head sed; do ln -s "$(command -v "$tool")" "$work/some/"; done
  for tool; do ln -s "$work/bin/$tool" "$work/some/"; done
}

missing_tools() {
  local tool
  afresh plain
  for tool in rt cargo rustc cc; do
    # shellcheck disable=SC2046
    with_tools $(printf '%s\n' rt cargo rustc cc | grep -vx "$tool")
    PATH=$work/some runs 2 ./pti word; silent; called
    holds "$tool alone is named" test "$(grep -o '^pti: [a-z]* is not on the PATH' "$work/err")" = "pti: $tool is not on the PATH"
  done
  with_tools
  PATH=$work/some runs 2 ./pti word; silent; called
  holds "all are named" test "$(grep -c 'is not on the PATH: .*[a-z]' "$work/err")" -eq 4
  mentions "the Rattle kit"; mentions https://rustup.rs; mentions "package cargo"; mentions "package gcc"
  holds "nothing was begun" test ! -e "$tree/target"
  for tool in 'echo rustc 1.63.0' 'exit 1'; do
    with_tools rt cargo cc
    printf '#!/bin/sh\n%s\n' "$tool" > "$work/some/rustc"; chmod +x "$work/some/rustc"
    PATH=$work/some runs 2 ./pti word; silent; called; mentions "https://rustup.rs"
  done
}

# What is there is used without them.
without_tools() {
  afresh plain
  runs 0 ./pti < /dev/null
  with_tools; ln -s "$(command -v cat)" "$work/some/"
  PATH=$work/some runs 0 ./pti word < /dev/null; prints '[word]'; quiet
}

# ---- how far it is

progress() {
  afresh slow
  runs 0 ./pti < /dev/null
  grep -o 'pr[a-z]*: [0-9].*crates' "$work/err" > "$work/lines"
  holds "lines on the way" grep -qxE 'proving: [1-5] of 7 crates' "$work/lines"
  holds "no line twice" test -z "$(sort "$work/lines" | uniq -d)"
  holds "the last line" test "$(tail -n 1 "$work/lines")" = "proved: 7 crates"
  holds "no byte 13" test "$(grep -c $'\r' "$work/err")" -eq 0
  afresh slow
  # On a terminal of its own, which `script` makes.
  runs 0 script -qec './pti < /dev/null' /dev/null < /dev/null
  holds "one line, written again" grep -qE $'\rpti: proving: [1-5] of 7 crates *\rpti: proving: [2-6] of 7 crates' "$work/out"
}

# About how long is left, of given crates: $1 is the time that took, and the others are parts in it.
time_left() {
  (me=pti top=$tree began=0 spent=0 spent_at=0 now=$1; . ./setup.sh; guess "$2" "$3"; now=$((now + $4)); guess "$2" "$3"; echo "${remaining#, }")
}

estimates() {
  holds "too early" test -z "$(time_left 100 50 1000 0)"
  holds "too soon" test -z "$(time_left 4 500 500 0)"
  holds "half" test "$(time_left 120 500 500 0)" = "about 2 minutes left"
  holds "half, and a while later" test "$(time_left 120 500 500 60)" = "about a minute left"
  holds "nearly all" test "$(time_left 300 900 100 0)" = "less than a minute left"
  holds "later than was said" test "$(time_left 300 900 100 999)" = "less than a minute left"
  printf '%s\n' 'only=0 proved=0' '== spec' 'fn spec::it: proved' 'logic=proved functions=1' '== one' 'rt: one: begins with what a check kept in /a/folder' '== other' 'logic=proved functions=1' '== one' 'logic=proved functions=1' \
    '== two' 'fn two::it: no proof' 'logic=not-proved' '== summary' 'pti: not run, since two failed' > "$work/log"
  (me=pti top=$tree; . ./setup.sh; planned=$(printf '%s\n' 'spec 30' 'one 20' 'two 7' 'pti 5'); counted "$work/log") > "$work/out"
  prints '2 4 30 12'
}

# ---- ^C, and other ends

running() { grep -q '^State:[[:space:]]*[^ZX[:space:]]' "/proc/$1/status" 2> /dev/null; }

all_gone() {
  local i id
  for ((i = 0; i < 20; i++)); do
    for id in $(cat "$work/pids"); do running "$id" && { sleep 0.1; continue 2; }; done
    return 0
  done
  return 1
}

await() { local i; for ((i = 0; i < 50; i++)); do [ -s "$1" ] && return; sleep 0.1; done; return 1; } # FILE

interrupted() { # SIGNAL STATUS
  local status=0 id
  afresh hang
  rm -f "$work/pids"
  (cd "$tree" && exec env --default-signal=INT ./pti) < /dev/null > "$work/out" 2> "$work/err" & id=$!
  holds "rt is under way" await "$work/pids"
  kill -s "$1" "$id"
  { wait "$id" || status=$?; } 2> /dev/null # bash says how it ended
  holds "$1: status $2, not $status" test "$status" -eq "$2"
  silent; mentions "interrupted"; left_behind
  holds "$1 ends what rt has started" all_gone
  mode plain
  runs 0 ./pti < /dev/null; called all lib cargo
}

on_terminal() {
  afresh hang
  rm -f "$work/pids"
  { await "$work/pids"; printf '\003'; sleep 0.5; } | (cd "$tree" && script -qec ./pti /dev/null) > "$work/out" 2>&1 || true
  holds "^C ends what rt has started" all_gone
  holds "^C is said" grep -q interrupted "$work/out"
  left_behind
}

# Nobody reads on: then it ends too.
unread() {
  afresh slow
  runs 0 sh -c './pti 2>&1 < /dev/null | head -n 1'; holds "the first line" grep -q '^pti: proving' "$work/out"
  called all
  left_behind
}

# ---- what the command gets

passes_on() {
  local status=0 id
  afresh plain
  runs 0 ./pti 'a b' '*' '' $'x\ny' -n '\n' '$x' < /dev/null
  prints '[a b]' '[*]' '[]' '[x' 'y]' '[-n]' '[\n]' '[$x]'
  runs 0 ./pti < /dev/null; prints '[]'
  runs 7 ./pti status; silent; quiet
  runs 143 sh -c './pti signal; exit $?'
  runs 1 sh -c './pti word <&-' ; holds "no standard input" grep -qx '\[word\]' "$work/out"
  ln -sf "$tree/pti" "$work/link"
  runs 0 sh -c 'cd / && "$1" where' sh "$work/link"; prints /
  runs 0 sh -c 'cd .. && "./a tree/pti" where'; prints "$(cd "$work" && pwd -P)"
  afresh plain
  runs 0 sh -c 'cd / && "$1" where' sh "$work/link"; prints /; called all lib cargo
  "$tree/pti" ready > "$work/said" & id=$!
  holds "the command is under way" await "$work/said"
  kill -TERM "$id"
  wait "$id" || status=$?
  holds "the command gets the signal: status 9, not $status" test "$status" -eq 9
  has "what the command said" "$work/said" ready ended
}

make_tree
make_tools
export PATH=$work/bin:$PATH TMPDIR=$work/tmp
first_use
changes
library_alone
two_at_once
failures
missing_tools
without_tools
progress
estimates
interrupted INT 130
interrupted TERM 143
interrupted HUP 129
on_terminal
unread
passes_on

echo "tests/setup.sh: $tried tried, $failed failed"
[ "$failed" -eq 0 ]
