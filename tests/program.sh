#!/usr/bin/env bash
# The program run_record and the script `record`, as a user meets them. What the program prints is held to the independent
# simulator (`compare print`), to the outputs stored in examples/ and to bytes that document 01 prints. Exits non-zero on any
# failure.
#
#   tests/program.sh [PROGRAM]     PROGRAM is crates/run_record/out/run_record (made by rt ci, or by `rt run` there) unless named
#
# With PTI_COMPARE set, that `compare` is the simulator's; else it is built from tests/compare.
set -euo pipefail
top=$(cd "$(dirname "$0")/.." && pwd)
program=${1:-$top/crates/run_record/out/run_record}
[ -x "$program" ] || { echo "tests/program.sh: there is no program $program; rt ci makes it, or rt run in crates/run_record" >&2; exit 2; }
program=$(readlink -f "$program")
cd "$top"

if [ -z "${PTI_COMPARE:-}" ]; then
  CARGO_TARGET_DIR=$top/target/compare cargo build --manifest-path tests/compare/Cargo.toml --release --offline --quiet
  PTI_COMPARE=$top/target/compare/release/compare
fi
printf '=\n' | "$PTI_COMPARE" print > /dev/null || { echo "tests/program.sh: $PTI_COMPARE has no subcommand print" >&2; exit 2; }

work=$(mktemp -d)
trap 'rm -rf "$work"' EXIT
input=$work/input
. tests/lib.sh

# ---- how a test is made

# The program on $input, held to the simulator. A program that does not end is a failure too.
agrees() { # NAME
  timeout 20 "$program" < "$input" > "$work/printed" || true
  "$PTI_COMPARE" print < "$input" > "$work/simulated"
  same "$1: the simulator" "$work/simulated" "$work/printed"
}

# The same, and the last line printed is this one; that of a refusal stands alone.
gives() { # NAME LINE
  agrees "$1"
  case $2 in
    X*) has "$1" "$work/printed" "$2" ;;
    *) tail -n 1 "$work/printed" > "$work/last"; has "$1" "$work/last" "$2" ;;
  esac
}

whole() { cat "$1"; echo '='; cat "$2"; } # NET LOG
returned() { sed 's/$/\r/'; } # byte 13 before the byte 10 of every line
size() { wc -c < "$1"; }

# ---- the examples

stored_output() { # OUT NET LOG
  whole "$2" "$3" > "$input"
  agrees "$3 under $2"
  same "$1" "$1" "$work/printed"
  whole "$2" "$3" | tr -d '\r' | returned > "$input"
  agrees "$3 under $2 with 13 10"
  same "$1 with 13 10" "$1" "$work/printed"
}

each_example() {
  local log
  each_stored stored_output
  for log in examples/*/*.log; do holds "$log has an output" test -f "${log%.log}.out"; done
}

# The lines that document 01 prints for its cases a to e; the events of case b are no independent pair since 2026-04.
cases() {
  has "case a" examples/drive/a.out E,0 E,1 E,2 C,0,-,0 C,2,-,2 C,1,0,1 C,4,1,- C,3,2,- A,2,2 Z,3,5,0,3
  has "case b" examples/drive/b.out E,0 E,2 C,0,-,0 C,2,-,1 C,1,0,- C,3,1,- B,2,1 Z,2,4,0,1
  has "case c" examples/drive/c.out X,25,2
  has "case d" examples/drive/d.out X,24,1
  has "case e" examples/drive/e.out C,0,-,- C,2,-,- Z,0,2,0,0
}

# An input that ends at any byte, as a log does on a drive that loses power.
each_cut() { # NET LOG [FILTER]
  local k
  whole "$1" "$2" | "${3:-cat}" > "$work/full"
  for ((k = 0; k <= $(size "$work/full"); k++)); do
    head -c "$k" "$work/full" > "$input"
    agrees "$2 ${3:-} cut at byte $k"
  done
}

each_byte() { # every byte in a log line, and alone in one
  local b
  for ((b = 0; b < 256; b++)); do
    { cat examples/drive/net; printf '=\nS,0\nS,1%b\n' "\\x$(printf %02x "$b")"; } > "$input"
    agrees "byte $b behind a number"
    { cat examples/drive/net; printf '=\nS,0\n%b' "\\x$(printf %02x "$b")"; } > "$input"
    agrees "byte $b at the end"
  done
}

# ---- the limits, from both sides

net_limits() {
  lines P,512 = > "$input"; gives "512 tokens" Z,0,512,0,0
  lines P,513 = > "$input"; gives "513 tokens" X,12,1
  { repeat 31 P,16; lines P,16 =; } > "$input"; gives "512 tokens in 32 places" Z,0,512,0,0
  { repeat 31 P,16; lines P,17 =; } > "$input"; gives "513 tokens in 32 places" X,12,32
  { repeat 32 P,0; echo '='; } > "$input"; gives "32 places" Z,0,0,0,0
  { repeat 33 P,0; echo '='; } > "$input"; gives "33 places" X,12,33
  { lines P,0; repeat 32 T; for t in {0..31}; do lines "I,0,$t" "O,$t,0"; done; echo '='; } > "$input"; gives "32 transitions" Z,0,0,0,0
  { lines P,0; repeat 33 T; echo '='; } > "$input"; gives "33 transitions" X,12,34
}

loop() { lines P,1 T I,0,0 O,0,0 =; } # a transition that can always occur again
pour() { lines "P,$1" P,0 T I,0,0 O,0,1 =; } # one that can occur as often as there are tokens
lamp() { lines P,99 P,0 P,1 P,1 P,0 T T I,0,0 O,0,1 H,1,0 R,2,0 I,3,1 O,1,4 R,2,1 =; } # its own output inhibits one, and both read
fill() { lines P,64 P,0 P,33 P,0 P,0 T T I,0,0 O,0,1 H,3,0 H,4,0 I,2,1 O,1,3 O,1,4 =; } # one that fills what inhibits another

run_limits() {
  { loop; repeat 128 S,0; } > "$input"; gives "128 events in turn" Z,128,129,0,128
  { loop; repeat 129 S,0; } > "$input"; gives "129 events in turn" X,23,129
  { pour 128; step 128 0; } > "$input"; gives "128 events in one step" Z,128,256,8128,1
  { pour 129; step 129 0; } > "$input"; gives "129 events in one step" X,23,1
  { pour 384; step 128 0; } > "$input"; gives "512 conditions" Z,128,512,8128,1
  { pour 385; repeat 128 S,0; } > "$input"; gives "513 conditions" X,26,128
  { fill; step 64 0; step 32 1; } > "$input"; gives "4,096 marks" Z,96,225,2512,1
  holds "4,096 marks are printed" test "$(grep -c '^B,' "$work/printed")" -eq 4096
  { fill; step 64 0; step 32 1; step 1 1; } > "$input"; gives "one mark too many" X,27,3
  { lamp; step 64 0; } > "$input"; gives "4,096 marks with 64 readers" Z,64,165,0,1
  holds "64 R marks are printed" test "$(grep -c '^R,' "$work/printed")" -eq 64
  { lamp; step 64 0; step 1 1; } > "$input"; gives "one R mark too many" X,27,2
}

# A token that is read and not taken.
readers() {
  has "a token read" examples/temperature/flush.out E,0 E,0 E,1 E,2 E,3 E,1 C,0,-,0 C,0,-,1 C,3,-,3 C,1,0,2 C,1,1,5 C,2,2,- C,4,3,4 C,3,4,- C,2,5,- R,2,2 R,7,5 Z,6,9,4,4
  has "a token read by two" examples/temperature/together.out E,0 E,0 E,1 E,1 E,2 C,0,-,0 C,0,-,1 C,3,-,4 C,1,0,2 C,1,1,3 C,2,2,- C,2,3,- C,4,4,- R,2,2 R,2,3 Z,5,8,4,2
  has "no token to read" examples/temperature/warm.out X,24,3
  has "read and consumed" examples/temperature/flush.taken.out X,51,15
  lines P,1 P,1 T I,0,0 O,0,0 R,1,0 = S,0 S,0 > "$input"; gives "a token read again and again" Z,2,4,0,2
  lines P,1 P,1 T I,0,0 O,0,0 R,0,0 = S,0 > "$input"; gives "R behind I" X,51,6
  lines P,1 P,1 T R,0,0 O,0,0 I,0,0 = S,0 > "$input"; gives "I behind R" X,51,6
  lines P,1 P,1 T I,0,0 O,0,0 R,1,0 R,1,0 = S,0 > "$input"; gives "R again" X,14,7
  lines P,1 P,1 T I,0,0 O,0,0 R,1,0 H,1,0 = S,0 > "$input"; gives "R and H at one place" X,25,1
  lines P,1 P,0 T I,0,0 O,0,0 R,1,0 = S,0 > "$input"; gives "R at an empty place" X,24,1
}

# Arcs with weights.
weights() {
  tail -n 1 examples/flush/four.out > "$work/last"; has "four flushed together" "$work/last" Z,7,22,17,2
  has "three dirty blocks" examples/flush/three.out X,24,2
  has "a weight of 40" examples/flush/four.wrong.out X,54,16
  tail -n 1 examples/flush/three.single.out > "$work/last"; has "a weight that got lost" "$work/last" Z,4,19,5,2
  lines P,2 T I,0,0,2 O,0,0,3 = S,0 S,0 > "$input"; gives "two become three" Z,2,8,0,2
  lines P,2 T I,0,0,2 O,0,0,3 = S,0,0 > "$input"; gives "two tokens for four" X,24,1
  lines P,1 T I,0,0,1 O,0,0,1 = S,0 > "$input"; gives "weights of 1" Z,1,2,0,1
  lines P,1 T I,0,0,16 O,0,0,16 = > "$input"; gives "weights of 16" Z,0,1,0,0
  lines P,1 T I,0,0,17 O,0,0 = > "$input"; gives "a weight of 17" X,54,3
  lines P,1 T I,0,0,0 O,0,0 = > "$input"; gives "a weight of 0" X,54,3
  lines P,1 T I,0,0,017 O,0,0 = > "$input"; gives "a weight with a needless zero" X,11,3
  lines P,1 T I,9,0,17 O,0,0 = > "$input"; gives "a weight of 17 at an undeclared place" X,13,3
  lines P,1 T I,0,0 I,0,0,17 O,0,0 = > "$input"; gives "I again with a weight of 17" X,54,4
  lines P,1 T I,0,0 I,0,0,2 O,0,0 = > "$input"; gives "I again with a weight" X,14,4
  lines P,1 T R,0,0 I,0,0,2 O,0,0 = > "$input"; gives "a weighted I behind R" X,51,4
  lines P,1 T I,0,0 O,0,0 H,0,0,1 = > "$input"; gives "a weight of H" X,11,5
  lines P,1 T I,0,0 O,0,0 R,0,0,1 = > "$input"; gives "a weight of R" X,11,5
}

# One that fills a place by 16, one that the same place inhibits, and one that fills all 32.
full_sixteen() { lines "P,$1" P,0 T I,0,0 O,0,1,16 =; }
own_sixteen() { lines P,18 P,0 T T I,0,0 O,0,1,16 H,1,0 I,0,1 O,1,1,16 =; }
flood() { local p; lines P,512; repeat 31 P,0; lines T I,0,0; for p in {0..31}; do lines "O,0,$p,16"; done; lines =; }

weight_limits() {
  { full_sixteen 496; lines S,0; } > "$input"; gives "512 conditions by a weight" Z,1,512,0,1
  { full_sixteen 497; lines S,0; } > "$input"; gives "513 conditions by a weight" X,26,1
  { own_sixteen; step 16 0 | tr -d '\n'; lines ,1; } > "$input"; gives "4,096 marks by weights" Z,17,290,0,1
  { own_sixteen; step 17 0; } > "$input"; gives "4,352 marks by weights" X,27,1
  { flood; step 128 0; } > "$input"; gives "65,536 made in a step" X,26,1
  { flood; step 129 0; } > "$input"; gives "129 events that would" X,23,1
}

input_limits() {
  { repeat 16383 P,0; lines T =; } > "$input"; gives "65,536 bytes, the last of them the line =" X,12,33
  holds "65,536 bytes" test "$(size "$input")" -eq 65536
  { repeat 16383 P,0; lines TT =; } > "$input"; gives "65,537 bytes" X,10,0
  { cat examples/drive/net; echo '='; repeat 40000 S,0; } > "$work/long"
  head -c 65536 "$work/long" > "$input"; gives "a log up to byte 65,536" X,24,2
  head -c 65537 "$work/long" > "$input"; gives "a log up to byte 65,537" X,10,0
  cp "$work/long" "$input"; gives "a longer log" X,10,0
  { yes S,0 || true; } | timeout 20 "$program" > "$work/printed"
  has "input without an end" "$work/printed" X,10,0
}

partings() {
  : > "$input"; gives "empty input" X,10,0
  cat examples/drive/net > "$input"; gives "no line =" X,10,0
  printf '=' > "$input"; gives "a line = without its end" X,10,0
  printf '==\n= \n =\n' > "$input"; gives "lines like =" X,10,0
  printf '=\n' > "$input"; gives "an empty net and an empty log" Z,0,0,0,0
  printf '=\n=\n' > "$input"; gives "a second line =" X,21,1
  printf 'P,1=\n=\n' > "$input"; gives "= behind a field" X,11,1
  printf 'P,1\nP,0\nT\nI,0,0\n=\n' > "$input"; gives "a transition without output" X,15,0
}

# ---- lines that end in 13 and 10

# Byte 13 before a line end belongs to it; anywhere else the line is malformed.
returns() {
  printf '=\r\n' > "$input"; gives "= 13 10" Z,0,0,0,0
  printf '=\r\r\n' > "$input"; gives "= 13 13 10" X,10,0
  printf '=\r' > "$input"; gives "= 13 without 10" X,10,0
  printf '\r=\r\n' > "$input"; gives "13 = 13 10" X,10,0
  printf '=\r\n=\r\n' > "$input"; gives "= 13 10 again" X,21,1
  printf '\r\n=\n' > "$input"; gives "an empty line 13 10" X,11,1
  printf '=\n\r\n' > "$input"; gives "10 13 10" X,21,1
  printf 'P,1\r\nP,0\nT\r\nI,0,0\nO,0,1\r\n=\nS,0\r\n' > "$input"; gives "both endings" Z,1,2,0,1
  printf 'P,1\r\nT\r\n=\r\n' > "$input"; gives "a transition without arcs" X,15,0
  { loop | returned; printf 'S,0\r\nS,0\r'; } > "$input"; gives "cut between 13 and 10" X,21,2
  { loop; printf 'S,0\nS,0\r\r\n'; } > "$input"; gives "13 13 10" X,21,2
  { loop; printf 'S,0\nS\r,0\n'; } > "$input"; gives "13 inside a line" X,21,2
  { repeat 13106 P,0 | returned; echo '='; } > "$input"; gives "65,532 bytes with 13 10" X,12,33
  { repeat 13107 P,0 | returned; echo '='; } > "$input"; gives "65,537 bytes with 13 10" X,10,0
}

each_return() { # byte 13 at every place of an input
  local k
  { loop | returned; lines S,0 S,0; } > "$work/full"
  for ((k = 0; k <= $(size "$work/full"); k++)); do
    { head -c "$k" "$work/full"; printf '\r'; tail -c "+$((k + 1))" "$work/full"; } > "$input"
    agrees "byte 13 put in at byte $k"
  done
}

# ---- reading and writing

# Where standard input cannot be read nothing is printed, standard error says why, and the exit status is 1.
unreadable() {
  local printed status=0
  printed=$(timeout 20 "$program" < / 2> "$work/error") || status=$?
  holds "a directory: nothing printed" test -z "$printed"
  holds "a directory: said so" grep -q '^run_record: standard input: ' "$work/error"
  holds "a directory: status 1" test "$status" -eq 1
  status=0
  printed=$(timeout 20 "$program" <&- 2> "$work/error") || status=$?
  holds "standard input closed: nothing printed" test -z "$printed"
  holds "standard input closed: said so" grep -q '^run_record: standard input: ' "$work/error"
  holds "standard input closed: status 1" test "$status" -eq 1
}

unwritable() {
  local status=0
  whole examples/drive/net examples/drive/a.log > "$input"
  timeout 20 "$program" < "$input" > /dev/full 2> "$work/error" || status=$?
  holds "a full device: said so" grep -q '^run_record: standard output: ' "$work/error"
  holds "a full device: status 1" test "$status" -eq 1
  status=0
  timeout 20 "$program" < "$input" 2> "$work/error" >&- || status=$?
  holds "standard output closed: said so" grep -q '^run_record: standard output: ' "$work/error"
  holds "standard output closed: status 1" test "$status" -eq 1
  status=0
  # A pipe that nobody reads: its writer is not ended by a signal, and says so.
  { sleep 0.2; timeout 20 "$program" < "$input" 2> "$work/error" || status=$?; echo "$status" > "$work/status"; } | true
  holds "a closed pipe: said so" grep -q '^run_record: standard output: ' "$work/error"
  holds "a closed pipe: status 1" grep -qx 1 "$work/status"
  (trap '' PIPE; { sleep 0.2; timeout 20 "$program" < "$input" 2> "$work/error"; } | true) || true
  holds "a closed pipe, signal ignored: said so" grep -q '^run_record: standard output: ' "$work/error"
}

# An input that arrives byte by byte.
slowly() {
  local k
  whole examples/drive/net examples/drive/b.log > "$input"
  for ((k = 1; k <= $(size "$input"); k++)); do
    tail -c "+$k" "$input" | head -c 1
    sleep 0.005
  done | timeout 60 "$program" > "$work/printed"
  same "single bytes with pauses" examples/drive/b.out "$work/printed"
}

# A read and a write that move few bytes at a time, and that a signal interrupts now and then.
moved_in_parts() {
  cat > "$work/parts.c" <<'EOF'
#define _GNU_SOURCE
#include <errno.h>
#include <sys/syscall.h>
#include <unistd.h>
static unsigned long turn;
static ssize_t part(long call, int fd, const void *bytes, size_t n)
{
    size_t most = ++turn % 5 + 1;
    if (turn % 3 == 0) { errno = EINTR; return -1; }
    return syscall(call, fd, bytes, n < most ? n : most);
}
ssize_t read(int fd, void *bytes, size_t n) { return part(SYS_read, fd, bytes, n); }
ssize_t write(int fd, const void *bytes, size_t n) { return part(SYS_write, fd, bytes, n); }
EOF
  gcc -shared -fPIC -O1 "$work/parts.c" -o "$work/parts.so"
  local name
  for name in drive/a drive/c cache/shifts temperature/flush; do
    whole "examples/${name%/*}/net" "examples/$name.log" > "$input"
    LD_PRELOAD=$work/parts.so timeout 60 "$program" < "$input" > "$work/printed"
    same "$name in parts" "examples/$name.out" "$work/printed"
  done
}

# No theorem bounds the stack.
small_stack() {
  { fill; step 64 0; step 32 1; } > "$input"
  (ulimit -s 512 && timeout 20 "$program" < "$input" | tail -n 1) > "$work/last" || true
  has "a stack of 512 kB" "$work/last" Z,96,225,2512,1
}

# ---- the script `record`

tree=$work/tree

# A tree like this one, with the program that is tested.
make_tree() { # DIR
  mkdir -p "$1/crates/run_record/out"
  cp record setup.sh crates.txt "$1/"
  ln -s "$top/docs" "$top/examples" "$1/"
  cp "$program" "$1/crates/run_record/out/run_record"
  touch "$1/crates/run_record/out/run_record"
}

says() { has "standard error: $*" "$work/err" "${@/#/record: }"; }

malformed="refused, 21: malformed line"
inhibited="refused, 25: inhibited: a place that inhibits one of the step's events is not empty before the step"

script_answers() {
  runs 0 ./record examples/drive/net examples/drive/a.log; same "the program's bytes" examples/drive/a.out "$work/out"; quiet
  whole examples/drive/net examples/drive/c.log > "$input"
  runs 1 ./record examples/drive/net examples/drive/c.log
  prints X,25,2; says "$inhibited" "line 2 of the log (examples/drive/c.log): S,2"
  runs 1 ./record "$input"; prints X,25,2; says "$inhibited" "line 2 of the log (line 18 of $input): S,2"
  runs 1 ./record < "$input"; prints X,25,2; says "$inhibited" "line 2 of the log (line 18 of standard input): S,2"
  runs 1 ./record examples/drive/net - < examples/drive/cut.log
  prints X,21,3; says "$malformed" "line 3 of the log (standard input): S, (cut off: no line end)"
  runs 1 ./record examples/temperature/net examples/temperature/warm.log; prints X,24,3
  says "refused, 24: too few tokens: a place has fewer than the step's events take from it, by weight, or none where one of them reads it" \
    "line 3 of the log (examples/temperature/warm.log): S,1"
  runs 1 ./record examples/temperature/taken.net examples/temperature/flush.log; prints X,51,15
  says "refused, 51: read and consumed: one place is both read and consumed by one transition" \
    "line 15 of the net (examples/temperature/taken.net): I,3,1"
  runs 1 ./record <<< ''; prints X,10,0
  says 'refused, 10: the input is over 65,536 bytes or has no line `=`' 'it has no line `=`'
  repeat 20000 P,0 > "$work/long"
  runs 1 ./record "$work/long" examples/drive/a.log; prints X,10,0; mentions "it is over 65,536 bytes"
  { lines P,1 =; repeat 20000 S,0; } > "$work/long"
  runs 1 ./record "$work/long"; prints X,10,0; mentions "it is over 65,536 bytes"
}

script_nets() {
  lines P,1 T T,0 > "$work/net"
  runs 1 ./record "$work/net" examples/drive/a.log; prints X,11,3
  says "refused, 11: malformed line" "line 3 of the net ($work/net): T,0"
  lines P,1 T P,0 T I,0,0 O,0,1 > "$work/net"
  runs 1 ./record "$work/net" examples/drive/a.log; prints X,15,1
  says "refused, 15: the transition lacks an input or an output" "transition 1, line 4 of the net ($work/net)"
  printf 'P,1\nT' > "$work/net"
  runs 2 ./record "$work/net" examples/drive/a.log; silent; mentions "is cut off"
  runs 2 ./record "$input" examples/drive/a.log; silent; mentions 'has a line `=`'
}

script_names() {
  mkdir -p "$tree/a folder"
  cp examples/drive/net "$tree/a folder/the net"
  cp examples/drive/c.log "$tree/a folder/c \\n%d\$(x) \`y\`.log"
  runs 1 ./record "a folder/the net" "a folder/c \\n%d\$(x) \`y\`.log"
  prints X,25,2; mentions "(a folder/c \\n%d\$(x) \`y\`.log): S,2"
  cp examples/drive/net "$tree/-net"
  runs 0 ./record ./-net examples/drive/a.log; quiet
  ln -s "$tree/record" "$work/link"
  runs 0 sh -c "cd / && '$tree/record' '$top/examples/drive/net' '$top/examples/drive/a.log'"
  same "from another folder" examples/drive/a.out "$work/out"
  runs 0 sh -c "cd / && '$work/link' '$top/examples/drive/net' '$top/examples/drive/a.log'"
  same "through a link" examples/drive/a.out "$work/out"
  runs 1 bash --posix ./record examples/drive/net examples/drive/c.log; prints X,25,2; says "$inhibited" "line 2 of the log (examples/drive/c.log): S,2"
}

script_bytes() {
  printf 'S,0\nS,\000\377\r\\ x\nS,1\n' > "$work/log"
  runs 1 ./record examples/drive/net "$work/log"; prints X,21,2
  says "$malformed" "line 2 of the log ($work/log): S,\\x00\\xFF\\x0D\\x5C x"
  printf 'S,0\r\r\n' > "$work/log"
  runs 1 ./record examples/drive/net "$work/log"; prints X,21,1; says "$malformed" "line 1 of the log ($work/log): S,0\\x0D"
  { printf 'S,'; repeat 300 9; } | tr -d '\n' > "$work/log"
  runs 1 ./record examples/drive/net "$work/log"; prints X,21,1; mentions "999 (and so on) (cut off: no line end)"
}

# The script finds lines whichever their ending, and shows one without it.
script_returns() {
  runs 0 ./record examples/bench/net examples/bench/a.log; same "13 10 in both files" examples/drive/a.out "$work/out"; quiet
  runs 0 ./record examples/bench/net examples/drive/a.log; same "13 10 in the net" examples/drive/a.out "$work/out"; quiet
  runs 0 ./record examples/drive/net examples/bench/a.log; same "13 10 in the log" examples/drive/a.out "$work/out"; quiet
  runs 1 ./record examples/bench/net examples/bench/mixed.log; prints X,25,2
  says "$inhibited" "line 2 of the log (examples/bench/mixed.log): S,2"
  runs 1 ./record examples/bench/net examples/bench/cut.log; prints X,21,3
  says "$malformed" "line 3 of the log (examples/bench/cut.log): S,2\\x0D (cut off: no line end)"
  { cat examples/bench/net; printf '=\r\n'; cat examples/bench/mixed.log; printf '=\n'; } > "$work/whole"
  runs 1 ./record "$work/whole"; prints X,25,2; says "$inhibited" "line 2 of the log (line 18 of $work/whole): S,2"
  runs 2 ./record "$work/whole" examples/drive/a.log; silent; mentions 'has a line `=`'
  printf 'S,0\nS,9\r,\r\n' > "$work/log"
  runs 1 ./record examples/bench/net "$work/log"; prints X,21,2; says "$malformed" "line 2 of the log ($work/log): S,9\\x0D,"
  printf '\r\n' > "$work/log"
  runs 1 ./record examples/bench/net "$work/log"; prints X,21,1; says "$malformed" "line 1 of the log ($work/log): "
  printf '\r' > "$work/log"
  runs 1 ./record examples/bench/net "$work/log"; prints X,21,1; says "$malformed" "line 1 of the log ($work/log): \\x0D (cut off: no line end)"
  script_returned_nets
}

script_returned_nets() {
  printf 'P,1\r\nT\nP,0\r\nT\r\nI,0,0\r\nO,0,1\r\nT\n' > "$work/net"
  runs 1 ./record "$work/net" examples/bench/a.log; prints X,15,1
  says "refused, 15: the transition lacks an input or an output" "transition 1, line 4 of the net ($work/net)"
  printf 'P,1\r\nT\r\nT,0\r\n' > "$work/net"
  runs 1 ./record "$work/net" examples/bench/a.log; prints X,11,3; says "refused, 11: malformed line" "line 3 of the net ($work/net): T,0"
  printf 'P,1\r\nT\r' > "$work/net"
  runs 2 ./record "$work/net" examples/bench/a.log; silent; mentions "is cut off"
}

# Of a long line 200 bytes are shown, and its ending is none of them.
script_long_lines() {
  nines() { printf 'S,'; repeat "$1" 9 | tr -d '\n'; }
  { nines 198; printf '\r\n'; } > "$work/log"
  runs 1 ./record examples/bench/net "$work/log"; prints X,21,1; says "$malformed" "line 1 of the log ($work/log): $(nines 198)"
  { nines 199; printf '\r\n'; } > "$work/log"
  runs 1 ./record examples/bench/net "$work/log"; prints X,21,1; says "$malformed" "line 1 of the log ($work/log): $(nines 198) (and so on)"
}

script_misuse() {
  runs 0 ./record -h; holds "usage" grep -q '^usage: ' "$work/out"; quiet
  runs 0 ./record --help; holds "usage" grep -q '^usage: ' "$work/out"; quiet
  runs 2 ./record --no-such-word; silent; mentions "usage: "
  runs 2 ./record examples/drive/net examples/drive/a.log more; silent; mentions "usage: "
  runs 2 ./record - -; silent; mentions "usage: "
  runs 2 ./record no-such-file; silent; mentions "cannot read no-such-file"
  runs 2 ./record examples/drive/net no-such-file; silent; mentions "cannot read no-such-file"
  runs 2 ./record examples; silent; mentions "cannot read examples"
  runs 2 ./record < /; silent; mentions "cannot read standard input"
  runs 2 sh -c './record <&-'; silent; mentions "cannot read standard input"
  runs 2 sh -c './record examples/drive/net examples/drive/a.log > /dev/full'; mentions "cannot write the output"
  runs 0 sh -c './record examples/drive/net examples/drive/a.log | head -n 1'; prints E,0
  mkdir "$work/tmp"
  TMPDIR=$work/tmp runs 1 ./record "$input"
  holds "nothing is left behind" test -z "$(ls "$work/tmp")"
}

# A stand-in for rt, which makes the program and notes each call. Where it fails there is a program too, as where rt refuses what
# a program prints; it is none to be used.
stand_in_rt() { # EXIT-STATUS
  mkdir -p "$work/rt"
  cat > "$work/rt/rt" <<EOF
#!/bin/sh
echo "\$*" >> "$work/rt/calls"
echo "what rt says"
cat > /dev/null
mkdir -p out && cp "$program" out/run_record
exit $1
EOF
  chmod +x "$work/rt/rt"
  : > "$work/rt/calls"
}

calls() { holds "rt was called $1 times" test "$(wc -l < "$work/rt/calls")" -eq "$1"; }

script_builds() {
  local tool PATH=$work/rt:$PATH
  rm -r "$tree/crates/run_record/out"
  stand_in_rt 1
  runs 2 ./record examples/drive/net examples/drive/a.log; silent; mentions "which proves and builds the program, failed"; calls 1
  stand_in_rt 0
  whole examples/drive/net examples/drive/a.log > "$input"
  JOBS=3 runs 0 ./record < "$input"; same "after building" examples/drive/a.out "$work/out"; mentions "proving and building"; mentions "record: proved: "; calls 2
  has "what rt was asked" "$work/rt/calls" "all check --jobs 3" run
  has "what rt said" "$tree/target/record.log" "what rt says" "what rt says"
  runs 0 ./record < "$input"; quiet; calls 2
  touch "$tree/crates/changed"
  runs 0 ./record < "$input"; mentions "proving and building"; calls 4
  runs 0 ./record < "$input"; quiet; calls 4
  mkdir "$work/tools"
  for tool in sh dirname readlink find head mktemp rm; do ln -s "$(command -v "$tool")" "$work/tools/"; done
  rm -r "$tree/crates/run_record/out"
  PATH=$work/tools runs 2 ./record < "$input"; silent; mentions "not on the PATH"
}

# Every number of documents 01 and 02 has its line in the table that the script reads.
table() {
  local number
  for number in 10 {11..15} {20..27} {30..39} {40..45} 46 {50..54}; do
    holds "docs/REFUSALS.txt has $number once" test "$(grep -cE "^$number (none|net|log|record|arrangement|energy|transition|place|event|asked) +[^ ]" docs/REFUSALS.txt)" -eq 1
  done
  holds "docs/REFUSALS.txt has no other" test "$(grep -cE '^[^#]' docs/REFUSALS.txt)" -eq 36
}

each_example
cases
each_cut examples/drive/net examples/drive/a.log
each_cut examples/cache/net examples/cache/shifts.log
each_cut examples/temperature/net examples/temperature/flush.log
each_cut examples/flush/net examples/flush/four.log
each_cut examples/drive/net examples/drive/a.log returned
each_byte
net_limits
run_limits
readers
weights
weight_limits
input_limits
partings
returns
each_return
unreadable
unwritable
slowly
moved_in_parts
small_stack
make_tree "$tree"
script_answers
script_nets
script_names
script_bytes
script_returns
script_long_lines
script_misuse
script_builds
table

echo "tests/program.sh: $tried tried, $failed failed"
[ "$failed" -eq 0 ]
