#!/usr/bin/env bash
# The command `pti` as a user meets it: every subcommand, every number of docs/REFUSALS.txt that a command can meet, every misuse,
# files that cannot be read, output that cannot be written, pictures and names. What is due is written out here, stored in
# examples/ and tests/link/expected, where the independent simulator has printed it, or counted from a record's lines. Exits
# non-zero on any failure.
#
#   tests/command.sh             the unit tests of rust/command; then all of it with the command over the simulator, and with
#                                target/bin/pti (made by ./pti); last README.md's commands
#   tests/command.sh COMMAND     with that command alone
#
# With PTI_LIB_DIR set, README.md's commands on the library take the libpti.a of that folder; else that of target/staticlib.
set -euo pipefail
top=$(cd "$(dirname "$0")/.." && pwd)
cd "$top"
work=$(mktemp -d)
trap 'rm -rf "$work"' EXIT
tree=$work/tree
mkdir "$tree"
. tests/lib.sh

unit_tests() {
  CARGO_TARGET_DIR=$top/target/rust RUSTFLAGS='-D warnings' cargo test --quiet --release --offline --manifest-path rust/command/Cargo.toml
}

# The command over the simulator behind the library's interface.
over_simulator() { # FOLDER
  compile_simulator "$1"
  PTI_LIB_DIR=$1 CARGO_TARGET_DIR=$top/target/simulated cargo build --quiet --release --offline --manifest-path rust/command/Cargo.toml
}

# README.md's commands run in a tree like this one, with the command and the library that are tested.
readme() {
  local library=${PTI_LIB_DIR:-$top/target/staticlib}
  mkdir -p "$tree/target/staticlib"
  ln -s "$top"/{docs,examples,include,rust,tests} "$tree/"
  ln -s "$library/libpti.a" "$tree/target/staticlib/"
  ln -s "$top/target/bin/pti" "$tree/pti"
  PTI_LIB_DIR=$library CARGO_TARGET_DIR=$top/target/link tests/readme.sh "$tree"
}

if [ $# -eq 0 ]; then
  [ -x target/bin/pti ] || { echo "tests/command.sh: there is no target/bin/pti; ./pti --version makes it" >&2; exit 2; }
  unit_tests
  over_simulator "$work/simulator"
  tests/command.sh target/simulated/release/pti
  tests/command.sh target/bin/pti
  readme
  exit
fi
pti=$(readlink -f "$1")
[ -x "$pti" ] || { echo "tests/command.sh: there is no command $1" >&2; exit 2; }

# Commands run in a folder of their own that has the examples.
mkdir "$work/bin"
ln -s "$top/examples" "$top/docs" "$tree/"
ln -s "$pti" "$work/bin/pti"
PATH=$work/bin:$PATH
drive=examples/drive cache=examples/cache flush=examples/flush

record() { (cd "$tree" && pti build "$1" "$2" -o "$3"); } # NET LOG RECORD
sentence() { sed -n "s/^$1 [a-z]* *//p" docs/REFUSALS.txt; } # NUMBER
met='' # the numbers that were met

# A command is refused: nothing on standard output, and on standard error the file with the line, the sentence, and below them
# what it is about.
refused() { # NUMBER FILE[:LINE] ABOUT COMMAND...
  runs 1 "${@:4}"
  silent
  if [ -n "$3" ]; then set -- "$1" "$2" "    $3"; else set -- "$1" "$2"; fi
  has "refused with $1 at $2" "$work/err" "$2: refused, $1: $(sentence "$1")" "${@:3}"
  met="$met $1"
}

# ---- each command

commands_accept() {
  runs 0 pti net $drive/net; prints "places 5" "transitions 3"; quiet
  runs 0 pti net $flush/net --list --names $flush/names; quiet
  holds "the places are listed" grep -qx 'place 0 free block: tokens 6' "$work/out"
  holds "the transitions are listed" grep -qx 'transition 1 flush: takes 1 dirty block (4 tokens); makes 0 free block (4 tokens), 2 write on the media (4 tokens)' "$work/out"
  holds "inhibitors are listed" grep -qx 'transition 4 park: takes 5 heads loaded; makes 6 heads parked; inhibited by 1 dirty block' "$work/out"
  runs 0 pti net examples/temperature/net --list
  holds "reads are listed" grep -qx 'transition 1: takes 1; makes 2; reads 3' "$work/out"
  runs 0 pti check $drive/net b.record; prints "events 2" "conditions 4" "independent pairs 0"; quiet
  runs 0 pti check $flush/net $flush/four.record; prints "events 7" "conditions 22" "independent pairs 17"; quiet
  runs 0 pti arrange $drive/net b.record; prints G,0,1; quiet
  runs 0 pti replay $drive/net b.record $drive/b.park_first.arr
  prints 'line  0 1 2 3 4' '   0  1 0 1 0 0' '   1  1 0 0 1 0  G,1' '   2  0 1 0 1 0  G,0'; quiet
  runs 0 pti replay $drive/net b.record $drive/b.park_first.arr --names $drive/names
  prints 'line  0 1 2 3 4' '   0  1 0 1 0 0' '   1  1 0 0 1 0  G,1  park' '   2  0 1 0 1 0  G,0  write' '' \
    'places: 0 clean block, 1 dirty block, 2 heads loaded, 3 heads parked, 4 flushed block'; quiet
  runs 0 pti energy $drive/net a.record examples/energy/new.energy
  prints "usable 196350 µJ" "draw 180000 µJ" "left 16350 µJ"; quiet
  runs 0 pti energy $drive/net a.record examples/energy/aged.energy
  prints "usable 157080 µJ" "draw 180000 µJ" "left -22920 µJ"; quiet
  runs 0 pti line $drive/net 15; prints H,1,2; quiet
  runs 0 pti line $drive/net $drive/c.log 2; prints S,2; quiet
  runs 0 pti line examples/bench/net 15; prints H,1,2; quiet
}

# What the program prints of each example, without its summary; the summary's four numbers are those of the other commands.
stored_output() { # OUT NET LOG
  local number events conditions pairs lines
  if grep -q '^X' "$1"; then
    IFS=, read -r _ number _ < "$1"
    runs 1 pti build "$2" "$3"; silent; mentions "refused, $number: $(sentence "$number")"
    return
  fi
  runs 0 pti build "$2" "$3" -o "$work/record"; silent; quiet
  sed '$d' "$1" > "$work/due"; same "$3 under $2" "$work/due" "$work/record"
  IFS=, read -r _ events conditions pairs lines < <(tail -n 1 "$1")
  runs 0 pti check "$2" "$work/record"; prints "events $events" "conditions $conditions" "independent pairs $pairs"
  runs 0 pti arrange "$2" "$work/record" -o "$work/arr"; silent
  holds "$3: lines of the arrangement" test "$(wc -l < "$work/arr")" -eq "$lines"
  runs 0 pti replay "$2" "$work/record" "$work/arr"
  holds "$3: lines of the replay" test "$(grep -c '^ *[0-9]' "$work/out")" -eq $((lines + 1))
  drawn "$2" "$work/record"
}

# The matrix says of each two events what the order of the tours says; what these do not name is free to swap.
each_table() {
  local name net log
  for name in drive.a drive.b crossed.together temperature.flush temperature.together flush.four flush.warning; do
    net=examples/${name%.*}/net log=examples/${name/.//}.log
    record "$net" "$log" "$work/record"
    runs 0 pti check --table "$net" "$work/record"; quiet
    awk '$2 ~ /^(\\|<|>|≤|≥|=|∥)$/ {
        for (i = 2; i <= NF; i++) {
          if ($i == "<") print $1, "strictly before", i - 2
          if ($i == "≤" || $i == "=") print $1, "not later than", i - 2
          if ($i == "∥") free++ }
      } END { print "free", free / 2 }' "$work/out" > "$work/read"
    { grep -E 'strictly before|not later' "tests/link/expected/$name.out"; sed -n 's/^check: .*independent pairs/free/p' "tests/link/expected/$name.out"; } > "$work/due"
    same "$name as a matrix" "$work/due" "$work/read"
  done
  runs 0 pti check --table $drive/net a.record --names $drive/names
  prints "events 3" "conditions 5" "independent pairs 0" "" '         0 1 2' '0 write  \ < <' '1 flush  > \ <' '2 park   > > \' "" \
    'the event of the row and that of the column:' '∥  free to swap     <  strictly before' '>  strictly after   ≤  not later' '≥  not earlier      =  always in one step'
  runs 0 pti check --table $drive/net e.record; prints "events 0" "conditions 2" "independent pairs 0"
}

# The examples of the help texts print what they say.
each_help() {
  local name command due=''
  runs 0 pti --help; quiet
  holds "a line for each command" test "$(grep -cE '^  (net|build|check|arrange|replay|energy|draw|line) NET' "$work/out")" -eq 8
  for name in net build check arrange replay energy draw line; do
    runs 0 pti "$name" --help; quiet
    holds "usage of $name" grep -q "^usage: pti $name NET" "$work/out"
    holds "an example of $name" grep -q "^  \$ .*pti $name " "$work/out"
    cp "$work/out" "$work/help"
    runs 0 pti help "$name"; same "help $name" "$work/help" "$work/out"
    runs 0 pti "$name" -h; same "$name -h" "$work/help" "$work/out"
    sed -n '/^Example:/,/^$/s/^  \$ //p' "$work/help" > "$work/example.sh"
    sed -n '/^Example:/,/^$/p' "$work/help" | grep '^  [^$]' | sed 's/^  //' > "$work/due" || true
    runs 0 bash "$work/example.sh"; same "the example of $name" "$work/due" "$work/out"; quiet
  done
  runs 0 pti --version; holds "a version" grep -qxE 'pti [0-9]+\.[0-9]+\.[0-9]+' "$work/out"
}

# ---- files and words

inputs() {
  runs 0 sh -c "pti build $drive/net - < $drive/b.log | pti check $drive/net -"; prints "events 2" "conditions 4" "independent pairs 0"; quiet
  runs 0 sh -c "pti build - $drive/b.log < $drive/net"; same "the net from standard input" "$tree/b.record" "$work/out"
  runs 0 sh -c "cat $drive/names | pti replay $drive/net b.record $drive/b.park_first.arr --names -"; mentions_out "dirty block"
  refused 21 "standard input:3" "S, (cut off: no line end)" sh -c "pti build $drive/net - < $drive/cut.log"
  runs 0 pti build --output=o.record $drive/net $drive/b.log; silent; same "--output=" "$tree/b.record" "$tree/o.record"
  runs 0 pti build $drive/net -o - -- $drive/b.log; same "-o - and --" "$tree/b.record" "$work/out"
  cp $drive/net "$tree/-net"
  runs 0 pti net -- -net; prints "places 5" "transitions 3"
  echo kept > "$tree/kept"
  runs 1 pti build $drive/net $drive/c.log -o kept; has "a refused request writes no file" "$tree/kept" kept
  mkdir -p "$tree/a folder"
  cp $drive/c.log "$tree/a folder/"$'c \\n%d$(x) `y`\t.log'
  refused 25 'a folder/c \x5Cn%d$(x) `y`\x09.log:2' S,2 pti build $drive/net "a folder/"$'c \\n%d$(x) `y`\t.log'
  cp $drive/c.log "$tree/"$'\xff.log'
  refused 25 $'\xef\xbf\xbd.log:2' S,2 pti build $drive/net $'\xff.log'
}
mentions_out() { holds "standard output mentions: $1" grep -qF -e "$1" "$work/out"; }

misused() { # MESSAGE COMMAND...
  runs 2 "${@:2}"
  silent
  mentions "$1"
}

misuse() {
  misused "a command is missing" pti
  misused "there is no command chek; did you mean check?" pti chek
  misused "there is no command frobnicate" pti frobnicate
  misused "there is no command" pti ''
  misused "there is no command" pti help chekk
  local name
  for name in net build check arrange replay energy draw line; do
    misused "it takes NET" pti "$name"
    misused "usage: pti $name NET" pti "$name" $drive/net 1 2 3 4
    misused "there is no option --frobnicate" pti "$name" --frobnicate $drive/net
    misused "--names needs a file behind it" pti "$name" --names
    misused "--output needs a file behind it" pti "$name" -o
  done
  misused "there is no option --tabel; did you mean --table?" pti check --tabel $drive/net a.record
  misused "there is no option --table" pti build --table $drive/net $drive/a.log
  misused "--json takes no word" pti net --json=yes $drive/net
  misused "--names stands twice" pti net --names a --names b $drive/net
  misused "--output stands twice" pti net -o a --output=b $drive/net
  misused "standard input can be read only once" pti build - -
  misused "standard input can be read only once" pti build - $drive/a.log --names -
  misused "LINE is a number, not x" pti line $drive/net x
  misused "LINE is a number, not +1" pti line $drive/net +1
  misused "LINE is a number, not 99999999999999999999" pti line $drive/net 99999999999999999999
  misused "it takes NET [SECOND] LINE" pti line $drive/net
}

bad_files() {
  misused "cannot read none: No such file or directory" pti net none
  misused "cannot read none: No such file or directory" pti build $drive/net none
  misused "cannot read examples: Is a directory" pti net examples
  misused "cannot read standard input: Is a directory" sh -c 'pti net - < /'
  truncate -s 1G "$tree/long"
  misused "cannot read long: it is over 16 MiB" timeout 20 pti net long
  misused "cannot read /dev/zero: it is over 16 MiB" timeout 20 pti build $drive/net /dev/zero
  head -c 3000 "$pti" > "$tree/binary"
  runs 1 pti net binary; silent; mentions 'binary:1: refused, 11: malformed line'; mentions '    \x7FELF\x02\x01\x01\x00'
  holds "binary bytes are not printed" test -z "$(tr -d ' -~\n' < "$work/err")"
  printf 'P,\303\251\n' > "$tree/n"; refused 11 n:1 'P,\xC3\xA9' pti net n
  : > "$tree/empty"
  runs 0 pti net empty; prints "places 0" "transitions 0"
  runs 0 pti build empty empty; silent; quiet
  runs 0 pti draw empty empty; quiet
  misused "cannot write none/x: No such file or directory" pti net $drive/net -o none/x
  misused "cannot write examples: Is a directory" pti net $drive/net -o examples
  runs 2 sh -c "pti net $drive/net > /dev/full"; mentions "cannot write standard output: No space left on device"
}

# Whoever reads may stop reading: nothing is said, and nothing fails.
closed_pipes() {
  local name
  for name in "draw $cache/net cache.record" "check --table $cache/net cache.record" "build $cache/net $cache/shifts.log" --help; do
    runs 0 bash -c "set -o pipefail; { sleep 0.1; pti $name; } | true"; silent; quiet
  done
  runs 0 bash -c "set -o pipefail; pti draw $cache/net cache.record | head -n 1"; quiet
}

# ---- refusals

net_refusals() {
  lines P,1 T T,0 > "$tree/n"; refused 11 n:3 T,0 pti net n
  repeat 33 P,0 > "$tree/n"; refused 12 n:33 P,0 pti net n
  sed '$s/.*/H,9,2/' $drive/net > "$tree/n"; refused 13 n:15 H,9,2 pti build n $drive/a.log
  lines P,1 T I,0,0 O,0,0 I,0,0 > "$tree/n"; refused 14 n:5 I,0,0 pti check n a.record
  lines P,1 T P,0 T I,0,0 O,0,1 > "$tree/n"; refused 15 n:4 "transition 1: T" pti arrange n a.record
  echo T,1,park > "$tree/names"
  refused 15 n:4 "transition 1 (park): T" pti net n --names names
  refused 51 examples/temperature/taken.net:15 I,3,1 pti draw examples/temperature/taken.net a.record
  refused 54 $flush/wrong.net:16 I,1,1,40 pti check $flush/wrong.net $flush/four.record
  refused 54 $flush/wrong.net:16 I,1,1,40 pti replay $flush/wrong.net a.record $drive/b.park_first.arr
}

log_refusals() {
  refused 21 $drive/cut.log:3 "S, (cut off: no line end)" pti build $drive/net $drive/cut.log
  refused 21 examples/bench/cut.log:3 'S,2\x0D (cut off: no line end)' pti build examples/bench/net examples/bench/cut.log
  { printf 'S,'; repeat 300 9 | tr -d '\n'; } > "$tree/l"
  refused 21 l:1 "S,$(repeat 198 9 | tr -d '\n') (and so on) (cut off: no line end)" pti build $drive/net l
  lines S,0 S,3 > "$tree/l"; refused 22 l:2 S,3 pti build $drive/net l
  lines P,1 T I,0,0 O,0,0 > "$tree/n"; repeat 129 S,0 > "$tree/l"; refused 23 l:129 S,0 pti build n l
  refused 24 $drive/d.log:1 S,0,0 pti build $drive/net $drive/d.log
  refused 24 $drive/d.log:1 "S,0,0 (write, write)" pti build $drive/net $drive/d.log --names $drive/names
  refused 25 $drive/c.log:2 "S,2 (park)" pti build $drive/net $drive/c.log --names $drive/names
  lines P,512 T I,0,0 O,0,0,2 > "$tree/n"; lines S,0 > "$tree/l"; refused 26 l:1 S,0 pti build n l
  lines P,18 P,0 T I,0,0 O,0,1,16 H,1,0 > "$tree/n"; step 17 0 > "$tree/l"; refused 27 l:1 "$(step 17 0)" pti build n l
}

# The record of case a, with one line changed, put in or left out.
record_refusals() {
  local net=$drive/net
  sed 's/^A,2,2$/A,2/' "$tree/a.record" > "$tree/r"; refused 31 r:9 A,2 pti check $net r
  { cat "$tree/a.record"; echo E,0; } > "$tree/r"; refused 31 r:10 E,0 pti arrange $net r
  repeat 129 E,0 > "$tree/r"; refused 32 r:129 E,0 pti check $net r
  sed 's/^E,2$/E,3/' "$tree/a.record" > "$tree/r"; refused 33 r:3 E,3 pti check $net r
  { cat "$tree/a.record"; echo B,2,2; } > "$tree/r"; refused 34 r:10 B,2,2 pti draw $net r
  { grep '^E' "$tree/a.record"; echo C,1,-,-; grep '^C' "$tree/a.record"; } > "$tree/r"
  refused 35 r "place 1, $drive/net:2: P,0" pti check $net r
  refused 35 r "place 1 (dirty block), $drive/net:2: P,0" pti check $net r --names $drive/names
  refused 36 $flush/three.record:6 "event 5: E,1" pti check $flush/net $flush/three.record
  refused 36 $flush/four.record:6 "event 5: E,1" pti check $flush/single.net $flush/four.record
  refused 36 $flush/three.record:6 "event 5 (flush): E,1" pti check $flush/net $flush/three.record --names $flush/names
  grep -v '^A' "$tree/a.record" > "$tree/r"; refused 37 r:3 "event 2: E,2" pti energy $net r examples/energy/new.energy
  sed 's/^B,2,1$/A,2,1/' "$tree/b.record" > "$tree/r"; refused 38 r:2 "event 1: E,2" pti check $net r
  circle
}

# Two events, each of which would have come after the other: each has emptied the place that inhibits the other.
circle() {
  lines P,1 P,1 P,0 T T I,0,0 O,0,2 H,1,0 I,1,1 O,1,2 H,0,1 > "$tree/n"
  lines E,0 E,1 C,0,-,0 C,1,-,1 C,2,0,- C,2,1,- A,1,0 A,0,1 > "$tree/r"
  refused 39 r:1 "event 0: E,0" pti check n r
}

other_refusals() {
  lines G,1 g,0 > "$tree/x"; refused 41 x:2 g,0 pti replay $drive/net b.record x
  lines G,1 G,2 > "$tree/x"; refused 42 x:2 G,2 pti replay $drive/net b.record x
  lines G,1 G,1 > "$tree/x"; refused 43 x:2 G,1 pti replay $drive/net b.record x
  refused 44 $drive/b.write_first.arr:1 G,0 pti replay $drive/net b.record $drive/b.write_first.arr
  lines G,1 > "$tree/x"; refused 45 x "event 0, b.record:1: E,0" pti replay $drive/net b.record x
  refused 45 x "event 0 (write), b.record:1: E,0" pti replay $drive/net b.record x --names $drive/names
  refused 46 $drive/net "line 16" pti line $drive/net 16
  refused 46 $drive/c.log "line 0" pti line $drive/net $drive/c.log 0
  refused 52 examples/energy/wrong.energy:3 W,4500,24.5 pti energy $drive/net a.record examples/energy/wrong.energy
  refused 53 examples/energy/short.energy "" pti energy $drive/net a.record examples/energy/short.energy
}

# All but the program's own and those of short buffers, which no command lends.
each_number() {
  local number
  for number in $(sed -n 's/^\([0-9]*\) .*/\1/p' docs/REFUSALS.txt); do
    case $number in
      10 | 20 | 30 | 40 | 50) ;;
      *) holds "$number was met" grep -qw "$number" <<< "$met" ;;
    esac
  done
}

# ---- JSON

# The one line of standard output is JSON, and a part of it, named by perl, is this.
says_json() { # PART VALUE
  holds "one line" test "$(wc -l < "$work/out")" -eq 1
  PART=$1 perl -MJSON::PP -CO -e '
    my $v = decode_json(join "", <STDIN>); my $p = eval "\$v->$ENV{PART}"; die $@ if $@;
    print ref $p ? JSON::PP->new->canonical->allow_nonref->encode($p) : defined $p ? $p : "null", "\n"' < "$work/out" > "$work/part" 2>> "$work/err" || true
  has "JSON $1" "$work/part" "$2"
}

# Each member that a help text names is there, and no other; of a refusal too.
each_member() {
  local name
  for name in "net $drive/net" "build $drive/net $drive/a.log" "check $drive/net b.record --table" "arrange $drive/net b.record" \
    "replay $drive/net b.record $drive/b.park_first.arr" "energy $drive/net a.record examples/energy/new.energy" "draw $drive/net a.record" "line $drive/net 1"; do
    # shellcheck disable=SC2086
    runs 0 pti $name --json; members > "$work/members"
    runs 0 pti "${name%% *}" --help
    sed -n '/^JSON:/,/^Of a refusal:/p' "$work/out" | sed '$d; s/^JSON: //; s/with --table//; s/one more than lines//' | named > "$work/due"
    same "members of ${name%% *}" "$work/due" "$work/members"
  done
  runs 1 pti line --json $drive/net 99; members > "$work/members"
  runs 0 pti line --help
  sed -n '/^Of a refusal:/,/;/p' "$work/out" | sed 's/^Of a refusal: //; s/([^)]*)//; s/;.*//' | named > "$work/due"
  same "members of a refusal" "$work/due" "$work/members"
}
members() { perl -MJSON::PP -e 'print join "\n", (sort keys %{decode_json(join "", <STDIN>)}), ""' < "$work/out"; }
# The names outside brackets of all kinds, a line each.
named() { perl -0777 -pe '1 while s/[\[{][^\[\]{}]*[\]}]//; s/: *(true|false)?//g; s/[.;]/,/g; s/\s+//g; s/,+/\n/g' | { grep . || true; } | LC_ALL=C sort; }

json() {
  runs 0 pti net --json $flush/net --names $flush/names; quiet
  says_json '{accepted}' true
  says_json '{places}[0]' '{"name":"free block","place":0,"tokens":6}'
  says_json '{transitions}[1]' '{"inhibited_by":[],"makes":[{"place":0,"weight":4},{"place":2,"weight":4}],"name":"flush","reads":[],"takes":[{"place":1,"weight":4}],"transition":1}'
  runs 0 pti build --json $drive/net $drive/a.log
  says_json '{events}' '[0,1,2]'
  says_json '{conditions}[2]' '{"consumer":1,"place":1,"producer":0}'
  says_json '{conditions}[3]{consumer}' null
  says_json '{marks}' '[{"condition":2,"event":2,"kind":"A"}]'
  runs 0 sh -c "pti build --json $drive/net $drive/a.log | perl -MJSON::PP -0777 -ne 'print decode_json(\$_)->{text}'"
  same "the record in JSON" "$tree/a.record" "$work/out"
  runs 0 pti check --json $drive/net b.record; says_json '{events}' 2; says_json '{conditions}' 4; says_json '{independent_pairs}' 0
  says_json '{order}' null
  runs 0 pti check --json --table $drive/net b.record; says_json '{order}' '[[0,0],[1,0]]'
  runs 0 pti arrange --json $drive/net b.record; says_json '{lines}' '[[0,1]]'; says_json '{text}' $'G,0,1\n'
  runs 0 pti replay --json $drive/net b.record $drive/b.park_first.arr; says_json '{markings}' '[[1,0,1,0,0],[1,0,0,1,0],[0,1,0,1,0]]'
  says_json '{lines}' '[[1],[0]]'
  runs 0 pti energy --json $drive/net a.record examples/energy/aged.energy
  says_json '{usable}' 157080; says_json '{draw}' 180000; says_json '{left}' -22920; says_json '{unit}' µJ
  runs 0 sh -c "pti draw --json $drive/net a.record | perl -MJSON::PP -0777 -CO -ne 'print decode_json(\$_)->{text}'"; cp "$work/out" "$work/picture"
  runs 0 pti draw $drive/net a.record; same "the picture in JSON" "$work/out" "$work/picture"
  runs 0 pti line --json $drive/net $drive/c.log 2; says_json '{start}' 4; says_json '{length}' 3; says_json '{text}' S,2
}

json_refusals() {
  runs 1 pti build --json $drive/net $drive/cut.log; mentions "$drive/cut.log:3: refused, 21"
  says_json '{accepted}' false; says_json '{number}' 21; says_json '{sentence}' "malformed line"; says_json '{spot}' 3
  says_json '{spot_kind}' line; says_json '{file}' $drive/cut.log; says_json '{line}' 3; says_json '{text}' S,; says_json '{cut_off}' true
  runs 1 pti check --json $flush/net $flush/three.record
  says_json '{spot_kind}' event; says_json '{spot}' 5; says_json '{line}' 6; says_json '{text}' E,1; says_json '{cut_off}' false
  runs 1 pti energy --json $drive/net a.record examples/energy/short.energy; says_json '{spot_kind}' whole; says_json '{line}' null; says_json '{text}' null
  runs 1 pti line --json $drive/net 99 -o kept; says_json '{spot_kind}' asked; has "no file of a refusal" "$tree/kept" kept
  printf 'S,\001"\\\377\n' > "$tree/l"
  runs 1 pti build --json $drive/net l; says_json '{text}' 'S,\x01"\x5C\xFF'
}

# ---- pictures and names

# Each event, condition, arc and mark of the record is in the picture once, and nothing else is.
drawn() { # NET RECORD
  runs 0 pti draw "$1" "$2"; quiet
  sed -nE 's/.*<g class="(event|condition)" id="([a-z0-9]+)".*/\2/p; s/.*<path class="(arc|mark [ABR])" data-from="([a-z0-9]+)" data-to="([a-z0-9]+)".*/\1 \2 \3/p' "$work/out" | LC_ALL=C sort > "$work/picture"
  things "$2" | LC_ALL=C sort > "$work/due"
  same "the picture of $2" "$work/due" "$work/picture"
  runs 0 pti draw --dot "$1" "$2"; quiet
  sed -nE 's/^ *([ec][0-9]+) \[.*/\1/p; s/^ *([ec][0-9]+) -> ([ec][0-9]+);/arc \1 \2/p; s/^ *([ec][0-9]+) -> ([ec][0-9]+) \[.*label="([ABR])".*/mark \3 \1 \2/p' "$work/out" | LC_ALL=C sort > "$work/graph"
  same "the graph of $2" "$work/due" "$work/graph"
}

things() { # RECORD: its events and conditions, its arcs and its marks, as a picture has them
  awk -F, '
    BEGIN { e = c = 0 }
    /^E/ { print "e" e++ }
    /^C/ { print "c" c; if ($3 != "-") print "arc e" $3 " c" c; if ($4 != "-") print "arc c" c " e" $4; c++ }
    /^[AR]/ { print "mark " $1 " c" $2 " e" $3 }
    /^B/ { print "mark B e" $3 " c" $2 }' "$1"
}

# Events stand in columns by the lines of the shortest arrangement.
columns() {
  runs 0 pti draw $cache/net cache.record; cp "$work/out" "$work/picture"
  runs 0 pti arrange $cache/net cache.record
  tr -d G < "$work/out" | tr ',' ' ' | while read -r line; do
    for event in $line; do sed -nE "s/.*<g class=\"event\" id=\"e$event\".*data-line=\"([0-9]+)\".*/\1/p" "$work/picture"; done | sort -u | tr '\n' ' '
    echo
  done > "$work/lines"
  seq 1 "$(wc -l < "$work/out")" | sed 's/$/ /' > "$work/due"
  same "the columns of the cache example" "$work/due" "$work/lines"
}

names() {
  runs 0 pti draw $drive/net a.record --names $drive/names; quiet
  holds "a name of a place" grep -q 'dirty block' "$work/out"
  holds "a name of a transition" grep -q 'park' "$work/out"
  runs 0 pti draw --dot $drive/net a.record --names $drive/names; mentions_out "dirty block"
  printf 'P,1,a <b> & "c"\nT,0,"quoted" \\n\n' > "$tree/names"
  runs 0 pti draw $drive/net a.record --names names; mentions_out 'a &lt;b&gt; &amp;'
  holds "no name is markup" test "$(grep -c '<b>' "$work/out")" -eq 0
  runs 0 pti draw --dot $drive/net a.record --names names; mentions_out '\"quoted\" \\n'
  printf 'P,1,one\nQ,1,two\n' > "$tree/names"
  misused "names:2: no line of names: it is not P,number,name or T,number,name" pti net $drive/net --names names
  printf 'P,1,one\nP,1,two\n' > "$tree/names"; misused "names:2: no line of names: place 1 has a name already" pti net $drive/net --names names
  printf 'T,3,one\n' > "$tree/names"; misused "the names have transition 3, which the net does not have" pti net $drive/net --names names
  misused "cannot read none" pti net $drive/net --names none
  local file
  for file in examples/*/names; do runs 0 pti net "${file%/*}/net" --list --names "$file"; holds "$file names all" test "$(grep -cE '^(place|transition) [0-9]+:' "$work/out")" -eq 0; done
}

# The picture that README.md shows is what is drawn now.
picture() {
  record examples/temperature/net examples/temperature/flush.log flush.record
  runs 0 pti draw examples/temperature/net flush.record --names examples/temperature/names
  same "docs/flush.svg" docs/flush.svg "$work/out"
}

for name in a b e; do record $drive/net $drive/$name.log $name.record; done
record $cache/net $cache/shifts.log cache.record
commands_accept
each_stored stored_output
each_table
each_help
inputs
misuse
bad_files
closed_pipes
net_refusals
log_refusals
record_refusals
other_refusals
each_number
each_member
json
json_refusals
columns
names
picture

echo "tests/command.sh $1: $tried tried, $failed failed"
[ "$failed" -eq 0 ]
