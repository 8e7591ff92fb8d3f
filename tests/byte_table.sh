#!/usr/bin/env bash
# The table of bytes that the source keeps is, byte for byte, what the program byte_table prints, in the layout of rt fmt, which the
# gate asks of every source. Exits non-zero on any failure.
#
#   tests/byte_table.sh [PROGRAM]     PROGRAM is crates/byte_table/out/byte_table, which rt proves and builds first, unless named
set -euo pipefail
top=$(cd "$(dirname "$0")/.." && pwd)
kept=crates/byte_classes/src/table.rt
work=$(mktemp -d)
trap 'rm -rf "$work"' EXIT

# The program stands on the rule alone, so that it can be built while the table that is kept is an old one.
renewing() {
  cat << END
What $kept keeps has to be what the program prints, laid out by rt fmt. To renew it, and the output that rt holds the program to:
    (cd crates/byte_table && rt run > stdout) && cp crates/byte_table/stdout $kept && (cd crates/byte_classes && rt fmt)
END
}

if [ $# -eq 0 ]; then
  (cd "$top/crates/byte_table" && rt run < /dev/null) > "$work/log" 2>&1 || { tail -n 20 "$work/log"; renewing; echo "tests/byte_table.sh: rt run in crates/byte_table failed"; exit 1; }
fi
program=${1:-$top/crates/byte_table/out/byte_table}
[ -x "$program" ] || { echo "tests/byte_table.sh: there is no program $program; rt run in crates/byte_table makes it" >&2; exit 2; }
program=$(readlink -f "$program")
. "$top/tests/lib.sh"
cd "$work"

differs() { ! cmp -s "$1" "$2"; }

# The program outside the repository, so that it reads nothing there. One that does not end is a failure too.
printed() {
  timeout 20 "$program" > printed 2> error < /dev/null || true
  holds "nothing on standard error" test ! -s error
  mkdir -p crate/src
  cp printed crate/src/table.rt
  (cd crate && rt fmt > ../layout 2>&1) || cat layout
  mv crate/src/table.rt printed
  holds "$kept is what the program prints" cmp "$top/$kept" printed
}

# What is compared can be found to differ: by a byte that is another, missing or too many.
noticed() {
  local k size
  size=$(wc -c < "$top/$kept")
  for k in 0 $((size / 2)) $((size - 1)); do
    { head -c "$k" "$top/$kept"; printf '#'; tail -c "+$((k + 2))" "$top/$kept"; } > changed
    holds "byte $k changed keeps the length" test "$(wc -c < changed)" -eq "$size"
    holds "byte $k changed is noticed" differs changed printed
  done
  head -c "$((size - 1))" "$top/$kept" > changed
  holds "a byte that is missing is noticed" differs changed printed
  { cat "$top/$kept"; echo; } > changed
  holds "a byte too many is noticed" differs changed printed
}

# Where the text cannot be written, standard error says so.
unwritable() {
  timeout 20 "$program" > /dev/full 2> error || true
  holds "a full device: said so" grep -q '^byte_table: standard output: ' error
}

printed
if [ "$failed" -eq 0 ]; then noticed; else renewing; fi
unwritable
echo "tests/byte_table.sh: $tried tried, $failed failed"
[ "$failed" -eq 0 ]
