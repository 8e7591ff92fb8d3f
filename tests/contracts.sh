#!/usr/bin/env bash
# Weaker contracts that the demands must refuse. In a copy each exported function that the demands call promises only `r ≡ r`, so
# that it is proved whatever it does, and hands on another text than it was asked about. pti must still be proved, and of the
# crate demands each function that calls one of them must not be. What checks on this machine have proved need not be proved again.
set -euo pipefail
top=$(cd "$(dirname "$0")/.." && pwd)
work=$(mktemp -d)
trap 'rm -rf "$work"' EXIT
. "$top/tests/lib.sh"
copy_crates "$work"
rm -rf "$work"/crates/*/must-fail
log=$work/log

check "$work" demands "$(at_once)" > "$log" 2>&1 || { echo "contracts: the unchanged copy is not proved"; tail -n 20 "$log"; exit 1; }

weaken() { # FUNCTION CALL WRONG: pti_FUNCTION promises nothing, and makes the wrong call
  rm -rf "$work/crates/pti/proofs/pti_$1"
  NAME=$1 CALL=$2 WRONG=$3 perl -0pi -e '
    my ($n, $c, $w) = @ENV{qw(NAME CALL WRONG)};
    s/(fn pti_\Q$n\E\([^{]*?ensures )\{.*?\}\n\{\n/$1\{ result ≡ result }\n{\n/s or die "no contract of pti_$n\n";
    s/(fn pti_\Q$n\E\(.*?\n\{[^}]*?)\b\Q$c\E/$1$w/s or die "no call in pti_$n\n"' "$work/crates/pti/src/lib.rt"
}
weaken read_net 'net_answer(net)' 'net_answer(b"")'
weaken build 'build(net, log, out)' 'build(log, net, out)'
weaken check 'check(net, text, table)' 'check(text, net, table)'
weaken replay 'replay(net, text, arrangement, rows)' 'replay(net, arrangement, text, rows)'
weaken arrange 'arrange(net, text, out)' 'arrange(text, net, out)'
weaken program 'program(input, out)' 'program(b"", out)'
weaken energy 'energy(net, text, figures)' 'energy(net, figures, text)'

check "$work" demands "$(at_once)" > "$log" 2>&1 && { echo "contracts: NOT REFUSED"; exit 1; }
grep -qx 'pti: ok' "$log" || { echo "contracts: the weaker contracts are not proved"; tail -n 20 "$log"; exit 1; }
# refused by the prover, and not stopped for another reason
grep -qx 'demands: failed (1)' "$log" || { echo "contracts: the demands were not tried"; tail -n 20 "$log"; exit 1; }
for name in net_read log_built record_checked arrangement_replayed record_arranged order_of_runs run_recorded pairs_counted pairs_printed energy_right; do
  grep -qE "^fn demands::$name: (not proved|no proof)" "$log" || { echo "contracts: demands::$name is NOT REFUSED"; exit 1; }
  echo "contracts: with a weaker one demands::$name is refused, as it must be"
done
