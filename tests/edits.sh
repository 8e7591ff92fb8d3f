#!/usr/bin/env bash
# The must-fail edits that the gate leaves out for time: those of crates/*/more-edits, tried as rt ci tries the others, on a copy of
# the crates. The prover must refuse each.
#
#   tests/edits.sh [CRATE...]     all of them, or those of the crates named
#   tests/edits.sh --fit          only whether each still fits: each old text stands once, with those before it replaced
set -euo pipefail
top=$(cd "$(dirname "$0")/.." && pwd)

fit() {
  cd "$top/crates"
  perl -e '
    my $misfits = 0;
    for my $edit (@ARGV) {
      my ($crate, $file, %text) = $edit =~ m{^(.*)/more-edits/};
      open my $lines, "<", $edit or die "$edit: $!\n";
      while (my $line = <$lines>) {
        if ($line =~ /^file: (.*)/) {
          $file = $1;
          $text{$file} //= do { local $/; open my $in, "<", "$crate/$file" or die "$edit: $crate/$file: $!\n"; <$in> };
        } elsif ($line =~ /^old: (.*)/) {
          my $old = $1;
          my ($new) = <$lines> =~ /^new: ?(.*)/ or die "$edit: no new text\n";
          my $times = () = $text{$file} =~ /\Q$old\E/g;
          $text{$file} =~ s/\Q$old\E/$new/;
          if ($times != 1) { print "$edit: an old text stands $times times in $file\n"; $misfits++ }
        }
      }
    }
    printf "tests/edits.sh: %d edits, %d of them do not fit\n", scalar @ARGV, $misfits;
    exit($misfits ? 1 : 0)' */more-edits/*.edit
}

if [ "${1:-}" = --fit ]; then fit; exit; fi

work=$(mktemp -d)
trap 'rm -rf "$work"' EXIT
. "$top/tests/lib.sh"
copy_crates "$work"
rm -rf "$work"/crates/*/must-fail

names=("$@")
if [ "${#names[@]}" -eq 0 ]; then
  for folder in "$work"/crates/*/more-edits; do names+=("$(basename "$(dirname "$folder")")"); done
fi
for name in "${names[@]}"; do
  [ -d "$work/crates/$name/more-edits" ] || { echo "tests/edits.sh: $name has no such edits" >&2; exit 2; }
  mv "$work/crates/$name/more-edits" "$work/crates/$name/must-fail"
done
cd "$work"
# rt must-fail alone would check one crate after the other before it tries their edits
rt all check --jobs "$(at_once)" > "$work/log" 2>&1 || { tail -n 20 "$work/log"; echo "tests/edits.sh: the unchanged copy is not proved"; exit 1; }
rt must-fail "${names[@]}"
