#!/usr/bin/env bash
# The outputs that rt holds the programs to are the independent simulator's: every stored input is printed by it anew.
# With PTI_COMPARE set, that `compare` is the simulator's; else it is built from tests/compare.
set -euo pipefail
top=$(cd "$(dirname "$0")/.." && pwd)
cd "$top"
if [ -z "${PTI_COMPARE:-}" ]; then
  CARGO_TARGET_DIR=$top/target/compare cargo build --manifest-path tests/compare/Cargo.toml --release --offline --quiet
  PTI_COMPARE=$top/target/compare/release/compare
fi

stored_runs() { # each input's name, and behind it what is printed of it
  while IFS= read -r name; do
    echo "$name"
    "$PTI_COMPARE" print < "crates/stored_runs/data/$name"
  done < crates/stored_runs/args
}

diff <(cd crates/stored_runs/data && LC_ALL=C ls) crates/stored_runs/args
diff <("$PTI_COMPARE" print < crates/run_record/stdin) crates/run_record/stdout
diff <(stored_runs) crates/stored_runs/stdout
echo "tests/stored.sh: $(wc -l < crates/stored_runs/args) stored inputs and the program's own: as the simulator prints them"
