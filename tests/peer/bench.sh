#!/usr/bin/env bash
# The library beside the peer in one run: bench.sh [quick] [best] [WORD]..
# With PTI_LIB_DIR set, the libpti.a of that folder is measured; else that of target/staticlib.
set -euo pipefail
top=$(cd "$(dirname "$0")/../.." && pwd)
export PTI_LIB_DIR=${PTI_LIB_DIR:-$top/target/staticlib}
export CARGO_TARGET_DIR=$top/target/peer
cargo run --quiet --offline --release --manifest-path "$top/tests/peer/Cargo.toml" --features lib --bin bench -- "$@"
