# What the tests from outside share, sourced by them: how a test is made, and how a command is run. They run in the repository,
# and set work, a folder of their own, and tree, where commands are run.
tried=0 failed=0

holds() { # NAME COMMAND...: the command succeeds
  tried=$((tried + 1))
  if "${@:2}"; then return; fi
  failed=$((failed + 1))
  echo "FAILED: $1"
}

# The file has these bytes.
same() { # NAME EXPECTED-FILE FILE
  holds "$1" cmp -s "$2" "$3"
  diff -a "$2" "$3" | head -n 10 | cat -v || true
}

# The file has these lines and no other.
has() { # NAME FILE LINE...
  printf '%s\n' "${@:3}" > "$work/expected"
  same "$1" "$work/expected" "$2"
}

# Runs a command in $tree, and holds its exit status.
runs() { # STATUS COMMAND...
  local status=0
  (cd "$tree" && "${@:2}") > "$work/out" 2> "$work/err" || status=$?
  holds "status $1, not $status: ${*:2}" test "$status" -eq "$1"
}

prints() { has "standard output: $*" "$work/out" "$@"; }
silent() { holds "nothing on standard output" test ! -s "$work/out"; }
quiet() { holds "nothing on standard error" test ! -s "$work/err"; }
mentions() { holds "standard error mentions: $1" grep -qF -e "$1" "$work/err"; }

# ---- copies

# A copy of the repository's crates, all of them or those named: their files, without what rt keeps. Checks in it begin with what
# others on this machine have kept of the same crates, and prove what is new.
copy_crates() { # FOLDER [CRATE...]
  mkdir -p "$1"
  tar -C "$top" -c --anchored --no-wildcards-match-slash --exclude='crates/*/out' crates | tar -x -C "$1"
  if [ $# -eq 1 ]; then cp "$top/crates.txt" "$1/"; return; fi
  local dir=$1 path name
  shift
  for path in "$dir"/crates/*; do
    case " $* " in *" ${path##*/} "*) ;; *) rm -rf "$path" ;; esac
  done
  for name; do grep -E "^$name( [a-z]+)?:" "$top/crates.txt"; done > "$dir/crates.txt"
}

# Checks a crate and all that it needs, in a copy, some crates at a time; how each came out stands at the end of what is printed.
check() { # FOLDER CRATE AT-ONCE
  (cd "$1/crates/$2" && rt all check --jobs "$3")
}

at_once() { echo "${JOBS:-$(nproc)}"; }

# ---- the simulator

# The independent simulator behind the library's interface. Not with panic=abort: some of the Rust crate's tests are panics that
# are due, and its std would take the place of theirs.
compile_simulator() { # FOLDER: where its libpti.a goes
  mkdir -p "$1"
  rustc --edition 2021 -O -A warnings --crate-type staticlib --crate-name pti tests/compare/src/mock.rs -o "$1/libpti.a"
}

# ---- texts

lines() { printf '%s\n' "$@"; }
repeat() { local i; for ((i = 0; i < $1; i++)); do echo "$2"; done; }
step() { printf 'S'; local i; for ((i = 0; i < $1; i++)); do printf ',%d' "$2"; done; echo; } # COUNT TRANSITION

# Calls a function with each output that the examples store, its net and its log: NAME.out is that of NAME.log under net,
# NAME.OTHER.out under OTHER.net.
each_stored() { # FUNCTION
  local out base log net
  for out in examples/*/*.out; do
    base=${out%.out}
    log=${base%%.*}.log net=${out%/*}/net
    case ${base##*/} in *.*) net=${out%/*}/${base##*.}.net ;; esac
    "$1" "$out" "$net" "$log"
  done
}
