#!/usr/bin/env bash
# Measures ours beside the Rust, draws docs/benchmarks.svg and prints the tables of docs/BENCHMARKS.md: tools/bench.sh [OPTION ..]
# It needs libtolphaneap.a and libtolphaneap_sets.a in target/staticlib (tools/staticlib.sh), a Rust compiler and the Rust's sources (JUDGE_SRC, or docs/src in
# a folder shared/ beside the project), and Python 3 for the picture. Options: --runs N (7), --copies N (16, of
# the small text in a turn), --only PART (of a name, which for the last two tables is `sets, NAME` and `two editions, NAME`; the picture
# is then left as it is).
set -euo pipefail
cd "$(dirname "$0")/.."
for name in tolphaneap tolphaneap_sets; do
  [ -f target/staticlib/lib$name.a ] || { echo "bench: no target/staticlib/lib$name.a: run tools/staticlib.sh"; exit 1; }
done
export JUDGE_SRC=${JUDGE_SRC:-$PWD/../shared/docs/src}
[ -f "$JUDGE_SRC/block.rs" ] || { echo "bench: the Rust is not at hand: JUDGE_SRC says where block.rs, attr.rs and lex.rs are"; exit 1; }
cargo build --release --offline --quiet --manifest-path tools/bench/Cargo.toml

numbers=$(mktemp)
trap 'rm -f "$numbers"' EXIT
# one core, so that the system does not move the run
one_core=(); command -v taskset >/dev/null && one_core=(taskset -c "${CORE:-0}")
"${one_core[@]}" tools/bench/target/release/bench --csv "$numbers" "$@"
case " $* " in *" --only "*) ;; *) python3 tools/plot.py "$numbers" docs/benchmarks.svg ;; esac
