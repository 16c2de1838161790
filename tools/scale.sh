#!/usr/bin/env bash
# Compares the static library with the judge's reading in one process, a share of every mode: tools/scale.sh [--seed S] [--minutes M]
# It takes two minutes by default, without the build. It needs a Rust compiler and the Rust's sources (JUDGE_SRC, or docs/src in a
# folder shared/ beside the project), and says so where they are missing. tools/scale/README.md has the modes one by one.
set -uo pipefail
cd "$(dirname "$0")/.." || exit 2
seed=1; minutes=2
while [ $# -gt 0 ]; do
  case $1 in
    --seed) seed=${2:?a number}; shift 2 ;;
    --minutes) minutes=${2:?a number}; shift 2 ;;
    *) echo "usage: tools/scale.sh [--seed S] [--minutes M]"; exit 2 ;;
  esac
done

export JUDGE_SRC=${JUDGE_SRC:-$PWD/../shared/docs/src}
if [ ! -f "$JUDGE_SRC/block.rs" ] || ! command -v cargo >/dev/null; then
  echo "scale: the Rust is not at hand, nothing compared"
  exit 0
fi
[ -f target/staticlib/libtolphaneap.a ] || { echo "scale: no target/staticlib/libtolphaneap.a: run tools/staticlib.sh"; exit 1; }
cargo build --release --offline --quiet --manifest-path tools/scale/Cargo.toml || exit 1
tools/scale/target/release/scale all --seed "$seed" --minutes "$minutes"
