#!/usr/bin/env bash
# Makes the kept samples anew: inputs (stdin of the crates show, recall, probe, pages, trips, streams, openings, reviews) and the judge's answers to
# them (stdout beside it), which `rt ci` replays with no Rust at hand. It needs what tools/compare.sh needs.
set -euo pipefail
cd "$(dirname "$0")/.."
export JUDGE_SRC=${JUDGE_SRC:-$PWD/../shared/docs/src}
cargo build --release --offline --quiet --manifest-path tools/judge/Cargo.toml
judge=tools/judge/target/release/judge

# The full listings of a page and of its stream; cases/listing.txt has what else a first line may be.
{ echo full; cat examples/runbook.dj; } >crates/show/stdin
"$judge" listing --file crates/show/stdin >crates/show/stdout
{ echo full; cat crates/store/stdout; } >crates/recall/stdin
"$judge" listing --stream crates/recall/stdin >crates/recall/stdout

for op in L T B M C A R I K; do
  "$judge" gen leaf "$op" --seed 3 --count 400
done >crates/probe/stdin
"$judge" leaf <crates/probe/stdin | sed 's/$/ /' >crates/probe/stdout # the programs end each number with a space

{
  "$judge" gen chosen
  "$judge" gen words --seed 3 --count 3800 --size small
  "$judge" gen words --seed 4 --count 600 --size small --limits any
  "$judge" gen words --seed 5 --count 4 --size small --capacity sweep
} >crates/pages/stdin
"$judge" words <crates/pages/stdin | sed 's/$/ /' >crates/pages/stdout

# Of these `trips` gets the chosen ones that it takes and the first tenth of the others, no sweep (its event words are its own), and a text
# that is a byte too long for it: 32,769 blanks, 2 line words, limits of 32.
{
  "$judge" gen chosen --size trips
  printf '\x01\x80\0\0\x02\0\0\0\0\0\0\0  %32769s' ''
  "$judge" gen words --seed 3 --count 380 --size small
  "$judge" gen words --seed 4 --count 60 --size small --limits any
} >crates/trips/stdin
"$judge" trips <crates/trips/stdin | sed 's/$/ /' >crates/trips/stdout

{
  "$judge" gen records --seed 6 --count 1000
  "$judge" gen damage
} >crates/streams/stdin
"$judge" records <crates/streams/stdin | sed 's/$/ /' >crates/streams/stdout

"$judge" gen sets --seed 7 --count 500 >crates/openings/stdin
"$judge" sets <crates/openings/stdin | sed 's/$/ /' >crates/openings/stdout

"$judge" gen editions --seed 8 --count 65 --size small >crates/reviews/stdin
"$judge" editions <crates/reviews/stdin | sed 's/$/ /' >crates/reviews/stdout
