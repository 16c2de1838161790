#!/usr/bin/env bash
# Compares the built programs with the Rust, and for records with the judge's own reading of the rules, on generated inputs:
# tools/compare.sh [--seed S] [--count N] [OP ..]
# It needs a Rust compiler and the Rust's sources (JUDGE_SRC, or docs/src in a folder shared/ beside the project), and says in
# a line that begins `left out: ` where they are missing. OP: L T B M C A R I K for `probe`, as tools/judge/README.md has them; for `pages` W, whole texts,
# V, the same with any limits, and S, a hundredth of them with every room for events from none on; for `trips` P, a tenth of
# them through records and the full listing; for `streams` D, a tenth of them as records, good and damaged; for `openings` O, sets of attributes, with the
# chosen ones first; for `reviews` E, a tenth of them as pairs of editions, likewise; for `show`, `store` and `recall` F, the judge's own texts as files that begin
# with the line `full`, and without it.
set -uo pipefail
cd "$(dirname "$0")/.." || exit 2
seed=1; count=100000; ops=()
while [ $# -gt 0 ]; do
  case $1 in
    --seed) seed=$2; shift 2 ;;
    --count) count=$2; shift 2 ;;
    *) ops+=("$1"); shift ;;
  esac
done
[ ${#ops[@]} -gt 0 ] || ops=(L T B M C A R I K W V S P D O E F)

export JUDGE_SRC=${JUDGE_SRC:-$PWD/../shared/docs/src}
left_out() { echo "left out: the comparison with the Rust ($1)"; exit 0; }
command -v cargo >/dev/null || left_out "no cargo"
[ -f "$JUDGE_SRC/block.rs" ] || left_out "no Rust sources: JUDGE_SRC is to name their folder"
for program in probe pages trips streams openings reviews show store recall; do
  [ -x crates/$program/out/$program ] || { echo "compare: no program $program: run rt ci, or rt run in crates/$program"; exit 1; }
done
cargo build --release --offline --quiet --manifest-path tools/judge/Cargo.toml || exit 1
judge=tools/judge/target/release/judge
"$judge" cases >/dev/null || { echo "compare: the judge fails its own cases"; exit 1; }

work=$(mktemp -d) || exit 2
trap 'rm -rf "$work"' EXIT

# What a program prints of a file, beside what the judge makes of it.
held() {
  "$judge" listing "$1" "$work/file" >"$work/want" || exit 1
  crates/$2/out/$2 <"$work/file" >"$work/got" || exit 1
  cmp -s "$work/want" "$work/got" && return
  echo "compare: $2 differs from the judge on the file:"
  od -An -c "$work/file" | head -n 4
  exit 1
}

# The judge's texts, each listed by `show`, stored, and listed by `recall`: in full, and short.
files() {
  local files=0 text line
  while IFS= read -r text; do
    printf '%b' "$text" >"$work/text"
    crates/store/out/store <"$work/text" >"$work/stream" || exit 1
    for line in 'full\n' ''; do
      { printf "$line"; cat "$work/text"; } >"$work/file"
      held --file show
      { printf "$line"; cat "$work/stream"; } >"$work/file"
      held --stream recall
      files=$((files + 2))
    done
  done <tools/judge/texts.txt
  echo "compare: F equals the judge on $files files"
}

for op in "${ops[@]}"; do
  program=pages; answers=words
  [ "$op" = F ] && { files; continue; }
  case $op in
    W) made=(words --count "$count" --size pages) ;;
    V) made=(words --count "$count" --size pages --limits any) ;;
    S) made=(words --count $((count / 100)) --size pages --capacity sweep) ;;
    P) made=(words --count $((count / 10)) --size pages); program=trips; answers=trips ;;
    D) made=(records --count $((count / 10))); program=streams; answers=records ;;
    O) made=(sets --count "$count"); program=openings; answers=sets ;;
    E) made=(editions --count $((count / 10))); program=reviews; answers=editions ;;
    *) made=(leaf "$op" --count "$count"); program=probe; answers=leaf ;;
  esac
  "$judge" gen "${made[@]}" --seed "$seed" >"$work/frames" || exit 1
  "$judge" $answers <"$work/frames" >"$work/want" || exit 1
  crates/$program/out/$program <"$work/frames" | sed 's/ $//' >"$work/got" || exit 1
  if ! cmp -s "$work/want" "$work/got"; then
    echo "compare: $op differs from the judge, seed $seed, first at:"
    diff "$work/want" "$work/got" | head -n 4
    exit 1
  fi
  echo "compare: $op equals the judge on $(wc -l <"$work/want") inputs, seed $seed"
done
