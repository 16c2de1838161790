#!/usr/bin/env bash
# Fuzzes the static library with libFuzzer for some minutes: tools/fuzz/run.sh [MINUTES]
# The library is the archive as it is, so no compiler counts what is reached in it: breakpoints do (reached.c), each once, and what was answered.
# Found inputs stay in target/fuzz/corpus for the next run; one that fails is left in target/fuzz as crash-..
set -uo pipefail
cd "$(dirname "$0")/../.." || exit 2
minutes=${1:-2}
archive=target/staticlib/libtolphaneap.a
command -v clang >/dev/null || { echo "fuzz: clang is not at hand, nothing run"; exit 0; }
[ -f $archive ] || { echo "fuzz: no $archive: run tools/staticlib.sh"; exit 1; }
corpus=target/fuzz/corpus
mkdir -p $corpus || exit 2
clang -std=gnu11 -Wall -Wextra -O2 -g -fsanitize=fuzzer,address,undefined -fno-sanitize-recover=undefined -Iinclude tools/fuzz/driver.c \
  tools/fuzz/reached.c $archive -o target/fuzz/driver || exit 1

# Where the library's instructions stand in the driver, counted from tolphaneap_parse.
nm $archive 2>/dev/null | awk '$2 ~ /^[tT]$/ { print $3 }' >target/fuzz/functions
objdump -d --no-show-raw-insn target/fuzz/driver | awk '
  NR == FNR { ours["<" $0 ">:"] = 1; next }
  /^[0-9a-f]+ </ { name = $0; sub(/^[0-9a-f]+ /, "", name); on = name in ours; if (name == "<tolphaneap_parse>:") print "base", $1 }
  on && /^ *[0-9a-f]+:\t/ { sub(/:.*/, "", $1); print $1 }' target/fuzz/functions - |
  python3 -c 'import sys; l = sys.stdin.read().split(); i = l.index("base"); b = int(l[i + 1], 16); del l[i:i + 2]; [print(int(x, 16) - b) for x in sorted(l, key=lambda x: int(x, 16))]' \
  >target/fuzz/instructions || exit 1
export TOLPHANEAP_INSTRUCTIONS=target/fuzz/instructions

# Eight bytes before each text: buffers at either end of their pages and both modes of a listing, line words enough, 2,048 event words, 512 bytes
# of output.
number=0
seed() { number=$((number + 1)); { printf '%b' "\\x0$((number % 8))\\x00\\x00\\x08\\x00\\x02\\x07\\x21"; cat; } >"$corpus/seed-$number"; }
while IFS= read -r line; do seed < <(printf '%b' "$line"); done <tools/judge/texts.txt
for page in examples/*.dj; do seed <"$page"; done

target/fuzz/driver -max_total_time=$((60 * minutes)) -max_len=4096 -use_value_profile=1 -timeout=20 -dict=tools/fuzz/djot.dict \
  -artifact_prefix=target/fuzz/ -print_final_stats=1 -verbosity=0 $corpus
status=$?
[ $status -eq 0 ] && echo "fuzz: nothing found in $minutes minutes, $(find $corpus -type f | wc -l) inputs kept"
exit $status
