#!/usr/bin/env bash
# Makes the archives that other languages link, target/staticlib/libtolphaneap.a and libtolphaneap_sets.a: tools/staticlib.sh [--built] [tolphaneap] [tolphaneap_sets]
# They are the static libraries of the crates tolphaneap_c and tolphaneap_sets_c, and `rt lib` makes them, which proves and builds first what is below and
# has changed. With --built, right behind `rt ci` in a clean clone, they are built over the libraries that it has left, in half a minute: where `rt lib` has
# built one of those, or one is missing, that is not done.
set -uo pipefail
cd "$(dirname "$0")/.." || exit 2
built=; [ "${1:-}" = --built ] && { built=1; shift; }
[ $# -gt 0 ] || set -- tolphaneap tolphaneap_sets
kit=$(dirname "$(rt doc)")
said=$(mktemp) || exit 2
trap 'rm -f "$said"' EXIT
mkdir -p target/staticlib || exit 2

# Builds a crate over the libraries that `rt ci` has left.
over() {
  local crate=$1 dep words=()
  for dep in $(awk -F: -v c="$crate staticlib" '$1 == c { print $2 }' crates.txt); do
    [ -f "crates/$dep/out/rlib/$dep.rlib/format" ] && [ ! -e "crates/$dep/out/rlib/stamp" ] || return
    words+=(--extern "$dep=../$dep/out/rlib/$dep.rlib" -L "dependency=../$dep/out/rlib")
  done
  cd "crates/$crate" && mkdir -p out && "$kit/bin/rattle" build --crate-name "$crate" src/lib.rt --crate-type staticlib --extern "std=$kit/rlibs/std.rlib" \
    -L "dependency=$kit/rlibs" "${words[@]}" --antt-project "$kit/rattle/logic/antt-project.json" --logic-built "$kit/logic_built" \
    --toolchain "$kit/toolchain" --backend llvm -o "out/lib$crate.a"
}

for name in "$@"; do
  crate=${name}_c
  [ -d "crates/$crate" ] || { echo "staticlib: there is no crate $crate"; exit 1; }
  rm -f "crates/$crate/out/lib$crate.a" "target/staticlib/lib$name.a"
  if [ -z "$built" ] || ! (over "$crate") >"$said" 2>&1; then
    (cd "crates/$crate" && rt lib) >"$said" 2>&1 || { tail -n 5 "$said"; echo "the static library $name is not made"; exit 1; }
  fi
  cp "crates/$crate/out/lib$crate.a" "target/staticlib/lib$name.a" || exit 1
  # README and the headers promise that it needs nothing else
  command -v nm >/dev/null || { echo "left out: what lib$name.a needs beside memset (no nm)"; continue; }
  nm -u "target/staticlib/lib$name.a" >"$said" || { echo "nm can't read lib$name.a"; exit 1; }
  needs=$(awk '$1 == "U" && $2 != "memset" { printf "%s ", $2 }' "$said")
  [ -z "$needs" ] || { echo "lib$name.a needs ${needs}beside memset"; exit 1; }
done
