#!/usr/bin/env bash
# Builds and runs what other languages call: bindings/c with a C compiler, bindings/rust with cargo. What it leaves out for want of one it says in
# lines that begin `left out: `. It needs libtolphaneap.a and libtolphaneap_sets.a in target/staticlib (tools/staticlib.sh), which are for x86-64, and
# leaves nothing in the tree; it exits 1 where anything fails. The C example that lists pages is held to the cases of `show`.
set -uo pipefail
cd "$(dirname "$0")/.." || exit 2
lib=target/staticlib/libtolphaneap.a
sets=target/staticlib/libtolphaneap_sets.a
page=examples/runbook.dj
next=examples/runbook-2.dj
cc=${CC:-cc}; cxx=${CXX:-c++}
for archive in $lib $sets; do [ -f $archive ] || { echo "bindings: no $archive: run tools/staticlib.sh"; exit 1; }; done
work=$(mktemp -d) || exit 2
trap 'rm -rf "$work"' EXIT

fail() { echo "bindings: $*"; exit 1; }

# build NAME ARCHIVE FLAG ..: bindings/c/NAME.c as a program of that name
build() {
  local strict=(-std=c99 -Wall -Wextra -pedantic -Werror)
  "$cc" "${strict[@]}" -I include "${@:3}" "bindings/c/$1.c" "$2" -o "$work/$1" || fail "$1.c does not build"
}

# Whether the compiler links programs with these flags.
links() { echo 'int main(void) { return 0; }' | "$cc" -x c "$@" -o "$work/empty" - 2>/dev/null; }

# The listing of a page behind a line `full` is the one that the program `show` is held to, where that is kept for the same page; without that line
# it is the same but for blank lines. What else may be a first line, and every rule of a page, is in cases/.
listing() {
  { echo full; cat $page; } >"$work/full.dj"
  "$work/page" $page >"$work/short" || fail "the C example refuses $page"
  "$work/page" "$work/full.dj" >"$work/full" || fail "the C example refuses $page behind a line \`full\`"
  sed '/^A Blankline /d' "$work/full" | diff - "$work/short" || fail "the C example lists $page otherwise than without blank lines"
  tools/cases.sh --as "$work/page" || fail "the C example lists a case otherwise"
  if ! cmp -s "$work/full.dj" crates/show/stdin || [ ! -f crates/show/stdout ]; then
    echo "bindings: the C example lists $page, and no listing is kept to compare"
    return
  fi
  diff crates/show/stdout "$work/full" || fail "the C example lists $page otherwise than crates/show/stdout"
  echo "bindings: the C example lists $page as crates/show/stdout has it"
}

# What the example prints of a set: each key once, and the value of one.
opened() {
  local set='{#a .b k="v w" %c% class=d #e}'
  "$work/set" "$set" >"$work/pairs" || fail "the C example refuses $set"
  printf 'id=e\nclass=b d\nk=v w\n' | diff - "$work/pairs" || fail "the C example shows $set otherwise"
  [ "$("$work/set" "$set" class)" = 'b d' ] || fail "the C example finds another class in $set"
  [ "$("$work/set" '{.a')" = 'refused 14 at 3' ] || fail "the C example takes {.a for a set"
  echo "bindings: the C example opens a set"
}

# says OLD NEW LINE: the first line that the example prints of two editions, which are files in the scratch folder.
says() {
  local line
  line=$(cd "$work" && ./changes "$1" "$2" 2>&1 | head -n 1)
  [ "$line" = "$3" ] || fail "the C example says of $1 and $2: $line"
}

# What changed between two editions is what the program `changes` is held to, where that is kept for the same pages; and of small ones each kind of answer.
compared() {
  local data=crates/changes/data kept=crates/changes/stdout
  cp $page $next "$work"
  (cd "$work" && ./changes "${page##*/}" "${next##*/}") >"$work/part" || fail "the C example refuses $page or $next"
  if ! cmp -s $page "$data/${page##*/}" || ! cmp -s $next "$data/${next##*/}" || [ ! -f $kept ]; then
    echo "bindings: the C example compares $page and $next, and no part is kept to compare"
  else
    diff $kept "$work/part" || fail "the C example compares $page and $next otherwise than $kept"
    echo "bindings: the C example compares $page and $next as $kept has it"
  fi
  printf 'a\n\nb\n' >"$work/two"
  printf 'a\n\nb\n\nc' >"$work/three"
  printf '> %.0s' {1..33} >"$work/deep"
  says two two 'nothing changed'
  says two three 'new in three, lines 4 to 5:'
  says three two 'removed from three, lines 4 to 5:'
  says deep two 'deep: refused 3 at 64'
  says two deep 'deep: refused 3 at 64'
  says two none 'none: No such file or directory'
  [ "$("$work/changes" "$work/two" "$work/three" | tail -n 1)" = c ] || fail "the C example ends a part otherwise"
}

in_c() {
  build page $lib -O2
  listing
  build set $sets -O2
  opened
  build changes $lib -O2
  compared
  build calls $lib -O2
  build calls_changes $lib -O2
  build calls_sets $sets -O2
  for test in calls calls_changes calls_sets; do "$work/$test" || fail "the C test $test fails"; done
  local sanitize=-fsanitize=address,undefined
  links $sanitize || { echo "left out: the C tests with sanitizers (the C compiler has none)"; return; }
  build calls $lib -O1 -g $sanitize -fno-sanitize-recover=all
  build calls_changes $lib -O1 -g $sanitize -fno-sanitize-recover=all
  build calls_sets $sets -O1 -g $sanitize -fno-sanitize-recover=all
  for test in calls calls_changes calls_sets; do "$work/$test" || fail "the C test $test fails with sanitizers"; done
}

in_cpp() {
  cat >"$work/header.cc" <<'CPP'
#include "tolphaneap.h"
#include "tolphaneap_sets.h"
int main() {
    uint64_t answer[3], listed[3], opened[3];
    tolphaneap_read(nullptr, 0, nullptr, 0, answer);
    tolphaneap_list(TOLPHANEAP_FULL, nullptr, 0, nullptr, 0, listed);
    tolphaneap_set_read(nullptr, 0, nullptr, 0, nullptr, 0, opened);
    return answer[0] != 9 || listed[0] != 9 || opened[0] != 14;
}
CPP
  "$cxx" -Wall -Wextra -pedantic -Werror -I include -c "$work/header.cc" -o "$work/header.o" || fail "the headers are no C++"
  "$cc" "$work/header.o" $lib $sets -o "$work/header" || fail "what C++ compiled does not link"
  "$work/header" || fail "a call from C++ fails"
  echo "bindings: the headers are C++ too"
}

in_rust() {
  local at=(--offline --quiet --manifest-path bindings/rust/Cargo.toml --target-dir "$work/rust")
  export TOLPHANEAP_LIB=$PWD/target/staticlib
  cargo test "${at[@]}" || fail "the Rust tests fail"
  for example in page attributes; do cargo run "${at[@]}" --example $example -- $page || fail "the Rust example $example fails"; done
  cargo run "${at[@]}" --example changes -- $page $next || fail "the Rust example changes fails"
}

if command -v "$cc" >/dev/null; then in_c; else echo "left out: the examples and tests in C (no $cc)"; fi
if command -v "$cxx" >/dev/null && command -v "$cc" >/dev/null; then in_cpp; else echo "left out: a call from C++ (no $cc or no $cxx)"; fi
if command -v cargo >/dev/null; then in_rust; else echo "left out: the examples and tests in Rust (no cargo)"; fi
