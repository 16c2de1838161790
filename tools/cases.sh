#!/usr/bin/env bash
# Holds the built programs to the readable cases in cases/, and the cases to docs/RULES.md: every rule is in one, or in the table of cases/README.md.
# tools/cases.sh [--print] [FILE or RULE ..]: only those cases; --print prints what the programs give, in the form of a case file.
# tools/cases.sh --as COMMAND ..: holds another program that lists pages, from standard input, to the cases of `show` (but those of V9, the room that `show` lends).
# It needs the programs show, store, recall, attributes, changes, pages, streams, openings and reviews, each where `rt ci`, or `rt run` in its folder,
# leaves it: crates/NAME/out/NAME.
set -uo pipefail
cd "$(dirname "$0")/.." || exit 2

command -v python3 >/dev/null || { echo "cases: no python3"; exit 1; }
[ "${1:-}" != --as ] || exec python3 tools/cases.py "$@"
for program in show store recall attributes changes pages streams openings reviews; do
  [ -x crates/$program/out/$program ] || { echo "cases: no program $program: run rt ci, or rt run in crates/$program"; exit 1; }
done
exec python3 tools/cases.py "$@"
