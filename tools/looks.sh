#!/usr/bin/env bash
# Lines are tested in one function, `measure::look`, which counts the look. No contract can say so, since a test that is not counted changes no answer
# (docs/TRUST.md, DECISIONS F39), so this does, on the calls and loads in the code of every library, as Rattle lowers it:
#     tools/looks.sh           tools/looks/reads.txt must be what the code does, and each wrong program of tools/looks/*.edit must be refused
#     tools/looks.sh --print   prints that table anew, with the reasons that the present one has, and ? for those that it has not:
#                              new=$(tools/looks.sh --print) && echo "$new" >tools/looks/reads.txt
# The code is what `rattle check --generated` writes of the sources without their clauses; it is read by tools/looks/reads.py, and nothing is proved for
# it (tools/looks/looks.py has how). It takes some ten minutes of a processor, and less of several.
# A function reads a text if it loads a byte through a reference (`byte`) or by a function of std (`byte:starts_with`), judges a line by its kind (`kind`), or
# calls a function that reads or hands one to what it calls; a closure is a function of its own. The table has
# each such function of the parser, every call and load by which it reads, in the order of the code ([ ] is a loop), and why; and, since a line's length
# may tell that it is blank, the loads of 32-bit words (`word`) in `measure` and above, and the calls from there to functions below that load words. So one
# more reader, call, load or loop is refused, in any library, file or layout, and so is code of a form that the reader does not know, as a call through a
# pointer. Of the functions on the way from a text to a look, what they do between the calls counts, too: their lines end with a sum over all of it, and a
# changed sum asks for a person to see that no look is lost there; so it is where one of several tests is asked, `early` and `identify`.
# What a listed function concludes from what it reads, and whether a listed call to load event words is lent those, its contract says, not this. Not seen
# here: what a function concludes from words that it is handed; loads of 64 bits through a pointer made of one to fewer; bytes that the readers of sets and
# of records load, which are no text's, but for the calls of those from the parser's crates.
# An edit has lines `file:`, `old:` (which stands there once) and `new:`, as those of must-fail; several `new:` are several lines, and without `old:` they
# are a file of their own. `at:` names a function whose line of the table it changes; of a wrong program, that function is read.
set -uo pipefail
cd "$(dirname "$0")/.." || exit 2
command -v python3 >/dev/null || { echo "looks: no python3"; exit 2; }
exec python3 tools/looks/looks.py "$@"
