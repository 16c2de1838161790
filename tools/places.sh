#!/usr/bin/env bash
# Counts the places of docs/DESIGN-PASS.md in the sources, point by point: tools/places.sh [COMMIT] (none: the work tree).
set -uo pipefail
cd "$(dirname "$0")/.." || exit 2
rev=${1:-}
count() { # POINT WHAT REGEX: how many lines of crates/*/src match
  printf '%-3s %5d  %s\n' "$1" "$(git grep -hE -e "$3" $rev -- 'crates/*/src/*.rt' | wc -l)" "$2"
}
count 1 'enums of two cases that are none and some, or done and refused' '^ *pub enum (Split|Begun|Styled|Ambiguity|Continued|Ahead) '
count 1 'tests of a refusal by its number' 'number (!=|==) [0-9]'
count 1 'fields that are a refusal, 0: none' '^ *pub number: '
count 1 'flags with a value beside them, and numbers of which one means none' '^ *(pub )?(came|known|whole): bool|(: |// .*)0: (none|the line is none|no block is open)|plus one; 0: none'
count 1 'numbers for kinds, rules, states, fields and numberings: functions and tables of them' 'fn (numeral|num_of|style_num|marker_num|kind_num|sign_of|rule_of|row_of|field_of|alignment|sign_class|class_of|which_num|number_of|numbering_by|style_by|step|fault)\(|^const (NEXT|NODES|ATOMS):|^pub const (START|DONE|INVALID|CLASS|ID|PAIR|COMMENT|FURTHER|BLANKLINE|ATTRIBUTES|THEMATIC_BREAK|PARAGRAPH|HEADING|FENCED|DEFINITION|BLOCKQUOTE|LIST_ITEM|TABLE): (u8|u64|usize)'
count 2 'functions and types that differ in a type, a size or a constant' 'fn (words_out|bytes_out|numbers|fill_words|fill_bytes|holds_words|holds_bytes|sum_words|sum_bytes|find_other|find|least|lesser|most|clear|zero|wipe|store|put_text|name_run|spec_run|run_of|quoted_run|lead_of|indent_of|stream_out|[a-z]+_size|put_(node|atom|spaced|used|head|body|line|looks|refused|number)|wide|two)\(|struct (Span|Line|Inside) '
count 3 'loops that count by hand' '^ *([a-z'"'"']+: )?while '
count 4 'equality, copying and conversion by hand' 'fn (same|same_[a-z]+|is_stale|copy|flag|wide|which_num|number_of|[a-z]+_num|num_of|numbering_by|style_by|type_of|key_le|also)\('
count 5 'a fact in the contracts of three functions or more' 'IsPrefixLen at out.old|Fits st|st.words ≤ length events|st.lists \* list_width|n \* 5 ≤ length elements|i \* 5 \+ 5 ≤ length'
count 5 'parameters that travel together: the state of the walk and what was lent, a buffer and a place' '^ *st: St,|, st: St\)|st: St, |out: &mut \[u8\],? at: usize|^ +at: usize,'
count 6 'words that hold a struct, and a buffer with its length beside' 'LIST_WIDTH|lists: &mut \[u64\]|room: &mut \[usize\]|elements\[[a-z]'
count 7 'a switch on which step to run' 'write: bool|, write\b'
printf '%-3s %5d  %s\n' 8 "$(git grep -hc '' $rev -- 'crates/*/proofs/*.antt' | awk '{s+=$1} END {print s}')" 'lines of proofs'
