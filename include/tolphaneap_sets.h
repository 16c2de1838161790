/* Sets of attributes in C: what a Djot attribute line holds, classes, ids, pairs and comments, opened by a proved reader.
 *
 * Link with target/staticlib/libtolphaneap_sets.a, which tools/staticlib.sh makes (ELF, x86-64). It needs `memset` and nothing
 * else, the parser's archive neither; both may be linked. The span of a parse's Attributes event (include/tolphaneap.h) was a set
 * on every page that was tried.
 *
 * A SET is `{` to `}`, or some of them without a gap: `{.a}{#b k=v}`. Whitespace behind it is passed over, none may stand before it. In it:
 *   .name        a class, the key of which is `class`          key=name   a pair
 *   #name        an id, the key of which is `id`               key="..."  a pair, its value any bytes, `\` taking the next one in
 *   %...%        a comment, up to `%` or to the set's `}`      name, key  ASCII letters, digits, `:`, `_`, `-`
 * A pair's key may be `class` or `id` as well.
 *
 * MEMORY
 * - The caller owns all of it. Nothing is allocated, nothing is kept after a call, and no function has a state: any number of threads
 *   may call at once, as long as none writes to what another uses.
 * - Lengths count bytes for uint8_t and words for uint64_t. Bytes and keys need no zero at their end and may hold any bytes.
 * - Where a length is 0 its pointer is not looked at and may be NULL. `answer` is never NULL.
 * - uint64_t buffers, `answer` among them, are aligned to 8 bytes.
 * - No buffer that a call writes to, its answer included, may overlap another of the call.
 * - tolphaneap_set_pairs was measured to take 256 bytes of stack for each doubling of the elements, and all take less than 1 KiB beside
 *   that: a thread of 64 KiB is enough.
 *
 * ANSWERS are filled in always: [0] the refusal's number, 0 where all went well; [1] a position, bytes_len where all went well; [2] a count,
 * 0 for a refusal. A position is a place in the set's bytes.
 *
 * REFUSALS
 *  no.  given by     when                                                position
 *   8   join, text   `out` has no room                                   the start of the first piece that does not fit
 *  13   all          no room for an element or a piece                   the byte that makes it known: a pair's `=`, the one behind a
 *                                                                        comment's first `%`, else the one behind it (of newlines in a
 *                                                                        comment the one behind the run)
 *       pairs        no place for an element, once all is read           the same
 *  14   all          not a set                                           the byte that cannot stand there, or the first behind a complete
 *                                                                        set; where the bytes end too early, their length without the
 *                                                                        whitespace at the end
 * Where both 13 and 14 would come at one byte, it is 14.
 *
 * What an answer does to the words and bytes lent: 13 and 14 leave every lent word zero. Else the elements stand first, the pieces
 * too, and every word behind them is zero; 8 leaves them so as well. `out` is as found after any refusal. `places` and `spare` are zero after
 * any answer.
 *
 * ELEMENTS are five words, in the order of the set:
 *   kind          1 class, 2 id, 3 pair, 4 comment; in what tolphaneap_set_pairs leaves also 5, a further class
 *   key start, end  a pair's key; of all others an empty span at the byte where the element is known
 *   first, past   its pieces: the index of the first, and of the one past its last
 * PIECES are two words, start and end: a span of the set's bytes. A value is its pieces joined by a space, a comment's by nothing; most
 * have one, an empty value `""` has none. A newline parts a quoted value into pieces and belongs to none; in a comment a run of newlines
 * is a piece, which is the run's first.
 *
 * BEWARE
 * - What stands before an escaped newline in a quoted value is lost: `{a="b\`, a newline, `c"}` is a set in which `a` has the value `c`. The
 *   Rust parser that this one follows does so.
 * - Behind a newline in a quoted value `\` is a byte like others: a `"` ends the value though a `\` stands before it.
 * - Escapes are not undone: `{a="\""}` has the value `\"`, two bytes.
 * - `{class=""}` has no value for tolphaneap_set_value and tolphaneap_set_join, but tolphaneap_set_pairs shows `class` with an empty one.
 */
#ifndef TOLPHANEAP_SETS_H
#define TOLPHANEAP_SETS_H

#include <stddef.h>
#include <stdint.h>

#ifdef __cplusplus
extern "C" {
#endif

/* Words of an element and of a piece. */
#define TOLPHANEAP_SET_ELEMENT_WORDS 5
#define TOLPHANEAP_SET_PIECE_WORDS 2

/* Kinds of elements. */
#define TOLPHANEAP_SET_CLASS 1
#define TOLPHANEAP_SET_ID 2
#define TOLPHANEAP_SET_PAIR 3
#define TOLPHANEAP_SET_COMMENT 4
#define TOLPHANEAP_SET_FURTHER 5

/* What is always enough to lend for a set of n bytes: it has at most n / 2 elements (an empty comment takes two bytes) and n pieces, and
 * no value is longer than n. That it has at most n elements and n pieces is proved, the rest is counted; were it wrong, the answer would be
 * refusal 13, or 8 for `out`. Most sets need far fewer, so a caller may lend less and, on refusal 13, lend more and call again. */
#define TOLPHANEAP_SET_ELEMENT_ROOM(bytes) (TOLPHANEAP_SET_ELEMENT_WORDS * ((size_t)(bytes) / 2))
#define TOLPHANEAP_SET_PIECE_ROOM(bytes) (TOLPHANEAP_SET_PIECE_WORDS * (size_t)(bytes))
#define TOLPHANEAP_SET_PLACE_ROOM(bytes) ((size_t)(bytes) / 2)
#define TOLPHANEAP_SET_TEXT_ROOM(bytes) ((size_t)(bytes))

/* In all five:
 * bytes     the set.
 * elements  five words an element; TOLPHANEAP_SET_ELEMENT_ROOM(bytes_len) is enough.
 * pieces    two words a piece; TOLPHANEAP_SET_PIECE_ROOM(bytes_len) is enough. Words past a multiple of five or of two count for nothing.
 * Each call reads the whole set, with all its elements and pieces, before it picks some: to go through all values, read once and join the pieces. */

/* Reads a set.
 * answer  done: 0, bytes_len, the number of elements. Refused (13, 14): number, position, 0. */
void tolphaneap_set_read(const uint8_t *bytes, size_t bytes_len, uint64_t *elements, size_t elements_len, uint64_t *pieces,
                         size_t pieces_len, uint64_t answer[3]);

/* Finds the value of a key: for `class` all classes that have a piece, in order; for another key the last element that has it. The elements
 * words then hold these alone, and the pieces words all that were read. The value is the pieces of these elements.
 * key     any bytes; one that no element has is no fault.
 * answer  done: 0, bytes_len, the number of elements, 0 for no value. Refused (13, 14): number, position, 0. */
void tolphaneap_set_value(const uint8_t *bytes, size_t bytes_len, const uint8_t *key, size_t key_len, uint64_t *elements,
                          size_t elements_len, uint64_t *pieces, size_t pieces_len, uint64_t answer[3]);

/* Finds each key once, in the order in which they first show, comments left out: the kind and the key of the first element that has it, and
 * the pieces of the last. Classes stay where they are: the first has its kind and its pieces, each after it is an element of
 * kind 5, whose pieces join the value of `class`; other keys may stand between. Takes some
 * n log n comparisons of keys for n elements (by its code, and measured).
 * places, spare  scratch, one word of each for an element; TOLPHANEAP_SET_PLACE_ROOM(bytes_len) is enough.
 * answer  done: 0, bytes_len, the number of elements left. Refused (13, 14): number, position, 0. */
void tolphaneap_set_pairs(const uint8_t *bytes, size_t bytes_len, uint64_t *elements, size_t elements_len, uint64_t *pieces,
                          size_t pieces_len, uint64_t *places, size_t places_len, uint64_t *spare, size_t spare_len,
                          uint64_t answer[3]);

/* Writes the value of a key, joined. The words are left as tolphaneap_set_value leaves them, so elements[0] is 0 where there is no value.
 * out     TOLPHANEAP_SET_TEXT_ROOM(bytes_len) is enough; bytes behind the value stay as found, and no zero is put there.
 * answer  done: 0, bytes_len, bytes written. Refused (8, 13, 14): number, position, 0. */
void tolphaneap_set_join(const uint8_t *bytes, size_t bytes_len, const uint8_t *key, size_t key_len, uint64_t *elements,
                         size_t elements_len, uint64_t *pieces, size_t pieces_len, uint8_t *out, size_t out_len,
                         uint64_t answer[3]);

/* Writes the value of one element, joined. The elements words then hold this one alone.
 * place   the element's index from 0; where there is none, nothing is written and elements[0] is 0.
 * out, answer  as tolphaneap_set_join. */
void tolphaneap_set_text(const uint8_t *bytes, size_t bytes_len, size_t place, uint64_t *elements, size_t elements_len,
                         uint64_t *pieces, size_t pieces_len, uint8_t *out, size_t out_len, uint64_t answer[3]);

#ifdef __cplusplus
}
#endif

#endif
