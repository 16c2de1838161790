/* Tolphaneap in C: a proved block parser for Djot. Texts to events, events to a stream of records and back, a listing, what changed between
 * two editions of a text.
 *
 * Link with target/staticlib/libtolphaneap.a, which tools/staticlib.sh makes (ELF, x86-64). It needs `memset` and nothing else.
 *
 * MEMORY
 * - The caller owns all of it. Nothing is allocated, nothing is kept after a call, and no function has a state: any number of threads
 *   may call at once, as long as none writes to what another uses.
 * - Lengths count bytes for uint8_t and words for uint32_t. A text needs no zero at its end and may hold any bytes.
 * - Where a length is 0 its pointer is not looked at and may be NULL. `answer` and `parsed` are never NULL.
 * - uint32_t buffers are aligned to 4 bytes, `answer` and `parsed` to 8.
 * - No buffer that a call writes to, its answer included, may overlap another of the call.
 * - tolphaneap_parse was measured to take up to 46,616 bytes of stack (1,312 a nesting), tolphaneap_changes, which parses, under 1 KiB
 *   more, the others under 2 KiB: a thread of 64 KiB is enough.
 *
 * ANSWERS are filled in always: [0] the refusal's number, 0 where all went well; [1] a position; [2] a count; for a parse [3] the looks,
 * which are how often a line was tested. A refusal has count 0 and looks 0. The answer of tolphaneap_changes has other words from [2] on.
 *
 * REFUSALS
 *  no.  given by           when                                                     position
 *   1   parse, changes     the text is over 16,777,215 bytes                        0
 *   2   parse, changes     fewer than two line words a line                         0
 *   3   parse, changes     a container is met with 32 around it                     its marker
 *   4   parse, changes     over 32 sections would be open                           the heading
 *   5   parse, changes     a heading has over 65,535 marks                          the heading
 *   6   parse, changes     an event is needed and the event words are full          the innermost block begun and not ended (0: none),
 *                          (rows of a table that are later dropped count)           or the text's length in the final closings
 *       read               the same, for a good record                              the record
 *   7   parse, changes     a fault of the parser: it is proved never to come        as 6
 *   8   write, list, page  the bytes lent are full                                  the event (see tolphaneap_page for the last line)
 *   9   write, list, page  words that are no multiple of 8, or Document is open     events_len / 8
 *                          at the end
 *       read               the input ends inside a record                           the record
 *                          it ends between two, before Document closes              bytes_len
 *  10   not parse, changes a kind byte, or a role and node, that is not listed      the event or record
 *  11   not parse, changes a field out of its range, an unused word not zero        the event or record
 *  12   not parse, changes bad nesting, over 128 open, more after Document closes   the event or record
 *  15   changes            an event given is not the next one of the text's parse   the event
 *                          the events given end before those of the parse           the number of whole ones
 *
 * 13 and 14 are those of include/tolphaneap_sets.h.
 *
 * A position that is told as an event, a number of whole ones or events_len / 8 counts events from 0, Stale ones too; a record's is its
 * first byte, and bytes_len is a byte of the stream, too; all else is a byte of the text. A parse is
 * asked for 1, then 2, then what its walk meets first. Writing and reading go event by event, each in the order 9, 10, 11, 12, room.
 * Containers are Blockquote, Div, list items and Footnote.
 *
 * What a refusal does to the words or bytes lent: 3 to 7 of tolphaneap_parse leave every lent word zero, in both buffers, and so does any
 * answer of tolphaneap_changes, 1 and 2 too; all others leave everything as found.
 *
 * EVENTS are eight words: role, node, start, end, four of body; words that a node does not use are zero. Offsets are bytes from the
 * text's start, at most 16,777,215. An Exit has its Enter's node and body. A Stale event is eight zeros: the parser leaves some, and all
 * other functions pass over them.
 *
 *   node                       body
 *    1 Document                                     12 Table
 *    2 Blockquote                                   13 TableRow         head
 *    3 Div              class start, end            14 Section          pos of its heading
 *    4 Unordered        tight, bullet               15 Paragraph
 *    5 Ordered          tight, numbering x 4        16 Heading          level, has_section, pos
 *                       + style, value low, high    17 DescriptionTerm
 *    6 TaskList         tight, bullet               18 TableCell        alignment
 *    7 DescriptionList  tight                       19 Caption
 *    8 Item                                         20 LinkDefinition   label start, end
 *    9 TaskItem         checked                     21 CodeBlock        spec start, end
 *   10 DescriptionItem
 *   11 Footnote         label start, end            atoms: 1 Blankline, 2 Attributes, 3 ThematicBreak
 *
 * An Inline has node 0 and no body: its span is text to be read on. Flags (tight, checked, head, has_section) are 0 or 1; a bullet is its
 * byte; numbering 1 to 5 is decimal, alpha lower, upper, roman lower, upper; style 0 period, 1 paren, 2 both; a value is 64 bits in two
 * words; level 1 to 65,535; alignment 0 none, 1 left, 2 right, 3 centre.
 *
 * A RECORD is a byte of role x 32 + node, start and end in 3 bytes each, then the body: offsets and pos 3 bytes, level 2, a value 8, all
 * else 1, the lowest byte first.
 */
#ifndef TOLPHANEAP_H
#define TOLPHANEAP_H

#include <stddef.h>
#include <stdint.h>

#ifdef __cplusplus
extern "C" {
#endif

/* The modes of a listing: without lines for Blanklines, and with them. Any other number means the first. */
#define TOLPHANEAP_SHORT 0
#define TOLPHANEAP_FULL 1

/* The two texts, as tolphaneap_changes names them. */
#define TOLPHANEAP_OLDER 1
#define TOLPHANEAP_NEWER 2

/* Words of a line and of an event; the fewest and most bytes of a record, the most of a listing's line and of a text. */
#define TOLPHANEAP_LINE_WORDS 2
#define TOLPHANEAP_EVENT_WORDS 8
#define TOLPHANEAP_LEAST_RECORD 7
#define TOLPHANEAP_MOST_RECORD 17
#define TOLPHANEAP_MOST_ENTRY 55
#define TOLPHANEAP_MOST_TEXT 16777215

/* What is always enough to lend. A text of n bytes has at most n lines and needs room for at most 3 n + 6 events (`:` alone needs 9). That
 * is counted, not proved; were it wrong, the answer would be refusal 6. Most texts need far fewer, so a caller may lend less and, on
 * refusal 6, lend more and call again. The last three take a number of events, of bytes, of events. */
#define TOLPHANEAP_LINE_ROOM(bytes) (TOLPHANEAP_LINE_WORDS * (size_t)(bytes))
#define TOLPHANEAP_EVENT_ROOM(bytes) (TOLPHANEAP_EVENT_WORDS * (3 * (size_t)(bytes) + 6))
#define TOLPHANEAP_STREAM_ROOM(events) (TOLPHANEAP_MOST_RECORD * (size_t)(events))
#define TOLPHANEAP_READ_ROOM(bytes) (TOLPHANEAP_EVENT_WORDS * ((size_t)(bytes) / TOLPHANEAP_LEAST_RECORD))
#define TOLPHANEAP_LISTING_ROOM(events) (TOLPHANEAP_MOST_ENTRY * ((size_t)(events) + 1))

/* Parses a text.
 * lines   scratch: two words for each newline, and two if bytes follow the last; TOLPHANEAP_LINE_ROOM(text_len) is enough.
 * events  eight words an event; TOLPHANEAP_EVENT_ROOM(text_len) is enough. Words past a multiple of two or of eight count for nothing.
 * answer  done: 0, text_len, the number of events, the looks; the events stand first, all words behind them and all line words are zero.
 *         Refused (1 to 7): number, place in the text, 0, 0. */
void tolphaneap_parse(const uint8_t *text, size_t text_len, uint32_t *lines, size_t lines_len, uint32_t *events,
                      size_t events_len, uint64_t answer[4]);

/* Writes events as a stream of records. All words are taken, so lend eight for each event of a parse, or all that the parse had if they
 * are a multiple of 8: zeros are Stale events. They must be one Document from its Enter to its Exit, well nested, as a parse and a read
 * leave them.
 * bytes   TOLPHANEAP_STREAM_ROOM(events_len / 8) is enough; bytes behind the stream stay as found.
 * answer  done: 0, events taken (Stale ones too), bytes written. Refused (8 to 12): number, event, 0. */
void tolphaneap_write(const uint32_t *events, size_t events_len, uint8_t *bytes, size_t bytes_len, uint64_t answer[3]);

/* Reads a stream of records as events. All bytes are taken. What was written reads back as the same events without the Stale ones.
 * events  TOLPHANEAP_READ_ROOM(bytes_len) is enough.
 * answer  done: 0, bytes taken, events read; words behind the events are zero. Refused (6, 9 to 12): number, record, 0. */
void tolphaneap_read(const uint8_t *bytes, size_t bytes_len, uint32_t *events, size_t events_len, uint64_t answer[3]);

/* Lists events as lines of ASCII, each ended by a newline: role (E, X, I, A), name, start, end, used body words. All words are judged as
 * tolphaneap_write judges them, and only then room.
 * mode    TOLPHANEAP_FULL: a line for each event that is not Stale. TOLPHANEAP_SHORT, or any other number: the same without the lines of
 *         Blanklines. It changes nothing else: an event without a line is judged and counted too, and needs no room.
 * out     TOLPHANEAP_LISTING_ROOM(events_len / 8) is enough; bytes behind the listing stay as found, and no zero is put there.
 * answer  done: 0, events taken (those without a line too), bytes written. Refused (8 to 12): number, event, 0; 8 is at the first event
 *         whose line has no room, so never at one that has no line. */
void tolphaneap_list(uint64_t mode, const uint32_t *events, size_t events_len, uint8_t *out, size_t out_len, uint64_t answer[3]);

/* Lists a parse: the lines of its events and `looks N`, which is the same in both modes; or, where it was refused, `refused N at P` alone.
 * No function here takes a first line `full` off: it is text to a parse and a bad record to a read. The programs `show` and `recall`
 * take it off (bindings/c/page.c shows how).
 * parsed  what tolphaneap_parse answered; the count is not used. Where parsed[0] is not 0 neither the mode nor the events are looked at.
 * mode, events, out, answer  as tolphaneap_list; for a refused parse 0, 0, bytes written. Without room for the last line 8 at
 *         events_len / 8, or at 0 for a refused parse. */
void tolphaneap_page(uint64_t mode, const uint64_t parsed[4], const uint32_t *events, size_t events_len, uint8_t *out, size_t out_len,
                     uint64_t answer[3]);

/* Finds the part that changed between two editions of a text, in whole top-level blocks: what stands in a Document or its sections and in
 * nothing else. A heading is a block by itself, without its section, a list is one block, a blank line and an attribute line are blocks of
 * their own. A block's bytes run from its first line to the next block's first line or the end of the text, and blocks are equal when
 * their bytes are. The longest run of equal blocks at the front is dropped, then the longest at the back of what is left. The part is what
 * is left of the newer text; where nothing is but something was taken out, what is left of the older. So the bytes before the part and
 * those behind it stand in both texts.
 * older, newer  the two texts, which may be one.
 * older_events, newer_events  the events of each, as tolphaneap_parse or tolphaneap_read leaves them. Stale events (eight zeros) count for
 *         nothing, nor do words past a multiple of eight, so all words of a parse may be given. Texts and events are only read.
 * lines, events  scratch, in which each text is parsed again: what is enough to parse the one and the other. Every word of both is zero
 *         after any answer, done or refused.
 * answer  done: 0, 0, the text that the part is of (TOLPHANEAP_OLDER or TOLPHANEAP_NEWER), the part's start and end in it. Equal editions
 *         give an empty part at the end of the newer: 0, 0, TOLPHANEAP_NEWER, newer_len, newer_len. No other part is empty.
 *         Refused: number, position, the text that is refused, 0, 0. The older text is asked first, each for what its parse refuses (1 to
 *         7, at a place in that text), then for its events: 15 at the index of the first event given, Stale ones counted, that is not the
 *         parse's next, or, where the events given end first, at the number of whole ones. */
void tolphaneap_changes(const uint8_t *older, size_t older_len, const uint32_t *older_events, size_t older_events_len,
                        const uint8_t *newer, size_t newer_len, const uint32_t *newer_events, size_t newer_events_len,
                        uint32_t *lines, size_t lines_len, uint32_t *events, size_t events_len, uint64_t answer[5]);

#ifdef __cplusplus
}
#endif

#endif
