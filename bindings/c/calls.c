/* Calls every function of include/tolphaneap.h on good and bad input and exits 1 on a failure: calls
 * cc -std=c99 -O2 -I include bindings/c/calls.c target/staticlib/libtolphaneap.a -o calls
 * All runs twice: with marks on both sides of every buffer, and with every buffer up against a page that cannot be touched. */
#define _DEFAULT_SOURCE
#include "tolphaneap.h"

#include "lent.h"

static unsigned char seen[13];

static uint32_t *words(Lent lent) { return (uint32_t *)(void *)lent.bytes; }

static Lent lend_words(size_t count) { return lend(count * sizeof(uint32_t)); }

/* ---- calls, with the answer lent too */

typedef struct {
    uint64_t number, position, count, looks;
} Answer;

static Answer taken(Lent lent) {
    Answer answer = {0, 0, 0, 0};
    memcpy(&answer, lent.bytes, lent.size);
    back(lent);
    if (answer.number < sizeof seen)
        seen[answer.number] = 1;
    CHECK(answer.number <= 12 && answer.number != 7);
    if (answer.number != 0)
        CHECK(answer.count == 0 && answer.looks == 0);
    return answer;
}

static Answer parse(Lent text, Lent lines, Lent events) {
    Lent answer = lend(4 * sizeof(uint64_t));
    tolphaneap_parse(text.bytes, text.size, words(lines), lines.size / 4, words(events), events.size / 4, slots(answer));
    return taken(answer);
}

static Answer write_out(Lent events, Lent bytes) {
    Lent answer = lend(3 * sizeof(uint64_t));
    tolphaneap_write(words(events), events.size / 4, bytes.bytes, bytes.size, slots(answer));
    return taken(answer);
}

static Answer read_in(Lent bytes, Lent events) {
    Lent answer = lend(3 * sizeof(uint64_t));
    tolphaneap_read(bytes.bytes, bytes.size, words(events), events.size / 4, slots(answer));
    return taken(answer);
}

static Answer list(uint64_t mode, Lent events, Lent out) {
    Lent answer = lend(3 * sizeof(uint64_t));
    tolphaneap_list(mode, words(events), events.size / 4, out.bytes, out.size, slots(answer));
    return taken(answer);
}

static Answer page(uint64_t mode, Answer parsed, Lent events, Lent out) {
    Lent was = lend_copy(&parsed, sizeof parsed), answer = lend(3 * sizeof(uint64_t));
    tolphaneap_page(mode, slots(was), words(events), events.size / 4, out.bytes, out.size, slots(answer));
    back(was);
    return taken(answer);
}

/* Both modes, and other numbers, which mean the first; two of them end as the second does. */
static const uint64_t MODES[] = {TOLPHANEAP_SHORT, TOLPHANEAP_FULL, 2, 257, (UINT64_C(1) << 32) + 1, UINT64_MAX};
enum { MODE_COUNT = sizeof MODES / sizeof *MODES };

static int is(Answer answer, uint64_t number, uint64_t position, uint64_t count) {
    return answer.number == number && answer.position == position && answer.count == count;
}

/* ---- W2, the text `a\n` (E1, N4, V4) */

static const uint32_t W2[5][8] = {{1, 1, 0, 0, 0, 0, 0, 0}, {1, 15, 0, 0, 0, 0, 0, 0}, {3, 0, 0, 1, 0, 0, 0, 0},
                                  {2, 15, 2, 2, 0, 0, 0, 0}, {2, 1, 2, 2, 0, 0, 0, 0}};
static const uint8_t W2_STREAM[35] = {33, 0, 0, 0, 0, 0, 0, 47, 0, 0, 0, 0, 0, 0, 96, 0, 0, 0,
                                      1,  0, 0, 79, 2, 0, 0, 2, 0, 0, 65, 2, 0, 0, 2, 0, 0};
static const char W2_LINES[] = "E Document 0 0\nE Paragraph 0 0\nI 0 1\nX Paragraph 2 2\nX Document 2 2\n";
static const char W2_PAGE[] = "E Document 0 0\nE Paragraph 0 0\nI 0 1\nX Paragraph 2 2\nX Document 2 2\nlooks 1\n";
static const Answer W2_PARSED = {0, 2, 5, 1};

/* The five events with word `word` of event `index` changed. */
static Lent damaged(size_t index, size_t word, uint32_t value) {
    Lent events = lend_copy(W2, sizeof W2);
    words(events)[8 * index + word] = value;
    return events;
}

/* ---- parsing */

static void parses_into_any_room(void) {
    name = "parses_into_any_room";
    for (size_t line_words = 0; line_words < 5; line_words++)
        for (size_t event_words = 0; event_words < 60; event_words++) {
            Lent text = lend_text("a\n"), lines = lend_words(line_words), events = lend_words(event_words);
            Answer answer = parse(text, lines, events);
            if (line_words < 2) {
                CHECK(is(answer, 2, 0, 0));
                CHECK(all_hold(lines, MARK) && all_hold(events, MARK));
            } else if (event_words < 40) {
                /* Document's Enter, the paragraph's three, then the closing of all */
                CHECK(is(answer, 6, event_words < 32 ? 0 : 2, 0));
                CHECK(all_hold(lines, 0) && all_hold(events, 0));
            } else {
                CHECK(is(answer, 0, 2, 5) && answer.looks == 1);
                CHECK(all_hold(lines, 0) && memcmp(events.bytes, W2, sizeof W2) == 0);
                CHECK(holds(events.bytes + sizeof W2, events.size - sizeof W2, 0));
            }
            CHECK(memcmp(text.bytes, "a\n", 2) == 0);
            back(text), back(lines), back(events);
        }
}

/* A parse with so many line and event words, of which a refusal leaves as found or zero. */
static void refuses(Lent text, size_t line_words, size_t event_words, uint64_t number, uint64_t position) {
    Lent lines = lend_words(line_words), events = lend_words(event_words);
    int left = number <= 2 ? MARK : 0;
    CHECK(is(parse(text, lines, events), number, position, 0));
    CHECK(all_hold(lines, left) && all_hold(events, left));
    back(text), back(lines), back(events);
}

/* `part` so often, then `end`. */
static Lent repeated(const char *part, size_t times, const char *end) {
    size_t len = strlen(part);
    Lent text = lend(len * times + strlen(end));
    for (size_t i = 0; i < times; i++)
        memcpy(text.bytes + i * len, part, len);
    if (*end != 0)
        memcpy(text.bytes + len * times, end, strlen(end));
    return text;
}

static size_t headings_size(size_t levels) { return levels * (levels + 1) / 2 + 3 * levels; }

/* Headings of level 1, 2, 3 and so on. */
static Lent headings(size_t levels) {
    Lent text = lend(headings_size(levels));
    size_t at = 0;
    for (size_t level = 1; level <= levels; level++) {
        memset(text.bytes + at, '#', level);
        memcpy(text.bytes + at + level, " a\n", 3);
        at += level + 3;
    }
    return text;
}

static void accepts(Lent text) {
    Lent lines = lend_words(TOLPHANEAP_LINE_ROOM(text.size)), events = lend_words(TOLPHANEAP_EVENT_ROOM(text.size));
    Answer answer = parse(text, lines, events);
    CHECK(answer.number == 0 && answer.position == text.size);
    CHECK(all_hold(lines, 0));
    CHECK(holds(events.bytes + 32 * answer.count, events.size - 32 * answer.count, 0));
    back(text), back(lines), back(events);
}

static void keeps_the_limits(void) {
    name = "keeps_the_limits";
    refuses(repeated("a", 16777216, ""), 2, 40, 1, 0);
    refuses(repeated("\n", 16777216, ""), 0, 0, 1, 0);
    refuses(repeated("\n", 8193, ""), 16384, 16384, 2, 0);
    refuses(repeated("\n", 2047, ""), 16384, 16384, 6, 2047);
    refuses(lend_text("a"), 1, 0, 2, 0);
    refuses(lend_text(""), 0, 7, 6, 0);
    refuses(lend_text("a\n\n> - b\n"), 6, 12 * 8, 6, 3);
    refuses(repeated("> ", 33, "a\n"), 2, 4096, 3, 64);
    refuses(repeated("> ", 33, "a\n"), 3, 4097, 3, 64);
    accepts(repeated("> ", 32, "a\n"));
    refuses(headings(33), 66, 4096, 4, headings_size(32));
    accepts(headings(32));
    refuses(repeated("#", 65536, ""), 2, 4096, 5, 0);
    accepts(repeated("#", 65535, ""));
    refuses(repeated("- a\n\n", 1, "# b\n"), 6, 0, 6, 0);

    Lent text = repeated("#", 5 + 65536, "");
    memcpy(text.bytes, "- a\n\n", 5);
    refuses(text, 6, 4096, 5, 5);
}

static void takes_the_longest_text(void) {
    name = "takes_the_longest_text";
    Lent text = repeated("a", TOLPHANEAP_MOST_TEXT, ""), lines = lend_words(2), events = lend_words(40);
    CHECK(is(parse(text, lines, events), 0, TOLPHANEAP_MOST_TEXT, 5));
    CHECK(words(events)[8 * 2 + 3] == TOLPHANEAP_MOST_TEXT);
    back(text), back(lines), back(events);
}

/* The texts that need most events for their length, and others with many. */
static void event_room_is_enough(void) {
    name = "event_room_is_enough";
    accepts(repeated(":", 1, ""));
    accepts(repeated(": ", 31, ":"));
    accepts(repeated(":\n- :\n", 500, ":"));
    accepts(repeated(":\n||\n", 500, ":"));
    accepts(repeated("|", 3000, ""));
    accepts(repeated("||\n", 1000, ""));
    accepts(repeated("|-|\n", 1000, "|"));
    accepts(repeated("#\n##\n", 500, "#"));
    accepts(repeated("- \n+ \n", 500, "-"));
    accepts(repeated("\n", 3000, ""));
    refuses(lend_text(":"), 2, TOLPHANEAP_EVENT_ROOM(1) - 1, 6, 1);
}

/* ---- writing and reading */

static void writes_into_any_room(void) {
    name = "writes_into_any_room";
    for (size_t room = 0; room < 50; room++) {
        Lent events = lend_copy(W2, sizeof W2), bytes = lend(room);
        Answer answer = write_out(events, bytes);
        if (room < sizeof W2_STREAM) {
            CHECK(is(answer, 8, room / 7, 0));
            CHECK(all_hold(bytes, MARK));
        } else {
            CHECK(is(answer, 0, 5, 35));
            CHECK(memcmp(bytes.bytes, W2_STREAM, sizeof W2_STREAM) == 0);
            CHECK(holds(bytes.bytes + sizeof W2_STREAM, room - sizeof W2_STREAM, MARK));
        }
        back(events), back(bytes);
    }
}

/* What writing refuses listing refuses with the same answer, and both leave their bytes as found. */
static void does_not_write(Lent events, uint64_t number, uint64_t position) {
    Lent bytes = lend(4096);
    CHECK(is(write_out(events, bytes), number, position, 0));
    CHECK(all_hold(bytes, MARK));
    for (size_t i = 0; i < MODE_COUNT; i++) {
        CHECK(is(list(MODES[i], events, bytes), number, position, 0));
        CHECK(all_hold(bytes, MARK));
        CHECK(is(page(MODES[i], W2_PARSED, events, bytes), number, position, 0));
        CHECK(all_hold(bytes, MARK));
    }
    back(events), back(bytes);
}

/* So many Enters of blockquotes in a Document, and no Exit. */
static Lent nested(size_t depth) {
    Lent events = lend_words(8 * depth);
    for (size_t i = 0; i < depth; i++) {
        uint32_t enter[8] = {1, i == 0 ? 1 : 2, 0, 0, 0, 0, 0, 0};
        memcpy(events.bytes + 32 * i, enter, sizeof enter);
    }
    return events;
}

static void judges_events(void) {
    name = "judges_events";
    does_not_write(lend(0), 9, 0);
    for (size_t count = 1; count < 40; count++)
        does_not_write(lend_copy(W2, 4 * count), 9, count / 8);
    does_not_write(damaged(0, 0, 0), 10, 0);
    does_not_write(damaged(2, 0, 5), 10, 2);
    does_not_write(damaged(1, 1, 22), 10, 1);
    does_not_write(damaged(2, 1, 1), 10, 2);
    does_not_write(damaged(2, 2, 2), 11, 2);
    does_not_write(damaged(4, 3, 16777216), 11, 4);
    does_not_write(damaged(2, 7, 1), 11, 2);
    does_not_write(damaged(3, 1, 16), 11, 3);
    does_not_write(damaged(3, 1, 12), 12, 3);
    does_not_write(damaged(0, 1, 2), 12, 0);
    does_not_write(damaged(1, 1, 1), 12, 1);
    does_not_write(nested(128), 9, 128);
    does_not_write(nested(129), 12, 128);

    Lent twice = lend(2 * sizeof W2);
    memcpy(twice.bytes, W2, sizeof W2);
    memcpy(twice.bytes + sizeof W2, W2, sizeof W2);
    does_not_write(twice, 12, 5);
}

static void passes_over_stale_events(void) {
    name = "passes_over_stale_events";
    Lent events = lend_words(8 * 7), bytes = lend(35), out = lend(sizeof W2_LINES - 1);
    memset(events.bytes, 0, events.size);
    memcpy(events.bytes + 32, W2, sizeof W2);
    CHECK(is(write_out(events, bytes), 0, 7, 35));
    CHECK(memcmp(bytes.bytes, W2_STREAM, 35) == 0);
    for (size_t i = 0; i < MODE_COUNT; i++) {
        memset(out.bytes, MARK, out.size);
        CHECK(is(list(MODES[i], events, out), 0, 7, sizeof W2_LINES - 1));
        CHECK(memcmp(out.bytes, W2_LINES, out.size) == 0);
    }
    back(events), back(bytes), back(out);
}

static void reads_into_any_room(void) {
    name = "reads_into_any_room";
    for (size_t room = 0; room < 50; room++) {
        Lent bytes = lend_copy(W2_STREAM, sizeof W2_STREAM), events = lend_words(room);
        Answer answer = read_in(bytes, events);
        if (room < 40) {
            CHECK(is(answer, 6, 7 * (room / 8), 0));
            CHECK(all_hold(events, MARK));
        } else {
            CHECK(is(answer, 0, 35, 5));
            CHECK(memcmp(events.bytes, W2, sizeof W2) == 0);
            CHECK(holds(events.bytes + sizeof W2, events.size - sizeof W2, 0));
        }
        back(bytes), back(events);
    }
}

static void does_not_read(Lent bytes, uint64_t number, uint64_t position) {
    Lent events = lend_words(TOLPHANEAP_READ_ROOM(bytes.size) + 8);
    CHECK(is(read_in(bytes, events), number, position, 0));
    CHECK(all_hold(events, MARK));
    back(bytes), back(events);
}

/* W2's stream with one byte changed. */
static Lent spoilt(size_t place, uint8_t value) {
    Lent bytes = lend_copy(W2_STREAM, sizeof W2_STREAM);
    bytes.bytes[place] = value;
    return bytes;
}

static void judges_records(void) {
    name = "judges_records";
    for (size_t cut = 0; cut < sizeof W2_STREAM; cut++)
        does_not_read(lend_copy(W2_STREAM, cut), 9, cut - cut % 7);
    does_not_read(spoilt(0, 0), 10, 0);
    does_not_read(spoilt(14, 255), 10, 14);
    does_not_read(spoilt(21, 86), 10, 21);
    does_not_read(spoilt(15, 2), 11, 14);
    does_not_read(spoilt(21, 76), 12, 21);
    does_not_read(spoilt(0, 34), 12, 0);

    Lent more = lend(2 * sizeof W2_STREAM);
    memcpy(more.bytes, W2_STREAM, sizeof W2_STREAM);
    memcpy(more.bytes + sizeof W2_STREAM, W2_STREAM, sizeof W2_STREAM);
    does_not_read(more, 12, 35);
}

/* A text's events written, read and written again: the same bytes. */
static void makes_the_trip(const char *from) {
    Lent text = lend_text(from), lines = lend_words(TOLPHANEAP_LINE_ROOM(text.size));
    Lent events = lend_words(TOLPHANEAP_EVENT_ROOM(text.size));
    Answer parsed = parse(text, lines, events);
    Lent bytes = lend(TOLPHANEAP_STREAM_ROOM(parsed.count));
    Answer written = write_out(events, bytes);
    CHECK(parsed.number == 0 && written.number == 0);
    Lent stream = lend_copy(bytes.bytes, (size_t)written.count), again = lend(stream.size);
    Lent live = lend_words(TOLPHANEAP_READ_ROOM(stream.size));
    Answer got = read_in(stream, live);
    CHECK(is(got, 0, stream.size, got.count) && got.count <= parsed.count);
    CHECK(is(write_out(live, again), 0, live.size / 32, stream.size));
    CHECK(memcmp(stream.bytes, again.bytes, stream.size) == 0);
    back(text), back(lines), back(events), back(bytes), back(stream), back(again), back(live);
}

static void makes_all_trips(void) {
    name = "makes_all_trips";
    makes_the_trip("");
    makes_the_trip("# a\n## b\n# c\n");
    makes_the_trip("{.x}\n# a\n\n> b\nc\n\n- [x] d\n\n18446744073709551615. e\n\n9999999999999999999) f\n");
    makes_the_trip("|a|b|\n|:-|-:|\n|c|d|\n^ e\n\n: f\n\n  g\n\n[^h]: i\n\n[j]: k\n\n::: l\n```m\nn\n```\n:::\n***\n");
}

/* ---- listings */

/* A list of events: how many, its words, and its lines with the looks behind them. `ends` has the end of each event's line, which is where the
 * line before it ends for an event without one. */
typedef struct {
    size_t count;
    const uint32_t (*events)[8];
    const char *lines;
    size_t ends[7];
} Listed;

/* A list with the looks 1 listed in every room, one byte of it after the other. */
static void lists_in_rooms(uint64_t mode, const Listed *want) {
    size_t size = want->ends[want->count - 1], all = size + strlen("looks 1\n");
    Answer parsed = {0, 2, want->count, 1};
    CHECK(strlen(want->lines) == all);
    for (size_t room = 0; room < all + 12; room++) {
        Lent events = lend_copy(want->events, 32 * want->count), out = lend(room), whole = lend(room);
        Answer listed = list(mode, events, out), paged = page(mode, parsed, events, whole);
        size_t fit = 0;
        while (fit < want->count && want->ends[fit] <= room)
            fit++;
        if (room < size) {
            CHECK(is(listed, 8, fit, 0) && all_hold(out, MARK));
        } else {
            CHECK(is(listed, 0, want->count, size) && memcmp(out.bytes, want->lines, size) == 0);
            CHECK(holds(out.bytes + size, room - size, MARK));
        }
        if (room < all) {
            CHECK(is(paged, 8, fit, 0) && all_hold(whole, MARK));
        } else {
            CHECK(is(paged, 0, want->count, all) && memcmp(whole.bytes, want->lines, all) == 0);
            CHECK(holds(whole.bytes + all, room - all, MARK));
        }
        back(events), back(out), back(whole);
    }
}

static void lists_into_any_room(void) {
    name = "lists_into_any_room";
    static const Listed want = {5, W2, W2_PAGE, {15, 31, 37, 53, 68}};
    for (size_t i = 0; i < MODE_COUNT; i++)
        lists_in_rooms(MODES[i], &want);
}

/* A blank line on each side of a break: the parse of "\n***\n\n" with a Stale event put in. */
static const uint32_t BLANKS[6][8] = {{1, 1, 0, 0, 0, 0, 0, 0}, {4, 1, 0, 1, 0, 0, 0, 0}, {4, 3, 1, 4, 0, 0, 0, 0},
                                      {0, 0, 0, 0, 0, 0, 0, 0}, {4, 1, 5, 6, 0, 0, 0, 0}, {2, 1, 6, 6, 0, 0, 0, 0}};

/* In the full listing a blank line has a line and needs room for it; in the short one it has none and needs none, wherever it stands. */
static void lists_blank_lines_by_mode(void) {
    name = "lists_blank_lines_by_mode";
    static const Listed full = {6, BLANKS,
                                "E Document 0 0\nA Blankline 0 1\nA ThematicBreak 1 4\nA Blankline 5 6\nX Document 6 6\nlooks 1\n",
                                {15, 31, 51, 51, 67, 82}};
    static const Listed brief = {6, BLANKS, "E Document 0 0\nA ThematicBreak 1 4\nX Document 6 6\nlooks 1\n", {15, 15, 35, 35, 35, 50}};
    for (size_t i = 0; i < MODE_COUNT; i++)
        lists_in_rooms(MODES[i], MODES[i] == TOLPHANEAP_FULL ? &full : &brief);
}

/* Words with a blank line last are no Document, so that is refused before room is asked for, in both modes. Here the blank line is the last event
 * before Document's Exit, and the bytes are enough for all lines but its own. */
static void refuses_a_blank_line_in_full_alone(void) {
    name = "refuses_a_blank_line_in_full_alone";
    uint32_t few[3][8];
    memcpy(few[0], BLANKS[0], 32);
    memcpy(few[1], BLANKS[1], 32);
    memcpy(few[2], BLANKS[5], 32);
    Lent events = lend_copy(few, sizeof few), cut = lend_copy(few, 64), out = lend(30);
    Answer parsed = {0, 6, 3, 1};
    CHECK(is(list(TOLPHANEAP_FULL, events, out), 8, 1, 0) && all_hold(out, MARK));
    CHECK(is(page(TOLPHANEAP_FULL, parsed, events, out), 8, 1, 0) && all_hold(out, MARK));
    CHECK(is(page(TOLPHANEAP_SHORT, parsed, events, out), 8, 3, 0) && all_hold(out, MARK));
    CHECK(is(list(TOLPHANEAP_FULL, cut, out), 9, 2, 0) && is(list(TOLPHANEAP_SHORT, cut, out), 9, 2, 0) && all_hold(out, MARK));
    CHECK(is(list(TOLPHANEAP_SHORT, events, out), 0, 3, 30));
    CHECK(memcmp(out.bytes, "E Document 0 0\nX Document 6 6\n", 30) == 0);
    back(events), back(cut), back(out);
}

static void lists_a_refusal(void) {
    name = "lists_a_refusal";
    static const char line[] = "refused 3 at 64\n";
    Answer refused = {3, 64, 0, 0}, longest = {UINT64_MAX, UINT64_MAX, 0, 0};
    size_t size = sizeof line - 1;
    for (size_t room = 0; room < size + 4; room++) {
        Lent none = lend(0), out = lend(room);
        Answer answer = page(MODES[room % MODE_COUNT], refused, none, out);
        if (room < size) {
            CHECK(is(answer, 8, 0, 0) && all_hold(out, MARK));
        } else {
            CHECK(is(answer, 0, 0, size) && memcmp(out.bytes, line, size) == 0);
            CHECK(holds(out.bytes + size, room - size, MARK));
        }
        back(none), back(out);
    }
    /* events are not looked at, and a line's room is enough for any answer */
    Lent bad = damaged(0, 0, 99), out = lend(TOLPHANEAP_LISTING_ROOM(0));
    CHECK(page(TOLPHANEAP_SHORT, longest, bad, out).number == 0);
    CHECK(page(TOLPHANEAP_FULL, longest, bad, out).number == 0);
    back(bad), back(out);
}

/* The longest line there can be, an Ordered list's. */
static void entry_room_is_enough(void) {
    name = "entry_room_is_enough";
    uint32_t far = TOLPHANEAP_MOST_TEXT;
    uint32_t list_words[8] = {1, 5, far, far, 1, 22, UINT32_MAX, UINT32_MAX};
    Lent events = lend_words(32), out = lend(15 + 2 * TOLPHANEAP_MOST_ENTRY + 27);
    memcpy(events.bytes, W2[0], 32);
    memcpy(events.bytes + 32, list_words, 32);
    list_words[0] = 2;
    memcpy(events.bytes + 64, list_words, 32);
    memcpy(events.bytes + 96, W2[4], 32);
    CHECK(is(list(TOLPHANEAP_SHORT, events, out), 0, 4, 15 + 2 * TOLPHANEAP_MOST_ENTRY + 15));
    CHECK(is(list(TOLPHANEAP_FULL, events, out), 0, 4, 15 + 2 * TOLPHANEAP_MOST_ENTRY + 15));
    Lent bytes = lend(7 + 2 * TOLPHANEAP_MOST_RECORD + 7);
    CHECK(is(write_out(events, bytes), 0, 4, bytes.size));
    back(events), back(out), back(bytes);
}

/* ---- nothing lent */

static void takes_null_for_nothing(void) {
    name = "takes_null_for_nothing";
    uint64_t parsed[4], answer[3], refused[4] = {6, 0, 0, 0};
    uint32_t events[16];
    uint8_t out[64];
    tolphaneap_parse(NULL, 0, NULL, 0, NULL, 0, parsed);
    CHECK(parsed[0] == 6 && parsed[1] == 0 && parsed[2] == 0 && parsed[3] == 0);
    tolphaneap_parse(NULL, 0, NULL, 0, events, 16, parsed);
    CHECK(parsed[0] == 0 && parsed[1] == 0 && parsed[2] == 2 && parsed[3] == 0);
    tolphaneap_parse((const uint8_t *)"a", 1, NULL, 0, events, 16, parsed);
    CHECK(parsed[0] == 2 && events[0] == 1);
    tolphaneap_write(NULL, 0, NULL, 0, answer);
    CHECK(answer[0] == 9 && answer[1] == 0);
    tolphaneap_write(events, 16, NULL, 0, answer);
    CHECK(answer[0] == 8 && answer[1] == 0);
    tolphaneap_read(NULL, 0, NULL, 0, answer);
    CHECK(answer[0] == 9 && answer[1] == 0);
    tolphaneap_read(W2_STREAM, 35, NULL, 0, answer);
    CHECK(answer[0] == 6 && answer[1] == 0);
    for (uint64_t mode = TOLPHANEAP_SHORT; mode <= TOLPHANEAP_FULL; mode++) {
        tolphaneap_list(mode, NULL, 0, NULL, 0, answer);
        CHECK(answer[0] == 9 && answer[1] == 0);
        tolphaneap_list(mode, events, 16, NULL, 0, answer);
        CHECK(answer[0] == 8 && answer[1] == 0);
        tolphaneap_page(mode, refused, NULL, 0, NULL, 0, answer);
        CHECK(answer[0] == 8 && answer[1] == 0);
        tolphaneap_page(mode, refused, NULL, 0, out, sizeof out, answer);
        CHECK(answer[0] == 0 && answer[2] == 15 && memcmp(out, "refused 6 at 0\n", 15) == 0);
    }
}

static void all_calls(void) {
    parses_into_any_room();
    keeps_the_limits();
    takes_the_longest_text();
    event_room_is_enough();
    writes_into_any_room();
    judges_events();
    passes_over_stale_events();
    reads_into_any_room();
    judges_records();
    makes_all_trips();
    lists_into_any_room();
    lists_blank_lines_by_mode();
    refuses_a_blank_line_in_full_alone();
    lists_a_refusal();
    entry_room_is_enough();
    takes_null_for_nothing();
}

int main(void) {
    run_twice(all_calls);
    name = "all_refusals";
    for (int number = 0; number <= 12; number++)
        CHECK(seen[number] == (number != 7));
    return verdict("calls");
}
