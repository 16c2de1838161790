/* Calls tolphaneap_changes of include/tolphaneap.h on good and bad editions and exits 1 on a failure: calls_changes
 * cc -std=c99 -O2 -I include bindings/c/calls_changes.c target/staticlib/libtolphaneap.a -o calls_changes
 * All runs twice: with marks on both sides of every buffer, and with every buffer up against a page that cannot be touched. */
#define _DEFAULT_SOURCE
#include "tolphaneap.h"

#include "lent.h"

/* Which refusals came, of the older text and of the newer. */
static unsigned char seen[3][16];

static uint32_t *words(Lent lent) { return (uint32_t *)(void *)lent.bytes; }

static Lent lend_words(size_t count) { return lend(count * sizeof(uint32_t)); }

/* ---- editions, and the call with all that it is lent */

typedef struct {
    Lent text, events;
} Edition;

typedef struct {
    uint64_t number, position, which, start, end;
} Answer;

/* A text with the events of its parse, and no words behind them. */
static Edition parsed(Lent text) {
    Lent lines = lend_words(TOLPHANEAP_LINE_ROOM(text.size)), events = lend_words(TOLPHANEAP_EVENT_ROOM(text.size));
    uint64_t answer[4];
    tolphaneap_parse(text.bytes, text.size, words(lines), lines.size / 4, words(events), events.size / 4, answer);
    CHECK(answer[0] == 0);
    Edition edition = {text, lend_copy(events.bytes, 32 * (size_t)answer[2])};
    back(lines), back(events);
    return edition;
}

static Edition edition(const char *text) { return parsed(lend_text(text)); }

static void give_back(Edition edition) { back(edition.text), back(edition.events); }

static Answer changes(Edition older, Edition newer, size_t line_words, size_t event_words) {
    Lent lines = lend_words(line_words), events = lend_words(event_words), lent = lend(sizeof(Answer));
    Answer answer;
    tolphaneap_changes(older.text.bytes, older.text.size, words(older.events), older.events.size / 4, newer.text.bytes,
                       newer.text.size, words(newer.events), newer.events.size / 4, words(lines), line_words, words(events),
                       event_words, slots(lent));
    memcpy(&answer, lent.bytes, sizeof answer);
    CHECK(all_hold(lines, 0) && all_hold(events, 0));
    back(lines), back(events), back(lent);
    CHECK(answer.which == TOLPHANEAP_OLDER || answer.which == TOLPHANEAP_NEWER);
    CHECK(answer.number <= 6 || answer.number == 15);
    if (answer.number == 0)
        CHECK(answer.position == 0 && answer.start <= answer.end);
    else
        CHECK(answer.start == 0 && answer.end == 0);
    if (answer.which <= 2 && answer.number < sizeof seen[0])
        seen[answer.which][answer.number] = 1;
    return answer;
}

static int is_part(Answer answer, uint64_t which, uint64_t start, uint64_t end) {
    return answer.number == 0 && answer.which == which && answer.start == start && answer.end == end;
}

static int is_refused(Answer answer, uint64_t which, uint64_t number, uint64_t position) {
    return answer.which == which && answer.number == number && answer.position == position;
}

/* As many words as are always enough for both. */
static Answer changes_roomy(Edition older, Edition newer) {
    size_t most = older.text.size < newer.text.size ? newer.text.size : older.text.size;
    return changes(older, newer, TOLPHANEAP_LINE_ROOM(most), TOLPHANEAP_EVENT_ROOM(most));
}

/* ---- parts */

/* The part of `was` and `is` that changed, and the same the other way round. */
static void finds(const char *was, const char *is, uint64_t which, uint64_t start, uint64_t end, uint64_t which_back,
                  uint64_t start_back, uint64_t end_back) {
    Edition older = edition(was), newer = edition(is);
    CHECK(is_part(changes_roomy(older, newer), which, start, end));
    CHECK(is_part(changes_roomy(newer, older), which_back, start_back, end_back));
    CHECK(memcmp(older.text.bytes, was, strlen(was)) == 0 && memcmp(newer.text.bytes, is, strlen(is)) == 0);
    /* a text may be both */
    CHECK(is_part(changes_roomy(older, older), TOLPHANEAP_NEWER, older.text.size, older.text.size));
    give_back(older), give_back(newer);
}

static void finds_parts(void) {
    name = "finds_parts";
    enum { OLD = TOLPHANEAP_OLDER, NEW = TOLPHANEAP_NEWER };
    finds("", "", NEW, 0, 0, NEW, 0, 0);
    finds("", "a\n", NEW, 0, 2, OLD, 0, 2);
    finds("a\n\nc\n", "a\n\nb\n\nc\n", NEW, 3, 6, OLD, 3, 6);
    finds("a\n\nb\n\nc\n", "a\n\nx\ny\n\nc\n", NEW, 3, 7, NEW, 3, 5);
    finds("a\n", "a\n\na\n", NEW, 2, 5, OLD, 2, 5);
    finds("a\n", "a", NEW, 0, 1, NEW, 0, 2);
    finds("# a\n\nb\n", "# c\n\nb\n", NEW, 0, 4, NEW, 0, 4);
    finds("# a\n## b\nc\n", "# a\n", OLD, 4, 11, NEW, 4, 11);
    finds("x\n\n- a\n- b\n", "x\n\n- a\n- c\n", NEW, 3, 11, NEW, 3, 11);
    finds("{.x}\na\n", "a\n", OLD, 0, 5, NEW, 0, 5);
}

/* ---- what a parse refuses */

static void compares_in_any_room(void) {
    name = "compares_in_any_room";
    Edition older = edition("a\n\nb\n"), newer = edition("a\n\nb\n\nc\n");
    size_t was = older.events.size / 4, is = newer.events.size / 4;
    for (size_t line_words = 0; line_words < 12; line_words++)
        for (size_t event_words = 0; event_words < is + 9; event_words++) {
            Answer answer = changes(older, newer, line_words, event_words);
            if (line_words < 6)
                CHECK(is_refused(answer, TOLPHANEAP_OLDER, 2, 0));
            else if (event_words < was)
                CHECK(answer.number == 6 && answer.which == TOLPHANEAP_OLDER);
            else if (line_words < 10)
                CHECK(is_refused(answer, TOLPHANEAP_NEWER, 2, 0));
            else if (event_words < is)
                CHECK(answer.number == 6 && answer.which == TOLPHANEAP_NEWER);
            else
                CHECK(is_part(answer, TOLPHANEAP_NEWER, 5, 8));
        }
    give_back(older), give_back(newer);
}

/* A text, whatever its events, is refused as either edition, and as both the older is. */
static void refuses(Lent text, size_t line_words, size_t event_words, uint64_t number, uint64_t position) {
    Edition good = edition(""), bad = {text, lend_words(11)};
    CHECK(is_refused(changes(bad, good, line_words, event_words), TOLPHANEAP_OLDER, number, position));
    CHECK(is_refused(changes(good, bad, line_words, event_words), TOLPHANEAP_NEWER, number, position));
    CHECK(is_refused(changes(bad, bad, line_words, event_words), TOLPHANEAP_OLDER, number, position));
    give_back(good), give_back(bad);
}

/* `part` so often. */
static Lent repeated(const char *part, size_t times) {
    size_t len = strlen(part);
    Lent text = lend(len * times);
    for (size_t i = 0; i < times; i++)
        memcpy(text.bytes + i * len, part, len);
    return text;
}

/* Headings of level 1, 2, 3 and so on. */
static Lent headings(size_t levels) {
    Lent text = lend(levels * (levels + 1) / 2 + 3 * levels);
    uint8_t *at = text.bytes;
    for (size_t level = 1; level <= levels; level++) {
        memset(at, '#', level);
        memcpy(at + level, " a\n", 3);
        at += level + 3;
    }
    return text;
}

static void refuses_what_a_parse_refuses(void) {
    name = "refuses_what_a_parse_refuses";
    refuses(repeated("a", 16777216), 2, 40, 1, 0);
    refuses(repeated("\n", 8193), 16384, 16384, 2, 0);
    refuses(repeated("> ", 33), 3, 4097, 3, 64);
    refuses(headings(33), 66, 4096, 4, 624);
    refuses(repeated("#", 65536), 2, 4096, 5, 0);
    refuses(lend_text("> - b\n"), 2, 5 * 8, 6, 4);
}

/* ---- events that are not the text's */

/* A text whose parse leaves Stale events. */
static const char STALE[] = ": a\n\n  b\n\n# c\n";

/* The text with these events is refused with 15 as either edition. */
static void strays(const void *given, size_t size, uint64_t index) {
    Edition good = edition(STALE), bad = {lend_text(STALE), lend_copy(given, size)};
    CHECK(is_refused(changes_roomy(bad, good), TOLPHANEAP_OLDER, 15, index));
    CHECK(is_refused(changes_roomy(good, bad), TOLPHANEAP_NEWER, 15, index));
    CHECK(memcmp(bad.events.bytes, given, size) == 0);
    give_back(good), give_back(bad);
}

static void holds_events_to_their_text(void) {
    name = "holds_events_to_their_text";
    Edition good = edition(STALE);
    size_t size = good.events.size;
    uint32_t given[256], blank[8] = {4, 1, 0, 0, 0, 0, 0, 0};
    CHECK(size + 32 <= sizeof given);
    for (size_t place = 0; place < size / 4; place++) {
        memcpy(given, good.events.bytes, size);
        given[place] ^= 1;
        strays(given, size, place / 8);
    }
    /* an event put in */
    for (size_t index = 0; index <= size / 32; index++) {
        memcpy(given, good.events.bytes, 32 * index);
        memcpy(given + 8 * index, blank, 32);
        memcpy(given + 8 * index + 8, good.events.bytes + 32 * index, size - 32 * index);
        strays(given, size + 32, index);
        given[8 * index] = 0; /* role 0, and yet not Stale */
        strays(given, size + 32, index);
    }
    /* cut off anywhere */
    for (size_t count = 0; count < size / 4; count++)
        strays(good.events.bytes, 4 * count, count / 8);
    give_back(good);
}

static void passes_over_stale_events(void) {
    name = "passes_over_stale_events";
    Edition good = edition(STALE);
    size_t size = good.events.size, stale = 0, end = strlen(STALE);
    for (size_t index = 0; index < size / 32; index++)
        stale += holds(good.events.bytes + 32 * index, 32, 0);
    CHECK(stale > 0);
    for (size_t index = 0; index <= size / 32; index++) {
        /* one more, and seven words behind the last event */
        Edition more = {lend_text(STALE), lend(size + 32 + 28)};
        memcpy(more.events.bytes, good.events.bytes, 32 * index);
        memset(more.events.bytes + 32 * index, 0, 32);
        memcpy(more.events.bytes + 32 * index + 32, good.events.bytes + 32 * index, size - 32 * index);
        CHECK(is_part(changes_roomy(more, good), TOLPHANEAP_NEWER, end, end));
        CHECK(is_part(changes_roomy(good, more), TOLPHANEAP_NEWER, end, end));
        give_back(more);
    }
    give_back(good);
}

/* ---- nothing lent */

static void takes_null_for_nothing(void) {
    name = "takes_null_for_nothing";
    uint64_t answer[5];
    uint32_t events[16], empty[16] = {1, 1, 0, 0, 0, 0, 0, 0, 2, 1, 0, 0, 0, 0, 0, 0};
    tolphaneap_changes(NULL, 0, NULL, 0, NULL, 0, NULL, 0, NULL, 0, NULL, 0, answer);
    CHECK(answer[0] == 6 && answer[1] == 0 && answer[2] == TOLPHANEAP_OLDER && answer[3] == 0 && answer[4] == 0);
    tolphaneap_changes(NULL, 0, NULL, 0, NULL, 0, NULL, 0, NULL, 0, events, 16, answer);
    CHECK(answer[0] == 15 && answer[1] == 0 && answer[2] == TOLPHANEAP_OLDER);
    tolphaneap_changes(NULL, 0, empty, 16, NULL, 0, NULL, 0, NULL, 0, events, 16, answer);
    CHECK(answer[0] == 15 && answer[1] == 0 && answer[2] == TOLPHANEAP_NEWER);
    tolphaneap_changes(NULL, 0, empty, 16, NULL, 0, empty, 16, NULL, 0, events, 16, answer);
    CHECK(answer[0] == 0 && answer[1] == 0 && answer[2] == TOLPHANEAP_NEWER && answer[3] == 0 && answer[4] == 0);
}

static void all_calls(void) {
    finds_parts();
    compares_in_any_room();
    refuses_what_a_parse_refuses();
    holds_events_to_their_text();
    passes_over_stale_events();
    takes_null_for_nothing();
}

int main(void) {
    run_twice(all_calls);
    name = "all_refusals";
    for (int which = 1; which <= 2; which++)
        for (int number = 0; number < 16; number++)
            CHECK(seen[which][number] == (number <= 6 || number == 15));
    return verdict("calls_changes");
}
