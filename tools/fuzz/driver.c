/* The fuzz driver: any bytes and any rooms through every function of the static library, held to what needs no second parser. */
#include "reached.h"
#include "tolphaneap.h"

#include <stdio.h>
#include <stdlib.h>
#include <string.h>
#include <sys/mman.h>
#include <unistd.h>

/* Of each input: two flags and the listing's mode, line words too few, event words, output bytes, a place and a byte of damage; the rest is the data. */
#define HEAD 8
#define MOST (1u << 16)
#define CANARY 0xc5
#define BESIDE 64

/* The library is not instrumented, so ASan does not see its accesses: buffers end or begin at a page that cannot be accessed. */
typedef struct {
    uint8_t *base;
    size_t size;
    uint8_t *at;
    size_t len;
} lent;

static lent text, lines, events, again, words, stream, second, out;
static int at_end, may_be_null;
static uint64_t mode;

/* libFuzzer takes these as coverage, beside the instructions that are reached: what was answered. */
__attribute__((section("__libfuzzer_extra_counters"))) static uint8_t seen[1 << 15];

static void see(uint64_t what) {
    uint8_t *counter = &seen[(what * 0x9e3779b97f4a7c15u) >> 49];
    if (*counter < 255) ++*counter;
}

static void need(int holds, const char *what) {
    if (holds) return;
    fprintf(stderr, "fuzz: it does not hold that %s\n", what);
    abort();
}

static void reserve(lent *l, size_t size) {
    size_t page = (size_t)sysconf(_SC_PAGESIZE);
    size = (size + 2 * BESIDE + page - 1) / page * page;
    uint8_t *all = mmap(NULL, size + 2 * page, PROT_NONE, MAP_PRIVATE | MAP_ANONYMOUS, -1, 0);
    need(all != MAP_FAILED, "there is memory");
    need(mprotect(all + page, size, PROT_READ | PROT_WRITE) == 0, "memory can be opened");
    l->base = all + page;
    l->size = size;
}

/* A buffer of so many bytes, each with this value; canaries on the side where no closed page is. */
static void place(lent *l, size_t len, uint8_t fill) {
    need(len + BESIDE <= l->size, "the room was reserved");
    l->len = len;
    l->at = at_end ? l->base + l->size - len : l->base;
    memset(at_end ? l->at - BESIDE : l->at + len, CANARY, BESIDE);
    memset(l->at, fill, len);
}

static void give(lent *l, const void *data, size_t len) {
    place(l, len, 0);
    if (len) memcpy(l->at, data, len);
}

static void *start(const lent *l) { return l->len == 0 && may_be_null ? NULL : l->at; }

static void beside(const lent *l) {
    const uint8_t *p = at_end ? l->at - BESIDE : l->at + l->len;
    need(*p == CANARY && memcmp(p, p + 1, BESIDE - 1) == 0, "nothing is written beside a buffer");
}

/* Each byte equals the next: one memcmp, since a loop here would be counted as coverage byte by byte. */
static int all_are(const lent *l, size_t from, uint8_t value) {
    const uint8_t *p = l->at + from;
    return from >= l->len || (*p == value && memcmp(p, p + 1, l->len - from - 1) == 0);
}

static size_t min(size_t a, size_t b) { return a < b ? a : b; }

static void parse(lent *e, size_t line_words, size_t event_words, uint8_t fill, uint64_t answer[4]) {
    place(&lines, 4 * line_words, fill);
    place(e, 4 * event_words, fill);
    memset(answer, fill, 32);
    tolphaneap_parse(start(&text), text.len, start(&lines), line_words, start(e), event_words, answer);
    beside(&text);
    beside(&lines);
    beside(e);
    need(answer[0] <= 6, "a parse gives refusals 1 to 6 only");
    need(answer[1] <= text.len, "a parse's position is in the text");
    need(answer[2] * 8 <= event_words, "a parse's events have room");
    if (answer[0] == 0) {
        need(answer[1] == text.len && answer[2] >= 2, "an accepted parse has read all");
        need(all_are(&lines, 0, 0), "an accepted parse leaves zeros in the line words");
        need(all_are(e, 32 * answer[2], 0), "an accepted parse leaves zeros behind its events");
        return;
    }
    need(answer[2] == 0 && answer[3] == 0, "a refused parse counts nothing");
    uint8_t left = answer[0] <= 2 ? fill : 0;
    need(all_are(&lines, 0, left) && all_are(e, 0, left), "a refused parse leaves zeros, or all as found");
}

/* Words written or listed twice, with room for so many bytes: 0 write, 1 list, 2 page, both in `mode`. */
static void emit(int how, const uint64_t parsed[4], size_t room, uint64_t answer[3]) {
    static const uint8_t fills[2] = {0x5b, 0xa4};
    uint64_t first[3] = {0};
    size_t n = words.len / 4;
    for (int i = 0; i < 2; i++) {
        lent *o = i == 0 ? &out : &second;
        place(o, room, fills[i]);
        memset(answer, fills[i], 24);
        if (how == 0) tolphaneap_write(start(&words), n, start(o), room, answer);
        if (how == 1) tolphaneap_list(mode, start(&words), n, start(o), room, answer);
        if (how == 2) tolphaneap_page(mode, parsed, start(&words), n, start(o), room, answer);
        beside(&words);
        beside(o);
        need(answer[0] == 0 || (answer[0] >= 8 && answer[0] <= 12), "words are refused by 8 to 12");
        need(answer[1] <= n / 8 && answer[2] <= room, "position and count are in bounds");
        need(answer[0] == 0 || answer[2] == 0, "a refusal counts nothing");
        need(all_are(o, answer[2], fills[i]), "bytes behind the answer stay as found");
        if (i == 0) memcpy(first, answer, sizeof first);
    }
    need(memcmp(first, answer, sizeof first) == 0, "the same call gives the same answer");
    need(memcmp(out.at, second.at, answer[2]) == 0, "the same call gives the same bytes");
    see(1000 + 50 * (uint64_t)how + 16 * (mode == TOLPHANEAP_FULL) + answer[0]);
}

/* A parse as a page in a mode, which a byte less has no room for; it stays in `out`. */
static size_t page_in(uint64_t in, const uint64_t parsed[4]) {
    uint64_t answer[3];
    mode = in;
    emit(2, parsed, TOLPHANEAP_LISTING_ROOM(parsed[2]), answer);
    need(answer[0] == 0, "a parse can be listed as a page");
    size_t len = answer[2];
    emit(2, parsed, len - 1, answer);
    need(answer[0] == 8, "a page without its last byte is refusal 8");
    emit(2, parsed, len, answer);
    need(answer[0] == 0 && answer[2] == len, "a page has room in its own length");
    return len;
}

/* The short page is the full one without the lines of Blanklines. */
static void compare_modes(const uint64_t parsed[4]) {
    static const char blank[] = "A Blankline ";
    uint64_t asked = mode;
    size_t len = page_in(TOLPHANEAP_FULL, parsed), kept = 0;
    uint8_t *left = malloc(len);
    need(left != NULL, "there is memory");
    for (uint8_t *line = out.at, *end = line + len; line < end;) {
        size_t size = (size_t)((uint8_t *)memchr(line, '\n', (size_t)(end - line)) + 1 - line);
        if (size < sizeof blank || memcmp(line, blank, sizeof blank - 1) != 0) {
            memcpy(left + kept, line, size);
            kept += size;
        }
        line += size;
    }
    len = page_in(TOLPHANEAP_SHORT, parsed);
    need(len == kept && memcmp(out.at, left, kept) == 0, "the short page is the full one without blank lines");
    mode = asked;
    free(left);
}

/* A stream read twice; what is accepted is written as the same bytes. */
static void receive(const void *data, size_t len, size_t room) {
    uint64_t first[3], answer[3], back[3];
    give(&stream, data, len);
    place(&events, 4 * room, 0x5b);
    memset(first, 0x5b, sizeof first);
    tolphaneap_read(start(&stream), len, start(&events), room, first);
    place(&again, 4 * room, 0xa4);
    memset(answer, 0xa4, sizeof answer);
    tolphaneap_read(start(&stream), len, start(&again), room, answer);
    beside(&stream);
    beside(&events);
    beside(&again);
    need(memcmp(first, answer, sizeof first) == 0, "the same stream gives the same answer");
    need(answer[1] <= len && answer[2] * 8 <= room, "a reader's answer is in bounds");
    see(2000 + answer[0]);
    see(2100 + 16 * answer[0] + min(answer[1] / 8, 15));
    if (answer[0] != 0) {
        need(answer[0] == 6 || (answer[0] >= 9 && answer[0] <= 12), "a stream is refused by 6 or 9 to 12");
        need(all_are(&events, 0, 0x5b) && all_are(&again, 0, 0xa4), "a refused stream leaves all as found");
        return;
    }
    need(answer[1] == len, "an accepted stream was read to its end");
    need(memcmp(events.at, again.at, 4 * room) == 0, "the same stream gives the same words");
    need(all_are(&events, 32 * answer[2], 0), "words behind the events are zero");
    give(&words, events.at, 32 * answer[2]);
    emit(0, NULL, len, back);
    need(back[0] == 0 && back[1] == answer[2] && back[2] == len, "what was read can be written");
    need(memcmp(out.at, stream.at, len) == 0, "what was read is written as the same bytes");
}

/* What the events of an accepted parse look like, for libFuzzer. */
static void look_at(const uint32_t *e, size_t count) {
    uint32_t before = 0;
    size_t depth = 0;
    for (size_t i = 0; i < count; i++, e += 8) {
        uint32_t kind = e[0] << 5 | e[1];
        uint32_t small = e[1] == 3 || e[1] == 11 || e[1] >= 20 ? e[5] > e[4] : e[4] & 63;
        see(3000 + ((uint64_t)before << 16 | kind << 6 | small));
        see(1u << 30 | kind << 8 | (uint64_t)min(depth, 40));
        depth += e[0] == 1;
        depth -= e[0] == 2 && depth > 0;
        before = kind;
    }
}

int LLVMFuzzerInitialize(int *argc, char ***argv) {
    (void)argc, (void)argv;
    lent *all[] = {&text, &lines, &events, &again, &words, &stream, &second, &out};
    for (size_t i = 0; i < sizeof all / sizeof *all; i++) reserve(all[i], 64 * MOST);
    const char *instructions = getenv("TOLPHANEAP_INSTRUCTIONS");
    if (instructions != NULL) watch(instructions);
    return 0;
}

int LLVMFuzzerTestOneInput(const uint8_t *data, size_t size) {
    if (size < HEAD || size > MOST) return 0;
    uint8_t head[HEAD];
    memcpy(head, data, HEAD);
    data += HEAD, size -= HEAD;
    at_end = head[0] & 1;
    may_be_null = head[0] >> 1 & 1;
    mode = head[0] >> 2;
    size_t event_words = (head[2] | (size_t)head[3] << 8) % 8192, room = (head[4] | (size_t)head[5] << 8) % 8192;

    size_t count = size > 0 && data[size - 1] != '\n';
    for (size_t i = 0; i < size; i++) count += data[i] == '\n';
    size_t line_words = 2 * count - min(2 * count, head[1]);

    uint64_t answer[4], same[4], sent[3], page[3];
    give(&text, data, size);
    parse(&events, line_words, event_words, 0x5b, answer);
    parse(&again, line_words, event_words, 0xa4, same);
    need(memcmp(answer, same, sizeof answer) == 0, "the same text gives the same answer");
    need(memcmp(text.at, data, size) == 0, "a text stays as it was");
    need((answer[0] == 2) == (line_words < 2 * count), "refusal 2 is given exactly where line words are too few");
    see(answer[0]);
    see(100 + 32 * answer[0] + min(answer[1], 31));
    if (answer[0] == 0) {
        need(memcmp(events.at, again.at, 4 * event_words) == 0, "the same text gives the same words");
        look_at((const uint32_t *)events.at, answer[2]);
        give(&words, events.at, 32 * answer[2]);
        emit(0, NULL, TOLPHANEAP_STREAM_ROOM(answer[2]), sent);
        need(sent[0] == 0, "a parse's events can be written");
        size_t len = sent[2];
        uint8_t *kept = malloc(len + 1);
        need(kept != NULL, "there is memory");
        memcpy(kept, out.at, len);
        emit(0, NULL, len - 1, sent);
        need(sent[0] == 8, "a byte too few is refusal 8");
        emit(1, NULL, TOLPHANEAP_LISTING_ROOM(answer[2]), sent);
        need(sent[0] == 0, "a parse's events can be listed");
        emit(2, answer, TOLPHANEAP_LISTING_ROOM(answer[2]), page);
        need(page[0] == 0 && page[2] > sent[2], "a page has a line more than its events");
        compare_modes(answer);
        receive(kept, len, len / 7 * 8);
        receive(kept, len, min(room, len / 7 * 8));
        kept[(head[6] | (size_t)head[1] << 8) % len] = head[7];
        receive(kept, len, len / 7 * 8 + 8);
        receive(kept, len - head[7] % len, len / 7 * 8);
        free(kept);
    } else {
        give(&words, NULL, 0);
        emit(2, answer, room, page);
    }

    /* The same bytes as a stream and as words, which need not be what anyone wrote. */
    receive(data, size, size / 7 * 8 + 8);
    give(&words, data, size / 4 * 4);
    emit(0, NULL, room, sent);
    emit(1, NULL, room, sent);
    emit(2, answer, room, sent);
    return 0;
}
