/* Calls every function of include/tolphaneap_sets.h on good and bad input and exits 1 on a failure: calls_sets
 * cc -std=c99 -O2 -I include bindings/c/calls_sets.c target/staticlib/libtolphaneap_sets.a -o calls_sets
 * All runs twice: with marks on both sides of every buffer, and with every buffer up against a page that cannot be touched. */
#define _DEFAULT_SOURCE
#include "tolphaneap_sets.h"

#include "lent.h"

enum { ELEMENT = TOLPHANEAP_SET_ELEMENT_WORDS, PIECE = TOLPHANEAP_SET_PIECE_WORDS };

static unsigned char seen[15];

static Lent lend_words(size_t count) { return lend(count * sizeof(uint64_t)); }

static size_t count_of(Lent lent) { return lent.size / sizeof(uint64_t); }

static int words_are(Lent lent, const uint64_t *words, size_t count) {
    size_t size = count * sizeof(uint64_t);
    return size <= lent.size && (size == 0 || memcmp(lent.bytes, words, size) == 0) &&
           holds(lent.bytes + size, lent.size - size, 0);
}

/* ---- calls, with the answer lent too */

typedef struct {
    uint64_t number, position, count;
} Answer;

static int is(Answer answer, uint64_t number, uint64_t position, uint64_t count) {
    return answer.number == number && answer.position == position && answer.count == count;
}

/* What is lent to a call. */
typedef struct {
    Lent set, elements, pieces, places, spare, out;
} Call;

static Call lend_all(Lent set, size_t elements, size_t pieces, size_t places, size_t out) {
    Call call = {set, lend_words(elements), lend_words(pieces), lend_words(places), lend_words(places), lend(out)};
    return call;
}

/* As much as the header says is enough. */
static Call lend_room(Lent set) {
    size_t n = set.size;
    return lend_all(set, TOLPHANEAP_SET_ELEMENT_ROOM(n), TOLPHANEAP_SET_PIECE_ROOM(n), TOLPHANEAP_SET_PLACE_ROOM(n),
                    TOLPHANEAP_SET_TEXT_ROOM(n));
}

/* Marks again in all but the set. */
static void mark(Call call) {
    Lent lent[5] = {call.elements, call.pieces, call.places, call.spare, call.out};
    for (size_t i = 0; i < 5; i++)
        if (lent[i].size > 0)
            memset(lent[i].bytes, MARK, lent[i].size);
}

static void back_all(Call call) {
    back(call.set), back(call.elements), back(call.pieces), back(call.places), back(call.spare), back(call.out);
}

static Answer taken(Lent lent, Call call) {
    Answer answer = {0, 0, 0};
    memcpy(&answer, lent.bytes, lent.size);
    back(lent);
    if (answer.number < sizeof seen)
        seen[answer.number] = 1;
    if (answer.number == 0) {
        CHECK(answer.position == call.set.size);
    } else {
        CHECK(answer.number == 8 || answer.number == 13 || answer.number == 14);
        CHECK(answer.count == 0 && answer.position <= call.set.size && all_hold(call.out, MARK));
    }
    if (answer.number > 8)
        CHECK(all_hold(call.elements, 0) && all_hold(call.pieces, 0));
    return answer;
}

static Lent lend_answer(void) { return lend(sizeof(Answer)); }

static Answer read_set(Call call) {
    Lent answer = lend_answer();
    tolphaneap_set_read(call.set.bytes, call.set.size, slots(call.elements), count_of(call.elements), slots(call.pieces),
                        count_of(call.pieces), slots(answer));
    return taken(answer, call);
}

static Answer value(Call call, const char *key) {
    Lent answer = lend_answer(), of = lend_text(key);
    tolphaneap_set_value(call.set.bytes, call.set.size, of.bytes, of.size, slots(call.elements), count_of(call.elements),
                         slots(call.pieces), count_of(call.pieces), slots(answer));
    back(of);
    return taken(answer, call);
}

static Answer pairs(Call call) {
    Lent answer = lend_answer();
    tolphaneap_set_pairs(call.set.bytes, call.set.size, slots(call.elements), count_of(call.elements), slots(call.pieces),
                         count_of(call.pieces), slots(call.places), count_of(call.places), slots(call.spare),
                         count_of(call.spare), slots(answer));
    CHECK(all_hold(call.places, 0) && all_hold(call.spare, 0));
    return taken(answer, call);
}

static Answer join(Call call, const char *key) {
    Lent answer = lend_answer(), of = lend_text(key);
    tolphaneap_set_join(call.set.bytes, call.set.size, of.bytes, of.size, slots(call.elements), count_of(call.elements),
                        slots(call.pieces), count_of(call.pieces), call.out.bytes, call.out.size, slots(answer));
    back(of);
    return taken(answer, call);
}

static Answer text(Call call, size_t place) {
    Lent answer = lend_answer();
    tolphaneap_set_text(call.set.bytes, call.set.size, place, slots(call.elements), count_of(call.elements),
                        slots(call.pieces), count_of(call.pieces), call.out.bytes, call.out.size, slots(answer));
    return taken(answer, call);
}

/* ---- a set with all kinds, and two of `id` and of `class` */

static const char MIXED[] = "{#a k=\"b\nc\" .d %e% id=f class=g} ";
enum { MIXED_LEN = sizeof MIXED - 1, MIXED_ELEMENTS = 6, MIXED_PIECES = 7 };
static const uint64_t MIXED_WORDS[] = {2, 3,  3,  0, 1, 3, 4,  5,  1, 3, 1, 14, 14, 3, 4,
                                       4, 16, 16, 4, 5, 3, 19, 21, 5, 6, 3, 24, 29, 6, 7};
static const uint64_t MIXED_SPANS[] = {2, 3, 7, 8, 9, 10, 13, 14, 16, 17, 22, 23, 30, 31};

/* In the order in which they are known: each element and piece, and the byte that makes it so. */
static const struct {
    int is_piece;
    uint64_t at;
} MIXED_STEPS[] = {{0, 3},  {1, 3},  {0, 5},  {1, 8},  {1, 10}, {0, 14}, {1, 14},
                   {0, 16}, {1, 17}, {0, 21}, {1, 23}, {0, 29}, {1, 31}};

/* Where room for so many elements and pieces is too little; MIXED_LEN where it is not. */
static uint64_t lacks_at(size_t elements, size_t pieces) {
    size_t left[2] = {elements, pieces};
    for (size_t i = 0; i < sizeof MIXED_STEPS / sizeof *MIXED_STEPS; i++)
        if (left[MIXED_STEPS[i].is_piece]-- == 0)
            return MIXED_STEPS[i].at;
    return MIXED_LEN;
}

static void reads_into_any_room(void) {
    name = "reads_into_any_room";
    for (size_t elements = 0; elements < ELEMENT * MIXED_ELEMENTS + 7; elements++)
        for (size_t pieces = 0; pieces < PIECE * MIXED_PIECES + 4; pieces++) {
            Call call = lend_all(lend_text(MIXED), elements, pieces, MIXED_ELEMENTS, 0);
            uint64_t at = lacks_at(elements / ELEMENT, pieces / PIECE);
            uint64_t number = at == MIXED_LEN ? 0 : 13;
            CHECK(is(read_set(call), number, at, number == 0 ? MIXED_ELEMENTS : 0));
            if (number == 0) {
                CHECK(words_are(call.elements, MIXED_WORDS, ELEMENT * MIXED_ELEMENTS));
                CHECK(words_are(call.pieces, MIXED_SPANS, PIECE * MIXED_PIECES));
            }
            CHECK(is(value(call, "id"), number, at, number == 0 ? 1 : 0));
            CHECK(is(pairs(call), number, at, number == 0 ? 4 : 0));
            CHECK(is(join(call, "none"), number, at, 0));
            CHECK(is(text(call, MIXED_ELEMENTS), number, at, 0));
            CHECK(memcmp(call.set.bytes, MIXED, MIXED_LEN) == 0);
            back_all(call);
        }
}

static void pairs_into_any_places(void) {
    static const uint64_t left[] = {2, 3, 3, 5, 6, 3, 4, 5, 1, 3, 1, 14, 14, 3, 4, 5, 24, 29, 6, 7};
    name = "pairs_into_any_places";
    for (size_t places = 0; places < 9; places++)
        for (size_t spare = 0; spare < 9; spare++) {
            Call call = lend_room(lend_text(MIXED));
            back(call.places), back(call.spare);
            call.places = lend_words(places), call.spare = lend_words(spare);
            size_t room = places < spare ? places : spare;
            if (room < MIXED_ELEMENTS) {
                CHECK(is(pairs(call), 13, MIXED_WORDS[ELEMENT * room + 2], 0));
            } else {
                CHECK(is(pairs(call), 0, MIXED_LEN, 4));
                CHECK(words_are(call.elements, left, sizeof left / sizeof *left));
                CHECK(words_are(call.pieces, MIXED_SPANS, PIECE * MIXED_PIECES));
            }
            back_all(call);
        }
}

/* ---- values */

/* A call of join with `key`, or of text with `place` where there is no key: the value is `expected`; each of its pieces starts at such a byte
 * of the set, and ends such a part of the value. */
typedef struct {
    const char *set, *key;
    size_t place;
    const char *expected;
    size_t starts[3], ends[3];
} Value;

static const Value VALUES[] = {
    {MIXED, "id", 0, "f", {22}, {1}},
    {MIXED, "class", 0, "d g", {13, 30}, {1, 3}},
    {MIXED, "k", 0, "b c", {7, 9}, {1, 3}},
    {MIXED, NULL, 0, "a", {2}, {1}},
    {MIXED, NULL, 1, "b c", {7, 9}, {1, 3}},
    {MIXED, NULL, 3, "e", {16}, {1}},
    {"{%a\n\nb%}", NULL, 0, "a\nb", {2, 3, 5}, {1, 2, 3}},
    {"{.abc}{class=\"d\n\n  e\"}", "class", 0, "abc d   e", {2, 14, 17}, {3, 5, 9}},
    /* what stands before an escaped newline is lost; behind a newline `\` is a byte; escapes stay */
    {"{a=\"b\\\nc\"}", "a", 0, "c", {7}, {1}},
    {"{a=\"b\nc\\\"}", "a", 0, "b c\\", {4, 6}, {1, 4}},
    {"{a=\"\\\"\"}", "a", 0, "\\\"", {4}, {2}},
};

static Answer written(Call call, Value v) { return v.key != NULL ? join(call, v.key) : text(call, v.place); }

static void writes_into_any_room(void) {
    name = "writes_into_any_room";
    for (size_t i = 0; i < sizeof VALUES / sizeof *VALUES; i++) {
        Value v = VALUES[i];
        size_t len = strlen(v.expected);
        for (size_t room = 0; room < len + 3; room++) {
            Call call = lend_room(lend_text(v.set));
            back(call.out);
            call.out = lend(room);
            Answer answer = written(call, v);
            size_t fit = 0;
            while (room < len && v.ends[fit] <= room)
                fit++;
            if (room < len) {
                CHECK(is(answer, 8, v.starts[fit], 0));
            } else {
                CHECK(is(answer, 0, call.set.size, len));
                CHECK(memcmp(call.out.bytes, v.expected, len) == 0);
                CHECK(holds(call.out.bytes + len, room - len, MARK));
            }
            CHECK(slots(call.elements)[0] != 0);
            back_all(call);
        }
    }
}

/* The words are those of `value`, or the element alone, after refusal 8 too. */
static void leaves_the_words_of_a_value(void) {
    static const uint64_t classes[] = {1, 14, 14, 3, 4, 3, 24, 29, 6, 7};
    name = "leaves_the_words_of_a_value";
    for (size_t room = 2; room < 4; room++) {
        Call call = lend_room(lend_text(MIXED));
        back(call.out);
        call.out = lend(room);
        for (int joins = 0; joins < 2; joins++) {
            mark(call);
            Answer answer = joins ? join(call, "class") : value(call, "class");
            CHECK(joins && room < 3 ? is(answer, 8, 30, 0) : is(answer, 0, MIXED_LEN, joins ? 3 : 2));
            CHECK(words_are(call.elements, classes, 2 * ELEMENT));
            CHECK(words_are(call.pieces, MIXED_SPANS, PIECE * MIXED_PIECES));
        }
        mark(call);
        CHECK(text(call, 1).number == (room < 3 ? 8 : 0));
        CHECK(words_are(call.elements, MIXED_WORDS + ELEMENT, ELEMENT));
        CHECK(words_are(call.pieces, MIXED_SPANS, PIECE * MIXED_PIECES));
        back_all(call);
    }
}

/* A set in which the key has no value: nothing is written, and the element words are zero. */
static void has_none(const char *set, const char *key) {
    Call call = lend_room(lend_text(set));
    CHECK(is(value(call, key), 0, call.set.size, 0) && all_hold(call.elements, 0));
    mark(call);
    CHECK(is(join(call, key), 0, call.set.size, 0) && all_hold(call.elements, 0) && all_hold(call.out, MARK));
    back_all(call);
}

/* One in which it has an empty value. */
static void has_empty(const char *set, const char *key) {
    Call call = lend_room(lend_text(set));
    CHECK(is(value(call, key), 0, call.set.size, 1));
    mark(call);
    CHECK(is(join(call, key), 0, call.set.size, 0) && slots(call.elements)[0] != 0 && all_hold(call.out, MARK));
    back_all(call);
}

static void tells_none_from_empty(void) {
    name = "tells_none_from_empty";
    has_none(MIXED, "");
    has_none(MIXED, "e");
    has_none(MIXED, "ID");
    has_none("{}", "class");
    has_none("{class=\"\"}", "class");
    has_empty("{k=v k=\"\"}", "k");
    has_empty("{id=\"\n\"}", "id");

    Call call = lend_room(lend_text("{class=\"\" .a}"));
    CHECK(is(pairs(call), 0, 13, 2));
    CHECK(slots(call.elements)[0] == TOLPHANEAP_SET_PAIR && slots(call.elements)[ELEMENT] == TOLPHANEAP_SET_FURTHER);
    CHECK(slots(call.elements)[3] == slots(call.elements)[4]);
    back_all(call);
}

static void takes_any_place(void) {
    name = "takes_any_place";
    static const size_t beyond[] = {MIXED_ELEMENTS, MIXED_ELEMENTS + 1, MIXED_LEN, SIZE_MAX / ELEMENT + 1, SIZE_MAX};
    for (size_t i = 0; i < sizeof beyond / sizeof *beyond; i++) {
        Call call = lend_room(lend_text(MIXED));
        CHECK(is(text(call, beyond[i]), 0, MIXED_LEN, 0));
        CHECK(all_hold(call.elements, 0) && all_hold(call.out, MARK));
        CHECK(words_are(call.pieces, MIXED_SPANS, PIECE * MIXED_PIECES));
        back_all(call);
    }
}

/* ---- what is no set */

static void refuses(const char *bytes, uint64_t position) {
    Call call = lend_room(lend_text(bytes));
    CHECK(is(read_set(call), 14, position, 0));
    mark(call);
    CHECK(is(value(call, "a"), 14, position, 0));
    mark(call);
    CHECK(is(pairs(call), 14, position, 0));
    mark(call);
    CHECK(is(join(call, "a"), 14, position, 0));
    mark(call);
    CHECK(is(text(call, 0), 14, position, 0));
    back_all(call);
}

static void refuses_what_is_no_set(void) {
    name = "refuses_what_is_no_set";
    refuses("", 0);
    refuses(" \n", 0);
    refuses("a", 0);
    refuses(" {.a}", 0);
    refuses("{", 1);
    refuses("{.a", 3);
    refuses("{.a \n", 3);
    refuses("{.a} x", 4);
    refuses("{.a} {.b}", 4);
    refuses("{.a}{", 5);
    refuses("{.a}{.}", 6);
    refuses("{.a#b}", 3);
    refuses("{k=}", 3);
    refuses("{k=\"v\"", 6);
    refuses("{k=\"v\nw\\\" x\"}", 11);
    refuses("{%a", 3);
    refuses("{\xff}", 1);
}

/* ---- room */

static void fits(Lent set) {
    Call call = lend_room(set);
    Answer answer = read_set(call);
    CHECK(answer.number == 0 || answer.number == 14);
    size_t count = (size_t)answer.count;
    mark(call);
    CHECK(pairs(call).number == answer.number);
    for (size_t place = 0; place < count && place < 8; place++)
        CHECK(text(call, place).number == 0), mark(call);
    mark(call);
    CHECK(join(call, "class").number == answer.number);
    back_all(call);
}

/* `front`, then `part` so often, then `end`. */
static Lent repeated(const char *front, const char *part, size_t times, const char *end) {
    size_t len = strlen(part), at = strlen(front);
    Lent set = lend(at + len * times + strlen(end));
    memcpy(set.bytes, front, at);
    for (size_t i = 0; i < times; i++)
        memcpy(set.bytes + at + i * len, part, len);
    memcpy(set.bytes + at + len * times, end, strlen(end));
    return set;
}

/* All sets of a few bytes that matter to the machine. */
static void fits_all_short(void) {
    static const char some[] = "{}.#%=\" \na\\";
    enum { KINDS = sizeof some - 1, LEN = 5 };
    size_t total = 1;
    for (size_t i = 0; i < LEN; i++)
        total *= KINDS;
    for (size_t n = 0; n < total; n++) {
        char set[LEN + 2] = "{";
        size_t left = n;
        for (size_t i = 1; i <= LEN; i++, left /= KINDS)
            set[i] = some[left % KINDS];
        fits(lend_text(set));
    }
}

static void room_is_enough(void) {
    name = "room_is_enough";
    fits(repeated("{%", "", 0, "}"));
    fits(repeated("{", "%%", 500, "%}"));
    fits(repeated("{%", "a\n", 500, "}"));
    fits(repeated("{", ".a ", 500, "}"));
    fits(repeated("{", "a=b ", 500, "}"));
    fits(repeated("{", "class=\"a\nb\"", 500, "}"));
    fits(repeated("{class=\"", "a\n", 500, "\"}"));
    fits(repeated("", "{}", 500, ""));
    fits(repeated("", "{.a}", 500, " \n"));
    if (!at_an_edge)
        fits_all_short();
}

/* Distinct keys, in an order that is neither theirs nor its reverse. */
static void pairs_many_keys(void) {
    enum { KEYS = 3000, STEP = 7, WIDTH = 8 };
    name = "pairs_many_keys";
    Lent set = lend(2 + WIDTH * KEYS);
    set.bytes[0] = '{';
    for (size_t i = 0; i < KEYS; i++) {
        char pair[WIDTH + 1];
        snprintf(pair, sizeof pair, "k%04d=v ", (int)(i * STEP % KEYS));
        memcpy(set.bytes + 1 + WIDTH * i, pair, WIDTH);
    }
    set.bytes[set.size - 1] = '}';
    Call call = lend_room(set);
    CHECK(is(pairs(call), 0, set.size, KEYS));
    for (size_t i = 0; i < KEYS; i++)
        CHECK(slots(call.elements)[ELEMENT * i + 1] == 1 + WIDTH * i && slots(call.elements)[ELEMENT * i + 3] == i);
    back_all(call);
}

/* ---- nothing lent */

static void takes_null_for_nothing(void) {
    name = "takes_null_for_nothing";
    static const uint8_t set[] = "{.a}";
    uint64_t answer[3], elements[5], pieces[2];
    tolphaneap_set_read(NULL, 0, NULL, 0, NULL, 0, answer);
    CHECK(answer[0] == 14 && answer[1] == 0 && answer[2] == 0);
    tolphaneap_set_read(set, 4, NULL, 0, NULL, 0, answer);
    CHECK(answer[0] == 13 && answer[1] == 3);
    tolphaneap_set_read((const uint8_t *)"{}", 2, NULL, 0, NULL, 0, answer);
    CHECK(answer[0] == 0 && answer[1] == 2 && answer[2] == 0);
    tolphaneap_set_value(set, 4, NULL, 0, elements, 5, pieces, 2, answer);
    CHECK(answer[0] == 0 && answer[2] == 0 && elements[0] == 0 && pieces[0] == 2);
    tolphaneap_set_pairs(set, 4, elements, 5, pieces, 2, NULL, 0, NULL, 0, answer);
    CHECK(answer[0] == 13 && answer[1] == 3 && pieces[0] == 0);
    tolphaneap_set_join(set, 4, (const uint8_t *)"class", 5, elements, 5, pieces, 2, NULL, 0, answer);
    CHECK(answer[0] == 8 && answer[1] == 2 && elements[0] == TOLPHANEAP_SET_CLASS);
    tolphaneap_set_join(set, 4, NULL, 0, elements, 5, pieces, 2, NULL, 0, answer);
    CHECK(answer[0] == 0 && answer[2] == 0);
    tolphaneap_set_text(set, 4, 0, elements, 5, pieces, 2, NULL, 0, answer);
    CHECK(answer[0] == 8 && answer[1] == 2);
    tolphaneap_set_text(NULL, 0, 0, NULL, 0, NULL, 0, NULL, 0, answer);
    CHECK(answer[0] == 14 && answer[1] == 0);
}

static void all_calls(void) {
    reads_into_any_room();
    pairs_into_any_places();
    writes_into_any_room();
    leaves_the_words_of_a_value();
    tells_none_from_empty();
    takes_any_place();
    refuses_what_is_no_set();
    room_is_enough();
    pairs_many_keys();
    takes_null_for_nothing();
}

int main(void) {
    run_twice(all_calls);
    name = "all_refusals";
    for (size_t number = 0; number < sizeof seen; number++)
        CHECK(seen[number] == (number == 0 || number == 8 || number == 13 || number == 14));
    return verdict("calls_sets");
}
