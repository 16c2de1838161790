/* Prints each key of a set of attributes once, with its value, or the value of one key: set SET [KEY]
 * cc -std=c99 -O2 -I include bindings/c/set.c target/staticlib/libtolphaneap_sets.a -o set && ./set '{.note #a k="v w"}' */
#include "tolphaneap_sets.h"

#include <stdio.h>
#include <stdlib.h>
#include <string.h>

/* A set, and what is lent to open it. */
typedef struct {
    const uint8_t *bytes;
    size_t len, elements_len, pieces_len, places_len;
    uint64_t *elements, *pieces, *places, *spare;
    uint64_t answer[3];
} Set;

/* Room for `count` items, never NULL, also for none. */
static void *room(size_t count, size_t size) {
    void *memory = calloc(count + 1, size);
    if (memory == NULL) {
        perror("set");
        exit(2);
    }
    return memory;
}

static Set lend(const char *bytes) {
    Set set = {(const uint8_t *)bytes, strlen(bytes), 0, 0, 0, NULL, NULL, NULL, NULL, {0, 0, 0}};
    set.elements_len = TOLPHANEAP_SET_ELEMENT_ROOM(set.len);
    set.pieces_len = TOLPHANEAP_SET_PIECE_ROOM(set.len);
    set.places_len = TOLPHANEAP_SET_PLACE_ROOM(set.len);
    set.elements = room(set.elements_len, sizeof *set.elements);
    set.pieces = room(set.pieces_len, sizeof *set.pieces);
    set.places = room(set.places_len, sizeof *set.places);
    set.spare = room(set.places_len, sizeof *set.spare);
    return set;
}

static void give_back(Set *set) {
    free(set->elements);
    free(set->pieces);
    free(set->places);
    free(set->spare);
}

/* Prints the pieces of an element, a space before each but the first of the value; no piece is empty. */
static void print_pieces(const Set *set, const uint64_t *element, int *first) {
    for (uint64_t i = element[3]; i < element[4]; i++) {
        const uint64_t *piece = set->pieces + TOLPHANEAP_SET_PIECE_WORDS * i;
        if (!*first)
            putchar(' ');
        fwrite(set->bytes + piece[0], 1, (size_t)(piece[1] - piece[0]), stdout);
        *first = 0;
    }
}

static void print_key(const Set *set, const uint64_t *element) {
    if (element[0] == TOLPHANEAP_SET_CLASS)
        fputs("class", stdout);
    else if (element[0] == TOLPHANEAP_SET_ID)
        fputs("id", stdout);
    else
        fwrite(set->bytes + element[1], 1, (size_t)(element[2] - element[1]), stdout);
}

/* Whether the key of an element that tolphaneap_set_pairs left is `class`: then all further classes belong to its value. */
static int is_class(const Set *set, const uint64_t *element) {
    return element[0] == TOLPHANEAP_SET_CLASS ||
           (element[0] == TOLPHANEAP_SET_PAIR && element[2] - element[1] == 5 && memcmp(set->bytes + element[1], "class", 5) == 0);
}

static void print_pairs(Set *set) {
    tolphaneap_set_pairs(set->bytes, set->len, set->elements, set->elements_len, set->pieces, set->pieces_len, set->places,
                         set->places_len, set->spare, set->places_len, set->answer);
    const uint64_t *end = set->elements + TOLPHANEAP_SET_ELEMENT_WORDS * set->answer[2];
    for (const uint64_t *at = set->elements; at < end; at += TOLPHANEAP_SET_ELEMENT_WORDS) {
        if (at[0] == TOLPHANEAP_SET_FURTHER)
            continue;
        int first = 1;
        print_key(set, at);
        putchar('=');
        print_pieces(set, at, &first);
        if (is_class(set, at))
            for (const uint64_t *more = at; more < end; more += TOLPHANEAP_SET_ELEMENT_WORDS)
                if (more[0] == TOLPHANEAP_SET_FURTHER)
                    print_pieces(set, more, &first);
        putchar('\n');
    }
}

static void print_value(Set *set, const char *key) {
    size_t out_len = TOLPHANEAP_SET_TEXT_ROOM(set->len);
    uint8_t *out = room(out_len, 1);
    tolphaneap_set_join(set->bytes, set->len, (const uint8_t *)key, strlen(key), set->elements, set->elements_len, set->pieces,
                        set->pieces_len, out, out_len, set->answer);
    if (set->answer[0] == 0 && set->elements[0] != 0)
        printf("%.*s\n", (int)set->answer[2], (const char *)out);
    free(out);
}

int main(int argc, char **argv) {
    if (argc < 2) {
        fputs("set SET [KEY]\n", stderr);
        return 2;
    }
    Set set = lend(argv[1]);
    if (argc > 2)
        print_value(&set, argv[2]);
    else
        print_pairs(&set);
    if (set.answer[0] != 0)
        printf("refused %u at %lu\n", (unsigned)set.answer[0], (unsigned long)set.answer[1]);
    give_back(&set);
    return set.answer[0] == 0 ? EXIT_SUCCESS : EXIT_FAILURE;
}
