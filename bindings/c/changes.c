/* Prints what changed between two editions of a page: changes OLD NEW
 * cc -std=c99 -O2 -I include bindings/c/changes.c target/staticlib/libtolphaneap.a -o changes && ./changes examples/runbook.dj examples/runbook-2.dj */
#include "tolphaneap.h"

#include <stdio.h>
#include <stdlib.h>

/* A text with its events. */
typedef struct {
    const char *name;
    uint8_t *text;
    size_t len, events_len;
    uint32_t *events;
} Edition;

static void stop(const char *why) {
    perror(why);
    exit(2);
}

/* Room for `count` items, never NULL, also for none. */
static void *room(size_t count, size_t size) {
    void *memory = calloc(count + 1, size);
    if (memory == NULL)
        stop("changes");
    return memory;
}

static Edition read_all(const char *name) {
    Edition edition = {name, room(65536, 1), 0, 0, NULL};
    size_t lent = 65536, got;
    FILE *file = fopen(name, "rb");
    if (file == NULL)
        stop(name);
    while ((got = fread(edition.text + edition.len, 1, lent - edition.len, file)) > 0) {
        edition.len += got;
        if (edition.len == lent) {
            lent *= 2;
            edition.text = realloc(edition.text, lent);
            if (edition.text == NULL)
                stop("changes");
        }
    }
    if (ferror(file))
        stop(name);
    fclose(file);
    return edition;
}

/* A text that is too long is refused whatever is lent. */
static size_t most(const Edition *edition) { return edition->len <= TOLPHANEAP_MOST_TEXT ? edition->len : 0; }

/* The events of a text; where it is refused they are none, and the comparison refuses it for the same reason. */
static void parse(Edition *edition, uint32_t *lines, size_t lines_len) {
    uint64_t answer[4];
    edition->events_len = TOLPHANEAP_EVENT_ROOM(most(edition));
    edition->events = room(edition->events_len, sizeof *edition->events);
    tolphaneap_parse(edition->text, edition->len, lines, lines_len, edition->events, edition->events_len, answer);
}

/* The number of the line that the byte at a place is in, from 1 on. */
static unsigned long line_of(const Edition *edition, size_t place) {
    unsigned long line = 1;
    for (size_t i = 0; i < place; i++)
        line += edition->text[i] == '\n';
    return line;
}

static void print_part(const char *what, const Edition *edition, size_t start, size_t end) {
    unsigned long first = line_of(edition, start), last = line_of(edition, end - 1);
    if (first == last)
        printf("%s %s, line %lu:\n", what, edition->name, first);
    else
        printf("%s %s, lines %lu to %lu:\n", what, edition->name, first, last);
    fwrite(edition->text + start, 1, end - start, stdout);
    if (edition->text[end - 1] != '\n')
        putchar('\n');
}

int main(int argc, char **argv) {
    if (argc != 3) {
        fputs("name two editions of a page: changes OLD NEW\n", stderr);
        return 2;
    }
    Edition older = read_all(argv[1]), newer = read_all(argv[2]);
    size_t longer = most(&older) < most(&newer) ? most(&newer) : most(&older);
    size_t lines_len = TOLPHANEAP_LINE_ROOM(longer), events_len = TOLPHANEAP_EVENT_ROOM(longer);
    uint32_t *lines = room(lines_len, sizeof *lines), *events = room(events_len, sizeof *events);
    uint64_t answer[5];
    parse(&older, lines, lines_len);
    parse(&newer, lines, lines_len);
    tolphaneap_changes(older.text, older.len, older.events, older.events_len, newer.text, newer.len, newer.events,
                       newer.events_len, lines, lines_len, events, events_len, answer);

    const Edition *which = answer[2] == TOLPHANEAP_OLDER ? &older : &newer;
    if (answer[0] != 0)
        printf("%s: refused %u at %lu\n", which->name, (unsigned)answer[0], (unsigned long)answer[1]);
    else if (answer[3] == answer[4])
        puts("nothing changed");
    else
        print_part(which == &older ? "removed from" : "new in", which, (size_t)answer[3], (size_t)answer[4]);

    free(events);
    free(lines);
    free(newer.events);
    free(newer.text);
    free(older.events);
    free(older.text);
    return answer[0] == 0 ? EXIT_SUCCESS : EXIT_FAILURE;
}
