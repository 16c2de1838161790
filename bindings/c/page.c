/* Prints the listing of a page, from a file or standard input: page [FILE]
 * Blank lines of the page have no line in it, unless the first line is exactly `full`: that is taken off, and all of the rest is listed.
 * cc -std=c99 -O2 -I include bindings/c/page.c target/staticlib/libtolphaneap.a -o page */
#include "tolphaneap.h"

#include <stdio.h>
#include <stdlib.h>
#include <string.h>

static void stop(const char *why) {
    perror(why);
    exit(2);
}

/* Room for `count` items, never NULL, also for none. */
static void *room(size_t count, size_t size) {
    void *memory = calloc(count + 1, size);
    if (memory == NULL)
        stop("page");
    return memory;
}

static uint8_t *read_all(FILE *file, size_t *len) {
    size_t lent = 65536, got;
    uint8_t *text = room(lent, 1);
    *len = 0;
    while ((got = fread(text + *len, 1, lent - *len, file)) > 0) {
        *len += got;
        if (*len == lent) {
            lent *= 2;
            text = realloc(text, lent);
            if (text == NULL)
                stop("page");
        }
    }
    if (ferror(file))
        stop("page");
    return text;
}

/* How many bytes a first line `full` takes, its newline included; 0 where there is none. */
static size_t full_line(const uint8_t *text, size_t len) {
    if (len < 4 || memcmp(text, "full", 4) != 0)
        return 0;
    if (len == 4)
        return 4;
    return text[4] == '\n' ? 5 : 0;
}

int main(int argc, char **argv) {
    FILE *file = argc > 1 ? fopen(argv[1], "rb") : stdin;
    if (file == NULL)
        stop(argv[1]);
    size_t whole;
    uint8_t *input = read_all(file, &whole);
    fclose(file);

    /* All places are of the text after that line. */
    size_t first = full_line(input, whole), len = whole - first;
    const uint8_t *text = input + first;
    uint64_t mode = first > 0 ? TOLPHANEAP_FULL : TOLPHANEAP_SHORT;

    /* A text that is too long is refused whatever is lent. */
    size_t most = len <= TOLPHANEAP_MOST_TEXT ? len : 0;
    uint32_t *lines = room(TOLPHANEAP_LINE_ROOM(most), sizeof *lines);
    uint32_t *events = room(TOLPHANEAP_EVENT_ROOM(most), sizeof *events);
    uint64_t parsed[4], answer[3];
    tolphaneap_parse(text, len, lines, TOLPHANEAP_LINE_ROOM(most), events, TOLPHANEAP_EVENT_ROOM(most), parsed);

    size_t count = (size_t)parsed[2];
    uint8_t *out = room(TOLPHANEAP_LISTING_ROOM(count), 1);
    tolphaneap_page(mode, parsed, events, TOLPHANEAP_EVENT_WORDS * count, out, TOLPHANEAP_LISTING_ROOM(count), answer);
    fwrite(out, 1, (size_t)answer[2], stdout);

    free(out);
    free(events);
    free(lines);
    free(input);
    return parsed[0] == 0 && answer[0] == 0 ? EXIT_SUCCESS : EXIT_FAILURE;
}
