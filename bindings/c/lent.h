/* What the tests in C share: checks, and memory to lend. It has marks on both sides, or stands up against a page that cannot be touched.
 * Define _DEFAULT_SOURCE before including this. */
#ifndef LENT_H
#define LENT_H

#include <stdint.h>
#include <stdio.h>
#include <stdlib.h>
#include <string.h>
#include <sys/mman.h>
#include <unistd.h>

enum { MARK = 0xa5, MARGIN = 64 };

static unsigned long checks, failures;
static int at_an_edge;
static const char *name;

static void check_at(int good, const char *file, int line, const char *what) {
    checks++;
    if (good)
        return;
    failures++;
    fprintf(stderr, "%s:%d: %s%s: %s\n", file, line, name, at_an_edge ? " (at an edge)" : "", what);
}

#define CHECK(test) check_at((test), __FILE__, __LINE__, #test)

/* `size` bytes to lend, of `whole` that are mapped or allocated; all hold marks at first. */
typedef struct {
    uint8_t *bytes;
    size_t size;
    uint8_t *all;
    size_t whole;
} Lent;

static uint64_t *slots(Lent lent) { return (uint64_t *)(void *)lent.bytes; }

static Lent lend(size_t size) {
    Lent lent;
    size_t page = (size_t)sysconf(_SC_PAGESIZE);
    size_t in_front = at_an_edge ? MARGIN + (page - (size + MARGIN) % page) % page : MARGIN;
    lent.size = size;
    if (at_an_edge) {
        lent.whole = in_front + size;
        lent.all = mmap(NULL, lent.whole + page, PROT_READ | PROT_WRITE, MAP_PRIVATE | MAP_ANONYMOUS, -1, 0);
        if (lent.all == MAP_FAILED || mprotect(lent.all + lent.whole, page, PROT_NONE) != 0)
            abort();
    } else {
        lent.whole = in_front + size + MARGIN;
        lent.all = malloc(lent.whole);
        if (lent.all == NULL)
            abort();
    }
    lent.bytes = lent.all + in_front;
    memset(lent.all, MARK, lent.whole);
    return lent;
}

static Lent lend_copy(const void *from, size_t size) {
    Lent lent = lend(size);
    if (size > 0)
        memcpy(lent.bytes, from, size);
    return lent;
}

static Lent lend_text(const char *text) { return lend_copy(text, strlen(text)); }

static int holds(const uint8_t *bytes, size_t size, int value) {
    for (size_t i = 0; i < size; i++)
        if (bytes[i] != value)
            return 0;
    return 1;
}

static int all_hold(Lent lent, int value) { return holds(lent.bytes, lent.size, value); }

/* Gives the memory back, after a look at what is around it. */
static void back(Lent lent) {
    uint8_t *end = lent.bytes + lent.size;
    CHECK(holds(lent.all, (size_t)(lent.bytes - lent.all), MARK));
    CHECK(holds(end, (size_t)(lent.all + lent.whole - end), MARK));
    if (at_an_edge)
        munmap(lent.all, lent.whole + (size_t)sysconf(_SC_PAGESIZE));
    else
        free(lent.all);
}

/* Runs all calls in both kinds of memory. */
static void run_twice(void (*all_calls)(void)) {
    for (at_an_edge = 0; at_an_edge < 2; at_an_edge++)
        all_calls();
}

static int verdict(const char *program) {
    printf("%s: %lu checks, %lu failed\n", program, checks, failures);
    return failures == 0 ? EXIT_SUCCESS : EXIT_FAILURE;
}

#endif
