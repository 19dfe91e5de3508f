/* What translate costs before and after a change: two builds of lend_entry in one program, the older one's functions named before_...
 * and its images of BEFORE_IMAGE bytes. Each round times both, one after the other, on boards that were made by the same calls; the best
 * round counts. Built and run by bench/before.sh. */
#include <stdint.h>
#include <stdio.h>
#include <stdlib.h>
#include <string.h>
#include <time.h>

#include "../include/lend.h"

enum { CALLS = 2000, ROUNDS = 60, LONGEST = 4096 };

typedef uint32_t starting(uint8_t *, size_t, uint32_t *);
typedef uint32_t creating(uint8_t *, size_t, uint32_t, uint32_t *);
typedef uint32_t mapping(uint8_t *, size_t, uint32_t, uint32_t, uint32_t, uint32_t, uint32_t, uint32_t *);
typedef uint32_t translating(uint8_t *, size_t, uint32_t, uint32_t, uint32_t, uint32_t *);

starting before_lend_entry_start;
creating before_lend_entry_create;
mapping before_lend_entry_map;
translating before_lend_entry_translate;

/* A build: its calls, and the board that they are made on. */
struct build {
    starting *start;
    creating *create;
    mapping *map;
    translating *translate;
    size_t length;
    uint8_t image[LONGEST];
};

static struct build before = {
    before_lend_entry_start, before_lend_entry_create, before_lend_entry_map, before_lend_entry_translate, BEFORE_IMAGE, {0}};
static struct build after = {
    lend_entry_start, lend_entry_create, lend_entry_map, lend_entry_translate, LEND_ENTRY_IMAGE, {0}};

/* Page 5 of the pool, lent on from space to space until the last one has it over so many links. */
static void lend_on(struct build *build, uint32_t links) {
    uint32_t out[4];
    build->start(build->image, build->length, out);
    for (uint32_t space = 1; space < links; space++) {
        build->create(build->image, build->length, space, out);
        build->map(build->image, build->length, space - 1, space == 1 ? 5 : 0, space, 0, LEND_ALL, out);
    }
}

/* Translates the last space's page on a board. Where that is refused nothing can be measured. */
static void translate(const struct build *build, uint8_t *image, uint32_t links) {
    uint32_t out[4], number;
    number = build->translate(image, build->length, links - 1, links == 1 ? 5 * LEND_PAGE_BYTES : 0, LEND_READ, out);
    if (number != LEND_DONE) {
        fprintf(stderr, "before: a translation is refused with %u\n", number);
        exit(2);
    }
}

/* Nanoseconds for a call on a fresh copy of the build's image. */
static double timed(const struct build *build, uint32_t links) {
    struct timespec began, ended;
    uint8_t copy[LONGEST];
    clock_gettime(CLOCK_THREAD_CPUTIME_ID, &began);
    for (int i = 0; i < CALLS; i++) {
        memcpy(copy, build->image, build->length);
        translate(build, copy, links);
    }
    clock_gettime(CLOCK_THREAD_CPUTIME_ID, &ended);
    return ((ended.tv_sec - began.tv_sec) * 1e9 + (ended.tv_nsec - began.tv_nsec)) / CALLS;
}

/* The best round of each build, for one page. */
static void row(const char *kind, uint32_t links) {
    double old = 1e9, new = 1e9;
    for (int round = 0; round < ROUNDS; round++) {
        double a = timed(&before, links), b = timed(&after, links);
        if (a < old) old = a;
        if (b < new) new = b;
    }
    printf("| %s, %u link%s | %.0f | %.0f | %.2f |\n", kind, links, links == 1 ? "" : "s", old, new, new / old);
}

int main(void) {
    printf("| translate | before | after | after / before |\n|---|---:|---:|---:|\n");
    for (uint32_t links = 1; links <= LEND_ENTRY_SPACES; links = links == 1 ? 4 : links + 4) {
        lend_on(&before, links);
        lend_on(&after, links);
        row("miss", links);
        translate(&before, before.image, links);
        translate(&after, after.image, links);
        row("hit", links);
    }
    return 0;
}
