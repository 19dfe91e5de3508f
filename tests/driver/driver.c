/* Serves the C library's calls over standard input and output, so that a program of any language and processor can drive it.
 * One text for both models: the entry model's calls, or with PREMIUM defined the premium model's.
 *
 * A request: the call's letter, seven numbers, a byte, the lengths of image and memory (each a uint32_t), and their bytes. To the
 * calls that write and read a listing, the memory is its text.
 * The reply: the number, the four out fields, a byte that is 1 where the call changed a byte outside what was lent to it, and the
 * bytes of image and memory as the call left them. Numbers are little-endian.
 */
#include <stdio.h>
#include <stdlib.h>
#include <string.h>

#include "lend.h"

#ifdef PREMIUM
#define CALL(name) lend_premium_##name
#else
#define CALL(name) lend_entry_##name
#endif

/* What stands on both sides of lent bytes; an odd number, so that they start at an odd address. */
enum { GUARD = 61, GUARD_BYTE = 0xa5 };

#define OUT_GUARD 0xdeadbeefu

struct lent {
    uint32_t length;
    uint8_t *all, *bytes;
};

struct request {
    uint8_t call;
    uint32_t n[7];
    uint8_t value;
    struct lent image, memory;
};

/* Reads so many bytes; 0 at the end of the input. */
static int take(void *bytes, size_t length) { return fread(bytes, 1, length, stdin) == length; }

static void give(const void *bytes, size_t length) {
    if (fwrite(bytes, 1, length, stdout) != length) exit(3);
}

/* Reads bytes to be lent, and puts guards around them. */
static void borrow(struct lent *lent) {
    size_t all = (size_t)lent->length + 2 * GUARD;
    lent->all = malloc(all);
    if (!lent->all) exit(3);
    memset(lent->all, GUARD_BYTE, all);
    lent->bytes = lent->all + GUARD;
    if (!take(lent->bytes, lent->length)) exit(3);
}

/* Whether a guard has changed. */
static int strayed(const struct lent *lent) {
    for (size_t i = 0; i < GUARD; i++)
        if (lent->all[i] != GUARD_BYTE || lent->bytes[lent->length + i] != GUARD_BYTE) return 1;
    return 0;
}

static int next(struct request *r) {
    if (!take(&r->call, 1)) return 0;
    if (!take(r->n, sizeof r->n) || !take(&r->value, 1)) exit(3);
    if (!take(&r->image.length, 4) || !take(&r->memory.length, 4)) exit(3);
    borrow(&r->image);
    borrow(&r->memory);
    return 1;
}

static uint32_t call(struct request *r, uint32_t *out) {
    uint8_t *b = r->image.bytes, *m = r->memory.bytes;
    size_t length = r->image.length, bytes = r->memory.length;
    uint32_t *n = r->n;
    switch (r->call) {
    case 's': return CALL(start)(b, length, out);
    case '?': memset(out, 0, 4 * sizeof *out); return CALL(sound)(b, length);
    case 'c': return CALL(create)(b, length, n[0], out);
    case 'd': return CALL(delete)(b, length, n[0], out);
    case 'u': return CALL(unmap)(b, length, n[0], n[1], n[2], out);
    case 'f': return CALL(flush)(b, length, n[0], n[1], n[2], out);
    case 'm': return CALL(map)(b, length, n[0], n[1], n[2], n[3], n[4], out);
    case 'g': return CALL(grant)(b, length, n[0], n[1], n[2], n[3], n[4], out);
    case 't': return CALL(translate)(b, length, n[0], n[1], n[2], out);
    case 'l': return CALL(load)(b, length, m, bytes, n[0], n[1], out);
    case 'w': return CALL(store)(b, length, m, bytes, n[0], n[1], r->value, out);
    case 'h': return CALL(frame)(b, length, n[0], out);
    case 'U': return CALL(unmap_range)(b, length, n[0], n[1], n[2], n[3], out);
    case 'F': return CALL(flush_range)(b, length, n[0], n[1], n[2], n[3], out);
    case 'M': return CALL(map_range)(b, length, n[0], n[1], n[2], n[3], n[4], n[5], n[6], out);
    case 'G': return CALL(grant_range)(b, length, n[0], n[1], n[2], n[3], n[4], n[5], n[6], out);
    case 'W': return CALL(write_listing)(b, length, m, bytes, out);
    case 'R': return CALL(read_listing)(b, length, m, bytes, out);
    default: exit(3);
    }
}

int main(void) {
    struct request r;
    while (next(&r)) {
        uint32_t out[6];
        for (int i = 0; i < 6; i++) out[i] = OUT_GUARD;
        uint32_t number = call(&r, out + 1);
        uint8_t stray = strayed(&r.image) || strayed(&r.memory) || out[0] != OUT_GUARD || out[5] != OUT_GUARD;
        give(&number, 4);
        give(out + 1, 16);
        give(&stray, 1);
        give(r.image.bytes, r.image.length);
        give(r.memory.bytes, r.memory.length);
        if (fflush(stdout)) return 3;
        free(r.image.all);
        free(r.memory.all);
    }
    return 0;
}
