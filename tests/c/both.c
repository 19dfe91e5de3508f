/* A board of each model in one program: the same lendings on both, with the number and the out fields that came back from the entry
 * model and from the premium model. */
#include "lend.h"

#include <stdio.h>

static uint8_t entry[LEND_ENTRY_IMAGE], premium[LEND_PREMIUM_IMAGE];
static uint32_t out[4], premium_out[4];

/* Makes one call on both boards: its name, and its numbers. */
#define BOTH(text, name, ...)                                                                                  \
    answer(text, lend_entry_##name(entry, sizeof entry, __VA_ARGS__, out),                                     \
           lend_premium_##name(premium, sizeof premium, __VA_ARGS__, premium_out))

static void answer(const char *call, uint32_t number, uint32_t premium_number)
{
    printf("%-48s entry %2u %5u %u %u %u   premium %2u %5u %u %u %u\n", call, (unsigned)number, (unsigned)out[0],
           (unsigned)out[1], (unsigned)out[2], (unsigned)out[3], (unsigned)premium_number, (unsigned)premium_out[0],
           (unsigned)premium_out[1], (unsigned)premium_out[2], (unsigned)premium_out[3]);
}

int main(void)
{
    answer("start", lend_entry_start(entry, sizeof entry, out),
           lend_premium_start(premium, sizeof premium, premium_out));
    BOTH("create space 2", create, 2);
    BOTH("map 0:3 to 1:5, all rights", map, 0, 3, 1, 5, LEND_ALL);
    BOTH("map 1:5 to 2:7, read and write", map, 1, 5, 2, 7, LEND_READ + LEND_WRITE);
    BOTH("translate byte 10 of 2:7, to read", translate, 2, 7 * LEND_PAGE_BYTES + 10, LEND_READ);
    BOTH("who uses frame 3", frame, 3);
    BOTH("map 2:7 to 1:6, read, back to space 1", map, 2, 7, 1, 6, LEND_READ);
    BOTH("flush 1:5, all rights", flush, 1, 5, LEND_ALL);
    BOTH("translate byte 10 of 2:7, to read", translate, 2, 7 * LEND_PAGE_BYTES + 10, LEND_READ);
    BOTH("create space 8, which only premium has", create, 8);
    BOTH("map 0:32 to 1:5, read, which only premium has", map, 0, 32, 1, 5, LEND_READ);
    BOTH("who uses frame 32, which only premium has", frame, 32);
    BOTH("translate the last byte of the pool at entry", translate, 0, LEND_ENTRY_MEMORY - 1, LEND_READ);
    BOTH("translate the byte after it", translate, 0, LEND_ENTRY_MEMORY, LEND_READ);
    BOTH("translate the last byte of the pool at premium", translate, 0, LEND_PREMIUM_MEMORY - 1, LEND_READ);
    BOTH("translate the byte after it", translate, 0, LEND_PREMIUM_MEMORY, LEND_READ);
    printf("sound: entry %u, premium %u\n", (unsigned)lend_entry_sound(entry, sizeof entry),
           (unsigned)lend_premium_sound(premium, sizeof premium));
    return 0;
}
