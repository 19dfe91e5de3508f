/* A walk through include/lend.h. Every call is printed with the number and the out fields that came back. One text for both models:
 * the entry model, or with PREMIUM defined the premium model, and what it prints is the same. */
#include "lend.h"

#include <stdio.h>
#include <string.h>

#ifdef PREMIUM
#define CALL(name) lend_premium_##name
#define SIZE(name) LEND_PREMIUM_##name
#else
#define CALL(name) lend_entry_##name
#define SIZE(name) LEND_ENTRY_##name
#endif

static uint8_t image[SIZE(IMAGE)];
static uint8_t memory[SIZE(MEMORY)];
static uint8_t before[SIZE(IMAGE)];
static uint8_t text[256];
static uint32_t out[4];

static void answer(const char *call, uint32_t number)
{
    printf("%-52s %2u   %u %u %u %u\n", call, (unsigned)number, (unsigned)out[0], (unsigned)out[1], (unsigned)out[2],
           (unsigned)out[3]);
}

/* Space 1 gets page 3 of the pool as its page 5, and lends it on to space 2, to read and write. */
static void lend(void)
{
    answer("create space 2", CALL(create)(image, sizeof image, 2, out));
    answer("create space 2, which is live", CALL(create)(image, sizeof image, 2, out));
    answer("map 0:3 to 1:5, all rights", CALL(map)(image, sizeof image, 0, 3, 1, 5, LEND_ALL, out));
    answer("map 1:5 to 2:7, read and write",
           CALL(map)(image, sizeof image, 1, 5, 2, 7, LEND_READ + LEND_WRITE, out));
    answer("map 2:7 to 1:6, execute, which 2:7 has not", CALL(map)(image, sizeof image, 2, 7, 1, 6, LEND_EXECUTE, out));
    answer("map 2:7 to 1:6, read, back to space 1", CALL(map)(image, sizeof image, 2, 7, 1, 6, LEND_READ, out));
}

/* Who uses frame 3: how many pages, and how many of them to read, to write and to execute. */
static void who(const char *when)
{
    answer(when, CALL(frame)(image, sizeof image, 3, out));
}

/* Both spaces see the one frame. */
static void use(void)
{
    const uint32_t address = 7 * LEND_PAGE_BYTES + 10;

    answer("translate byte 10 of 2:7, to read", CALL(translate)(image, sizeof image, 2, address, LEND_READ, out));
    answer("the same again, now from the cache", CALL(translate)(image, sizeof image, 2, address, LEND_READ, out));
    answer("store 42 there",
           CALL(store)(image, sizeof image, memory, sizeof memory, 2, address, 42, out));
    printf("memory at 3082: %u\n", (unsigned)memory[3082]);
    answer("load it", CALL(load)(image, sizeof image, memory, sizeof memory, 2, address, out));
    answer("load it through 1:5",
           CALL(load)(image, sizeof image, memory, sizeof memory, 1, 5 * LEND_PAGE_BYTES + 10, out));
    answer("load with one byte of memory missing",
           CALL(load)(image, sizeof image, memory, sizeof memory - 1, 2, address, out));
}

/* The board as a listing, and back: its cache is empty then. */
static void list(void)
{
    size_t length;

    answer("write the listing into 10 bytes", CALL(write_listing)(image, sizeof image, text, 10, out));
    answer("write the listing", CALL(write_listing)(image, sizeof image, text, sizeof text, out));
    length = out[0];
    printf("%.*s", (int)length, (const char *)text);
    memset(before, 255, sizeof before);
    answer("read it over any bytes", CALL(read_listing)(before, sizeof before, text, length, out));
    printf("pages and live spaces are the same: %s\n", memcmp(before, image, SIZE(CACHE)) == 0 ? "yes" : "no");
    printf("the summary is the same: %s\n",
           memcmp(before + SIZE(SUMMARY), image + SIZE(SUMMARY), SIZE(IMAGE) - SIZE(SUMMARY)) == 0 ? "yes" : "no");
    answer("read it without its last newline", CALL(read_listing)(before, sizeof before, text, length - 1, out));
    answer("start", CALL(start)(image, sizeof image, out));
    printf("the start board came back: %s\n", memcmp(before, image, sizeof image) == 0 ? "yes" : "no");
    answer("read the listing", CALL(read_listing)(image, sizeof image, text, length, out));
}

/* What was lent is taken back: the lender wins. */
static void take_back(void)
{
    const uint32_t address = 7 * LEND_PAGE_BYTES + 10;

    answer("unmap below 1:5, write", CALL(unmap)(image, sizeof image, 1, 5, LEND_WRITE, out));
    who("who uses frame 3");
    answer("store through 2:7, which lost the right",
           CALL(store)(image, sizeof image, memory, sizeof memory, 2, address, 43, out));
    answer("grant 2:7 to 1:6, read, back to space 1", CALL(grant)(image, sizeof image, 2, 7, 1, 6, LEND_READ, out));
    answer("create space 3", CALL(create)(image, sizeof image, 3, out));
    answer("grant 2:7 to 3:0, read", CALL(grant)(image, sizeof image, 2, 7, 3, 0, LEND_READ, out));
    answer("map 1:5 to 2:7, read and write",
           CALL(map)(image, sizeof image, 1, 5, 2, 7, LEND_READ + LEND_WRITE, out));
    answer("grant 2:7 to 3:0, read: the page goes whole", CALL(grant)(image, sizeof image, 2, 7, 3, 0, LEND_READ, out));
    who("who uses frame 3, in spaces 1 and 3");
    answer("store through 2:7, which gave its page away",
           CALL(store)(image, sizeof image, memory, sizeof memory, 2, address, 43, out));
    answer("delete space 3", CALL(delete)(image, sizeof image, 3, out));
    answer("map 1:5 to 2:7, read", CALL(map)(image, sizeof image, 1, 5, 2, 7, LEND_READ, out));
    answer("flush 1:5, all rights", CALL(flush)(image, sizeof image, 1, 5, LEND_ALL, out));
    who("who uses frame 3, which is back in the pool");
    answer("load through 2:7, which is empty",
           CALL(load)(image, sizeof image, memory, sizeof memory, 2, address, out));
}

/* A board whose summary disagrees, and bytes that are no board's image, are refused and stay as they are. */
static void refuse(void)
{
    printf("sound: %u\n", (unsigned)CALL(sound)(image, sizeof image));
    image[SIZE(SUMMARY) + 8 * 3] = 1;
    printf("sound, with a user of frame 3 too many: %u\n", (unsigned)CALL(sound)(image, sizeof image));
    who("who uses frame 3, with a user too many");
    image[SIZE(SUMMARY) + 8 * 3] = 0;
    printf("sound, as it was: %u\n", (unsigned)CALL(sound)(image, sizeof image));
    image[SIZE(SLOT)] = 3;
    memcpy(before, image, sizeof image);
    printf("sound, with a kind of 3: %u\n", (unsigned)CALL(sound)(image, sizeof image));
    answer("create space 4, with a kind of 3", CALL(create)(image, sizeof image, 4, out));
    answer("start, with one byte missing", CALL(start)(image, sizeof image - 1, out));
    printf("bytes changed: %s\n", memcmp(before, image, sizeof image) == 0 ? "none" : "some");
}

int main(void)
{
    memset(image, 255, sizeof image);
    answer("start", CALL(start)(image, sizeof image, out));
    lend();
    who("who uses frame 3, in spaces 1 and 2");
    answer("who uses the last frame", CALL(frame)(image, sizeof image, SIZE(PAGES) - 1, out));
    answer("who uses the frame after it", CALL(frame)(image, sizeof image, SIZE(PAGES), out));
    use();
    list();
    take_back();
    refuse();
    return 0;
}
