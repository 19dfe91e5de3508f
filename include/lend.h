/* The page-lending board for C: calls over a byte image of the board.
 *
 * Every call takes every input. An image that is not a board's, a board that is not sound, a bad number or a forbidden request is
 * refused by a number of the table below; after a refusal every byte of the image and of the memory is as it was, and every out
 * field is 0. Where read_listing refuses a text, and there alone, the image is the start board's. The caller checks nothing first.
 *
 * What the proofs assume of the caller: `image`, `memory` and `text` are valid for reading and writing over the lengths that are
 * given with them, `out` over its four numbers, and no two of them overlap. `load` only reads its memory, read_listing its text. A
 * pointer whose length is 0 need not be readable, but is not NULL.
 */
#ifndef LEND_H
#define LEND_H

#include <stddef.h>
#include <stdint.h>

#ifdef __cplusplus
extern "C" {
#endif

/* ---- numbers that come back ------------------------------------------------------------------------------------------------ */

enum lend_number {
    LEND_DONE = 0,
    LEND_UNSOUND = 1,          /* the board is not sound, or the bytes are no board's image */
    LEND_MEMORY = 2,           /* the memory has the wrong length */
    LEND_SPACE = 3,            /* a space number past the last space */
    LEND_NOT_LIVE = 4,         /* a named space is not live */
    LEND_PAGE = 5,             /* a page or frame number past the last one, or an address past the last byte */
    LEND_RIGHTS = 6,           /* rights are 0 or above 7 */
    LEND_RANGE = 7,            /* a range is invalid */
    LEND_RANGES_DIFFER = 8,    /* two ranges differ in their number of pages */
    LEND_POOL = 9,             /* flush in space 0; map or grant into it; grant out of it; delete of space 0 or 1 */
    LEND_LIVE = 10,            /* create of a live space */
    LEND_EMPTY = 11,           /* the giver's page, or the page to translate, is empty */
    LEND_NOT_HELD = 12,        /* rights asked for are not all held */
    LEND_RING = 13,            /* a page on the giver's line, its own page included, is in the taker's space */
    LEND_SOURCE_BELOW = 14,    /* a page of the source's space is below the taker's page */
    LEND_TAKER_BELOW = 15,     /* a page of the taker's space, other than the taker's page, is below the source */
    LEND_MALFORMED = 16,       /* a request is malformed: a line of a script, which no call takes */
    LEND_LISTING = 17,         /* a listing is malformed */
    LEND_LISTING_ORDER = 18,   /* a listing's pages are out of order or named twice, or their number is wrong */
    LEND_BUFFER = 20           /* a buffer is too short */
};

/* Rights are a sum of these. */
enum lend_right { LEND_EXECUTE = 1, LEND_WRITE = 2, LEND_READ = 4, LEND_ALL = 7 };

#define LEND_PAGE_BYTES 1024

/* ---- two models, one set of rules -------------------------------------------------------------------------------------------- */

/* A board of the entry model is lent to the functions lend_entry_NAME, one of the premium model to lend_premium_NAME. They do the same
 * thing at the same call; only the sizes differ.
 *
 *                            entry    premium
 *   spaces                       8         16    LEND_ENTRY_SPACES, LEND_PREMIUM_SPACES, and so on
 *   pages in each, frames       32         64    .._PAGES
 *   places of the cache          8         16    .._PLACES
 *   bytes of memory         32,768     65,536    .._MEMORY
 *   bytes of an image        1,321      4,689    .._IMAGE
 *
 * The image of a board, byte by byte:
 *
 *   slot (s, p)   4 bytes at SLOT + 4 * (PAGES * s + p): kind, two numbers, rights
 *                   kind 0: no link, the two numbers 0         (an empty page; rights are 0 on a sound board)
 *                   kind 1: a frame: its number, then 0
 *                   kind 2: a page: its space, its page
 *   live          one byte for each space, from LIVE: 0 or 1
 *   cache place   4 bytes for each, from CACHE: space, page, frame, rights; all 0 when it is empty
 *   next place    one byte, at NEXT
 *   summary (f)   8 bytes at SUMMARY + 8 * f, for frame f: four counts of two bytes each, the low byte first: how many held pages
 *                   outside space 0 end there, and how many of these have the right to read, to write and to execute
 *
 * Every call keeps the summary right, and a board with a count that disagrees with its pages is not sound.
 *
 * A kind above 2, a live byte above 1 and an unused byte that is not 0 are no board's image. Later fields are appended.
 *
 * Each call but sound answers one of the numbers. An image length other than the model's is answered with LEND_UNSOUND, and by
 * sound with 0.
 *
 * A range is a base and a size: 0 and 0 is no page, 0 and 1 is every page of a space, and a size from 10 to 15 (premium: to 16) is a
 * part of 2^(size - 10) pages from the base rounded down to a multiple of that. All else is invalid. In a call over ranges the numbers
 * LEND_UNSOUND, LEND_SPACE, LEND_NOT_LIVE, LEND_RIGHTS, LEND_RANGE and LEND_RANGES_DIFFER refuse the whole call: nothing has changed,
 * and every out field is 0. Any other number is that of the first page that was refused (0: none was); such pages are passed over, and
 * what was done to the others stands.
 */

/* ---- the entry model --------------------------------------------------------------------------------------------------------- */

#define LEND_ENTRY_SPACES 8
#define LEND_ENTRY_PAGES 32
#define LEND_ENTRY_PLACES 8
#define LEND_ENTRY_MEMORY (LEND_PAGE_BYTES * LEND_ENTRY_PAGES)

#define LEND_ENTRY_SLOT 0
#define LEND_ENTRY_LIVE (LEND_ENTRY_SLOT + 4 * LEND_ENTRY_SPACES * LEND_ENTRY_PAGES)
#define LEND_ENTRY_CACHE (LEND_ENTRY_LIVE + LEND_ENTRY_SPACES)
#define LEND_ENTRY_NEXT (LEND_ENTRY_CACHE + 4 * LEND_ENTRY_PLACES)
#define LEND_ENTRY_SUMMARY (LEND_ENTRY_NEXT + 1)
#define LEND_ENTRY_IMAGE (LEND_ENTRY_SUMMARY + 8 * LEND_ENTRY_PAGES)

/* Writes the start board over any bytes of the right length. Every out field is 0. */
uint32_t lend_entry_start(uint8_t *image, size_t image_length, uint32_t out[4]);

/* 1 where the image is a sound board's, else 0. */
uint32_t lend_entry_sound(uint8_t *image, size_t image_length);

/* Writes the listing of a sound board to the start of the text (docs/COMMANDS.md, 'Listings'). out[0]: its length. LEND_UNSOUND, then
 * LEND_BUFFER; the image is only read, and the bytes of the text past the listing stay. */
uint32_t lend_entry_write_listing(uint8_t *image, size_t image_length, uint8_t *text, size_t text_length, uint32_t out[4]);
/* Reads a listing over any bytes of the image's length. LEND_LISTING, then LEND_LISTING_ORDER, then LEND_UNSOUND where its board is
 * not sound, each with the start board; else the board that it lists, with an empty cache. LEND_UNSOUND too, and nothing is written,
 * where the image has another length. */
uint32_t lend_entry_read_listing(uint8_t *image, size_t image_length, uint8_t *text, size_t text_length, uint32_t out[4]);

/* out[0]: how many pages were held before the call and are empty after it. The other fields are 0. A grant leaves the giver's page
 * empty, and all that was made from it, whichever rights were granted. */
uint32_t lend_entry_create(uint8_t *image, size_t image_length, uint32_t space, uint32_t out[4]);
uint32_t lend_entry_delete(uint8_t *image, size_t image_length, uint32_t space, uint32_t out[4]);
uint32_t lend_entry_unmap(uint8_t *image, size_t image_length, uint32_t space, uint32_t page, uint32_t rights, uint32_t out[4]);
uint32_t lend_entry_flush(uint8_t *image, size_t image_length, uint32_t space, uint32_t page, uint32_t rights, uint32_t out[4]);
uint32_t lend_entry_map(uint8_t *image, size_t image_length, uint32_t from, uint32_t page, uint32_t to, uint32_t at,
    uint32_t rights, uint32_t out[4]);
uint32_t lend_entry_grant(uint8_t *image, size_t image_length, uint32_t from, uint32_t page, uint32_t to, uint32_t at,
    uint32_t rights, uint32_t out[4]);

/* out[0]: the physical address. out[1]: 1 where the page was in the cache. out[2]: how many links lead from the page to its frame, the one
 * to the frame included: at least 1, at most the number of live spaces, and the same whether the page was in the cache or not. */
uint32_t lend_entry_translate(uint8_t *image, size_t image_length, uint32_t space, uint32_t address, uint32_t rights,
    uint32_t out[4]);

/* out[0]: the byte. Asks for the right to read. */
uint32_t lend_entry_load(uint8_t *image, size_t image_length, uint8_t *memory, size_t memory_length, uint32_t space,
    uint32_t address, uint32_t out[4]);

/* Changes one byte of memory. Asks for the right to write. Every out field is 0. */
uint32_t lend_entry_store(uint8_t *image, size_t image_length, uint8_t *memory, size_t memory_length, uint32_t space,
    uint32_t address, uint8_t value, uint32_t out[4]);

/* Who uses a frame, as the summary has it. out[0]: how many held pages outside space 0 end there. out[1], out[2] and out[3]: how many
 * of these have the right to read, to write and to execute. LEND_UNSOUND, then LEND_PAGE for a frame past the last one; the image is
 * only read. */
uint32_t lend_entry_frame(uint8_t *image, size_t image_length, uint32_t frame, uint32_t out[4]);

/* Over ranges. out[0]: how many pages were done. out[1]: the offset of the first refused page, LEND_ENTRY_PAGES where there is none.
 * out[2]: how many pages were held before the whole call and are empty after it. */
uint32_t lend_entry_unmap_range(uint8_t *image, size_t image_length, uint32_t space, uint32_t base, uint32_t size,
    uint32_t rights, uint32_t out[4]);
uint32_t lend_entry_flush_range(uint8_t *image, size_t image_length, uint32_t space, uint32_t base, uint32_t size,
    uint32_t rights, uint32_t out[4]);
uint32_t lend_entry_map_range(uint8_t *image, size_t image_length, uint32_t from, uint32_t base, uint32_t size, uint32_t to,
    uint32_t at_base, uint32_t at_size, uint32_t rights, uint32_t out[4]);
uint32_t lend_entry_grant_range(uint8_t *image, size_t image_length, uint32_t from, uint32_t base, uint32_t size, uint32_t to,
    uint32_t at_base, uint32_t at_size, uint32_t rights, uint32_t out[4]);

/* ---- the premium model: made from the entry part by tools/models.py ------------------------------------------------------ */

#define LEND_PREMIUM_SPACES 16
#define LEND_PREMIUM_PAGES 64
#define LEND_PREMIUM_PLACES 16
#define LEND_PREMIUM_MEMORY (LEND_PAGE_BYTES * LEND_PREMIUM_PAGES)

#define LEND_PREMIUM_SLOT 0
#define LEND_PREMIUM_LIVE (LEND_PREMIUM_SLOT + 4 * LEND_PREMIUM_SPACES * LEND_PREMIUM_PAGES)
#define LEND_PREMIUM_CACHE (LEND_PREMIUM_LIVE + LEND_PREMIUM_SPACES)
#define LEND_PREMIUM_NEXT (LEND_PREMIUM_CACHE + 4 * LEND_PREMIUM_PLACES)
#define LEND_PREMIUM_SUMMARY (LEND_PREMIUM_NEXT + 1)
#define LEND_PREMIUM_IMAGE (LEND_PREMIUM_SUMMARY + 8 * LEND_PREMIUM_PAGES)

/* Writes the start board over any bytes of the right length. Every out field is 0. */
uint32_t lend_premium_start(uint8_t *image, size_t image_length, uint32_t out[4]);

/* 1 where the image is a sound board's, else 0. */
uint32_t lend_premium_sound(uint8_t *image, size_t image_length);

/* Writes the listing of a sound board to the start of the text (docs/COMMANDS.md, 'Listings'). out[0]: its length. LEND_UNSOUND, then
 * LEND_BUFFER; the image is only read, and the bytes of the text past the listing stay. */
uint32_t lend_premium_write_listing(uint8_t *image, size_t image_length, uint8_t *text, size_t text_length, uint32_t out[4]);
/* Reads a listing over any bytes of the image's length. LEND_LISTING, then LEND_LISTING_ORDER, then LEND_UNSOUND where its board is
 * not sound, each with the start board; else the board that it lists, with an empty cache. LEND_UNSOUND too, and nothing is written,
 * where the image has another length. */
uint32_t lend_premium_read_listing(uint8_t *image, size_t image_length, uint8_t *text, size_t text_length, uint32_t out[4]);

/* out[0]: how many pages were held before the call and are empty after it. The other fields are 0. A grant leaves the giver's page
 * empty, and all that was made from it, whichever rights were granted. */
uint32_t lend_premium_create(uint8_t *image, size_t image_length, uint32_t space, uint32_t out[4]);
uint32_t lend_premium_delete(uint8_t *image, size_t image_length, uint32_t space, uint32_t out[4]);
uint32_t lend_premium_unmap(uint8_t *image, size_t image_length, uint32_t space, uint32_t page, uint32_t rights, uint32_t out[4]);
uint32_t lend_premium_flush(uint8_t *image, size_t image_length, uint32_t space, uint32_t page, uint32_t rights, uint32_t out[4]);
uint32_t lend_premium_map(uint8_t *image, size_t image_length, uint32_t from, uint32_t page, uint32_t to, uint32_t at,
    uint32_t rights, uint32_t out[4]);
uint32_t lend_premium_grant(uint8_t *image, size_t image_length, uint32_t from, uint32_t page, uint32_t to, uint32_t at,
    uint32_t rights, uint32_t out[4]);

/* out[0]: the physical address. out[1]: 1 where the page was in the cache. out[2]: how many links lead from the page to its frame, the one
 * to the frame included: at least 1, at most the number of live spaces, and the same whether the page was in the cache or not. */
uint32_t lend_premium_translate(uint8_t *image, size_t image_length, uint32_t space, uint32_t address, uint32_t rights,
    uint32_t out[4]);

/* out[0]: the byte. Asks for the right to read. */
uint32_t lend_premium_load(uint8_t *image, size_t image_length, uint8_t *memory, size_t memory_length, uint32_t space,
    uint32_t address, uint32_t out[4]);

/* Changes one byte of memory. Asks for the right to write. Every out field is 0. */
uint32_t lend_premium_store(uint8_t *image, size_t image_length, uint8_t *memory, size_t memory_length, uint32_t space,
    uint32_t address, uint8_t value, uint32_t out[4]);

/* Who uses a frame, as the summary has it. out[0]: how many held pages outside space 0 end there. out[1], out[2] and out[3]: how many
 * of these have the right to read, to write and to execute. LEND_UNSOUND, then LEND_PAGE for a frame past the last one; the image is
 * only read. */
uint32_t lend_premium_frame(uint8_t *image, size_t image_length, uint32_t frame, uint32_t out[4]);

/* Over ranges. out[0]: how many pages were done. out[1]: the offset of the first refused page, LEND_PREMIUM_PAGES where there is none.
 * out[2]: how many pages were held before the whole call and are empty after it. */
uint32_t lend_premium_unmap_range(uint8_t *image, size_t image_length, uint32_t space, uint32_t base, uint32_t size,
    uint32_t rights, uint32_t out[4]);
uint32_t lend_premium_flush_range(uint8_t *image, size_t image_length, uint32_t space, uint32_t base, uint32_t size,
    uint32_t rights, uint32_t out[4]);
uint32_t lend_premium_map_range(uint8_t *image, size_t image_length, uint32_t from, uint32_t base, uint32_t size, uint32_t to,
    uint32_t at_base, uint32_t at_size, uint32_t rights, uint32_t out[4]);
uint32_t lend_premium_grant_range(uint8_t *image, size_t image_length, uint32_t from, uint32_t base, uint32_t size, uint32_t to,
    uint32_t at_base, uint32_t at_size, uint32_t rights, uint32_t out[4]);

#ifdef __cplusplus
}
#endif

#endif
