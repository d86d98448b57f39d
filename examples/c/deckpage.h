/* deckpage for C: a sheet of a bridge deck on isolation bearings in, its page out.
 * Link with libdeckapi.a alone: `rt lib` in crates/deckapi makes it, in out/. */
#ifndef DECKPAGE_H
#define DECKPAGE_H

#include <stddef.h>
#include <stdint.h>

#ifdef __cplusplus
extern "C" {
#endif

/* A sheet has at most 16,384 bytes. Read up to one more, so that a longer sheet is seen to be too long. */
#define DECKPAGE_SHEET_SPACE 16385

/* Enough bytes for the page of any sheet. */
#define DECKPAGE_PAGE_SPACE 1024

/* Answers a sheet. `sheet` points to its sheet_len bytes, `page` to page_len bytes for the page.
 *
 * Returns how many bytes of the page are written, from its start; the bytes after them stay as they were.
 * *refusal gets 0 where the page ends with its `end` line, whatever single cases are refused on it. Else it gets
 * the number of the refusal, 1 to 14 (docs/REFUSALS.md), and the page is the page of a refused sheet:
 * `refused,layer,line,field` and a line with these four numbers.
 *
 * Where the space is too small *refusal is 10. A case line must leave 7 bytes free for the last line; the first that
 * does not gives the page up, with `void` as its last line. Nothing is written for an accepted sheet on fewer than
 * 51 bytes, and for a refused sheet whose page does not fit. With DECKPAGE_PAGE_SPACE bytes none of this happens.
 *
 * No pointer may be null, and the three places must not overlap. Nothing is allocated, nothing is kept after the
 * call, and calls from several threads don't disturb each other. */
size_t deckpage_answer(const uint8_t *sheet, size_t sheet_len, uint8_t *page, size_t page_len, uint32_t *refusal);

#ifdef __cplusplus
}
#endif

#endif
