/* Answers the sheet on standard input: the page goes to standard output.
 * Status 0: a page with its `end` line was written. Status 1: the sheet was refused, or input or output failed. */
#include <stdio.h>

#include "deckpage.h"

static uint8_t sheet[DECKPAGE_SHEET_SPACE];
static uint8_t page[DECKPAGE_PAGE_SPACE];

int main(void)
{
    uint32_t refusal = 0;
    size_t read = fread(sheet, 1, sizeof sheet, stdin);
    if (ferror(stdin)) {
        fputs("answer: the sheet cannot be read\n", stderr);
        return 1;
    }
    size_t written = deckpage_answer(sheet, read, page, sizeof page, &refusal);
    if (fwrite(page, 1, written, stdout) != written || fflush(stdout) != 0) {
        fputs("answer: the page cannot be written\n", stderr);
        return 1;
    }
    return refusal == 0 ? 0 : 1;
}
