/* Map sheets and images by the proved library, through the C header: worked cases of document 02, 7 and 12.
 * A line for each check, 'ok NAME' or 'FAIL NAME'. */
#include "oddersnow.h"

#include <stdio.h>
#include <string.h>

static int bad = 0;

static void check(const char *name, int holds) {
    printf("%s sheet cases: %s\n", holds ? "ok" : "FAIL", name);
    bad |= !holds;
}

static uint64_t said(uint64_t number, uint64_t rest) { return (number << 48) + rest; }

static const uint8_t board[] = "region\tcode\t20000000\t00000400\trx\nregion\tdata\t20000400\t00000c00\trw\n";
static const uint8_t other[] = "region\tdata\t20000400\t00000bff\trw\nregion\ta\t20000000\t00000400\trx\n";
static const uint8_t image[] = "region\tprogram\t20000100\t00000100\trx\n\npayload";
static const uint8_t misfit[] = "region\tprogram\t200003ff\t00000002\tr\n\n";
#define LENGTH(text) (sizeof text - 1)

int main(void) {
    /* The name's letters, low bytes first; start, length, rights. */
    static const uint32_t right[14] = {0x65646f63, 0, 0, 0, 0x20000000, 0x400, 5, 0x61746164, 0, 0, 0, 0x20000400, 0xc00, 3};
    uint32_t records[15];
    uint8_t out[80];

    memset(records, 0xa5, sizeof records);
    check("a sheet is read into its records",
          oddersnow_sheet_read(board, LENGTH(board), records, 15) == said(0, 2) && !memcmp(records, right, sizeof right) &&
              records[14] == 0xa5a5a5a5);
    memset(out, 0xa5, sizeof out);
    check("records are written as the same bytes",
          oddersnow_sheet_write(right, 14, out, sizeof out) == said(0, LENGTH(board)) && !memcmp(out, board, LENGTH(board)) &&
              out[LENGTH(board)] == 0xa5);
    memset(out, 0xa5, sizeof out);
    check("one byte of room too few is refusal 10, and nothing is written",
          oddersnow_sheet_write(right, 14, out, LENGTH(board) - 1) == said(10, 0) && out[0] == 0xa5);
    check("an empty sheet is bad at line 1", oddersnow_sheet_read(NULL, 0, records, 15) == said(13, 1));
    check("a last line without its newline is bad", oddersnow_sheet_read(board, LENGTH(board) - 1, records, 15) == said(13, 2));
    check("words that make no record are bad", oddersnow_sheet_write(right, 13, out, sizeof out) == said(13, 2));
    check("a comparison lists the names that differ, sorted",
          oddersnow_sheet_compare(board, LENGTH(board), other, LENGTH(other), out, sizeof out) == said(0, 12) &&
              !memcmp(out, "a\ncode\ndata\n", 12));
    check("the second sheet is bad", oddersnow_sheet_compare(board, LENGTH(board), other, 1, out, sizeof out) == said(14, 1));
    check("the first image fits, and its payload is found",
          oddersnow_fit(board, LENGTH(board), image, LENGTH(image), misfit, LENGTH(misfit)) ==
              said(0, ((uint64_t)1 << 40) + LENGTH(image) - 7));
    check("the second image fits",
          oddersnow_fit(board, LENGTH(board), misfit, LENGTH(misfit), image, LENGTH(image)) ==
              said(0, ((uint64_t)2 << 40) + LENGTH(image) - 7));
    check("two regions that adjoin are not one",
          oddersnow_fit(board, LENGTH(board), misfit, LENGTH(misfit), misfit, LENGTH(misfit)) == said(16, 0));
    check("the board is judged first", oddersnow_fit(NULL, 0, NULL, 0, NULL, 0) == said(17, 1));
    check("then the first image", oddersnow_fit(board, LENGTH(board), NULL, 0, NULL, 0) == said(18, 1));
    check("then the second, without its empty line",
          oddersnow_fit(board, LENGTH(board), image, LENGTH(image), board, LENGTH(board)) == said(19, 3));
    return bad;
}
