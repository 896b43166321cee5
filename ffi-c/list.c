/* The program `treelist` in C: a sheet from standard input through the library, its listing to standard output. */
#include <stdio.h>

#include "cartglaze.h"

/* One byte more than a sheet may have, so that a longer one is seen to be longer. */
static uint8_t sheet[32769];
static uint32_t numbers[CARTGLAZE_SHEET_NUMBERS];
/* 3,276 tree rows, a dropped row for each token that a sheet has room for, and more bytes than the lines of so many rows have. */
static uint32_t tree[3276 * CARTGLAZE_TREE_ROW];
static uint32_t dropped[CARTGLAZE_SHEET_NUMBERS / 4 * 3];
static uint8_t lines[262144];

int main(void)
{
    size_t size = fread(sheet, 1, sizeof sheet, stdin);
    size_t text, tokens, shapes, states, needed, length;
    bool accepted = false;
    size_t first = 9, second = 0;

    if (cartglaze_read(sheet, size, numbers, CARTGLAZE_SHEET_NUMBERS, &text, &tokens, &shapes, &states, &needed)) {
        accepted = cartglaze_run(sheet + CARTGLAZE_SHEET_TEXT, text, numbers, tokens, numbers + tokens, shapes, numbers + tokens + shapes, states,
                                 tree, sizeof tree / sizeof *tree, dropped, sizeof dropped / sizeof *dropped, &first, &second);
    }
    if (!cartglaze_list(accepted, first, second, tree, sizeof tree / sizeof *tree, dropped, sizeof dropped / sizeof *dropped,
                        lines, sizeof lines, &length)) {
        return 1;
    }
    return fwrite(lines, 1, length, stdout) == length ? 0 : 1;
}
