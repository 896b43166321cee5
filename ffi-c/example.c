/* Document 01's whole case, `\frac 1 2`, through the C face: its text cut into token rows, the listing that `treelist` prints for it, then each leaf's
 * token and text, two formulas' questions, and refusals. */
#include <inttypes.h>
#include <stdio.h>
#include <string.h>

#include "cartglaze.h"

#define COUNT(a) (sizeof(a) / sizeof((a)[0]))

static const char text[] = "\\frac 1 2";
static uint32_t tokens[5 * CARTGLAZE_TOKEN_ROW];
static const uint32_t shapes[] = {1, 1, 2};
static const uint32_t states[] = {0};  /* none: its length is given as 0 */

/* The rows of the text. \frac is the first token, and gets the first shape: two arguments. */
static bool cut(void)
{
    size_t first, second;
    /* A number too few: nothing is written. */
    if (!cartglaze_tokenise((const uint8_t *)text, strlen(text), tokens, COUNT(tokens) - 1, &first, &second)) {
        printf("refused %zu %zu, %" PRIu32 "\n", first, second, tokens[0]);
    }
    if (!cartglaze_tokenise((const uint8_t *)text, strlen(text), tokens, COUNT(tokens), &first, &second)) {
        return false;
    }
    tokens[3] = 1;
    for (size_t token = 0; token < first; token++) {
        const uint32_t *row = tokens + token * CARTGLAZE_TOKEN_ROW;
        printf("token %" PRIu32 " %" PRIu32 " %" PRIu32 " %" PRIu32 "\n", row[0], row[1], row[2], row[3]);
    }
    return true;
}

static bool run(uint32_t *tree, size_t room, uint32_t *dropped, size_t *first, size_t *second)
{
    return cartglaze_run((const uint8_t *)text, strlen(text), tokens, COUNT(tokens), shapes, COUNT(shapes), states, 0,
                         tree, room, dropped, 15, first, second);
}

static void list(bool accepted, size_t first, size_t second, const uint32_t *tree, size_t room, const uint32_t *dropped)
{
    uint8_t lines[128];
    size_t length;
    if (cartglaze_list(accepted, first, second, tree, room, dropped, 15, lines, COUNT(lines), &length)) {
        printf("%.*s", (int)length, (const char *)lines);
    }
    /* A byte too few: nothing is written. */
    lines[0] = '?';
    size_t whole = length;
    if (!cartglaze_list(accepted, first, second, tree, room, dropped, 15, lines, whole - 1, &length)) {
        printf("no room for %zu bytes %c\n", length, lines[0]);
    }
}

/* From what is printed to the source: the last number of a leaf's row is its token. */
static void leaves(const uint32_t *tree, size_t rows)
{
    const uint8_t *bytes = (const uint8_t *)text;
    size_t size = rows * CARTGLAZE_TREE_ROW;
    for (size_t row = 0; row < rows; row++) {
        if (cartglaze_is_leaf(bytes, strlen(text), tree, size, row)) {
            size_t start = cartglaze_leaf_start(bytes, strlen(text), tree, size, row);
            size_t length = cartglaze_leaf_length(bytes, strlen(text), tree, size, row);
            uint32_t token = tree[row * CARTGLAZE_TREE_ROW + CARTGLAZE_TREE_ROW - 1];
            printf("leaf %zu token %" PRIu32 " %.*s\n", row, token, (int)length, text + start);
        }
    }
}

/* Whether a formula is display, inline, valid, whole. */
static void formula(const char *source, const uint32_t *tree, size_t size)
{
    const uint8_t *bytes = (const uint8_t *)source;
    size_t length = strlen(source);
    printf("formula %s %d %d %d %d\n", source, cartglaze_is_display(bytes, length, tree, size, 0), cartglaze_is_inline(bytes, length, tree, size, 0),
           cartglaze_is_valid(bytes, length, tree, size, 0), cartglaze_is_whole(bytes, length, tree, size, 0));
}

/* `$$a$$`: a start of kind 43, its three leaves, its finish. A lone `$`: one leaf. */
static void formulas(void)
{
    const uint32_t shut[] = {0, 43, 0, 0, 0, 1, 14, 0, 2, 0, 1, 13, 2, 1, 1, 1, 14, 3, 2, 2, 2, 43, 0, 0, 3};
    const uint32_t lone[] = {0, 43, 0, 0, 0, 1, 14, 0, 1, 0, 2, 43, 0, 0, 1};
    formula("$$a$$", shut, COUNT(shut));
    formula("$", lone, COUNT(lone));
}

int main(void)
{
    uint32_t tree[11 * CARTGLAZE_TREE_ROW], dropped[15];
    size_t first, second;

    if (!cut()) {
        return 1;
    }
    if (!run(tree, COUNT(tree), dropped, &first, &second)) {
        printf("refused %zu %zu\n", first, second);
        return 1;
    }
    list(true, first, second, tree, COUNT(tree), dropped);
    leaves(tree, first);
    formulas();

    /* A number too few for the last row: refused 8, and zeros behind it. */
    if (!run(tree, COUNT(tree) - 1, dropped, &first, &second)) {
        list(false, first, second, tree, COUNT(tree) - 1, dropped);
        printf("tree %" PRIu32 ", dropped %" PRIu32 "\n", tree[1], dropped[1]);
    }
    return 0;
}
