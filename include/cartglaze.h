/* Cartglaze for C: a formula's text into token rows, mitex's parser over tables of numbers, sheets that hold such tables, and the listing of an
 * answer. The functions of crates/ffi/src (run and questions in lib.rt, tokens.rt, sheet.rt, listing.rt), with what each promises.
 *
 * Link target/staticlib/libffi.a, by that path (another library has the name libffi). `make ffi` writes it.
 *
 * What a caller owes, of each function:
 *   - A pointer with a length behind it points to so many elements that are there, aligned as their type is. It is not null, even where the length
 *     is 0.
 *   - A pointer to a single result (`size_t *`) is not null, and is aligned too.
 *   - What is written to overlaps nothing else that is passed: `tokens` of cartglaze_tokenise, `tree`, `dropped`, `numbers`, `out` and each single
 *     result.
 * Nothing more: any bytes may stand in a text and in a sheet, and any numbers in the tables and in the rows. The contracts are proved for callers that
 * keep to this.
 *
 * Stack: a run takes more the more nodes are open, and no more than 128 ever are. Formulas with so many were read on a thread with a stack of
 * 132 KiB, and not on one with 4 KiB less; the thread's own start takes a part of it. That is measured, on x86-64, and not proved; `make bench`
 * measures it again. Nothing is taken from the heap.
 *
 * Tables, all of whole rows:
 *   tokens  kind, start, length, shape (0 none, k the k-th)    at most 16,384 rows, text at most 65,535 bytes
 *   shapes  class, form, value                                 at most 4,096
 *   states  the next state for t, b, p, or 0                   at most 4,096
 * Rows that come back:
 *   tree     tag (0 start, 1 leaf, 2 finish), kind, start, length, token
 *   dropped  token, reason (1 trivia, 2 opener, 3 closer), leaves written before it
 * A token is named by its row among the tokens, counted from 0. The token of a tree row leads from what is printed to the source: a leaf has its own
 * token; a start or a finish has the first token that was not wholly read just before the row was made, the token count at the end. Start and length
 * are 0 unless the row is a leaf.
 */
#ifndef CARTGLAZE_H
#define CARTGLAZE_H

#include <stdbool.h>
#include <stddef.h>
#include <stdint.h>

#ifdef __cplusplus
extern "C" {
#endif

/* So many numbers make a token row. */
#define CARTGLAZE_TOKEN_ROW 4

/* The token rows of a formula's text. It always returns, and says whether it has written them.
 *
 * True: *first is the count of token rows, and *second is 0. The rows stand at the beginning of `tokens`, and every later element is as it was. Their
 * shape numbers are 0: no command takes arguments until the caller sets the number of its shape.
 * False: *first is the number of refusal and *second its place, counted from 0. `tokens` is as it was.
 *   11  a byte over 127, be the text ever so long                        its offset, of the first one
 *   1   more than 65,535 bytes, more than 16,384 tokens, or fewer than   0
 *       CARTGLAZE_TOKEN_ROW numbers lent for each token
 * There are no more tokens than bytes, so CARTGLAZE_TOKEN_ROW numbers a byte are always enough, and CARTGLAZE_TOKEN_ROW * 16384 are too.
 *
 * A row's text is its part of `text`; the text of \begin{name} and \end{name} (27 and 28) is the name alone. The rows as they are written, *first times
 * CARTGLAZE_TOKEN_ROW numbers, are never refused 3 by cartglaze_run with the same text; a shape number that the caller sets is judged as ever. The same
 * text and length of `tokens` always give the same result. */
bool cartglaze_tokenise(const uint8_t *text, size_t text_length, uint32_t *tokens, size_t tokens_length, size_t *first, size_t *second);

/* So many numbers make a tree row. A tree buffer is so many rows: its length divided by this, rounded down. What is left over behind the last whole
 * row is no row. */
#define CARTGLAZE_TREE_ROW 5

/* The whole run. It always returns, and says whether it accepts.
 *
 * True: *first is the count of tree rows, *second that of dropped rows. The rows stand at the beginning of their buffers, and every later
 * element is as it was.
 * False: *first is the number of refusal and *second its place, counted from 0.
 *   1  a limit is passed, or a table isn't whole rows                  place 0
 *   2  the dropped buffer has under 3 numbers per token                place 0
 *   3  a token row: kind, text range, shape number, or a Word's bytes  its row
 *   4  a shape row or a state row                                      its row, states counted on after shapes
 *   5  an environment whose shape is greedy                            token
 *   6  a wrap's mark before the innermost open node's first child      token
 *   7  a 129th node would be open                                      token
 *   8  a row more than the tree buffer has room for                    token
 * 1 to 4 leave both buffers as they were; 5 to 8 leave zeros throughout both.
 *
 * The same tables and lengths of buffers always give the same result. */
bool cartglaze_run(const uint8_t *text, size_t text_length,
                   const uint32_t *tokens, size_t tokens_length,
                   const uint32_t *shapes, size_t shapes_length,
                   const uint32_t *states, size_t states_length,
                   uint32_t *tree, size_t tree_length,
                   uint32_t *dropped, size_t dropped_length,
                   size_t *first, size_t *second);

/* Questions about row `row` of tree rows, for any numbers in their place and any row. None looks at a row's last number.
 *
 * The first four say no unless the row starts a formula (kind 43) that has its matching finish, whatever kind that names, and the leaves that they
 * ask about lie inside the text. The first token is the first child where that is a leaf, else the first child's own first token; the last alike. */

/* Whether its first token is `$$` or `\[`. */
bool cartglaze_is_display(const uint8_t *text, size_t text_length, const uint32_t *tree, size_t tree_length, size_t row);

/* Whether its first token is `$` or `\(`. */
bool cartglaze_is_inline(const uint8_t *text, size_t text_length, const uint32_t *tree, size_t tree_length, size_t row);

/* Whether its first and its last token match: `$` and `$`, `$$` and `$$`, `\(` and `\)`, or `\[` and `\]`. A lone `$` is both, and matches: this is
 * mitex's answer. To decide what is printed, ask cartglaze_is_whole. */
bool cartglaze_is_valid(const uint8_t *text, size_t text_length, const uint32_t *tree, size_t tree_length, size_t row);

/* Whether its first and its last child are different rows, both leaves, that match in the same way. No child is gone into. A lone `$` is not whole,
 * and neither is `$a_$`, where the script reads the closing `$`. What is whole is valid. */
bool cartglaze_is_whole(const uint8_t *text, size_t text_length, const uint32_t *tree, size_t tree_length, size_t row);

/* Whether the row is a leaf that lies inside the text. */
bool cartglaze_is_leaf(const uint8_t *text, size_t text_length, const uint32_t *tree, size_t tree_length, size_t row);

/* Where the text of the row's leaf starts in `text`, and how many bytes it has: start + length is at most text_length. For a leaf outside the text,
 * another row or no row, both are 0. */
size_t cartglaze_leaf_start(const uint8_t *text, size_t text_length, const uint32_t *tree, size_t tree_length, size_t row);
size_t cartglaze_leaf_length(const uint8_t *text, size_t text_length, const uint32_t *tree, size_t tree_length, size_t row);

/* Where a sheet's text begins, and so many numbers that every sheet's have room. */
#define CARTGLAZE_SHEET_TEXT 5
#define CARTGLAZE_SHEET_NUMBERS 8192

/* The tables of a sheet: version byte 1, then text, tokens, shapes, states, each a 4-byte length and its bytes, numbers 4 bytes, all big-endian;
 * at most 32,768 bytes. It always returns, and says whether the sheet is read.
 *
 * True: the text is the *text bytes of the sheet from CARTGLAZE_SHEET_TEXT on. The *tokens numbers of the token rows stand at the beginning of
 * `numbers`, behind them the *shapes numbers of the shape rows, behind these the *states numbers of the state rows; every later number is as it was.
 * All these parts lie inside the sheet and inside `numbers`. *needed is 0. What the rows hold is asked by cartglaze_run alone.
 * False: `numbers` is as it was, and *text, *tokens, *shapes and *states are 0.
 *   *needed is 0                    refusal 9, place 0: the sheet is longer, of another version, cut short, followed by more, or has a table not of
 *                                   whole numbers
 *   *needed is over numbers_length  the sheet could be read, into so many numbers
 *
 * The same sheet and length of `numbers` always give the same result. */
bool cartglaze_read(const uint8_t *sheet, size_t sheet_length, uint32_t *numbers, size_t numbers_length,
                    size_t *text, size_t *tokens, size_t *shapes, size_t *states, size_t *needed);

/* The listing of an answer, as lines of text with no 0 behind them. `accepted`, `first` and `second` are what cartglaze_run gave, with both buffers
 * as it left them; for refusal 9 they are false, 9 and 0. It always returns, and says whether the lines have room.
 *
 * True: they stand at the beginning of `out`, *length bytes; every later byte is as it was.
 * False: `out` is as it was, and they would have *length bytes (from 2^64 - 1 on, that number).
 *
 * Accepted, `ok ROWS DROPPED`; then for each start or leaf among the tree rows its depth and kind, a leaf's start and length, and its token; then
 * `d` and the three numbers of each dropped row. Refused, `refused NUMBER PLACE` alone. Any numbers are taken: rows that a buffer does not have are
 * left out, a tag over 2 has no line, a finish where nothing is open leaves the depth at 0, and a number of refusal over 2^32 - 1 counts for that.
 *
 * The same answer, rows and length of `out` always give the same result. */
bool cartglaze_list(bool accepted, size_t first, size_t second, const uint32_t *tree, size_t tree_length,
                    const uint32_t *dropped, size_t dropped_length, uint8_t *out, size_t out_length, size_t *length);

#ifdef __cplusplus
}
#endif

#endif
