/* Heathdapple: a proved reference for braille terminals.
 *
 * Link with libheathdapple.a (x86-64 Linux). Each pointer is valid for its length, in elements; buffers that are written
 * lie apart from each other and from what is read. A length may be 0, with any non-null pointer.
 *
 * A refusal is number * 2^48 + column * 2^32 + place, with the numbers 1 to 23 of the papers; a place beyond 2^32 - 1 is given
 * as 2^32 - 1, a column beyond 2^16 - 1 as 2^16 - 1. Every other answer is below 2^48.
 *
 * Refusals 3 to 13, 16, 17 and 22 have a column: where on its line the text is at fault, in bytes from 1. It is the first byte
 * of the word or operand at fault; for 3 byte 1,025, for 4 the first byte of the bad sequence, for 6 one past the line's last
 * byte, its end (LF, one CR) not counted, for 10 the condition word that is one too many, for 11 to 13 and 22 the directive word
 * that took effect, in an old byte table the first word of the line. All other refusals have column 0.
 *
 * There are two local character sets: 1 is ISO 8859-1, 2 is ISO 8859-15, which has U+20AC at A4, U+0160 at A6, U+0161 at A8,
 * U+017D at B4, U+017E at B8, U+0152 at BC, U+0153 at BD and U+0178 at BE. The set of a compile call decides which characters
 * the byte operands of its text are, and which one a private-row character (U+F000 to U+F0FF) stands for, in the character
 * operands of the text and in every lookup on the table.
 *
 * A compiled table is 2,050 words: 1,024 pairs, in word 2,048 its set, and in word 2,049 zero. The calls that take one look at
 * no words beyond. They refuse fewer words by 2, and words that are no such table by 15, placed at the first pair at fault, from
 * 0; words 2,048 and 2,049 count as pair 1,024. No pair is for a character of the braille row (U+2800 to U+28FF) or the private
 * row, and none has a target of the private row.
 *
 * An order of a compiled table of n definitions is 1,024 words or more: the first n are the numbers of its pairs, from
 * 0, by rising character; all behind them are free. The calls that take one refuse fewer words by 2, and after 15 and
 * before 14 an order whose first n words are others by 23, with place 0.
 */
#ifndef HEATHDAPPLE_H
#define HEATHDAPPLE_H

#include <stddef.h>
#include <stdint.h>

#ifdef __cplusplus
extern "C" {
#endif

/* Compiles a text by its edition, 2 for a text table, 1 for an old byte table, in a local character set, 1 or 2. Any other
 * edition is refused by 20, then any other set by 21, before all other refusals; both touch nothing.
 *
 * A text table is compiled into the first 2,050 words. Answers the count of definitions, or a refusal with its line and
 * column: 2 for words under 2,050, then 1, then the lines. A refusal zeroes the 2,050 words, but for 1 and 2, which touch
 * nothing; zeros are no compiled table. Words beyond 2,050 are never touched.
 *
 * A byte table leaves the words untouched and untested: there may be any number of them, or none. Answers the count of its
 * byte lines, 0 to 256, or a refusal with its line and column: 1, then the lines. heathdapple_byte_cells gives its cells. */
uint64_t heathdapple_compile(uint32_t edition, uint32_t set, const uint8_t *text, size_t text_length, uint32_t *words,
                             size_t words_length);

/* The cells of all 256 bytes by an old byte table's text in a local character set, in the first 256 bytes of cells; those past
 * them stay. Answers the count of byte lines, or a refusal with its line and column, as heathdapple_compile does for edition 1:
 * 21 for a set other than 1 or 2, then 1, then the lines; each makes all 256 cells 255. 2 for cells under 256, before all
 * others, touches nothing. */
uint64_t heathdapple_byte_cells(uint32_t set, const uint8_t *text, size_t text_length, uint8_t *cells, size_t cells_length);

/* Looks a character up on a compiled table. Answers cell + 2^8 * rule + 2^16 * links, or a refusal with its place. */
uint64_t heathdapple_look_up(const uint32_t *words, size_t words_length, uint32_t character);

/* Fills a cell and a rule for each character of a page; bytes past the page's length stay. Answers 0, or a refusal with its
 * place, which writes nothing. */
uint64_t heathdapple_page(const uint32_t *words, size_t words_length, const uint32_t *characters, size_t characters_length,
                          uint8_t *cells, size_t cells_length, uint8_t *rules, size_t rules_length);

/* Writes the order of a compiled table at the front of order; words past it stay. Answers the count of definitions, or
 * a refusal with its place, which writes nothing: 2 for words under 2,050 or an order under 1,024, however few
 * definitions there are, then 15. */
uint64_t heathdapple_order(const uint32_t *words, size_t words_length, uint32_t *order, size_t order_length);

/* Searches an order by halving for the pair of a character as it stands: a private-row character is not made local, so
 * neither it nor one of the braille row is found. Of n pairs left, of which the first is at place low of the order, the
 * one at place low + (n - 1) / 2 is compared; if it is of another character, those above it are left where its own is
 * less, else those below it. Answers comparisons + 2^8 * (pair + 1), with 0 for pair + 1 if there is none, or a refusal
 * with its place: 2, 15, 23, 14. There are at most 11 comparisons, and none on an empty table. */
uint64_t heathdapple_search(const uint32_t *words, size_t words_length, const uint32_t *order, size_t order_length,
                            uint32_t character);

/* Looks a character up by searching an order. Answers as heathdapple_look_up does, or a refusal with its place: 2, 15,
 * 23, 14. */
uint64_t heathdapple_look_up_by(const uint32_t *words, size_t words_length, const uint32_t *order, size_t order_length,
                                uint32_t character);

/* Fills a page by searching an order, with the cells and rules of heathdapple_page; bytes past the page's length stay.
 * Answers 0, or a refusal with its place, which writes nothing: 2 for any slice that is too short, 15, 23, 14. Takes some
 * 28 KB of stack, for answers that it keeps. */
uint64_t heathdapple_page_by(const uint32_t *words, size_t words_length, const uint32_t *order, size_t order_length,
                             const uint32_t *characters, size_t characters_length, uint8_t *cells, size_t cells_length,
                             uint8_t *rules, size_t rules_length);

/* A window of a page: its first character, from 0, and how many characters it has. */
struct heathdapple_window {
    size_t start;
    size_t width;
};

/* Fills a cell and a rule for each character of each window of a page, one window after another in list order; windows may
 * overlap or be empty, and bytes past all widths together stay. windows_length is the count of windows. Answers 0, or a
 * refusal with its place, which writes nothing. */
uint64_t heathdapple_windows(const uint32_t *words, size_t words_length, const uint32_t *characters, size_t characters_length,
                             const struct heathdapple_window *windows, size_t windows_length, uint8_t *cells,
                             size_t cells_length, uint8_t *rules, size_t rules_length);

/* The character that a cell types on a compiled table: 0 for nothing, else the character + 1, or a refusal with its place. */
uint64_t heathdapple_typed(const uint32_t *words, size_t words_length, uint8_t cell);

/* The same for all 256 cells at once, in the first 256 elements of entries; those past them stay. Answers 0, or a refusal with
 * its place, which writes nothing: 2 for entries under 256, before all others, then as above. */
uint64_t heathdapple_entries(const uint32_t *words, size_t words_length, uint32_t *entries, size_t entries_length);

/* Lists a compiled table as text at the front of buffer, one line a definition, in order: `char`, `glyph` or `alias`, a
 * blank, the character, a blank, the dots, rising or `0` for none, or the target of the alias, LF. Characters are `\U`
 * with eight lower-case hex digits. Compiled by edition 2 in the table's set the text gives the same 2,050 words.
 * Bytes past it stay. Answers its length, or a refusal with its place, which writes nothing: 2 for short words, 15,
 * then 2 for a buffer that is shorter. A line has at most 28 bytes with its LF, so 28,672 are enough for any table. */
uint64_t heathdapple_list(const uint32_t *words, size_t words_length, uint8_t *buffer, size_t buffer_length);

/* The cell of a VGA attribute byte by an attributes table's text, or the refusal of that text with its line and
 * column. */
uint64_t heathdapple_attribute_cell(const uint8_t *text, size_t text_length, uint8_t byte);

/* The same for all 256 attribute bytes at once, in the first 256 bytes of cells; those past them stay. Answers the count of `dot`
 * lines, or a refusal with its line and column, which writes nothing: 2 for cells under 256, before all others, then as above. */
uint64_t heathdapple_attribute_cells(const uint8_t *text, size_t text_length, uint8_t *cells, size_t cells_length);

#ifdef __cplusplus
}
#endif

#endif
