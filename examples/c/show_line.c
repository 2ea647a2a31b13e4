/* Shows characters by a text table: show_line TABLE HEX...
 * For each character its number, the cell, the braille character of that cell in UTF-8, and the rule that gave it. */
#include <stdio.h>
#include <stdlib.h>

#include "heathdapple.h"

enum { TEXT_EDITION = 2, ISO_8859_1 = 1, TEXT_LIMIT = 65536, TABLE_WORDS = 2050, LINE_LIMIT = 256 };

/* One byte more than a text may have, so that a longer one is told from a full one. */
static uint8_t text[TEXT_LIMIT + 1];
static uint32_t words[TABLE_WORDS];
static uint32_t characters[LINE_LIMIT];
static uint8_t cells[LINE_LIMIT], rules[LINE_LIMIT];

/* Tells a refusal, which is number * 2^48 + column * 2^32 + place, with column 0 where there is none. */
static int refused(const char *what, uint64_t code) {
    unsigned column = code >> 32 & 0xFFFF;
    fprintf(stderr, "%s: refusal %u at place %u", what, (unsigned)(code >> 48), (unsigned)(code & 0xFFFFFFFF));
    if (column)
        fprintf(stderr, ", column %u", column);
    fputc('\n', stderr);
    return EXIT_FAILURE;
}

/* Reads a file, up to what the text holds; 0 if that fails. */
static int read_text(const char *path, size_t *length) {
    FILE *file = fopen(path, "rb");
    if (!file)
        return 0;
    *length = fread(text, 1, sizeof text, file);
    int good = !ferror(file);
    fclose(file);
    return good;
}

/* Reads a character's number in hex; 0 if it is none. */
static int read_character(const char *argument, uint32_t *character) {
    char *end;
    unsigned long number = strtoul(argument, &end, 16);
    *character = (uint32_t)number;
    return end != argument && *end == '\0' && number <= UINT32_MAX;
}

int main(int argc, char **argv) {
    if (argc < 2 || argc - 2 > LINE_LIMIT) {
        fprintf(stderr, "usage: show_line TABLE HEX... (at most %d characters)\n", LINE_LIMIT);
        return 2;
    }
    size_t count = (size_t)argc - 2;
    for (size_t i = 0; i < count; i++)
        if (!read_character(argv[i + 2], &characters[i])) {
            fprintf(stderr, "%s: not a number in hex\n", argv[i + 2]);
            return 2;
        }

    size_t length;
    if (!read_text(argv[1], &length)) {
        perror(argv[1]);
        return EXIT_FAILURE;
    }
    uint64_t code = heathdapple_compile(TEXT_EDITION, ISO_8859_1, text, length, words, TABLE_WORDS);
    if (code >> 48)
        return refused(argv[1], code);
    code = heathdapple_page(words, TABLE_WORDS, characters, count, cells, LINE_LIMIT, rules, LINE_LIMIT);
    if (code >> 48)
        return refused("line", code);
    for (size_t i = 0; i < count; i++)
        printf("U+%04lX  cell %02X  \xE2%c%c  rule %u\n", (unsigned long)characters[i], cells[i],
               0xA0 + cells[i] / 64, 0x80 + cells[i] % 64, rules[i]);
    return EXIT_SUCCESS;
}
