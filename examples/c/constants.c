/*
 * Compares the header's constants with what the library says, and prints those
 * that differ. Exit status: 0 if none does, else 1.
 */
#include "kirvoghus.h"

#include <stdio.h>

static int differs(const char *name, unsigned long header, unsigned long library)
{
    if (header == library)
        return 0;
    printf("%s: %lu in the header, %lu in the library\n", name, header, library);
    return 1;
}

int main(void)
{
    uint32_t limit;
    int different = 0;

    different |= differs("version", KIRVOGHUS_VERSION, kirvoghus_version());
    different |= differs("board words", KIRVOGHUS_BOARD_WORDS, kirvoghus_board_words());
    different |= differs("book words", KIRVOGHUS_BOOK_WORDS, kirvoghus_book_words());
    for (limit = 0; limit <= KIRVOGHUS_LIMIT_MOST; limit++)
        different |= differs("report words", KIRVOGHUS_REPORT_WORDS(limit), kirvoghus_report_words(limit));
    different |= differs("line bytes", KIRVOGHUS_LINE_BYTES, kirvoghus_line_bytes());
    different |= differs("sheet bytes", KIRVOGHUS_SHEET_BYTES, kirvoghus_sheet_bytes());
    different |= differs("ceiling", KIRVOGHUS_CEILING, kirvoghus_ceiling());
    different |= differs("limit", KIRVOGHUS_LIMIT, kirvoghus_limit());
    different |= differs("highest limit", KIRVOGHUS_LIMIT_MOST, kirvoghus_limit_most());
    return different;
}
