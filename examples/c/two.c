/*
 * Checks two plans side by side, each in a thread of its own, and prints the
 * seven numbers of the first and of the second.
 *
 *     two [--strict] FILE [--strict] FILE
 *
 * --strict makes the call for the next file the strict one.
 * Their boards stand in the memory of one board of before, 16,384 words, and of
 * the words that each of the two boards is shorter now.
 * Exit status: 0 checked, 2 not checked.
 */
#include <pthread.h>
#include <stdio.h>
#include <string.h>

#include "kirvoghus.h"

enum { NOT_CHECKED = 2 };

#define BOARD_BEFORE 16384
#define FREED (BOARD_BEFORE - KIRVOGHUS_BOARD_WORDS)

/* One word less, and the second board would be too short. */
static uint32_t boards[BOARD_BEFORE + 2 * FREED];

struct desk {
    int strict;
    uint8_t sheet[KIRVOGHUS_SHEET_BYTES + 1];
    size_t sheet_bytes;
    uint32_t *board;
    size_t board_words;
    uint32_t book[KIRVOGHUS_BOOK_WORDS];
    uint32_t report[KIRVOGHUS_REPORT_WORDS(KIRVOGHUS_LIMIT)];
    uint32_t result[KIRVOGHUS_NUMBERS];
};

static struct desk first;
static struct desk second;

static void *check(void *given)
{
    struct desk *desk = given;

    (desk->strict ? kirvoghus_check_type_strict : kirvoghus_check_type)(
        desk->sheet, desk->sheet_bytes, KIRVOGHUS_CEILING, KIRVOGHUS_LIMIT,
        desk->board, desk->board_words,
        desk->book, KIRVOGHUS_BOOK_WORDS,
        desk->report, KIRVOGHUS_REPORT_WORDS(KIRVOGHUS_LIMIT),
        desk->result);
    return NULL;
}

static int read_sheet(struct desk *desk, const char *name)
{
    FILE *file = fopen(name, "rb");
    int failed;

    if (file == NULL) {
        perror(name);
        return 0;
    }
    desk->sheet_bytes = fread(desk->sheet, 1, sizeof desk->sheet, file);
    failed = ferror(file);
    fclose(file);
    return !failed;
}

static void print_result(const struct desk *desk)
{
    int at;

    for (at = 0; at < KIRVOGHUS_NUMBERS; at++)
        printf("%6lu", (unsigned long)desk->result[at]);
    putchar('\n');
}

int main(int count, char **words)
{
    struct desk *const desks[] = {&first, &second};
    pthread_t thread;
    int read = 0;
    int at;

    for (at = 1; at < count && read < 2; at++) {
        if (strcmp(words[at], "--strict") == 0)
            desks[read]->strict = 1;
        else if (!read_sheet(desks[read++], words[at]))
            return NOT_CHECKED;
    }
    if (read < 2 || at < count) {
        fputs("usage: two [--strict] FILE [--strict] FILE\n", stderr);
        return NOT_CHECKED;
    }
    first.board = boards;
    first.board_words = KIRVOGHUS_BOARD_WORDS;
    second.board = boards + first.board_words;
    second.board_words = sizeof boards / sizeof *boards - first.board_words;
    if (pthread_create(&thread, NULL, check, &first) != 0) {
        fputs("two: no thread\n", stderr);
        return NOT_CHECKED;
    }
    check(&second);
    pthread_join(thread, NULL);
    print_result(&first);
    print_result(&second);
    return fflush(stdout) == 0 ? 0 : NOT_CHECKED;
}
