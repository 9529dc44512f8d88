/*
 * Writes the sheet of the triples in a file or on standard input, which are decimal
 * words with blanks between, three a triple. Prints the seven numbers in columns of
 * 6, on request (-c) those that the check of the sheet gives, and then the output as
 * the library left it. Its bytes are dots before the call.
 *
 *     write [-c] [-o BYTES] [FILE]
 *
 * BYTES is the length of the output, by default just enough for the sheet.
 * Exit status: 0 written, 1 any other result, 2 not asked for.
 */
#include <errno.h>
#include <stdio.h>
#include <stdlib.h>
#include <string.h>

#include "kirvoghus.h"

enum { NOT_ASKED = 2 };

/* One triple more than a sheet has lines, so the library sees that they are too many. */
#define MOST_WORDS (KIRVOGHUS_TRIPLE_WORDS * (KIRVOGHUS_SHEET_BYTES / KIRVOGHUS_LINE_BYTES + 1))

/* Areas of the lengths told to the library and no longer, as in check.c. */
static int64_t *triples;
static uint8_t *out;

/* An area that is not null, also for the length 0; null if there is no memory. */
static void *area(size_t length, size_t size)
{
    void *start = length > SIZE_MAX / size ? NULL : malloc(length > 0 ? length * size : 1);

    if (start == NULL)
        fputs("write: no memory\n", stderr);
    return start;
}

/* A decimal number of 64 bits with its sign; 0 if the text is none. */
static int read_word(const char *text, int64_t *word)
{
    char *end;
    long long number;

    errno = 0;
    number = strtoll(text, &end, 10);
    if (end == text || *end != '\0' || errno != 0 || number < INT64_MIN || number > INT64_MAX)
        return 0;
    *word = number;
    return 1;
}

/* The words of a file, into an area of their own; 0 if one is no number. */
static int read_words(FILE *file, size_t *count)
{
    static int64_t words[MOST_WORDS];
    char text[32];

    *count = 0;
    while (*count < MOST_WORDS && fscanf(file, "%31s", text) == 1) {
        if (!read_word(text, &words[*count])) {
            fprintf(stderr, "write: %s is no number of 64 bits\n", text);
            return 0;
        }
        ++*count;
    }
    if (ferror(file)) {
        fputs("write: the triples can't be read\n", stderr);
        return 0;
    }
    if ((triples = area(*count, sizeof *triples)) == NULL)
        return 0;
    memcpy(triples, words, *count * sizeof *triples);
    return 1;
}

static int read_triples(const char *name, size_t *words)
{
    FILE *file = name == NULL ? stdin : fopen(name, "r");
    int read;

    if (file == NULL) {
        perror(name);
        return 0;
    }
    read = read_words(file, words);
    if (file != stdin)
        fclose(file);
    return read;
}

static void print_result(const uint32_t *result)
{
    int at;

    for (at = 0; at < KIRVOGHUS_NUMBERS; at++)
        printf("%6lu", (unsigned long)result[at]);
    putchar('\n');
}

/* Checks what was written. */
static void check(size_t bytes)
{
    static uint32_t board[KIRVOGHUS_BOARD_WORDS];
    static uint32_t book[KIRVOGHUS_BOOK_WORDS];
    static uint32_t report[KIRVOGHUS_REPORT_WORDS(KIRVOGHUS_LIMIT)];
    uint32_t result[KIRVOGHUS_NUMBERS];

    kirvoghus_check_type(
        out, bytes, KIRVOGHUS_CEILING, KIRVOGHUS_LIMIT,
        board, KIRVOGHUS_BOARD_WORDS,
        book, KIRVOGHUS_BOOK_WORDS,
        report, KIRVOGHUS_REPORT_WORDS(KIRVOGHUS_LIMIT),
        result);
    print_result(result);
}

/* Writes and prints; the exit status. */
static int write_sheet(size_t words, size_t out_bytes, int checked)
{
    const size_t sheet_bytes = words / KIRVOGHUS_TRIPLE_WORDS * KIRVOGHUS_LINE_BYTES;
    uint32_t result[KIRVOGHUS_NUMBERS];
    uint32_t number;

    memset(out, '.', out_bytes);
    number = kirvoghus_write_sheet(triples, words, out, out_bytes, result);
    if (number != result[KIRVOGHUS_NUMBER]) {
        fputs("write: the number returned is another than the first of the seven\n", stderr);
        return NOT_ASKED;
    }
    print_result(result);
    if (checked && number == KIRVOGHUS_ACCEPTED)
        check(sheet_bytes);
    fwrite(out, 1, out_bytes, stdout);
    if (fflush(stdout) != 0 || ferror(stdout))
        return NOT_ASKED;
    return number == KIRVOGHUS_ACCEPTED ? 0 : 1;
}

static int usage(void)
{
    fputs("usage: write [-c] [-o BYTES] [FILE]\n", stderr);
    return NOT_ASKED;
}

int main(int count, char **arguments)
{
    const char *name = NULL;
    int64_t asked = -1;
    int checked = 0;
    size_t words;
    size_t out_bytes;
    int status = NOT_ASKED;
    int at;

    for (at = 1; at < count; at++) {
        if (strcmp(arguments[at], "-c") == 0) {
            checked = 1;
        } else if (strcmp(arguments[at], "-o") == 0) {
            if (++at == count || !read_word(arguments[at], &asked) || asked < 0)
                return usage();
        } else if (name != NULL || arguments[at][0] == '-') {
            return usage();
        } else {
            name = arguments[at];
        }
    }
    if (read_triples(name, &words)) {
        out_bytes = asked >= 0 ? (size_t)asked : words / KIRVOGHUS_TRIPLE_WORDS * KIRVOGHUS_LINE_BYTES;
        if ((out = area(out_bytes, sizeof *out)) != NULL)
            status = write_sheet(words, out_bytes, checked);
    }
    free(triples);
    free(out);
    return status;
}
