/*
 * Checks the sheet in a file or on standard input, and prints the seven numbers
 * in columns of 6, the types that the result reports, and on request the
 * solutions in order of solving (-s) and the levels of the numbers made (-v).
 *
 *     check [--strict] [-c CEILING] [-l LIMIT] [-b WORDS] [-k WORDS] [-s] [-v] [FILE]
 *
 * --strict makes it the strict call. WORDS are the lengths of the board (-b) and
 * of the book (-k), by default the least that are taken. The report is as long as
 * the limit asks.
 * Exit status: 0 accepted, 1 any other result, 2 not checked.
 *
 * Types are spelt as in the papers: n10 → Int, ∀n10. n10, a product (A × B), a
 * type application F A, an unknown ^3. A fresh universal is !3. A product of
 * one part is (A ×), which tells it from parentheses.
 */
#include <errno.h>
#include <stdio.h>
#include <stdlib.h>
#include <string.h>

#include "kirvoghus.h"

enum { NOT_CHECKED = 2 };

/*
 * Areas of the lengths told to the library and no longer, with nothing written
 * to the buffers before: a memory checker then sees a read or write past an end,
 * and a word that is used before it is written.
 */
static uint8_t *sheet;
static uint32_t *board;
static uint32_t *book;
static uint32_t *report;
static size_t report_words;

/* Where a type stands, for its parentheses: PART is left of an arrow or in a product. */
enum place { ANYWHERE, PART, APPLIED, ARGUMENT };

/* What is still to be printed: a text, or the next type if there is none. */
struct piece {
    const char *text;
    enum place place;
};

/*
 * The pieces are kept here and not on the C stack, as types nest deep. A node
 * needs at most three: itself, a separator beside it and a parenthesis.
 */
#define MOST_NODES ((KIRVOGHUS_BOOK_WORDS - KIRVOGHUS_BOOK_NODES) / KIRVOGHUS_NODE_WORDS)
#define MOST_PIECES (3 * MOST_NODES)
static struct piece pieces[MOST_PIECES];
static size_t piece_count;

/* 0 if there is no room. */
static int add_text(const char *text)
{
    if (piece_count == MOST_PIECES)
        return 0;
    pieces[piece_count].text = text;
    pieces[piece_count].place = ANYWHERE;
    piece_count++;
    return 1;
}

static int add_type(enum place place)
{
    if (!add_text(NULL))
        return 0;
    pieces[piece_count - 1].place = place;
    return 1;
}

static void print_name(uint32_t name)
{
    static const char *const known[] = {"Int", "Bool", "Unit", "printInt"};

    if (name >= 1 && name <= 4)
        fputs(known[name - 1], stdout);
    else
        printf("n%lu", (unsigned long)name);
}

static int in_parentheses(uint32_t kind, enum place place)
{
    switch (kind) {
    case KIRVOGHUS_TYPE_ARROW:
    case KIRVOGHUS_TYPE_FORALL:
        return place != ANYWHERE;
    case KIRVOGHUS_TYPE_APP:
        return place == ARGUMENT;
    default:
        return 0;
    }
}

/* The parts of a Product, last piece first. */
static int add_product(uint32_t count)
{
    uint32_t part;

    if (!add_text(count == 1 ? " ×)" : ")"))
        return 0;
    for (part = 0; part < count; part++) {
        if (part > 0 && !add_text(" × "))
            return 0;
        if (!add_type(PART))
            return 0;
    }
    return 1;
}

/* Prints the start of a node and adds its other pieces, the last one first. */
static int print_node(uint32_t kind, uint32_t value, enum place place)
{
    if (in_parentheses(kind, place)) {
        putchar('(');
        if (!add_text(")"))
            return 0;
    }
    switch (kind) {
    case KIRVOGHUS_TYPE_VAR:
    case KIRVOGHUS_TYPE_CON:
        print_name(value);
        return 1;
    case KIRVOGHUS_TYPE_ARROW:
        return add_type(ANYWHERE) && add_text(" → ") && add_type(PART);
    case KIRVOGHUS_TYPE_FORALL:
        fputs("∀", stdout);
        print_name(value);
        fputs(". ", stdout);
        return add_type(ANYWHERE);
    case KIRVOGHUS_TYPE_APP:
        return add_type(ARGUMENT) && add_text(" ") && add_type(APPLIED);
    case KIRVOGHUS_TYPE_PRODUCT:
        putchar('(');
        return add_product(value);
    case KIRVOGHUS_TYPE_UNKNOWN:
        printf("^%lu", (unsigned long)value);
        return 1;
    case KIRVOGHUS_TYPE_UNIVERSAL:
        printf("!%lu", (unsigned long)value);
        return 1;
    default:
        return 0;
    }
}

/* A title, then the type that the nodes are; 0 if they are no type. */
static int print_type(const char *title, const uint32_t *nodes, uint32_t count)
{
    uint32_t read = 0;

    fputs(title, stdout);
    piece_count = 0;
    add_type(ANYWHERE);
    while (piece_count > 0) {
        struct piece piece = pieces[--piece_count];

        if (piece.text != NULL) {
            fputs(piece.text, stdout);
            continue;
        }
        if (read == count)
            return 0;
        if (!print_node(nodes[2 * read], nodes[2 * read + 1], piece.place))
            return 0;
        read++;
    }
    putchar('\n');
    return read == count;
}

/* True if the report has room for so many nodes from a node on. */
static int in_report(uint32_t from, uint32_t count)
{
    const size_t room = report_words / KIRVOGHUS_NODE_WORDS;

    return from <= room && count <= room - from;
}

static int print_report(const uint32_t *result)
{
    const uint32_t detail1 = result[KIRVOGHUS_DETAIL1];
    const uint32_t detail2 = result[KIRVOGHUS_DETAIL2];

    switch (result[KIRVOGHUS_NUMBER]) {
    case KIRVOGHUS_NOT_A_FUNCTION:
        return in_report(0, detail1) && print_type("type: ", report, detail1);
    case KIRVOGHUS_SUBTYPING_ERROR:
        return in_report(0, detail1) && in_report(detail1, detail2)
            && print_type("left: ", report, detail1)
            && print_type("right: ", report + KIRVOGHUS_NODE_WORDS * detail1, detail2);
    case KIRVOGHUS_INSTANTIATION_ERROR:
        printf("unknown: ^%lu\n", (unsigned long)detail1);
        return in_report(0, detail2) && print_type("type: ", report, detail2);
    default:
        return 1;
    }
}

/* The unknown whose solution starts at a word of the book. */
static uint32_t solved_at(uint32_t start)
{
    uint32_t unknown = 0;

    while (unknown < KIRVOGHUS_BOOK_UNKNOWNS && book[3 * unknown] != start)
        unknown++;
    return unknown;
}

/* The solutions stand one after the other, so each start follows from the last. */
static int print_solutions(void)
{
    uint32_t start = KIRVOGHUS_BOOK_NODES;
    uint32_t unknown;

    while ((unknown = solved_at(start)) < KIRVOGHUS_BOOK_UNKNOWNS) {
        const uint32_t count = book[3 * unknown + 1];

        if (count > (KIRVOGHUS_BOOK_WORDS - start) / KIRVOGHUS_NODE_WORDS)
            return 0;
        printf("^%lu = ", (unsigned long)unknown);
        if (!print_type("", book + start, count))
            return 0;
        start += KIRVOGHUS_NODE_WORDS * count;
    }
    return 1;
}

/* The levels of the numbers made; those of universals are 0. */
static int print_levels(uint32_t fresh)
{
    uint32_t number;

    if (fresh > KIRVOGHUS_BOOK_UNKNOWNS)
        return 0;
    fputs("levels:", stdout);
    for (number = 0; number < fresh; number++)
        printf(" %lu", (unsigned long)book[3 * number + 2]);
    putchar('\n');
    return 1;
}

/* A decimal number of 32 bits; 0 if the text is none. */
static int read_number(const char *text, uint32_t *number)
{
    uint32_t value = 0;

    if (*text == '\0')
        return 0;
    for (; *text != '\0'; text++) {
        uint32_t digit;

        if (*text < '0' || *text > '9')
            return 0;
        digit = (uint32_t)(*text - '0');
        if (value > (UINT32_MAX - digit) / 10)
            return 0;
        value = 10 * value + digit;
    }
    *number = value;
    return 1;
}

/* An area that is not null, also for the length 0; null if there is no memory. */
static void *area(size_t length, size_t size)
{
    void *start = length > SIZE_MAX / size ? NULL : malloc(length > 0 ? length * size : 1);

    if (start == NULL)
        fputs("check: no memory\n", stderr);
    return start;
}

/* What is asked for: the call with its numbers, and what is printed after it. */
struct asked {
    int strict;
    uint32_t ceiling;
    uint32_t limit;
    uint32_t board_words;
    uint32_t book_words;
    int solutions;
    int levels;
};

/* A limit that the library refuses needs no report. */
static int make_buffers(const struct asked *asked)
{
    report_words = asked->limit <= KIRVOGHUS_LIMIT_MOST ? KIRVOGHUS_REPORT_WORDS(asked->limit) : 0;
    return (board = area(asked->board_words, sizeof *board)) != NULL
        && (book = area(asked->book_words, sizeof *book)) != NULL
        && (report = area(report_words, sizeof *report)) != NULL;
}

/* The bytes of the file, or of standard input if there is no name. */
static int read_sheet(const char *name, size_t *length)
{
    /* One byte more than a sheet may have, so the library sees that it is too long. */
    static uint8_t bytes[KIRVOGHUS_SHEET_BYTES + 1];
    FILE *file = name == NULL ? stdin : fopen(name, "rb");
    int failed;

    if (file == NULL) {
        fprintf(stderr, "%s: %s\n", name, strerror(errno));
        return 0;
    }
    *length = fread(bytes, 1, sizeof bytes, file);
    failed = ferror(file);
    if (failed)
        fprintf(stderr, "%s: can't be read\n", name == NULL ? "standard input" : name);
    if (file != stdin)
        fclose(file);
    if (failed || (sheet = area(*length, 1)) == NULL)
        return 0;
    memcpy(sheet, bytes, *length);
    return 1;
}

/* After the other results nothing was written to the book. */
static int was_run(uint32_t number)
{
    return number == KIRVOGHUS_ACCEPTED
        || (number > KIRVOGHUS_UNFIT_LINE && number != KIRVOGHUS_LIMIT_OUT_OF_RANGE);
}

/* Checks and prints; the exit status. */
static int check(size_t length, const struct asked *asked)
{
    uint32_t result[KIRVOGHUS_NUMBERS];
    uint32_t number;
    int printed;
    int at;

    number = (asked->strict ? kirvoghus_check_type_strict : kirvoghus_check_type)(
        sheet, length, asked->ceiling, asked->limit,
        board, asked->board_words,
        book, asked->book_words,
        report, report_words,
        result);

    for (at = 0; at < KIRVOGHUS_NUMBERS; at++)
        printf("%6lu", (unsigned long)result[at]);
    putchar('\n');
    printed = print_report(result);
    if (asked->solutions && was_run(number))
        printed = printed && print_solutions();
    if (asked->levels && was_run(number))
        printed = printed && print_levels(result[KIRVOGHUS_FRESH]);
    if (fflush(stdout) != 0 || ferror(stdout))
        return NOT_CHECKED;
    if (!printed) {
        fputs("check: the words left by the library are no types\n", stderr);
        return NOT_CHECKED;
    }
    return number == KIRVOGHUS_ACCEPTED ? 0 : 1;
}

static int usage(void)
{
    fputs("usage: check [--strict] [-c CEILING] [-l LIMIT] [-b WORDS] [-k WORDS] [-s] [-v] [FILE]\n", stderr);
    return NOT_CHECKED;
}

int main(int count, char **words)
{
    struct asked asked = {
        0, KIRVOGHUS_CEILING, KIRVOGHUS_LIMIT, KIRVOGHUS_BOARD_WORDS, KIRVOGHUS_BOOK_WORDS, 0, 0,
    };
    const char *name = NULL;
    size_t length = 0;
    int status = NOT_CHECKED;
    int at;

    for (at = 1; at < count; at++) {
        if (strcmp(words[at], "--strict") == 0) {
            asked.strict = 1;
        } else if (strcmp(words[at], "-s") == 0) {
            asked.solutions = 1;
        } else if (strcmp(words[at], "-v") == 0) {
            asked.levels = 1;
        } else if (strcmp(words[at], "-c") == 0) {
            if (++at == count || !read_number(words[at], &asked.ceiling))
                return usage();
        } else if (strcmp(words[at], "-l") == 0) {
            if (++at == count || !read_number(words[at], &asked.limit))
                return usage();
        } else if (strcmp(words[at], "-b") == 0) {
            if (++at == count || !read_number(words[at], &asked.board_words))
                return usage();
        } else if (strcmp(words[at], "-k") == 0) {
            if (++at == count || !read_number(words[at], &asked.book_words))
                return usage();
        } else if (name != NULL || words[at][0] == '-') {
            return usage();
        } else {
            name = words[at];
        }
    }
    if (make_buffers(&asked) && read_sheet(name, &length))
        status = check(length, &asked);
    free(sheet);
    free(board);
    free(book);
    free(report);
    return status;
}
