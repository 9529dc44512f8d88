/*
 * Kirvoghus: checks a response plan, written down as a sheet.
 *
 * Link with libexports.a, which `tools/library.sh` builds. The library
 * keeps nothing between calls, so calls with buffers of their own may run at
 * the same time. Of the sheets that were measured, a plan took at most 0.38 MB of
 * stack, however deeply it is nested, and a sheet that is none (4 or 5) at most
 * 0.33 MB, beside the buffers. Writing took at most 0.26 MB, a plan or none.
 */
#ifndef KIRVOGHUS_H
#define KIRVOGHUS_H

#include <stddef.h>
#include <stdint.h>

#ifdef __cplusplus
extern "C" {
#endif

/* The number of this interface. It rises with every change that a caller has to
 * follow; kirvoghus_version says the library's. */
#define KIRVOGHUS_VERSION 6

/* The limit: so many nodes may one type have that is written out. A caller picks
 * 1 to the highest; the programs that come with the library pick 1,024. */
#define KIRVOGHUS_LIMIT 1024
#define KIRVOGHUS_LIMIT_MOST 4096

/* The least lengths of the buffers, in words of 32 bits; the report's goes with
 * the limit. */
#define KIRVOGHUS_BOARD_WORDS 12288
#define KIRVOGHUS_BOOK_WORDS 11192
#define KIRVOGHUS_REPORT_WORDS(limit) (4 * (size_t)(limit))

/* A sheet is 1 to 2,000 lines of 29 bytes, each with its LF. */
#define KIRVOGHUS_LINE_BYTES 29
#define KIRVOGHUS_SHEET_BYTES 58000

/* A triple, which a line says, is so many words of 64 bits: kind, value, count. */
#define KIRVOGHUS_TRIPLE_WORDS 3

/* The highest ceiling: so many entries may be taken at most. */
#define KIRVOGHUS_CEILING 10000

/*
 * The seven numbers of a result, by index.
 *
 * NUMBER   what came out: one of the numbers below.
 * LINE     the line that results 4 and 5 speak of, from 1; else 0.
 * TAKEN    entries taken from the board, a refused last one included.
 * FRESH    fresh numbers given; unknowns and fresh universals share them, from 0.
 * DETAIL1  as told with each result below; else 0.
 * DETAIL2  the same.
 * PLAIN    1 if none of these lines has kind 14 (Forall) or 25 (TypeLambda): the
 *          expected type's, the term's, and those of every entry whose name
 *          stands in the term on a line of kind 21, 26 or 43; else 0. Entries of
 *          both kinds count, hidden ones too. 0 for results 1 to 5 and 32.
 */
#define KIRVOGHUS_NUMBER 0
#define KIRVOGHUS_LINE 1
#define KIRVOGHUS_TAKEN 2
#define KIRVOGHUS_FRESH 3
#define KIRVOGHUS_DETAIL1 4
#define KIRVOGHUS_DETAIL2 5
#define KIRVOGHUS_PLAIN 6
#define KIRVOGHUS_NUMBERS 7

/* Accepted: every part of the plan fits. Details 0, no type reported. */
#define KIRVOGHUS_ACCEPTED 0

/*
 * Refused before a run. They are tried in this order, 4 over all lines before
 * 5. No buffer is written, and all numbers but the result and its line are 0.
 */
/* The ceiling is above 10,000. */
#define KIRVOGHUS_CEILING_TOO_HIGH 1
/* The limit is 0 or above 4,096. */
#define KIRVOGHUS_LIMIT_OUT_OF_RANGE 32
/* A buffer is shorter than above. */
#define KIRVOGHUS_BUFFER_TOO_SHORT 2
/* The sheet has no byte, over 58,000, or a part of a line. */
#define KIRVOGHUS_BAD_LENGTH 3
/* LINE is the first with a field that is misspelt, or without LF. */
#define KIRVOGHUS_MISSPELT_LINE 4
/* LINE is the first that can't continue a plan; the number of lines and one
 * more if a line is lacking. */
#define KIRVOGHUS_UNFIT_LINE 5

/*
 * Refused by a rule. Where types are named, the report holds them, one after
 * the other from its first word; the details tell how many nodes each has.
 */
/* DETAIL1: the variable's name. */
#define KIRVOGHUS_UNBOUND_VARIABLE 11
/* DETAIL1: the data constructor's name. */
#define KIRVOGHUS_UNBOUND_DATA_CONSTRUCTOR 12
/* DETAIL1: nodes of the type that was applied. Report: that type. */
#define KIRVOGHUS_NOT_A_FUNCTION 13
/* DETAIL1: how many parts a pattern should have; DETAIL2: how many it has. */
#define KIRVOGHUS_ARITY_MISMATCH 14
/* DETAIL1: nodes of the left type; DETAIL2: of the right one, which the left
 * should fit. Report: left, then right. */
#define KIRVOGHUS_SUBTYPING_ERROR 15
/* Details 0. */
#define KIRVOGHUS_TYPE_UNIFICATION_ERROR 16
/* DETAIL1: the unknown; DETAIL2: nodes of the type that can't be its solution.
 * Report: that type. */
#define KIRVOGHUS_INSTANTIATION_ERROR 17
/* DETAIL1: 1, the arguments that the intrinsic wants; DETAIL2: those it has. */
#define KIRVOGHUS_INTRINSIC_ARITY_MISMATCH 18
/* DETAIL1: the intrinsic's name. */
#define KIRVOGHUS_UNKNOWN_INTRINSIC 19

/* Ended by the ceiling, a limit or a level. Details 0, no type reported. */
/* An entry remains and the ceiling's number were taken. */
#define KIRVOGHUS_CEILING_REACHED 21
/* A push would pass 512 entries or 4,096 type nodes on the board. */
#define KIRVOGHUS_BOARD_FULL 22
/* A written-out type would have more nodes than the limit. */
#define KIRVOGHUS_WRITTEN_OUT_TOO_LONG 23
/* A 1,001st fresh number. */
#define KIRVOGHUS_NUMBERS_USED_UP 24
/* The solutions would pass 4,096 nodes. */
#define KIRVOGHUS_BOOK_FULL 25
/* Strict call only: a solution has a fresh universal numbered above the level of
 * the unknown to be solved. Tested after 17 and before 25. */
#define KIRVOGHUS_OUT_OF_SCOPE 39

/* Writing only: the output is shorter than the sheet. */
#define KIRVOGHUS_OUTPUT_TOO_SHORT 31

/*
 * A node of a type is two words: its kind, then its name, number or count, 0
 * for Arrow and App. A type's parts follow its node, in order. Names 1 to 4 are
 * Int, Bool, Unit and printInt; any other name k is "n" then its digits.
 */
#define KIRVOGHUS_NODE_WORDS 2
#define KIRVOGHUS_TYPE_VAR 11       /* name */
#define KIRVOGHUS_TYPE_CON 12       /* name */
#define KIRVOGHUS_TYPE_ARROW 13     /* argument, result */
#define KIRVOGHUS_TYPE_FORALL 14    /* name; body */
#define KIRVOGHUS_TYPE_APP 15       /* function, argument */
#define KIRVOGHUS_TYPE_PRODUCT 16   /* count; so many types */
#define KIRVOGHUS_TYPE_UNKNOWN 17   /* number */
#define KIRVOGHUS_TYPE_UNIVERSAL 18 /* number of a fresh universal */

/*
 * The book, under both calls. For unknown k, words 3k and 3k + 1 hold the index
 * of its solution's first word in the book and its count of nodes, 0 and 0 if it
 * is unsolved; word 3k + 2 holds its level. All three are 0 for a fresh universal
 * and for the numbers from FRESH on.
 * A level is the unknown's own number when it is made, or the level of the
 * unknown that it splits. Solving an unknown lowers the level of each unknown in
 * the solution to its own, if higher.
 * The nodes stand from word 3,000, in order of solving, as they were solved: a
 * solution may hold unknowns that have solutions themselves.
 */
#define KIRVOGHUS_BOOK_UNKNOWNS 1000
#define KIRVOGHUS_BOOK_NODES 3000

/*
 * Checks the plan on a sheet, and returns the first of the seven numbers.
 *
 * All that is asked of the caller: the pointers are valid for the lengths told
 * (in bytes for the sheet, in words for the buffers; not null, also where a
 * length is 0), `result` has room for seven numbers, and no two of the areas
 * overlap. Any bytes, ceiling, limit, lengths and words held before are taken.
 *
 * After results 1 to 5 and 32 board, book and report are as they were. After
 * any other the board's words are 0, the book holds the solutions given in the
 * run and the levels and is else 0, and the report holds the types told and is
 * else 0. Of longer buffers the words past the lengths above keep what they held:
 * of the report those from KIRVOGHUS_REPORT_WORDS(limit) on, of a board of 16,384
 * words, which is what interface 2 asks for and clears, the last 4,096.
 *
 * A higher limit changes no result but WRITTEN_OUT_TOO_LONG.
 */
uint32_t kirvoghus_check_type(
    const uint8_t *sheet, size_t sheet_len,
    uint32_t ceiling,
    uint32_t limit,
    uint32_t *board, size_t board_len,
    uint32_t *book, size_t book_len,
    uint32_t *report, size_t report_len,
    uint32_t result[7]);

/*
 * The strict call: the same, but that a run may end with OUT_OF_SCOPE, which the
 * call above never gives. Any other result is that of the call above, with the
 * same words in the buffers.
 */
uint32_t kirvoghus_check_type_strict(
    const uint8_t *sheet, size_t sheet_len,
    uint32_t ceiling,
    uint32_t limit,
    uint32_t *board, size_t board_len,
    uint32_t *book, size_t book_len,
    uint32_t *report, size_t report_len,
    uint32_t result[7]);

/*
 * Reads a sheet without checking its plan: returns 0 if it holds a plan, else
 * 3, 4 or 5 as above. `line` gets the line for 4 and 5, else 0. The pointers
 * are asked for as above.
 */
uint32_t kirvoghus_read_sheet(
    const uint8_t *sheet, size_t sheet_len,
    uint32_t *line);

/*
 * Writes the sheet of a plan that is held as triples, and returns the first of
 * the seven numbers. `words` counts the words of 64 bits, three a triple: kind,
 * value, count.
 *
 * 0: the triples are a plan, which is not checked. The first
 * KIRVOGHUS_LINE_BYTES * triples bytes of `out` are its sheet, a line a triple,
 * and all others keep what they held. The sheet reads as those triples, and no
 * other sheet that holds a plan does.
 *
 * Else nothing is written. The refusals, in the order in which they are tried:
 * BAD_LENGTH: there is no triple, there are more than 2,000, or the words are no
 * multiple of three.
 * UNFIT_LINE: LINE is the first triple, from 1, that can't continue a plan; the
 * number of triples and one more if one is lacking. A triple that no line says
 * can continue none: a negative number but in the value of kind 22, a kind above
 * 999, a count above 99,999. So MISSPELT_LINE is never given.
 * OUTPUT_TOO_SHORT: `out_len` is below KIRVOGHUS_LINE_BYTES * triples.
 *
 * All numbers but the result and its line are 0. All that is asked of the caller:
 * the pointers are valid for the lengths told (in words for the triples, in bytes
 * for the output; not null, also where a length is 0), `result` has room for seven
 * numbers, and no two of the areas overlap. Any words, any lengths and any bytes
 * held before are taken.
 */
uint32_t kirvoghus_write_sheet(
    const int64_t *triples, size_t words,
    uint8_t *out, size_t out_len,
    uint32_t result[7]);

/*
 * How many bytes the term has that starts at a line, lines being numbered from
 * 1: they stand from sheet + 29 * (line - 1) on, and are the lines of that term
 * alone. 0 if no whole term starts there, and for more bytes than a sheet has,
 * KIRVOGHUS_SHEET_BYTES. Any bytes and any line are taken.
 */
size_t kirvoghus_term_bytes(
    const uint8_t *sheet, size_t sheet_len,
    uint32_t line);

/*
 * What the library was built with, for programs that load it at run time or
 * don't read this header. Each is the constant of its name above; a program
 * that finds another number has a library of another interface.
 */
uint32_t kirvoghus_version(void);
size_t kirvoghus_board_words(void);
size_t kirvoghus_book_words(void);
size_t kirvoghus_report_words(uint32_t limit);
size_t kirvoghus_line_bytes(void);
size_t kirvoghus_sheet_bytes(void);
uint32_t kirvoghus_ceiling(void);
uint32_t kirvoghus_limit(void);
uint32_t kirvoghus_limit_most(void);

#ifdef __cplusplus
}
#endif

#endif
