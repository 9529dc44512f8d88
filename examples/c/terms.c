/*
 * Asks for the term at a line of so many TypeLambdas over a literal, in a thread
 * with 1 MB of stack: whole where the bytes are no more than a sheet has, else
 * none, however deep they nest. Prints the answers that are others.
 * Exit status: 0 if there are none, 1 if there are, 2 if nothing was asked.
 */
#include "kirvoghus.h"

#include <pthread.h>
#include <stdio.h>
#include <string.h>

enum { NOT_ASKED = 2, MOST_LINES = 32800, STACK_BYTES = 1 << 20 };

#define LONGEST (KIRVOGHUS_SHEET_BYTES / KIRVOGHUS_LINE_BYTES)

/* The literal is the last line, so that a part of the end is a term as well. */
static uint8_t lines[(size_t)MOST_LINES * KIRVOGHUS_LINE_BYTES + 1];

static void put(size_t line, int kind, int value)
{
    char text[KIRVOGHUS_LINE_BYTES + 1];

    snprintf(text, sizeof text, "%3d%20d%5d\n", kind, value, 0);
    memcpy(lines + line * KIRVOGHUS_LINE_BYTES, text, KIRVOGHUS_LINE_BYTES);
}

/* The term at a line, from 1, of the last `count` lines and of so many bytes after them. */
static int differs(size_t count, size_t after, uint32_t line, size_t wanted)
{
    const uint8_t *first = lines + (MOST_LINES - count) * KIRVOGHUS_LINE_BYTES;
    size_t bytes = count * KIRVOGHUS_LINE_BYTES + after;
    size_t found = kirvoghus_term_bytes(first, bytes, line);

    if (found == wanted)
        return 0;
    printf("%lu bytes, line %lu: a term of %lu bytes\n",
        (unsigned long)bytes, (unsigned long)line, (unsigned long)found);
    return 1;
}

static void *ask(void *different)
{
    int *any = different;

    *any |= differs(LONGEST, 0, 0, 0);
    *any |= differs(LONGEST, 0, 1, KIRVOGHUS_SHEET_BYTES);
    *any |= differs(LONGEST, 0, LONGEST, KIRVOGHUS_LINE_BYTES);
    *any |= differs(LONGEST, 0, LONGEST + 1, 0);
    *any |= differs(LONGEST, 1, 1, 0);
    *any |= differs(LONGEST, 1, LONGEST, 0);
    *any |= differs(LONGEST + 1, 0, 1, 0);
    *any |= differs(MOST_LINES, 0, 1, 0);
    *any |= differs(MOST_LINES, 0, MOST_LINES, 0);
    return NULL;
}

int main(void)
{
    pthread_attr_t small;
    pthread_t thread;
    size_t line;
    int different = 0;

    for (line = 0; line + 1 < MOST_LINES; line++)
        put(line, 25, 10);
    put(line, 22, 7);
    lines[sizeof lines - 1] = ' ';
    if (pthread_attr_init(&small) != 0 || pthread_attr_setstacksize(&small, STACK_BYTES) != 0
        || pthread_create(&thread, &small, ask, &different) != 0) {
        fputs("terms: no thread\n", stderr);
        return NOT_ASKED;
    }
    pthread_join(thread, NULL);
    return different;
}
