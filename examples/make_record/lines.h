/* lines.h: a text's lines, and a line's fields. */
#ifndef LINES_H
#define LINES_H

#include <stdbool.h>
#include <stdio.h>

/* The longest line, but for comments, and the longest text. */
#define LINE_BYTES 1000u
#define TEXT_BYTES 16777216u

#define MOST_FIELDS 32u

typedef struct {
    char bytes[LINE_BYTES + 1];
    size_t length; /* of the whole line, also where it is longer than what is kept */
    char *fields[MOST_FIELDS];
    unsigned field_count;
} Line;

/* Reads the next line without its end, or as much as a text may have of it; false at the end of the text. */
bool take_line(FILE *text, Line *line);

/*
 * Splits a line into its fields: blanks or one comma stand between two, a field in double quotes may
 * hold both, and # before a field begins a comment. A byte order mark before them is passed over.
 * Answers what is wrong with the line, or NULL.
 */
const char *split_line(Line *line);

#endif
