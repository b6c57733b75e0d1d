#include "lines.h"

#include <string.h>

/* Ends a line behind its first bytes. */
static void end_line(Line *line, size_t length)
{
    line->length = length;
    line->bytes[length < sizeof line->bytes ? length : sizeof line->bytes - 1] = '\0';
}

bool take_line(FILE *text, Line *line)
{
    size_t length = 0;
    int byte, last = EOF;
    while ((byte = getc(text)) != EOF && byte != '\n' && length < TEXT_BYTES) {
        if (length < sizeof line->bytes)
            line->bytes[length] = (char)byte;
        length++;
        last = byte;
    }
    end_line(line, last == '\r' ? length - 1 : length);
    return byte != EOF || length > 0;
}

static bool is_blank(char character)
{
    return character == ' ' || character == '\t';
}

static char *after_blanks(char *at)
{
    while (is_blank(*at))
        at++;
    return at;
}

/* Where a field in quotes ends, its quotes taken off: "" within it is one quote. NULL where it has no end. */
static char *past_quoted(char *field)
{
    char *to = field, *from = field + 1;
    while (*from != '"' || from[1] == '"') {
        if (*from == '\0')
            return NULL;
        from += *from == '"';
        *to++ = *from++;
    }
    *to = '\0';
    return from + 1;
}

static char *past_plain(char *field)
{
    while (*field != '\0' && *field != ',' && !is_blank(*field))
        field++;
    return field;
}

/* What is wrong with the bytes of a line, or NULL. */
static const char *wrong_bytes(const Line *line)
{
    if (line->length > LINE_BYTES)
        return "the line is longer than 1,000 bytes";
    for (size_t i = 0; i < line->length; i++)
        if ((unsigned char)line->bytes[i] < ' ' && line->bytes[i] != '\t')
            return "the line holds a byte that is no text";
    return NULL;
}

/* Splits what stands from here on, up to a comment. */
static const char *split_from(char *at, Line *line)
{
    bool after_comma = false;
    for (at = after_blanks(at); *at != '\0' && *at != '#'; at = after_blanks(at)) {
        char *field = at, *end = *at == '"' ? past_quoted(at) : past_plain(at);
        if (end == NULL || (*end != '\0' && *end != ',' && !is_blank(*end)))
            return "a field in quotes does not end with a quote";
        at = after_blanks(end);
        after_comma = *at == ',';
        at += after_comma;
        *end = '\0';
        if (*field == '\0')
            return "a field is empty";
        if (line->field_count == MOST_FIELDS)
            return "there are more fields than a line may have";
        line->fields[line->field_count++] = field;
    }
    return after_comma ? "a field is empty" : NULL;
}

const char *split_line(Line *line)
{
    const char *mark = "\xEF\xBB\xBF";
    bool marked = strncmp(line->bytes, mark, strlen(mark)) == 0;
    char *from = after_blanks(line->bytes + (marked ? strlen(mark) : 0));
    line->field_count = 0;
    if (*from == '#')
        return NULL;
    const char *wrong = wrong_bytes(line);
    return wrong == NULL ? split_from(from, line) : wrong;
}
