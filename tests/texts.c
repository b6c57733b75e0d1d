/*
 * texts.c: prints the header's version, then for every code that has words the sentence of
 * a term 1 that is refused with it at place 3, and that of a file that is refused with it at
 * place 3 and position 70, in the form that ./cuts uses.
 */
#include "tawinrak.h"

#include <stdio.h>
#include <string.h>

static void print_sentence(const char *who, unsigned code, const char *position)
{
    const char *counted = tawinrak_counted(code);
    printf("%s: %s", who, tawinrak_text(code));
    if (strlen(counted) > 0)
        printf(", at %s 3", counted);
    printf("%s (code %u)\n", position, code);
}

static void print_sentences(unsigned code)
{
    print_sentence("term 1", code, "");
    print_sentence("file", code, ", byte 70");
}

int main(void)
{
    const char *no_code = tawinrak_text(255);
    printf("Tawinrak %s\n", TAWINRAK_VERSION);
    for (unsigned code = 1; code < 256; code++)
        if (strcmp(tawinrak_text(code), no_code) != 0)
            print_sentences(code);
    return strcmp(tawinrak_text(TAWINRAK_DONE), "done") == 0 && strlen(tawinrak_counted(255)) == 0 ? 0 : 1;
}
