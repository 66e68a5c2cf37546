/* Prints the quote of a file, as ./quote does, and tries what is no file. */
#include "nechwalu.h"

#include <inttypes.h>
#include <stdio.h>
#include <stdlib.h>

static void expect(const char *what, uint64_t answer, uint64_t expected)
{
    if (answer != expected) {
        fprintf(stderr, "quote: %s: %" PRIu64 " and not %" PRIu64 "\n", what, answer, expected);
        exit(1);
    }
}

int main(int count, char **words)
{
    static uint8_t bytes[NECHWALU_LARGEST_FILE + 1];
    FILE *file = count == 2 ? fopen(words[1], "rb") : NULL;
    if (!file) {
        fprintf(stderr, "usage: quote FILE\n");
        return 1;
    }
    size_t length = fread(bytes, 1, sizeof bytes, file);
    uint64_t answer = nechwalu_quote(bytes, length);
    if (answer < NECHWALU_LEAST_QUOTE)
        printf("refused %" PRIu64 "\n", answer);
    else
        printf("steps %" PRIu32 " places %" PRIu32 "\n", NECHWALU_QUOTED_STEPS(answer), NECHWALU_QUOTED_PLACES(answer));

    expect("no bytes", nechwalu_quote(NULL, 0), NECHWALU_REFUSED_SIZE);
    expect("too many bytes", nechwalu_quote(bytes, sizeof bytes), NECHWALU_REFUSED_SIZE);
    expect("a cut file", nechwalu_quote(bytes, length - 1), NECHWALU_REFUSED_OFFSET);
    expect("the same again", nechwalu_quote(bytes, length), answer);
    return fclose(file) || fflush(stdout) ? 1 : 0;
}
