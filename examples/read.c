/* Reads a request beside the dictionary of a house, and prints its rows as the program greenblr-listing does, or the refusal in words.
 *
 *     cc read.c $(pkg-config --cflags --libs greenblr) -o read
 *     ./read            the request below
 *     ./read 04024c..   a request in hex
 */
#include <greenblr.h>
#include <stdio.h>
#include <string.h>

/* Relation 1, BEDS: HEAT, a reading in tenths of a degree, and NAME, a text of 4. */
static const uint8_t dictionary[] = {
    11, 0, 1, 0, 1, 0, 4, 'B', 'E', 'D', 'S',
    15, 0, 2, 0, 0, 0, GREENBLR_CODE_HOUSE_READING, 255, 2, 0, 4, 'H', 'E', 'A', 'T',
    15, 0, 2, 0, 1, 0, GREENBLR_CODE_TEXT, 0, 4, 0, 4, 'N', 'A', 'M', 'E',
};

/* For each bed whose HEAT is above 30.0, send message 0 with the number 1. */
static const uint8_t hot_beds[] = {
    GREENBLR_CODE_VERSION4,
    GREENBLR_CODE_BEGIN,
    GREENBLR_CODE_MESSAGE, 0, 1, 0,
        GREENBLR_CODE_SHORT, 0,
    GREENBLR_CODE_FOR,
        GREENBLR_CODE_RSE, 1,
            GREENBLR_CODE_RID, 1, 0, 0,
            GREENBLR_CODE_BOOLEAN,
                GREENBLR_CODE_GTR,
                    GREENBLR_CODE_FID, 0, 0, 0,
                    GREENBLR_CODE_LITERAL, GREENBLR_CODE_SHORT, 255, 300 & 255, 300 >> 8,
        GREENBLR_CODE_END,
        GREENBLR_CODE_SEND, 0,
            GREENBLR_CODE_ASSIGNMENT,
                GREENBLR_CODE_LITERAL, GREENBLR_CODE_SHORT, 0, 1, 0,
                GREENBLR_CODE_PARAMETER, 0, 0, 0,
    GREENBLR_CODE_END,
    GREENBLR_CODE_EOC,
};

/* The bytes of a text in hex: how many there are, or -1 if it is none, or longer than a request can be. */
static long bytes_of(const char *hex, uint8_t *bytes)
{
    size_t length = strlen(hex);
    if (length % 2 != 0 || length / 2 > GREENBLR_MAX_REQUEST_BYTES || strspn(hex, "0123456789abcdefABCDEF") != length)
        return -1;
    for (size_t i = 0; i < length / 2; i++) {
        unsigned byte = 0;
        sscanf(hex + 2 * i, "%2x", &byte);
        bytes[i] = (uint8_t)byte;
    }
    return (long)(length / 2);
}

static void print_rows(const char *name, const uint32_t *table, size_t count, size_t row)
{
    for (size_t n = 0; n < count; n++) {
        printf("%s", name);
        for (size_t i = 0; i < row; i++)
            printf(" %lu", (unsigned long)table[n * row + i]);
        printf("\n");
    }
}

static int read_and_print(const uint8_t *request, size_t length)
{
    static uint32_t statements[GREENBLR_STATEMENT_TABLE];
    static uint32_t parameters[GREENBLR_PARAMETER_TABLE];
    static uint32_t contexts[GREENBLR_CONTEXT_TABLE];
    size_t answer[3];
    uint32_t refusal = greenblr_read(request, length, dictionary, sizeof dictionary,
                                     statements, GREENBLR_STATEMENT_TABLE,
                                     parameters, GREENBLR_PARAMETER_TABLE,
                                     contexts, GREENBLR_CONTEXT_TABLE, answer);
    if (refusal != GREENBLR_REFUSAL_NONE) {
        printf("refused %lu at %zu: %s\n", (unsigned long)refusal, answer[0], greenblr_refusal_text(refusal));
        return 1;
    }
    printf("request %zu\n", length);
    print_rows("statement", statements, answer[0], GREENBLR_STATEMENT_ROW);
    print_rows("parameter", parameters, answer[1], GREENBLR_PARAMETER_ROW);
    print_rows("context", contexts, answer[2], GREENBLR_CONTEXT_ROW);
    return 0;
}

int main(int count, char **words)
{
    static uint8_t given[GREENBLR_MAX_REQUEST_BYTES];
    long length;
    if (count < 2)
        return read_and_print(hot_beds, sizeof hot_beds);
    length = bytes_of(words[1], given);
    if (length < 0) {
        fprintf(stderr, "not a request in hex\n");
        return 2;
    }
    return read_and_print(given, (size_t)length);
}
