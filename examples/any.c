/* Asks of a whole house: is any bed above 30.0 degrees, and is exactly one? Both go over a run, an entry of kind 7 around the beds. A bed whose
 * node could not measure is not above thirty; the answer is true or false, and never missing.
 *
 *     cc any.c $(pkg-config --cflags --libs greenblr) -o any && ./any
 */
#include <greenblr.h>
#include <stdio.h>
#include <string.h>

/* Relation 1, BEDS: HEAT, a reading in tenths of a degree, and NAME, a text of 4. */
static const uint8_t dictionary[] = {
    11, 0, 1, 0, 1, 0, 4, 'B', 'E', 'D', 'S',
    15, 0, 2, 0, 0, 0, GREENBLR_CODE_HOUSE_READING, 255, 2, 0, 4, 'H', 'E', 'A', 'T',
    15, 0, 2, 0, 1, 0, GREENBLR_CODE_TEXT, 0, 4, 0, 4, 'N', 'A', 'M', 'E',
};

/* If any bed, as context 3, has a HEAT above 30.0, nothing: its condition alone is asked for. The code at CODE is any or unique. */
#define CODE 3
static const uint8_t if_any[] = {
    GREENBLR_CODE_VERSION4, GREENBLR_CODE_BEGIN, GREENBLR_CODE_IF,
    GREENBLR_CODE_ANY, GREENBLR_CODE_RSE, 1, GREENBLR_CODE_RID, 1, 0, 3,
    GREENBLR_CODE_BOOLEAN, GREENBLR_CODE_GTR, GREENBLR_CODE_FID, 3, 0, 0, GREENBLR_CODE_LITERAL, GREENBLR_CODE_SHORT, 255, 44, 1,
    GREENBLR_CODE_END,
    GREENBLR_CODE_BEGIN, GREENBLR_CODE_END, GREENBLR_CODE_END, GREENBLR_CODE_END, GREENBLR_CODE_EOC,
};

#define BED_BYTES 13
#define MOST_BEDS 5000

/* A run of beds: its length, kind 7, and their records. Gives its length. */
static size_t put_run(uint8_t *run, const unsigned *heats, size_t beds)
{
    size_t length = 4 + beds * BED_BYTES;
    const uint8_t head[4] = {(uint8_t)(length & 255), (uint8_t)(length >> 8), 7, 0};
    memcpy(run, head, sizeof head);
    for (size_t i = 0; i < beds; i++) {
        const uint8_t bed[BED_BYTES] = {
            BED_BYTES, 0, 3, 0, 1, 0, 0, (uint8_t)(heats[i] & 255), (uint8_t)(heats[i] >> 8), 'A', 'B', 'C', 'D',
        };
        memcpy(run + 4 + i * BED_BYTES, bed, BED_BYTES);
    }
    return length;
}

static const char *answer(unsigned code, const uint8_t *run, size_t length)
{
    uint8_t request[sizeof if_any];
    uint64_t given;
    memcpy(request, if_any, sizeof if_any);
    request[CODE] = (uint8_t)code;
    given = greenblr_evaluate(request, sizeof request, dictionary, sizeof dictionary, 0, NULL, 0, NULL, 0, run, length);
    switch (greenblr_answer(given)) {
    case GREENBLR_FALSE: return "false";
    case GREENBLR_TRUE: return "true";
    default: return greenblr_refusal_text(greenblr_number(given));
    }
}

int main(void)
{
    static const unsigned heats[] = {301, 300, GREENBLR_NO_READING, 310};
    static uint8_t run[4 + MOST_BEDS * BED_BYTES];
    for (size_t beds = 0; beds <= sizeof heats / sizeof heats[0]; beds++) {
        size_t length = put_run(run, heats, beds);
        printf("%zu beds: any %s, unique %s\n", beds, answer(GREENBLR_CODE_ANY, run, length), answer(GREENBLR_CODE_UNIQUE, run, length));
    }
    printf("no run: %s\n", answer(GREENBLR_CODE_ANY, NULL, 0));
    return 0;
}
