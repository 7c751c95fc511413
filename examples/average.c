/* Asks a house for its average heat, its greatest and least, and how many beds there are. A bed whose node could not measure is left out of the
 * first three; of no bed that has measured there is no average, and the answer says so.
 *
 *     cc average.c $(pkg-config --cflags --libs greenblr) -o average && ./average
 */
#include <greenblr.h>
#include <stdio.h>
#include <string.h>

/* Relation 1, BEDS: HEAT, a reading in tenths of a degree, and NAME, a text of 4. */
static const uint8_t dictionary[] = {
    11, 0, 1, 0, 1, 0, 4, 'B', 'E', 'D', 'S',
    15, 0, 2, 0, 0, 0, GREENBLR_CODE_HOUSE_READING, 255, 2, 0, 4, 'H', 'E', 'A', 'T',
    15, 0, 2, 0, 1, 0, GREENBLR_CODE_TEXT, 0, 4, 0, 4, 'N', 'A', 'M', 'E',
};

/* Sends two numbers: the average HEAT of all beds, and their count. The assignments are the statements of rows 3 and 4. The code at CODE is
 * average, maximum or minimum. */
#define CODE 14
#define HEAT_ROW 3
#define COUNT_ROW 4
static const uint8_t sending[] = {
    GREENBLR_CODE_VERSION4, GREENBLR_CODE_BEGIN,
    GREENBLR_CODE_MESSAGE, 0, 2, 0, GREENBLR_CODE_LONG, 255, GREENBLR_CODE_LONG, 0,
    GREENBLR_CODE_SEND, 0, GREENBLR_CODE_BEGIN,
    GREENBLR_CODE_ASSIGNMENT,
    GREENBLR_CODE_AVERAGE, GREENBLR_CODE_RSE, 1, GREENBLR_CODE_RID, 1, 0, 7, GREENBLR_CODE_END, GREENBLR_CODE_FID, 7, 0, 0,
    GREENBLR_CODE_PARAMETER, 0, 0, 0,
    GREENBLR_CODE_ASSIGNMENT,
    GREENBLR_CODE_COUNT, GREENBLR_CODE_RSE, 1, GREENBLR_CODE_RID, 1, 0, 7, GREENBLR_CODE_END,
    GREENBLR_CODE_PARAMETER, 0, 1, 0,
    GREENBLR_CODE_END, GREENBLR_CODE_END, GREENBLR_CODE_EOC,
};

#define BED_BYTES 13
#define MOST_BEDS 5000

/* A run of beds: its length, kind 7, and their records. Gives its length. */
static size_t put_run(uint8_t *run, const unsigned *heats, size_t beds)
{
    size_t length = 4 + beds * BED_BYTES;
    const uint8_t head[4] = {(uint8_t)(length & 255), (uint8_t)(length >> 8), 7, 0};
    memcpy(run, head, sizeof head);
    for (size_t i = 0; i < beds; i++) {
        const uint8_t bed[BED_BYTES] = {
            BED_BYTES, 0, 3, 0, 1, 0, 0, (uint8_t)(heats[i] & 255), (uint8_t)(heats[i] >> 8), 'A', 'B', 'C', 'D',
        };
        memcpy(run + 4 + i * BED_BYTES, bed, BED_BYTES);
    }
    return length;
}

/* Prints what is sent in a row, with the code put at CODE. */
static void ask(const char *name, unsigned code, size_t row, const uint8_t *run, size_t length)
{
    static const uint8_t images[8] = {0};
    uint8_t request[sizeof sending];
    int64_t answer[3];
    uint64_t given;
    memcpy(request, sending, sizeof sending);
    request[CODE] = (uint8_t)code;
    given = greenblr_evaluate_value(request, sizeof request, dictionary, sizeof dictionary, row, images, sizeof images, NULL, 0, run, length, answer);
    switch (greenblr_answer(given)) {
    case GREENBLR_VALUE_NUMBER: printf(", %s %lld scale %lld", name, (long long)answer[0], (long long)answer[1]); break;
    case GREENBLR_MISSING: printf(", %s missing", name); break;
    default: printf(", %s refused: %s", name, greenblr_refusal_text(greenblr_number(given)));
    }
}

int main(void)
{
    static const unsigned heats[] = {GREENBLR_NO_READING, 301, 290, GREENBLR_NO_READING, 250};
    static uint8_t run[4 + MOST_BEDS * BED_BYTES];
    for (size_t beds = 0; beds <= sizeof heats / sizeof heats[0]; beds++) {
        size_t length = put_run(run, heats, beds);
        printf("%zu beds", beds);
        ask("average", GREENBLR_CODE_AVERAGE, HEAT_ROW, run, length);
        ask("greatest", GREENBLR_CODE_MAXIMUM, HEAT_ROW, run, length);
        ask("least", GREENBLR_CODE_MINIMUM, HEAT_ROW, run, length);
        ask("count", GREENBLR_CODE_AVERAGE, COUNT_ROW, run, length);
        printf("\n");
    }
    printf("the send's row");
    ask("value", GREENBLR_CODE_AVERAGE, 1, run, 0);
    printf("\n");
    return 0;
}
