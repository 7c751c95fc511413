/* Growers ask why a bed was left out. A bed is watered where it is warm enough, and dry or not measured; for each bed this prints what the
 * condition comes out as, and the tests that decide it, by place and name. What is not printed has no part in it: a wet bed is left out,
 * whatever its heat is.
 *
 *     cc why.c $(pkg-config --cflags --libs greenblr) -o why && ./why
 */
#include <greenblr.h>
#include <stdio.h>

/* Relation 1, BEDS: WET and HEAT, readings in tenths. */
static const uint8_t dictionary[] = {
    11, 0, 1, 0, 1, 0, 4, 'B', 'E', 'D', 'S',
    14, 0, 2, 0, 0, 0, GREENBLR_CODE_HOUSE_READING, 255, 2, 0, 3, 'W', 'E', 'T',
    15, 0, 2, 0, 1, 0, GREENBLR_CODE_HOUSE_READING, 255, 2, 0, 4, 'H', 'E', 'A', 'T',
};

/* For each bed whose HEAT is above 5.0, and whose WET is below 25.0 or missing, nothing. */
static const uint8_t request[] = {
    GREENBLR_CODE_VERSION4, GREENBLR_CODE_BEGIN,
    GREENBLR_CODE_FOR, GREENBLR_CODE_RSE, 1, GREENBLR_CODE_RID, 1, 0, 0, GREENBLR_CODE_BOOLEAN,
    GREENBLR_CODE_AND,
    GREENBLR_CODE_GTR, GREENBLR_CODE_FID, 0, 1, 0, GREENBLR_CODE_LITERAL, GREENBLR_CODE_SHORT, 255, 50, 0,
    GREENBLR_CODE_OR,
    GREENBLR_CODE_LSS, GREENBLR_CODE_FID, 0, 0, 0, GREENBLR_CODE_LITERAL, GREENBLR_CODE_SHORT, 255, 250, 0,
    GREENBLR_CODE_MISSING, GREENBLR_CODE_FID, 0, 0, 0,
    GREENBLR_CODE_END, GREENBLR_CODE_BEGIN, GREENBLR_CODE_END, GREENBLR_CODE_END, GREENBLR_CODE_EOC,
};

#define BED_BYTES 11

/* The words of a test by its code. */
static const char *words(unsigned code)
{
    switch (code) {
    case GREENBLR_CODE_GTR: return "it is warm enough";
    case GREENBLR_CODE_LSS: return "it is dry";
    default: return "it is not measured";
    }
}

/* Prints the tests that decide the condition for a bed, or the refusal. */
static void explain(const uint8_t *bed, size_t length)
{
    static const char *const outcomes[] = {"false", "true", "missing"};
    static uint32_t tests[GREENBLR_TEST_TABLE];
    uint64_t given = greenblr_explain(request, sizeof request, dictionary, sizeof dictionary, 0, NULL, 0, bed, length, NULL, 0,
                                      tests, GREENBLR_TEST_TABLE);
    if (greenblr_answer(given) == GREENBLR_REFUSED)
        printf("  refused %u at %llu: %s\n", greenblr_number(given), (unsigned long long)greenblr_place(given),
               greenblr_refusal_text(greenblr_number(given)));
    for (size_t i = 0; i < greenblr_tests(given); i++) {
        const uint32_t *row = tests + i * GREENBLR_TEST_ROW;
        printf("  %u %s: %s\n", (unsigned)row[GREENBLR_TEST_PLACE], words(request[row[GREENBLR_TEST_PLACE]]),
               outcomes[row[GREENBLR_TEST_OUTCOME]]);
    }
}

/* Prints what the condition comes out as for a bed, and why. */
static void ask(unsigned wet, unsigned heat)
{
    static const char *const answers[] = {"left out", "watered", "cannot be told", "refused"};
    const uint8_t bed[BED_BYTES] = {
        BED_BYTES, 0, 3, 0, 1, 0, 0, (uint8_t)(wet & 255), (uint8_t)(wet >> 8), (uint8_t)(heat & 255), (uint8_t)(heat >> 8),
    };
    uint64_t given = greenblr_evaluate(request, sizeof request, dictionary, sizeof dictionary, 0, NULL, 0, bed, sizeof bed, NULL, 0);
    printf("WET %u, HEAT %u: %s\n", wet, heat, answers[greenblr_answer(given)]);
    explain(bed, sizeof bed);
}

int main(void)
{
    ask(310, 120);
    ask(200, 120);
    ask(GREENBLR_NO_READING, 120);
    ask(200, 40);
    ask(310, GREENBLR_NO_READING);
    ask(200, GREENBLR_NO_READING);
    printf("no bed\n");
    explain(NULL, 0);
    return 0;
}
