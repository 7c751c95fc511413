/* Evaluates the condition "HEAT is above 30.0" over beds, one at a time, and prints what each comes out as. A node that can't measure
 * sends 65535, which is no reading: the condition is then missing, and never true or false.
 *
 *     cc evaluate.c $(pkg-config --cflags --libs greenblr) -o evaluate && ./evaluate
 */
#include <greenblr.h>
#include <stdio.h>

/* Relation 1, BEDS: HEAT, a reading in tenths of a degree, and NAME, a text of 4. */
static const uint8_t dictionary[] = {
    11, 0, 1, 0, 1, 0, 4, 'B', 'E', 'D', 'S',
    15, 0, 2, 0, 0, 0, GREENBLR_CODE_HOUSE_READING, 255, 2, 0, 4, 'H', 'E', 'A', 'T',
    15, 0, 2, 0, 1, 0, GREENBLR_CODE_TEXT, 0, 4, 0, 4, 'N', 'A', 'M', 'E',
};

/* For each bed whose HEAT is above 30.0, send message 0 with the number 1: examples/read.c has it by the names of its codes. */
static const uint8_t request[] = {
    0x04, 0x02, 0x04, 0x00, 0x01, 0x00, 0x07, 0x00, 0x07, 0x43, 0x01, 0x4B, 0x01, 0x00, 0x00, 0x47, 0x31, 0x18, 0x00, 0x00, 0x00,
    0x15, 0x07, 0xFF, 0x2C, 0x01, 0xFF, 0x0E, 0x00, 0x01, 0x15, 0x07, 0x00, 0x01, 0x00, 0x19, 0x00, 0x00, 0x00, 0xFF, 0x4C,
};

/* The image of message 0: one short. */
static const uint8_t images[] = {0, 0};

#define BED_BYTES 13

/* The entry of a bed: its length, kind 3, relation 1, the missing bits, HEAT and NAME. */
static void put_bed(uint8_t bed[BED_BYTES], unsigned missing_bits, unsigned heat)
{
    const uint8_t bytes[BED_BYTES] = {
        BED_BYTES, 0, 3, 0, 1, 0, (uint8_t)missing_bits, (uint8_t)(heat & 255), (uint8_t)(heat >> 8), 'A', 'B', 'C', 'D',
    };
    for (size_t i = 0; i < BED_BYTES; i++)
        bed[i] = bytes[i];
}

static void print_answer(uint64_t evaluation)
{
    static const char *const inputs[] = {"request", "dictionary", "message bytes", "records", "runs"};
    uint32_t refusal = greenblr_number(evaluation);
    switch (greenblr_answer(evaluation)) {
    case GREENBLR_FALSE: printf("false\n"); break;
    case GREENBLR_TRUE: printf("true\n"); break;
    case GREENBLR_MISSING: printf("missing: %s\n", greenblr_cause_text(greenblr_cause(evaluation))); break;
    default:
        printf("refused %lu at %llu of the %s: %s\n", (unsigned long)refusal, (unsigned long long)greenblr_place(evaluation),
               inputs[greenblr_refusal_input(refusal)], greenblr_refusal_text(refusal));
    }
}

static void evaluate(const uint8_t *records, size_t length)
{
    print_answer(greenblr_evaluate(request, sizeof request, dictionary, sizeof dictionary, 0, images, sizeof images, records, length, NULL, 0));
}

int main(void)
{
    static const struct { unsigned missing_bits, heat; } beds[] = {{0, 301}, {0, 300}, {0, 65534}, {0, GREENBLR_NO_READING}, {1, 301}};
    uint8_t bed[BED_BYTES];
    for (size_t i = 0; i < sizeof beds / sizeof beds[0]; i++) {
        put_bed(bed, beds[i].missing_bits, beds[i].heat);
        printf("HEAT %u%s: ", beds[i].heat, beds[i].missing_bits ? " with its missing bit" : "");
        evaluate(bed, sizeof bed);
    }
    printf("no bed: ");
    evaluate(NULL, 0);
    return 0;
}
