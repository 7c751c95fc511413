/* Keeps beds in a store: a buffer of the program's own, which the library fills. Prints what the store holds after each call.
 *
 *     cc store.c $(pkg-config --cflags --libs greenblr) -o store && ./store
 */
#include <greenblr.h>
#include <stdio.h>

/* Relation 1, BEDS: HEAT, a reading in tenths of a degree, and NAME, a text of 4. */
static const uint8_t dictionary[] = {
    11, 0, 1, 0, 1, 0, 4, 'B', 'E', 'D', 'S',
    15, 0, 2, 0, 0, 0, GREENBLR_CODE_HOUSE_READING, 255, 2, 0, 4, 'H', 'E', 'A', 'T',
    15, 0, 2, 0, 1, 0, GREENBLR_CODE_TEXT, 0, 4, 0, 4, 'N', 'A', 'M', 'E',
};

/* The entry of a bed: its length, kind 3, relation 1, the missing bits, HEAT and NAME. */
#define BED_BYTES 13
#define BED_BITS 6
#define BED_HEAT 7
#define BED_NAME 9

/* Room for three beds. */
static uint8_t buffer[GREENBLR_STORE_HEADER + 3 * BED_BYTES];

/* The entry of a bed with no missing bit set: the store sets that of a HEAT of 65535. */
static void put_bed(uint8_t bed[BED_BYTES], unsigned heat, const char name[4])
{
    const uint8_t start[BED_NAME] = {BED_BYTES, 0, 3, 0, 1, 0, 0, (uint8_t)(heat & 255), (uint8_t)(heat >> 8)};
    for (size_t i = 0; i < BED_NAME; i++)
        bed[i] = start[i];
    for (size_t i = 0; i < 4; i++)
        bed[BED_NAME + i] = (uint8_t)name[i];
}

static void print_bed(const uint8_t *bed)
{
    if (bed[BED_BITS] & 1)
        printf("  %.4s: no heat\n", (const char *)bed + BED_NAME);
    else
        printf("  %.4s: heat %u\n", (const char *)bed + BED_NAME, bed[BED_HEAT] + 256u * bed[BED_HEAT + 1]);
}

/* What the store holds, or why it can't be read. */
static void print_store(void)
{
    size_t held[3], found[3];
    uint32_t refusal = greenblr_store_read(dictionary, sizeof dictionary, buffer, sizeof buffer, held);
    if (refusal != GREENBLR_REFUSAL_NONE) {
        printf("  %s\n", greenblr_refusal_text(refusal));
        return;
    }
    printf("  relation %zu, %zu records, %zu missing\n", held[0], held[1], held[2]);
    for (size_t position = 0; position < held[1]; position++)
        if (greenblr_store_find(dictionary, sizeof dictionary, buffer, sizeof buffer, position, found) == GREENBLR_REFUSAL_NONE)
            print_bed(buffer + found[0]);
}

static void print_call(const char *call, uint32_t refusal)
{
    if (refusal != GREENBLR_REFUSAL_NONE)
        printf("%s: refused %lu: %s\n", call, (unsigned long)refusal, greenblr_refusal_text(refusal));
    else
        printf("%s\n", call);
    print_store();
}

static void add(const char *call, unsigned heat, const char name[4])
{
    uint8_t bed[BED_BYTES];
    size_t answer[3];
    put_bed(bed, heat, name);
    print_call(call, greenblr_store_add(dictionary, sizeof dictionary, buffer, sizeof buffer, bed, sizeof bed, answer));
}

int main(void)
{
    uint8_t bed[BED_BYTES];
    size_t answer[3];
    print_call("nothing made yet", GREENBLR_REFUSAL_NONE);
    print_call("make BEDS", greenblr_store_make(dictionary, sizeof dictionary, buffer, sizeof buffer, 1, answer));
    add("add a bed of 301", 301, "EAST");
    add("add a bed that can't measure", GREENBLR_NO_READING, "WEST");
    add("add a bed of 250", 250, "HIGH");
    add("add a fourth", 260, "LOW ");
    put_bed(bed, 299, "WEST");
    print_call("replace 1", greenblr_store_replace(dictionary, sizeof dictionary, buffer, sizeof buffer, 1, bed, sizeof bed, answer));
    print_call("erase 0", greenblr_store_erase(dictionary, sizeof dictionary, buffer, sizeof buffer, 0, answer));
    print_call("erase 2", greenblr_store_erase(dictionary, sizeof dictionary, buffer, sizeof buffer, 2, answer));
    return 0;
}
