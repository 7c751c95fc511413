/* The refusals that no description shows: 1 and 2 of reading and 1 of an explanation, since the programs' tables are long enough and an entry
 * of their input holds no longer request; and those of a store. Prints a line for each.
 *
 *     cc -Iinclude examples/refusals/calls.c target/staticlib/libgreenblr.a -o calls && ./calls
 */
#include <greenblr.h>
#include <stdio.h>

/* Relation 1, BEDS: HEAT, a reading in tenths of a degree. */
static const uint8_t dictionary[] = {
    11, 0, 1, 0, 1, 0, 4, 'B', 'E', 'D', 'S',
    15, 0, 2, 0, 0, 0, GREENBLR_CODE_HOUSE_READING, 255, 2, 0, 4, 'H', 'E', 'A', 'T',
};

/* The entry of a bed: its length, kind 3, relation 1, the missing bits, HEAT. */
static const uint8_t bed[] = {9, 0, 3, 0, 1, 0, 0, 45, 1};

static const uint8_t request[GREENBLR_MAX_REQUEST_BYTES + 1] = {
    GREENBLR_CODE_VERSION4, GREENBLR_CODE_BEGIN, GREENBLR_CODE_END, GREENBLR_CODE_EOC,
};

/* If 0 is missing, nothing. */
static const uint8_t asking[] = {
    GREENBLR_CODE_VERSION4, GREENBLR_CODE_BEGIN,
    GREENBLR_CODE_IF, GREENBLR_CODE_MISSING, GREENBLR_CODE_LITERAL, GREENBLR_CODE_SHORT, 0, 0, 0, GREENBLR_CODE_BEGIN, GREENBLR_CODE_END, GREENBLR_CODE_END,
    GREENBLR_CODE_END, GREENBLR_CODE_EOC,
};

static void print(const char *what, uint32_t number, const size_t answer[3])
{
    printf("refused %lu at %zu, %s: %s\n", (unsigned long)number, answer[0], what, greenblr_refusal_text(number));
}

static void reading(const char *what, size_t length, size_t room)
{
    static uint32_t statements[GREENBLR_STATEMENT_TABLE];
    static uint32_t parameters[GREENBLR_PARAMETER_TABLE];
    static uint32_t contexts[GREENBLR_CONTEXT_TABLE];
    size_t answer[3];
    print(what, greenblr_read(request, length, dictionary, sizeof dictionary, statements, room,
                              parameters, GREENBLR_PARAMETER_TABLE, contexts, GREENBLR_CONTEXT_TABLE, answer), answer);
}

static void explanation(const char *what, size_t room)
{
    uint32_t tests[GREENBLR_TEST_ROW];
    uint64_t given = greenblr_explain(asking, sizeof asking, dictionary, sizeof dictionary, 0, NULL, 0, NULL, 0, NULL, 0, tests, room);
    const size_t place[3] = {(size_t)greenblr_place(given), 0, 0};
    print(what, greenblr_number(given), place);
}

int main(void)
{
    static uint8_t buffer[GREENBLR_MAX_STORE_BYTES + 1];
    const size_t words = sizeof dictionary;
    size_t answer[3];

    reading("a table of statements that is one number short", 4, GREENBLR_STATEMENT_TABLE - 1);
    reading("a request of 65,536 bytes", sizeof request, GREENBLR_STATEMENT_TABLE);
    explanation("a table of tests of one number", GREENBLR_TEST_ROW - 1);

    print("a store beside a dictionary that is cut short", greenblr_store_make(dictionary, words - 1, buffer, 32, 1, answer), answer);
    print("a store of relation 2", greenblr_store_make(dictionary, words, buffer, 32, 2, answer), answer);
    print("a buffer of zeros that is read", greenblr_store_read(dictionary, words, buffer, 32, answer), answer);
    print("a buffer of 65,536 bytes", greenblr_store_make(dictionary, words, buffer, sizeof buffer, 1, answer), answer);
    print("a buffer of 9 bytes", greenblr_store_make(dictionary, words, buffer, GREENBLR_STORE_HEADER - 1, 1, answer), answer);

    /* Room for one bed. */
    greenblr_store_make(dictionary, words, buffer, GREENBLR_STORE_HEADER + sizeof bed, 1, answer);
    print("an erase from an empty store", greenblr_store_erase(dictionary, words, buffer, GREENBLR_STORE_HEADER + sizeof bed, 0, answer), answer);
    print("a bed that is cut short",
          greenblr_store_add(dictionary, words, buffer, GREENBLR_STORE_HEADER + sizeof bed, bed, sizeof bed - 1, answer), answer);
    greenblr_store_add(dictionary, words, buffer, GREENBLR_STORE_HEADER + sizeof bed, bed, sizeof bed, answer);
    print("a bed too many", greenblr_store_add(dictionary, words, buffer, GREENBLR_STORE_HEADER + sizeof bed, bed, sizeof bed, answer), answer);
    return 0;
}
