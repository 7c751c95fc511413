/* What greenblr.h says of every call, tried: what may be NULL, the least sizes, what is filled and what is left, the offsets of rows,
 * the versions, the parts of an evaluation and an explanation, the words. Every buffer is a block of the heap of exactly its length, so that valgrind sees a
 * byte too far. */
#include <greenblr.h>
#include <stdio.h>
#include <stdlib.h>
#include <string.h>

static int failures = 0;

#define EXPECT(test) ((test) ? (void)0 : (void)(failures++, printf("calls.c:%d: not so: %s\n", __LINE__, #test)))

static const uint8_t dictionary_bytes[] = {
    11, 0, 1, 0, 1, 0, 4, 'B', 'E', 'D', 'S',
    15, 0, 2, 0, 0, 0, GREENBLR_CODE_HOUSE_READING, 255, 2, 0, 4, 'H', 'E', 'A', 'T',
    15, 0, 2, 0, 1, 0, GREENBLR_CODE_TEXT, 0, 4, 0, 4, 'N', 'A', 'M', 'E',
};
static const uint8_t request_bytes[] = {
    0x04, 0x02, 0x04, 0x00, 0x01, 0x00, 0x07, 0x00, 0x07, 0x43, 0x01, 0x4B, 0x01, 0x00, 0x00, 0x47, 0x31, 0x18, 0x00, 0x00, 0x00,
    0x15, 0x07, 0xFF, 0x2C, 0x01, 0xFF, 0x0E, 0x00, 0x01, 0x15, 0x07, 0x00, 0x01, 0x00, 0x19, 0x00, 0x00, 0x00, 0xFF, 0x4C,
};
static const uint8_t bed_bytes[] = {13, 0, 3, 0, 1, 0, 0, 45, 1, 'E', 'A', 'S', 'T'};
static const uint8_t image_bytes[] = {0, 0};

enum { REQUEST = sizeof request_bytes, DICTIONARY = sizeof dictionary_bytes, BED = sizeof bed_bytes, IMAGE = sizeof image_bytes };

static uint8_t *dictionary, *request, *bed, *image;

static void *block(size_t bytes)
{
    void *made = malloc(bytes);
    if (made == NULL)
        exit(3);
    return made;
}

static uint8_t *copy(const uint8_t *bytes, size_t length)
{
    uint8_t *made = (uint8_t *)block(length);
    memcpy(made, bytes, length);
    return made;
}

/* A table of so many numbers, none of them 0. */
static uint32_t *table(size_t numbers)
{
    uint32_t *made = (uint32_t *)block(numbers * sizeof *made + (numbers == 0));
    for (size_t i = 0; i < numbers; i++)
        made[i] = 77;
    return made;
}

static int zeros(const uint32_t *numbers, size_t from, size_t to)
{
    for (size_t i = from; i < to; i++)
        if (numbers[i] != 0)
            return 0;
    return 1;
}

/* Reads the request with tables of so many numbers: `first` of the least sizes, and `more` beyond them. */
static void read_with(size_t first, size_t more)
{
    size_t s = first * GREENBLR_STATEMENT_TABLE + more, p = first * GREENBLR_PARAMETER_TABLE + more, c = first * GREENBLR_CONTEXT_TABLE + more;
    uint32_t *statements = table(s), *parameters = table(p), *contexts = table(c);
    size_t answer[3] = {9, 9, 9};
    uint32_t refusal = greenblr_read(request, REQUEST, dictionary, DICTIONARY, statements, s, parameters, p, contexts, c, answer);
    if (first == 0) {
        EXPECT(refusal == GREENBLR_REFUSAL_TABLES_TOO_SHORT && answer[0] == 0 && answer[1] == 0 && answer[2] == 0);
        EXPECT(zeros(statements, 0, s) && zeros(parameters, 0, p) && zeros(contexts, 0, c));
    } else {
        EXPECT(refusal == GREENBLR_REFUSAL_NONE && answer[0] == 4 && answer[1] == 1 && answer[2] == 1);
        EXPECT(zeros(statements, 4 * GREENBLR_STATEMENT_ROW, s));
        EXPECT(zeros(parameters, GREENBLR_PARAMETER_ROW, p) && zeros(contexts, GREENBLR_CONTEXT_ROW, c));
    }
    free(statements);
    free(parameters);
    free(contexts);
}

/* The offsets of a row by their names, on the request's rows. */
static void rows(void)
{
    uint32_t *statements = table(GREENBLR_STATEMENT_TABLE), *parameters = table(GREENBLR_PARAMETER_TABLE), *contexts = table(GREENBLR_CONTEXT_TABLE);
    const uint32_t *send = statements + 2 * GREENBLR_STATEMENT_ROW;
    size_t answer[3];
    EXPECT(greenblr_read(request, REQUEST, dictionary, DICTIONARY, statements, GREENBLR_STATEMENT_TABLE, parameters, GREENBLR_PARAMETER_TABLE,
                         contexts, GREENBLR_CONTEXT_TABLE, answer) == GREENBLR_REFUSAL_NONE);
    EXPECT(send[GREENBLR_STATEMENT_PLACE] == 27 && send[GREENBLR_STATEMENT_CODE] == GREENBLR_CODE_SEND);
    EXPECT(send[GREENBLR_STATEMENT_PARENT] == 2 && send[GREENBLR_STATEMENT_END] == 39);
    EXPECT(statements[GREENBLR_STATEMENT_PARENT] == 0 && statements[GREENBLR_STATEMENT_CODE] == GREENBLR_CODE_BEGIN);
    EXPECT(parameters[GREENBLR_PARAMETER_MESSAGE] == 0 && parameters[GREENBLR_PARAMETER_NUMBER] == 0);
    EXPECT(parameters[GREENBLR_PARAMETER_TYPE] == GREENBLR_CODE_SHORT && parameters[GREENBLR_PARAMETER_SCALE] == 0);
    EXPECT(parameters[GREENBLR_PARAMETER_OFFSET] == 0 && parameters[GREENBLR_PARAMETER_BYTES] == 2);
    EXPECT(contexts[GREENBLR_CONTEXT_NUMBER] == 0 && contexts[GREENBLR_CONTEXT_PLACE] == 11);
    EXPECT(contexts[GREENBLR_CONTEXT_START] == 15 && contexts[GREENBLR_CONTEXT_END] == 39 && contexts[GREENBLR_CONTEXT_RELATION] == 1);
    free(statements);
    free(parameters);
    free(contexts);
}

/* A refused request leaves zeros, and its place. */
static void refused(void)
{
    uint8_t *wrong = copy(request_bytes, REQUEST);
    uint32_t *statements = table(GREENBLR_STATEMENT_TABLE), *parameters = table(GREENBLR_PARAMETER_TABLE), *contexts = table(GREENBLR_CONTEXT_TABLE);
    size_t answer[3] = {9, 9, 9};
    wrong[18] = 1;
    EXPECT(greenblr_read(wrong, REQUEST, dictionary, DICTIONARY, statements, GREENBLR_STATEMENT_TABLE, parameters, GREENBLR_PARAMETER_TABLE,
                         contexts, GREENBLR_CONTEXT_TABLE, answer) == GREENBLR_REFUSAL_BAD_CONTEXT);
    EXPECT(answer[0] == 18 && answer[1] == 0 && answer[2] == 0);
    EXPECT(zeros(statements, 0, GREENBLR_STATEMENT_TABLE) && zeros(parameters, 0, GREENBLR_PARAMETER_TABLE) && zeros(contexts, 0, GREENBLR_CONTEXT_TABLE));
    EXPECT(greenblr_read(request, REQUEST, dictionary, DICTIONARY - 1, statements, GREENBLR_STATEMENT_TABLE, parameters, GREENBLR_PARAMETER_TABLE,
                         contexts, GREENBLR_CONTEXT_TABLE, answer) == GREENBLR_REFUSAL_BAD_DICTIONARY);
    EXPECT(answer[0] == 26 && greenblr_refusal_input(GREENBLR_REFUSAL_BAD_DICTIONARY) == GREENBLR_INPUT_DICTIONARY);
    free(wrong);
    free(statements);
    free(parameters);
    free(contexts);
}

/* Of the request: version 5 has the same rows, and no other version is read. Of a message: a parameter of type 16, which version 4 has not. */
static void versions(void)
{
    const uint8_t counter_bytes[] = {
        GREENBLR_CODE_VERSION5, GREENBLR_CODE_BEGIN, GREENBLR_CODE_MESSAGE, 0, 1, 0, GREENBLR_CODE_INT64, 238,
        GREENBLR_CODE_BEGIN, GREENBLR_CODE_END, GREENBLR_CODE_END, GREENBLR_CODE_EOC,
    };
    enum { COUNTER = sizeof counter_bytes };
    uint8_t *five = copy(request_bytes, REQUEST), *counter = copy(counter_bytes, COUNTER);
    uint32_t *statements = table(GREENBLR_STATEMENT_TABLE), *parameters = table(GREENBLR_PARAMETER_TABLE), *contexts = table(GREENBLR_CONTEXT_TABLE);
    size_t answer[3];
    five[0] = GREENBLR_CODE_VERSION5;
    EXPECT(greenblr_read(five, REQUEST, dictionary, DICTIONARY, statements, GREENBLR_STATEMENT_TABLE, parameters, GREENBLR_PARAMETER_TABLE,
                         contexts, GREENBLR_CONTEXT_TABLE, answer) == GREENBLR_REFUSAL_NONE);
    EXPECT(answer[0] == 4 && answer[1] == 1 && answer[2] == 1);
    EXPECT(greenblr_answer(greenblr_evaluate(five, REQUEST, dictionary, DICTIONARY, 0, image, IMAGE, bed, BED, NULL, 0)) == GREENBLR_TRUE);
    five[0] = 6;
    EXPECT(greenblr_read(five, REQUEST, dictionary, DICTIONARY, statements, GREENBLR_STATEMENT_TABLE, parameters, GREENBLR_PARAMETER_TABLE,
                         contexts, GREENBLR_CONTEXT_TABLE, answer) == GREENBLR_REFUSAL_BAD_VERSION && answer[0] == 0);
    EXPECT(greenblr_read(counter, COUNTER, NULL, 0, statements, GREENBLR_STATEMENT_TABLE, parameters, GREENBLR_PARAMETER_TABLE,
                         contexts, GREENBLR_CONTEXT_TABLE, answer) == GREENBLR_REFUSAL_NONE && answer[1] == 1);
    EXPECT(parameters[GREENBLR_PARAMETER_TYPE] == GREENBLR_CODE_INT64 && parameters[GREENBLR_PARAMETER_SCALE] == 238);
    EXPECT(parameters[GREENBLR_PARAMETER_OFFSET] == 0 && parameters[GREENBLR_PARAMETER_BYTES] == 8);
    counter[0] = GREENBLR_CODE_VERSION4;
    EXPECT(greenblr_read(counter, COUNTER, NULL, 0, statements, GREENBLR_STATEMENT_TABLE, parameters, GREENBLR_PARAMETER_TABLE,
                         contexts, GREENBLR_CONTEXT_TABLE, answer) == GREENBLR_REFUSAL_NOT_DUE && answer[0] == 6);
    free(five);
    free(counter);
    free(statements);
    free(parameters);
    free(contexts);
}

static uint64_t evaluate(const uint8_t *records, size_t length)
{
    return greenblr_evaluate(request, REQUEST, dictionary, DICTIONARY, 0, image, IMAGE, records, length, NULL, 0);
}

static void evaluations(void)
{
    uint8_t *record = copy(bed_bytes, BED);
    uint64_t given = evaluate(record, BED);
    EXPECT(greenblr_answer(given) == GREENBLR_TRUE && greenblr_cause(given) == GREENBLR_CAUSE_NONE);
    EXPECT(greenblr_number(given) == GREENBLR_REFUSAL_NONE && greenblr_place(given) == 0);
    record[7] = record[8] = 255;
    given = evaluate(record, BED);
    EXPECT(greenblr_answer(given) == GREENBLR_MISSING && greenblr_cause(given) == GREENBLR_CAUSE_READING);
    EXPECT(greenblr_number(given) == GREENBLR_REFUSAL_NONE && greenblr_place(given) == 0);
    record[6] = 1;
    given = evaluate(record, BED);
    EXPECT(greenblr_answer(given) == GREENBLR_MISSING && greenblr_cause(given) == GREENBLR_CAUSE_BIT);
    given = evaluate(record, BED - 1);
    EXPECT(greenblr_answer(given) == GREENBLR_REFUSED && greenblr_number(given) == GREENBLR_REFUSAL_BAD_RECORDS);
    EXPECT(greenblr_cause(given) == GREENBLR_CAUSE_NONE && greenblr_refusal_input(greenblr_number(given)) == GREENBLR_INPUT_RECORDS);
    given = greenblr_evaluate(request, REQUEST, dictionary, DICTIONARY, 0, image, IMAGE - 1, record, BED, NULL, 0);
    EXPECT(greenblr_number(given) == GREENBLR_REFUSAL_BAD_MESSAGE_BYTES && greenblr_place(given) == IMAGE - 1);
    EXPECT(greenblr_refusal_input(greenblr_number(given)) == GREENBLR_INPUT_IMAGES);
    given = greenblr_evaluate(request, REQUEST, dictionary, DICTIONARY, 1, image, IMAGE, record, BED, NULL, 0);
    EXPECT(greenblr_number(given) == GREENBLR_REFUSAL_NO_BOOLEAN && greenblr_place(given) == 0);
    free(record);
}

/* If any bed of a run, or exactly one, is above 30.0: the run is an entry of kind 7 around the beds. */
static void runs(void)
{
    static const uint8_t over_bytes[] = {
        0x04, 0x02, 0x08, GREENBLR_CODE_ANY, 0x43, 0x01, 0x4B, 0x01, 0x00, 0x03, 0x47, 0x31, 0x18, 0x03, 0x00, 0x00, 0x15, 0x07, 0xFF,
        0x2C, 0x01, 0xFF, 0x02, 0xFF, 0xFF, 0xFF, 0x4C,
    };
    enum { OVER = sizeof over_bytes, RUN = 4 + 2 * BED };
    uint8_t *over = copy(over_bytes, OVER), *run = (uint8_t *)block(RUN);
    uint64_t given;
    run[0] = RUN;
    run[1] = 0;
    run[2] = 7;
    run[3] = 0;
    memcpy(run + 4, bed_bytes, BED);
    memcpy(run + 4 + BED, bed_bytes, BED);
    EXPECT(greenblr_answer(greenblr_evaluate(over, OVER, dictionary, DICTIONARY, 0, NULL, 0, NULL, 0, run, RUN)) == GREENBLR_TRUE);
    over[3] = GREENBLR_CODE_UNIQUE;
    EXPECT(greenblr_answer(greenblr_evaluate(over, OVER, dictionary, DICTIONARY, 0, NULL, 0, NULL, 0, run, RUN)) == GREENBLR_FALSE);
    run[11] = run[12] = 255;
    EXPECT(greenblr_answer(greenblr_evaluate(over, OVER, dictionary, DICTIONARY, 0, NULL, 0, NULL, 0, run, RUN)) == GREENBLR_TRUE);
    given = greenblr_evaluate(over, OVER, dictionary, DICTIONARY, 0, NULL, 0, NULL, 0, run, RUN - 1);
    EXPECT(greenblr_number(given) == GREENBLR_REFUSAL_BAD_RUNS && greenblr_place(given) == 0);
    EXPECT(greenblr_refusal_input(greenblr_number(given)) == GREENBLR_INPUT_RUNS);
    given = greenblr_evaluate(request, REQUEST, dictionary, DICTIONARY, 0, image, IMAGE, bed, BED, run, RUN);
    EXPECT(greenblr_number(given) == GREENBLR_REFUSAL_BAD_RUNS && greenblr_place(given) == 0);
    given = greenblr_evaluate(over, OVER, dictionary, DICTIONARY, 0, NULL, 0, NULL, 0, NULL, 0);
    EXPECT(greenblr_number(given) == GREENBLR_REFUSAL_BAD_RUNS && greenblr_place(given) == 0);
    free(over);
    free(run);
}

/* What an assignment puts into its target: a number, a text in the record, in a literal and in an image, a date, missing; and what is left in
 * the answer. The request stores a bed as context 0: its name's assignment is in row 3, that of its heat in row 4; and sends a date, in
 * row 10, where no context is in scope. */
static void values(void)
{
    static const uint8_t storing_bytes[] = {
        GREENBLR_CODE_VERSION4, GREENBLR_CODE_BEGIN,
        GREENBLR_CODE_MESSAGE, 0, 2, 0, GREENBLR_CODE_TEXT, 3, 0, GREENBLR_CODE_DATE,
        GREENBLR_CODE_STORE, GREENBLR_CODE_RID, 1, 0, 0, GREENBLR_CODE_BEGIN,
        GREENBLR_CODE_ASSIGNMENT, GREENBLR_CODE_FID, 0, 1, 0, GREENBLR_CODE_FID, 0, 1, 0,
        GREENBLR_CODE_ASSIGNMENT, GREENBLR_CODE_NEGATE, GREENBLR_CODE_FID, 0, 0, 0, GREENBLR_CODE_FID, 0, 0, 0,
        GREENBLR_CODE_ASSIGNMENT, GREENBLR_CODE_LITERAL, GREENBLR_CODE_TEXT, 4, 0, 'A', 'B', ' ', ' ', GREENBLR_CODE_FID, 0, 1, 0,
        GREENBLR_CODE_ASSIGNMENT, GREENBLR_CODE_PARAMETER, 0, 0, 0, GREENBLR_CODE_FID, 0, 1, 0,
        GREENBLR_CODE_ASSIGNMENT,
        GREENBLR_CODE_AVERAGE, GREENBLR_CODE_RSE, 1, GREENBLR_CODE_RID, 1, 0, 9, GREENBLR_CODE_END, GREENBLR_CODE_FID, 9, 0, 0,
        GREENBLR_CODE_FID, 0, 0, 0,
        GREENBLR_CODE_ASSIGNMENT, GREENBLR_CODE_LITERAL, GREENBLR_CODE_TEXT, 2, 0, ' ', ' ', GREENBLR_CODE_FID, 0, 1, 0,
        GREENBLR_CODE_END,
        GREENBLR_CODE_SEND, 0, GREENBLR_CODE_ASSIGNMENT, GREENBLR_CODE_PARAMETER, 0, 1, 0, GREENBLR_CODE_PARAMETER, 0, 1, 0,
        GREENBLR_CODE_END, GREENBLR_CODE_EOC,
    };
    static const uint8_t three_bytes[] = {'X', 'Y', ' ', 1, 0, 0, 0, 2, 0, 0, 0};
    enum { STORING = sizeof storing_bytes, THREE = sizeof three_bytes, RUN = 4 + BED };
    uint8_t *storing = copy(storing_bytes, STORING), *three = copy(three_bytes, THREE), *run = (uint8_t *)block(RUN);
    int64_t *answer = (int64_t *)block(3 * sizeof *answer);
    uint64_t given;
#define VALUE(row, run, length) \
    (answer[0] = answer[1] = answer[2] = 77, \
     given = greenblr_evaluate_value(storing, STORING, dictionary, DICTIONARY, row, three, THREE, bed, BED, run, length, answer))
    run[0] = RUN;
    run[1] = 0;
    run[2] = 7;
    run[3] = 0;
    memcpy(run + 4, bed_bytes, BED);
    VALUE(3, NULL, 0);
    EXPECT(greenblr_answer(given) == GREENBLR_VALUE_TEXT && answer[0] == GREENBLR_INPUT_RECORDS && answer[1] == 9 && answer[2] == 13);
    VALUE(4, NULL, 0);
    EXPECT(greenblr_answer(given) == GREENBLR_VALUE_NUMBER && answer[0] == -301 && answer[1] == -1 && answer[2] == 0);
    VALUE(5, NULL, 0);
    EXPECT(greenblr_answer(given) == GREENBLR_VALUE_TEXT && answer[0] == GREENBLR_INPUT_REQUEST);
    EXPECT(answer[2] == answer[1] + 2 && memcmp(storing + answer[1], "AB", 2) == 0);
    VALUE(6, NULL, 0);
    EXPECT(greenblr_answer(given) == GREENBLR_VALUE_TEXT && answer[0] == GREENBLR_INPUT_IMAGES && answer[1] == 0 && answer[2] == 2);
    VALUE(7, run, RUN);
    EXPECT(greenblr_answer(given) == GREENBLR_VALUE_NUMBER && answer[0] == 301 && answer[1] == -1 && answer[2] == 0);
    run[11] = run[12] = 255;
    VALUE(7, run, RUN);
    EXPECT(greenblr_answer(given) == GREENBLR_MISSING && greenblr_cause(given) == GREENBLR_CAUSE_NOTHING);
    EXPECT(answer[0] == 0 && answer[1] == 0 && answer[2] == 0);
    VALUE(7, run, RUN - 1);
    EXPECT(greenblr_number(given) == GREENBLR_REFUSAL_BAD_RUNS && greenblr_place(given) == 0 && answer[0] == 0 && answer[2] == 0);
    VALUE(8, NULL, 0);
    EXPECT(greenblr_answer(given) == GREENBLR_VALUE_TEXT && answer[0] == GREENBLR_INPUT_REQUEST);
    EXPECT(answer[1] == answer[2] && answer[2] >= 0 && answer[2] <= STORING);
    given = greenblr_evaluate_value(storing, STORING, dictionary, DICTIONARY, 10, three, THREE, NULL, 0, NULL, 0, answer);
    EXPECT(greenblr_answer(given) == GREENBLR_VALUE_DATE && answer[0] == 1 && answer[1] == 2 && answer[2] == 0);
    VALUE(2, NULL, 0);
    EXPECT(greenblr_number(given) == GREENBLR_REFUSAL_NO_BOOLEAN && greenblr_place(given) == 0 && answer[0] == 0);
    VALUE((size_t)-1, NULL, 0);
    EXPECT(greenblr_number(given) == GREENBLR_REFUSAL_NO_BOOLEAN);
    given = greenblr_evaluate_value(NULL, 0, NULL, 0, 0, NULL, 0, NULL, 0, NULL, 0, answer);
    EXPECT(greenblr_number(given) == GREENBLR_REFUSAL_ENDS_EARLY && greenblr_place(given) == 0);
#undef VALUE
    free(storing);
    free(three);
    free(run);
    free(answer);
}

/* The tests of a condition, in tables of several lengths: a bed's HEAT is above 30.0, or its NAME does not start with E. */
static void explanations(void)
{
    static const uint8_t either_bytes[] = {
        GREENBLR_CODE_VERSION4, GREENBLR_CODE_BEGIN, GREENBLR_CODE_FOR, GREENBLR_CODE_RSE, 1, GREENBLR_CODE_RID, 1, 0, 0, GREENBLR_CODE_BOOLEAN,
        GREENBLR_CODE_OR, GREENBLR_CODE_GTR, GREENBLR_CODE_FID, 0, 0, 0, GREENBLR_CODE_LITERAL, GREENBLR_CODE_SHORT, 255, 44, 1,
        GREENBLR_CODE_NOT, GREENBLR_CODE_STARTING, GREENBLR_CODE_FID, 0, 1, 0, GREENBLR_CODE_LITERAL, GREENBLR_CODE_TEXT, 1, 0, 'E',
        GREENBLR_CODE_END, GREENBLR_CODE_BEGIN, GREENBLR_CODE_END, GREENBLR_CODE_END, GREENBLR_CODE_EOC,
    };
    enum { EITHER = sizeof either_bytes, TESTS = 2 * GREENBLR_TEST_ROW };
    uint8_t *either = copy(either_bytes, EITHER), *record = copy(bed_bytes, BED);
    for (size_t length = 0; length < TESTS + 3; length++) {
        uint32_t *tests = table(length);
        uint64_t given = greenblr_explain(either, EITHER, dictionary, DICTIONARY, 0, NULL, 0, record, BED, NULL, 0, tests, length);
        if (length < GREENBLR_TEST_ROW) {
            EXPECT(greenblr_number(given) == GREENBLR_REFUSAL_TABLES_TOO_SHORT && greenblr_place(given) == 0);
            EXPECT(greenblr_tests(given) == 0 && zeros(tests, 0, length));
        } else {
            EXPECT(greenblr_answer(given) == GREENBLR_EXPLAINED && greenblr_tests(given) == 1 && zeros(tests, GREENBLR_TEST_ROW, length));
            EXPECT(greenblr_number(given) == GREENBLR_REFUSAL_NONE && greenblr_place(given) == 0 && greenblr_cause(given) == GREENBLR_CAUSE_NONE);
            EXPECT(tests[GREENBLR_TEST_PLACE] == 11 && tests[GREENBLR_TEST_OUTCOME] == GREENBLR_TRUE);
        }
        free(tests);
    }
    record[7] = record[8] = 255;
    for (size_t length = 0; length < TESTS + 3; length++) {
        uint32_t *tests = table(length);
        uint64_t given = greenblr_explain(either, EITHER, dictionary, DICTIONARY, 0, NULL, 0, record, BED, NULL, 0, tests, length);
        EXPECT(greenblr_tests(given) == (length < TESTS ? 0 : 2) && zeros(tests, length < TESTS ? 0 : TESTS, length));
        if (length >= TESTS) {
            const uint32_t *second = tests + GREENBLR_TEST_ROW;
            EXPECT(tests[GREENBLR_TEST_PLACE] == 11 && tests[GREENBLR_TEST_OUTCOME] == GREENBLR_MISSING);
            EXPECT(second[GREENBLR_TEST_PLACE] == 22 && second[GREENBLR_TEST_OUTCOME] == GREENBLR_TRUE);
            given = greenblr_explain(either, EITHER, dictionary, DICTIONARY, 0, NULL, 0, record, BED - 1, NULL, 0, tests, length);
            EXPECT(greenblr_answer(given) == GREENBLR_REFUSED && greenblr_number(given) == GREENBLR_REFUSAL_BAD_RECORDS);
            EXPECT(greenblr_tests(given) == 0 && zeros(tests, 0, length));
            given = greenblr_explain(either, EITHER, dictionary, DICTIONARY, 1, NULL, 0, record, BED, NULL, 0, tests, length);
            EXPECT(greenblr_number(given) == GREENBLR_REFUSAL_NO_BOOLEAN && greenblr_place(given) == 0);
        }
        free(tests);
    }
    EXPECT(greenblr_tests(evaluate(bed, BED)) == 0);
    free(either);
    free(record);
}

/* A pointer of length 0 may be NULL, of every slice of every function. */
static void nulls(void)
{
    uint32_t *statements = table(GREENBLR_STATEMENT_TABLE), *parameters = table(GREENBLR_PARAMETER_TABLE), *contexts = table(GREENBLR_CONTEXT_TABLE);
    size_t answer[3];
    EXPECT(greenblr_read(NULL, 0, NULL, 0, NULL, 0, NULL, 0, NULL, 0, answer) == GREENBLR_REFUSAL_TABLES_TOO_SHORT);
    EXPECT(greenblr_read(NULL, 0, NULL, 0, statements, GREENBLR_STATEMENT_TABLE, parameters, GREENBLR_PARAMETER_TABLE,
                         contexts, GREENBLR_CONTEXT_TABLE, answer) == GREENBLR_REFUSAL_ENDS_EARLY && answer[0] == 0);
    EXPECT(greenblr_number(greenblr_evaluate(NULL, 0, NULL, 0, 0, NULL, 0, NULL, 0, NULL, 0)) == GREENBLR_REFUSAL_ENDS_EARLY);
    EXPECT(greenblr_number(greenblr_evaluate(request, REQUEST, NULL, 0, 0, NULL, 0, NULL, 0, NULL, 0)) == GREENBLR_REFUSAL_UNKNOWN);
    EXPECT(greenblr_number(greenblr_evaluate(request, REQUEST, dictionary, DICTIONARY, 0, NULL, 0, NULL, 0, NULL, 0)) == GREENBLR_REFUSAL_BAD_MESSAGE_BYTES);
    EXPECT(greenblr_number(greenblr_evaluate(request, REQUEST, dictionary, DICTIONARY, 0, image, IMAGE, NULL, 0, NULL, 0)) == GREENBLR_REFUSAL_BAD_RECORDS);
    EXPECT(greenblr_number(greenblr_explain(NULL, 0, NULL, 0, 0, NULL, 0, NULL, 0, NULL, 0, NULL, 0)) == GREENBLR_REFUSAL_ENDS_EARLY);
    EXPECT(greenblr_number(greenblr_explain(request, REQUEST, dictionary, DICTIONARY, 0, image, IMAGE, bed, BED, NULL, 0, NULL, 0)) == GREENBLR_REFUSAL_TABLES_TOO_SHORT);
    EXPECT(greenblr_store_make(NULL, 0, NULL, 0, 1, answer) == GREENBLR_REFUSAL_UNKNOWN);
    EXPECT(greenblr_store_make(dictionary, DICTIONARY, NULL, 0, 1, answer) == GREENBLR_REFUSAL_NO_ROOM);
    EXPECT(greenblr_store_add(dictionary, DICTIONARY, NULL, 0, NULL, 0, answer) == GREENBLR_REFUSAL_MALFORMED_STORE);
    EXPECT(greenblr_store_erase(dictionary, DICTIONARY, NULL, 0, 0, answer) == GREENBLR_REFUSAL_MALFORMED_STORE);
    EXPECT(greenblr_store_replace(dictionary, DICTIONARY, NULL, 0, 0, NULL, 0, answer) == GREENBLR_REFUSAL_MALFORMED_STORE);
    EXPECT(greenblr_store_read(dictionary, DICTIONARY, NULL, 0, answer) == GREENBLR_REFUSAL_MALFORMED_STORE);
    EXPECT(greenblr_store_find(dictionary, DICTIONARY, NULL, 0, 0, answer) == GREENBLR_REFUSAL_MALFORMED_STORE);
    free(statements);
    free(parameters);
    free(contexts);
}

static void stores(void)
{
    const size_t length = GREENBLR_STORE_HEADER + BED;
    uint8_t *buffer = (uint8_t *)block(length);
    size_t answer[3] = {9, 9, 9};
    memset(buffer, 77, length);
    EXPECT(greenblr_store_make(dictionary, DICTIONARY, buffer, length, 1, answer) == GREENBLR_REFUSAL_NONE && answer[0] == 0);
    EXPECT(greenblr_store_add(dictionary, DICTIONARY, buffer, length, NULL, 0, answer) == GREENBLR_REFUSAL_WRONG_RECORD);
    EXPECT(greenblr_store_add(dictionary, DICTIONARY, buffer, length, bed, BED, answer) == GREENBLR_REFUSAL_NONE);
    EXPECT(greenblr_store_add(dictionary, DICTIONARY, buffer, length, bed, BED, answer) == GREENBLR_REFUSAL_NO_ROOM && answer[0] == 0);
    EXPECT(greenblr_store_read(dictionary, DICTIONARY, buffer, length, answer) == GREENBLR_REFUSAL_NONE);
    EXPECT(answer[0] == 1 && answer[1] == 1 && answer[2] == 0);
    EXPECT(greenblr_store_find(dictionary, DICTIONARY, buffer, length, 0, answer) == GREENBLR_REFUSAL_NONE);
    EXPECT(answer[0] == GREENBLR_STORE_HEADER && answer[1] == BED && memcmp(buffer + answer[0], bed, BED) == 0);
    EXPECT(greenblr_store_replace(dictionary, DICTIONARY, buffer, length, 1, bed, BED, answer) == GREENBLR_REFUSAL_NO_POSITION);
    EXPECT(greenblr_store_replace(dictionary, DICTIONARY, buffer, length, 0, bed, BED, answer) == GREENBLR_REFUSAL_NONE);
    EXPECT(greenblr_store_erase(dictionary, DICTIONARY, buffer, length, 0, answer) == GREENBLR_REFUSAL_NONE);
    EXPECT(greenblr_store_find(dictionary, DICTIONARY, buffer, length, 0, answer) == GREENBLR_REFUSAL_NO_POSITION);
    free(buffer);
}

/* Each refusal and each cause has words of its own. */
static void words(void)
{
    const char *unknown = greenblr_refusal_text(1000);
    unsigned known = 0;
    for (uint32_t i = 0; i < 100; i++) {
        if (strcmp(greenblr_refusal_text(i), unknown) == 0)
            continue;
        known++;
        for (uint32_t j = 0; j < i; j++)
            EXPECT(strcmp(greenblr_refusal_text(i), greenblr_refusal_text(j)) != 0);
    }
    EXPECT(strcmp(greenblr_cause_text(GREENBLR_CAUSE_READING), greenblr_cause_text(GREENBLR_CAUSE_BIT)) != 0);
    EXPECT(strcmp(greenblr_cause_text(GREENBLR_CAUSE_FLAG), greenblr_cause_text(200)) != 0);
    EXPECT(strcmp(greenblr_cause_text(GREENBLR_CAUSE_NOTHING), greenblr_cause_text(200)) != 0);
}

int main(void)
{
    dictionary = copy(dictionary_bytes, DICTIONARY);
    request = copy(request_bytes, REQUEST);
    bed = copy(bed_bytes, BED);
    image = copy(image_bytes, IMAGE);
    EXPECT(greenblr_version() == GREENBLR_VERSION_NUMBER);
    read_with(0, 0);
    read_with(0, GREENBLR_CONTEXT_TABLE);
    read_with(1, 0);
    read_with(1, 5);
    rows();
    refused();
    versions();
    evaluations();
    runs();
    values();
    explanations();
    nulls();
    stores();
    words();
    printf("version %s, %d failures\n", GREENBLR_VERSION_STRING, failures);
    free(dictionary);
    free(request);
    free(bed);
    free(image);
    return failures != 0;
}
