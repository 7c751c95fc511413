/* greenblr: reads BLR requests and evaluates their conditions, for greenhouse controllers.
 *
 * BLR is the binary request language of the InterBase and Rdb family. The library checks a request beside a house dictionary
 * and lists what it holds (greenblr_read), evaluates a condition of it over records and runs of them (greenblr_evaluate), or the value
 * that an assignment puts into its target (greenblr_evaluate_value), lists the tests that decide a condition (greenblr_explain), and keeps
 * the records of one relation in a buffer of the caller's (greenblr_store_make and five more). A node that can't measure sends 65535: that
 * is no reading, a comparison with it is missing, neither true nor false, and no average has it.
 *
 * All calls
 * - Every call returns, whatever the bytes are; nothing has to be tested before it. This is proved, and so is what each call gives.
 * - Nothing is allocated, and nothing global is kept: no state stands between two calls. Any number of threads may call at once,
 *   each with tables, answers and buffers of its own.
 *
 * What the caller has to keep to, since no call can test it
 * - A pointer has as much behind it as its length says: bytes, or of a table 32-bit numbers. `answer` has room for three numbers, of
 *   size_t, or of greenblr_evaluate_value of int64_t.
 * - A pointer of length 0 may be NULL, or anything else. No other pointer may be NULL, and `answer` never.
 * - What a call writes (tables, answer, the buffer of a store) may not overlap anything else that it is given.
 *
 * Machines: the archive is for x86-64 Linux with 64-bit pointers, and needs memcpy and memset of the C library, nothing else.
 * C99 and later, and C++, can include this header. Stack: the requests that were tried use up to 140 kilobytes, which is measured
 * and not proved.
 *
 * Names: all start with greenblr_ or GREENBLR_, so this header can stand in one file with InterBase's ibase.h and blr.h, in
 * either order.
 *
 *     cc program.c $(pkg-config --cflags --libs greenblr)
 */
#ifndef GREENBLR_H
#define GREENBLR_H

#include <stddef.h>
#include <stdint.h>

#ifdef __cplusplus
extern "C" {
#endif

/* ---- Version */

#define GREENBLR_VERSION_MAJOR 0
#define GREENBLR_VERSION_MINOR 10
#define GREENBLR_VERSION_PATCH 0
#define GREENBLR_VERSION_STRING "0.10.0"

/* The version in one number, as greenblr_version gives it: a later version has a greater one. */
#define GREENBLR_VERSION_NUMBER \
    (1000000 * GREENBLR_VERSION_MAJOR + 1000 * GREENBLR_VERSION_MINOR + GREENBLR_VERSION_PATCH)

/* The version of the library that is linked. It is GREENBLR_VERSION_NUMBER where header and archive belong together. */
uint32_t greenblr_version(void);

/* The archive has 64-bit lengths: a program whose size_t is shorter does not compile. */
typedef char greenblr_size_t_has_64_bits[sizeof(size_t) == 8 ? 1 : -1];

/* ---- Greatest sizes */

#define GREENBLR_MAX_REQUEST_BYTES 65535
#define GREENBLR_MAX_DICTIONARY_BYTES 65535
#define GREENBLR_MAX_RECORD_BYTES 4096  /* of one record's entry */
#define GREENBLR_MAX_STORE_BYTES 65535  /* of a store's buffer */
#define GREENBLR_MAX_STATEMENTS 512
#define GREENBLR_MAX_PARAMETERS 256     /* in all messages */
#define GREENBLR_MAX_CONTEXTS 32
#define GREENBLR_MAX_TESTS 10922        /* in a condition */

/* ---- Tables: rows of 32-bit numbers in reading order, and zeros after them. A place is a count of bytes from the request's first. */

/* A row of the statements. */
#define GREENBLR_STATEMENT_PLACE 0      /* place of its code */
#define GREENBLR_STATEMENT_CODE 1       /* its code: GREENBLR_CODE_BEGIN and the like */
#define GREENBLR_STATEMENT_PARENT 2     /* row number, from 0, of the statement that holds it, plus one; 0 for the outer begin */
#define GREENBLR_STATEMENT_END 3        /* place after it */
#define GREENBLR_STATEMENT_BOOLEAN 4    /* number of its condition plus one (an if's, or that of a for's rse); 0 where it has none */
#define GREENBLR_STATEMENT_ROW 5        /* numbers a row */

/* A row of the parameters. */
#define GREENBLR_PARAMETER_MESSAGE 0    /* number of its message */
#define GREENBLR_PARAMETER_NUMBER 1     /* its number in the message, from 0 */
#define GREENBLR_PARAMETER_TYPE 2       /* its type: GREENBLR_CODE_SHORT and the like */
#define GREENBLR_PARAMETER_SCALE 3      /* its scale byte: 255 stands for -1, 254 for -2, to 247 for -9; of type 16 to 238 for -18 */
#define GREENBLR_PARAMETER_OFFSET 4     /* its first byte in the message's image, from 0 */
#define GREENBLR_PARAMETER_BYTES 5      /* the bytes that it takes there */
#define GREENBLR_PARAMETER_ROW 6        /* numbers a row */

/* A row of the contexts. */
#define GREENBLR_CONTEXT_NUMBER 0       /* its number in the request */
#define GREENBLR_CONTEXT_PLACE 1        /* place of the stream's code, or of the modify */
#define GREENBLR_CONTEXT_START 2        /* place where its scope starts */
#define GREENBLR_CONTEXT_END 3          /* place where its scope ends */
#define GREENBLR_CONTEXT_RELATION 4     /* id of its relation */
#define GREENBLR_CONTEXT_OPENER 5       /* code that opened it: of a for, store, modify, any, unique or statistic */
#define GREENBLR_CONTEXT_ROW 6          /* numbers a row */

/* A row of the tests of a condition. */
#define GREENBLR_TEST_PLACE 0           /* place of its code */
#define GREENBLR_TEST_OUTCOME 1         /* its own outcome: GREENBLR_FALSE, GREENBLR_TRUE or GREENBLR_MISSING */
#define GREENBLR_TEST_ROW 2             /* numbers a row */

/* The least numbers that each table of greenblr_read must have, so that the rows of every request fit. With less in one, every request is
 * refused with 1. */
#define GREENBLR_STATEMENT_TABLE (GREENBLR_MAX_STATEMENTS * GREENBLR_STATEMENT_ROW)
#define GREENBLR_PARAMETER_TABLE (GREENBLR_MAX_PARAMETERS * GREENBLR_PARAMETER_ROW)
#define GREENBLR_CONTEXT_TABLE (GREENBLR_MAX_CONTEXTS * GREENBLR_CONTEXT_ROW)

/* The numbers of a table of greenblr_explain in which the tests of every condition fit. It may have less: refused with 1 is then what does
 * not fit. */
#define GREENBLR_TEST_TABLE (GREENBLR_MAX_TESTS * GREENBLR_TEST_ROW)

/* ---- Refusals: by number what is refused, and where its place lies. Later versions may have more. */

enum greenblr_refusal {
    GREENBLR_REFUSAL_NONE = 0,
    /* Of reading. The place lies in the request, but for 3. */
    GREENBLR_REFUSAL_TABLES_TOO_SHORT = 1,   /* a table is below its least size, of an explanation below what its tests need: 0 */
    GREENBLR_REFUSAL_REQUEST_TOO_LONG = 2,   /* over 65,535 bytes: 0 */
    GREENBLR_REFUSAL_BAD_DICTIONARY = 3,     /* breaks a rule or a greatest size: in the dictionary, the entry's start; 0 if too long */
    GREENBLR_REFUSAL_ENDS_EARLY = 4,         /* the request ends early: its length */
    GREENBLR_REFUSAL_BAD_VERSION = 5,        /* the first byte is no version that is read, neither 4 nor 5: 0 */
    GREENBLR_REFUSAL_NOT_DUE = 6,            /* a code that is not due here, as type 16 in version 4: the code */
    GREENBLR_REFUSAL_LEFT_OUT = 7,           /* a code of BLR that this library leaves out: the code */
    GREENBLR_REFUSAL_TOO_GREAT = 8,          /* a greatest size passed: the code; parameters: count word; message bytes: descriptor;
                                                2 to 8 streams of an any, a unique or a statistic: their count */
    GREENBLR_REFUSAL_BAD_MESSAGE = 9,        /* a message declared or selected twice, or undeclared: the message byte */
    GREENBLR_REFUSAL_NO_PARAMETER = 10,      /* no such parameter: its word */
    GREENBLR_REFUSAL_BAD_CONTEXT = 11,       /* a context in scope already, or not in scope: the context byte */
    GREENBLR_REFUSAL_UNKNOWN = 12,           /* unknown relation or field: the name's count byte, or the id; by a store: 0 */
    GREENBLR_REFUSAL_UNFIT = 13,             /* kinds or scales don't fit: the operator, assignment or parameter2; a statistic
                                                over a text or a date: its code; version 4 names a field of type 16: the field
                                                or fid */
    GREENBLR_REFUSAL_MISPLACED = 14,         /* a context not of a for, a wrong target, send or receive in store or modify, leave
                                                outside its label: the statement's code */
    GREENBLR_REFUSAL_BYTES_AFTER_END = 15,   /* bytes after the request's end: the first of them */
    GREENBLR_REFUSAL_OUT_OF_RANGE = 16,      /* a size, scale, stream count or sort count out of range: that field */
    /* Of evaluation and explanation, after those of reading but for 1, which evaluation never gives and explanation gives last. */
    GREENBLR_REFUSAL_NO_BOOLEAN = 20,        /* no condition of this number, or no assignment in this row: 0 */
    GREENBLR_REFUSAL_BAD_MESSAGE_BYTES = 21, /* not as many message bytes as are declared: in the images, the length given */
    GREENBLR_REFUSAL_BAD_RECORDS = 22,       /* records not as due: in the records, the first wrong entry; the length given if one lacks;
                                                the first byte too many */
    GREENBLR_REFUSAL_MALFORMED_TEXT = 23,    /* a varying longer than its size, a cstring without a zero: in the request, the value's code */
    GREENBLR_REFUSAL_OVERFLOW = 24,          /* a number that does not fit in 64 bits, in version 5 also the multiplied
                                                dividend: in the request, the operator; a partial sum of a total or an average:
                                                its code */
    GREENBLR_REFUSAL_ZERO_DIVISOR = 25,      /* a division by zero: in the request, the operator */
    GREENBLR_REFUSAL_BAD_RUNS = 26,          /* runs not as due, after 22: in the runs, placed as 22 is, by entries of kind 7 */
    /* Of a store, after 3, and after 12 for its relation. The place is 0. */
    GREENBLR_REFUSAL_MALFORMED_STORE = 50,   /* the buffer holds no store, or has over 65,535 bytes */
    GREENBLR_REFUSAL_NO_POSITION = 51,       /* no record at this position */
    GREENBLR_REFUSAL_WRONG_RECORD = 52,      /* not one proper record of the relation */
    GREENBLR_REFUSAL_NO_ROOM = 53            /* not enough free bytes */
};

/* A refusal in words; of any other number, words that say so. Never NULL. */
static inline const char *greenblr_refusal_text(uint32_t refusal)
{
    switch (refusal) {
    case GREENBLR_REFUSAL_NONE: return "not refused";
    case GREENBLR_REFUSAL_TABLES_TOO_SHORT: return "a table is below its least size";
    case GREENBLR_REFUSAL_REQUEST_TOO_LONG: return "the request is too long";
    case GREENBLR_REFUSAL_BAD_DICTIONARY: return "the dictionary breaks a rule or a greatest size";
    case GREENBLR_REFUSAL_ENDS_EARLY: return "the request ends early";
    case GREENBLR_REFUSAL_BAD_VERSION: return "the first byte is no version that is read";
    case GREENBLR_REFUSAL_NOT_DUE: return "the code is not due here";
    case GREENBLR_REFUSAL_LEFT_OUT: return "the code is one that is left out";
    case GREENBLR_REFUSAL_TOO_GREAT: return "a greatest size is passed";
    case GREENBLR_REFUSAL_BAD_MESSAGE: return "the message is declared or selected twice, or undeclared";
    case GREENBLR_REFUSAL_NO_PARAMETER: return "there is no such parameter";
    case GREENBLR_REFUSAL_BAD_CONTEXT: return "the context is in scope already, or not in scope";
    case GREENBLR_REFUSAL_UNKNOWN: return "the relation or field is unknown";
    case GREENBLR_REFUSAL_UNFIT: return "kinds or scales do not fit";
    case GREENBLR_REFUSAL_MISPLACED: return "the statement, its context or its target may not stand here";
    case GREENBLR_REFUSAL_BYTES_AFTER_END: return "bytes follow the end of the request";
    case GREENBLR_REFUSAL_OUT_OF_RANGE: return "a size, scale, stream count or sort count is out of range";
    case GREENBLR_REFUSAL_NO_BOOLEAN: return "there is no condition of this number, or no assignment in this row";
    case GREENBLR_REFUSAL_BAD_MESSAGE_BYTES: return "the message bytes are not as many as declared";
    case GREENBLR_REFUSAL_BAD_RECORDS: return "the records are not as due";
    case GREENBLR_REFUSAL_MALFORMED_TEXT: return "a varying is longer than its size, or a cstring has no zero";
    case GREENBLR_REFUSAL_OVERFLOW: return "a number does not fit";
    case GREENBLR_REFUSAL_ZERO_DIVISOR: return "a division by zero";
    case GREENBLR_REFUSAL_BAD_RUNS: return "the runs are not as due";
    case GREENBLR_REFUSAL_MALFORMED_STORE: return "the buffer holds no store, or is too long";
    case GREENBLR_REFUSAL_NO_POSITION: return "the store has no record at this position";
    case GREENBLR_REFUSAL_WRONG_RECORD: return "not one proper record of the relation";
    case GREENBLR_REFUSAL_NO_ROOM: return "the buffer has not enough free bytes";
    default: return "a number that is no refusal of this version";
    }
}

/* What the place of a refusal by greenblr_read, greenblr_evaluate, greenblr_evaluate_value or greenblr_explain is counted in, and what a
 * text stands in that greenblr_evaluate_value gives. A store's refusal 3 is placed in the dictionary, and every other of a store at 0. */
enum greenblr_input {
    GREENBLR_INPUT_REQUEST = 0,
    GREENBLR_INPUT_DICTIONARY = 1,
    GREENBLR_INPUT_IMAGES = 2,
    GREENBLR_INPUT_RECORDS = 3,
    GREENBLR_INPUT_RUNS = 4
};

static inline enum greenblr_input greenblr_refusal_input(uint32_t refusal)
{
    switch (refusal) {
    case GREENBLR_REFUSAL_BAD_DICTIONARY: return GREENBLR_INPUT_DICTIONARY;
    case GREENBLR_REFUSAL_BAD_MESSAGE_BYTES: return GREENBLR_INPUT_IMAGES;
    case GREENBLR_REFUSAL_BAD_RECORDS: return GREENBLR_INPUT_RECORDS;
    case GREENBLR_REFUSAL_BAD_RUNS: return GREENBLR_INPUT_RUNS;
    default: return GREENBLR_INPUT_REQUEST;
    }
}

/* ---- Reading */

/* Reads a request beside a house dictionary (its entries: greenblr(7)).
 *
 * Gives 0 if the request is accepted, and otherwise the number of the refusal, 1 to 16.
 * - Accepted: the three tables have their rows, then zeros; answer[0], [1] and [2] are the counts of rows of statements,
 *   parameters and contexts.
 * - Refused: the tables are zeros, whatever their lengths; answer[0] is the place, answer[1] and [2] are 0.
 */
uint32_t greenblr_read(const uint8_t *request, size_t request_length,
                       const uint8_t *dictionary, size_t dictionary_length,
                       uint32_t *statements, size_t statements_length,
                       uint32_t *parameters, size_t parameters_length,
                       uint32_t *contexts, size_t contexts_length,
                       size_t answer[3]);

/* ---- Evaluation */

/* A node that can't measure sends this as its reading. */
#define GREENBLR_NO_READING 65535

/* What a condition comes out as. Later versions have no more. */
enum greenblr_outcome {
    GREENBLR_FALSE = 0,
    GREENBLR_TRUE = 1,
    GREENBLR_MISSING = 2,
    GREENBLR_REFUSED = 3
};

/* Why a condition or a value is missing: by its first missing operand in reading order. Later versions may have more. */
enum greenblr_why {
    GREENBLR_CAUSE_NONE = 0,
    GREENBLR_CAUSE_BIT = 1,      /* the missing bit of a field is set */
    GREENBLR_CAUSE_READING = 2,  /* a reading of 65535 */
    GREENBLR_CAUSE_FLAG = 3,     /* the flag of a parameter2 is not zero */
    GREENBLR_CAUSE_NOTHING = 4   /* an average, a maximum or a minimum of nothing: no record of its run has a value for it */
};

/* Evaluates a condition of a request, by its number: from 0 in reading order, those inside another condition not counted.
 *
 * images: the bytes of all messages in declaration order, joined. records: one record's entry for each context in scope at the
 * condition, in declaration order, joined. runs: an entry of kind 7 for each any, unique and statistic of the condition, in the order of
 * their codes, those in sorts left out, joined; it holds the records, none or more, that the code goes over (greenblr(7)). No run is due
 * where there is no such code, and then the length is 0.
 *
 * Any is true if one record of its run makes its condition true, unique if exactly one does; a record that makes it missing counts
 * for neither, and the answer is never missing. Average, maximum, minimum and total go over the number of each record that makes their
 * condition true, and leave out those whose number is missing; count counts the records. Total and count of nothing are 0, the others
 * are missing. All records are tested. With one of these codes inside another the time grows with the product of the counts of records.
 *
 * Gives one number, which holds all of the answer; functions below take it apart. Nothing is written.
 */
uint64_t greenblr_evaluate(const uint8_t *request, size_t request_length,
                           const uint8_t *dictionary, size_t dictionary_length,
                           size_t number,
                           const uint8_t *images, size_t images_length,
                           const uint8_t *records, size_t records_length,
                           const uint8_t *runs, size_t runs_length);

/* ---- Values of assignments */

/* What the value of an assignment comes out as: GREENBLR_MISSING, GREENBLR_REFUSED, or one of these. */
enum greenblr_value {
    GREENBLR_VALUE_NUMBER = 4,
    GREENBLR_VALUE_TEXT = 5,
    GREENBLR_VALUE_DATE = 6
};

/* Evaluates the value that an assignment puts into its target, by the assignment's row among the statements, from 0.
 *
 * images, records and runs: as for greenblr_evaluate, the records for each context in scope at the assignment, that of its store or
 * its modify among them. The target is not looked at.
 *
 * Gives one number, which functions below take apart, and writes three:
 * - GREENBLR_VALUE_NUMBER: the number, its scale, 0. A number of 301 and a scale of -1 are 30.1.
 * - GREENBLR_VALUE_TEXT: what the text stands in (GREENBLR_INPUT_REQUEST, IMAGES, RECORDS or RUNS), the place of its first byte there, and
 *   the place after its last; blanks at its end are no part of it. Neither place is after the end of what it stands in, nor the first
 *   after the second.
 * - GREENBLR_VALUE_DATE: the day, the fraction, 0.
 * - GREENBLR_MISSING, GREENBLR_REFUSED: zeros. The refusals are those of greenblr_evaluate; 20 if the row is no assignment's.
 */
uint64_t greenblr_evaluate_value(const uint8_t *request, size_t request_length,
                                 const uint8_t *dictionary, size_t dictionary_length,
                                 size_t row,
                                 const uint8_t *images, size_t images_length,
                                 const uint8_t *records, size_t records_length,
                                 const uint8_t *runs, size_t runs_length,
                                 int64_t answer[3]);

/* ---- Explanation */

/* What an explanation comes out as: GREENBLR_REFUSED, or this. */
enum greenblr_explanation {
    GREENBLR_EXPLAINED = 7
};

/* Explains a condition of a request, by its number: lists the tests that decide it. Each boolean but or, and and not is one test, any and
 * unique whole. A false and is decided by the tests of its first false side, a true or by those of its first true side, and every other and
 * and or by those of both sides; a not by those of the boolean after it. Whatever the tests not listed came out as, true, false or missing,
 * the condition would come out the same; this is proved.
 *
 * tests: the table, of any length; with GREENBLR_TEST_TABLE numbers it is never too short. All else is as for greenblr_evaluate.
 *
 * Gives one number, which functions below take apart:
 * - GREENBLR_EXPLAINED: the table has the rows of the tests in reading order, one at least, then zeros; greenblr_tests says how many rows.
 * - GREENBLR_REFUSED: the table is zeros. The refusals are those of greenblr_evaluate, by the same numbers at the same places; then 1 at 0,
 *   where the rows do not fit.
 */
uint64_t greenblr_explain(const uint8_t *request, size_t request_length,
                          const uint8_t *dictionary, size_t dictionary_length,
                          size_t number,
                          const uint8_t *images, size_t images_length,
                          const uint8_t *records, size_t records_length,
                          const uint8_t *runs, size_t runs_length,
                          uint32_t *tests, size_t tests_length);

/* ---- The parts of what evaluation and explanation give */

/* The greatest place that an evaluation holds: it stands for every greater one too. */
#define GREENBLR_MAX_PLACE ((uint64_t)-1 >> 16)

/* GREENBLR_FALSE, GREENBLR_TRUE, GREENBLR_MISSING or GREENBLR_REFUSED; of greenblr_evaluate_value one of the last two, or a
 * GREENBLR_VALUE; of greenblr_explain GREENBLR_REFUSED or GREENBLR_EXPLAINED. */
static inline unsigned greenblr_answer(uint64_t evaluation)
{
    return (unsigned)(evaluation & 0xff);
}

/* The cause of a missing answer, and of every other GREENBLR_CAUSE_NONE. */
static inline unsigned greenblr_cause(uint64_t evaluation)
{
    return greenblr_answer(evaluation) == GREENBLR_MISSING ? (unsigned)(evaluation >> 8 & 0xff) : (unsigned)GREENBLR_CAUSE_NONE;
}

/* The number of a refusal, 2 to 16 or 20 to 26, of an explanation 1 too, and of every other answer GREENBLR_REFUSAL_NONE. */
static inline unsigned greenblr_number(uint64_t evaluation)
{
    return greenblr_answer(evaluation) == GREENBLR_REFUSED ? (unsigned)(evaluation >> 8 & 0xff) : (unsigned)GREENBLR_REFUSAL_NONE;
}

/* The place of a refusal, counted in what greenblr_refusal_input says; of every other answer 0. */
static inline uint64_t greenblr_place(uint64_t evaluation)
{
    return greenblr_answer(evaluation) == GREENBLR_REFUSED ? evaluation >> 16 : 0;
}

/* The count of the tests that greenblr_explain has listed; of every other answer 0. */
static inline size_t greenblr_tests(uint64_t explanation)
{
    return greenblr_answer(explanation) == GREENBLR_EXPLAINED ? (size_t)(explanation >> 16) : 0;
}

/* A cause in words; of any other number, words that say so. Never NULL. */
static inline const char *greenblr_cause_text(unsigned cause)
{
    switch (cause) {
    case GREENBLR_CAUSE_NONE: return "not missing";
    case GREENBLR_CAUSE_BIT: return "the missing bit of a field is set";
    case GREENBLR_CAUSE_READING: return "a reading is 65535: the node could not measure";
    case GREENBLR_CAUSE_FLAG: return "the flag of a parameter says that it is missing";
    case GREENBLR_CAUSE_NOTHING: return "an average, maximum or minimum has no value to go over";
    default: return "a number that is no cause of this version";
    }
}

/* ---- Stores: the records of one relation in a buffer of the caller's, of at most 65,535 bytes, beside a house dictionary.
 *
 * A store is a header of ten bytes, the records' entries one after another, and zeros. Each function gives 0, or the number of the
 * refusal: 3, 12, 50, 51, 52 or 53. answer[0] is then the place, which lies in the dictionary for 3 and is otherwise 0, answer[1]
 * and [2] are 0, and the buffer is as it was.
 *
 * A record that is added or put gets the missing bit of each reading of 65535. Positions count from 0. */

#define GREENBLR_STORE_HEADER 10

/* Makes an empty store of the relation of this id, whatever the buffer held. answer: zeros. */
uint32_t greenblr_store_make(const uint8_t *dictionary, size_t dictionary_length,
                             uint8_t *buffer, size_t buffer_length,
                             uint32_t relation, size_t answer[3]);

/* Adds a record, one entry, at the end. answer: zeros. */
uint32_t greenblr_store_add(const uint8_t *dictionary, size_t dictionary_length,
                            uint8_t *buffer, size_t buffer_length,
                            const uint8_t *entry, size_t entry_length, size_t answer[3]);

/* Takes the record at a position out; those after it move down by one position. answer: zeros. */
uint32_t greenblr_store_erase(const uint8_t *dictionary, size_t dictionary_length,
                              uint8_t *buffer, size_t buffer_length,
                              size_t position, size_t answer[3]);

/* Puts another record in the place of the one at a position. answer: zeros. */
uint32_t greenblr_store_replace(const uint8_t *dictionary, size_t dictionary_length,
                                uint8_t *buffer, size_t buffer_length, size_t position,
                                const uint8_t *entry, size_t entry_length, size_t answer[3]);

/* What a store holds. answer: the relation's id, the count of records, the count of missing bits in all of them. Nothing of the
 * buffer is written. */
uint32_t greenblr_store_read(const uint8_t *dictionary, size_t dictionary_length,
                             const uint8_t *buffer, size_t buffer_length, size_t answer[3]);

/* Finds the record at a position. answer: the place of its entry in the buffer, the entry's length, 0. Nothing of the buffer is
 * written. */
uint32_t greenblr_store_find(const uint8_t *dictionary, size_t dictionary_length,
                             const uint8_t *buffer, size_t buffer_length,
                             size_t position, size_t answer[3]);

/* ---- Codes: blr_store of InterBase's blr.h is GREENBLR_CODE_STORE here, and so on; the numbers are the same. One number may stand for
 * several things, each at its own kind of place. */

/* Version and ends. A request says its version in its first byte. Version 5 has what version 4 has, and type 16 too. The two differ
 * in divide: in version 4 a quotient has the first scale less the second; in version 5 it has the sum of both, and the dividend is
 * first multiplied by ten to minus twice the divisor's scale. Both truncate toward zero. */
#define GREENBLR_CODE_VERSION4 4
#define GREENBLR_CODE_VERSION5 5
#define GREENBLR_CODE_EOC 76
#define GREENBLR_CODE_END 255

/* Messages and statements. */
#define GREENBLR_CODE_ASSIGNMENT 1
#define GREENBLR_CODE_BEGIN 2
#define GREENBLR_CODE_MESSAGE 4
#define GREENBLR_CODE_ERASE 5
#define GREENBLR_CODE_FOR 7
#define GREENBLR_CODE_IF 8
#define GREENBLR_CODE_LOOP 9
#define GREENBLR_CODE_MODIFY 10
#define GREENBLR_CODE_HANDLER 11
#define GREENBLR_CODE_RECEIVE 12
#define GREENBLR_CODE_SELECT 13
#define GREENBLR_CODE_SEND 14
#define GREENBLR_CODE_STORE 15
#define GREENBLR_CODE_LABEL 17
#define GREENBLR_CODE_LEAVE 18

/* Values. */
#define GREENBLR_CODE_LITERAL 21
#define GREENBLR_CODE_FIELD 23
#define GREENBLR_CODE_FID 24
#define GREENBLR_CODE_PARAMETER 25
#define GREENBLR_CODE_AVERAGE 27
#define GREENBLR_CODE_COUNT 28
#define GREENBLR_CODE_MAXIMUM 29
#define GREENBLR_CODE_MINIMUM 30
#define GREENBLR_CODE_TOTAL 31
#define GREENBLR_CODE_ADD 34
#define GREENBLR_CODE_SUBTRACT 35
#define GREENBLR_CODE_MULTIPLY 36
#define GREENBLR_CODE_DIVIDE 37
#define GREENBLR_CODE_NEGATE 38
#define GREENBLR_CODE_PARAMETER2 41

/* Conditions. */
#define GREENBLR_CODE_EQL 47
#define GREENBLR_CODE_NEQ 48
#define GREENBLR_CODE_GTR 49
#define GREENBLR_CODE_GEQ 50
#define GREENBLR_CODE_LSS 51
#define GREENBLR_CODE_LEQ 52
#define GREENBLR_CODE_CONTAINING 53
#define GREENBLR_CODE_MATCHING 54
#define GREENBLR_CODE_STARTING 55
#define GREENBLR_CODE_BETWEEN 56
#define GREENBLR_CODE_OR 57
#define GREENBLR_CODE_AND 58
#define GREENBLR_CODE_NOT 59
#define GREENBLR_CODE_ANY 60
#define GREENBLR_CODE_MISSING 61
#define GREENBLR_CODE_UNIQUE 62

/* Streams and clauses. */
#define GREENBLR_CODE_RSE 67
#define GREENBLR_CODE_SORT 70
#define GREENBLR_CODE_BOOLEAN 71
#define GREENBLR_CODE_ASCENDING 72
#define GREENBLR_CODE_DESCENDING 73
#define GREENBLR_CODE_RELATION 74
#define GREENBLR_CODE_RID 75

/* Types. Short, long and int64 are signed numbers of 2, 4 and 8 bytes with a scale. Int64 may stand in any dictionary, but only a
 * version 5 request may have it in messages and literals, or name a field of it. The last type is the house's own, and of
 * dictionaries alone: a reading of two bytes, unsigned, with a scale. */
#define GREENBLR_CODE_SHORT 7
#define GREENBLR_CODE_LONG 8
#define GREENBLR_CODE_TEXT 14
#define GREENBLR_CODE_INT64 16
#define GREENBLR_CODE_DATE 35
#define GREENBLR_CODE_VARYING 37
#define GREENBLR_CODE_CSTRING 40
#define GREENBLR_CODE_HOUSE_READING 200

/* Left out: each is refused with 7 in its place. Statements; values; conditions; streams and clauses; types. */
#define GREENBLR_CODE_DCL_VARIABLE 3
#define GREENBLR_CODE_FETCH 6
#define GREENBLR_CODE_STORE2 19
#define GREENBLR_CODE_POST 20

#define GREENBLR_CODE_DBKEY 22
#define GREENBLR_CODE_VARIABLE 26
#define GREENBLR_CODE_CONCATENATE 39
#define GREENBLR_CODE_SUBSTRING 40
#define GREENBLR_CODE_FROM 42
#define GREENBLR_CODE_VIA 43
#define GREENBLR_CODE_USER_NAME 44
#define GREENBLR_CODE_NULL 45

#define GREENBLR_CODE_LIKE 63

#define GREENBLR_CODE_FIRST 68
#define GREENBLR_CODE_PROJECT 69
#define GREENBLR_CODE_UNION 76
#define GREENBLR_CODE_AGGREGATE 79

#define GREENBLR_CODE_QUAD 9
#define GREENBLR_CODE_FLOAT 10
#define GREENBLR_CODE_D_FLOAT 11
#define GREENBLR_CODE_DOUBLE 27

#ifdef __cplusplus
}
#endif

#endif
