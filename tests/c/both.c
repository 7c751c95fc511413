/* InterBase's macros and this library's names in one file: BEFORE says in which order. tools/callers compiles it in both, as C and as C++,
 * with CODES, a file that it makes: a line SAME(STORE, store) for each code of greenblr.h. */
#ifdef BEFORE
#include <blr.h>
#include <greenblr.h>
#else
#include <greenblr.h>
#include <blr.h>
#endif
#include <stdio.h>

/* Does not compile where the two numbers differ. */
#define SAME(here, there) typedef char same_##there[GREENBLR_CODE_##here == blr_##there ? 1 : -1];
#include CODES

/* A request in InterBase's macros, and one in this library's names. */
static const uint8_t theirs[] = {blr_version4, blr_begin, blr_end, blr_eoc};
static const uint8_t ours[] = {GREENBLR_CODE_VERSION4, GREENBLR_CODE_BEGIN, GREENBLR_CODE_END, GREENBLR_CODE_EOC};

static uint32_t statements_of(const uint8_t *request, size_t length, size_t answer[3])
{
    static uint32_t statements[GREENBLR_STATEMENT_TABLE], parameters[GREENBLR_PARAMETER_TABLE], contexts[GREENBLR_CONTEXT_TABLE];
    return greenblr_read(request, length, NULL, 0, statements, GREENBLR_STATEMENT_TABLE, parameters, GREENBLR_PARAMETER_TABLE,
                         contexts, GREENBLR_CONTEXT_TABLE, answer);
}

int main(void)
{
    size_t answer[3], other[3];
    uint32_t refusal = statements_of(theirs, sizeof theirs, answer);
    uint32_t of_ours = statements_of(ours, sizeof ours, other);
    if (refusal != GREENBLR_REFUSAL_NONE || of_ours != refusal || answer[0] != 1 || other[0] != 1) {
        printf("refused %lu and %lu\n", (unsigned long)refusal, (unsigned long)of_ours);
        return 1;
    }
    return 0;
}
