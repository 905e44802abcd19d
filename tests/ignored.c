/* A call whose number is not looked at: one of the archive's and one of the header's own. */
#include <taxolbin.h>

void book(uint64_t *words, size_t *count, uint8_t *buffer, size_t *length);

#if TAXOLBIN_CAPACITY_MAX != 67108864
#error "the limits can be compared before compiling"
#endif

#ifdef ON_PURPOSE
#define NOT_LOOKED_AT(call) taxolbin_ignore(call)
#else
#define NOT_LOOKED_AT(call) call
#endif

void book(uint64_t *words, size_t *count, uint8_t *buffer, size_t *length)
{
    const size_t most = TAXOLBIN_CAPACITY_MAX;
    NOT_LOOKED_AT(taxolbin_unset(words, most, count, 3));
    NOT_LOOKED_AT(taxolbin_add_set(buffer, 11, length, 3));
}
