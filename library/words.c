/* What the library says in words, and its version. These two functions are C; all others are proved. */
#include "helvidrane.h"

#define IN_WORDS(name, number, words) \
    case name:                        \
        return words;

const char *hv_refusal_text(uint64_t number)
{
    switch (number) {
    case HV_ACCEPTED:
        return "accepted";
        HV_REFUSALS(IN_WORDS)
    case HV_SHORT:
        return "the plan has too few numbers";
    default:
        return "a number that this version does not know";
    }
}

const char *hv_version(void)
{
    return HV_VERSION;
}
