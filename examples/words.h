/* Words of a command line, for panel.c, patch.c, trace.c and level.c. */
#ifndef WORDS_H
#define WORDS_H

#include "shaper_names.h"

#include <stdlib.h>
#include <string.h>

/* A whole number; one that is too large is the largest. Whether the word is one. */
static int take_whole(const char *word, uint32_t *number)
{
    const unsigned long value = strtoul(word, NULL, 10);
    *number = value < UINT32_MAX ? (uint32_t)value : UINT32_MAX;
    return *word != '\0' && word[strspn(word, "0123456789")] == '\0';
}

/* Any number; one that is too large is infinite. Whether the word is one. */
static inline int take_float(const char *word, float *number)
{
    char *end;
    *number = strtof(word, &end);
    return end != word && *end == '\0';
}

/* A mode by its name or a whole number; which numbers are modes, the library says. Whether the word is either. */
static int take_mode(const char *word, uint32_t *mode)
{
    *mode = shaper_mode_of(word);
    return *mode < SHAPER_MODES || take_whole(word, mode);
}

#endif
