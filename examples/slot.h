/* A slot by three words of a command line, for panel.c and trace.c. */
#ifndef SLOT_H
#define SLOT_H

#include "words.h"

/* A slot as its knobs stand. */
struct slot {
    uint32_t mode;
    float amount, character;
};

/* A number from 0 to `most`. Whether the word is one. */
static int take_number(const char *word, float most, float *number)
{
    return take_float(word, number) && *number >= 0.0f && *number <= most;
}

/* Mode, amount in percent and character. The first word that is not what belongs there, or NULL. */
static const char *take_slot(char **words, struct slot *slot)
{
    if (!take_mode(words[0], &slot->mode))
        return words[0];
    if (!take_number(words[1], 100.0f, &slot->amount))
        return words[1];
    return take_number(words[2], 1.0f, &slot->character) ? NULL : words[2];
}

#endif
