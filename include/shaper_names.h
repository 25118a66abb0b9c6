/* The modes by name, for panels and for whatever prints a patch: the names of docs/MODES.md, "Off" to "RmFilter2". */
#ifndef SHAPER_NAMES_H
#define SHAPER_NAMES_H

#include "shaper.h"

#ifdef __cplusplus
extern "C" {
#endif

/* By a mode's number. */
static const char *const shaper_mode_names[SHAPER_MODES] = {
    "Off",
    "Sync", "PinchIn", "PinchOut", "Pinch", "PulseWidth", "LeanRight", "LeanLeft", "Lean", "Flip", "Mirror",
    "RemapDrawn", "RemapMirrored", "RemapSine", "RemapQuad", "Quantise", "OddEven",
    "LowPass", "HighPass",
    "Valve", "SoftClip", "HardClip", "Diode1", "Diode2", "Fold", "SineFold", "ZeroSquare", "Asymmetric", "Rectify",
    "SineShaper", "Pedal", "Tape", "SoftSaturate",
    "Fm1", "Fm2", "FmNoise", "FmSub", "FmFilter1", "FmFilter2",
    "FmExp1", "FmExp2", "FmExpNoise", "FmExpSub", "FmExpFilter1", "FmExpFilter2",
    "FmLin1", "FmLin2", "FmLinNoise", "FmLinSub", "FmLinFilter1", "FmLinFilter2",
    "Pd1", "Pd2", "PdNoise", "PdSub", "PdFilter1", "PdFilter2", "PdSelf",
    "Am1", "Am2", "AmNoise", "AmSub", "AmFilter1", "AmFilter2",
    "Rm1", "Rm2", "RmNoise", "RmSub", "RmFilter1", "RmFilter2"};

/* A mode's name, or NULL for a number above 69. */
static inline const char *shaper_mode_name(uint32_t mode)
{
    return mode < SHAPER_MODES ? shaper_mode_names[mode] : NULL;
}

/* Whether two names are alike, the case of the letters A to Z aside; the locale has no part in it. */
static inline int shaper_same_name(const char *a, const char *b)
{
    for (;; a++, b++) {
        const int x = *a >= 'A' && *a <= 'Z' ? *a - 'A' + 'a' : *a;
        const int y = *b >= 'A' && *b <= 'Z' ? *b - 'A' + 'a' : *b;
        if (x != y)
            return 0;
        if (x == '\0')
            return 1;
    }
}

/* The mode of a whole name, which is not NULL, in capitals or not (no two names differ by that alone); where no mode
 * has it, SHAPER_MODES, which every call that takes a mode turns down. */
static inline uint32_t shaper_mode_of(const char *name)
{
    uint32_t mode = 0;
    while (mode < SHAPER_MODES && !shaper_same_name(name, shaper_mode_names[mode]))
        mode += 1;
    return mode;
}

#ifdef __cplusplus
}
#endif

#endif
