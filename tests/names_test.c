/* The modes' names (shaper_names.h). Prints how many checks pass, "P of T"; with the word `modes`, the modes. */
#include "check.h"
#include "shaper_names.h"

#include <ctype.h>

/* In the form of the oracle's `constants`. */
static void print_modes(void)
{
    for (uint32_t mode = 0; mode < SHAPER_MODES; mode++)
        printf("mode %" PRIu32 " %s\n", mode, shaper_mode_name(mode));
}

/* As it is, in capitals and without them; not with a letter more or less. */
static void check_name(uint32_t mode)
{
    const char *name = shaper_mode_name(mode);
    char upper[32] = "", lower[32] = "", longer[32];
    check(name != NULL && name == shaper_mode_names[mode] && strlen(name) > 2 && strlen(name) < 31, "a name");
    for (size_t i = 0; name[i] != '\0'; i++) {
        upper[i] = (char)toupper((unsigned char)name[i]);
        lower[i] = (char)tolower((unsigned char)name[i]);
    }
    check(shaper_mode_of(name) == mode && shaper_mode_of(upper) == mode && shaper_mode_of(lower) == mode,
        "the mode of a name");
    snprintf(longer, sizeof longer, "%s ", name);
    check(shaper_mode_of(longer) == SHAPER_MODES, "a name and a blank");
    lower[strlen(lower) - 1] = '_';
    check(shaper_mode_of(lower) == SHAPER_MODES, "a name that ends otherwise");
}

static void check_others(void)
{
    static const char *const others[] = {"", " ", "0", "70", "O", "Of", "offf", "Low-pass", "Low pass", "SHAPER_OFF",
        "Fm", "Fm3", "RmFilter3", "[ff", "\xd6" "ff"};
    for (unsigned i = 0; i < sizeof others / sizeof *others; i++)
        check(shaper_mode_of(others[i]) == SHAPER_MODES, "no mode's name");
    check(shaper_mode_name(SHAPER_MODES) == NULL && shaper_mode_name(UINT32_MAX) == NULL, "no mode's number");
    check(shaper_mode_of("Off") == SHAPER_OFF && shaper_mode_of("pinchin") == SHAPER_PINCH_IN
            && shaper_mode_of("Pinch") == SHAPER_PINCH && shaper_mode_of("FM1") == SHAPER_FM1
            && shaper_mode_of("RmFilter2") == SHAPER_RM_FILTER2,
        "some modes' names");
}

int main(int argc, char **argv)
{
    if (argc == 2 && strcmp(argv[1], "modes") == 0) {
        print_modes();
        return 0;
    }
    for (uint32_t mode = 0; mode < SHAPER_MODES; mode++)
        check_name(mode);
    check_others();
    return finish();
}
