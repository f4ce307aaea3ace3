// The two calls of the archive that are not written in Rattle: the text of a status, and the version
// of the library. archive.sh builds the archive. This file is plain C, and nothing in it is proved.

#include "cesu8.h"

const char *cesu8_status_text(uint32_t status)
{
    // If Rattle or cesu8_cli has an error for the status, its words are the same.
    switch (status) {
    case CESU8_OK:
        return "ok";
    case CESU8_NOT_UTF8:
        return "input is not UTF-8";
    case CESU8_INVALID:
        return "invalid input";
    case CESU8_TRUNCATED:
        return "input is truncated";
    case CESU8_TOO_LONG:
        return "text is too long";
    case CESU8_TOO_SMALL:
        return "buffer too short";
    case CESU8_INCOMPLETE:
        return "input ends within a character";
    case CESU8_FULL:
        return "buffer is full";
    default:
        return "unknown status";
    }
}

uint32_t cesu8_version(void)
{
    return CESU8_VERSION;
}
