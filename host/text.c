/* What each code says; tools/check-codes compares it with the header and with the codes of the proved library. */
#include "pilot.h"

static const char *const texts[] = {
    "ok",
    "syntax",
    "space",
    "file",
    "size",
    "full",
    "spaces",
    "gap",
    "range",
    "children",
    "mapped",
    "window",
    "immutable",
    "notmapped",
    "nomap",
    "readonly",
    "filemapped",
    "root",
    "ids",
    "there is no further file",
    "the disk failed",
    "the volume is damaged",
    "the disk has no volume",
    "the volume was not closed",
    "the volume has another version",
    "no volume has so many sectors",
    "there is no memory left",
    "there is no session",
    "there is a session already",
    "the call does not take such a number",
    "the file can't be had",
    "the file is in use",
};

const char *pilot_text(int code)
{
    return code >= 0 && code < (int)(sizeof texts / sizeof *texts) ? texts[code] : "no code";
}

const char *pilot_version(void)
{
    return "pilot 1";
}
