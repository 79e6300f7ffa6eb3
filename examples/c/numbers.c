/* Writes, from the library's own numbers, a file in C that compiles only with a header that has them. */
#include <stdio.h>

#include "scmi.h"

#define FITS(name, number) printf("_Static_assert(%s == %u, \"%s\");\n", name, (unsigned)(number), name)

int main(void)
{
    scmi_library of;

    scmi_numbers(&of);
    printf("#include \"scmi.h\"\n");
    FITS("SCMI_AREA_BYTES", of.area_bytes);
    FITS("SCMI_PAYLOAD_WORDS", of.payload_words);
    FITS("SCMI_DONE", of.done);
    FITS("SCMI_NOTHING", of.nothing);
    FITS("SCMI_MEMORY", of.memory);
    FITS("SCMI_NO_AGENT", of.no_agent);
    FITS("SCMI_NOT_FREE", of.not_free);
    FITS("SCMI_NO_PLATFORM", of.no_platform);
    FITS("SCMI_IN_USE", of.in_use);
    FITS("SCMI_NO_HISTORY", of.no_history);
    FITS("SCMI_NO_FRAME", of.no_frame);
    FITS("SCMI_WRONG_SIZE", of.wrong_size);
    FITS("SCMI_NO_RESOURCE", of.no_resource);
    FITS("SCMI_ASKED", of.asked);
    FITS("SCMI_EFFECT", of.effect);
    FITS("SCMI_TABLE", of.table);
    FITS("SCMI_WRONG_STATUS", of.wrong_status);
    FITS("SCMI_RULE", of.rule);
    FITS("SCMI_NO_STATE", of.no_state);
    FITS("SCMI_NO_RATE", of.no_rate);
    FITS("SCMI_OTHER", of.other);
    FITS("SCMI_LINE", of.line);
    FITS("SCMI_EFFECT_STATE", of.effect_state);
    FITS("SCMI_EFFECT_RATE", of.effect_rate);
    FITS("SCMI_EFFECT_ENABLED", of.effect_enabled);
    return 0;
}
