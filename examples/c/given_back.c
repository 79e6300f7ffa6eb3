/*
 * Platforms of both kinds on the heap, made, used and freed, and boards that are refused: valgrind sees that each
 * block of memory is given back.
 */
#include <stdio.h>
#include <string.h>

#include "area.h"
#include "scmi.h"

static const char board[] = "board Acme Lab 0x00010000 1\n"
                            "agent ap\n"
                            "domain cpu off san\n"
                            "end\n";

static int use(scmi_platform *platform, uint32_t made)
{
    uint8_t area[SCMI_AREA_BYTES] = { 0 };

    if (made != SCMI_DONE)
        return 0;
    for (unsigned i = 0; i < 100; i++) {
        area_post(area, 0x00004404, 3, (uint32_t[]){ 0, 0, 0 });
        if (scmi_answer(platform, 1, area) != SCMI_DONE)
            return 0;
    }
    scmi_platform_free(platform);
    return platform->at == NULL;
}

int main(void)
{
    scmi_platform platform = { 0 };

    for (unsigned i = 0; i < 3; i++) {
        if (!use(&platform, scmi_platform_new(&platform, (const uint8_t *)board, strlen(board))) ||
            !use(&platform, scmi_platform_new_recorded(&platform, (const uint8_t *)board, strlen(board))))
            return 1;
        if (scmi_platform_new(&platform, (const uint8_t *)board, strlen(board) - 4) == SCMI_DONE)
            return 1;
    }
    scmi_platform_free(&platform);
    return 0;
}
