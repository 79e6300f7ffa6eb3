/* Texts of boards that are rejected, each with its number, and what may follow a board. */
#include <stdio.h>
#include <string.h>

#include "scmi_memory.h"

#define BOARD "board Acme Lab 1 1\nagent ap\nagent modem\nchannel 1 60\nend\n"

static uint8_t memory[16 * 1024];

/* A case: what it says, its bytes, and the number that is due. */
static void is_of(const char *says, const char *text, size_t length, uint32_t due)
{
    scmi_platform platform = { 0 };
    uint32_t given = scmi_platform_new_in(&platform, memory, sizeof(memory), (const uint8_t *)text, length);

    printf("%s: %u%s\n", says, (unsigned)given, given == due ? "" : ", which is another");
    if ((given == SCMI_DONE) != (platform.at != NULL))
        printf("the handle was changed\n");
    scmi_platform_free(&platform);
}

static void is(const char *says, const char *text, uint32_t due)
{
    is_of(says, text, strlen(text), due);
}

int main(void)
{
    scmi_platform platform = { 0 };

    if (!scmi_header_fits())
        return printf("scmi.h is not the library's\n"), 1;
    is("a board", BOARD, SCMI_DONE);
    is("comments and empty lines behind it", BOARD "\n# channel 2 60\n\n#", SCMI_DONE);
    is("a line for channels behind it", BOARD "channel 2 60\n", SCMI_LINE + 6);
    is("a row behind it, without a line feed", BOARD "\n# a row\nagent gpu", SCMI_LINE + 8);
    is("a second end", BOARD "end\n", SCMI_LINE + 6);
    is("a second board", BOARD BOARD, SCMI_LINE + 6);
    is("a line of a space", BOARD " \n", SCMI_LINE + 6);
    is_of("the zero of a string", BOARD, sizeof(BOARD), SCMI_LINE + 6);
    is("before a rule that the board breaks", "board Acme Lab 1 9\nagent ap\nend\nx\n", SCMI_LINE + 4);
    is("a rule", "board Acme Lab 1 9\nagent ap\nend\n", SCMI_RULE + 5);
    is("no end", "board Acme Lab 1 1\nagent ap\n", SCMI_LINE + 2);
    is("no line", "", SCMI_LINE);
    printf("with its history: %u\n", (unsigned)scmi_platform_new_recorded(&platform, (const uint8_t *)BOARD "x", sizeof(BOARD)));
    return 0;
}
