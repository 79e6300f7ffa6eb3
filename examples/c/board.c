/*
 * A board as data: the platform of examples/phone.board from its tables, which `scmi table` has made of that text, in a
 * block whose size is a constant. With a word it is made of the text in the file of that name: what is written is the same.
 */
#include <stdio.h>

#include "area.h"
#include "phone_board.c"
#include "scmi_memory.h"

static uint8_t memory[SCMI_PLATFORM_BYTES(2, 2, 2, 3, 1)], more[64 * 1024];

static uint32_t make(scmi_platform *platform, const char *path)
{
    static uint8_t text[1024];
    FILE *file;
    size_t length;

    if (!path)
        return scmi_platform_new_of_in(platform, memory, sizeof(memory), &board);
    file = fopen(path, "r");
    if (!file)
        return 1;
    length = fread(text, 1, sizeof(text), file);
    fclose(file);
    return scmi_platform_new_in(platform, more, sizeof(more), text, length);
}

/* A command that changes the hardware, which makes the change. */
static void drive(scmi_platform *platform, uint32_t agent, uint32_t header, unsigned count, const uint32_t *words)
{
    uint8_t area[SCMI_AREA_BYTES] = { 0 };
    scmi_effect effect = { 0 };
    uint32_t asked;

    area_post(area, header, count, words);
    asked = scmi_ask(platform, agent, area, &effect);
    printf("agent %u header 0x%08x -> %u: kind %u of %u to %u, commit %u, words", (unsigned)agent, (unsigned)header,
           (unsigned)asked, (unsigned)effect.kind, (unsigned)effect.id, (unsigned)effect.low,
           (unsigned)scmi_commit(platform, area));
    area_print_words(area);
}

static void tell(scmi_platform *platform, uint32_t agent)
{
    uint8_t area[SCMI_AREA_BYTES] = { 0 };

    area_set_word(area, SCMI_AREA_STATUS, STATUS_FREE);
    while (scmi_next(platform, agent, area) == SCMI_DONE) {
        printf("to agent %u: header 0x%08x, sent %u, words", (unsigned)agent,
               (unsigned)area_word(area, SCMI_AREA_HEADER), (unsigned)scmi_sent(platform, agent));
        area_print_words(area);
        area_set_word(area, SCMI_AREA_STATUS, STATUS_FREE);
    }
}

int main(int count, char **words)
{
    scmi_platform platform = { 0 };
    uint64_t events = 0;
    size_t requests;

    if (!scmi_header_fits())
        return printf("scmi.h is not the library's\n"), 1;
    printf("new %u", (unsigned)make(&platform, count > 1 ? words[1] : NULL));
    printf(", again %u\n", (unsigned)scmi_platform_new_of(&platform, &board));
    requests = scmi_memory_requests();
    area_answer(&platform, 1, 0x00004003, 0, NULL);                               /* BASE_DISCOVER_VENDOR */
    area_answer(&platform, 1, 0x00004004, 0, NULL);                               /* .. and its SUB_VENDOR */
    area_answer(&platform, 1, 0x00004007, 1, (uint32_t[]){ 2 });                  /* BASE_DISCOVER_AGENT */
    area_answer(&platform, 1, 0x00004403, 1, (uint32_t[]){ 0 });                  /* POWER_DOMAIN_ATTRIBUTES of cpu */
    area_answer(&platform, 1, 0x00004403, 1, (uint32_t[]){ 1 });                  /* .. and of gpu */
    area_answer(&platform, 2, 0x00005003, 1, (uint32_t[]){ 0 });                  /* CLOCK_ATTRIBUTES of uart */
    area_answer(&platform, 2, 0x00005004, 2, (uint32_t[]){ 0, 0 });               /* CLOCK_DESCRIBE_RATES */
    area_answer(&platform, 2, 0x00005004, 2, (uint32_t[]){ 1, 0 });               /* .. of bus, which has steps */
    area_answer(&platform, 2, 0x00004406, 2, (uint32_t[]){ 0, 1 });               /* POWER_STATE_NOTIFY */
    area_answer(&platform, 1, 0x00004009, 3, (uint32_t[]){ 2, 0, 0 });            /* the device is denied to agent 2 */
    area_answer(&platform, 2, 0x00004404, 3, (uint32_t[]){ 0, 0, 0x40000000 });   /* POWER_STATE_SET: DENIED */
    drive(&platform, 1, 0x00004404, 3, (uint32_t[]){ 0, 0, 0x40000000 });  /* POWER_STATE_SET, cpu off */
    drive(&platform, 2, 0x00005005, 4, (uint32_t[]){ 0, 1, 2500, 0 });     /* CLOCK_RATE_SET, rounded down */
    area_answer(&platform, 1, 0x00005005, 4, (uint32_t[]){ 1, 0, 400, 0 });       /* .. and later */
    printf("advance %u", (unsigned)scmi_advance(&platform));
    printf(", then %u\n", (unsigned)scmi_advance(&platform));
    tell(&platform, 1);
    tell(&platform, 2);
    printf("history %u, memory %s\n", (unsigned)scmi_history_length(&platform, &events),
           scmi_memory_requests() == requests ? "not asked for" : "asked for");
    scmi_platform_free(&platform);
    return 0;
}
