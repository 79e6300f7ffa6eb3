/*
 * Tables that are refused, each with its number, and nothing changed; boards in blocks of the bytes that are said to be
 * enough; and what tables keep, deny, share, leave out and free, beside the same board without it.
 */
#include <stdarg.h>
#include <stdio.h>
#include <string.h>

#include "area.h"
#include "scmi_memory.h"

enum { AGENTS = 9, ROWS = 33, LONG = 65 };

/* A valid board, which each case changes in one place. */
static scmi_board_agent agents[AGENTS];
static scmi_board_domain domains[ROWS];
static scmi_board_clock clocks[ROWS];
static uint64_t rates[ROWS * 64];
static scmi_board_device devices[ROWS];
static scmi_board board;
static uint8_t block[SCMI_PLATFORM_BYTES(AGENTS, ROWS, ROWS, ROWS * 64, ROWS)];

/* A name as long as one may be. */
static void name(char *of, char kind, size_t number)
{
    memset(of, 'n', SCMI_NAME_ROOM - 1);
    of[SCMI_NAME_ROOM - 1] = 0;
    of[0] = kind;
    of[1] = (char)('A' + number);
}

/* So many rows of each kind; `list` rates a clock, or steps where it is 0. */
static void fill(size_t agent_count, size_t others, uint32_t list)
{
    size_t i;

    memset(&board, 0, sizeof(board));
    memset(agents, 0, sizeof(agents));
    memset(domains, 0, sizeof(domains));
    memset(clocks, 0, sizeof(clocks));
    memset(devices, 0, sizeof(devices));
    name(board.heading.vendor, 'v', 0);
    name(board.heading.sub_vendor, 's', 0);
    board.heading.trusted = 1;
    for (i = 0; i < agent_count; i++)
        name(agents[i].name, 'a', i);
    for (i = 0; i < others; i++) {
        name(domains[i].name, 'd', i);
        name(clocks[i].name, 'c', i);
        clocks[i].rate = clocks[i].low = clocks[i].high = clocks[i].step = 1;
        clocks[i].first = (uint32_t)i * list;
        clocks[i].count = list;
    }
    for (i = 0; i < others * list; i++)
        rates[i] = 1 + i % list;
    board.agents = agents, board.agent_count = agent_count;
    board.domains = domains, board.domain_count = others;
    board.clocks = clocks, board.clock_count = others;
    board.rates = rates, board.rate_count = others * list;
    board.devices = devices, board.device_count = others;
}

static uint32_t make(size_t bytes)
{
    scmi_platform platform = { 0 };
    uint32_t given = scmi_platform_new_of_in(&platform, block, bytes, &board);

    if ((given == SCMI_DONE) != (platform.at != NULL))
        printf("the handle was changed: ");
    scmi_platform_free(&platform);
    return given;
}

/* A case: what it says, and the number that is due. */
static void is(const char *says, uint32_t due)
{
    uint32_t given = make(sizeof(block));

    printf("%s: %u%s\n", says, (unsigned)given, given == due ? "" : ", which is another");
}

static void unended(char *of)
{
    memset(of, 'x', SCMI_NAME_ROOM);
}

/* So many ids of protocols. */
static void ids(int count, ...)
{
    va_list given;
    int i;

    va_start(given, count);
    for (i = 0; i < count; i++)
        board.heading.protocols[i] = (uint8_t)va_arg(given, int);
    va_end(given);
}

static void malformed(void)
{
    fill(1, 2, 3), unended(board.heading.vendor), is("a vendor without its zero", SCMI_TABLE);
    fill(1, 2, 3), unended(board.heading.sub_vendor), is("a sub-vendor", SCMI_TABLE);
    fill(2, 2, 3), unended(agents[1].name), is("an agent", SCMI_TABLE);
    fill(1, 2, 3), unended(domains[1].name), is("a domain", SCMI_TABLE);
    fill(1, 2, 3), unended(clocks[1].name), is("a clock", SCMI_TABLE);
    fill(1, 2, 3), domains[0].name[1] = (char)0x80, is("a byte that is not ASCII", SCMI_TABLE);
    fill(1, 2, 3), board.heading.vendor[2] = 0, is("a vendor with bytes behind its zero", SCMI_TABLE);
    fill(1, 2, 3), board.heading.sub_vendor[13] = 0, is("a sub-vendor with one", SCMI_TABLE);
    fill(2, 2, 3), agents[1].name[2] = 0, is("an agent with bytes behind its zero", SCMI_TABLE);
    fill(1, 2, 3), memset(domains[0].name + 1, 0, 14), domains[0].name[15] = 'x';
    is("a domain with one in the last place", SCMI_TABLE);
    fill(1, 2, 3), clocks[1].name[2] = 0, is("a clock with bytes behind its zero", SCMI_TABLE);
    fill(1, 2, 3), clocks[1].name[0] = 0, is("no byte before the zero, and bytes behind it", SCMI_TABLE);
    fill(1, 2, 3), memset(clocks[1].name + 3, 0, 13), is("zeros behind the name", SCMI_DONE);
    fill(1, 2, 3), clocks[1].first = 4, is("a list that ends a rate behind the table", SCMI_TABLE);
    fill(1, 2, 3), clocks[1].first = 0xffffffff, is("a list that begins at the last number", SCMI_TABLE);
    fill(1, 2, 3), clocks[1].count = 0xffffffff, is("a list as long as the last number", SCMI_TABLE);
    fill(1, 2, 0), clocks[1].count = 1, is("a list where there is no table", SCMI_TABLE);
    fill(1, 2, 3), agents[0].bytes = 56, is("areas of 7 words", SCMI_TABLE);
    fill(1, 2, 3), agents[0].bytes = 288, is("areas of 65 words", SCMI_TABLE);
    fill(1, 2, 3), agents[0].bytes = 62, is("areas of half a word more", SCMI_TABLE);
    fill(1, 2, 3), agents[0].pending = 9, is("nine of the pending sets", SCMI_TABLE);
    fill(1, 2, 3), agents[0].pending = 8, is("all eight", SCMI_DONE);
    fill(1, 2, 3), agents[0].denied = 4, is("device 2 of 0 and 1 denied", SCMI_TABLE);
    fill(1, 2, 3), agents[0].denied_power = 4, is("for the power protocol", SCMI_TABLE);
    fill(1, 2, 3), agents[0].denied_clocks = 4, is("for the clock protocol", SCMI_TABLE);
    fill(1, 0, 0), agents[0].denied = 1, is("device 0 where there is none", SCMI_TABLE);
    fill(1, ROWS - 1, 1), agents[0].denied = 0xffffffff, is("all of 32 devices", SCMI_DONE);
    fill(1, 2, 3), ids(2, 0x14, 0x11), is("protocols that fall", SCMI_TABLE);
    fill(1, 2, 3), ids(2, 0x11, 0x11), is("a protocol twice", SCMI_TABLE);
    fill(1, 2, 3), ids(2, 0x10, 0x11), is("the base protocol", SCMI_TABLE);
    fill(1, 2, 3), ids(3, 0x11, 0, 0x14), is("a protocol behind a zero", SCMI_TABLE);
    fill(1, 2, 3), ids(3, 0x11, 0x14, 0xff), is("protocols that rise", SCMI_DONE);
    fill(AGENTS, 2, 3), agents[8].bytes = 1, is("before any rule", SCMI_TABLE);
}

static void invalid(void)
{
    fill(0, 2, 3), is("no agent", SCMI_RULE + 1);
    fill(AGENTS, 2, 3), is("nine agents", SCMI_RULE + 1);
    fill(1, ROWS, 1), is("33 domains, clocks and devices", SCMI_RULE + 1);
    fill(1, 2, 3), memset(agents[0].name, 0, 16), is("a name of no byte", SCMI_RULE + 2);
    fill(1, 2, 3), domains[1].name[0] = ' ', is("a name with a space", SCMI_RULE + 2);
    fill(1, 2, 3), rates[1] = rates[0], is("rates that do not rise", SCMI_RULE + 3);
    fill(1, 2, 0), clocks[0].step = 0, is("steps of 0", SCMI_RULE + 3);
    fill(1, 2, 0), clocks[0].rate = 2, is("a start beside the steps", SCMI_RULE + 3);
    fill(1, 1, LONG), is("65 rates", SCMI_RULE + 3);
    fill(1, 2, 3), devices[1].clocks = 4, is("a device with clock 2 of 0 and 1", SCMI_RULE + 4);
    fill(1, 2, 3), board.heading.trusted = 2, is("agent 2 of 1 trusted", SCMI_RULE + 5);
}

/* A board that says that it is loose. */
static void fill_loose(uint32_t list)
{
    fill(1, 2, list);
    board.heading.loose = 1;
}

static void loose(void)
{
    fill_loose(3), memset(board.heading.sub_vendor, 0, 16), is("loose, a name of no byte", SCMI_DONE);
    fill_loose(3), domains[1].name[0] = ' ', is("a name with a space", SCMI_DONE);
    fill_loose(3), domains[1].name[0] = 0x7f, is("a name with a byte that has no sign", SCMI_RULE + 2);
    fill_loose(0), clocks[0].rate = 2, is("a start beside the steps", SCMI_DONE);
    fill_loose(3), rates[1] = rates[0], is("rates that do not rise", SCMI_RULE + 3);
}

/* What an agent's channels are. */
static void channel(const char *says, uint32_t bytes, uint32_t one_way)
{
    scmi_platform platform = { 0 };
    scmi_channel_numbers numbers = { 0, 0 };

    fill(2, 1, 0), agents[1].bytes = bytes, agents[1].one_way = one_way;
    scmi_platform_new_of_in(&platform, block, sizeof(block), &board);
    printf("%s %u", says, (unsigned)scmi_channel(&platform, 2, &numbers));
    printf(": %u bytes, one way %u\n", (unsigned)numbers.bytes, (unsigned)numbers.one_way);
    scmi_platform_free(&platform);
}

enum { ON = 0, OFF = 0x40000000 };
/* Headers of the base, the power and the clock protocol. */
enum { BASE = 0x4001, LIST = 0x4006, SET_PROTOCOL = 0x400a, RESET = 0x400b };
enum { DOMAIN = 0x4403, SET_STATE = 0x4404, GET_STATE = 0x4405, NOTIFY = 0x4406 };
enum { ATTRIBUTES = 0x5001, CLOCK = 0x5003, RATES = 0x5004, SET_RATE = 0x5005, GET_RATE = 0x5006, CONFIG = 0x5007 };
/* Of a protocol of the firmware. */
enum { FIRMWARE = 0x20001 };

/* Agent 0 is for the first pending set, which completes. */
struct command {
    uint32_t agent, header;
    unsigned count;
    uint32_t words[4];
};

/* Of device 0, which has domain 1 and clock 1, agent 2 is denied the clocks, agent 3 the power, and agent 4 all. */
static const struct command of_agents[] = {
    { 1, SET_STATE, 3, { 0, 0, OFF } },      /* domain 0 is kept, and agent 1 the trusted one */
    { 1, SET_STATE, 3, { 0, 0, ON } },
    { 2, SET_STATE, 3, { 0, 1, OFF } },
    { 1, CONFIG, 2, { 0, 0 } },              /* clock 0 is kept */
    { 1, CONFIG, 2, { 0, 1 } },
    { 2, SET_RATE, 4, { 0, 0, 2, 0 } },
    { 2, CONFIG, 2, { 1, 0 } },
    { 2, SET_RATE, 4, { 0, 1, 2, 0 } },
    { 3, SET_STATE, 3, { 0, 1, OFF } },
    { 3, CONFIG, 2, { 1, 0 } },
    { 4, SET_STATE, 3, { 0, 1, OFF } },
    { 4, CONFIG, 2, { 1, 0 } },
    { 1, ATTRIBUTES, 0, { 0 } },
    { 2, ATTRIBUTES, 0, { 0 } },             /* one pending set may be agent 2's */
    { 2, SET_STATE, 3, { 1, 1, ON } },       /* later */
    { 2, SET_STATE, 3, { 1, 0, ON } },       /* its second */
    { 1, SET_STATE, 3, { 1, 0, ON } },
    { 0, 0, 0, { 0 } },
    { 2, SET_STATE, 3, { 1, 1, OFF } },
    { 1, SET_PROTOCOL, 4, { 2, 0, 0x14, 1 } }, /* agent 2 is allowed the clocks of device 0 */
    { 2, CONFIG, 2, { 1, 1 } },
    { 1, RESET, 2, { 2, 1 } },               /* .. and is denied them again */
    { 2, CONFIG, 2, { 1, 0 } },
    { 1, SET_STATE, 3, { 1, 0, OFF } }       /* kept, and pending */
};

/* Domain 0 and clock 0 are not there, and clock 1 is free. */
static const struct command of_numbers[] = {
    { 1, DOMAIN, 1, { 0 } },
    { 1, GET_STATE, 1, { 0 } },
    { 1, SET_STATE, 3, { 0, 0, OFF } },
    { 1, NOTIFY, 2, { 0, 1 } },
    { 1, SET_STATE, 3, { 0, 1, OFF } },
    { 1, CLOCK, 1, { 0 } },
    { 1, RATES, 2, { 0, 0 } },
    { 1, SET_RATE, 4, { 0, 0, 2, 0 } },
    { 1, GET_RATE, 1, { 0 } },
    { 1, CONFIG, 2, { 0, 1 } },
    { 1, ATTRIBUTES, 0, { 0 } },             /* their numbers stay */
    { 1, SET_RATE, 4, { 0, 1, 1000, 5 } },
    { 1, GET_RATE, 1, { 1 } },
    { 1, SET_RATE, 4, { 0x10, 1, 2, 0 } },   /* flags are looked at all the same */
    { 1, RATES, 2, { 1, 0 } }
};

/* The board has power domains, and protocols of its firmware from 0x80 on, and no clocks. */
static const struct command of_protocols[] = {
    { 1, BASE, 0, { 0 } },
    { 1, LIST, 1, { 0 } },
    { 1, LIST, 1, { 1 } },
    { 1, LIST, 1, { 6 } },
    { 1, LIST, 1, { 7 } },
    { 1, GET_STATE, 1, { 1 } },
    { 1, GET_RATE, 1, { 1 } },
    { 1, GET_RATE, 0, { 0 } },               /* before its words */
    { 1, FIRMWARE, 1, { 7 } },
    { 1, SET_PROTOCOL, 4, { 2, 0, 0x14, 0 } },
    { 1, SET_PROTOCOL, 4, { 2, 0, 0x80, 0 } },
    { 1, SET_PROTOCOL, 4, { 2, 0, 0x11, 0 } }
};

static void fill_said(void)
{
    fill(4, 2, 3);
    domains[0].on = domains[0].synchronous = domains[0].asynchronous = 1;
    domains[1].on = domains[1].synchronous = domains[1].asynchronous = 1;
    clocks[0].enabled = clocks[1].enabled = 1;
    devices[0].domains = devices[0].clocks = 1 << 1;
}

/* Gives the commands to a platform of the board. */
static void answer(const char *says, const struct command *commands, size_t count)
{
    scmi_platform platform = { 0 };
    size_t i;

    printf("%s: %u\n", says, (unsigned)scmi_platform_new_of_in(&platform, block, sizeof(block), &board));
    for (i = 0; i < count; i++)
        if (commands[i].agent == 0)
            printf("advance %u\n", (unsigned)scmi_advance(&platform));
        else
            area_answer(&platform, commands[i].agent, commands[i].header, commands[i].count, commands[i].words);
    scmi_platform_free(&platform);
}

static void said(void)
{
    fill_said();
    domains[0].kept = clocks[0].kept = 1;
    agents[1].pending = agents[1].denied_clocks = 1;
    agents[2].denied_power = 1;
    agents[3].denied = 1;
    answer("kept, denied and shared", of_agents, sizeof(of_agents) / sizeof(*of_agents));
    fill_said();
    answer("without it", of_agents, sizeof(of_agents) / sizeof(*of_agents));
    fill_said();
    domains[0].absent = clocks[0].absent = clocks[1].free = 1;
    answer("left out and freed", of_numbers, sizeof(of_numbers) / sizeof(*of_numbers));
    fill_said();
    answer("without it", of_numbers, sizeof(of_numbers) / sizeof(*of_numbers));
    fill_said(), ids(6, 0x11, 0x80, 0x81, 0x82, 0x83, 0x84);
    answer("of these protocols", of_protocols, sizeof(of_protocols) / sizeof(*of_protocols));
}

/* A board in as many bytes as are said to be enough, and in a block of none. */
static void sized(const char *says)
{
    printf("%s %u", says, (unsigned)make(scmi_platform_bytes(&board)));
    printf(", in no block %u\n", (unsigned)make(0));
}

int main(void)
{
    if (!scmi_header_fits())
        return printf("scmi.h is not the library's\n"), 1;
    malformed();
    invalid();
    loose();
    channel("whole", 0, 0);
    channel("whole and one-way", 0, 7);
    channel("the smallest", 60, 0);
    channel("of 32 words", 156, 1);
    said();
    fill(1, 0, 0), sized("an agent alone");
    fill(1, 1, 3), sized("a domain, a clock and a device");
    fill(8, 32, 0), sized("the largest with steps");
    fill(8, 32, 64), sized("the largest");
    return 0;
}
