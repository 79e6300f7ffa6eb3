/*
 * The board by TF-A's hooks, plat_scmi_*, under their own names. What the hooks give and the library has not is said by
 * name, once, and then answered as the standard says. README.md says what each warning means.
 */
#include <stdbool.h>
#include <string.h>

#include <cdefs.h>
#include <common/debug.h>
#include <drivers/scmi.h>
#include <lib/cassert.h>

#include "scmi_hooks.h"
#include "scmi_service_board.h"

/* The library's limits, of an agent and of a clock. */
enum { MOST_DOMAINS = 32, MOST_CLOCKS = 32, MOST_RATES = 64 };
/* How many rates TF-A's own server asks of a hook at a time. */
enum { RATES_AT_A_TIME = 10 };
/* Power states, as the standard has them. */
enum { STATE_ON = 0, STATE_OFF = 0x40000000 };
/* The messages whose answer has a value of the hardware, by their protocol, type and number. */
enum { POWER_STATE_GET = 0x04405, CLOCK_ATTRIBUTES = 0x05003, CLOCK_RATE_GET = 0x05006, WHICH_MESSAGE = 0x3ffff };
/* A table has a row at least. */
#define ROWS(count) ((count) > 0 ? (count) : 1)

CASSERT(!SCMI_PORT_SHARED, scmi_port_hooks_have_a_platform_for_each_agent);
CASSERT(SCMI_PORT_DOMAINS <= MOST_DOMAINS, scmi_port_domains_at_most_32);
CASSERT(SCMI_PORT_CLOCKS <= MOST_CLOCKS, scmi_port_clocks_at_most_32);

/* The tables of the board that is made. */
static struct {
    scmi_board_agent agents[SCMI_SERVICE_FIRMWARE];
    scmi_board_domain domains[ROWS(SCMI_PORT_DOMAINS)];
    scmi_board_clock clocks[ROWS(SCMI_PORT_CLOCKS)];
    uint64_t rates[ROWS(SCMI_PORT_RATES)];
} tables;
static scmi_board board;

/* A name as the library takes it on a loose board: up to 15 bytes, each of which can be printed. */
static void give_name(char to[SCMI_NAME_ROOM], const char *what, const char *name)
{
    size_t i;

    memset(to, 0, SCMI_NAME_ROOM);
    for (i = 0; i < SCMI_NAME_ROOM - 1 && name[i] != '\0'; i++)
        to[i] = name[i] >= ' ' && name[i] <= '~' ? name[i] : '_';
    if (strncmp(to, name, SCMI_NAME_ROOM) != 0)
        WARN("SCMI: %s \"%s\" is named \"%s\"\n", what, name, to);
}

/* How many of them are served; the others are said. */
static size_t served(unsigned int agent, const char *what, size_t count, size_t most,
                     const char *(*name_of)(unsigned int, unsigned int))
{
    size_t id;

    for (id = most; id < count; id++) {
        const char *name = name_of(agent, (unsigned int)id);

        if (name != NULL)
            ERROR("SCMI: agent %u: %s %zu, \"%s\", is beyond %zu, and is not found\n", agent, what, id, name, most);
    }
    return count < most ? count : most;
}

static void add_domain(unsigned int agent, uint32_t id)
{
    scmi_board_domain *domain = &tables.domains[id];
    const char *name = plat_scmi_pd_get_name(agent, id);
    unsigned int state;

    domain->synchronous = 1;
    domain->absent = name == NULL;
    give_name(domain->name, "domain", name != NULL ? name : "");
    if (domain->absent)
        return;
    state = plat_scmi_pd_get_state(agent, id);
    domain->on = state == STATE_ON;
    if (state != STATE_ON && state != STATE_OFF)
        WARN("SCMI: domain \"%s\" starts in state 0x%x, which is taken for off\n", domain->name, state);
}

/* Puts a rate into the rows of a clock, which rise. False if there is no room for it. */
static bool put_rate(scmi_board_clock *clock, uint64_t rate)
{
    uint64_t *rates = tables.rates + clock->first;
    uint32_t at = clock->count;

    while (at > 0 && rates[at - 1] > rate)
        at--;
    if (at > 0 && rates[at - 1] == rate)
        return true;
    if (clock->count == MOST_RATES || clock->first + clock->count == SCMI_PORT_RATES)
        return false;
    memmove(rates + at + 1, rates + at, (clock->count - at) * sizeof(*rates));
    rates[at] = rate;
    clock->count++;
    return true;
}

/* All rates of a list. The status is the hook's. */
static int32_t put_list(unsigned int agent, uint32_t id, scmi_board_clock *clock)
{
    unsigned long rates[RATES_AT_A_TIME];
    size_t count = 0, from, some, i, lost = 0;
    int32_t status = plat_scmi_clock_rates_array(agent, id, NULL, &count, 0);

    for (from = 0; status == SCMI_SUCCESS && from < count; from += some) {
        some = count - from < RATES_AT_A_TIME ? count - from : RATES_AT_A_TIME;
        status = plat_scmi_clock_rates_array(agent, id, rates, &some, (uint32_t)from);
        if (status == SCMI_SUCCESS && (some == 0 || some > RATES_AT_A_TIME))
            status = SCMI_GENERIC_ERROR;
        for (i = 0; status == SCMI_SUCCESS && i < some; i++)
            lost += put_rate(clock, rates[i]) ? 0 : 1;
    }
    if (lost != 0)
        ERROR("SCMI: clock \"%s\" has %zu rates more than there is room for\n", clock->name, lost);
    return status;
}

/* Rates by steps: the highest is one that steps reach. */
static int32_t take_steps(unsigned int agent, uint32_t id, scmi_board_clock *clock)
{
    unsigned long steps[3] = { 0 };
    int32_t status = plat_scmi_clock_rates_by_step(agent, id, steps);

    if (status != SCMI_SUCCESS)
        return status;
    if (steps[2] == 0 || steps[0] > steps[1])
        return SCMI_GENERIC_ERROR;
    clock->low = steps[0];
    clock->step = steps[2];
    clock->high = steps[1] - (steps[1] - steps[0]) % steps[2];
    if (clock->high != steps[1])
        WARN("SCMI: clock \"%s\" does not reach %lu Hz in its steps\n", clock->name, steps[1]);
    return SCMI_SUCCESS;
}

/* A clock without rates, or with half of its list, has the one that it is at. False if there is no room for that. */
static bool add_rates(unsigned int agent, uint32_t id, scmi_board_clock *clock)
{
    int32_t status = put_list(agent, id, clock);

    if (status == SCMI_NOT_SUPPORTED && take_steps(agent, id, clock) == SCMI_SUCCESS)
        return true;
    if (status != SCMI_SUCCESS || clock->count == 0) {
        clock->count = 0;
        WARN("SCMI: clock \"%s\" has no rates (%d): %lu Hz is its list\n", clock->name, status,
             (unsigned long)clock->rate);
        return put_rate(clock, clock->rate);
    }
    return true;
}

/*
 * Without a name it is not there, and needs no rates. Of any other the hook rounds, or refuses, and says what came of it.
 * False if there is no room for its rates.
 */
static bool add_clock(unsigned int agent, uint32_t id)
{
    scmi_board_clock *clock = &tables.clocks[id];
    const char *name = plat_scmi_clock_get_name(agent, id);

    clock->first = (uint32_t)board.rate_count;
    clock->absent = name == NULL;
    give_name(clock->name, "clock", name != NULL ? name : "");
    if (clock->absent) {
        clock->step = 1;
        return true;
    }
    clock->free = 1;
    clock->enabled = plat_scmi_clock_get_state(agent, id) == 1;
    clock->rate = plat_scmi_clock_get_rate(agent, id);
    if (!add_rates(agent, id, clock)) {
        ERROR("SCMI: agent %u: SCMI_PORT_RATES, %u, is too small\n", agent, SCMI_PORT_RATES);
        return false;
    }
    board.rate_count += clock->count;
    return true;
}

/* Whether the library has a protocol, or TF-A's own files that the platform keeps. */
static bool has(uint8_t protocol)
{
    return protocol == SCMI_PROTOCOL_ID_POWER_DOMAIN || protocol == SCMI_PROTOCOL_ID_CLOCK || scmi_service_has(protocol);
}

/*
 * The board has those of its hooks' protocols that are served, rising as a board lists them. Agents are answered
 * NOT_SUPPORTED for the others, which are said.
 */
static void add_protocols(unsigned int agent)
{
    const uint8_t *listed = plat_scmi_protocol_list(agent);
    uint8_t *protocols = board.heading.protocols;
    size_t count = 0, at;

    for (; listed != NULL && *listed != 0; listed++) {
        if (*listed == SCMI_PROTOCOL_ID_BASE)
            continue;
        if (!has(*listed) || count == sizeof(board.heading.protocols)) {
            ERROR("SCMI: agent %u: protocol 0x%x is not supported\n", agent, *listed);
            continue;
        }
        for (at = count++; at > 0 && protocols[at - 1] > *listed; at--)
            protocols[at] = protocols[at - 1];
        protocols[at] = *listed;
    }
}

/* An agent with a channel back may set clocks asynchronously; TF-A's interface has none, but the platform may. */
static void add_agents(unsigned int agent_id, const struct scmi_msg_channel *channel)
{
    scmi_board_agent *agent = &tables.agents[SCMI_SERVICE_AGENT - 1];

    give_name(agent->name, "agent", channel->agent_name != NULL ? channel->agent_name : "agent");
    if (channel->shm_size < SCMI_AREA_BYTES)
        agent->bytes = (uint32_t)channel->shm_size & ~3U;
    agent->one_way = scmi_service_outbox(agent_id) == NULL;
    give_name(tables.agents[SCMI_SERVICE_FIRMWARE - 1].name, "agent", "firmware");
    tables.agents[SCMI_SERVICE_FIRMWARE - 1].one_way = 1;
}

const scmi_board *scmi_service_board(unsigned int agent_id, const struct scmi_msg_channel *channel)
{
    uint32_t id;

    memset(&tables, 0, sizeof(tables));
    board = (scmi_board){ .heading = { .trusted = SCMI_SERVICE_FIRMWARE, .loose = 1 }, .agents = tables.agents,
                          .agent_count = SCMI_SERVICE_FIRMWARE, .domains = tables.domains, .clocks = tables.clocks,
                          .rates = tables.rates };
    give_name(board.heading.vendor, "vendor", plat_scmi_vendor_name());
    give_name(board.heading.sub_vendor, "sub-vendor", plat_scmi_sub_vendor_name());
    add_protocols(agent_id);
    add_agents(agent_id, channel);
    board.domain_count = served(agent_id, "domain", plat_scmi_pd_count(agent_id), SCMI_PORT_DOMAINS,
                                plat_scmi_pd_get_name);
    for (id = 0; id < board.domain_count; id++)
        add_domain(agent_id, id);
    board.clock_count = served(agent_id, "clock", plat_scmi_clock_count(agent_id), SCMI_PORT_CLOCKS,
                               plat_scmi_clock_get_name);
    for (id = 0; id < board.clock_count; id++)
        if (!add_clock(agent_id, id))
            return NULL;
    return &board;
}

bool scmi_service_start(unsigned int agent_id __unused, scmi_platform *platform __unused)
{
    return true;
}

/* Drivers divide by a rate, so none of 0 Hz goes to a hook. */
static int32_t set_rate(unsigned int agent, uint32_t id, unsigned long rate)
{
    return rate == 0 ? SCMI_INVALID_PARAMETERS : plat_scmi_clock_set_rate(agent, id, rate);
}

int32_t scmi_service_drive(unsigned int agent_id, const scmi_effect *effect)
{
    switch (effect->kind) {
    case SCMI_EFFECT_STATE:
        return plat_scmi_pd_set_state(agent_id, 0, effect->id, effect->low);
    case SCMI_EFFECT_RATE:
        return set_rate(agent_id, effect->id, (unsigned long)effect->high << 32 | effect->low);
    default:
        return plat_scmi_clock_set_state(agent_id, effect->id, effect->low != 0);
    }
}

/* Hooks round, or make the nearest rate that there is. */
bool scmi_service_rate(unsigned int agent_id, uint32_t clock, uint64_t *rate)
{
    *rate = plat_scmi_clock_get_rate(agent_id, clock);
    return true;
}

static void look_at_clock(unsigned int agent, scmi_platform *platform, uint32_t id)
{
    uint32_t low, high, enabled, is_on;
    uint64_t rate;

    if (scmi_clock_rate(platform, id, &low, &high) != SCMI_DONE ||
        scmi_clock_enabled(platform, id, &enabled) != SCMI_DONE || plat_scmi_clock_get_name(agent, id) == NULL)
        return;
    rate = plat_scmi_clock_get_rate(agent, id);
    is_on = plat_scmi_clock_get_state(agent, id) == 1;
    if (rate != ((uint64_t)high << 32 | low) || is_on != enabled)
        scmi_clock_is(platform, id, (uint32_t)rate, (uint32_t)(rate >> 32), is_on);
}

/* A state that is neither ON nor OFF is not taken over. */
static void look_at_domain(unsigned int agent, scmi_platform *platform, uint32_t id)
{
    uint32_t state, is;

    if (scmi_domain_state(platform, id, &state) != SCMI_DONE || plat_scmi_pd_get_name(agent, id) == NULL)
        return;
    is = plat_scmi_pd_get_state(agent, id);
    if (is != state)
        scmi_domain_is(platform, id, is);
}

/* TF-A's server asks the hooks for each value that it answers, so what they say is reported before it is read. */
void scmi_service_look(unsigned int agent_id, scmi_platform *platform, uint32_t header, uint32_t id)
{
    switch (header & WHICH_MESSAGE) {
    case POWER_STATE_GET:
        look_at_domain(agent_id, platform, id);
        break;
    case CLOCK_ATTRIBUTES:
    case CLOCK_RATE_GET:
        look_at_clock(agent_id, platform, id);
        break;
    default:
        break;
    }
}
