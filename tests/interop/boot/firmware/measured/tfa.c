/* The agents answered by TF-A's own server (drivers/scmi-msg), over the same hardware: to compare with. */
#include <string.h>

#include "agents.h"
#include "hardware.h"
#include "measure.h"
#include "scmi_service.h"

/* TF-A has a number of this name. */
#undef SCMI_VERSION

#include <arch_helpers.h>
#include <common.h>
#include <drivers/scmi-msg.h>
#include <drivers/scmi.h>
#include <lib/utils_def.h>
#include <platform_def.h>

/* The server calls these too, but its public header lacks them. */
size_t plat_scmi_pd_count(unsigned int agent_id);
const char *plat_scmi_pd_get_name(unsigned int agent_id, unsigned int pd_id);
unsigned int plat_scmi_pd_get_attributes(unsigned int agent_id, unsigned int pd_id);
unsigned int plat_scmi_pd_get_state(unsigned int agent_id, unsigned int pd_id);
int32_t plat_scmi_pd_set_state(unsigned int agent_id, unsigned int flags, unsigned int pd_id, unsigned int state);

enum { STATE_ON = 0, STATE_OFF = 0x40000000, SETS_SYNCHRONOUS = 1 << 29 };
enum { CAMERA = 1, CPU = 0, GPU = 1, UART = 2 };
/* Where the header and the payload of an area are. */
enum { LENGTH = 0x14, HEADER = 0x18, PAYLOAD = 0x1c };

struct rates {
    const char *name;
    /* A list, or where it is empty the lowest, the highest and the step. */
    size_t count;
    unsigned long of[3];
};

static const char *const domains[DOMAINS] = { "gpu", "camera", "audio", "modem" };
static const struct rates rates[CLOCKS] = {
    { "cpu", 3, { 500000000, 1000000000, 1500000000 } },
    { "gpu", 0, { 100000000, 800000000, 100000000 } },
    { "uart", 2, { 24000000, 48000000 } },
};
#define AREA(n) { .shm_addr = SCMI_SHARED_BASE + (n) * SCMI_SHARED_EACH, .shm_size = SMT_BUF_SLOT_SIZE }
static struct scmi_msg_channel channels[AGENTS] = { AREA(0), AREA(1), AREA(2) };

/* What the port has beside TF-A's interface. */
bool scmi_service_make(unsigned int agent_id)
{
    return plat_scmi_pd_set_state(agent_id, 0, CAMERA, STATE_ON) == SCMI_SUCCESS &&
           plat_scmi_clock_set_rate(agent_id, CPU, 1000000000) == SCMI_SUCCESS &&
           plat_scmi_clock_set_state(agent_id, CPU, true) == SCMI_SUCCESS &&
           plat_scmi_clock_set_rate(agent_id, GPU, 400000000) == SCMI_SUCCESS &&
           plat_scmi_clock_set_rate(agent_id, UART, 24000000) == SCMI_SUCCESS;
}

bool scmi_service_serve(unsigned int agent_id)
{
    scmi_smt_fastcall_smc_entry(agent_id);
    return true;
}

void scmi_service_restart(unsigned int agent_id) { }
size_t scmi_service_stack_used(void) { return 0; }

struct scmi_msg_channel *plat_scmi_get_channel(unsigned int agent_id)
{
    return agent_id < AGENTS ? &channels[agent_id] : NULL;
}

const char *plat_scmi_vendor_name(void) { return "Acme"; }
const char *plat_scmi_sub_vendor_name(void) { return "Lab"; }
size_t plat_scmi_protocol_count(void) { return 2; }

const uint8_t *plat_scmi_protocol_list(unsigned int agent_id)
{
    static const uint8_t protocols[] = { SCMI_PROTOCOL_ID_POWER_DOMAIN, SCMI_PROTOCOL_ID_CLOCK, 0, 0, 0, 0 };

    return protocols;
}

size_t plat_scmi_pd_count(unsigned int agent_id) { return DOMAINS; }
const char *plat_scmi_pd_get_name(unsigned int agent_id, unsigned int pd_id) { return domains[pd_id]; }
unsigned int plat_scmi_pd_get_attributes(unsigned int agent_id, unsigned int pd_id) { return SETS_SYNCHRONOUS; }

unsigned int plat_scmi_pd_get_state(unsigned int agent_id, unsigned int pd_id)
{
    return hardware_is_on(pd_id) ? STATE_ON : STATE_OFF;
}

static int32_t set(uint32_t kind, uint32_t id, uint64_t value)
{
    const scmi_effect effect = { kind, id, (uint32_t)value, (uint32_t)(value >> 32) };

    return hardware_make(&effect) ? SCMI_SUCCESS : SCMI_HARDWARE_ERROR;
}

int32_t plat_scmi_pd_set_state(unsigned int agent_id, unsigned int flags, unsigned int pd_id, unsigned int state)
{
    if (flags != 0 || (state != STATE_ON && state != STATE_OFF))
        return SCMI_INVALID_PARAMETERS;
    return set(SCMI_EFFECT_STATE, pd_id, state);
}

size_t plat_scmi_clock_count(unsigned int agent_id) { return CLOCKS; }
const char *plat_scmi_clock_get_name(unsigned int agent_id, unsigned int scmi_id) { return rates[scmi_id].name; }

/* TF-A 2.8 asks for all rates at once. */
#ifdef TFA_2_8
int32_t plat_scmi_clock_rates_array(unsigned int agent_id, unsigned int scmi_id, unsigned long *array, size_t *nb_elts)
{
    const uint32_t from = 0;
#else
int32_t plat_scmi_clock_rates_array(unsigned int agent_id, unsigned int scmi_id, unsigned long *array, size_t *nb_elts,
                                    uint32_t from)
{
#endif
    const struct rates *clock = &rates[scmi_id];

    if (clock->count == 0)
        return SCMI_NOT_SUPPORTED;
    *nb_elts = array ? MIN(*nb_elts, clock->count - from) : clock->count;
    if (array)
        memcpy(array, clock->of + from, *nb_elts * sizeof(*array));
    return SCMI_SUCCESS;
}

int32_t plat_scmi_clock_rates_by_step(unsigned int agent_id, unsigned int scmi_id, unsigned long *min_max_step)
{
    memcpy(min_max_step, rates[scmi_id].of, sizeof(rates[scmi_id].of));
    return SCMI_SUCCESS;
}

unsigned long plat_scmi_clock_get_rate(unsigned int agent_id, unsigned int scmi_id)
{
    return hardware_clock(scmi_id)->rate;
}

/* Down to a rate of the clock: the server hands no flags over that could ask for another way. */
static unsigned long rounded(const struct rates *clock, unsigned long rate)
{
    unsigned long found = 0;

    if (clock->count == 0)
        return rate < clock->of[0] ? 0 : MIN(rate, clock->of[1]) - (MIN(rate, clock->of[1]) - clock->of[0]) % clock->of[2];
    for (size_t i = 0; i < clock->count && clock->of[i] <= rate; i++)
        found = clock->of[i];
    return found;
}

int32_t plat_scmi_clock_set_rate(unsigned int agent_id, unsigned int scmi_id, unsigned long rate)
{
    unsigned long found = rounded(&rates[scmi_id], rate);

    return found ? set(SCMI_EFFECT_RATE, scmi_id, found) : SCMI_INVALID_PARAMETERS;
}

int32_t plat_scmi_clock_get_state(unsigned int agent_id, unsigned int scmi_id)
{
    return hardware_clock(scmi_id)->is_open;
}

int32_t plat_scmi_clock_set_state(unsigned int agent_id, unsigned int scmi_id, bool enable)
{
    return set(SCMI_EFFECT_ENABLED, scmi_id, enable);
}

/* The server's call for a message that was copied, without its areas. */
uint64_t measure_server(uint32_t agent, uint32_t rounds, bool asks)
{
    const volatile uint32_t *words = (const volatile uint32_t *)channels[agent].shm_addr;
    uint32_t header = words[HEADER / 4], in[24] = { 0 }, out[24];
    struct scmi_msg msg = { .agent_id = agent, .protocol_id = header >> 10 & 0xff, .message_id = header & 0xff,
                            .in = (char *)in, .in_size = words[LENGTH / 4] - 4, .out = (char *)out,
                            .out_size = sizeof(out) };
    uint64_t from;

    if (asks || msg.in_size > sizeof(in))
        return 0;
    for (size_t i = 0; i < msg.in_size / 4; i++)
        in[i] = words[PAYLOAD / 4 + i];
    isb();
    from = read_cntpct_el0();
    for (uint32_t i = 0; i < rounds; i++)
        scmi_process_message(&msg);
    isb();
    return read_cntpct_el0() - from;
}
