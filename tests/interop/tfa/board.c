/*
 * What a TF-A platform supplies. TF-A's server decides about ids and lengths before it calls; what stands
 * here is decided by this board alone, and in the table of differences it is marked so.
 */
#include "host_tfa.h"
#include "area.h"
#include "board.h"
#include <drivers/scmi-msg.h>
#include <drivers/scmi.h>

/* The server calls these too, but its public header lacks them. */
size_t plat_scmi_pd_count(unsigned int agent_id);
const char *plat_scmi_pd_get_name(unsigned int agent_id, unsigned int pd_id);
unsigned int plat_scmi_pd_get_attributes(unsigned int agent_id, unsigned int pd_id);
unsigned int plat_scmi_pd_get_state(unsigned int agent_id, unsigned int pd_id);
int32_t plat_scmi_pd_set_state(unsigned int agent_id, unsigned int flags, unsigned int pd_id, unsigned int state);

enum { STATE_ON = 0x00000000, STATE_OFF = 0x40000000 };
enum { FLAG_ASYNCHRONOUS = 1 };
#define SETS_SYNCHRONOUS (UINT32_C(1) << 29)
#define SETS_ASYNCHRONOUS (UINT32_C(1) << 30)
#define NOTIFIES (UINT32_C(1) << 31)

struct domain {
	const char *name;
	uint32_t kinds, first_state, state;
};

static struct domain domains[] = {
	{ "cpu", SETS_SYNCHRONOUS | SETS_ASYNCHRONOUS | NOTIFIES, STATE_OFF, 0 },
	{ "gpu", SETS_SYNCHRONOUS, STATE_ON, 0 },
	{ "usb", SETS_ASYNCHRONOUS | NOTIFIES, STATE_OFF, 0 },
};

struct clock {
	const char *name;
	bool first_on, on;
	unsigned long first_rate, rate;
	/* A list of rates, or where it is empty the lowest, the highest and the step. */
	size_t count;
	unsigned long rates[20];
};

static struct clock clocks[] = {
	{ "core", true, false, 100, 0, 3, { 100, 200, 300 } },
	{ "bus", false, false, 1000, 0, 0, { 1000, 4000, 500 } },
	{ "pix", true, false, 1, 0, 20, { 1, 2, 3, 4, 5, 6, 7, 8, 9, 10, 11, 12, 13, 14, 15, 16, 17, 18, 19, 20 } },
};

static uint8_t area[AREA_BYTES] __attribute__((aligned(8)));
static struct scmi_msg_channel channel;

uint8_t *board_area(void) { return area; }

void board_reset(void)
{
	for (size_t i = 0; i < ARRAY_SIZE(domains); i++)
		domains[i].state = domains[i].first_state;
	for (size_t i = 0; i < ARRAY_SIZE(clocks); i++) {
		clocks[i].on = clocks[i].first_on;
		clocks[i].rate = clocks[i].first_rate;
	}
	memset(area, 0, sizeof(area));
	channel = (struct scmi_msg_channel){ .shm_addr = (uintptr_t)area, .shm_size = sizeof(area) };
	scmi_smt_init_agent_channel(&channel);
}

struct scmi_msg_channel *plat_scmi_get_channel(unsigned int agent_id)
{
	(void)agent_id;
	return &channel;
}

const char *plat_scmi_vendor_name(void) { return "Acme"; }
const char *plat_scmi_sub_vendor_name(void) { return "Lab"; }
size_t plat_scmi_protocol_count(void) { return 2; }

const uint8_t *plat_scmi_protocol_list(unsigned int agent_id)
{
	static const uint8_t protocols[] = { SCMI_PROTOCOL_ID_POWER_DOMAIN, SCMI_PROTOCOL_ID_CLOCK, 0, 0, 0, 0 };

	(void)agent_id;
	return protocols;
}

size_t plat_scmi_pd_count(unsigned int agent_id)
{
	(void)agent_id;
	return ARRAY_SIZE(domains);
}

const char *plat_scmi_pd_get_name(unsigned int agent_id, unsigned int pd_id)
{
	(void)agent_id;
	return domains[pd_id].name;
}

unsigned int plat_scmi_pd_get_attributes(unsigned int agent_id, unsigned int pd_id)
{
	(void)agent_id;
	return domains[pd_id].kinds;
}

unsigned int plat_scmi_pd_get_state(unsigned int agent_id, unsigned int pd_id)
{
	(void)agent_id;
	return domains[pd_id].state;
}

/* A later answer can't be had from the server, so no asynchronous set is taken. */
int32_t plat_scmi_pd_set_state(unsigned int agent_id, unsigned int flags, unsigned int pd_id, unsigned int state)
{
	struct domain *domain = &domains[pd_id];

	(void)agent_id;
	if ((flags & ~(unsigned int)FLAG_ASYNCHRONOUS) || (state != STATE_ON && state != STATE_OFF))
		return SCMI_INVALID_PARAMETERS;
	if ((flags & FLAG_ASYNCHRONOUS) || !(domain->kinds & SETS_SYNCHRONOUS))
		return SCMI_NOT_SUPPORTED;
	domain->state = state;
	return SCMI_SUCCESS;
}

size_t plat_scmi_clock_count(unsigned int agent_id)
{
	(void)agent_id;
	return ARRAY_SIZE(clocks);
}

const char *plat_scmi_clock_get_name(unsigned int agent_id, unsigned int scmi_id)
{
	(void)agent_id;
	return clocks[scmi_id].name;
}

/* The server hands no start index over, so the rates are always those from the first on. */
int32_t plat_scmi_clock_rates_array(unsigned int agent_id, unsigned int scmi_id, unsigned long *rates, size_t *nb_elts)
{
	const struct clock *clock = &clocks[scmi_id];

	(void)agent_id;
	if (clock->count == 0)
		return SCMI_NOT_SUPPORTED;
	*nb_elts = rates ? MIN(*nb_elts, clock->count) : clock->count;
	if (rates)
		memcpy(rates, clock->rates, *nb_elts * sizeof(*rates));
	return SCMI_SUCCESS;
}

int32_t plat_scmi_clock_rates_by_step(unsigned int agent_id, unsigned int scmi_id, unsigned long *min_max_step)
{
	(void)agent_id;
	memcpy(min_max_step, clocks[scmi_id].rates, 3 * sizeof(*min_max_step));
	return SCMI_SUCCESS;
}

unsigned long plat_scmi_clock_get_rate(unsigned int agent_id, unsigned int scmi_id)
{
	(void)agent_id;
	return clocks[scmi_id].rate;
}

/* Down to a supported rate: the server hands no flags over that could ask for another way. */
static int32_t rounded_down(const struct clock *clock, unsigned long rate, unsigned long *found)
{
	const unsigned long *steps = clock->rates;

	if (rate < clock->rates[0])
		return SCMI_INVALID_PARAMETERS;
	if (clock->count == 0) {
		rate = MIN(rate, steps[1]);
		*found = rate - (rate - steps[0]) % steps[2];
		return SCMI_SUCCESS;
	}
	for (size_t i = 0; i < clock->count && clock->rates[i] <= rate; i++)
		*found = clock->rates[i];
	return SCMI_SUCCESS;
}

int32_t plat_scmi_clock_set_rate(unsigned int agent_id, unsigned int scmi_id, unsigned long rate)
{
	(void)agent_id;
	return rounded_down(&clocks[scmi_id], rate, &clocks[scmi_id].rate);
}

int32_t plat_scmi_clock_get_state(unsigned int agent_id, unsigned int scmi_id)
{
	(void)agent_id;
	return clocks[scmi_id].on;
}

int32_t plat_scmi_clock_set_state(unsigned int agent_id, unsigned int scmi_id, bool enable)
{
	(void)agent_id;
	clocks[scmi_id].on = enable;
	return SCMI_SUCCESS;
}
