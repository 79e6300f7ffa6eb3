/*
 * U-Boot's SCMI agent against a platform: its uclass, its mailbox transport, its shared memory code and its
 * clock driver, compiled as they are. This file is what a U-Boot has around them: a device tree, the parts
 * of its driver model that bind and probe, a mailbox, and a user of the clocks.
 *
 *   uboot_agent KIND PROGRAM BOARD
 */
#include "host_uboot.h"
#include "checks.h"
#include "platform.h"
#include <scmi_agent.h>
#include <scmi_protocols.h>

enum { CLOCKS = 64, OUTBOX = 16 };
enum { PROTOCOL_BASE = 0x10, PROTOCOL_POWER = 0x11, PROTOCOL_CLOCK = 0x14 };

static const struct platform *platform;
static uint8_t area[AREA_BYTES] __attribute__((aligned(8)));
static unsigned int messages;
/* A length to put in place of the agent's own; 0 for none. */
static uint32_t broken_length;

int mbox_get_by_index(struct udevice *dev, int index, struct mbox_chan *chan)
{
	(void)index;
	chan->dev = dev;
	return 0;
}

/* The mailbox rings, and the platform answers before it returns. */
int mbox_send(struct mbox_chan *chan, const void *data)
{
	(void)chan;
	(void)data;
	if (broken_length)
		area_set_word(area, AREA_LENGTH, broken_length);
	messages++;
	platform->answer(area);
	return 0;
}

int mbox_recv(struct mbox_chan *chan, void *data, ulong timeout_us)
{
	(void)chan;
	(void)data;
	(void)timeout_us;
	return 0;
}

int ofnode_read_u32(ofnode node, const char *property, u32 *value)
{
	if (strcmp(property, "reg") || node->reg < 0)
		return -EINVAL;
	*value = (u32)node->reg;
	return 0;
}

int ofnode_read_resource(ofnode node, int index, struct resource *resource)
{
	(void)index;
	resource->start = (uintptr_t)node->memory;
	resource->end = resource->start + node->bytes - 1;
	return 0;
}

int dev_read_phandle_with_args(struct udevice *dev, const char *list, const char *cells, int count, int index,
			       struct ofnode_phandle_args *out)
{
	(void)cells;
	(void)count;
	(void)index;
	if (strcmp(list, "shmem"))
		return -ENOENT;
	out->node = dev->node;
	return 0;
}

extern struct driver uboot_driver_scmi_clock, uboot_driver_scmi_mbox;
extern struct uclass_driver uboot_uclass_scmi_agent;

struct driver *find_driver(const char *name)
{
	return strcmp(name, "scmi_clock") ? NULL : &uboot_driver_scmi_clock;
}

static struct udevice clock_device;

int device_bind(struct udevice *parent, struct driver *driver, const char *name, void *plat, ofnode node,
		struct udevice **out)
{
	(void)out;
	clock_device = (struct udevice){
		.parent = parent, .name = name, .driver = driver, .node = node, .plat = plat,
		.priv = calloc(1, driver->priv_auto),
	};
	return 0;
}

static const char *clock_names[CLOCKS];
static const char *registered;

int clk_register(struct clk *clk, const char *driver, const char *name, const char *parent)
{
	(void)clk;
	(void)driver;
	(void)parent;
	registered = name;
	return 0;
}

void clk_dm(size_t id, struct clk *clk)
{
	free(clk);
	if (id < CLOCKS)
		clock_names[id] = registered;
}

static const struct node power_node = { .name = "protocol@11", .reg = PROTOCOL_POWER };
static const struct node clock_node = { .name = "protocol@14", .reg = PROTOCOL_CLOCK, .sibling = &power_node };
static const struct node scmi_node = {
	.name = "scmi", .reg = -1, .child = &clock_node, .memory = area, .bytes = AREA_BYTES,
};
static struct udevice root_device = { .name = "root", .driver = &uboot_driver_scmi_clock };
static struct udevice scmi_device = {
	.parent = &root_device, .name = "scmi", .driver = &uboot_driver_scmi_mbox, .node = &scmi_node,
};

static bool start(void)
{
	check_part("U-Boot binds and probes");
	area_set_word(area, AREA_STATUS, STATUS_FREE);
	scmi_device.plat = calloc(1, uboot_driver_scmi_mbox.plat_auto);
	check_number("the transport finds its area", uboot_driver_scmi_mbox.of_to_plat(&scmi_device), 0);
	check_number("the protocols are bound", uboot_uclass_scmi_agent.post_bind(&scmi_device), 0);
	check_true("the clock driver is one of them", clock_device.driver == &uboot_driver_scmi_clock);
	if (!clock_device.driver)
		return false;
	check_number("the clocks are probed", clock_device.driver->probe(&clock_device), 0);
	return true;
}

static const struct clk_ops *ops(void) { return clock_device.driver->ops; }
static struct clk *clock_of(unsigned long id)
{
	static struct clk clk;

	clk = (struct clk){ &clock_device, id };
	return &clk;
}

static long get_rate(unsigned long id) { return (long)ops()->get_rate(clock_of(id)); }
static long set_rate(unsigned long id, ulong rate) { return (long)ops()->set_rate(clock_of(id), rate); }
static int enable(unsigned long id) { return ops()->enable(clock_of(id)); }
static int disable(unsigned long id) { return ops()->disable(clock_of(id)); }

static void check_discovery(void)
{
	check_part("What U-Boot knows of the clocks");
	check_text("clock 0", clock_names[0], "core");
	check_text("clock 1", clock_names[1], "bus");
	check_text("clock 2", clock_names[2], "pix");
	check_true("there is no clock 3", !clock_names[3]);
	check_number("get core", get_rate(0), 100);
	check_number("get bus", get_rate(1), 1000);
	check_number("get pix", get_rate(2), 1);
}

static void check_sets(void)
{
	check_part("U-Boot sets rates, to the closest one, and reads them back");
	check_number("core to 250, of two the lower", set_rate(0, 250), 200);
	check_number("core to 251", set_rate(0, 251), 300);
	check_number("core to 50", set_rate(0, 50), 100);
	check_number("bus to 1749", set_rate(1, 1749), 1500);
	check_number("bus to 1750, of two the lower", set_rate(1, 1750), 1500);
	check_number("bus to 99999", set_rate(1, 99999), 4000);
	check_number("pix to 2^40", set_rate(2, 1UL << 40), 20);
	check_part("U-Boot switches clocks");
	check_number("enable bus", enable(1), 0);
	check_number("disable bus", disable(1), 0);
	/* Its table of errors is read at one place for all of them. */
	check_part("Errors: U-Boot has one number for all");
	check_number("get clock 9 (NOT_FOUND)", get_rate(9), -EINVAL);
	check_number("set clock 9 (NOT_FOUND)", set_rate(9, 100), -EINVAL);
	check_number("enable clock 9 (NOT_FOUND)", enable(9), -EINVAL);
	check_number("its number for BUSY", scmi_to_linux_errno(SCMI_BUSY), -EINVAL);
	check_number("its number for DENIED", scmi_to_linux_errno(SCMI_DENIED), -EINVAL);
}

static void check_malformed(void)
{
	check_part("A frame whose length is not whole words");
	broken_length = 5;
	check_number("U-Boot sees the channel error", enable(1), -ECOMM);
	broken_length = 0;
	check_number("the channel serves on", enable(1), 0);
}

/* A message of our own through U-Boot's transport: the status in its answer, or the transport's error. */
static int send(unsigned int protocol, unsigned int id, const u32 *words, size_t bytes)
{
	s32 out[PAYLOAD_WORDS] = { 0 };
	struct scmi_msg message = {
		.protocol_id = protocol, .message_id = id,
		.in_msg = (u8 *)words, .in_msg_sz = bytes,
		.out_msg = (u8 *)out, .out_msg_sz = sizeof(out),
	};
	int result = devm_scmi_process_msg(&clock_device, *(struct scmi_channel **)clock_device.priv, &message);

	return result ? result : out[0];
}

#define SEND(protocol, id, ...) send(protocol, id, (u32[]){ __VA_ARGS__ }, sizeof((u32[]){ __VA_ARGS__ }))

static void check_rules(void)
{
	check_part("Rules where servers differ");
	check_number("an unknown clock", SEND(PROTOCOL_CLOCK, 0x6, 9), SCMI_NOT_FOUND);
	check_number("attributes of an unknown message", SEND(PROTOCOL_CLOCK, 0x2, 0x77), SCMI_NOT_FOUND);
	check_number("protocols from the fourth on, of two", SEND(PROTOCOL_BASE, 0x6, 3), SCMI_INVALID_PARAMETERS);
	check_number("a reserved flag of a rate set", SEND(PROTOCOL_CLOCK, 0x5, 16, 0, 100, 0), SCMI_INVALID_PARAMETERS);
	check_number("a reserved bit of a clock's configuration", SEND(PROTOCOL_CLOCK, 0x7, 0, 2), SCMI_INVALID_PARAMETERS);
	check_number("rates from index 3, of three", SEND(PROTOCOL_CLOCK, 0x4, 0, 3), SCMI_OUT_OF_RANGE);
}

/* U-Boot has no channel for the platform's messages, so its delayed responses fill its outbox. */
static void check_full_outbox(void)
{
	unsigned int accepted = 0;

	check_part("Asynchronous power sets of an agent that never takes its delayed responses");
	while (accepted <= OUTBOX && SEND(PROTOCOL_POWER, 0x4, 1, 0, accepted % 2 ? 0x40000000 : 0) == SCMI_SUCCESS) {
		platform->advance();
		accepted++;
	}
	check_number("sets that are accepted", accepted, OUTBOX);
	check_number("the next", SEND(PROTOCOL_POWER, 0x4, 1, 0, 0), SCMI_BUSY);
	check_number("a synchronous set is answered all the same", SEND(PROTOCOL_POWER, 0x4, 0, 0, 0), SCMI_SUCCESS);
}

int main(int count, char **arguments)
{
	if (count != 4) {
		fprintf(stderr, "usage: uboot_agent words|rings|once PROGRAM BOARD\n");
		return 64;
	}
	setvbuf(stdout, NULL, _IOLBF, 0);
	platform = platform_open(arguments[1], arguments[2], arguments[3]);
	if (start()) {
		check_discovery();
		if (platform->remembers) {
			check_sets();
			check_full_outbox();
		}
		check_rules();
		check_malformed();
	}
	platform->finish();
	return check_finish("U-Boot", arguments[1], messages);
}
