/*
 * What a kernel has around its SCMI agent: a device tree, a mailbox controller, and two SCMI drivers, which keep
 * the protocols' operations. Linux's core (driver, bus, notifications), its mailbox transport and its protocols
 * base, power and clock are compiled as they are.
 */
#include "devices.h"
#include "checks.h"

enum { PLATFORM_TURNS = 64 };

const struct platform *platform;
uint8_t *to_platform;
static uint8_t *from_platform;
unsigned int messages, messages_of_platform;

/* The doorbell of a mailbox controller: the platform answers before it returns. */
void mailbox_doorbell(void)
{
	uint32_t wants_interrupt = area_word(to_platform, AREA_FLAGS) & FLAG_INTERRUPT;

	messages++;
	platform->answer(to_platform);
	/* Where Linux did not ask for an interrupt it looks at the area by itself. */
	if (wants_interrupt)
		mailbox_interrupt(0);
}

/* One message of the platform, if it has one; Linux has to free the channel whatever it thinks of it. */
static bool deliver(void)
{
	if (!platform->next_message(from_platform))
		return false;
	messages_of_platform++;
	mailbox_interrupt(1);
	check_word("Linux frees the channel of the platform's messages",
		   area_word(from_platform, AREA_STATUS), STATUS_FREE);
	while (kernel_run_work())
		;
	return true;
}

/* What happens while Linux waits. */
bool kernel_idle(void)
{
	if (kernel_run_work())
		return true;
	if (!platform->remembers)
		return false;
	return platform->advance() | deliver();
}

void let_the_platform_run(void)
{
	for (int turn = 0; turn < PLATFORM_TURNS && kernel_idle(); turn++)
		;
}

/* The device tree and the device of the whole platform. */
static struct device_node area_nodes[2] = {
	{ .name = "a2p", .compatible = "arm,scmi-shmem", .reg = -1 },
	{ .name = "p2a", .compatible = "arm,scmi-shmem", .reg = -1 },
};
static struct device_node clock_node = { .name = "protocol@14", .reg = PROTOCOL_CLOCK };
static struct device_node power_node = { .name = "protocol@11", .reg = PROTOCOL_POWER, .sibling = &clock_node };
static struct device_node scmi_node = {
	.name = "scmi", .compatible = "arm,scmi", .reg = -1, .child = &power_node,
	.area = { &area_nodes[0], &area_nodes[1] },
};
static struct platform_device scmi_device = { .dev = { .name = "scmi", .of_node = &scmi_node } };

/* Two drivers of SCMI devices, which keep what the core gives them. */
struct scmi_handle *handle;
struct scmi_protocol_handle *base, *power, *clocks;
const struct scmi_power_proto_ops *power_ops;
const struct scmi_clk_proto_ops *clock_ops;

static int probe_power(struct scmi_device *device)
{
	handle = device->handle;
	power_ops = handle->devm_protocol_get(device, PROTOCOL_POWER, &power);
	/* The base protocol has no operations: only its handle is of use. */
	handle->devm_protocol_get(device, PROTOCOL_BASE, &base);
	return IS_ERR(power_ops) ? PTR_ERR(power_ops) : 0;
}

static int probe_clocks(struct scmi_device *device)
{
	clock_ops = device->handle->devm_protocol_get(device, PROTOCOL_CLOCK, &clocks);
	return IS_ERR(clock_ops) ? PTR_ERR(clock_ops) : 0;
}

static const struct scmi_device_id power_id[] = { { PROTOCOL_POWER, "interop-power" }, { 0 } };
static const struct scmi_device_id clock_id[] = { { PROTOCOL_CLOCK, "interop-clocks" }, { 0 } };
static struct scmi_driver power_driver = { .name = "interop-power", .probe = probe_power, .id_table = power_id };
static struct scmi_driver clock_driver = { .name = "interop-clocks", .probe = probe_clocks, .id_table = clock_id };

/* An area of these bytes, and not one more: a sanitizer sees what reads or writes behind it. */
static uint8_t *make_area(struct device_node *node, size_t bytes)
{
	uint8_t *area = calloc(1, bytes);

	if (!area)
		abort();
	node->memory = area;
	node->bytes = bytes;
	shmem_clear_channel((struct scmi_shared_mem *)area);
	return area;
}

bool start(size_t bytes, int channels)
{
	check_part("Linux probes the platform");
	scmi_node.mailboxes = scmi_node.areas = channels;
	to_platform = make_area(&area_nodes[0], bytes);
	from_platform = make_area(&area_nodes[1], bytes);
	check_number("the driver starts", kernel_initcall(), 0);
	check_number("the platform is probed", kernel_probe(&scmi_device), 0);
	check_number("the power driver registers", scmi_driver_register(&power_driver, NULL, "interop"), 0);
	check_number("the clock driver registers", scmi_driver_register(&clock_driver, NULL, "interop"), 0);
	check_true("both protocols were given", power_ops && clock_ops);
	return power_ops && clock_ops;
}
