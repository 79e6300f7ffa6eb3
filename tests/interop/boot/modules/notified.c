// SPDX-License-Identifier: GPL-2.0
/*
 * A driver of Linux's that asks each SCMI platform to be notified of the domain of the modem, and says what it was
 * notified of: no driver of the kernel's own asks for power domains.
 */
#include <linux/module.h>
#include <linux/notifier.h>
#include <linux/scmi_protocol.h>

static const u32 modem = 3;

static int notified(struct notifier_block *block, unsigned long event, void *data)
{
	const struct scmi_power_state_changed_report *report = data;

	pr_info("notified: domain %u is %s, by agent %u\n", report->domain_id, report->power_state ? "off" : "on",
		report->agent_id);
	return NOTIFY_OK;
}

static struct notifier_block block = { .notifier_call = notified };

static int probe(struct scmi_device *device)
{
	const struct scmi_handle *handle = device->handle;
	struct scmi_protocol_handle *of;
	const struct scmi_power_proto_ops *power = handle->devm_protocol_get(device, SCMI_PROTOCOL_POWER, &of);
	int given;

	if (IS_ERR(power))
		return PTR_ERR(power);
	given = handle->notify_ops->devm_event_notifier_register(device, SCMI_PROTOCOL_POWER,
								 SCMI_EVENT_POWER_STATE_CHANGED, &modem, &block);
	pr_info("notified: %s: %d\n", dev_name(handle->dev), given);
	return given;
}

static const struct scmi_device_id ids[] = { { SCMI_PROTOCOL_POWER, "notified" }, {} };

static struct scmi_driver notified_driver = { .name = "notified", .probe = probe, .id_table = ids };
module_scmi_driver(notified_driver);
MODULE_LICENSE("GPL");
