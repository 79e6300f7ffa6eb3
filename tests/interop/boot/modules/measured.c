// SPDX-License-Identifier: GPL-2.0
/*
 * What SMCs of agent 1 cost, in instructions: QEMU counts them for its clock, sixteen to a tick of the counter. Each
 * command is posted and called so many times with interrupts off, and the posting alone is taken off; then the server's
 * bare calls are asked of the firmware, and how much of its stack one call wrote.
 */
#include <linux/arm-smccc.h>
#include <linux/io.h>
#include <linux/module.h>
#include <asm/arch_timer.h>

enum { AREA = 0x50000000, BYTES = 0x1000 };
enum { FUNCTION = 0x82000010, NONE = 0x8200fff8, PAINT_STACK = 0x8200fff0, STACK_WRITTEN, ANSWERS, ASKS };
enum { STATUS = 0x04, LENGTH = 0x14, HEADER = 0x18, PAYLOAD = 0x1c };
enum { ROUNDS = 256, BATCHES = 8, PER_TICK = 16 };

struct frame {
	const char *name;
	u32 header, count, words[4];
};

static const struct frame frames[] = {
	{ "PROTOCOL_VERSION", 0x05000, 0 },
	{ "CLOCK_ATTRIBUTES", 0x05003, 1, { 0 } },
	{ "CLOCK_DESCRIBE_RATES, 3 rates", 0x05004, 2, { 0, 0 } },
	{ "CLOCK_RATE_SET", 0x05005, 4, { 0, 0, 1000000000, 0 } },
	{ "CLOCK_RATE_GET", 0x05006, 1, { 0 } },
	{ "CLOCK_CONFIG_SET", 0x05007, 2, { 1, 1 } },
	{ "POWER_DOMAIN_ATTRIBUTES", 0x04403, 1, { 0 } },
	{ "POWER_STATE_SET", 0x04404, 3, { 0, 2, 0x40000000 } },
	{ "POWER_STATE_GET", 0x04405, 1, { 2 } },
	{ "an unknown message", 0x0503f, 0 },
};

static void __iomem *area;

static u64 smc(u32 function, u64 first, u64 second)
{
	struct arm_smccc_res res;

	arm_smccc_smc(function, first, second, 0, 0, 0, 0, 0, &res);
	return res.a0;
}

static void post(const struct frame *frame)
{
	u32 i;

	writel_relaxed(4 + 4 * frame->count, area + LENGTH);
	writel_relaxed(frame->header, area + HEADER);
	for (i = 0; i < frame->count; i++)
		writel_relaxed(frame->words[i], area + PAYLOAD + 4 * i);
	writel(0, area + STATUS);
}

/* The least of some batches, in ticks. */
static u64 batch(const struct frame *frame, u32 function)
{
	u64 from, least = ~0ULL;
	unsigned long flags;
	int i, n;

	for (n = 0; n < BATCHES; n++) {
		local_irq_save(flags);
		from = __arch_counter_get_cntvct();
		for (i = 0; i < ROUNDS; i++) {
			if (frame)
				post(frame);
			if (function)
				smc(function, 0, 0);
		}
		least = min(least, __arch_counter_get_cntvct() - from);
		local_irq_restore(flags);
	}
	return least;
}

static void say(const struct frame *frame)
{
	u64 call = batch(frame, FUNCTION) - batch(frame, 0), stack, answers, asks;
	s32 status;

	post(frame);
	smc(PAINT_STACK, 0, 0);
	smc(FUNCTION, 0, 0);
	stack = smc(STACK_WRITTEN, 0, 0);
	status = (s32)readl(area + PAYLOAD);
	post(frame);
	answers = smc(ANSWERS, 0, ROUNDS);
	asks = smc(ASKS, 0, ROUNDS);
	writel(1, area + STATUS);
	pr_info("measured: %s: status %d: SMC %llu, asked and committed %llu, answered %llu; stack %llu\n", frame->name, status,
		call * PER_TICK / ROUNDS, asks * PER_TICK / ROUNDS, answers * PER_TICK / ROUNDS, stack);
}

static int __init start(void)
{
	int i;

	area = ioremap(AREA, BYTES);
	if (!area)
		return -ENOMEM;
	smc(PAINT_STACK, 0, 0);
	smc(NONE, 0, 0);
	pr_info("measured: nothing: SMC %llu; stack %llu\n", batch(NULL, NONE) * PER_TICK / ROUNDS, smc(STACK_WRITTEN, 0, 0));
	for (i = 0; i < ARRAY_SIZE(frames); i++)
		say(&frames[i]);
	iounmap(area);
	return 0;
}

static void __exit stop(void) { }

module_init(start);
module_exit(stop);
MODULE_LICENSE("GPL");
