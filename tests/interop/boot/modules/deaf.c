// SPDX-License-Identifier: GPL-2.0
/* An interrupt that is no longer heard: what the platform posts stays unread. */
#include <linux/interrupt.h>
#include <linux/module.h>

static uint irq;
module_param(irq, uint, 0);

static int __init start(void)
{
	disable_irq(irq);
	pr_info("deaf: the mailbox is not heard\n");
	return 0;
}

static void __exit stop(void)
{
	enable_irq(irq);
}

module_init(start);
module_exit(stop);
MODULE_LICENSE("GPL");
