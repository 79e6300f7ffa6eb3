/* The part of U-Boot's interface that its SCMI agent uses, on the host. */
#ifndef INTEROP_HOST_UBOOT_H
#define INTEROP_HOST_UBOOT_H

#include <errno.h>
#include <linux/types.h>
#include <stdbool.h>
#include <stddef.h>
#include <stdint.h>
#include <stdio.h>
#include <stdlib.h>
#include <string.h>

#undef errno /* The agent has a field of this name. */

typedef uint8_t u8;
typedef uint16_t u16;
typedef uint32_t u32;
typedef uint64_t u64;
typedef int32_t s32;
typedef unsigned long ulong;

#define BIT(n) (1UL << (n))
#define GENMASK(high, low) ((~0UL << (low)) & (~0UL >> (63 - (high))))
#define ARRAY_SIZE(a) (sizeof(a) / sizeof((a)[0]))
#define container_of(pointer, type, member) ((type *)((char *)(pointer) - offsetof(type, member)))
#define ETOOSMALL 525
#define GFP_KERNEL 0
#define kzalloc(size, gfp) calloc(1, size)
#define memcpy_toio memcpy
#define memcpy_fromio memcpy
#define dev_err(dev, ...) ((void)(dev), printf("      U-Boot says: " __VA_ARGS__))
#define dev_dbg(dev, ...) ((void)(dev))

/* Of what the agent can be built for, the clocks. */
#define CONFIG_CLK_SCMI 1
#define CONFIG_RESET_SCMI 0
#define CONFIG_DM_REGULATOR_SCMI 0
#define IS_ENABLED(option) (option)
#define CONFIG_IS_ENABLED(option) 1

/* The device tree. */
struct node {
	const char *name;
	int reg; /* below 0 where there is none */
	const struct node *child, *sibling;
	void *memory; /* the area that the node names, if it names one */
	size_t bytes;
};
typedef const struct node *ofnode;
struct ofnode_phandle_args { ofnode node; };
struct resource { uintptr_t start, end; };
#define resource_size(r) ((r)->end - (r)->start + 1)
#define ofnode_is_enabled(node) ((void)(node), true)
#define ofnode_valid(node) ((node) != NULL)
#define ofnode_get_name(node) ((node)->name)
#define ofnode_find_subnode(parent, name) ((parent)->child)
int ofnode_read_u32(ofnode node, const char *property, u32 *value);
int ofnode_read_resource(ofnode node, int index, struct resource *resource);
#define devm_ioremap(dev, start, size) ((void *)(start))

/* Devices and drivers. */
enum uclass_id { UCLASS_CLK, UCLASS_SCMI_AGENT };
struct udevice;
struct udevice_id { const char *compatible; };
struct driver {
	const char *name;
	enum uclass_id id;
	const struct udevice_id *of_match;
	int (*probe)(struct udevice *dev);
	int (*of_to_plat)(struct udevice *dev);
	size_t priv_auto, plat_auto;
	const void *ops;
};
struct uclass_driver {
	const char *name;
	enum uclass_id id;
	int (*post_bind)(struct udevice *dev);
};
struct udevice {
	struct udevice *parent;
	const char *name;
	struct driver *driver;
	ofnode node;
	void *plat, *priv;
};
#define U_BOOT_DRIVER(name) struct driver uboot_driver_##name
#define UCLASS_DRIVER(name) struct uclass_driver uboot_uclass_##name
#define DM_DRIVER_GET(name) find_driver(#name)
struct driver *find_driver(const char *name);
#define dev_get_plat(dev) ((dev)->plat)
#define dev_get_priv(dev) ((dev)->priv)
#define dev_get_parent(dev) ((dev)->parent)
#define device_get_uclass_id(dev) ((dev)->driver->id)
#define dev_for_each_subnode(n, dev) for (n = (dev)->node->child; n; n = n->sibling)
#define dev_read_prop(dev, property, size) ((const void *)(dev)->node->memory)
int dev_read_phandle_with_args(struct udevice *dev, const char *list, const char *cells, int count, int index,
			       struct ofnode_phandle_args *out);
int device_bind(struct udevice *parent, struct driver *driver, const char *name, void *plat, ofnode node,
		struct udevice **out);

/* Clocks, as their framework keeps them. */
struct clk { struct udevice *dev; unsigned long id; };
struct clk_ops {
	int (*enable)(struct clk *clk);
	int (*disable)(struct clk *clk);
	ulong (*get_rate)(struct clk *clk);
	ulong (*set_rate)(struct clk *clk, ulong rate);
};
int clk_register(struct clk *clk, const char *driver, const char *name, const char *parent);
void clk_dm(size_t id, struct clk *clk);

/* The mailbox. */
struct mbox_chan { struct udevice *dev; };
int mbox_get_by_index(struct udevice *dev, int index, struct mbox_chan *chan);
int mbox_send(struct mbox_chan *chan, const void *data);
int mbox_recv(struct mbox_chan *chan, void *data, ulong timeout_us);
#endif
