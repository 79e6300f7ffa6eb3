/*
 * The part of the Linux kernel's interface that its SCMI agent uses, on the host.
 *
 * One thread runs everything, so locks are nothing. Memory of devices is never given back. What an
 * agent would wait for is brought by kernel_idle, which the harness supplies.
 */
#ifndef INTEROP_HOST_KERNEL_H
#define INTEROP_HOST_KERNEL_H

#include <errno.h>
#include <linux/types.h>
#include <stdarg.h>
#include <stdbool.h>
#include <stddef.h>
#include <stdint.h>
#include <stdio.h>
#include <stdlib.h>
#include <string.h>
#include <sys/types.h>

#undef errno /* The driver has a parameter of this name. */

typedef uint8_t u8;
typedef uint16_t u16;
typedef uint32_t u32;
typedef uint64_t u64;
typedef int32_t s32;
typedef int64_t s64;
typedef s64 ktime_t;
typedef unsigned int gfp_t;
typedef uintptr_t resource_size_t;

/* Marks for the compiler and the linker of a kernel. */
#define __iomem
#define __init
#define __exit
#define __must_check
#define __rcu
#define unlikely(x) (x)
#define likely(x) (x)
#define READ_ONCE(x) (x)
#define WRITE_ONCE(x, v) ((x) = (v))
#define smp_mb() ((void)0)
#define smp_rmb() ((void)0)
#define smp_wmb() ((void)0)
#define smp_store_mb(x, v) ((x) = (v))
#define _RET_IP_ 0UL
#define U32_MAX UINT32_MAX
#define BITS_PER_LONG 64
#define MSEC_PER_SEC 1000L
#define EPROBE_DEFER 517
#define GFP_KERNEL 0U
#define GFP_ATOMIC 0U
#define IS_ENABLED(option) (option)
#define IS_REACHABLE(option) (option)
#define EXPORT_SYMBOL_GPL(name)
#define MODULE_ALIAS(text)
#define MODULE_AUTHOR(text)
#define MODULE_DESCRIPTION(text)
#define MODULE_LICENSE(text)
#define MODULE_DEVICE_TABLE(type, name)
#define THIS_MODULE NULL
struct module;
#define try_module_get(owner) ((void)(owner), true)
#define module_put(owner) ((void)(owner))
#define subsys_initcall(function) \
	int kernel_initcall(void) { return function(); }
#define module_exit(function) \
	void kernel_exitcall(void) { function(); }

/* Arithmetic and bytes. The host is little-endian, as SCMI is. */
#define BIT(n) (1UL << (n))
#define GENMASK(high, low) ((~0UL << (low)) & (~0UL >> (63 - (high))))
#define FIELD_GET(mask, value) ((typeof(mask))(((value) & (mask)) >> __builtin_ctzl(mask)))
#define FIELD_PREP(mask, value) (((typeof(mask))(value) << __builtin_ctzl(mask)) & (mask))
#define FIELD_FIT(mask, value) (!((((typeof(mask))(value)) << __builtin_ctzl(mask)) & ~(mask)))
#define ARRAY_SIZE(a) (sizeof(a) / sizeof((a)[0]))
#define min_t(type, a, b) ((type)(a) < (type)(b) ? (type)(a) : (type)(b))
#define max_t(type, a, b) ((type)(a) > (type)(b) ? (type)(a) : (type)(b))
#define container_of(pointer, type, member) ((type *)((char *)(pointer) - offsetof(type, member)))
#define struct_size(p, member, n) (sizeof(*(p)) + sizeof(*(p)->member) * (n))
#define cpu_to_le32(x) ((u32)(x))
#define le16_to_cpu(x) ((u16)(x))
#define le32_to_cpu(x) ((u32)(x))
#define le64_to_cpu(x) ((u64)(x))
static inline void put_unaligned_le32(u32 value, void *p) { memcpy(p, &value, sizeof(value)); }
static inline u32 get_unaligned_le32(const void *p) { u32 value; memcpy(&value, p, sizeof(value)); return value; }
static inline u64 get_unaligned_le64(const void *p) { u64 value; memcpy(&value, p, sizeof(value)); return value; }
#define ioread8(p) (*(const volatile u8 *)(p))
#define ioread16(p) (*(const volatile u16 *)(p))
#define ioread32(p) (*(const volatile u32 *)(p))
#define ioread64(p) (*(const volatile u64 *)(p))
#define iowrite8(value, p) (*(volatile u8 *)(p) = (value))
#define iowrite16(value, p) (*(volatile u16 *)(p) = (value))
#define iowrite32(value, p) (*(volatile u32 *)(p) = (value))
#define iowrite64(value, p) (*(volatile u64 *)(p) = (value))
#define memcpy_toio memcpy
#define memcpy_fromio memcpy
ssize_t strscpy(char *to, const void *from, size_t size);
void sort(void *base, size_t count, size_t size, int (*compare)(const void *, const void *), void *swap);

#define BITS_TO_LONGS(bits) (((bits) + BITS_PER_LONG - 1) / BITS_PER_LONG)
#define set_bit(bit, map) ((map)[(bit) / BITS_PER_LONG] |= BIT((bit) % BITS_PER_LONG))
#define clear_bit(bit, map) ((map)[(bit) / BITS_PER_LONG] &= ~BIT((bit) % BITS_PER_LONG))
#define test_bit(bit, map) (((map)[(bit) / BITS_PER_LONG] >> ((bit) % BITS_PER_LONG)) & 1)
unsigned long find_next_zero_bit(const unsigned long *map, unsigned long bits, unsigned long from);

/* Errors in pointers. */
#define IS_ERR(p) ((unsigned long)(p) >= (unsigned long)-4095)
#define IS_ERR_OR_NULL(p) (!(p) || IS_ERR(p))
#define PTR_ERR(p) ((long)(p))
#define ERR_PTR(error) ((void *)(long)(error))
#define PTR_ERR_OR_ZERO(p) (IS_ERR(p) ? (int)PTR_ERR(p) : 0)

/* The log: what is at most `kernel_log_level` is shown, and the last error or warning is kept. */
enum { LOG_ERROR, LOG_WARNING, LOG_INFO, LOG_DEBUG };
void kernel_log(int level, const char *format, ...) __attribute__((format(printf, 2, 3)));
#define pr_err(...) kernel_log(LOG_ERROR, __VA_ARGS__)
#define pr_warn(...) kernel_log(LOG_WARNING, __VA_ARGS__)
#define pr_debug(...) kernel_log(LOG_DEBUG, __VA_ARGS__)
#define dev_err(dev, ...) ((void)(dev), kernel_log(LOG_ERROR, __VA_ARGS__))
#define dev_warn(dev, ...) ((void)(dev), kernel_log(LOG_WARNING, __VA_ARGS__))
#define dev_warn_once dev_warn
#define dev_info(dev, ...) ((void)(dev), kernel_log(LOG_INFO, __VA_ARGS__))
#define dev_dbg(dev, ...) ((void)(dev), kernel_log(LOG_DEBUG, __VA_ARGS__))
bool kernel_warn(bool condition, const char *text);
#define WARN_ON(condition) kernel_warn(!!(condition), #condition)
#define WARN_ON_ONCE(condition) WARN_ON(condition)
#define WARN_ONCE(condition, ...) WARN_ON(condition)

/* Trace points lead nowhere. */
#define trace_scmi_msg_dump(...) ((void)0)
#define trace_scmi_rx_done(...) ((void)0)
#define trace_scmi_xfer_begin(...) ((void)0)
#define trace_scmi_xfer_end(...) ((void)0)
#define trace_scmi_xfer_response_wait(...) ((void)0)

/* Locks and counts. */
typedef struct { int unused; } spinlock_t;
struct mutex { int unused; };
#define DEFINE_MUTEX(name) struct mutex name
#define DEFINE_SPINLOCK(name) spinlock_t name
#define mutex_init(lock) ((void)(lock))
#define mutex_lock(lock) ((void)(lock))
#define mutex_unlock(lock) ((void)(lock))
#define spin_lock_init(lock) ((void)(lock))
#define spin_lock(lock) ((void)(lock))
#define spin_unlock(lock) ((void)(lock))
#define spin_lock_irqsave(lock, flags) ((void)(lock), (flags) = 0)
#define spin_unlock_irqrestore(lock, flags) ((void)(lock), (void)(flags))
#define spin_until_cond(condition) do { } while (!(condition))
typedef struct { int value; } atomic_t;
typedef struct { int value; } refcount_t;
#define atomic_set(a, v) ((a)->value = (v))
#define atomic_add(n, a) ((a)->value += (n))
#define atomic_dec(a) ((a)->value--)
#define atomic_inc_return(a) (++(a)->value)
static inline int atomic_cmpxchg(atomic_t *a, int old, int new)
{
	int was = a->value;

	if (was == old)
		a->value = new;
	return was;
}
#define refcount_set(r, v) ((r)->value = (v))
#define refcount_inc(r) ((r)->value++)
#define refcount_read(r) ((r)->value)
#define refcount_dec_and_test(r) (--(r)->value == 0)

/* Time passes by a millisecond whenever it is read, so a wait that nothing ends does end. */
ktime_t ktime_get(void);
#define ktime_get_boottime ktime_get
#define ktime_add_ms(time, ms) ((time) + (s64)(ms))
#define ktime_after(a, b) ((a) > (b))
#define ktime_to_ns(time) (time)
#define msecs_to_jiffies(ms) (ms)

struct completion { unsigned int done; };
#define DECLARE_COMPLETION_ONSTACK(name) struct completion name = { 0 }
#define init_completion(c) ((c)->done = 0)
#define reinit_completion(c) ((c)->done = 0)
#define complete(c) ((c)->done++)
bool try_wait_for_completion(struct completion *c);
unsigned long wait_for_completion_timeout(struct completion *c, unsigned long timeout);

/* Gives the platform and queued work a turn; false where nothing was left to do. */
bool kernel_idle(void);

/* Lists. */
struct list_head { struct list_head *next, *prev; };
#define LIST_HEAD(name) struct list_head name = { &(name), &(name) }
#define INIT_LIST_HEAD(head) ((head)->next = (head)->prev = (head))
#define list_entry container_of
#define list_first_entry(head, type, member) list_entry((head)->next, type, member)
#define list_empty(head) ((head)->next == (head))
static inline void list_add(struct list_head *node, struct list_head *after)
{
	node->prev = after;
	node->next = after->next;
	after->next->prev = node;
	after->next = node;
}
#define list_add_tail(node, head) list_add(node, (head)->prev)
static inline void list_del(struct list_head *node)
{
	node->prev->next = node->next;
	node->next->prev = node->prev;
}
#define list_for_each(p, head) for (p = (head)->next; p != (head); p = p->next)
#define list_for_each_entry(p, head, member) \
	for (p = list_entry((head)->next, typeof(*p), member); &p->member != (head); \
	     p = list_entry(p->member.next, typeof(*p), member))
#define list_for_each_entry_safe(p, n, head, member) \
	for (p = list_entry((head)->next, typeof(*p), member), \
	     n = list_entry(p->member.next, typeof(*p), member); &p->member != (head); \
	     p = n, n = list_entry(n->member.next, typeof(*n), member))

/* Hash tables whose places are the key's rest. */
struct hlist_node { struct hlist_node *next, **pprev; };
struct hlist_head { struct hlist_node *first; };
#define INIT_HLIST_HEAD(head) ((head)->first = NULL)
#define hlist_empty(head) ((head)->first == NULL)
#define hlist_entry container_of
#define hlist_entry_or_null(node, type, member) ((node) ? hlist_entry(node, type, member) : NULL)
static inline void hlist_add_head(struct hlist_node *node, struct hlist_head *head)
{
	node->next = head->first;
	if (node->next)
		node->next->pprev = &node->next;
	head->first = node;
	node->pprev = &head->first;
}
static inline void hlist_del_init(struct hlist_node *node)
{
	if (!node->pprev)
		return;
	*node->pprev = node->next;
	if (node->next)
		node->next->pprev = node->pprev;
	node->next = NULL;
	node->pprev = NULL;
}
#define DECLARE_HASHTABLE(name, bits) struct hlist_head name[1 << (bits)]
#define hash_init(table) memset(table, 0, sizeof(table))
#define hash_head(table, key) (&(table)[(key) % ARRAY_SIZE(table)])
#define hash_add(table, node, key) hlist_add_head(node, hash_head(table, key))
#define hash_del hlist_del_init
#define hash_for_each_possible(table, object, member, key) \
	for (object = hlist_entry_or_null(hash_head(table, key)->first, typeof(*object), member); object; \
	     object = hlist_entry_or_null(object->member.next, typeof(*object), member))
#define hash_for_each_safe(table, bucket, following, object, member) \
	for (bucket = 0; bucket < (int)ARRAY_SIZE(table); bucket++) \
		for (object = hlist_entry_or_null((table)[bucket].first, typeof(*object), member); \
		     object && ((following = object->member.next), 1); \
		     object = hlist_entry_or_null(following, typeof(*object), member))

/* Numbers of things: SCMI's are protocol numbers, which are bytes. */
#define IDR_PLACES 256
struct idr { void *place[IDR_PLACES]; };
#define DEFINE_IDR(name) struct idr name
#define idr_init(table) memset(table, 0, sizeof(*(table)))
#define idr_destroy idr_init
int idr_alloc(struct idr *idr, void *p, int start, int end, gfp_t gfp);
void *idr_find(const struct idr *idr, unsigned long id);
void idr_remove(struct idr *idr, unsigned long id);
bool idr_is_empty(const struct idr *idr);
int idr_for_each(const struct idr *idr, int (*visit)(int id, void *p, void *data), void *data);
void *idr_next(const struct idr *idr, unsigned int *id);
#define idr_for_each_entry(idr, entry, id) \
	for (id = 0; ((entry) = idr_next(idr, &(id))) != NULL; id++)
struct ida { int last; };
#define DEFINE_IDA(name) struct ida name
#define ida_alloc_min(ida, least, gfp) (++(ida)->last)
#define ida_free(ida, id) ((void)(ida))
#define ida_destroy(ida) ((void)(ida))

/* Memory. */
#define kzalloc(size, gfp) calloc(1, size)
#define kfree(p) free(p)
#define kstrdup_const(text, gfp) strdup(text)
#define kfree_const(text) free((void *)(text))
#define devm_kzalloc(dev, size, gfp) calloc(1, size)
#define devm_kcalloc(dev, count, size, gfp) calloc((count) ? (count) : 1, size)
#define devm_kfree(dev, p) free(p)
#define devm_ioremap(dev, start, size) ((void *)(start))
#define devm_add_action_or_reset(dev, action, data) ((void)(action), (void)(data), 0)
#define devres_open_group(dev, id, gfp) ((void *)(dev))
#define devres_close_group(dev, id) ((void)(id))
#define devres_release_group(dev, id) ((void)(id))
#define devres_alloc(release, size, gfp) ((void)(release), calloc(1, size))
#define devres_add(dev, resource) ((void)(resource))
#define devres_free(resource) free(resource)
#define devres_release(dev, release, match, data) ((void)(match), (void)(data), 0)

/* Queues of bytes. */
struct kfifo { u8 *bytes; unsigned int size, in, out; };
int kfifo_alloc(struct kfifo *fifo, unsigned int size, gfp_t gfp);
void kfifo_free(struct kfifo *fifo);
unsigned int kfifo_in(struct kfifo *fifo, const void *from, unsigned int count);
unsigned int kfifo_out(struct kfifo *fifo, void *to, unsigned int count);
#define kfifo_size(fifo) ((fifo)->size)
#define kfifo_avail(fifo) ((fifo)->size - ((fifo)->in - (fifo)->out))
#define kfifo_reset_out(fifo) ((fifo)->out = (fifo)->in)

/* Work for later: it is done when the agent waits. */
struct work_struct { void (*function)(struct work_struct *work); bool queued; struct work_struct *next; };
struct workqueue_struct { int unused; };
#define WQ_UNBOUND 0
#define WQ_FREEZABLE 0
#define WQ_SYSFS 0
#define INIT_WORK(work, f) (*(work) = (struct work_struct){ .function = (f) })
#define alloc_workqueue(name, flags, active) ((struct workqueue_struct *)calloc(1, sizeof(struct workqueue_struct)))
#define destroy_workqueue(queue) free(queue)
#define cancel_work_sync(work) ((void)(work))
bool schedule_work(struct work_struct *work);
#define queue_work(queue, work) schedule_work(work)
bool kernel_run_work(void);

/* Who wants to be told of an event. */
struct notifier_block {
	int (*notifier_call)(struct notifier_block *block, unsigned long event, void *data);
	struct notifier_block *next;
	int priority;
};
struct blocking_notifier_head { struct notifier_block *first; };
#define BLOCKING_INIT_NOTIFIER_HEAD(head) ((head)->first = NULL)
#define NOTIFY_OK 1
#define NOTIFY_STOP_MASK 0x8000
int blocking_notifier_chain_register(struct blocking_notifier_head *head, struct notifier_block *block);
int blocking_notifier_chain_unregister(struct blocking_notifier_head *head, struct notifier_block *block);
int blocking_notifier_call_chain(struct blocking_notifier_head *head, unsigned long event, void *data);

/* Devices, drivers and buses. */
struct device_node;
struct attribute { const char *name; };
struct attribute_group { struct attribute **attrs; };
struct device;
struct device_driver;
struct bus_type {
	const char *name;
	int (*match)(struct device *dev, struct device_driver *driver);
	int (*probe)(struct device *dev);
	void (*remove)(struct device *dev);
};
struct of_device_id { const char *compatible; const void *data; };
struct device_driver {
	const char *name, *mod_name;
	struct bus_type *bus;
	struct module *owner;
	bool suppress_bind_attrs;
	const struct of_device_id *of_match_table;
	const struct attribute_group **dev_groups;
};
struct device {
	struct device *parent, *next;
	struct device_node *of_node;
	struct bus_type *bus;
	struct device_driver *driver;
	void (*release)(struct device *dev);
	void *data;
	char name[32];
};
struct device_attribute {
	struct attribute attr;
	ssize_t (*show)(struct device *dev, struct device_attribute *attribute, char *text);
};
#define DEVICE_ATTR_RO(entry) \
	struct device_attribute dev_attr_##entry = { { #entry }, entry##_show }
#define ATTRIBUTE_GROUPS(entry) \
	const struct attribute_group entry##_group = { entry##_attrs }; \
	const struct attribute_group *entry##_groups[] = { &entry##_group, NULL }
#define dev_name(dev) ((dev)->name)
#define dev_set_name(dev, ...) snprintf((dev)->name, sizeof((dev)->name), __VA_ARGS__)
#define dev_get_drvdata(dev) ((dev)->data)
#define put_device(dev) ((void)(dev))
int device_register(struct device *dev);
void device_unregister(struct device *dev);
struct device *device_find_child(struct device *parent, void *data, int (*match)(struct device *dev, void *data));
#define bus_register(bus) ((void)(bus), 0)
#define bus_unregister(bus) ((void)(bus))
#define bus_for_each_dev(bus, start, data, visit) ((void)(visit))
int driver_register(struct device_driver *driver);
#define driver_unregister(driver) ((void)(driver))
struct device_link { int unused; };
#define DL_FLAG_AUTOREMOVE_CONSUMER 0
#define device_link_add(consumer, supplier, flags) ((void)(supplier), (struct device_link *)(consumer))
struct platform_device { struct device dev; };
struct platform_driver {
	int (*probe)(struct platform_device *device);
	int (*remove)(struct platform_device *device);
	struct device_driver driver;
};
#define platform_set_drvdata(device, p) ((device)->dev.data = (p))
#define platform_get_drvdata(device) ((device)->dev.data)
int platform_driver_register(struct platform_driver *driver);
#define platform_driver_unregister(driver) ((void)(driver))

/* The device tree: an SCMI node with a mailbox and an area each way, and a node for each protocol. */
struct device_node {
	const char *name, *compatible;
	int reg; /* below 0 where there is none */
	struct device_node *child, *sibling;
	unsigned int mailboxes, areas;
	struct device_node *area[2];
	void *memory;
	size_t bytes;
};
struct resource { resource_size_t start, end; };
#define resource_size(r) ((r)->end - (r)->start + 1)
#define of_node_get(node) (node)
#define of_node_put(node) ((void)(node))
#define of_node_full_name(node) ((node)->name)
#define for_each_available_child_of_node(node, c) for (c = (node)->child; c; c = c->sibling)
int of_property_read_u32(const struct device_node *node, const char *property, u32 *value);
int of_count_phandle_with_args(const struct device_node *node, const char *list, const char *cells);
int of_parse_phandle_with_args(const struct device_node *node, const char *list, const char *cells, int index, void *out);
struct device_node *of_parse_phandle(const struct device_node *node, const char *list, int index);
int of_device_is_compatible(const struct device_node *node, const char *compatible);
int of_address_to_resource(const struct device_node *node, int index, struct resource *resource);
const void *of_device_get_match_data(const struct device *dev);

/* Mailboxes: 0 to the platform, 1 from it. */
struct mbox_client {
	struct device *dev;
	bool tx_block, knows_txdone;
	void (*rx_callback)(struct mbox_client *client, void *message);
	void (*tx_prepare)(struct mbox_client *client, void *message);
};
struct mbox_chan { struct mbox_client *client; };
struct mbox_chan *mbox_request_channel(struct mbox_client *client, int index);
#define mbox_free_channel(channel) ((channel)->client = NULL)
#define mbox_client_txdone(channel, result) ((void)(result))
int mbox_send_message(struct mbox_chan *channel, void *message);

/* What the harness calls. */
extern int kernel_log_level;
extern unsigned int kernel_complaints; /* errors and warnings in the log */
const char *kernel_last_complaint(void);
void kernel_forget_complaint(void);
int kernel_initcall(void);
int kernel_probe(struct platform_device *device);
void mailbox_interrupt(int index);
/* What the harness supplies: the bell that tells the platform of a message in the area. */
void mailbox_doorbell(void);
#endif
