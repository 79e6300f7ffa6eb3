/* The parts of host_kernel.h that are more than a line. */
#include "host_kernel.h"

int kernel_log_level = LOG_INFO;
unsigned int kernel_complaints;
static char last_complaint[256];

void kernel_log(int level, const char *format, ...)
{
	char text[sizeof(last_complaint)];
	va_list arguments;

	va_start(arguments, format);
	vsnprintf(text, sizeof(text), format, arguments);
	va_end(arguments);
	text[strcspn(text, "\n")] = 0;
	if (level <= LOG_WARNING) {
		kernel_complaints++;
		memcpy(last_complaint, text, sizeof(text));
	}
	if (level <= kernel_log_level)
		printf("      Linux says: %s\n", text);
}

const char *kernel_last_complaint(void) { return last_complaint; }
void kernel_forget_complaint(void) { last_complaint[0] = 0; }

bool kernel_warn(bool condition, const char *text)
{
	if (condition)
		kernel_log(LOG_ERROR, "WARNING: %s", text);
	return condition;
}

ssize_t strscpy(char *to, const void *from, size_t size)
{
	size_t length = strnlen(from, size - 1);

	memcpy(to, from, length);
	to[length] = 0;
	return (ssize_t)length;
}

void sort(void *base, size_t count, size_t size, int (*compare)(const void *, const void *), void *swap)
{
	(void)swap;
	qsort(base, count, size, compare);
}

unsigned long find_next_zero_bit(const unsigned long *map, unsigned long bits, unsigned long from)
{
	while (from < bits && test_bit(from, map))
		from++;
	return from;
}

ktime_t ktime_get(void)
{
	static ktime_t now;

	return ++now;
}

bool try_wait_for_completion(struct completion *c)
{
	if (!c->done)
		return false;
	c->done--;
	return true;
}

unsigned long wait_for_completion_timeout(struct completion *c, unsigned long timeout)
{
	(void)timeout;
	while (!c->done)
		if (!kernel_idle())
			return 0;
	c->done--;
	return 1;
}

int idr_alloc(struct idr *idr, void *p, int start, int end, gfp_t gfp)
{
	(void)gfp;
	for (int id = start; id < end && id < IDR_PLACES; id++) {
		if (!idr->place[id]) {
			idr->place[id] = p;
			return id;
		}
	}
	return -ENOSPC;
}

void *idr_find(const struct idr *idr, unsigned long id) { return id < IDR_PLACES ? idr->place[id] : NULL; }
void idr_remove(struct idr *idr, unsigned long id) { idr->place[id] = NULL; }

void *idr_next(const struct idr *idr, unsigned int *id)
{
	while (*id < IDR_PLACES && !idr->place[*id])
		++*id;
	return *id < IDR_PLACES ? idr->place[*id] : NULL;
}

bool idr_is_empty(const struct idr *idr)
{
	unsigned int id = 0;

	return idr_next(idr, &id) == NULL;
}

int idr_for_each(const struct idr *idr, int (*visit)(int id, void *p, void *data), void *data)
{
	unsigned int id;
	void *p;

	idr_for_each_entry(idr, p, id) {
		int result = visit((int)id, p, data);

		if (result)
			return result;
	}
	return 0;
}

int kfifo_alloc(struct kfifo *fifo, unsigned int size, gfp_t gfp)
{
	(void)gfp;
	*fifo = (struct kfifo){ .bytes = malloc(size), .size = size };
	return fifo->bytes ? 0 : -ENOMEM;
}

void kfifo_free(struct kfifo *fifo) { free(fifo->bytes); }

unsigned int kfifo_in(struct kfifo *fifo, const void *from, unsigned int count)
{
	unsigned int i;

	for (i = 0; i < count && kfifo_avail(fifo); i++)
		fifo->bytes[fifo->in++ % fifo->size] = ((const u8 *)from)[i];
	return i;
}

unsigned int kfifo_out(struct kfifo *fifo, void *to, unsigned int count)
{
	unsigned int i;

	for (i = 0; i < count && fifo->out != fifo->in; i++)
		((u8 *)to)[i] = fifo->bytes[fifo->out++ % fifo->size];
	return i;
}

static struct work_struct *work_to_do;

bool schedule_work(struct work_struct *work)
{
	if (work->queued)
		return false;
	work->queued = true;
	work->next = work_to_do;
	work_to_do = work;
	return true;
}

bool kernel_run_work(void)
{
	struct work_struct *work = work_to_do;

	if (!work)
		return false;
	work_to_do = work->next;
	/* Before the call, since the work may be queued again while it runs. */
	work->queued = false;
	work->function(work);
	return true;
}

int blocking_notifier_chain_register(struct blocking_notifier_head *head, struct notifier_block *block)
{
	block->next = head->first;
	head->first = block;
	return 0;
}

int blocking_notifier_chain_unregister(struct blocking_notifier_head *head, struct notifier_block *block)
{
	struct notifier_block **place = &head->first;

	while (*place && *place != block)
		place = &(*place)->next;
	if (!*place)
		return -ENOENT;
	*place = block->next;
	return 0;
}

int blocking_notifier_call_chain(struct blocking_notifier_head *head, unsigned long event, void *data)
{
	int result = 0;

	for (struct notifier_block *block = head->first; block; block = block->next)
		result = block->notifier_call(block, event, data);
	return result;
}

static struct device *devices;
static struct device_driver *drivers[8];

static void try_to_bind(struct device *dev, struct device_driver *driver)
{
	if (dev->driver || dev->bus != driver->bus || !dev->bus || !dev->bus->match(dev, driver))
		return;
	dev->driver = driver;
	if (dev->bus->probe(dev))
		dev->driver = NULL;
}

int device_register(struct device *dev)
{
	dev->next = devices;
	devices = dev;
	for (size_t i = 0; i < ARRAY_SIZE(drivers) && drivers[i]; i++)
		try_to_bind(dev, drivers[i]);
	return 0;
}

void device_unregister(struct device *dev)
{
	struct device **place = &devices;

	while (*place && *place != dev)
		place = &(*place)->next;
	if (*place)
		*place = dev->next;
	dev->release(dev);
}

struct device *device_find_child(struct device *parent, void *data, int (*match)(struct device *dev, void *data))
{
	for (struct device *dev = devices; dev; dev = dev->next)
		if (dev->parent == parent && match(dev, data))
			return dev;
	return NULL;
}

int driver_register(struct device_driver *driver)
{
	size_t i = 0;

	while (i < ARRAY_SIZE(drivers) && drivers[i])
		i++;
	if (i == ARRAY_SIZE(drivers))
		return -ENOSPC;
	drivers[i] = driver;
	for (struct device *dev = devices; dev; dev = dev->next)
		try_to_bind(dev, driver);
	return 0;
}

static struct platform_driver *platform_driver;

int platform_driver_register(struct platform_driver *driver)
{
	platform_driver = driver;
	return 0;
}

int kernel_probe(struct platform_device *device)
{
	device->dev.driver = &platform_driver->driver;
	return platform_driver->probe(device);
}

int of_property_read_u32(const struct device_node *node, const char *property, u32 *value)
{
	if (strcmp(property, "reg") || node->reg < 0)
		return -EINVAL;
	*value = (u32)node->reg;
	return 0;
}

int of_count_phandle_with_args(const struct device_node *node, const char *list, const char *cells)
{
	(void)cells;
	return (int)(strcmp(list, "mboxes") ? node->areas : node->mailboxes);
}

int of_parse_phandle_with_args(const struct device_node *node, const char *list, const char *cells, int index, void *out)
{
	(void)out;
	return index < of_count_phandle_with_args(node, list, cells) ? 0 : -ENOENT;
}

struct device_node *of_parse_phandle(const struct device_node *node, const char *list, int index)
{
	return strcmp(list, "shmem") || index >= (int)node->areas ? NULL : node->area[index];
}

int of_device_is_compatible(const struct device_node *node, const char *compatible)
{
	return node && node->compatible && !strcmp(node->compatible, compatible);
}

int of_address_to_resource(const struct device_node *node, int index, struct resource *resource)
{
	(void)index;
	resource->start = (resource_size_t)node->memory;
	resource->end = resource->start + node->bytes - 1;
	return 0;
}

const void *of_device_get_match_data(const struct device *dev)
{
	for (const struct of_device_id *id = dev->driver->of_match_table; id->compatible; id++)
		if (of_device_is_compatible(dev->of_node, id->compatible))
			return id->data;
	return NULL;
}

static struct mbox_chan mailboxes[2];

struct mbox_chan *mbox_request_channel(struct mbox_client *client, int index)
{
	mailboxes[index].client = client;
	return &mailboxes[index];
}

int mbox_send_message(struct mbox_chan *channel, void *message)
{
	channel->client->tx_prepare(channel->client, message);
	mailbox_doorbell();
	return 0;
}

void mailbox_interrupt(int index) { mailboxes[index].client->rx_callback(mailboxes[index].client, NULL); }

/* The protocols that are no part of this platform: the driver starts them all. */
#define NO_PROTOCOL(name) \
	int scmi_##name##_register(void); \
	int scmi_##name##_register(void) { return 0; } \
	void scmi_##name##_unregister(void); \
	void scmi_##name##_unregister(void) { }
NO_PROTOCOL(perf)
NO_PROTOCOL(reset)
NO_PROTOCOL(sensors)
NO_PROTOCOL(voltage)
NO_PROTOCOL(system)
NO_PROTOCOL(powercap)
