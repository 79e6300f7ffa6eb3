/* Memory that ends, and a library of another version than its header. */
#include "refusing.h"

#include <stddef.h>
#include <stdint.h>

/* What the library's allocator gives: two words. */
struct tried {
    bool ok;
    void *at;
};
struct tried __real_rattle_alloc(size_t bytes, size_t alignment);
struct tried __wrap_rattle_alloc(size_t bytes, size_t alignment);
uint32_t __real_scmi_version(void);
uint32_t __wrap_scmi_version(void);

unsigned int requests_left = UINT32_MAX;
bool is_other_version;

struct tried __wrap_rattle_alloc(size_t bytes, size_t alignment)
{
    if (requests_left == 0)
        return (struct tried){ false, NULL };
    requests_left--;
    return __real_rattle_alloc(bytes, alignment);
}

uint32_t __wrap_scmi_version(void)
{
    return is_other_version ? 0 : __real_scmi_version();
}
