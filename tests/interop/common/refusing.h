/* In place of calls of the library, by the linker: -Wl,--wrap=rattle_alloc -Wl,--wrap=scmi_version. */
#ifndef REFUSING_H
#define REFUSING_H

#include <stdbool.h>

/* How many requests for memory are still served, and whether the library says that it has another version. */
extern unsigned int requests_left;
extern bool is_other_version;

#endif
