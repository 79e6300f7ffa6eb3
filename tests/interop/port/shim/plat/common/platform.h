#ifndef SHIM_PLATFORM_H
#define SHIM_PLATFORM_H
#include <platform_def.h>

unsigned int plat_my_core_pos(void);
#endif
