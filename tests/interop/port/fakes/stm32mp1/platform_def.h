/* What ST's file takes of its platform. */
#ifndef PLATFORM_DEF_H
#define PLATFORM_DEF_H
#include <stdbool.h>
#include <string.h>

#include <lib/cassert.h>
#include <lib/utils_def.h>

#define PLATFORM_CORE_COUNT 2
#define STM32MP_SCMI_NS_SHM_BASE 0x2fff0000
#define STM32MP_SCMI_NS_SHM_SIZE 0x1000

bool stm32mp_nsec_can_access_clock(unsigned long id);
bool stm32mp_nsec_can_access_reset(unsigned int id);
#endif
