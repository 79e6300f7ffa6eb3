#ifndef SHIM_DELAY_TIMER_H
#define SHIM_DELAY_TIMER_H
static inline void udelay(unsigned int microseconds) { (void)microseconds; }
#endif
