/* The board of board.txt behind the calls that TF-A's server makes to its platform. */
#ifndef INTEROP_TFA_BOARD_H
#define INTEROP_TFA_BOARD_H
#include <stdint.h>

/* As it starts: each domain and clock as the board says, and the channel free. */
void board_reset(void);
/* The area of the agent that is played. */
uint8_t *board_area(void);
#endif
