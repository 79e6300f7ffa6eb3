/*
 * uint32_t scmi_service_on_stack(unsigned int agent, uintptr_t top, uint32_t (*call)(unsigned int))
 *
 * Makes the call on the stack that ends below `top`, which is aligned to 16 bytes, and gives what it gave.
 */
#include <asm_macros.S>

	.global	scmi_service_on_stack

func scmi_service_on_stack
	stp	x29, x30, [sp, #-16]!
	mov	x29, sp
	mov	sp, x1
	blr	x2
	mov	sp, x29
	ldp	x29, x30, [sp], #16
	ret
endfunc scmi_service_on_stack
