/*
 * TF-A starts this image in the place of the kernel. It starts the processors that Linux does not have, where the
 * machine has them, and then the kernel behind it on this one, with what TF-A gave: the device tree is in x0.
 */
#define CPU_ON 0xc4000003
#define FIRST 2
#define END 4
#define KERNEL 0x40600000
#define STACK 0x1000

        .section .text.start, "ax"
        .global start
start:
        mov     x19, x0
        mov     x20, #FIRST
1:      ldr     x0, =CPU_ON
        mov     x1, x20
        adr     x2, work
        mov     x3, x20
        smc     #0
        add     x20, x20, #1
        cmp     x20, #END
        b.ne    1b
        mov     x0, x19
        mov     x1, xzr
        mov     x2, xzr
        mov     x3, xzr
        ldr     x4, =KERNEL
        br      x4

/* A processor begins here, with its number in x0, at EL1 and without an MMU. */
work:
        adr     x1, stacks
        sub     x2, x0, #FIRST - 1
        mov     x3, #STACK
        madd    x1, x2, x3, x1
        mov     sp, x1
        bl      serve
2:      wfi
        b       2b

        .balign 16
stacks: .space  STACK * (END - FIRST)
