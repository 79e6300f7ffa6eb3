/* Where TF-A starts the kernel. What is written to stands in the image too. */
SECTIONS
{
    . = 0x40400000;
    .image : { *(.text.start) *(.text*) *(.rodata*) *(.data*) *(.bss*) *(COMMON) }
    /DISCARD/ : { *(.comment) *(.note*) *(.eh_frame*) }
}
