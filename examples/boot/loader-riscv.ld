/* The loader stands at the beginning of RAM of QEMU's `virt` for RISC-V. */
ENTRY(_start)
SECTIONS
{
    . = 0x80000000;
    .text : { *(.text.start) *(.text .text.*) *(.rodata .rodata.* .srodata .srodata.*) }
    .bss ALIGN(16) (NOLOAD) : {
        bss_begin = .;
        *(.bss .bss.* .sbss .sbss.* COMMON)
        . = ALIGN(16);
        bss_end = .;
    }
    . = . + 0x8000;
    stack_end = ALIGN(16);
    /DISCARD/ : { *(.eh_frame*) *(.comment) *(.note*) }
}
