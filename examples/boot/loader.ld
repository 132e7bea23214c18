/* The loader stands at the beginning of RAM of QEMU's `virt`. */
ENTRY(_start)
SECTIONS
{
    . = 0x40080000;
    .text : { *(.text.start) *(.text .text.*) }
    .rodata ALIGN(4096) : { *(.rodata .rodata.*) }
    .data ALIGN(4096) : { *(.data .data.*) }
    .bss ALIGN(16) : {
        bss_begin = .;
        *(.bss .bss.* COMMON)
        . = ALIGN(16);
        bss_end = .;
    }
    . = . + 0x8000;
    stack_end = ALIGN(16);
    /DISCARD/ : { *(.eh_frame*) *(.comment) *(.note*) }
}
