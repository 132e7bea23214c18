/* The loader's code stands in the flash of mps2-an385 at address 0, and its data in memory from 0x20000000 on. */
ENTRY(_start)
SECTIONS
{
    . = 0;
    .text : { *(.text.start) *(.text .text.*) *(.rodata .rodata.*) }
    . = 0x20000000;
    .bss (NOLOAD) : {
        bss_begin = .;
        *(.bss .bss.* COMMON)
        . = ALIGN(16);
        bss_end = .;
    }
    . = . + 0x8000;
    stack_end = ALIGN(16);
    /DISCARD/ : { *(.eh_frame*) *(.ARM.exidx*) *(.comment) *(.note*) }
}
