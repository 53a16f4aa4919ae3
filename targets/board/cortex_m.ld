/* The boards mps2-an385 and mps2-an386: code and constants at 0, the stack in the first memory, everything else in the second. */
MEMORY { ROM : ORIGIN = 0, LENGTH = 4M  RAM : ORIGIN = 0x20000000, LENGTH = 4M  MORE : ORIGIN = 0x21000000, LENGTH = 16M }
PROVIDE(stack_top = 0x20400000);
SECTIONS {
    .text : { KEEP(*(.vectors)) *(.text .text.*) *(.rodata .rodata.*) } > ROM
    .ARM.exidx : { *(.ARM.exidx*) } > ROM
    .bss : { . = ALIGN(8); bss_start = .; *(.bss .bss.* COMMON) . = ALIGN(8); bss_end = .; } > MORE
    .data : { *(.data .data.* .sdata .sdata.*) } > MORE
}
ASSERT(SIZEOF(.data) == 0, "nothing copies what is not zero at first")
